// Which containers have a view, and which answers: those that stay, and no temporary one. The
// compiler shows it; there is nothing to run.
#include "blossom.hpp"

namespace {

using Counts = std::vector<std::uint32_t>;
using Pair = std::array<std::uint32_t, 2>;
using View = blossom::View<std::uint32_t>;
using blossom::Answer;
using blossom::Joins;

static_assert(std::is_convertible_v<Counts &, View>);
static_assert(std::is_convertible_v<const Counts &, View>);
static_assert(!std::is_convertible_v<Counts, View>);
static_assert(!std::is_convertible_v<const Counts, View>);
static_assert(!std::is_constructible_v<View, Counts>);
static_assert(!std::is_constructible_v<View, const Counts>);
static_assert(!std::is_assignable_v<View &, Counts>);
static_assert(std::is_assignable_v<View &, const Counts &>);
static_assert(std::is_convertible_v<const Pair &, View>);
static_assert(!std::is_convertible_v<Pair, View>);
static_assert(!std::is_constructible_v<View, const Pair>);
static_assert(std::is_convertible_v<const std::uint32_t (&)[2], View>);
static_assert(std::is_convertible_v<std::uint32_t (&)[2], View>);
static_assert(!std::is_convertible_v<std::uint32_t[2], View>);
static_assert(std::is_constructible_v<View, const std::uint32_t *, std::size_t>);
static_assert(!std::is_constructible_v<View, std::nullptr_t, std::size_t>);
#if __cplusplus >= 202002L
static_assert(std::is_convertible_v<std::span<const std::uint32_t>, View>);
static_assert(std::is_convertible_v<std::span<std::uint32_t>, View>);
static_assert(std::is_convertible_v<std::span<std::uint32_t, 2>, View>);
static_assert(!std::is_convertible_v<std::span<std::int64_t>, View>);
#endif

// Whether a view can be made of these numbers in braces.
template <class Of, class = void> struct TakesBraces : std::false_type {};
template <class Of>
struct TakesBraces<Of, std::void_t<decltype(View{{std::declval<Of>(), std::declval<Of>()}})>>
    : std::true_type {};
static_assert(!TakesBraces<int>::value);
static_assert(!TakesBraces<std::uint32_t>::value);

// Whether a part can be asked of an answer of this type.
#define ASKED(name, whole, call)                                                                   \
    template <class Of, class = void> struct name : std::false_type {};                            \
    template <class Of>                                                                            \
    struct name<Of, std::void_t<decltype(std::declval<Of>().call)>> : std::true_type {};           \
    static_assert(name<const whole &>::value && name<whole &>::value);                             \
    static_assert(!name<whole>::value && !name<const whole>::value);
ASKED(Numbers, Answer, numbers())
ASKED(Solution, Answer, solution())
ASKED(Duals, Answer, duals())
ASKED(SetMembers, Answer, set_members(0))
ASKED(PathStarts, Answer, path_starts())
ASKED(PathEdges, Answer, path_edges(0))
ASKED(Obstruction, Answer, obstruction())
ASKED(JoinNumbers, Joins, numbers())
ASKED(JoinEdges, Joins, edges(0))

} // namespace

int main() {}
