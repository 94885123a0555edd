/**
 * @file
 * blossom for C++17 and later: an instance as vectors, spans or pointers, an answer that owns its
 * numbers, and exceptions.
 *
 *     const std::vector<std::uint32_t> from{1, 2}, to{2, 3};
 *     const std::vector<std::int64_t> weights{4, 5};
 *     const blossom::Instance instance{BLOSSOM_MATCH, 3, from, to, weights};
 *     const blossom::Answer answer = blossom::solve(instance); // answer.weight(), ..
 *
 * blossom.h defines what the numbers mean and what is proved. Edges and vertices count from 1.
 */
#ifndef BLOSSOM_HPP
#define BLOSSOM_HPP

#include "blossom.h"

#include <array>
#include <cstddef>
#include <cstdint>
#include <new>
#include <stdexcept>
#include <string>
#include <type_traits>
#include <utility>
#include <vector>
#if __cplusplus >= 202002L
#include <span>
#endif

namespace blossom {

/**
 * Numbers that lie one after another and belong to somebody else, like `std::span<const T>`.
 * A temporary container has no view: its numbers would be gone before they are read.
 */
template <class T> class View {
public:
    View() = default;
    View(const T *data, std::size_t size) : first_(data), size_(size) {}
    View(std::nullptr_t, std::size_t) = delete;
    template <class A>
    View(const std::vector<T, A> &numbers) : View(numbers.data(), numbers.size()) {}
    template <class A> View(const std::vector<T, A> &&) = delete;
    template <std::size_t N> View(const std::array<T, N> &numbers) : View(numbers.data(), N) {}
    template <std::size_t N> View(const std::array<T, N> &&) = delete;
    template <class S, std::size_t N, class = std::enable_if_t<std::is_same_v<const S, const T>>>
    View(S (&numbers)[N]) : View(numbers, N) {}
#if __cplusplus >= 202002L
    template <class S, std::size_t N,
              class = std::enable_if_t<std::is_convertible_v<S *, const T *>>>
    View(std::span<S, N> numbers) : View(numbers.data(), numbers.size()) {}
#endif
    const T *data() const { return first_; }
    std::size_t size() const { return size_; }
    bool empty() const { return size_ == 0; }
    const T *begin() const { return first_; }
    const T *end() const { return first_ + size_; }
    const T &operator[](std::size_t index) const { return first_[index]; }

private:
    const T *first_ = nullptr;
    std::size_t size_ = 0;
};

/**
 * An instance, whose arrays belong to the caller. Without weights each edge weighs 1. Without
 * capacities, and at a capacity of -1, an edge is unlimited. Without values each vertex has the
 * default of the kind. For BLOSSOM_INTERVAL the values are the lower and the upper bound of each
 * vertex in turn.
 */
struct Instance {
    blossom_kind kind;
    std::uint32_t vertices;
    View<std::uint32_t> from, to;
    View<std::int64_t> weights = {}, capacities = {};
    View<std::uint32_t> values = {};
};

/**
 * The arrays break a rule of instances: which, and at which edge or vertex, from 1, or 0; or for
 * BLOSSOM_STARTS at which start, from 0.
 */
struct Malformed : std::invalid_argument {
    Malformed(blossom_input_error broken, std::uint32_t at)
        : std::invalid_argument("blossom: malformed arrays: " + said(broken) +
                                (at ? " at index " + std::to_string(at) : "")),
          rule(broken), index(at) {}
    blossom_input_error rule;
    std::uint32_t index;

private:
    static std::string said(blossom_input_error broken) {
        return std::string(blossom_rule_text(BLOSSOM_MALFORMED, broken)) + " (rule " +
               std::to_string(static_cast<int>(broken)) + ")";
    }
};

/** The certificate graph, of so many vertices and edges, exceeds a limit. */
struct TooLarge : std::length_error {
    TooLarge(std::int64_t of_vertices, std::int64_t of_edges)
        : std::length_error("blossom: too large: the certificate graph has " +
                            std::to_string(of_vertices) + " vertices and " +
                            std::to_string(of_edges) + " edges, the limits are 16384 and 1048576"),
          vertices(of_vertices), edges(of_edges) {}
    std::int64_t vertices, edges;
};

/** The answer does not prove what it states: the first rule that it breaks. */
struct Rejected : std::runtime_error {
    explicit Rejected(blossom_violation broken)
        : std::runtime_error(std::string("blossom: rejected: ") +
                             blossom_rule_text(BLOSSOM_REJECTED, broken) + " (rule " +
                             std::to_string(static_cast<int>(broken)) + ")"),
          rule(broken) {}
    blossom_violation rule;
};

/**
 * An optimal solution, or the statement that none exists, with its certificate unless it was solved
 * without. Its views are those of its own numbers, so a temporary answer has none.
 */
class Answer {
public:
    /** @throws std::invalid_argument if the numbers do not have the layout of an answer */
    Answer(blossom_kind kind, std::vector<std::int64_t> numbers)
        : kind_(kind), numbers_(std::move(numbers)) {
        if (!has_layout()) {
            throw std::invalid_argument("blossom: these " + std::to_string(numbers_.size()) +
                                        " numbers do not have the layout of an answer");
        }
    }
    blossom_kind kind() const { return kind_; }
    blossom_outcome outcome() const { return static_cast<blossom_outcome>(head(0)); }
    std::int64_t weight() const { return head(1); }
    std::uint32_t start() const { return static_cast<std::uint32_t>(head(2)); }
    View<std::int64_t> numbers() const & { return {numbers_.data(), numbers_.size()}; }
    /** The count of each edge; for walks the edges in order. */
    View<std::int64_t> solution() const & { return part(BLOSSOM_PART_SOLUTION); }
    /** Doubled duals of the vertices of the certificate graph. */
    View<std::int64_t> duals() const & { return part(BLOSSOM_PART_DUALS); }
    std::size_t sets() const { return part(BLOSSOM_PART_SET_DUALS).size(); }
    std::int64_t set_dual(std::size_t set) const { return part(BLOSSOM_PART_SET_DUALS)[set]; }
    View<std::int64_t> set_members(std::size_t set) const & {
        return between(BLOSSOM_PART_SET_OFFSETS, BLOSSOM_PART_SET_MEMBERS, set);
    }
    /** For BLOSSOM_GALLAI: the vertices at which the paths start, ascending, which are D(G). */
    View<std::int64_t> path_starts() const & { return part(BLOSSOM_PART_PATH_STARTS); }
    /** The edges of such a path, in order. */
    View<std::int64_t> path_edges(std::size_t path) const & {
        return between(BLOSSOM_PART_PATH_OFFSETS, BLOSSOM_PART_PATH_EDGES, path);
    }
    /** The barrier or closed vertex set that excludes all solutions; the barrier of an optimal
     * solution of BLOSSOM_BOTTLENECK; A(G) for BLOSSOM_GALLAI. */
    View<std::int64_t> obstruction() const & { return part(BLOSSOM_PART_OBSTRUCTION); }

    View<std::int64_t> numbers() const && = delete;
    View<std::int64_t> solution() const && = delete;
    View<std::int64_t> duals() const && = delete;
    View<std::int64_t> set_members(std::size_t) const && = delete;
    View<std::int64_t> path_starts() const && = delete;
    View<std::int64_t> path_edges(std::size_t) const && = delete;
    View<std::int64_t> obstruction() const && = delete;

private:
    std::int64_t head(std::size_t index) const { return numbers_.empty() ? 0 : numbers_[index]; }
    View<std::int64_t> part(blossom_answer_part which) const {
        std::size_t count = 0;
        const std::int64_t *first =
            blossom_part(kind_, which, numbers_.data(), numbers_.size(), &count);
        return {first, count};
    }
    View<std::int64_t> between(blossom_answer_part offsets, blossom_answer_part items,
                               std::size_t index) const {
        const View<std::int64_t> from = part(offsets);
        const std::int64_t first = from[index], last = from[index + 1];
        return {part(items).data() + first, static_cast<std::size_t>(last - first)};
    }
    /** Whether the lengths of the parts add up, and the offsets of sets or paths ascend. */
    bool has_layout() const {
        const bool has_paths = kind_ == BLOSSOM_GALLAI;
        const View<std::int64_t> from =
            part(has_paths ? BLOSSOM_PART_PATH_OFFSETS : BLOSSOM_PART_SET_OFFSETS);
        std::int64_t last = 0;
        bool ascend = !from.empty() && from[0] == 0;
        for (std::int64_t offset : from) {
            ascend = ascend && last <= offset;
            last = offset;
        }
        const blossom_answer_part items =
            has_paths ? BLOSSOM_PART_PATH_EDGES : BLOSSOM_PART_SET_MEMBERS;
        return ascend && static_cast<std::size_t>(last) == part(items).size();
    }
    blossom_kind kind_;
    std::vector<std::int64_t> numbers_;
};

/**
 * Sets of terminals, whose arrays belong to the caller: set j, from 0, has the terminals from
 * starts[j] to before starts[j + 1]. So there is one more start than there are sets.
 */
struct TerminalSets {
    View<std::uint32_t> starts, terminals;
    std::size_t sets() const { return starts.empty() ? 0 : starts.size() - 1; }
};

/**
 * What each set of terminals, from 0, came to. Its views are those of its own numbers, so a
 * temporary one has none.
 */
class Joins {
public:
    /** @throws std::invalid_argument if the numbers do not have the layout of so many joins */
    Joins(std::size_t sets, std::vector<std::int64_t> numbers)
        : sets_(sets), numbers_(std::move(numbers)) {
        if (!has_layout()) {
            throw std::invalid_argument("blossom: these " + std::to_string(numbers_.size()) +
                                        " numbers do not have the layout of joins");
        }
    }
    std::size_t sets() const { return sets_; }
    View<std::int64_t> numbers() const & { return {numbers_.data(), numbers_.size()}; }
    blossom_join_outcome outcome(std::size_t set) const {
        return static_cast<blossom_join_outcome>(numbers_[set]);
    }
    bool is_joined(std::size_t set) const { return outcome(set) == BLOSSOM_JOINED; }
    /** The weight of a join; 0 for a set without one. */
    std::int64_t weight(std::size_t set) const { return is_joined(set) ? detail(set) : 0; }
    /** The index within the set, from 0, of its first wrong terminal; 0 if there is none. */
    std::size_t index(std::size_t set) const {
        return is_joined(set) ? 0 : static_cast<std::size_t>(detail(set));
    }
    /** The edges of a join, from 1, ascending. */
    View<std::int64_t> edges(std::size_t set) const & {
        return {numbers_.data() + 3 * sets_ + 1 + start(set), start(set + 1) - start(set)};
    }

    View<std::int64_t> numbers() const && = delete;
    View<std::int64_t> edges(std::size_t) const && = delete;

private:
    std::int64_t detail(std::size_t set) const { return numbers_[sets_ + set]; }
    std::size_t start(std::size_t set) const {
        return static_cast<std::size_t>(numbers_[2 * sets_ + set]);
    }
    /** Whether the starts ascend from 0 to the number of edges. */
    bool has_layout() const {
        const std::size_t size = numbers_.size();
        if (size == 0 || sets_ > (size - 1) / 3 || start(0) != 0) {
            return false;
        }
        bool ascend = true;
        for (std::size_t set = 0; set < sets_; ++set) {
            ascend = ascend && start(set) <= start(set + 1);
        }
        return ascend && start(sets_) == size - 3 * sets_ - 1;
    }
    std::size_t sets_;
    std::vector<std::int64_t> numbers_;
};

namespace detail {
/** A pointer that is not null, as the calls require. */
template <class T> const T *at(View<T> numbers) {
    static const T nothing{};
    return numbers.data() ? numbers.data() : &nothing;
}

/** Throws what a status says with its numbers, unless it is BLOSSOM_OK. */
inline void refuse(std::uint32_t status, const std::int64_t *told) {
    switch (status) {
    case BLOSSOM_OK: return;
    case BLOSSOM_REJECTED: throw Rejected(static_cast<blossom_violation>(told[0]));
    case BLOSSOM_MALFORMED:
        throw Malformed(static_cast<blossom_input_error>(told[0]),
                        static_cast<std::uint32_t>(told[1]));
    case BLOSSOM_TOO_LARGE: throw TooLarge(told[0], told[1]);
    case BLOSSOM_OUT_OF_MEMORY: throw std::bad_alloc();
    default: throw std::invalid_argument("blossom: unknown kind");
    }
}
} // namespace detail

/**
 * Solves an instance.
 *
 * @param without_proof  leave out the certificate
 * @throws Malformed, TooLarge, std::bad_alloc, and std::invalid_argument for an unknown kind
 */
inline Answer solve(const Instance &given, bool without_proof = false) {
    using detail::at;
    const std::size_t edges = given.from.size(), vertices = given.vertices;
    // (a guess; an instance of more than 4,096 vertices is refused)
    const std::size_t proof = vertices > 4096 ? 0 : 4 * vertices;
    std::vector<std::int64_t> numbers(9 + edges + (without_proof ? edges : proof));
    std::uint32_t status = BLOSSOM_BUFFER_TOO_SMALL;
    while (status == BLOSSOM_BUFFER_TOO_SMALL) {
        std::size_t used = 0;
        status = blossom_solve_arrays(
            without_proof ? BLOSSOM_SOLVE_WITHOUT_PROOF : BLOSSOM_SOLVE, given.kind, given.vertices,
            at(given.from), given.from.size(), at(given.to), given.to.size(), at(given.weights),
            given.weights.size(), at(given.capacities), given.capacities.size(), at(given.values),
            given.values.size(), numbers.data(), numbers.size(), &used);
        numbers.resize(used);
    }
    detail::refuse(status, numbers.data());
    return Answer(given.kind, std::move(numbers));
}

/**
 * Checks an answer that was solved with its certificate.
 *
 * @throws Rejected, and what `solve` throws
 */
inline void check(const Instance &given, const Answer &answer) {
    using detail::at;
    std::int64_t told[2] = {0, 0};
    std::size_t used = 0;
    const std::uint32_t status = blossom_check_arrays(
        given.kind, given.vertices, at(given.from), given.from.size(), at(given.to),
        given.to.size(), at(given.weights), given.weights.size(), at(given.capacities),
        given.capacities.size(), at(given.values), given.values.size(), at(answer.numbers()),
        answer.numbers().size(), told, 2, &used);
    detail::refuse(status, told);
}

/**
 * Finds a minimum-weight T-join for each set of terminals in one graph: an instance of
 * BLOSSOM_TJOIN without values. A set that is refused leaves the others as they are.
 *
 * @throws Malformed, std::bad_alloc, and std::invalid_argument for another kind, or with values
 */
inline Joins joins(const Instance &graph, const TerminalSets &given) {
    using detail::at;
    if (graph.kind != BLOSSOM_TJOIN || !graph.values.empty()) {
        throw std::invalid_argument("blossom: joins take a graph of kind tjoin without values");
    }
    const std::size_t most = BLOSSOM_JOINS_SIZE(given.sets(), graph.from.size());
    // (a guess, if that is less: joins with more edges are found twice)
    const std::size_t few = 3 * given.sets() + 64 * given.terminals.size() + (1 << 18);
    std::vector<std::int64_t> numbers(most < few ? most : few);
    std::uint32_t status = BLOSSOM_BUFFER_TOO_SMALL;
    while (status == BLOSSOM_BUFFER_TOO_SMALL) {
        std::size_t used = 0;
        status = blossom_join_arrays(
            graph.vertices, at(graph.from), graph.from.size(), at(graph.to), graph.to.size(),
            at(graph.weights), graph.weights.size(), at(given.starts), given.starts.size(),
            at(given.terminals), given.terminals.size(), numbers.data(), numbers.size(), &used);
        numbers.resize(used);
    }
    detail::refuse(status, numbers.data());
    return Joins(given.sets(), std::move(numbers));
}

} // namespace blossom

#endif
