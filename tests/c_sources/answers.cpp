// Prints answers, and what the exceptions say, by blossom.hpp.
#include "blossom.hpp"

#include <iostream>

namespace {

void print(const char *name, blossom::View<std::int64_t> numbers) {
    std::cout << name;
    for (std::int64_t number : numbers) {
        std::cout << ' ' << number;
    }
    std::cout << '\n';
}

void print_sets(const blossom::Answer &answer) {
    for (std::size_t set = 0; set < answer.sets(); ++set) {
        std::cout << answer.set_dual(set);
        print(":", answer.set_members(set));
    }
}

void print_paths(const blossom::Answer &answer) {
    for (std::size_t path = 0; path < answer.path_starts().size(); ++path) {
        std::cout << answer.path_starts()[path];
        print(":", answer.path_edges(path));
    }
}

void print_all(const blossom::Answer &answer) {
    std::cout << answer.outcome() << ' ' << answer.weight() << ' ' << answer.start() << ' '
              << answer.sets() << '\n';
    print("solution", answer.solution());
    print("duals", answer.duals());
    print_sets(answer);
    print_paths(answer);
    print("obstruction", answer.obstruction());
}

// Prints what an exception says.
template <class Call> void refused(Call call) {
    try {
        call();
    } catch (const blossom::Malformed &fault) {
        std::cout << fault.rule << ' ' << fault.index << ' ' << fault.what() << '\n';
    } catch (const blossom::TooLarge &size) {
        std::cout << size.vertices << ' ' << size.edges << ' ' << size.what() << '\n';
    } catch (const blossom::Rejected &verdict) {
        std::cout << verdict.rule << ' ' << verdict.what() << '\n';
    } catch (const std::exception &error) {
        std::cout << error.what() << '\n';
    }
}

} // namespace

int main() {
    const std::vector<std::uint32_t> from{1, 2, 1}, to{2, 3, 3}, ends{1, 2, 9},
        values{4096, 4096, 4096, 4096, 1}, bounds{1, 2, 0, 1, 1, 1};
    const std::vector<std::int64_t> weights{4, 5, 6};
    const std::uint32_t star_from[] = {3, 2, 3, 5};
    const std::array<std::uint32_t, 4> star_to{{1, 3, 4, 3}};
    const blossom::Instance instance{BLOSSOM_MATCH, 3, from, to, weights};
    const blossom::Instance star{BLOSSOM_GALLAI, 5, star_from, star_to};
    const blossom::Answer answer = blossom::solve(instance), brief = blossom::solve(instance, true);
    print_all(answer);
    print_all(brief);
    print_all(blossom::solve({BLOSSOM_INTERVAL, 3, from, to, weights, {}, bounds}));
    print_all(blossom::solve(star));
    blossom::check(instance, answer);
    blossom::check(star, blossom::solve(star));
    refused([&] { blossom::check(instance, brief); });
    refused([&] { blossom::solve({BLOSSOM_MATCH, 3, ends, to}); });
    refused([&] { blossom::solve({BLOSSOM_MATCH, 4000000000, from, to}); });
    refused([&] { blossom::solve({BLOSSOM_BMATCH, 5, {}, {}, {}, {}, values}); });
    refused([&] { blossom::solve({static_cast<blossom_kind>(14), 3, from, to}); });
    for (std::size_t size : {std::size_t{0}, std::size_t{8}, answer.numbers().size() - 1}) {
        refused([&] {
            const std::int64_t *first = answer.numbers().begin();
            blossom::Answer(BLOSSOM_MATCH, {first, first + size});
        });
    }
    refused([&] { blossom::Answer(BLOSSOM_MATCH, {1, 0, 0, 0, 0, 1, 1, 0, 5, 0, 2, 7}); });
    refused([&] { blossom::Answer(BLOSSOM_MATCH, {1, 0, 0, 0, 0, 1, 1, 0, 5, 1, 1, 7}); });
    refused([&] { blossom::Answer(BLOSSOM_GALLAI, {1, 0, 0, 0, 0, 2, 1, 0, 5, 6, 0, 2, 1, 7}); });
}
