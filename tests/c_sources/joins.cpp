// Prints the joins of sets, and what the exceptions say, by blossom.hpp.
#include "blossom.hpp"

#include <iostream>

namespace {

void print(const blossom::Joins &joins) {
    for (std::size_t set = 0; set < joins.sets(); ++set) {
        std::cout << joins.outcome(set) << ' ' << joins.weight(set) << ' ' << joins.index(set)
                  << ':';
        for (std::int64_t edge : joins.edges(set)) {
            std::cout << ' ' << edge;
        }
        std::cout << '\n';
    }
}

// Prints what an exception says.
template <class Call> void refused(Call call) {
    try {
        call();
    } catch (const blossom::Malformed &fault) {
        std::cout << fault.rule << ' ' << fault.index << ' ' << fault.what() << '\n';
    } catch (const std::exception &error) {
        std::cout << error.what() << '\n';
    }
}

// More numbers than the call has room for at first: each join has all edges.
void print_many() {
    const std::size_t sets = 65;
    const std::uint32_t vertices = 4096;
    std::vector<std::uint32_t> ends, others;
    for (std::uint32_t v = 1; v < vertices; v += 2) {
        ends.insert(ends.end(), 2, v);
        others.insert(others.end(), 2, v + 1);
    }
    const std::vector<std::int64_t> weights(ends.size(), -1);
    const std::vector<std::uint32_t> starts(sets + 1, 0);
    const blossom::Instance graph{BLOSSOM_TJOIN, vertices, ends, others, weights};
    const blossom::Joins joins = blossom::joins(graph, {starts, {}});
    std::cout << joins.sets() << " sets, " << joins.numbers().size() - 3 * sets - 1 << " edges\n";
}

} // namespace

int main() {
    const std::vector<std::uint32_t> from{1, 2, 2, 3}, to{2, 3, 3, 3}, starts{0, 0, 2, 4, 5},
        terminals{1, 2, 3, 3, 4}, falling{0, 3, 2, 4, 5}, values(4), none{0};
    const std::vector<std::int64_t> weights{2, 5, -1, -3};
    const blossom::Instance graph{BLOSSOM_TJOIN, 4, from, to, weights};
    print(blossom::joins(graph, {starts, terminals}));
    std::cout << blossom::joins(graph, {none, {}}).sets() << " sets\n";
    refused([&] { blossom::joins(graph, {falling, terminals}); });
    refused([&] { blossom::joins({BLOSSOM_PATH, 4, from, to}, {starts, terminals}); });
    refused([&] {
        blossom::joins({BLOSSOM_TJOIN, 4, from, to, {}, {}, values}, {starts, terminals});
    });
    refused([&] { blossom::Joins(0, {}); });
    refused([&] { blossom::Joins(1, {0, 0}); });
    refused([&] { blossom::Joins(1, {0, 0, 1, 0}); });
    refused([&] { blossom::Joins(1, {0, 0, 0, 1}); });
    refused([&] { blossom::Joins(1, {0, 0, 0, 2, 7}); });
    refused([&] { blossom::Joins(2, {0, 0, 0, 0, 1, 0}); });
    print_many();
}
