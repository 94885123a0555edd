// Times the two calls of the library for C on one instance: over arrays, and over its text.
//
// Usage: array_calls KIND VERTICES EDGES CALLS ROUNDS WEIGHTS, with the number of the kind; weights are below WEIGHTS. The ends and weights are drawn; the first edges are those
// of a ring, so that there is a perfect matching where the number of vertices is even. Prints the least time of a call of each, in
// seconds: over arrays in full, in brief, and over the text; the rounds of the three come in turn.
#include "../capi/blossom.h"

#include <algorithm>
#include <chrono>
#include <cstdint>
#include <cstdio>
#include <cstdlib>
#include <string>
#include <vector>

namespace {

struct Instance {
    std::uint32_t vertices;
    std::vector<std::uint32_t> from, to;
    std::vector<std::int64_t> weights;
    std::string text;
};

Instance made(std::uint32_t vertices, std::uint32_t edges, std::uint32_t weights) {
    std::uint64_t state = 1;
    const auto draw = [&state](std::uint32_t below) {
        state = state * 6364136223846793005u + 1442695040888963407u;
        return static_cast<std::uint32_t>((state >> 33) % below);
    };
    Instance made{vertices, {}, {}, {}, "p edge " + std::to_string(vertices) + " " + std::to_string(edges) + "\n"};
    for (std::uint32_t edge = 0; edge < edges; edge++) {
        const std::uint32_t u = edge < vertices ? edge + 1 : draw(vertices) + 1;
        const std::uint32_t v = edge < vertices ? (edge + 1) % vertices + 1 : (u + draw(vertices - 1)) % vertices + 1;
        const std::int64_t weight = draw(weights);
        made.from.push_back(u);
        made.to.push_back(v);
        made.weights.push_back(weight);
        made.text += "e " + std::to_string(u) + " " + std::to_string(v) + " " + std::to_string(weight) + "\n";
    }
    return made;
}

double seconds() { return std::chrono::duration<double>(std::chrono::steady_clock::now().time_since_epoch()).count(); }

} // namespace

int main(int count, char **words) {
    if (count != 7) {
        return 2;
    }
    const auto number = [words](int place) { return static_cast<std::uint32_t>(std::atoi(words[place])); };
    const Instance instance = made(number(2), number(3), number(6));
    const std::uint32_t kind = number(1);
    const int calls = std::atoi(words[4]), rounds = std::atoi(words[5]);
    const std::int64_t none = 0;
    const std::uint32_t no_value = 0;
    std::vector<std::int64_t> numbers(1 << 22);
    std::vector<std::uint8_t> bytes(1 << 24);
    std::size_t used = 0;
    double least[3] = {1e9, 1e9, 1e9};
    for (int round = 0; round < rounds; round++) {
        for (int way = 0; way < 3; way++) {
            const double start = seconds();
            for (int call = 0; call < calls; call++) {
                const std::uint32_t status =
                    way == 2 ? blossom_call(BLOSSOM_SOLVE, kind, reinterpret_cast<const std::uint8_t *>(instance.text.data()),
                                            instance.text.size(), bytes.data(), bytes.size(), &used)
                             : blossom_solve_arrays(way == 1 ? BLOSSOM_SOLVE_WITHOUT_PROOF : BLOSSOM_SOLVE, kind, instance.vertices,
                                                    instance.from.data(), instance.from.size(), instance.to.data(), instance.to.size(),
                                                    instance.weights.data(), instance.weights.size(), &none, 0, &no_value, 0,
                                                    numbers.data(), numbers.size(), &used);
                if (status != BLOSSOM_OK) {
                    std::fprintf(stderr, "status %u\n", status);
                    return 1;
                }
            }
            least[way] = std::min(least[way], (seconds() - start) / calls);
        }
    }
    std::printf("%.9f %.9f %.9f\n", least[0], least[1], least[2]);
}
