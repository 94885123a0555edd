// Times shots of a decoder: least joins of many sets of terminals in one graph, by one call of the
// library for C, by a call for each set, and by LEMON on the distances between terminals.
//
// Usage: join_shots ROUNDS, with an instance on standard input and its sets as lines `t V1 V2 ..`.
// In each round these take turns. Prints the least processor time of a shot by each, in
// microseconds; ends with 1 where two weights differ.
#include "../capi/blossom.h"
#include "lemon_pairs.hpp"

#include <algorithm>
#include <cstdint>
#include <ctime>

namespace {

double microseconds() {
    timespec now;
    clock_gettime(CLOCK_PROCESS_CPUTIME_ID, &now);
    return 1e6 * static_cast<double>(now.tv_sec) + 1e-3 * static_cast<double>(now.tv_nsec);
}

using Weights = std::vector<long long>;

// The graph, which a caller from C keeps from call to call.
struct Arrays {
    std::vector<std::uint32_t> from, to;
    std::vector<std::int64_t> weights, numbers;
    blossom_instance graph{};

    Arrays(const Instance &instance, std::size_t size) : numbers(size) {
        for (const Edge &edge : instance.edges) {
            from.push_back(static_cast<std::uint32_t>(edge.u) + 1);
            to.push_back(static_cast<std::uint32_t>(edge.v) + 1);
            weights.push_back(edge.weight);
        }
        graph.kind = BLOSSOM_TJOIN;
        graph.vertices = static_cast<std::uint32_t>(instance.vertices);
        graph.edges = from.size();
        graph.from = from.data();
        graph.to = to.data();
        graph.weights = weights.data();
    }
};

// All sets by one call.
struct AtOnce : Arrays {
    std::vector<std::uint32_t> starts{0}, terminals;

    explicit AtOnce(const Instance &instance)
        : Arrays(instance, BLOSSOM_JOINS_SIZE(instance.shots.size(), instance.edges.size())) {
        for (const std::vector<int> &shot : instance.shots) {
            for (const int v : shot) terminals.push_back(static_cast<std::uint32_t>(v) + 1);
            starts.push_back(static_cast<std::uint32_t>(terminals.size()));
        }
    }

    // The weights of the least joins; -1 for a set without one.
    Weights all(const Instance &instance) {
        const blossom_terminal_sets sets = {instance.shots.size(), starts.data(), terminals.data()};
        blossom_joins_answer answer{};
        answer.numbers = numbers.data();
        answer.size = numbers.size();
        Weights found(instance.shots.size(), -1);
        blossom_joins(&graph, &sets, &answer);
        for (std::size_t set = 0; set < answer.sets; set++)
            if (answer.outcomes[set] == BLOSSOM_JOINED) found[set] = answer.details[set];
        return found;
    }
};

// The weights of what solves one set after the other.
template <class Solver> Weights each(Solver &solver, const Instance &instance) {
    Weights found;
    for (const std::vector<int> &shot : instance.shots) found.push_back(solver.least(shot));
    return found;
}

// A call for each set.
struct ByOne : Arrays {
    std::vector<std::uint32_t> values;

    explicit ByOne(const Instance &instance)
        : Arrays(instance, BLOSSOM_SIZE_WITHOUT_PROOF(instance.edges.size())),
          values(static_cast<std::size_t>(instance.vertices), 0) {
        graph.values = values.data();
    }

    // The weight of a least join; -1 where the call fails.
    long long least(const std::vector<int> &terminals) {
        for (const int v : terminals) values[static_cast<std::size_t>(v)] = 1;
        blossom_answer answer{};
        answer.numbers = numbers.data();
        answer.size = numbers.size();
        answer.without_proof = 1;
        const std::uint32_t status = blossom_solve(&graph, &answer);
        for (const int v : terminals) values[static_cast<std::size_t>(v)] = 0;
        return status == BLOSSOM_OK && answer.outcome == BLOSSOM_OPTIMAL ? answer.weight : -1;
    }

    Weights all(const Instance &instance) { return each(*this, instance); }
};

// LEMON for each set.
struct Peer : Pairs {
    using Pairs::Pairs;

    Weights all(const Instance &instance) { return each(*this, instance); }
};

// The weights of all shots; `least` becomes the least time of a shot.
template <class Solver> Weights timed(Solver &solver, const Instance &instance, double &least) {
    const double start = microseconds();
    const Weights weights = solver.all(instance);
    least = std::min(least, (microseconds() - start) / static_cast<double>(instance.shots.size()));
    return weights;
}

} // namespace

int main(int count, char **words) {
    if (count != 2) return 2;
    const Instance instance = read_instance();
    AtOnce at_once(instance);
    ByOne by_one(instance);
    Peer peer(instance);
    double own = 1e18, single = 1e18, other = 1e18;
    for (int round = 0; round < std::atoi(words[1]); round++) {
        const Weights found = timed(at_once, instance, own);
        if (found != timed(by_one, instance, single) || found != timed(peer, instance, other)) {
            std::fputs("two weights differ\n", stderr);
            return 1;
        }
    }
    std::printf("%.3f %.3f %.3f\n", own, single, other);
}
