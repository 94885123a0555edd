// A least join as decoders find it: a shortest path from each terminal to each other one by
// Dijkstra's algorithm, and LEMON's least perfect matching of the terminals by these distances.
// Weights are nonnegative.
#pragma once
#include "special_instance.hpp"

#include <functional>
#include <limits>
#include <queue>

#include <lemon/matching.h>
#include <lemon/smart_graph.h>

class Pairs {
  public:
    explicit Pairs(const Instance &instance)
        : at(instance), distance(static_cast<std::size_t>(instance.vertices)) {}

    // The weight of a least join of these terminals; -1 where there is none.
    long long least(const std::vector<int> &terminals) {
        const int count = static_cast<int>(terminals.size());
        if (count == 0) return 0;
        Graph graph;
        graph.reserveNode(count);
        graph.reserveEdge(count * (count - 1) / 2);
        for (int k = 0; k < count; k++) graph.addNode();
        Graph::EdgeMap<long long> gain(graph);
        for (int k = 0; k < count; k++) {
            search(terminals[k]);
            for (int j = 0; j < k; j++) {
                const long long length = distance[terminals[j]];
                if (length == far) continue;
                gain[graph.addEdge(graph.nodeFromId(j), graph.nodeFromId(k))] = -length;
            }
        }
        lemon::MaxWeightedPerfectMatching<Graph, Graph::EdgeMap<long long>> matching(graph, gain);
        return matching.run() ? -matching.matchingWeight() : -1;
    }

  private:
    using Graph = lemon::SmartGraph;
    using Entry = std::pair<long long, int>;
    static constexpr long long far = std::numeric_limits<long long>::max();

    void search(int start) {
        distance.assign(distance.size(), far);
        distance[start] = 0;
        queue.push({0, start});
        while (!queue.empty()) {
            const auto [length, v] = queue.top();
            queue.pop();
            if (length > distance[v]) continue;
            for (int k = at.first[v]; k < at.first[v + 1]; k++) {
                const Incidence::Arc &arc = at.arcs[k];
                if (length + arc.weight >= distance[arc.other]) continue;
                distance[arc.other] = length + arc.weight;
                queue.push({distance[arc.other], arc.other});
            }
        }
    }

    Incidence at;
    std::vector<long long> distance;
    std::priority_queue<Entry, std::vector<Entry>, std::greater<Entry>> queue;
};
