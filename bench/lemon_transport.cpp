// The peer of `solve bmatch` and `solve ffactor` on graphs of two colours: LEMON's network simplex.
// Each edge leads from the first colour to the second; with the argument `ffactor` it carries one
// unit at most. It prints the least weight, or `none`; it ends with 3 where the graph isn't of two
// colours.
#include "special_instance.hpp"

#include <algorithm>
#include <cstring>

#include <lemon/network_simplex.h>
#include <lemon/smart_graph.h>

using Graph = lemon::SmartDigraph;
using Simplex = lemon::NetworkSimplex<Graph, long long, long long>;

// 0 or 1 for each vertex; empty where two colours don't suffice.
std::vector<int> colours(const Instance &instance) {
    const Incidence at(instance);
    std::vector<int> colour(static_cast<std::size_t>(instance.vertices), -1), queue;
    for (int start = 0; start < instance.vertices; start++) {
        if (colour[start] < 0) {
            colour[start] = 0;
            queue.push_back(start);
        }
        while (!queue.empty()) {
            const int v = queue.back();
            queue.pop_back();
            for (int k = at.first[v]; k < at.first[v + 1]; k++) {
                const int other = at.arcs[k].other;
                if (colour[other] == colour[v]) return {};
                if (colour[other] < 0) {
                    colour[other] = 1 - colour[v];
                    queue.push_back(other);
                }
            }
        }
    }
    return colour;
}

int main(int count, char **words) {
    const bool is_factor = count > 1 && std::strcmp(words[1], "ffactor") == 0;
    const Instance instance = read_instance(1);
    const std::vector<int> colour = colours(instance);
    if (static_cast<int>(colour.size()) != instance.vertices) return 3;
    Graph graph;
    for (int v = 0; v < instance.vertices; v++) graph.addNode();
    Graph::ArcMap<long long> cost(graph), upper(graph);
    Graph::NodeMap<long long> supply(graph);
    for (int v = 0; v < instance.vertices; v++) {
        const long long value = instance.values[v];
        supply[graph.nodeFromId(v)] = colour[v] == 0 ? value : -value;
    }
    for (const Edge &edge : instance.edges) {
        const int from = colour[edge.u] == 0 ? edge.u : edge.v, to = edge.u + edge.v - from;
        const Graph::Arc arc = graph.addArc(graph.nodeFromId(from), graph.nodeFromId(to));
        cost[arc] = edge.weight;
        upper[arc] = is_factor ? 1 : std::min(instance.values[from], instance.values[to]);
    }
    Simplex simplex(graph);
    simplex.costMap(cost).upperMap(upper).supplyMap(supply);
    if (simplex.run() == Simplex::OPTIMAL) {
        std::printf("%lld\n", simplex.totalCost<long long>());
    } else {
        std::puts("none");
    }
}
