// The peer of `solve bottleneck`: halves the weights, and LEMON's matching of greatest size says
// each time whether the edges that weigh no more have a perfect matching. It prints the least
// weight that does, or `none`.
#include "special_instance.hpp"

#include <algorithm>

#include <lemon/matching.h>
#include <lemon/smart_graph.h>

using Graph = lemon::SmartGraph;

bool is_enough(const Instance &instance, long long most) {
    Graph graph;
    graph.reserveNode(instance.vertices);
    for (int v = 0; v < instance.vertices; v++) graph.addNode();
    for (const Edge &edge : instance.edges)
        if (edge.weight <= most && edge.u != edge.v)
            graph.addEdge(graph.nodeFromId(edge.u), graph.nodeFromId(edge.v));
    lemon::MaxMatching<Graph> matching(graph);
    matching.run();
    return 2 * matching.matchingSize() == instance.vertices;
}

int main() {
    const Instance instance = read_instance();
    std::vector<long long> weights;
    for (const Edge &edge : instance.edges) weights.push_back(edge.weight);
    std::sort(weights.begin(), weights.end());
    weights.erase(std::unique(weights.begin(), weights.end()), weights.end());
    if (weights.empty() || !is_enough(instance, weights.back())) {
        std::puts("none");
        return 0;
    }
    std::size_t low = 0, high = weights.size() - 1;
    while (low < high) {
        const std::size_t middle = (low + high) / 2;
        if (is_enough(instance, weights[middle])) {
            high = middle;
        } else {
            low = middle + 1;
        }
    }
    std::printf("%lld\n", weights[high]);
}
