// The peer of `solve path`: LEMON's form of Dijkstra's algorithm, from one vertex of odd value to
// the other. Weights are nonnegative. It prints the weight of a shortest path, or `none`.
#include "special_instance.hpp"

#include <lemon/dijkstra.h>
#include <lemon/smart_graph.h>

using Graph = lemon::SmartDigraph;

int main() {
    const Instance instance = read_instance();
    Graph graph;
    graph.reserveNode(instance.vertices);
    graph.reserveArc(2 * static_cast<int>(instance.edges.size()));
    for (int v = 0; v < instance.vertices; v++) graph.addNode();
    Graph::ArcMap<long long> length(graph);
    for (const Edge &edge : instance.edges) {
        const Graph::Node u = graph.nodeFromId(edge.u), v = graph.nodeFromId(edge.v);
        length[graph.addArc(u, v)] = edge.weight;
        length[graph.addArc(v, u)] = edge.weight;
    }
    std::vector<Graph::Node> ends;
    for (int v = 0; v < instance.vertices; v++)
        if (instance.values[v] % 2) ends.push_back(graph.nodeFromId(v));
    lemon::Dijkstra<Graph, Graph::ArcMap<long long>> search(graph, length);
    if (ends.size() == 2 && search.run(ends[0], ends[1])) {
        std::printf("%lld\n", search.dist(ends[1]));
    } else {
        std::puts("none");
    }
}
