// The peer of `solve gallai`: LEMON's matching of greatest size, whose status of each vertex is the
// Gallai-Edmonds decomposition. It prints what plain_gallai prints: the size, and D(G) and A(G) as
// the lines `d` and `u` of a document.
#include "special_instance.hpp"

#include <lemon/matching.h>
#include <lemon/smart_graph.h>

using Graph = lemon::SmartGraph;
using Matching = lemon::MaxMatching<Graph>;

void print(const Graph &graph, const Matching &matching, char letter, Matching::Status wanted) {
    std::vector<int> members;
    for (int v = 0; v < graph.nodeNum(); v++)
        if (matching.status(graph.nodeFromId(v)) == wanted) members.push_back(v + 1);
    std::printf("%c %zu", letter, members.size());
    for (const int v : members) std::printf(" %d", v);
    std::puts("");
}

int main() {
    const Instance instance = read_instance();
    Graph graph;
    graph.reserveNode(instance.vertices);
    graph.reserveEdge(static_cast<int>(instance.edges.size()));
    for (int v = 0; v < instance.vertices; v++) graph.addNode();
    for (const Edge &edge : instance.edges)
        if (edge.u != edge.v) graph.addEdge(graph.nodeFromId(edge.u), graph.nodeFromId(edge.v));
    Matching matching(graph);
    matching.run();
    std::printf("%d\n", matching.matchingSize());
    print(graph, matching, 'd', Matching::EVEN);
    print(graph, matching, 'u', Matching::ODD);
}
