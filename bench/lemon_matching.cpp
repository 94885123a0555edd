// The peer of `solve perfect`: LEMON's matching on the same instance. It reads an instance from standard input and
// prints the least weight of a perfect matching, or `none`. Where all weights are 0 it only looks for a matching of
// greatest size, which is less work. The processor seconds of the matching alone go to standard error.
#include <cstdio>
#include <ctime>
#include <vector>

#include <lemon/matching.h>
#include <lemon/smart_graph.h>

using Graph = lemon::SmartGraph;

int main() {
    int vertices = 0, edges = 0;
    if (std::scanf("p edge %d %d", &vertices, &edges) != 2) return 1;
    Graph graph;
    graph.reserveNode(vertices);
    graph.reserveEdge(edges);
    for (int v = 0; v < vertices; v++) graph.addNode();
    Graph::EdgeMap<long long> gain(graph);
    bool weighted = false;
    for (int e = 0; e < edges; e++) {
        int u, v;
        long long w;
        if (std::scanf(" e %d %d %lld", &u, &v, &w) != 3) return 1;
        gain[graph.addEdge(graph.nodeFromId(u - 1), graph.nodeFromId(v - 1))] = -w;
        weighted = weighted || w != 0;
    }
    if (!weighted) {
        lemon::MaxMatching<Graph> matching(graph);
        matching.run();
        std::puts(2 * matching.matchingSize() == vertices ? "0" : "none");
        return 0;
    }
    const std::clock_t start = std::clock();
    lemon::MaxWeightedPerfectMatching<Graph, Graph::EdgeMap<long long>> matching(graph, gain);
    const bool found = matching.run();
    std::fprintf(stderr, "%.6f\n", double(std::clock() - start) / CLOCKS_PER_SEC);
    if (found) {
        std::printf("%lld\n", -matching.matchingWeight());
    } else {
        std::puts("none");
    }
    return 0;
}
