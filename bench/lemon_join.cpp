// The peer of `solve tjoin`, and with the argument `postman` of `solve postman`. It prints the
// weight of a least join of the vertices of odd value, or of a shortest tour of a connected graph;
// `none` where there is no join. Weights are nonnegative.
#include "lemon_pairs.hpp"

#include <cstring>

int main(int count, char **words) {
    const bool is_tour = count > 1 && std::strcmp(words[1], "postman") == 0;
    const Instance instance = read_instance();
    std::vector<int> odd(instance.values);
    long long all = 0;
    if (is_tour) {
        odd.assign(odd.size(), 0);
        for (const Edge &edge : instance.edges) {
            odd[edge.u]++;
            odd[edge.v]++;
            all += edge.weight;
        }
    }
    std::vector<int> terminals;
    for (int v = 0; v < instance.vertices; v++)
        if (odd[v] % 2) terminals.push_back(v);
    const long long weight = Pairs(instance).least(terminals);
    if (weight < 0) {
        std::puts("none");
    } else {
        std::printf("%lld\n", all + weight);
    }
}
