// A plain checker of slacks: reads an instance and its document from standard input and adds up the
// slacks of all edges. It trusts its input. The bench of `check` takes it as the measure of the work.
#include <cstdint>
#include <cstdio>
#include <cstring>
#include <vector>

static std::vector<char> all_of(FILE *in) {
    std::vector<char> bytes;
    static char piece[65536];
    size_t count;
    while ((count = fread(piece, 1, sizeof piece, in)) > 0) bytes.insert(bytes.end(), piece, piece + count);
    bytes.push_back('\n');
    return bytes;
}

struct Edge {
    int u, v;
    int64_t w;
};

struct Set {
    int64_t dual;
    std::vector<int> members;
};

static const char *at;

static int64_t number() {
    while (*at == ' ') at++;
    bool negative = *at == '-';
    if (negative) at++;
    int64_t value = 0;
    while (*at >= '0' && *at <= '9') value = 10 * value + (*at++ - '0');
    return negative ? -value : value;
}

int main() {
    std::vector<char> bytes = all_of(stdin);
    std::vector<Edge> edges;
    std::vector<int64_t> y;
    std::vector<Set> sets;
    int n = 0;
    at = bytes.data();
    const char *end = at + bytes.size();
    while (at < end) {
        char letter = *at;
        if (letter != '\n') at++;
        if (letter == 'p') {
            while (*at == ' ') at++;
            while (*at != ' ') at++;
            n = static_cast<int>(number());
            number();
            y.assign(n + 1, 0);
        } else if (letter == 'e') {
            int u = static_cast<int>(number()), v = static_cast<int>(number());
            edges.push_back({u, v, number()});
        } else if (letter == 'y') {
            int v = static_cast<int>(number());
            y[v] = number();
        } else if (letter == 'z') {
            Set set;
            set.dual = number();
            int64_t count = number();
            for (int64_t k = 0; k < count; k++) set.members.push_back(static_cast<int>(number()));
            sets.push_back(set);
        }
        at = static_cast<const char *>(memchr(at, '\n', end - at)) + 1;
    }
    std::vector<std::vector<int>> around(n + 1);
    for (size_t k = 0; k < edges.size(); k++) {
        around[edges[k].u].push_back(static_cast<int>(k));
        around[edges[k].v].push_back(static_cast<int>(k));
    }
    std::vector<int64_t> crossed(edges.size(), 0);
    std::vector<char> marked(n + 1, 0);
    for (const Set &set : sets) {
        for (int v : set.members) marked[v] = 1;
        for (int v : set.members)
            for (int k : around[v])
                if (!marked[edges[k].u == v ? edges[k].v : edges[k].u]) crossed[k] += set.dual;
        for (int v : set.members) marked[v] = 0;
    }
    int64_t sum = 0;
    for (size_t k = 0; k < edges.size(); k++) sum += 2 * edges[k].w - y[edges[k].u] - y[edges[k].v] - crossed[k];
    printf("slacks add up to %lld\n", (long long)sum);
}
