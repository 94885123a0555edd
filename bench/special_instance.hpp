// What the special algorithms share: an instance from standard input, read at once, and the edges
// at each vertex. Vertices count from 0 here. A vertex without a line has the value `usual`.
#pragma once
#include <cstdio>
#include <cstdlib>
#include <string>
#include <unistd.h>
#include <vector>

struct Edge {
    int u, v;
    long long weight;
    long long capacity; // -1: without limit
};

struct Instance {
    int vertices = 0;
    std::vector<Edge> edges;
    std::vector<int> values;
    std::vector<std::vector<int>> shots; // the numbers of each line `t`
};

inline std::string standard_input() {
    std::string text(1 << 20, '\0');
    std::size_t length = 0;
    for (;;) {
        const ssize_t count = ::read(0, &text[length], text.size() - length);
        if (count <= 0) break;
        length += static_cast<std::size_t>(count);
        if (length == text.size()) text.resize(2 * length);
    }
    text.resize(length);
    return text;
}

// The numbers of a line from `at` on, which moves to its end.
inline void numbers_of(const char *&at, const char *end, std::vector<long long> &numbers) {
    numbers.clear();
    while (at != end && *at != '\n') {
        const bool negative = *at == '-';
        if (negative) at++;
        if (at == end || *at < '0' || *at > '9') {
            at += at != end && *at != '\n';
            continue;
        }
        long long number = 0;
        for (; at != end && *at >= '0' && *at <= '9'; at++) number = 10 * number + (*at - '0');
        numbers.push_back(negative ? -number : number);
    }
}

inline void keep(Instance &instance, char letter, const std::vector<long long> &numbers,
                 int usual) {
    const std::size_t count = numbers.size();
    if (letter == 'p') {
        instance.vertices = static_cast<int>(numbers[0]);
        instance.edges.reserve(static_cast<std::size_t>(numbers[1]));
        instance.values.assign(static_cast<std::size_t>(numbers[0]), usual);
    } else if (letter == 'e') {
        const int u = static_cast<int>(numbers[0]) - 1, v = static_cast<int>(numbers[1]) - 1;
        instance.edges.push_back({u, v, count > 2 ? numbers[2] : 1, count > 3 ? numbers[3] : -1});
    } else if (letter == 'n') {
        instance.values[static_cast<std::size_t>(numbers[0] - 1)] = static_cast<int>(numbers[1]);
    } else if (letter == 't') {
        instance.shots.emplace_back();
        for (const long long number : numbers)
            instance.shots.back().push_back(static_cast<int>(number) - 1);
    }
}

inline Instance read_instance(int usual = 0) {
    const std::string text = standard_input();
    const char *at = text.data(), *end = at + text.size();
    Instance instance;
    std::vector<long long> numbers;
    while (at != end) {
        const char letter = *at;
        numbers_of(at, end, numbers);
        keep(instance, letter, numbers, usual);
        at += at != end;
    }
    return instance;
}

// The edges at each vertex, one after another: those of v begin at first[v]. A loop isn't among
// them.
struct Incidence {
    struct Arc {
        long long weight;
        int other, edge;
    };
    std::vector<int> first;
    std::vector<Arc> arcs;

    explicit Incidence(const Instance &instance)
        : first(static_cast<std::size_t>(instance.vertices) + 2, 0) {
        for (const Edge &edge : instance.edges) {
            if (edge.u == edge.v) continue;
            first[edge.u + 2]++;
            first[edge.v + 2]++;
        }
        for (std::size_t v = 2; v < first.size(); v++) first[v] += first[v - 1];
        arcs.resize(static_cast<std::size_t>(first.back()));
        for (int e = 0; e < static_cast<int>(instance.edges.size()); e++) {
            const Edge &edge = instance.edges[e];
            if (edge.u == edge.v) continue;
            arcs[first[edge.u + 1]++] = {edge.weight, edge.v, e};
            arcs[first[edge.v + 1]++] = {edge.weight, edge.u, e};
        }
        first.pop_back();
    }
};
