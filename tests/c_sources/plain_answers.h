/* A plain reader of arrays and a plain solver of small instances, written from blossom.h and
 * docs/FORMAT.md alone: which rule an instance breaks first, whether a solution is feasible and of
 * its stated weight, and the weight of an optimal solution by trying all. They share no line with
 * the library. */
#ifndef PLAIN_ANSWERS_H
#define PLAIN_ANSWERS_H

#include "made_instances.h"

enum { MOST_TRIED = 4000, UNKNOWN = 4 };

/** The first rule that the arrays break, and where. */
struct fault {
    uint32_t rule, index;
};

static int is_of_length(size_t length, size_t wanted) { return length == 0 || length == wanted; }

static struct fault fault_of_edges(const struct made *made) {
    struct fault found = {0, 0};
    size_t e;
    for (e = 0; e < made->edges && !found.rule; e++) {
        const int64_t w = weight_of(made, e), c = capacity_of(made, e);
        const uint32_t u = made->from[e], v = made->to[e];
        found.index = (uint32_t)e + 1;
        if (u < 1 || u > made->vertices || v < 1 || v > made->vertices) {
            found.rule = BLOSSOM_ENDPOINT;
        } else if (w > 1000000000000 || w < -1000000000000) {
            found.rule = BLOSSOM_WEIGHT;
        } else if (c < -1 || c > 4096) {
            found.rule = BLOSSOM_CAPACITY;
        }
    }
    return found;
}

static struct fault fault_of_vertices(const struct made *made) {
    struct fault found = {0, 0};
    size_t v;
    for (v = 1; v <= made->vertices && made->values_length && !found.rule; v++) {
        found.index = (uint32_t)v;
        if (bound_of(made, v, 1) > 4096 || bound_of(made, v, 0) > bound_of(made, v, 1)) {
            found.rule = BLOSSOM_VALUE;
        }
    }
    return found;
}

static struct fault fault_of_kind(const struct made *made) {
    struct fault found = {0, 0};
    uint32_t odd = 0;
    size_t e, v;
    for (e = 0; e < made->edges && is_nonnegative(made->kind) && !found.rule; e++) {
        if (weight_of(made, e) < 0) {
            found.rule = BLOSSOM_NEGATIVE;
            found.index = (uint32_t)e + 1;
        }
    }
    for (v = 1; v <= made->vertices; v++) {
        odd += bound_of(made, v, 0) % 2;
    }
    if (!found.rule && is_path(made->kind) && odd != 2) {
        found.rule = BLOSSOM_PATH_ENDS;
    }
    return found;
}

static struct fault fault_of(const struct made *made) {
    const size_t width = made->kind == BLOSSOM_INTERVAL ? 2 : 1;
    const struct fault lengths = {BLOSSOM_LENGTHS, 0}, vertices = {BLOSSOM_VERTICES, 0};
    struct fault found;
    if (made->from_length != made->to_length || !is_of_length(made->weights_length, made->edges) ||
        made->from_length != made->edges || !is_of_length(made->capacities_length, made->edges) ||
        !is_of_length(made->values_length, width * made->vertices)) {
        return lengths;
    }
    if (made->vertices > 4096) {
        return vertices;
    }
    found = fault_of_edges(made);
    if (!found.rule) {
        found = fault_of_vertices(made);
    }
    return found.rule ? found : fault_of_kind(made);
}

/** What an answer states, or UNKNOWN. */
struct stated {
    uint32_t outcome;
    int64_t weight;
};

/** Whether each edge is used at most once. */
static int is_once(uint32_t kind) {
    return kind == BLOSSOM_PERFECT || kind == BLOSSOM_MATCH || kind == BLOSSOM_FFACTOR ||
           kind == BLOSSOM_BOTTLENECK || kind == BLOSSOM_GALLAI || kind == BLOSSOM_TJOIN;
}

/** The degree bounds of a vertex, for kinds that count edges. */
static int64_t least_degree(const struct made *made, size_t v) {
    switch (made->kind) {
    case BLOSSOM_PERFECT:
    case BLOSSOM_BOTTLENECK: return 1;
    case BLOSSOM_MATCH:
    case BLOSSOM_GALLAI: return 0;
    default: return bound_of(made, v, 0);
    }
}

static int64_t most_degree(const struct made *made, size_t v) {
    switch (made->kind) {
    case BLOSSOM_PERFECT:
    case BLOSSOM_BOTTLENECK:
    case BLOSSOM_MATCH:
    case BLOSSOM_GALLAI: return 1;
    default: return bound_of(made, v, 1);
    }
}

/** What an edge adds to the weight of an answer that uses it so often. */
static int64_t weight_used(const struct made *made, size_t e, int64_t count) {
    return made->kind == BLOSSOM_GALLAI ? count : count * weight_of(made, e);
}

/** How often an edge may be used at most. */
static int64_t most_used(const struct made *made, size_t e, const int64_t *degrees) {
    const size_t u = made->from[e], v = made->to[e];
    const int64_t at_u = most_degree(made, u) - degrees[u];
    const int64_t at_v = most_degree(made, v) - degrees[v];
    const int64_t capacity = capacity_of(made, e);
    int64_t most = u == v ? at_u / 2 : at_u < at_v ? at_u : at_v;
    if (is_once(made->kind) && most > 1) {
        most = 1;
    }
    if ((made->kind == BLOSSOM_CAPMATCH || made->kind == BLOSSOM_INTERVAL) && capacity >= 0 &&
        most > capacity) {
        most = capacity;
    }
    return most;
}

/** A search that tries all. */
struct search {
    const struct made *made;
    int64_t degrees[MOST_VERTICES + 2];
    unsigned char used[MOST_EDGES + 1];
    struct stated best;
    long left; /* turns until it gives up */
};

static int is_better(const struct made *made, int64_t weight, int64_t than) {
    return made->kind == BLOSSOM_MATCH || made->kind == BLOSSOM_GALLAI ? weight > than
                                                                       : weight < than;
}

static void take(struct search *search, int64_t weight) {
    if (search->best.outcome != BLOSSOM_OPTIMAL ||
        is_better(search->made, weight, search->best.weight)) {
        search->best.outcome = BLOSSOM_OPTIMAL;
        search->best.weight = weight;
    }
}

static void count_edges(struct search *search, size_t e, int64_t weight) {
    const struct made *made = search->made;
    int64_t count, most;
    size_t v;
    if (search->left-- <= 0) {
        return;
    }
    if (e == made->edges) {
        for (v = 1; v <= made->vertices; v++) {
            if (search->degrees[v] < least_degree(made, v)) {
                return;
            }
        }
        take(search, weight);
        return;
    }
    most = most_used(made, e, search->degrees);
    for (count = 0; count <= most; count++) {
        int64_t more = weight + weight_used(made, e, count);
        if (made->kind == BLOSSOM_BOTTLENECK) {
            more = count && weight_of(made, e) > weight ? weight_of(made, e) : weight;
        }
        search->degrees[made->from[e]] += count;
        search->degrees[made->to[e]] += count;
        count_edges(search, e + 1, more);
        search->degrees[made->from[e]] -= count;
        search->degrees[made->to[e]] -= count;
    }
}

/** The least weight of a set of edges whose odd vertices are these. `all` tells the least weight of
 * one that has none, which is negative if there is a cycle of negative weight. */
static void try_sets(struct search *search, size_t e, uint64_t odd, uint64_t wanted, int64_t weight,
                     int64_t *all) {
    const struct made *made = search->made;
    if (search->left-- <= 0) {
        return;
    }
    if (e == made->edges) {
        if (odd == wanted) {
            take(search, weight);
        }
        if (odd == 0 && weight < *all) {
            *all = weight;
        }
        return;
    }
    try_sets(search, e + 1, odd, wanted, weight, all);
    odd ^= UINT64_C(1) << made->from[e] ^ UINT64_C(1) << made->to[e];
    try_sets(search, e + 1, odd, wanted, weight + weight_of(made, e), all);
}

/** The least weight of a path of a parity from a vertex to another that visits no vertex twice. */
static void try_paths(struct search *search, uint32_t here, uint32_t end, uint32_t length,
                      int64_t weight) {
    const struct made *made = search->made;
    size_t e;
    if (search->left-- <= 0) {
        return;
    }
    if (here == end) {
        if (length % 2 == (made->kind == BLOSSOM_ODDPATH)) {
            take(search, weight);
        }
        return;
    }
    search->degrees[here] = 1;
    for (e = 0; e < made->edges; e++) {
        const uint32_t u = made->from[e], v = made->to[e];
        const uint32_t next = u == here ? v : u;
        if ((u == here || v == here) && !search->degrees[next]) {
            try_paths(search, next, end, length + 1, weight + weight_of(made, e));
        }
    }
    search->degrees[here] = 0;
}

/** Whether all edges are connected. */
static int is_connected(const struct made *made) {
    uint64_t reached = made->edges ? UINT64_C(1) << made->from[0] : 0;
    size_t turn, e;
    for (turn = 0; turn < made->edges; turn++) {
        for (e = 0; e < made->edges; e++) {
            const uint64_t ends = UINT64_C(1) << made->from[e] | UINT64_C(1) << made->to[e];
            reached |= reached & ends ? ends : 0;
        }
    }
    for (e = 0; e < made->edges; e++) {
        if (!(reached >> made->from[e] & 1)) {
            return 0;
        }
    }
    return 1;
}

/** The vertices of odd value, or of odd degree for tours. */
static uint64_t odd_vertices(const struct made *made) {
    uint64_t odd = 0;
    size_t k;
    if (made->kind == BLOSSOM_POSTMAN) {
        for (k = 0; k < made->edges; k++) {
            odd ^= UINT64_C(1) << made->from[k] ^ UINT64_C(1) << made->to[k];
        }
        return odd;
    }
    for (k = 1; k <= made->vertices; k++) {
        odd |= (uint64_t)(bound_of(made, k, 0) % 2) << k;
    }
    return odd;
}

static uint32_t first_of(uint64_t vertices, uint32_t after) {
    uint32_t v = after + 1;
    while (v < 64 && !(vertices >> v & 1)) {
        v++;
    }
    return v;
}

static void solve_joins(struct search *search) {
    const struct made *made = search->made;
    int64_t least = 0;
    size_t e;
    try_sets(search, 0, 0, odd_vertices(made), 0, &least);
    if (made->kind == BLOSSOM_PATH && least < 0) {
        search->best.outcome = BLOSSOM_NONCONSERVATIVE;
        search->best.weight = 0;
    }
    if (made->kind == BLOSSOM_POSTMAN && !is_connected(made)) {
        search->best.outcome = BLOSSOM_INFEASIBLE;
        search->best.weight = 0;
    }
    for (e = 0; e < made->edges && made->kind == BLOSSOM_POSTMAN; e++) {
        search->best.weight += search->best.outcome == BLOSSOM_OPTIMAL ? weight_of(made, e) : 0;
    }
}

/** What an optimal answer states, by trying all; UNKNOWN if that takes too long. */
static struct stated plain_solution(const struct made *made) {
    struct search search = {0};
    const struct stated unknown = {UNKNOWN, 0};
    search.made = made;
    search.left = MOST_TRIED;
    search.best.outcome = BLOSSOM_INFEASIBLE;
    switch (made->kind) {
    case BLOSSOM_TJOIN:
    case BLOSSOM_POSTMAN:
    case BLOSSOM_PATH: solve_joins(&search); break;
    case BLOSSOM_ODDPATH:
    case BLOSSOM_EVENPATH: {
        const uint64_t ends = odd_vertices(made);
        const uint32_t start = first_of(ends, 0);
        try_paths(&search, start, first_of(ends, start), 0, 0);
        break;
    }
    default: count_edges(&search, 0, made->kind == BLOSSOM_BOTTLENECK ? INT64_MIN : 0); break;
    }
    if (made->kind == BLOSSOM_BOTTLENECK && made->vertices == 0) {
        search.best.weight = 0;
    }
    return search.left > 0 ? search.best : unknown;
}

/** Whether the counts are a feasible solution of this weight. */
static int is_feasible_count(const struct made *made, const int64_t *counts, int64_t weight) {
    int64_t degrees[MOST_VERTICES + 2] = {0}, found = 0;
    const uint64_t odd = odd_vertices(made);
    int is_first = 1;
    size_t e, v;
    for (e = 0; e < made->edges; e++) {
        const int64_t capacity = capacity_of(made, e);
        const int is_limited = made->kind == BLOSSOM_CAPMATCH || made->kind == BLOSSOM_INTERVAL;
        if (counts[e] < 0 || (is_once(made->kind) && counts[e] > 1) ||
            (is_limited && capacity >= 0 && counts[e] > capacity)) {
            return 0;
        }
        degrees[made->from[e]] += counts[e];
        degrees[made->to[e]] += counts[e];
        if (made->kind != BLOSSOM_BOTTLENECK) {
            found += weight_used(made, e, counts[e]);
        } else if (counts[e] && (is_first || weight_of(made, e) > found)) {
            found = weight_of(made, e);
            is_first = 0;
        }
    }
    for (v = 1; v <= made->vertices; v++) {
        const int is_join = made->kind == BLOSSOM_TJOIN;
        if (is_join ? (uint64_t)(degrees[v] % 2) != (odd >> v & 1)
                    : degrees[v] < least_degree(made, v) || degrees[v] > most_degree(made, v)) {
            return 0;
        }
    }
    return found == weight;
}

/** Follows a walk from a vertex; answers where it ends, or 0. Counts uses of edges, and visits of
 * the vertices that it leaves. */
static uint32_t follow(const struct made *made, uint32_t start, const int64_t *walk, size_t length,
                       int64_t *uses, int64_t *visits) {
    uint32_t here = start;
    size_t k;
    for (k = 0; k < length; k++) {
        const size_t e = (size_t)walk[k] - 1;
        if (walk[k] < 1 || e >= made->edges || (made->from[e] != here && made->to[e] != here)) {
            return 0;
        }
        uses[e]++;
        visits[here]++;
        here = made->from[e] == here ? made->to[e] : made->from[e];
    }
    return here;
}

/** Whether the walk is a feasible solution of this weight, or for NONCONSERVATIVE a cycle of
 * negative weight. */
static int is_feasible_walk(const struct made *made, uint32_t outcome, uint32_t start,
                            const int64_t *walk, size_t length, int64_t weight) {
    int64_t uses[MOST_EDGES + 1] = {0}, visits[MOST_VERTICES + 2] = {0}, found = 0;
    const uint64_t ends = odd_vertices(made);
    const uint32_t end = follow(made, start, walk, length, uses, visits);
    const uint32_t first = first_of(ends, 0);
    int is_simple = 1, is_whole = 1;
    size_t k;
    for (k = 0; k < made->edges; k++) {
        found += uses[k] * weight_of(made, k);
        is_simple = is_simple && uses[k] <= 1;
        is_whole = is_whole && uses[k] >= 1;
    }
    for (k = 1; k <= made->vertices; k++) {
        is_simple = is_simple && visits[k] <= 1;
    }
    if (outcome == BLOSSOM_NONCONSERVATIVE) {
        return length > 0 && end == start && is_simple && found < 0;
    }
    if (made->kind == BLOSSOM_POSTMAN) {
        return end == start && is_whole && found == weight;
    }
    if (made->kind != BLOSSOM_PATH && length % 2 != (made->kind == BLOSSOM_ODDPATH)) {
        return 0;
    }
    return start == first && end == first_of(ends, first) && is_simple && !visits[end] &&
           found == weight;
}

/** Whether what an answer states holds, as far as no certificate is needed. */
static int is_feasible(const struct made *made, const int64_t *numbers) {
    const uint32_t outcome = (uint32_t)numbers[0];
    const size_t length = (size_t)numbers[3];
    if (outcome == BLOSSOM_INFEASIBLE) {
        return length == 0 || !is_walk(made->kind);
    }
    if (is_walk(made->kind)) {
        return is_feasible_walk(made, outcome, (uint32_t)numbers[2], numbers + 8, length,
                                numbers[1]);
    }
    return length == made->edges && is_feasible_count(made, numbers + 8, numbers[1]);
}

#endif
