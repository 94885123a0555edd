/* Instances made by seed, well-formed and malformed, as arrays and as texts. */
#ifndef MADE_INSTANCES_H
#define MADE_INSTANCES_H

#include "blossom.h"

#include <inttypes.h>
#include <stdio.h>

enum { MOST_VERTICES = 40, MOST_EDGES = 120, MOST_TEXT = 1 << 14, KINDS = 13 };

/** Draws numbers: splitmix64. */
struct chance {
    uint64_t state;
};

static uint64_t draw(struct chance *chance) {
    uint64_t z = chance->state += 0x9E3779B97F4A7C15u;
    z = (z ^ (z >> 30)) * 0xBF58476D1CE4E5B9u;
    z = (z ^ (z >> 27)) * 0x94D049BB133111EBu;
    return z ^ (z >> 31);
}

/** A number below `limit`. */
static uint32_t below(struct chance *chance, uint32_t limit) {
    return (uint32_t)((draw(chance) >> 32) * limit >> 32);
}

static int64_t between(struct chance *chance, int64_t low, int64_t high) {
    return low + (int64_t)(draw(chance) % (uint64_t)(high - low + 1));
}

/** An instance with room for each array; a length of 0 leaves an array out. */
struct made {
    uint32_t kind, vertices;
    size_t edges;
    uint32_t from[MOST_EDGES + 1], to[MOST_EDGES + 1], values[2 * MOST_VERTICES + 2];
    int64_t weights[MOST_EDGES + 1], capacities[MOST_EDGES + 1];
    size_t from_length, to_length, weights_length, capacities_length, values_length;
};

static const char *const KIND_NAMES[KINDS + 1] = {
    "",         "perfect", "match",   "bmatch",   "capmatch",   "ffactor", "tjoin", "postman",
    "path",     "interval", "oddpath", "evenpath", "bottleneck", "gallai"};

static int is_nonnegative(uint32_t kind) {
    return kind == BLOSSOM_POSTMAN || kind == BLOSSOM_ODDPATH || kind == BLOSSOM_EVENPATH;
}

static int is_path(uint32_t kind) {
    return kind == BLOSSOM_PATH || kind == BLOSSOM_ODDPATH || kind == BLOSSOM_EVENPATH;
}

static int is_walk(uint32_t kind) { return is_path(kind) || kind == BLOSSOM_POSTMAN; }

/** The lower and the upper degree bound of a vertex, or its value twice. */
static uint32_t bound_of(const struct made *made, size_t vertex, int is_upper) {
    const int is_interval = made->kind == BLOSSOM_INTERVAL;
    const int is_degree = made->kind >= BLOSSOM_BMATCH && made->kind <= BLOSSOM_FFACTOR;
    if (made->values_length == 0) {
        return is_interval ? (uint32_t)is_upper : (uint32_t)is_degree;
    }
    return made->values[is_interval ? 2 * (vertex - 1) + (size_t)is_upper : vertex - 1];
}

static void make_edges(struct chance *chance, struct made *made) {
    static const int64_t GREATEST[] = {0, 1, 3, 9, 1000, 1000000000000};
    const int64_t most = GREATEST[below(chance, 6)];
    const int64_t least = is_nonnegative(made->kind) || below(chance, 3) == 0 ? 0 : -most;
    const uint32_t loops = below(chance, 3) ? 0 : 4, limited = below(chance, 4);
    size_t e;
    for (e = 0; e < made->edges; e++) {
        const uint32_t u = 1 + below(chance, made->vertices);
        const int is_loop = made->vertices == 1 || (loops && below(chance, loops) == 0);
        const uint32_t more = is_loop ? 0 : 1 + below(chance, made->vertices - 1);
        made->from[e] = u;
        made->to[e] = (u - 1 + more) % made->vertices + 1;
        made->weights[e] = between(chance, least, most);
        made->capacities[e] = limited && below(chance, 2) ? (int64_t)below(chance, limited) : -1;
    }
}

/** The degrees of some of the edges, so that many instances are feasible, and bounds near them. */
static void make_values(struct chance *chance, struct made *made) {
    const int is_interval = made->kind == BLOSSOM_INTERVAL, is_near = below(chance, 3) > 0;
    uint32_t degrees[MOST_VERTICES + 1] = {0};
    size_t e, v;
    for (e = 0; e < made->edges; e++) {
        const uint32_t used = is_near ? below(chance, 2) : 0;
        degrees[made->from[e] - 1] += used;
        degrees[made->to[e] - 1] += used;
    }
    for (v = 0; v < made->vertices; v++) {
        const uint32_t degree = is_near ? degrees[v] : below(chance, 4), less = below(chance, 3);
        if (is_interval) {
            made->values[2 * v] = degree - (less < degree ? less : degree);
            made->values[2 * v + 1] = degree + below(chance, 2);
        } else {
            made->values[v] = is_path(made->kind) ? 2 * below(chance, 2) : degree;
        }
    }
    if (is_path(made->kind) && made->vertices > 1) {
        const uint32_t s = below(chance, made->vertices);
        made->values[s]++;
        made->values[(s + 1 + below(chance, made->vertices - 1)) % made->vertices]++;
    }
}

/** Breaks a rule, or comes near to it. */
static void spoil(struct chance *chance, struct made *made) {
    static const int64_t WEIGHTS[] = {1000000000000, 1000000000001, -1000000000001, INT64_MIN, -1};
    static const int64_t CAPACITIES[] = {4096, 4097, -2, INT64_MAX, 0};
    static const uint32_t VALUES[] = {5, 4097, UINT32_MAX, 1, 0}, ENDS[] = {0, 1, UINT32_MAX};
    size_t *const lengths[] = {&made->from_length, &made->to_length, &made->weights_length,
                               &made->capacities_length, &made->values_length};
    const size_t e = made->edges ? below(chance, (uint32_t)made->edges) : 0;
    const size_t v = made->vertices ? below(chance, made->vertices) : 0;
    switch (below(chance, 8)) {
    case 0: made->from[e] = ENDS[below(chance, 3)]; break;
    case 1: made->to[e] = made->vertices + below(chance, 2); break;
    case 2: made->weights[e] = WEIGHTS[below(chance, 5)]; break;
    case 3: made->capacities[e] = CAPACITIES[below(chance, 5)]; break;
    case 4: made->values[v] = below(chance, 50) ? VALUES[below(chance, 5)] : 4096; break;
    case 5: *lengths[below(chance, 5)] += 1; break;
    case 6: *lengths[below(chance, 5)] = 0; break;
    default: made->vertices += below(chance, 8) ? 1 : 4097; break;
    }
}

/** Makes an instance. */
static void make(struct chance *chance, struct made *made) {
    const int is_large = below(chance, 100) == 0;
    made->kind = 1 + below(chance, KINDS);
    made->vertices = below(chance, is_large ? MOST_VERTICES : 8);
    made->edges = made->vertices ? below(chance, is_large ? MOST_EDGES : 11) : 0;
    make_edges(chance, made);
    make_values(chance, made);
    made->from_length = made->to_length = made->edges;
    made->weights_length = below(chance, 8) ? made->edges : 0;
    made->capacities_length = below(chance, 4) ? made->edges : 0;
    made->values_length = made->vertices * (made->kind == BLOSSOM_INTERVAL ? 2u : 1u);
    made->values_length = below(chance, 12) || is_path(made->kind) ? made->values_length : 0;
    if (below(chance, 6) == 0) {
        spoil(chance, made);
    }
}

/** The weight and the capacity of an edge. */
static int64_t weight_of(const struct made *made, size_t e) {
    return made->weights_length ? made->weights[e] : 1;
}

static int64_t capacity_of(const struct made *made, size_t e) {
    return made->capacities_length ? made->capacities[e] : -1;
}

/** Writes the instance as a text and answers its length. */
static size_t write_text(const struct made *made, char *text) {
    int at = sprintf(text, "p edge %" PRIu32 " %zu\n", made->vertices, made->edges);
    const size_t width = made->kind == BLOSSOM_INTERVAL ? 2 : 1;
    size_t e, v;
    for (e = 0; e < made->edges; e++) {
        at += sprintf(text + at, "e %" PRIu32 " %" PRIu32, made->from[e], made->to[e]);
        at += sprintf(text + at, " %" PRId64, weight_of(made, e));
        if (capacity_of(made, e) != -1) {
            at += sprintf(text + at, " %" PRId64, capacity_of(made, e));
        }
        at += sprintf(text + at, "\n");
    }
    for (v = 0; v < made->values_length / width; v++) {
        at += sprintf(text + at, "n %zu %" PRIu32, v + 1, made->values[v * width]);
        if (width == 2) {
            at += sprintf(text + at, " %" PRIu32, made->values[2 * v + 1]);
        }
        at += sprintf(text + at, "\n");
    }
    return (size_t)at;
}

#endif
