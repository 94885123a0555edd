/* Prints the joins of sets as the fields of `struct blossom_joins_answer` have them, and what these
 * are at other statuses. */
#include "blossom.h"

#include <stdio.h>

enum { EDGES = 4, SETS = 4 };

/* Vertices 1 to 3 with a parallel edge and a loop, and vertex 4 alone. */
static const uint32_t FROM[] = {1, 2, 2, 3}, TO[] = {2, 3, 3, 3}, NO_VERTEX[] = {0, 2, 2, 3};
static const int64_t WEIGHTS[] = {2, 5, -1, -3};
static const uint32_t STARTS[] = {0, 0, 2, 4, 5}, TERMINALS[] = {1, 2, 3, 3, 4}, VALUES[4] = {0};
static const uint32_t FALLING[] = {0, 3, 2, 4, 5};

static void print_sets(const struct blossom_joins_answer *answer) {
    size_t set;
    for (set = 0; set < answer->sets; set++) {
        int64_t k;
        printf("%lld %lld:", (long long)answer->outcomes[set], (long long)answer->details[set]);
        for (k = answer->starts[set]; k < answer->starts[set + 1]; k++) {
            printf(" %lld", (long long)answer->edges[k]);
        }
        printf("\n");
    }
}

static void show(const struct blossom_instance *graph, size_t count, const uint32_t *starts,
                 const uint32_t *terminals, size_t size) {
    const struct blossom_terminal_sets sets = {count, starts, terminals};
    int64_t numbers[BLOSSOM_JOINS_SIZE(SETS, EDGES)];
    struct blossom_joins_answer answer = {0};
    uint32_t status;
    answer.numbers = size ? numbers : NULL;
    answer.size = size;
    answer.edges = numbers; /* as a call before this one left it */
    answer.sets = answer.length = 99;
    status = blossom_joins(graph, &sets, &answer);
    printf("status %u, ", (unsigned)status);
    if (status == BLOSSOM_OK) {
        printf("%zu sets, %zu numbers\n", answer.sets, answer.length);
        print_sets(&answer);
        return;
    }
    printf("%zu numbers, %zu sets, rule %u %u, %s\n", answer.length, answer.sets,
           (unsigned)answer.rule, (unsigned)answer.index,
           answer.outcomes || answer.details || answer.starts || answer.edges ? "some" : "nothing");
}

int main(void) {
    const size_t whole = BLOSSOM_JOINS_SIZE(SETS, EDGES);
    const struct blossom_instance graph = {BLOSSOM_TJOIN, 4, EDGES, FROM, TO, WEIGHTS, NULL, NULL};
    struct blossom_instance other = graph;
    show(&graph, SETS, STARTS, TERMINALS, whole);
    show(&graph, 0, STARTS, NULL, whole);
    show(&graph, SETS, NULL, TERMINALS, whole);
    show(&graph, SETS, FALLING, TERMINALS, whole);
    show(&graph, SETS, STARTS, NULL, whole);
    other.from = NO_VERTEX;
    show(&other, SETS, STARTS, TERMINALS, whole);
    show(&graph, SETS, STARTS, TERMINALS, 15);
    show(&graph, SETS, STARTS, TERMINALS, 0);
    other = graph;
    other.kind = BLOSSOM_MATCH;
    show(&other, SETS, STARTS, TERMINALS, whole);
    other = graph;
    other.values = VALUES;
    show(&other, SETS, STARTS, TERMINALS, whole);
    printf("%zu %zu %zu\n", BLOSSOM_JOINS_SIZE(0, 0), BLOSSOM_JOINS_SIZE(1, 7),
           BLOSSOM_JOINS_SIZE(1 + 2, 65535 + 1));
    return 0;
}
