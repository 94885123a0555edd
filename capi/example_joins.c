/**
 * @file
 * Finds minimum-weight T-joins for many sets of terminals in one graph by one call, as a decoder
 * does for the shots of a code. Prints what each set came to; two of them have no join.
 *
 *     capi/build.sh
 *     cc -std=c99 -Icapi capi/example_joins.c capi/out/libblossom.so \
 *        -Wl,-rpath,"$PWD/capi/out" -o example
 *
 * capi/out/libblossom.a works as well.
 */
#include "blossom.h"

#include <stdio.h>
#include <stdlib.h>

enum { VERTICES = 6, EDGES = 7, SETS = 5 };

/* A ring of five vertices with a chord, and an edge to the sixth vertex. */
static const uint32_t FROM[] = {1, 2, 3, 4, 5, 1, 5}, TO[] = {2, 3, 4, 5, 1, 3, 6};
static const int64_t WEIGHTS[] = {2, 3, 1, 4, 2, 1, 5};
/* The sets {1, 4}, {}, {2, 3, 5, 6}, {1, 2, 3} and {4, 7}. */
static const uint32_t STARTS[] = {0, 2, 2, 6, 9, 11};
static const uint32_t TERMINALS[] = {1, 4, 2, 3, 5, 6, 1, 2, 3, 4, 7};

/** Prints what a set came to. */
static void print(const struct blossom_joins_answer *answer, size_t set) {
    const int64_t detail = answer->details[set];
    int64_t k;
    printf("set %zu: ", set);
    switch (answer->outcomes[set]) {
    case BLOSSOM_JOINED:
        printf("weight %lld, edges", (long long)detail);
        for (k = answer->starts[set]; k < answer->starts[set + 1]; k++) {
            printf(" %lld", (long long)answer->edges[k]);
        }
        printf("\n");
        break;
    case BLOSSOM_NO_JOIN: printf("a component has an odd number of terminals\n"); break;
    case BLOSSOM_TERMINAL_OUT_OF_RANGE:
        printf("the terminal at index %lld is not a vertex\n", (long long)detail);
        break;
    case BLOSSOM_TERMINAL_REPEATED:
        printf("the terminal at index %lld is repeated\n", (long long)detail);
        break;
    default: printf("the certificate graph is too large\n"); break;
    }
}

int main(void) {
    const struct blossom_instance graph = {BLOSSOM_TJOIN, VERTICES, EDGES, FROM, TO,
                                           WEIGHTS,       NULL,     NULL};
    const struct blossom_terminal_sets sets = {SETS, STARTS, TERMINALS};
    struct blossom_joins_answer answer = {0};
    uint32_t status;
    size_t set;

    if (blossom_abi() != BLOSSOM_ABI) {
        fprintf(stderr, "the library has version %u, its header %d: install both of one release\n",
                (unsigned)blossom_abi(), BLOSSOM_ABI);
        return 1;
    }
    answer.size = BLOSSOM_JOINS_SIZE(SETS, EDGES);
    answer.numbers = malloc(answer.size * sizeof *answer.numbers);
    status = answer.numbers == NULL ? BLOSSOM_OUT_OF_MEMORY : blossom_joins(&graph, &sets, &answer);
    if (status != BLOSSOM_OK) {
        fprintf(stderr, "status %u, index %u: %s\n", (unsigned)status, (unsigned)answer.index,
                blossom_rule_text(status, answer.rule));
    }
    for (set = 0; set < answer.sets; set++) {
        print(&answer, set);
    }
    free(answer.numbers);
    return status != BLOSSOM_OK;
}
