/**
 * @file
 * Solves two triangles with an edge between them over arrays, prints the answer and its
 * certificate, and checks it.
 *
 *     capi/build.sh
 *     cc -std=c99 -Icapi capi/example_arrays.c capi/out/libblossom.so \
 *        -Wl,-rpath,"$PWD/capi/out" -o example
 *
 * capi/out/libblossom.a works as well.
 */
#include "blossom.h"

#include <stdio.h>
#include <stdlib.h>

static const uint32_t FROM[] = {1, 2, 1, 4, 5, 4, 3}, TO[] = {2, 3, 3, 5, 6, 6, 4};
static const int64_t WEIGHTS[] = {1, 1, 1, 1, 1, 1, 10};

static void print(const char *name, const int64_t *numbers, size_t length) {
    size_t k;
    printf("%s:", name);
    for (k = 0; k < length; k++) {
        printf(" %lld", (long long)numbers[k]);
    }
    printf("\n");
}

/** Solves into a buffer that grows until the answer fits. The caller frees `answer->numbers`. */
static uint32_t solve(const struct blossom_instance *instance, struct blossom_answer *answer) {
    uint32_t status;
    do {
        free(answer->numbers);
        answer->numbers = malloc(answer->size * sizeof *answer->numbers);
        if (answer->numbers == NULL) {
            return BLOSSOM_OUT_OF_MEMORY;
        }
        status = blossom_solve(instance, answer);
        if (status == BLOSSOM_BUFFER_TOO_SMALL) {
            printf("a buffer for %zu is too small for %zu\n", answer->size, answer->length);
            answer->size = answer->length;
        }
    } while (status == BLOSSOM_BUFFER_TOO_SMALL);
    return status;
}

/** Checks the answer and prints the verdict. */
static void check(const char *what, const struct blossom_instance *instance,
                  struct blossom_answer *answer) {
    const uint32_t status = blossom_check(instance, answer);
    printf("%s: status %u, rule %u: %s\n", what, (unsigned)status, (unsigned)answer->rule,
           blossom_rule_text(status, answer->rule));
}

int main(void) {
    const struct blossom_instance instance = {BLOSSOM_PERFECT, 6, 7, FROM, TO, WEIGHTS, NULL, NULL};
    struct blossom_answer answer = {0};
    uint32_t status;
    size_t set;

    if (blossom_abi() != BLOSSOM_ABI) {
        fprintf(stderr, "the library has version %u, its header %d: install both of one release\n",
                (unsigned)blossom_abi(), BLOSSOM_ABI);
        return 1;
    }
    answer.size = 9;
    status = solve(&instance, &answer);
    if (status != BLOSSOM_OK || answer.outcome != BLOSSOM_OPTIMAL) {
        fprintf(stderr, "status %u, index %u: %s\n", (unsigned)status, (unsigned)answer.index,
                blossom_rule_text(status, answer.rule));
        free(answer.numbers);
        return 1;
    }
    printf("weight: %lld\n", (long long)answer.weight);
    print("counts", answer.solution, answer.solution_length);
    print("duals", answer.duals, answer.duals_length);
    for (set = 0; set < answer.sets; set++) {
        const int64_t first = answer.offsets[set], last = answer.offsets[set + 1];
        printf("dual %lld, ", (long long)answer.set_duals[set]);
        print("members", answer.members + first, (size_t)(last - first));
    }
    check("checked", &instance, &answer);
    answer.numbers[1]++;
    check("with another weight", &instance, &answer);
    free(answer.numbers);
    return 0;
}
