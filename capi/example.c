/**
 * @file
 * Solves two triangles with an edge between them, checks the answer after its instance, and shows
 * what a call reports if its buffer is too small.
 *
 *     capi/build.sh
 *     cc -std=c99 -Icapi capi/example.c capi/out/libblossom.so \
 *         -Wl,-rpath,"$PWD/capi/out" -o example
 *
 * capi/out/libblossom.a works as well.
 */
#include "blossom.h"

#include <stdio.h>
#include <stdlib.h>
#include <string.h>

static const char INSTANCE[] =
    "p edge 6 7\ne 1 2 1\ne 2 3 1\ne 1 3 1\ne 4 5 1\ne 5 6 1\ne 4 6 1\ne 3 4 10\n";

/** The answer of a call, which the caller frees; NULL if memory runs out. */
static uint8_t *answer_to(uint32_t task, uint32_t kind, const uint8_t *input, size_t length,
                          size_t *used, uint32_t *status) {
    size_t size = 16;
    uint8_t *answer = malloc(size);
    while (answer != NULL) {
        *status = blossom_call(task, kind, input, length, answer, size, used);
        if (*status != BLOSSOM_BUFFER_TOO_SMALL) {
            return answer;
        }
        printf("%zu bytes are too few for %zu\n", size, *used);
        free(answer);
        size = *used;
        answer = malloc(size);
    }
    return NULL;
}

int main(void) {
    size_t length = strlen(INSTANCE), used, verdict_used;
    uint32_t status;
    uint8_t *answer, *both, *verdict;

    if (blossom_abi() != BLOSSOM_ABI) {
        fprintf(stderr, "the library has version %u, its header %d: install both of one release\n",
                (unsigned)blossom_abi(), BLOSSOM_ABI);
        return 1;
    }
    answer = answer_to(BLOSSOM_SOLVE, BLOSSOM_PERFECT, (const uint8_t *)INSTANCE, length, &used,
                       &status);
    if (answer == NULL || status != BLOSSOM_OK) {
        fprintf(stderr, "%s\n", blossom_rule_text(answer ? status : BLOSSOM_OUT_OF_MEMORY, 0));
        free(answer);
        return 1;
    }
    fwrite(answer, 1, used, stdout);

    both = malloc(length + used);
    if (both == NULL) {
        free(answer);
        return 1;
    }
    memcpy(both, INSTANCE, length);
    memcpy(both + length, answer, used);
    verdict =
        answer_to(BLOSSOM_CHECK, BLOSSOM_PERFECT, both, length + used, &verdict_used, &status);
    if (verdict != NULL) {
        fwrite(verdict, 1, verdict_used, stdout);
    }
    free(both);
    free(answer);
    if (verdict == NULL) {
        return 1;
    }
    free(verdict);
    return status == BLOSSOM_OK ? 0 : 1;
}
