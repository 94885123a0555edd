/* Prints what happens to buffers that lack an answer, to numbers without the layout of one, and the
 * text of each rule. */
#include "blossom.h"

#include <stdio.h>
#include <stdlib.h>

/* The compiler is told WHOLE_LENGTH, the length of the answer of INSTANCE. */
static const uint32_t FROM[] = {1, 2, 1}, TO[] = {2, 3, 3};
static const int64_t WEIGHTS[] = {4, 5, 6};
static const struct blossom_instance INSTANCE = {BLOSSOM_MATCH, 3, 3, FROM, TO,
                                                 WEIGHTS, NULL, NULL};

/* A buffer of this size, solved and checked: the two statuses and the length. */
static void show_buffer(size_t size) {
    struct blossom_answer answer = {0};
    uint32_t solved, checked;
    size_t k;
    answer.numbers = size ? malloc(size * sizeof *answer.numbers) : NULL;
    for (k = 0; k < size; k++) {
        answer.numbers[k] = k == 3 ? WHOLE_LENGTH - 9 : 0; /* lengths that add up */
    }
    answer.size = size;
    solved = blossom_solve(&INSTANCE, &answer);
    checked = blossom_check(&INSTANCE, &answer);
    printf("%zu: %u %u, %u %u, %zu, %d\n", size, (unsigned)solved, (unsigned)checked,
           (unsigned)answer.rule, (unsigned)answer.index, answer.length, answer.solution != NULL);
    free(answer.numbers);
}

/* A tour that uses each edge twice fills a buffer of the size that suffices without proof. */
static void show_tour(void) {
    static const uint32_t HUB[] = {1, 1, 1}, LEAVES[] = {2, 3, 4};
    const struct blossom_instance star = {BLOSSOM_POSTMAN, 4, 3, HUB, LEAVES, NULL, NULL, NULL};
    int64_t numbers[BLOSSOM_SIZE_WITHOUT_PROOF(3)];
    struct blossom_answer answer = {0};
    uint32_t status;
    answer.numbers = numbers;
    answer.size = BLOSSOM_SIZE_WITHOUT_PROOF(3);
    answer.without_proof = 1;
    status = blossom_solve(&star, &answer);
    printf("tour: %u %zu %zu\n", (unsigned)status, answer.length, answer.size);
}

/* Whether `blossom_part` finds a solution in these numbers. */
static void show_layout(const char *what, const int64_t *numbers, size_t length) {
    size_t count;
    const int64_t *first =
        blossom_part(BLOSSOM_MATCH, BLOSSOM_PART_SOLUTION, numbers, length, &count);
    printf("%s: %d %zu\n", what, first ? (int)(first - numbers) : 0, count);
}

int main(void) {
    static const int64_t WHOLE[] = {1, 6, 0, 3, 0, 0, 0, 0, 0, 0, 1, 0};
    static const int64_t PAST[] = {1, 6, 0, INT64_MAX, INT64_MAX, 0, 1, 0};
    const size_t whole = sizeof WHOLE / sizeof *WHOLE;
    const int64_t lengths[] = {-1, 1, 4, INT64_MAX, INT64_MIN};
    size_t size, place, k;
    uint32_t status, rule;
    for (size = 0; size < WHOLE_LENGTH + 3; size++) {
        show_buffer(size);
    }
    show_tour();
    show_layout("whole", WHOLE, whole);
    show_layout("shorter", WHOLE, whole - 1);
    show_layout("head alone", WHOLE, 8);
    show_layout("lengths past all numbers", PAST, 8);
    show_layout("empty", WHOLE, 0);
    show_layout("null", NULL, whole);
    for (place = 3; place < 8; place++) {
        for (k = 0; k < sizeof lengths / sizeof *lengths; k++) {
            int64_t numbers[sizeof WHOLE / sizeof *WHOLE];
            size_t copied;
            for (copied = 0; copied < whole; copied++) {
                numbers[copied] = WHOLE[copied];
            }
            numbers[place] = lengths[k];
            show_layout("another length", numbers, whole);
        }
    }
    for (status = 0; status < 12; status++) {
        for (rule = 0; rule < (status == 1 || status == 3 ? 16u : 1u); rule++) {
            printf("%u %u: %s\n", (unsigned)status, (unsigned)rule,
                   blossom_rule_text(status, rule));
        }
    }
    return 0;
}
