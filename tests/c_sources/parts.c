/* Prints the parts of answers as `blossom_part` finds them, each part twice: from the numbers, and
 * from the fields of `struct blossom_answer`. */
#include "blossom.h"

#include <stdio.h>

static void print(uint32_t part, const int64_t *first, size_t count) {
    size_t k;
    printf("%u:", (unsigned)part);
    for (k = 0; first && k < count; k++) {
        printf(" %lld", (long long)first[k]);
    }
    printf("%s\n", first ? "" : " nothing");
}

static void print_numbers(uint32_t kind, const struct blossom_answer *answer) {
    uint32_t part;
    for (part = 0; part <= BLOSSOM_PART_PATH_EDGES + 1; part++) {
        size_t count = 77;
        const int64_t *first = blossom_part(kind, part, answer->numbers, answer->length, &count);
        print(part, first, count);
        if (!first && count != 0) {
            printf("%zu numbers of nothing\n", count);
        }
    }
}

static void print_fields(const struct blossom_answer *answer) {
    const size_t sets = answer->sets, paths = answer->paths;
    printf("%u %lld %u, %u %u\n", (unsigned)answer->outcome, (long long)answer->weight,
           (unsigned)answer->start, (unsigned)answer->rule, (unsigned)answer->index);
    print(BLOSSOM_PART_SOLUTION, answer->solution, answer->solution_length);
    print(BLOSSOM_PART_DUALS, answer->duals, answer->duals_length);
    print(BLOSSOM_PART_SET_DUALS, answer->set_duals, sets);
    print(BLOSSOM_PART_SET_OFFSETS, answer->offsets, sets + (sets > 0));
    print(BLOSSOM_PART_SET_MEMBERS, answer->members, sets ? (size_t)answer->offsets[sets] : 0);
    print(BLOSSOM_PART_OBSTRUCTION, answer->obstruction, answer->obstruction_length);
    print(BLOSSOM_PART_PATH_STARTS, answer->path_starts, paths);
    print(BLOSSOM_PART_PATH_OFFSETS, answer->path_offsets, paths + (paths > 0));
    print(BLOSSOM_PART_PATH_EDGES, answer->path_edges,
          paths ? (size_t)answer->path_offsets[paths] : 0);
}

static void show(const struct blossom_instance *instance, int without_proof) {
    int64_t numbers[500];
    struct blossom_answer answer = {0};
    answer.numbers = numbers;
    answer.size = 500;
    answer.without_proof = without_proof;
    printf("status %u\n", (unsigned)blossom_solve(instance, &answer));
    print_numbers(instance->kind, &answer);
    print_fields(&answer);
}

int main(void) {
    static const uint32_t FROM[] = {1, 2, 1, 4, 5, 4, 3}, TO[] = {2, 3, 3, 5, 6, 6, 4};
    static const int64_t WEIGHTS[] = {1, 1, 1, 1, 1, 1, 10};
    static const uint32_t STAR_FROM[] = {3, 2, 3, 5}, STAR_TO[] = {1, 3, 4, 3};
    static const uint32_t ENDS[] = {0, 0, 1, 0, 1}, BEYOND[] = {1, 3, 6, 3};
    static const uint32_t BOUNDS[] = {1, 2, 0, 1, 1, 1, 0, 1, 0, 1, 0, 1};
    struct blossom_instance instance = {BLOSSOM_PERFECT, 6, 7, FROM, TO, WEIGHTS, NULL, NULL};
    struct blossom_instance star = {BLOSSOM_GALLAI, 5, 4, STAR_FROM, STAR_TO, NULL, NULL, NULL};
    show(&instance, 0);
    show(&instance, 1);
    instance.kind = BLOSSOM_INTERVAL;
    instance.values = BOUNDS;
    show(&instance, 0);
    show(&star, 0);
    show(&star, 1);
    star.kind = BLOSSOM_PERFECT;
    show(&star, 0);
    star.kind = BLOSSOM_PATH;
    star.values = ENDS;
    show(&star, 0);
    star.to = BEYOND;
    show(&star, 0);
    star.to = NULL;
    show(&star, 0);
    return 0;
}
