/* In place of the library: it is of version VERSION, and each of its calls ends with STATUS and
 * without an answer. With -Dmalloc=no_memory there is no memory. */
#include "blossom.h"

#include <stdlib.h>

#ifdef malloc
void *no_memory(size_t size) {
    (void)size;
    return NULL;
}
#endif

uint32_t blossom_abi(void) { return VERSION; }

uint32_t blossom_call(uint32_t task, uint32_t kind, const uint8_t *input, size_t length,
                      uint8_t *output, size_t size, size_t *used) {
    (void)task, (void)kind, (void)input, (void)length, (void)output, (void)size;
    *used = 0;
    return STATUS;
}

uint32_t blossom_solve_arrays(uint32_t task, uint32_t kind, uint32_t vertices, const uint32_t *from,
                              size_t from_length, const uint32_t *to, size_t to_length,
                              const int64_t *weights, size_t weights_length,
                              const int64_t *capacities, size_t capacities_length,
                              const uint32_t *values, size_t values_length, int64_t *output,
                              size_t size, size_t *used) {
    (void)task, (void)kind, (void)vertices, (void)from, (void)from_length, (void)to;
    (void)to_length, (void)weights, (void)weights_length, (void)capacities;
    (void)capacities_length, (void)values, (void)values_length, (void)output, (void)size;
    *used = 0;
    return STATUS;
}

uint32_t blossom_join_arrays(uint32_t vertices, const uint32_t *from, size_t from_length,
                             const uint32_t *to, size_t to_length, const int64_t *weights,
                             size_t weights_length, const uint32_t *starts, size_t starts_length,
                             const uint32_t *terminals, size_t terminals_length, int64_t *output,
                             size_t size, size_t *used) {
    (void)vertices, (void)from, (void)from_length, (void)to, (void)to_length, (void)weights;
    (void)weights_length, (void)starts, (void)starts_length, (void)terminals;
    (void)terminals_length, (void)output, (void)size;
    *used = 0;
    return STATUS;
}

uint32_t blossom_check_arrays(uint32_t kind, uint32_t vertices, const uint32_t *from,
                              size_t from_length, const uint32_t *to, size_t to_length,
                              const int64_t *weights, size_t weights_length,
                              const int64_t *capacities, size_t capacities_length,
                              const uint32_t *values, size_t values_length, const int64_t *numbers,
                              size_t numbers_length, int64_t *output, size_t size, size_t *used) {
    (void)kind, (void)vertices, (void)from, (void)from_length, (void)to;
    (void)to_length, (void)weights, (void)weights_length, (void)capacities;
    (void)capacities_length, (void)values, (void)values_length, (void)numbers;
    (void)numbers_length, (void)output, (void)size;
    *used = 0;
    return STATUS;
}
