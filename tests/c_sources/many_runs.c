/* Many calls of the library in one process, on instances made by seed: over arrays and over texts,
 * of each kind, well-formed and malformed. Each answer is compared with a plain reader and a plain
 * solver (plain_answers.h), with the answer of the other interface, and judged by `blossom_check`.
 *
 *     many_runs SEED FIRST COUNT SHOWN
 *
 * makes the runs FIRST to before FIRST + COUNT. Each SHOWN-th prints its calls over texts and what
 * they answered, for a reader in another language. The last lines count runs by kind and status,
 * and faults.
 */
#include "plain_answers.h"

#include <stdlib.h>
#include <string.h>

enum { MOST_NUMBERS = 1 << 20, MOST_BYTES = 1 << 23, STATUSES = 11 };

static int64_t numbers[MOST_NUMBERS], others[MOST_NUMBERS];
static char text[MOST_BYTES], changed[MOST_BYTES], output[MOST_BYTES];
static uint64_t counts[KINDS + 1][STATUSES], known[KINDS + 1], changes, accepted, faults;

/** Whether a run's calls over texts are shown. */
static int is_shown;
static uint64_t run;

static void expect(int holds, uint32_t kind, const char *what) {
    if (!holds) {
        faults++;
        printf("FAULT run %" PRIu64 ", %s: %s\n", run, KIND_NAMES[kind], what);
    }
}

/** A call over arrays: BLOSSOM_CHECK judges `told` numbers of `given`. */
static uint32_t call_arrays(uint32_t task, const struct made *made, const int64_t *given,
                            size_t told, int64_t *to, size_t *used) {
    if (task == BLOSSOM_CHECK) {
        return blossom_check_arrays(
            made->kind, made->vertices, made->from, made->from_length, made->to, made->to_length,
            made->weights, made->weights_length, made->capacities, made->capacities_length,
            made->values, made->values_length, given, told, to, MOST_NUMBERS, used);
    }
    return blossom_solve_arrays(task, made->kind, made->vertices, made->from, made->from_length,
                                made->to, made->to_length, made->weights, made->weights_length,
                                made->capacities, made->capacities_length, made->values,
                                made->values_length, to, MOST_NUMBERS, used);
}

/** A call over texts, whose answer gets a zero byte after it. */
static uint32_t call_text(uint32_t task, uint32_t kind, const char *given, size_t length,
                          size_t *used) {
    const uint32_t status =
        blossom_call(task, kind, (const uint8_t *)given, length, (uint8_t *)output,
                     sizeof output - 1, used);
    output[status <= BLOSSOM_OUT_OF_MEMORY ? *used : 0] = '\0';
    if (is_shown) {
        printf("@ %s %s %u %zu %zu\n", task == BLOSSOM_CHECK ? "check" : "solve", KIND_NAMES[kind],
               (unsigned)status, length, *used);
        fwrite(given, 1, length, stdout);
        fwrite(output, 1, *used, stdout);
    }
    return status;
}

/** The line of a text that the first fault of its arrays is in. */
static int line_of(const struct made *made, struct fault fault, char *line) {
    const size_t width = made->kind == BLOSSOM_INTERVAL ? 2 : 1;
    const size_t lines = 1 + made->edges + made->values_length / width;
    switch (fault.rule) {
    case BLOSSOM_VERTICES: return sprintf(line, "s MALFORMED Range 1\n");
    case BLOSSOM_ENDPOINT:
    case BLOSSOM_WEIGHT:
    case BLOSSOM_CAPACITY: return sprintf(line, "s MALFORMED Range %u\n", fault.index + 1);
    case BLOSSOM_VALUE:
        return sprintf(line, "s MALFORMED Range %zu\n", 1 + made->edges + fault.index);
    case BLOSSOM_NEGATIVE: return sprintf(line, "s MALFORMED Negative %u\n", fault.index + 1);
    default: return sprintf(line, "s MALFORMED PathEnds %zu\n", lines + 1);
    }
}

/** A malformed instance: each call names the first rule that it breaks. */
static void try_malformed(const struct made *made, struct fault fault) {
    const int64_t nothing[1] = {0};
    char line[80];
    size_t used = 0, length;
    expect(call_arrays(BLOSSOM_CHECK, made, nothing, 0, others, &used) == BLOSSOM_MALFORMED &&
               others[0] == fault.rule && others[1] == fault.index,
           made->kind, "check names another fault of the arrays");
    if (fault.rule == BLOSSOM_LENGTHS) {
        return;
    }
    length = write_text(made, text);
    line_of(made, fault, line);
    expect(call_text(BLOSSOM_SOLVE, made->kind, text, length, &used) == BLOSSOM_MALFORMED &&
               strcmp(output, line) == 0,
           made->kind, "solve names another fault of the text");
}

/** An answer over arrays: what it states holds, trying all finds the same, a check accepts it. */
static void try_answer(const struct made *made, size_t length) {
    const struct stated plain = plain_solution(made);
    const uint32_t kind = made->kind;
    size_t used = 0;
    expect(is_feasible(made, numbers), kind, "the solution is infeasible or of another weight");
    if (plain.outcome != UNKNOWN) {
        known[kind]++;
        expect(numbers[0] == plain.outcome && numbers[1] == plain.weight, kind,
               "trying all finds another optimum");
    }
    expect(call_arrays(BLOSSOM_SOLVE_WITHOUT_PROOF, made, NULL, 0, others, &used) == BLOSSOM_OK &&
               others[0] == numbers[0] && others[1] == numbers[1] && is_feasible(made, others),
           kind, "the answer without proof is another");
    expect(call_arrays(BLOSSOM_CHECK, made, numbers, length, others, &used) == BLOSSOM_OK &&
               used == 0,
           kind, "check rejects the answer");
}

/** An answer with one number changed: it is rejected, or what it states still holds. */
static void try_changed_answer(struct chance *chance, const struct made *made, size_t length) {
    const size_t place = below(chance, 2) ? below(chance, (uint32_t)length) : below(chance, 8);
    const int64_t old = numbers[place];
    const int64_t more = below(chance, 8) ? (below(chance, 2) ? 1 : -1) : (int64_t)draw(chance);
    size_t used = 0;
    uint32_t status;
    numbers[place] = (int64_t)((uint64_t)old + (uint64_t)more);
    status = call_arrays(BLOSSOM_CHECK, made, numbers, length, others, &used);
    changes++;
    accepted += status == BLOSSOM_OK;
    expect(status == BLOSSOM_REJECTED ||
               (status == BLOSSOM_OK && place > 1 && is_feasible(made, numbers)),
           made->kind, "check accepts a changed answer");
    numbers[place] = old;
}

/** The same instance as a text: the same statement, and a document that a check accepts. */
static size_t try_text(const struct made *made, size_t length) {
    static const char *const OUTCOMES[] = {"", "OPTIMAL", "INFEASIBLE", "NONCONSERVATIVE"};
    const char *const name = KIND_NAMES[made->kind], *const outcome = OUTCOMES[numbers[0]];
    char line[80];
    size_t used = 0, whole;
    int bytes = sprintf(line, "s %s %s", outcome, name);
    if (numbers[0] == BLOSSOM_OPTIMAL) {
        bytes += sprintf(line + bytes, " %" PRId64, numbers[1]);
    }
    line[bytes++] = '\n';
    expect(call_text(BLOSSOM_SOLVE, made->kind, text, length, &used) == BLOSSOM_OK &&
               strncmp(output, line, (size_t)bytes) == 0,
           made->kind, "the text gets another answer");
    memcpy(text + length, output, used);
    whole = length + used;
    expect(call_text(BLOSSOM_CHECK, made->kind, text, whole, &used) == BLOSSOM_OK &&
               strcmp(output, "s ACCEPTED\n") == 0,
           made->kind, "check rejects the document");
    return whole;
}

/** A copy of a text with one change. Answers its length. */
static size_t change(struct chance *chance, const char *from, size_t length) {
    static const char BYTES[] = "0123456789- \n\r\tcsxyzwudrtqe@.";
    const size_t place = below(chance, (uint32_t)length + 1);
    const size_t after = place + below(chance, 4);
    const size_t skipped = after < length ? after : length;
    size_t made = place;
    memcpy(changed, from, place);
    if (below(chance, 3)) {
        changed[made++] = BYTES[below(chance, sizeof BYTES - 1)];
    }
    memcpy(changed + made, from + skipped, length - skipped);
    return made + length - skipped;
}

/** Whether a status and the first words of an answer belong together. */
static int is_form(uint32_t task, uint32_t status) {
    static const char *const FIRST[] = {"s ACCEPTED\n", "s REJECTED ", "", "s MALFORMED ",
                                        "s TOOLARGE "};
    if (task != BLOSSOM_CHECK && status == BLOSSOM_OK) {
        return strncmp(output, "s ", 2) == 0;
    }
    return status <= BLOSSOM_TOO_LARGE && status != 2 &&
           strncmp(output, FIRST[status], strlen(FIRST[status])) == 0;
}

/** A changed text is judged in its form, and if it is solved, a check accepts that. */
static void try_changed_text(struct chance *chance, uint32_t kind, size_t instance, size_t whole) {
    const int is_solved = below(chance, 4) == 0;
    const uint32_t task = is_solved ? BLOSSOM_SOLVE : BLOSSOM_CHECK;
    size_t used = 0, length = change(chance, text, is_solved ? instance : whole);
    uint32_t status = call_text(task, kind, changed, length, &used);
    changes++;
    expect(is_form(task, status), kind, "a changed text is answered in another form");
    if (is_solved && status == BLOSSOM_OK) {
        if (length > 0 && changed[length - 1] != '\n') {
            changed[length++] = '\n';
        }
        memcpy(changed + length, output, used);
        status = call_text(BLOSSOM_CHECK, kind, changed, length + used, &used);
        expect(status == BLOSSOM_OK, kind, "check rejects the document of a changed text");
    }
}

/** A certificate graph over the limits is told over texts too. */
static void try_too_large(const struct made *made) {
    char line[80];
    size_t used = 0, length = write_text(made, text);
    sprintf(line, "s TOOLARGE %" PRId64 " %" PRId64 "\n", numbers[0], numbers[1]);
    expect(call_text(BLOSSOM_SOLVE, made->kind, text, length, &used) == BLOSSOM_TOO_LARGE &&
               strcmp(output, line) == 0 && (numbers[0] > 16384 || numbers[1] > 1048576),
           made->kind, "the text isn't too large in the same way");
}

static void try_run(struct chance *chance) {
    static struct made made;
    struct fault fault;
    size_t used = 0, length, whole;
    uint32_t status;
    make(chance, &made);
    fault = fault_of(&made);
    status = call_arrays(BLOSSOM_SOLVE, &made, NULL, 0, numbers, &used);
    counts[made.kind][status < STATUSES ? status : 0]++;
    expect(fault.rule ? status == BLOSSOM_MALFORMED && used == 2 && numbers[0] == fault.rule &&
                            numbers[1] == fault.index
                      : status == BLOSSOM_OK || status == BLOSSOM_TOO_LARGE,
           made.kind, "solve ends with another status or fault of the arrays");
    if (fault.rule) {
        try_malformed(&made, fault);
    } else if (status == BLOSSOM_TOO_LARGE) {
        try_too_large(&made);
    } else if (status == BLOSSOM_OK) {
        try_answer(&made, used);
        try_changed_answer(chance, &made, used);
        length = write_text(&made, text);
        whole = try_text(&made, length);
        try_changed_text(chance, made.kind, length, whole);
    }
}

int main(int count, char **words) {
    uint64_t seed, last, shown;
    uint32_t kind, status;
    if (count != 5) {
        fprintf(stderr, "usage: many_runs SEED FIRST COUNT SHOWN\n");
        return 2;
    }
    seed = strtoull(words[1], NULL, 10);
    run = strtoull(words[2], NULL, 10);
    last = run + strtoull(words[3], NULL, 10);
    shown = strtoull(words[4], NULL, 10);
    for (; run < last; run++) {
        struct chance chance = {seed << 40 ^ run};
        chance.state = draw(&chance);
        is_shown = shown && run % shown == 0;
        try_run(&chance);
    }
    for (kind = 1; kind <= KINDS; kind++) {
        printf("%s: tried all %" PRIu64 ", statuses", KIND_NAMES[kind], known[kind]);
        for (status = 0; status < STATUSES; status++) {
            printf(" %" PRIu64, counts[kind][status]);
        }
        printf("\n");
    }
    printf("changed: %" PRIu64 ", of which accepted over arrays: %" PRIu64 "\n", changes, accepted);
    printf("faults: %" PRIu64 "\n", faults);
    return faults > 0;
}
