/**
 * @file
 * Exact solvers for matching problems on undirected multigraphs with integer weights.
 *
 * The library has two interfaces with the same answers.
 *
 * Over arrays: an instance goes in as the endpoints, weights, capacities and degrees of its edges
 * and vertices; the answer comes out as numbers.
 *
 *     const uint32_t from[] = {1, 2}, to[] = {2, 3};
 *     struct blossom_instance instance = {BLOSSOM_MATCH, 3, 2, from, to, NULL, NULL, NULL};
 *     int64_t numbers[BLOSSOM_SIZE_WITHOUT_PROOF(2)];
 *     struct blossom_answer answer = {0};
 *     answer.numbers = numbers;
 *     answer.size = BLOSSOM_SIZE_WITHOUT_PROOF(2);
 *     answer.without_proof = 1;
 *     if (blossom_solve(&instance, &answer) == BLOSSOM_OK)
 *         printf("%lld\n", (long long)answer.weight);
 *
 * Over texts: `blossom_call` does what the program `blossom` does with the same bytes on its
 * standard input, by the same code. The answer is what the program prints, and the status is its
 * exit status. docs/FORMAT.md describes these texts.
 *
 * `capi/build.sh` builds libblossom.so and libblossom.a. `capi/example_arrays.c`,
 * `capi/example_joins.c` and `capi/example.c` are complete programs. docs/C.md has the same in more
 * words.
 *
 * Proved, for every input and every buffer:
 * - At a status from 0 to 8 the answer is at the front of the buffer, and the rest of the buffer is
 *   unchanged.
 * - Text and status are such as the program may give for these bytes. Which of several optimal
 *   solutions is given is unspecified, for the program too.
 * - What an accepted or written document states is true of its instance.
 * - `check` accepts a document that was solved with its proof, after an input that ends in a line
 *   feed.
 * - Every instance within the limits is answered, unless memory runs out.
 * - At BLOSSOM_BUFFER_TOO_SMALL and BLOSSOM_INVALID_ARGUMENT the buffer is unchanged.
 * - A call ends. It reads and writes what it is given and memory that it allocates.
 * - Over arrays: which arrays are refused, by the first fault; all others get the answer to exactly
 *   this instance.
 * - A buffer of BLOSSOM_SIZE_WITHOUT_PROOF(m) numbers is never too small for an answer without
 *   proof on m edges, nor one of BLOSSOM_JOINS_SIZE(k, m) for the joins of k terminal sets.
 * - Each terminal set gets a minimum-weight T-join and its weight, or the reason why it has none.
 *
 * Tested: the shared library answers as the program does, byte for byte, and over arrays as over
 * texts; equal calls give equal answers; calls free the memory that they allocate.
 *
 * Assumed: what each call requires of its caller; that this header declares what the library
 * defines; the compiler and the linker; malloc, realloc, free, memcpy, memmove and memset of the
 * process. Time and the amount of memory are outside the proof.
 */
#ifndef BLOSSOM_H
#define BLOSSOM_H

#include <stddef.h>
#include <stdint.h>

#ifdef __cplusplus
#define BLOSSOM_CAST_(type, value) (static_cast<type>(value))
#define BLOSSOM_NULL_ nullptr
extern "C" {
#else
#define BLOSSOM_CAST_(type, value) ((type)(value))
#define BLOSSOM_NULL_ NULL
#endif

/** Version of these declarations. Under another version a call or a number means something else. */
#define BLOSSOM_ABI 5

/**
 * Version that the library was built for. Compare it with BLOSSOM_ABI if you load the library at
 * run time.
 */
uint32_t blossom_abi(void);

/** What to do. */
enum blossom_task {
    BLOSSOM_SOLVE = 1,               /**< solve with certificate: `blossom solve KIND` */
    BLOSSOM_SOLVE_WITHOUT_PROOF = 2, /**< solve without it: `blossom solve KIND --brief` */
    BLOSSOM_CHECK = 3,               /**< judge a document after its instance */
    BLOSSOM_SOLVE_BRIEFLY = BLOSSOM_SOLVE_WITHOUT_PROOF /**< its name in 1.0.0 */
};

/** The kind of problem. */
enum blossom_kind {
    BLOSSOM_PERFECT = 1,     /**< minimum-weight perfect matching */
    BLOSSOM_MATCH = 2,       /**< maximum-weight matching */
    BLOSSOM_BMATCH = 3,      /**< perfect b-matching: degree b(v) at each vertex */
    BLOSSOM_CAPMATCH = 4,    /**< the same with edge capacities */
    BLOSSOM_FFACTOR = 5,     /**< f-factor: the same with each edge at most once */
    BLOSSOM_TJOIN = 6,       /**< minimum-weight T-join: T is the vertices of odd value */
    BLOSSOM_POSTMAN = 7,     /**< Chinese postman tour */
    BLOSSOM_PATH = 8,        /**< shortest path under conservative weights */
    BLOSSOM_INTERVAL = 9,    /**< degrees between two bounds, with edge capacities */
    BLOSSOM_ODDPATH = 10,    /**< shortest path with an odd number of edges, weights nonnegative */
    BLOSSOM_EVENPATH = 11,   /**< the same with an even number of edges */
    BLOSSOM_BOTTLENECK = 12, /**< perfect matching that minimises the largest edge weight */
    BLOSSOM_GALLAI = 13      /**< maximum matching with the Gallai-Edmonds decomposition */
};

/**
 * Result of a call. Values 0 to 8 equal the program's exit statuses. 2, 6 and 7 never occur: the
 * arguments of a call always form a command, and reading and writing memory cannot fail.
 */
enum blossom_status {
    BLOSSOM_OK = 0,               /**< solved; or accepted */
    BLOSSOM_REJECTED = 1,         /**< the document or answer breaks a rule, which is named */
    BLOSSOM_MALFORMED = 3,        /**< the instance breaks a rule, which is named */
    BLOSSOM_TOO_LARGE = 4,        /**< the certificate graph is too large; its size is given */
    BLOSSOM_TOO_LONG = 5,         /**< text over 536,870,912 bytes (check) or 16,777,216 */
    BLOSSOM_OUT_OF_MEMORY = 8,    /**< out of memory; the answer is empty */
    BLOSSOM_BUFFER_TOO_SMALL = 9, /**< `*used` is the length of the answer; nothing was written */
    BLOSSOM_INVALID_ARGUMENT = 10, /**< unknown task or kind; nothing was written */
    BLOSSOM_DONE = BLOSSOM_OK,     /**< its name in 1.0.0 */
    BLOSSOM_SHORT_BUFFER = BLOSSOM_BUFFER_TOO_SMALL, /**< its name in 1.0.0 */
    BLOSSOM_NO_SUCH_CALL = BLOSSOM_INVALID_ARGUMENT  /**< its name in 1.0.0 */
};

/** Length of the longest text that a call writes for every kind but BLOSSOM_GALLAI, in bytes. */
#define BLOSSOM_MAX_ANSWER_BYTES (BLOSSOM_CAST_(size_t, 8) << 20)
/** The same for BLOSSOM_GALLAI, whose answers have a path for each vertex of D(G). */
#define BLOSSOM_MAX_GALLAI_BYTES (BLOSSOM_CAST_(size_t, 128) << 20)
/** The name of BLOSSOM_MAX_ANSWER_BYTES in 1.0.0. */
#define BLOSSOM_LONGEST_ANSWER BLOSSOM_MAX_ANSWER_BYTES

/**
 * Does a task for a kind on a text.
 *
 * Equal calls give equal answers. A call that ends with BLOSSOM_BUFFER_TOO_SMALL did all of the
 * work: call again with `*used` bytes, which does the work again.
 *
 * Requirements on the caller:
 * - `input`, `output` and `used` are not null, even if `length` or `size` is 0. The address of any
 *   byte will do then.
 * - `length` bytes at `input` can be read; `size` bytes at `output` and the number at `used` can be
 *   read and written; `used` is aligned for a size_t. They do not overlap. Until the call ends, no
 *   thread writes to any of them and none reads `output` or `used`. Their contents before the call
 *   are irrelevant.
 * - `length` and `size` are below 2^63.
 * - malloc, realloc and free of the process are one allocator. It aligns each block to every power
 *   of two up to 16 that divides the size of the block.
 * - The caller is neither a signal handler nor the child of a fork in a process with threads before
 *   that child has called exec.
 *
 * Calls in several threads share nothing. Nothing can stop a call before it ends.
 *
 * @param      task    an `enum blossom_task`
 * @param      kind    an `enum blossom_kind`
 * @param      input   the instance, or for BLOSSOM_CHECK the instance and the document after it
 * @param      length  bytes at `input`
 * @param[out] output  the answer, without a zero byte after it
 * @param      size    bytes that fit at `output`
 * @param[out] used    length of the answer, also if it does not fit
 * @return an `enum blossom_status`
 */
uint32_t blossom_call(uint32_t task, uint32_t kind, const uint8_t *input, size_t length,
                      uint8_t *output, size_t size, size_t *used);

/* ---- over arrays */

/**
 * What is wrong with the arrays of an instance: the first fault in this order. Edges are looked at
 * one by one (endpoints, weight, capacity), and vertices after them. 7 is unused.
 */
enum blossom_input_error {
    BLOSSOM_LENGTHS = 1,    /**< an array has the wrong length */
    BLOSSOM_VERTICES = 2,   /**< more than 4,096 vertices */
    BLOSSOM_EDGES = 3,      /**< more than 65,536 edges */
    BLOSSOM_ENDPOINT = 4,   /**< an endpoint is 0 or greater than the number of vertices */
    BLOSSOM_WEIGHT = 5,     /**< a weight exceeds 10^12 in absolute value */
    BLOSSOM_CAPACITY = 6,   /**< a capacity is less than -1 or greater than 4,096 */
    BLOSSOM_VALUE = 8,      /**< a degree exceeds 4,096, or a lower bound its upper bound */
    BLOSSOM_NEGATIVE = 9,   /**< a weight is negative (postman, oddpath, evenpath) */
    BLOSSOM_PATH_ENDS = 10, /**< other than two odd values (path, oddpath, evenpath) */
    BLOSSOM_STARTS = 11     /**< starts of terminal sets: not from 0, falling, or a wrong end */
};

/** The first rule that an answer breaks. The names are those of docs/FORMAT.md. */
enum blossom_violation {
    BLOSSOM_DOC_FORM = 1,        /**< the numbers do not form an answer with its certificate */
    BLOSSOM_KIND_DIFFERS = 2,    /**< never over arrays */
    BLOSSOM_DOC_RANGE = 3,       /**< a number is out of range */
    BLOSSOM_NOT_FEASIBLE = 4,    /**< the solution is infeasible */
    BLOSSOM_WEIGHT_DIFFERS = 5,  /**< the weight of the solution differs from the stated one */
    BLOSSOM_DUAL_MISSING = 6,    /**< a vertex of the certificate graph lacks its dual */
    BLOSSOM_SET_FORM = 7,        /**< an odd set is malformed: size, order or overlap */
    BLOSSOM_SLACK = 8,           /**< an edge has negative slack */
    BLOSSOM_VALUE_DIFFERS = 9,   /**< the dual value differs from what the weight requires */
    BLOSSOM_NOT_BARRIER = 10,    /**< the set is not a barrier; gallai: not A(G) of this matching */
    BLOSSOM_NOT_CLOSED = 11,     /**< the vertex set does not exclude all solutions of the kind */
    BLOSSOM_NOT_CIRCUIT = 12,    /**< the walk is not a cycle of negative weight */
    BLOSSOM_PATH_FORM = 13,      /**< a path is not alternating to an exposed vertex */
    BLOSSOM_PATH_MISSING = 14    /**< never over arrays */
};

/** What an answer states. */
enum blossom_outcome {
    BLOSSOM_OPTIMAL = 1,        /**< the solution is optimal */
    BLOSSOM_INFEASIBLE = 2,     /**< no feasible solution exists */
    BLOSSOM_NONCONSERVATIVE = 3 /**< the solution is a cycle of negative weight (path) */
};

/**
 * The numbers of an answer, at BLOSSOM_OK. `blossom_part` finds each part, so a caller need not
 * compute with this table. H is the certificate graph.
 *
 *     index    numbers  content                                             BLOSSOM_PART_..
 *     0        1        an `enum blossom_outcome`
 *     1        1        the weight of an optimal solution, else 0
 *     2        1        the vertex at which a walk starts, else 0
 *     3 to 7   5        the lengths a, p, k, t, b of the parts below
 *     8        a        the count of each edge; for walks the edges in       SOLUTION
 *                       order, by index from 1 (postman, path, oddpath,
 *                       evenpath, and a cycle of negative weight)
 *              p        doubled duals of the vertices of H                   DUALS
 *              k        doubled duals of odd sets; gallai: the vertices at   SET_DUALS;
 *                       which the paths start, ascending, which are D(G)     PATH_STARTS
 *              k + 1    items of set or path j are those from offset j to    SET_OFFSETS;
 *                       before offset j + 1, for j from 0                    PATH_OFFSETS
 *              t        items of odd sets: a vertex of H, or -j for all      SET_MEMBERS;
 *                       members of the j-th set, from 1, which comes         PATH_EDGES
 *                       earlier; gallai: the edges of the paths in order
 *              b        the obstruction: a barrier or a closed vertex set    OBSTRUCTION
 *                       that excludes all solutions; bottleneck: also the
 *                       barrier of an optimal solution; gallai: A(G)
 *
 * Without proof p, k, t and b are 0, and one offset remains.
 */
enum blossom_answer_part {
    BLOSSOM_PART_SOLUTION = 1,
    BLOSSOM_PART_DUALS = 2,
    BLOSSOM_PART_SET_DUALS = 3,    /**< empty for gallai */
    BLOSSOM_PART_SET_OFFSETS = 4,  /**< empty for gallai */
    BLOSSOM_PART_SET_MEMBERS = 5,  /**< empty for gallai */
    BLOSSOM_PART_OBSTRUCTION = 6,
    BLOSSOM_PART_PATH_STARTS = 7,  /**< empty but for gallai */
    BLOSSOM_PART_PATH_OFFSETS = 8, /**< empty but for gallai */
    BLOSSOM_PART_PATH_EDGES = 9    /**< empty but for gallai */
};

/**
 * Solves an instance given as arrays. Edges and vertices count from 1.
 *
 * At BLOSSOM_OK `output` has the numbers of an answer (see `enum blossom_answer_part`). At
 * BLOSSOM_MALFORMED it has two: an `enum blossom_input_error`, and the index of the edge or vertex
 * or 0. At BLOSSOM_TOO_LARGE it has the vertices and edges of the certificate graph. At the other
 * statuses it is unchanged.
 *
 * The requirements of `blossom_call` hold for each pointer and each length. `from` to `values` may
 * overlap each other; `output` and `used` overlap nothing.
 *
 * @param      task        BLOSSOM_SOLVE or BLOSSOM_SOLVE_WITHOUT_PROOF
 * @param      kind        an `enum blossom_kind`
 * @param      vertices    number of vertices
 * @param      from        one endpoint of each edge
 * @param      to          the other endpoint; equal to the first for a loop
 * @param      weights     one for each edge; with length 0 each edge weighs 1
 * @param      capacities  one for each edge, -1 for unlimited; with length 0 all are unlimited
 * @param      values      the degree of each vertex; terminals and path ends are odd; interval: the
 *                         lower and the upper bound of vertex 1, those of vertex 2, and so on; with
 *                         length 0 the default of the kind (degree 1; bounds 0 and 1; else 0)
 * @param[out] output      the numbers of the answer
 * @param      size        numbers that fit at `output`
 * @param[out] used        length of the answer in numbers, also if it does not fit
 * @return an `enum blossom_status`
 */
uint32_t blossom_solve_arrays(uint32_t task, uint32_t kind, uint32_t vertices, const uint32_t *from,
                              size_t from_length, const uint32_t *to, size_t to_length,
                              const int64_t *weights, size_t weights_length,
                              const int64_t *capacities, size_t capacities_length,
                              const uint32_t *values, size_t values_length, int64_t *output,
                              size_t size, size_t *used);

/**
 * Gives the size of the certificate graph of an instance: its vertices and its edges, two numbers
 * at `output`. For BLOSSOM_PATH it is the larger of two graphs. An answer has at most so many duals
 * as that graph has vertices. The call is quick, and gives the size also beyond the limits.
 * Parameters and other statuses are those of `blossom_solve_arrays`.
 */
uint32_t blossom_certificate_size(uint32_t kind, uint32_t vertices, const uint32_t *from,
                                  size_t from_length, const uint32_t *to, size_t to_length,
                                  const int64_t *weights, size_t weights_length,
                                  const int64_t *capacities, size_t capacities_length,
                                  const uint32_t *values, size_t values_length, int64_t *output,
                                  size_t size, size_t *used);

/**
 * Checks the numbers of an answer that was solved with its proof.
 *
 * At BLOSSOM_OK the answer proves what it states about exactly this instance, which is true, and
 * `*used` is 0. At BLOSSOM_REJECTED `output` has two numbers: an `enum blossom_violation`, and 0.
 * Parameters and other statuses are those of `blossom_solve_arrays`.
 */
uint32_t blossom_check_arrays(uint32_t kind, uint32_t vertices, const uint32_t *from,
                              size_t from_length, const uint32_t *to, size_t to_length,
                              const int64_t *weights, size_t weights_length,
                              const int64_t *capacities, size_t capacities_length,
                              const uint32_t *values, size_t values_length, const int64_t *numbers,
                              size_t numbers_length, int64_t *output, size_t size, size_t *used);

/** What a set of terminals T came to. A refused set leaves the other sets as they are. */
enum blossom_join_outcome {
    BLOSSOM_JOINED = 0,                /**< a minimum-weight T-join */
    BLOSSOM_NO_JOIN = 1,               /**< a component has an odd number of terminals */
    BLOSSOM_TERMINAL_OUT_OF_RANGE = 2, /**< a terminal is 0 or above the number of vertices */
    BLOSSOM_TERMINAL_REPEATED = 3,     /**< a terminal occurs earlier in the set */
    BLOSSOM_JOIN_TOO_LARGE = 4         /**< the certificate graph for this set is too large */
};

/**
 * Finds a minimum-weight T-join for each of k sets T of terminals in one graph. One call for all
 * sets takes less time than a call of `blossom_solve_arrays` for each.
 *
 * Set j, from 0, has the terminals from `terminals[starts[j]]` to before `terminals[starts[j + 1]]`
 * in any order. At BLOSSOM_OK `output` has these numbers:
 *
 *     index     numbers  content
 *     0         k        the outcome of each set, an `enum blossom_join_outcome`
 *     k         k        its detail: the weight of the join; at BLOSSOM_TERMINAL_OUT_OF_RANGE and
 *                        BLOSSOM_TERMINAL_REPEATED the index within the set, from 0, of the first
 *                        wrong terminal; else 0
 *     2k        k + 1    the edges of join j are those from start j to before start j + 1
 *     3k + 1             the edges of all joins, from 1, ascending within each join
 *
 * At BLOSSOM_MALFORMED `output` has two numbers: an `enum blossom_input_error`, and the index of
 * the edge, or 0; at BLOSSOM_STARTS it is the index in `starts`, from 0, of the first wrong item.
 * At the other statuses, BLOSSOM_OUT_OF_MEMORY and BLOSSOM_BUFFER_TOO_SMALL, it is unchanged.
 * BLOSSOM_JOINS_SIZE(k, m) numbers suffice for m edges.
 *
 * The requirements of `blossom_call` hold for each pointer and each length. `from` to `terminals`
 * may overlap each other; `output` and `used` overlap nothing.
 *
 * @param      vertices   number of vertices
 * @param      from       one endpoint of each edge
 * @param      to         the other endpoint; equal to the first for a loop
 * @param      weights    one for each edge; with length 0 each edge weighs 1
 * @param      starts     k + 1 indices of `terminals`: the first is 0, none is less than the one
 *                        before it, and the last is `terminals_length`
 * @param      terminals  vertices from 1, those of the first set first
 * @param[out] output     the numbers of the answer
 * @param      size       numbers that fit at `output`
 * @param[out] used       length of the answer in numbers, also if it does not fit
 * @return an `enum blossom_status`
 */
uint32_t blossom_join_arrays(uint32_t vertices, const uint32_t *from, size_t from_length,
                             const uint32_t *to, size_t to_length, const int64_t *weights,
                             size_t weights_length, const uint32_t *starts, size_t starts_length,
                             const uint32_t *terminals, size_t terminals_length, int64_t *output,
                             size_t size, size_t *used);

/* ---- structs over these calls, as inline functions */

/** Numbers that suffice for the joins of so many terminal sets in a graph of so many edges. */
#define BLOSSOM_JOINS_SIZE(sets, edges)                                                            \
    (2 + BLOSSOM_CAST_(size_t, sets) * (3 + BLOSSOM_CAST_(size_t, edges)))

/**
 * Numbers that suffice for an answer without proof on so many edges. With its proof an answer has
 * p + 2k + t + b more.
 */
#define BLOSSOM_SIZE_WITHOUT_PROOF(edges) (9 + 2 * BLOSSOM_CAST_(size_t, edges))

/** An instance; the caller owns its arrays. See `blossom_solve_arrays` for their contents. */
struct blossom_instance {
    uint32_t kind;             /**< an `enum blossom_kind` */
    uint32_t vertices;         /**< number of vertices */
    size_t edges;              /**< number of edges */
    const uint32_t *from;      /**< one endpoint of each edge, from 1 */
    const uint32_t *to;        /**< the other endpoint */
    const int64_t *weights;    /**< NULL: each edge weighs 1 */
    const int64_t *capacities; /**< -1: unlimited; NULL: all are unlimited */
    const uint32_t *values;    /**< interval: two for each vertex; NULL: the default of the kind */
};

/**
 * An answer. The caller sets `numbers`, `size` and `without_proof`; `blossom_solve` sets the rest.
 * Its pointers point into `numbers`. At every status but BLOSSOM_OK, the fields from `outcome` to
 * `obstruction_length` are 0 or NULL.
 */
struct blossom_answer {
    int64_t *numbers;            /**< the caller's buffer */
    size_t size;                 /**< numbers that fit in the buffer */
    int without_proof;           /**< 1: without certificate; 0: with it */
    size_t length;               /**< numbers of the answer, also if they do not fit */
    uint32_t outcome;            /**< an `enum blossom_outcome` */
    int64_t weight;              /**< weight of an optimal solution */
    uint32_t start;              /**< vertex at which a walk starts */
    const int64_t *solution;     /**< count of each edge; for walks the edges in order */
    size_t solution_length;
    const int64_t *duals;        /**< doubled duals of the vertices of the certificate graph */
    size_t duals_length;
    const int64_t *set_duals;    /**< doubled duals of the odd sets */
    size_t sets;                 /**< number of odd sets */
    const int64_t *offsets;      /**< set j: members[offsets[j]] to before offsets[j + 1] */
    const int64_t *members;      /**< vertices of the certificate graph; -j: set j, from 1 */
    const int64_t *path_starts;  /**< gallai: where the paths start, ascending: D(G) */
    size_t paths;                /**< gallai: number of paths */
    const int64_t *path_offsets; /**< path j: path_edges[path_offsets[j]] and so on */
    const int64_t *path_edges;   /**< edges of the paths in order, from 1 */
    const int64_t *obstruction;  /**< barrier or closed vertex set; gallai: A(G) */
    size_t obstruction_length;
    uint32_t rule;  /**< `enum blossom_input_error` at BLOSSOM_MALFORMED, `enum blossom_violation`
                       at BLOSSOM_REJECTED, else 0 */
    uint32_t index; /**< the edge or vertex that breaks the rule, from 1, or 0 */
};

/** Length of `values`: for BLOSSOM_INTERVAL two for each vertex, else one; 0 for NULL. */
static inline size_t blossom_values_length(const struct blossom_instance *instance) {
    const size_t vertices = instance->vertices;
    return !instance->values ? 0 : instance->kind == BLOSSOM_INTERVAL ? 2 * vertices : vertices;
}

/** Sets the sizes of the six stretches after the head of an answer; 0 if they do not add up. */
static inline int blossom_stretches_(const int64_t *numbers, size_t length, size_t *sizes) {
    static const int head[] = {3, 4, 5, 5, 6, 7};
    size_t stretch, left = length;
    if (!numbers || length < 9) {
        return 0;
    }
    left -= 9; /* the head, and the offset after the last set */
    for (stretch = 0; stretch < 6; stretch++) {
        const int64_t size = numbers[head[stretch]];
        if (BLOSSOM_CAST_(uint64_t, size) > left) { /* a negative size is a large one here */
            return 0;
        }
        sizes[stretch] = BLOSSOM_CAST_(size_t, size);
        left -= sizes[stretch];
    }
    sizes[3]++;
    return left == 0;
}

/**
 * Finds a part of an answer in its numbers, so that a binding contains no layout.
 *
 * @param      kind     the kind of the instance
 * @param      part     an `enum blossom_answer_part`
 * @param      numbers  the numbers of an answer, as written at BLOSSOM_OK
 * @param      length   how many they are
 * @param[out] count    numbers of the part
 * @return the first number of the part, which may be empty; NULL for an unknown part, and if the
 *         lengths of the parts do not add up to `length`
 */
static inline const int64_t *blossom_part(uint32_t kind, uint32_t part, const int64_t *numbers,
                                          size_t length, size_t *count) {
    const int is_path = part >= BLOSSOM_PART_PATH_STARTS && part <= BLOSSOM_PART_PATH_EDGES;
    const int is_set = part >= BLOSSOM_PART_SET_DUALS && part <= BLOSSOM_PART_SET_MEMBERS;
    const uint32_t stretch = is_path ? part - 5 : part - 1;
    size_t sizes[6], before, first = 8;
    *count = 0;
    if (stretch > 5 || !blossom_stretches_(numbers, length, sizes)) {
        return BLOSSOM_NULL_;
    }
    for (before = 0; before < stretch; before++) {
        first += sizes[before];
    }
    if (kind == BLOSSOM_GALLAI ? !is_set : !is_path) {
        *count = sizes[stretch];
    }
    return numbers + first;
}

/** Sets what `blossom_solve` sets, from the numbers and the status of a call for this kind. */
static inline void blossom_point(struct blossom_answer *answer, uint32_t kind, uint32_t status) {
    const int64_t *at = answer->numbers;
    const int is_done = status == BLOSSOM_OK, is_malformed = status == BLOSSOM_MALFORMED;
    const size_t length = is_done ? answer->length : 0;
    size_t ignored;
    answer->outcome = is_done ? BLOSSOM_CAST_(uint32_t, at[0]) : 0;
    answer->weight = is_done ? at[1] : 0;
    answer->start = is_done ? BLOSSOM_CAST_(uint32_t, at[2]) : 0;
    answer->rule = is_malformed ? BLOSSOM_CAST_(uint32_t, at[0]) : 0;
    answer->index = is_malformed ? BLOSSOM_CAST_(uint32_t, at[1]) : 0;
    answer->solution =
        blossom_part(kind, BLOSSOM_PART_SOLUTION, at, length, &answer->solution_length);
    answer->duals = blossom_part(kind, BLOSSOM_PART_DUALS, at, length, &answer->duals_length);
    answer->set_duals = blossom_part(kind, BLOSSOM_PART_SET_DUALS, at, length, &answer->sets);
    answer->offsets = blossom_part(kind, BLOSSOM_PART_SET_OFFSETS, at, length, &ignored);
    answer->members = blossom_part(kind, BLOSSOM_PART_SET_MEMBERS, at, length, &ignored);
    answer->path_starts = blossom_part(kind, BLOSSOM_PART_PATH_STARTS, at, length, &answer->paths);
    answer->path_offsets = blossom_part(kind, BLOSSOM_PART_PATH_OFFSETS, at, length, &ignored);
    answer->path_edges = blossom_part(kind, BLOSSOM_PART_PATH_EDGES, at, length, &ignored);
    answer->obstruction =
        blossom_part(kind, BLOSSOM_PART_OBSTRUCTION, at, length, &answer->obstruction_length);
}

/** The array, or an address for one that is absent. The calls take no null pointer. */
static inline const uint32_t *blossom_counts_(const uint32_t *numbers) {
    static const uint32_t nothing = 0;
    return numbers ? numbers : &nothing;
}

/** The same for weights and capacities. */
static inline const int64_t *blossom_weights_(const int64_t *numbers) {
    static const int64_t nothing = 0;
    return numbers ? numbers : &nothing;
}

/**
 * Solves an instance: `blossom_solve_arrays` over these structs.
 *
 * An array of `instance` that is NULL is absent. To ask for the length of the answer alone, set
 * `size` to 0: `numbers` may then be NULL. At BLOSSOM_TOO_LARGE the first two of `numbers` are the
 * vertices and edges of the certificate graph.
 *
 * @return an `enum blossom_status`
 */
static inline uint32_t blossom_solve(const struct blossom_instance *instance,
                                     struct blossom_answer *answer) {
    const size_t edges = instance->edges;
    int64_t nothing = 0;
    const uint32_t status = blossom_solve_arrays(
        answer->without_proof ? BLOSSOM_SOLVE_WITHOUT_PROOF : BLOSSOM_SOLVE, instance->kind,
        instance->vertices, blossom_counts_(instance->from), instance->from ? edges : 0,
        blossom_counts_(instance->to), instance->to ? edges : 0,
        blossom_weights_(instance->weights), instance->weights ? edges : 0,
        blossom_weights_(instance->capacities), instance->capacities ? edges : 0,
        blossom_counts_(instance->values), blossom_values_length(instance),
        answer->numbers ? answer->numbers : &nothing, answer->numbers ? answer->size : 0,
        &answer->length);
    blossom_point(answer, instance->kind, status);
    return status;
}

/**
 * Checks the first `length` of `numbers`, an answer that was solved with its proof:
 * `blossom_check_arrays` over these structs. Sets `rule` and `index`, and nothing else.
 *
 * If the buffer does not hold the whole answer (`length` exceeds `size`, as after
 * BLOSSOM_BUFFER_TOO_SMALL, or `numbers` is NULL), nothing is read.
 *
 * @return an `enum blossom_status`; BLOSSOM_INVALID_ARGUMENT if the buffer lacks the answer
 */
static inline uint32_t blossom_check(const struct blossom_instance *instance,
                                     struct blossom_answer *answer) {
    const size_t edges = instance->edges;
    int64_t told[2] = {0, 0};
    size_t used;
    uint32_t status = BLOSSOM_INVALID_ARGUMENT;
    if (answer->numbers && answer->length <= answer->size) {
        status = blossom_check_arrays(
            instance->kind, instance->vertices, blossom_counts_(instance->from),
            instance->from ? edges : 0, blossom_counts_(instance->to), instance->to ? edges : 0,
            blossom_weights_(instance->weights), instance->weights ? edges : 0,
            blossom_weights_(instance->capacities), instance->capacities ? edges : 0,
            blossom_counts_(instance->values), blossom_values_length(instance), answer->numbers,
            answer->length, told, 2, &used);
    }
    answer->rule = status == BLOSSOM_REJECTED || status == BLOSSOM_MALFORMED
                       ? BLOSSOM_CAST_(uint32_t, told[0])
                       : 0;
    answer->index = status == BLOSSOM_MALFORMED ? BLOSSOM_CAST_(uint32_t, told[1]) : 0;
    return status;
}

/** Sets of terminals; the caller owns their arrays. See `blossom_join_arrays`. */
struct blossom_terminal_sets {
    size_t sets;               /**< number of sets */
    const uint32_t *starts;    /**< set j: terminals[starts[j]] to before starts[j + 1] */
    const uint32_t *terminals; /**< vertices from 1; starts[sets] of them */
};

/**
 * The joins of such sets. The caller sets `numbers` and `size`; `blossom_joins` sets the rest. Its
 * pointers point into `numbers`. At every status but BLOSSOM_OK, the fields from `sets` to `edges`
 * are 0 or NULL.
 */
struct blossom_joins_answer {
    int64_t *numbers;        /**< the caller's buffer */
    size_t size;             /**< numbers that fit in the buffer: see BLOSSOM_JOINS_SIZE */
    size_t length;           /**< numbers of the answer, also if they do not fit */
    size_t sets;             /**< number of sets */
    const int64_t *outcomes; /**< of each set, an `enum blossom_join_outcome` */
    const int64_t *details;  /**< weight of each join, or index of the wrong terminal in its set */
    const int64_t *starts;   /**< join j: edges[starts[j]] to before edges[starts[j + 1]] */
    const int64_t *edges;    /**< edges from 1, ascending within each join */
    uint32_t rule;           /**< an `enum blossom_input_error` at BLOSSOM_MALFORMED, else 0 */
    uint32_t index;          /**< where the arrays break the rule: see `blossom_join_arrays` */
};

/** Sets what `blossom_joins` sets, from the numbers and the status of a call for so many sets. */
static inline void blossom_point_joins_(struct blossom_joins_answer *answer, size_t sets,
                                        uint32_t status) {
    const int64_t *at = answer->numbers;
    const int is_done = status == BLOSSOM_OK, is_malformed = status == BLOSSOM_MALFORMED;
    answer->sets = is_done ? sets : 0;
    answer->outcomes = is_done ? at : BLOSSOM_NULL_;
    answer->details = is_done ? at + sets : BLOSSOM_NULL_;
    answer->starts = is_done ? at + 2 * sets : BLOSSOM_NULL_;
    answer->edges = is_done ? at + 3 * sets + 1 : BLOSSOM_NULL_;
    answer->rule = is_malformed ? BLOSSOM_CAST_(uint32_t, at[0]) : 0;
    answer->index = is_malformed ? BLOSSOM_CAST_(uint32_t, at[1]) : 0;
}

/**
 * Finds a minimum-weight T-join of `graph` for each set: `blossom_join_arrays` over these structs.
 *
 * The kind of `graph` is BLOSSOM_TJOIN, and its values are NULL: each set has its own terminals.
 * Capacities are irrelevant. To ask for the length of the answer alone, set `size` to 0: `numbers`
 * may then be NULL.
 *
 * @return an `enum blossom_status`; BLOSSOM_INVALID_ARGUMENT for another kind, or with values
 */
static inline uint32_t blossom_joins(const struct blossom_instance *graph,
                                     const struct blossom_terminal_sets *sets,
                                     struct blossom_joins_answer *answer) {
    const size_t edges = graph->edges;
    const int has_terminals = sets->starts && sets->terminals;
    int64_t nothing = 0;
    uint32_t status = BLOSSOM_INVALID_ARGUMENT;
    answer->length = 0;
    if (graph->kind == BLOSSOM_TJOIN && !graph->values) {
        status = blossom_join_arrays(
            graph->vertices, blossom_counts_(graph->from), graph->from ? edges : 0,
            blossom_counts_(graph->to), graph->to ? edges : 0, blossom_weights_(graph->weights),
            graph->weights ? edges : 0, blossom_counts_(sets->starts),
            sets->starts ? sets->sets + 1 : 0, blossom_counts_(sets->terminals),
            has_terminals ? sets->starts[sets->sets] : 0,
            answer->numbers ? answer->numbers : &nothing, answer->numbers ? answer->size : 0,
            &answer->length);
    }
    blossom_point_joins_(answer, sets->sets, status);
    return status;
}

/** What an `enum blossom_input_error` says, in words; "unknown rule" for other numbers. */
static inline const char *blossom_input_error_text_(uint32_t rule) {
    switch (rule) {
    case BLOSSOM_LENGTHS: return "an array has the wrong length";
    case BLOSSOM_VERTICES: return "there are more than 4096 vertices";
    case BLOSSOM_EDGES: return "there are more than 65536 edges";
    case BLOSSOM_ENDPOINT: return "an endpoint is 0 or greater than the number of vertices";
    case BLOSSOM_WEIGHT: return "a weight exceeds 10^12 in absolute value";
    case BLOSSOM_CAPACITY: return "a capacity is less than -1 or greater than 4096";
    case BLOSSOM_VALUE: return "a degree exceeds 4096, or a lower bound exceeds its upper bound";
    case BLOSSOM_NEGATIVE: return "a weight is negative";
    case BLOSSOM_PATH_ENDS: return "the number of vertices with odd values is other than two";
    case BLOSSOM_STARTS: return "the starts of terminal sets do not ascend from 0 to the end";
    default: return "unknown rule";
    }
}

/** The same for an `enum blossom_violation`. */
static inline const char *blossom_violation_text_(uint32_t rule) {
    switch (rule) {
    case BLOSSOM_DOC_FORM: return "the numbers do not form an answer with its certificate";
    case BLOSSOM_KIND_DIFFERS: return "the document is of another kind";
    case BLOSSOM_DOC_RANGE: return "a number is out of range";
    case BLOSSOM_NOT_FEASIBLE: return "the solution is infeasible";
    case BLOSSOM_WEIGHT_DIFFERS: return "the weight of the solution differs from the stated one";
    case BLOSSOM_DUAL_MISSING: return "a vertex of the certificate graph lacks its dual";
    case BLOSSOM_SET_FORM: return "an odd set is malformed";
    case BLOSSOM_SLACK: return "an edge has negative slack";
    case BLOSSOM_VALUE_DIFFERS: return "the dual value differs from what the weight requires";
    case BLOSSOM_NOT_BARRIER: return "the set is not a barrier";
    case BLOSSOM_NOT_CLOSED: return "the vertex set does not exclude all solutions";
    case BLOSSOM_NOT_CIRCUIT: return "the walk is not a cycle of negative weight";
    case BLOSSOM_PATH_FORM: return "a path is not alternating from its start to an exposed vertex";
    case BLOSSOM_PATH_MISSING: return "a vertex lacks its path";
    default: return "unknown rule";
    }
}

/**
 * Says in words how a call ended: the broken rule at BLOSSOM_MALFORMED and BLOSSOM_REJECTED, else
 * the status. The text is constant.
 *
 * @param status  an `enum blossom_status`
 * @param rule    the rule that the call gave, as in `struct blossom_answer`
 */
static inline const char *blossom_rule_text(uint32_t status, uint32_t rule) {
    switch (status) {
    case BLOSSOM_OK: return "success";
    case BLOSSOM_REJECTED: return blossom_violation_text_(rule);
    case BLOSSOM_MALFORMED: return blossom_input_error_text_(rule);
    case BLOSSOM_TOO_LARGE: return "the certificate graph is too large";
    case BLOSSOM_TOO_LONG: return "the text is too long";
    case BLOSSOM_OUT_OF_MEMORY: return "out of memory";
    case BLOSSOM_BUFFER_TOO_SMALL: return "the buffer is too small for the answer";
    case BLOSSOM_INVALID_ARGUMENT: return "unknown or unsuitable task or kind, or no answer";
    default: return "unknown status";
    }
}

#ifdef __cplusplus
}
#endif

#endif
