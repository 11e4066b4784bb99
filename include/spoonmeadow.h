/* Spoonmeadow for C: the entries of libspoonmeadow.a (`rt lib` in crates/spoonmeadow), each proved equal to the rulebook.

   Nothing is kept between calls, nothing is allocated, and no call blocks or starts a thread. Everything is lent:

   - A slice is a pointer and the count of its elements. The pointer is not null and is aligned for its element, also where the count is 0,
     and the count is the number of elements that may be read (and, where it is not const, written) behind it.
   - The slices of one call must not overlap, except two that are both const.
   - Beyond this any contents and any numbers may be lent: every call ends, and bad input gets a refusal.
   - A refusal leaves every lent byte as it was, and its counts are 0. Search's SPOONMEADOW_UNFIT alone leaves its scratch all zero.
   - After success scratch is all zero, all of it, also where it is longer than asked. What it held before never matters.
   - A const slice is never written.

   Of the thread that calls two things are taken for granted, and no call tests them:

   - Its floating-point environment is the default one: rounding to nearest, subnormals kept. In another the library names another counter;
     spoonmeadow_environment_is_default, below, tells.
   - Its stack has 32 KiB of room. A build uses most of it, the others less than 8 KiB (README.md has each).

   Distances are binary32. Search gives them by their bits; for fit distances the order of bits is the order of distances. */
#ifndef SPOONMEADOW_H
#define SPOONMEADOW_H

#include <float.h>
#include <stddef.h>
#include <stdint.h>

#ifdef __cplusplus
extern "C" {
#endif

/* Refusals. Of several that hold, a call gives the lowest. Places not named are 0. */
enum {
    SPOONMEADOW_DONE = 0,      /* no refusal */
    SPOONMEADOW_DIMENSION = 1, /* dimension outside 1 to 64 */
    SPOONMEADOW_NODES = 2,     /* n outside its range */
    SPOONMEADOW_LANES = 3,     /* the lane slice is not n times dimension long */
    SPOONMEADOW_PARAMETER = 4, /* a whole-number parameter is outside its range */
    SPOONMEADOW_THRESHOLD = 5, /* threshold NaN or outside -1 to 1 */
    SPOONMEADOW_BUFFER = 6,    /* a lent buffer has the wrong length */
    SPOONMEADOW_ROOT = 7,      /* root count outside 1 to 64 (place 0); a root is n or more, or repeats an earlier one (its place) */
    SPOONMEADOW_QUERY = 8,     /* the query's length is not the dimension */
    SPOONMEADOW_JOB = 9,       /* job count outside 1 to 64 (place 0), or a job names a node of n or more (that job) */
    SPOONMEADOW_UNFIT = 10,    /* an unfit distance: the two nodes; in search the node and n */
    SPOONMEADOW_DRAWS = 11,    /* too few draws */
    SPOONMEADOW_STATE = 12,    /* lists, descent or relay state not well formed */
    SPOONMEADOW_STEP = 13      /* a move for an absent or finished job (that job); a close with one unfinished (the lowest) */
};

/* Ranges. */
#define SPOONMEADOW_LEAST_NODES 2
#define SPOONMEADOW_MOST_NODES 4096
#define SPOONMEADOW_MOST_NODES_TAUGHT 1024 /* of a descent and a relay */
#define SPOONMEADOW_MOST_DIMENSION 64
#define SPOONMEADOW_MOST_K 64 /* of search's k, init_k, index_size, a descent's and a relay's k, the count of roots and of jobs */
#define SPOONMEADOW_MOST_NEIGHBOR_NEIGHBOR_SIZE 256

/* The parameters of a build where nothing else is wanted. */
#define SPOONMEADOW_DEFAULT_INIT_K 64
#define SPOONMEADOW_DEFAULT_INDEX_SIZE 64
#define SPOONMEADOW_DEFAULT_NEIGHBOR_NEIGHBOR_SIZE 100
#define SPOONMEADOW_DEFAULT_THRESHOLD 0.5f

/* The node number that ends a graph row is n; the distance bits of an empty place are SPOONMEADOW_EMPTY, and fit distances lie below. */
#define SPOONMEADOW_EMPTY 0x7F7FFFFFu

/* Lengths of slices, in elements. "Exactly" and "at least" as said at each call. */
#define SPOONMEADOW_LANES_LENGTH(n, dimension) ((size_t)(n) * (size_t)(dimension))
#define SPOONMEADOW_GRAPH_LENGTH(n, index_size) ((size_t)(n) * (size_t)(index_size))
#define SPOONMEADOW_BUILD_SCRATCH(n, init_k, index_size) (4 * (size_t)(n) * ((size_t)(init_k) + (size_t)(index_size)) + 4096)
#define SPOONMEADOW_SEARCH_SCRATCH(n) (4 * (size_t)(n) + 1024)
#define SPOONMEADOW_TAUGHT_SCRATCH(n) (512 * (size_t)(n) + 4096) /* of a descent and of opening a relay */
#define SPOONMEADOW_LISTS_LENGTH(n, k) ((size_t)(n) * (size_t)(k))
#define SPOONMEADOW_BEGIN_DRAWS(n, s) (2 * (size_t)(n) * (size_t)(s))
#define SPOONMEADOW_ITERATE_DRAWS(n, k) (2 * (size_t)(n) * (size_t)(k))
#define SPOONMEADOW_DESCENT_STATE_U(n, k) ((size_t)(n) * (size_t)(k) + 260 * (size_t)(n) + ((size_t)(n) * (size_t)(n) + 31) / 32)
#define SPOONMEADOW_DESCENT_STATE_F(n, k) ((size_t)(n) * (size_t)(k))
#define SPOONMEADOW_RELAY_STATE_U(n, k) ((size_t)(n) * ((size_t)(k) + 65) + 1024)
#define SPOONMEADOW_RELAY_STATE_F(n, k) ((size_t)(n) * ((size_t)(k) + 64) + 64)
#define SPOONMEADOW_JOBS_LENGTH(jobs) (2 * (size_t)(jobs))
#define SPOONMEADOW_REPORTS_LENGTH 128

/* What every other call says: a refusal with its places, or 0, 0, 0. */
typedef struct {
    size_t refusal;
    size_t first;
    size_t second;
} spoonmeadow_said;

/* What a search says: a refusal with its places, or m results and the count of nodes taken from the queue. */
typedef struct {
    size_t refusal;
    size_t first;
    size_t second;
    size_t m;
    size_t takings;
} spoonmeadow_found;

/* What an iteration says: a refusal with its places, or the cost and the total of new. */
typedef struct {
    size_t refusal;
    size_t first;
    size_t second;
    size_t cost;
    size_t total;
} spoonmeadow_iterated;

/* Whether the floating-point environment of this thread is the default one, which every call takes for granted: 1 where it is, otherwise 0.

   A program linked with -ffast-math flushes subnormals from its start on, and so may one that loads a shared library linked like that; fesetround
   and its like round another way. Lanes 1e-20 and 0 and query 0 show what goes wrong: counter 1 is at distance 0 and counter 0 at the square of
   1e-20, some 1e-40, which is subnormal. Flushed to 0 it ties with counter 1, and counter 0, the lower number, is named.

   Call it once on each thread that calls the library, before its first call, and again after anything that may have changed the environment;
   it takes some nanoseconds. It looks at three sums of its own, not at the processor's flags: a subnormal and itself, which is 0 where results
   are flushed or where a subnormal is read as 0; and two that lie halfway between two floats, of which the default rounds one down (upward does
   not) and one up (downward and toward zero do not). Everything is volatile, so that no compiler works it out beforehand, also under -ffast-math.
   It sees the arithmetic that it is compiled to, which is SSE's as the library's is; compiled to x87's (-mfpmath=387) it cannot tell, and says 0.
   It does not look for exceptions that are unmasked: where inexact or a subnormal traps, it traps, as the library would. It leaves them flagged.

   It is C in this header, tested and not proved, and no part of the archive. */
static inline int spoonmeadow_environment_is_default(void) {
#if defined(FLT_EVAL_METHOD) && FLT_EVAL_METHOD == 2
    return 0;
#else
    volatile float subnormal = 1e-40f;
    volatile float one = 1.0f, next = 1.00000011920928955078125f; /* 1 and the float above it, 1 + 2^-23 */
    volatile float half = 5.9604644775390625e-8f;                /* half a step there, 2^-24 */
    volatile float twice, down, up;
    twice = subnormal + subnormal;
    down = one + half;
    up = next + half;
    return twice > 0.0f && !(down > one) && up > next;
#endif
}

/* Teaches a game of n counters: writes its graph, index_size places a counter, the nodes of a row and then n in every place left.
   Refusals: 1, 2, 3, 4 (init_k, index_size, neighbor_neighbor_size), 5, 6, and 10 at the first unfit pair i < j, i rising and then j.

   lanes         exactly SPOONMEADOW_LANES_LENGTH(n, dimension), node by node
   graph         exactly SPOONMEADOW_GRAPH_LENGTH(n, index_size)
   scratch_u, scratch_f        each at least SPOONMEADOW_BUILD_SCRATCH(n, init_k, index_size) */
spoonmeadow_said spoonmeadow_build(
    size_t init_k, size_t index_size, size_t neighbor_neighbor_size, float threshold,
    size_t dimension, size_t n,
    const float *lanes, size_t lanes_length,
    uint32_t *graph, size_t graph_length,
    uint32_t *scratch_u, size_t scratch_u_length,
    float *scratch_f, size_t scratch_f_length);

/* Names the nearest counters to a query: m = min(k, root count) of them, nearest first, in the first m places of both result slices, the
   nodes and their distances' bits; further places unchanged. Refusals: 1, 2, 3, 4 (index_size, k), 6, 7, 8, and 10 at the first unfit distance worked out.

   lanes         exactly SPOONMEADOW_LANES_LENGTH(n, dimension), node by node
   graph         exactly SPOONMEADOW_GRAPH_LENGTH(n, index_size), any contents: a row is read up to its first value of n or more
   roots         1 to 64 different nodes
   query         exactly dimension
   result_nodes, result_bits   each at least k
   scratch_u, scratch_f        each at least SPOONMEADOW_SEARCH_SCRATCH(n) */
spoonmeadow_found spoonmeadow_search(
    size_t dimension, size_t n,
    const float *lanes, size_t lanes_length,
    const uint32_t *graph, size_t graph_length,
    size_t index_size,
    const uint32_t *roots, size_t roots_length,
    const float *query, size_t query_length,
    size_t k,
    uint32_t *result_nodes, size_t result_nodes_length,
    uint32_t *result_bits, size_t result_bits_length,
    uint32_t *scratch_u, size_t scratch_u_length,
    float *scratch_f, size_t scratch_f_length);

/* Begins a descent: writes its state, unfilled lists, and for each node s new and s reversed-new entries, each a draw modulo n.
   Refusals: 1, 2, 3, 4 (k 1 to 64, s 1 to k), 6, 10 at the first unfit pair, 11. docs/LAYOUT.md says what lies where in the state.

   lanes         exactly SPOONMEADOW_LANES_LENGTH(n, dimension), node by node
   draws         at least SPOONMEADOW_BEGIN_DRAWS(n, s)
   state_u       exactly SPOONMEADOW_DESCENT_STATE_U(n, k)
   state_f       exactly SPOONMEADOW_DESCENT_STATE_F(n, k)
   scratch_u, scratch_f        each at least SPOONMEADOW_TAUGHT_SCRATCH(n) */
spoonmeadow_said spoonmeadow_begin(
    size_t dimension, size_t n,
    const float *lanes, size_t lanes_length,
    size_t k, size_t s,
    const uint32_t *draws, size_t draws_length,
    uint32_t *state_u, size_t state_u_length,
    float *state_f, size_t state_f_length,
    uint32_t *scratch_u, size_t scratch_u_length,
    float *scratch_f, size_t scratch_f_length);

/* Iterates a descent once, on a well-formed state, as spoonmeadow_begin and an iteration leave it: the pairs of each node's context meet, and the
   cost counts each update of unequal nodes; then every context gets new lists, and total counts the new members found, before lists longer than
   s are shortened.
   Refusals: 1, 2, 3, 4 (k 1 to 64, s 1 to k), 6, 10 at the first unfit pair, 11, 12.

   lanes         exactly SPOONMEADOW_LANES_LENGTH(n, dimension), node by node
   draws         at least SPOONMEADOW_ITERATE_DRAWS(n, k)
   state_u       exactly SPOONMEADOW_DESCENT_STATE_U(n, k)
   state_f       exactly SPOONMEADOW_DESCENT_STATE_F(n, k)
   scratch_u, scratch_f        each at least SPOONMEADOW_TAUGHT_SCRATCH(n) */
spoonmeadow_iterated spoonmeadow_iterate(
    size_t dimension, size_t n,
    const float *lanes, size_t lanes_length,
    size_t k, size_t s,
    const uint32_t *draws, size_t draws_length,
    uint32_t *state_u, size_t state_u_length,
    float *state_f, size_t state_f_length,
    uint32_t *scratch_u, size_t scratch_u_length,
    float *scratch_f, size_t scratch_f_length);

/* Opens a relay on lists and on jobs, each a pair of nodes: writes its state, with the distance of each job of unequal nodes.
   Refusals: 1, 2, 3, 4 (k), 6, 9, 10 at the first unfit job, 12 of the lists. docs/LAYOUT.md says what lies where in the state.

   lanes         exactly SPOONMEADOW_LANES_LENGTH(n, dimension), node by node
   nodes, distances            exactly SPOONMEADOW_LISTS_LENGTH(n, k), node by node, each list ascending; an unfilled place is node n at the distance of bits SPOONMEADOW_EMPTY
   jobs          exactly SPOONMEADOW_JOBS_LENGTH(jobs), 1 to 64 jobs, the two nodes of each
   state_u       exactly SPOONMEADOW_RELAY_STATE_U(n, k)
   state_f       exactly SPOONMEADOW_RELAY_STATE_F(n, k)
   scratch_u, scratch_f        each at least SPOONMEADOW_TAUGHT_SCRATCH(n) */
spoonmeadow_said spoonmeadow_open(
    size_t dimension, size_t n,
    const float *lanes, size_t lanes_length,
    size_t k,
    const uint32_t *nodes, size_t nodes_length,
    const float *distances, size_t distances_length,
    const uint32_t *jobs, size_t jobs_length,
    uint32_t *state_u, size_t state_u_length,
    float *state_f, size_t state_f_length,
    uint32_t *scratch_u, size_t scratch_u_length,
    float *scratch_f, size_t scratch_f_length);

/* Moves a relay by one step of a job (0, 1, ..): look, push, measure and pop for its first node's list, then for its second's.
   Refusals: 2, 4 (k), 6, 12, 13.

   state_u       exactly SPOONMEADOW_RELAY_STATE_U(n, k)
   state_f       exactly SPOONMEADOW_RELAY_STATE_F(n, k) */
spoonmeadow_said spoonmeadow_move_job(
    size_t n, size_t k, size_t job,
    uint32_t *state_u, size_t state_u_length,
    float *state_f, size_t state_f_length);

/* Closes a relay whose jobs are all finished: writes its lists, and for each job whether each of its two offers was taken up (1 or 0) to the
   front of reports, the rest unchanged. The state is left as it is. Refusals: 2, 4 (k), 6, 12, 13.

   state_u       exactly SPOONMEADOW_RELAY_STATE_U(n, k)
   state_f       exactly SPOONMEADOW_RELAY_STATE_F(n, k)
   nodes, distances            exactly SPOONMEADOW_LISTS_LENGTH(n, k)
   reports       exactly SPOONMEADOW_REPORTS_LENGTH */
spoonmeadow_said spoonmeadow_close(
    size_t n, size_t k,
    const uint32_t *state_u, size_t state_u_length,
    const float *state_f, size_t state_f_length,
    uint32_t *nodes, size_t nodes_length,
    float *distances, size_t distances_length,
    uint32_t *reports, size_t reports_length);

#ifdef __cplusplus
}
#endif

#endif
