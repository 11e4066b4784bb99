/* Measures how much stack each entry uses, at its largest sizes: a call is made on a stack of its own that was painted before, and how far down the
   paint is gone is read after it. An empty call is measured first and taken off, so that a figure is what the entry and its arguments use.

   Each entry is called on three games of lanes, which take different ways through the tests of distances: small ones; some above 2^30 in size, where
   every pair is measured; and one lane that is not a number, which is refused, so that two games of the three are answered (a close all three: the
   last relay that was opened stays closed). The figure is the most of the three. It ends with status 1 where a figure is over ROOM, which README.md
   tells a caller to leave, or other calls were answered. */
#define _DEFAULT_SOURCE
#include <stdio.h>
#include <stdlib.h>
#include <string.h>
#include <ucontext.h>
#include "spoonmeadow.h"

enum { ROOM = 32 * 1024, STACK = 1024 * 1024, PAINT = 0xA5 };
enum { MOST = SPOONMEADOW_MOST_NODES, TAUGHT = SPOONMEADOW_MOST_NODES_TAUGHT, LANES = SPOONMEADOW_MOST_DIMENSION, K = SPOONMEADOW_MOST_K };
enum { HOPS = SPOONMEADOW_MOST_NEIGHBOR_NEIGHBOR_SIZE, STEPS = 8 };

#define LENGTH(slice) (sizeof(slice) / sizeof((slice)[0]))

static float lanes[MOST * LANES], query[LANES], scratch_f[SPOONMEADOW_BUILD_SCRATCH(MOST, K, K)];
static uint32_t graph[MOST * K], roots[K], nodes_found[K], bits_found[K], scratch_u[SPOONMEADOW_BUILD_SCRATCH(MOST, K, K)];
static uint32_t draws[2 * TAUGHT * K], descent_u[SPOONMEADOW_DESCENT_STATE_U(TAUGHT, K)];
static float descent_f[SPOONMEADOW_DESCENT_STATE_F(TAUGHT, K)];
static uint32_t list_nodes[TAUGHT * K], jobs[2 * K], reports[SPOONMEADOW_REPORTS_LENGTH], relay_u[SPOONMEADOW_RELAY_STATE_U(TAUGHT, K)];
static float list_distances[TAUGHT * K], relay_f[SPOONMEADOW_RELAY_STATE_F(TAUGHT, K)];
static size_t job, refusal;

static void nothing(void) {}

static void build(void) {
    refusal = spoonmeadow_build(K, K, HOPS, SPOONMEADOW_DEFAULT_THRESHOLD, LANES, MOST, lanes, LENGTH(lanes), graph, LENGTH(graph),
                                scratch_u, LENGTH(scratch_u), scratch_f, LENGTH(scratch_f)).refusal;
}

static void search(void) {
    refusal = spoonmeadow_search(LANES, MOST, lanes, LENGTH(lanes), graph, LENGTH(graph), K, roots, LENGTH(roots), query, LENGTH(query), K,
                                 nodes_found, LENGTH(nodes_found), bits_found, LENGTH(bits_found), scratch_u, LENGTH(scratch_u),
                                 scratch_f, LENGTH(scratch_f)).refusal;
}

static void begin(void) {
    refusal = spoonmeadow_begin(LANES, TAUGHT, lanes, (size_t)TAUGHT * LANES, K, K, draws, LENGTH(draws), descent_u, LENGTH(descent_u),
                                descent_f, LENGTH(descent_f), scratch_u, LENGTH(scratch_u), scratch_f, LENGTH(scratch_f)).refusal;
}

static void iterate(void) {
    refusal = spoonmeadow_iterate(LANES, TAUGHT, lanes, (size_t)TAUGHT * LANES, K, K, draws, LENGTH(draws), descent_u, LENGTH(descent_u),
                                  descent_f, LENGTH(descent_f), scratch_u, LENGTH(scratch_u), scratch_f, LENGTH(scratch_f)).refusal;
}

static void open_relay(void) {
    refusal = spoonmeadow_open(LANES, TAUGHT, lanes, (size_t)TAUGHT * LANES, K, list_nodes, LENGTH(list_nodes), list_distances,
                               LENGTH(list_distances), jobs, LENGTH(jobs), relay_u, LENGTH(relay_u), relay_f, LENGTH(relay_f),
                               scratch_u, LENGTH(scratch_u), scratch_f, LENGTH(scratch_f)).refusal;
}

static void move_job(void) {
    refusal = spoonmeadow_move_job(TAUGHT, K, job, relay_u, LENGTH(relay_u), relay_f, LENGTH(relay_f)).refusal;
}

static void close_relay(void) {
    refusal = spoonmeadow_close(TAUGHT, K, relay_u, LENGTH(relay_u), relay_f, LENGTH(relay_f), list_nodes, LENGTH(list_nodes),
                                list_distances, LENGTH(list_distances), reports, LENGTH(reports)).refusal;
}

/* the bytes of stack that a call used, from the top of a painted one to the lowest that is painted no more */
static size_t used(void (*call)(void)) {
    static unsigned char stack[STACK];
    static ucontext_t here, there;
    size_t clean = 0;
    memset(stack, PAINT, sizeof stack);
    if (getcontext(&there) != 0) exit(2);
    there.uc_stack.ss_sp = stack;
    there.uc_stack.ss_size = sizeof stack;
    there.uc_link = &here;
    makecontext(&there, call, 0);
    if (swapcontext(&here, &there) != 0) exit(2);
    while (clean < sizeof stack && stack[clean] == PAINT) clean++;
    return sizeof stack - clean;
}

static uint32_t drawn(void) {
    static uint32_t x = 2463534242u;
    x ^= x << 13, x ^= x >> 17, x ^= x << 5;
    return x;
}

static const char *const entries[] = {"build", "search", "begin", "iterate", "open", "move_job", "close"};
static void (*const calls[])(void) = {build, search, begin, iterate, open_relay, move_job, close_relay};
static size_t most[LENGTH(calls)], answered[LENGTH(calls)];
static const size_t answers[LENGTH(calls)] = {2, 2, 2, 2, 2, 2 * K * STEPS, 3};

static void measure(size_t entry, size_t empty) {
    size_t bytes = used(calls[entry]) - empty;
    if (bytes > most[entry]) most[entry] = bytes;
    answered[entry] += refusal == SPOONMEADOW_DONE;
}

/* every entry on these lanes, in the order in which a program would call them; what is refused leaves the next what it had */
static void measure_all(size_t empty) {
    size_t entry, step;
    for (size_t u = 0; u < (size_t)TAUGHT * K; u++) {
        uint32_t unfilled = SPOONMEADOW_EMPTY;
        list_nodes[u] = TAUGHT;
        memcpy(&list_distances[u], &unfilled, sizeof unfilled);
    }
    for (entry = 0; entry < 5; entry++) measure(entry, empty);
    for (job = 0; job < K; job++)
        for (step = 0; step < STEPS; step++) measure(5, empty);
    measure(6, empty);
}

int main(void) {
    int wrong = 0;
    size_t empty = used(nothing);
    for (size_t i = 0; i < K; i++) roots[i] = (uint32_t)i;
    for (size_t i = 0; i < 2 * K; i++) jobs[i] = drawn() % TAUGHT;
    for (size_t i = 0; i < LENGTH(draws); i++) draws[i] = drawn();
    for (size_t i = 0; i < LENGTH(lanes); i++) lanes[i] = (float)(drawn() % 4096);
    measure_all(empty);
    lanes[0] = 4.0e9f, query[0] = -4.0e9f;
    measure_all(empty);
    lanes[(size_t)LANES * jobs[0]] = strtof("nan", NULL), query[0] = lanes[(size_t)LANES * jobs[0]];
    measure_all(empty);
    printf("entry,bytes of stack,calls answered\n");
    for (size_t i = 0; i < LENGTH(calls); i++) {
        printf("%s,%zu,%zu\n", entries[i], most[i], answered[i]);
        wrong |= most[i] > ROOM || answered[i] != answers[i];
    }
    return wrong;
}
