/* shares ENTRY N LANES: one build, 64 searches or a begin and two iterations on uniform lanes, for `bench/shares` to count. */
#include <stdio.h>
#include <stdlib.h>
#include <string.h>
#include "spoonmeadow.h"

enum { SIZE = 64, K = 10, S = 5, ROOTS = 64 };
static uint64_t seed = 7;

static uint32_t drawn(void) {
    seed = seed * 6364136223846793005u + 1442695040888963407u;
    return (uint32_t)(seed >> 33);
}

static void *place(size_t count) {
    void *p = calloc(count, 4);
    if (!p) exit(2);
    return p;
}

static float *some(size_t count) {
    float *x = place(count);
    for (size_t i = 0; i < count; i++) x[i] = (float)(drawn() % 65536) / 65536.0f;
    return x;
}

static int taught(int searches, size_t n, size_t d) {
    size_t scratch = SPOONMEADOW_BUILD_SCRATCH(n, SIZE, SIZE), less = SPOONMEADOW_SEARCH_SCRATCH(n);
    float *lanes = some(n * d), *floats = place(scratch);
    uint32_t *words = place(scratch), *graph = place(n * SIZE), roots[ROOTS], nodes[K], bits[K];
    size_t refusal = spoonmeadow_build(SIZE, SIZE, 100, 0.5f, d, n, lanes, n * d, graph, n * SIZE, words, scratch, floats, scratch).refusal;
    for (size_t i = 0; i < ROOTS; i++) roots[i] = (uint32_t)(i * n / ROOTS);
    for (int q = 0; q < searches && !refusal; q++) {
        float *query = some(d);
        refusal = spoonmeadow_search(d, n, lanes, n * d, graph, n * SIZE, SIZE, roots, ROOTS, query, d, K, nodes, K, bits, K, words, less, floats, less).refusal;
    }
    return (int)refusal;
}

static int iterated(size_t n, size_t d) {
    size_t scratch = SPOONMEADOW_TAUGHT_SCRATCH(n), draws = SPOONMEADOW_ITERATE_DRAWS(n, K);
    size_t words = SPOONMEADOW_DESCENT_STATE_U(n, K), floats = SPOONMEADOW_DESCENT_STATE_F(n, K);
    float *lanes = some(n * d), *state_f = place(floats), *scratch_f = place(scratch);
    uint32_t *some_draws = place(draws), *state_u = place(words), *scratch_u = place(scratch);
    for (size_t i = 0; i < draws; i++) some_draws[i] = drawn();
    size_t refusal = spoonmeadow_begin(d, n, lanes, n * d, K, S, some_draws, draws, state_u, words, state_f, floats, scratch_u, scratch, scratch_f, scratch).refusal;
    for (int i = 0; i < 2 && !refusal; i++)
        refusal = spoonmeadow_iterate(d, n, lanes, n * d, K, S, some_draws, draws, state_u, words, state_f, floats, scratch_u, scratch, scratch_f, scratch).refusal;
    return (int)refusal;
}

int main(int count, char **words) {
    if (count != 4) return 2;
    size_t n = strtoul(words[2], 0, 10), d = strtoul(words[3], 0, 10);
    if (!strcmp(words[1], "iterate")) return iterated(n, d);
    return taught(strcmp(words[1], "search") ? 0 : 64, n, d);
}
