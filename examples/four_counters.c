/* Teaches a game of four counters, 0, 1, 3 and 7, one lane each, and looks counter 7 up from roots 0 and 3. */
#include "spoonmeadow.h"
#include <stdio.h>

enum { DIMENSION = 1, N = 4, INIT_K = 2, INDEX_SIZE = 2, HOPS = 10, K = 2 };

static uint32_t scratch_u[SPOONMEADOW_BUILD_SCRATCH(N, INIT_K, INDEX_SIZE)];
static float scratch_f[SPOONMEADOW_BUILD_SCRATCH(N, INIT_K, INDEX_SIZE)];

#define LENGTH(slice) (sizeof(slice) / sizeof((slice)[0]))

static int refused(const char *call, size_t refusal, size_t first, size_t second) {
    fprintf(stderr, "%s: refusal %zu, places %zu and %zu\n", call, refusal, first, second);
    return 1;
}

int main(void) {
    const float lanes[SPOONMEADOW_LANES_LENGTH(N, DIMENSION)] = {0.0f, 1.0f, 3.0f, 7.0f};
    uint32_t graph[SPOONMEADOW_GRAPH_LENGTH(N, INDEX_SIZE)];
    spoonmeadow_said taught = spoonmeadow_build(
        INIT_K, INDEX_SIZE, HOPS, SPOONMEADOW_DEFAULT_THRESHOLD, DIMENSION, N,
        lanes, LENGTH(lanes), graph, LENGTH(graph), scratch_u, LENGTH(scratch_u), scratch_f, LENGTH(scratch_f));
    if (taught.refusal != SPOONMEADOW_DONE) {
        return refused("build", taught.refusal, taught.first, taught.second);
    }
    for (size_t q = 0; q < N; q++) {
        printf("row %zu: %u %u\n", q, (unsigned)graph[INDEX_SIZE * q], (unsigned)graph[INDEX_SIZE * q + 1]);
    }

    const uint32_t roots[] = {0, 3};
    const float query[DIMENSION] = {7.0f};
    uint32_t nodes[K], bits[K];
    spoonmeadow_found found = spoonmeadow_search(
        DIMENSION, N, lanes, LENGTH(lanes), graph, LENGTH(graph), INDEX_SIZE,
        roots, LENGTH(roots), query, LENGTH(query), K,
        nodes, LENGTH(nodes), bits, LENGTH(bits), scratch_u, LENGTH(scratch_u), scratch_f, LENGTH(scratch_f));
    if (found.refusal != SPOONMEADOW_DONE) {
        return refused("search", found.refusal, found.first, found.second);
    }
    printf("rank,node,bits\n");
    for (size_t i = 0; i < found.m; i++) {
        printf("%zu,%u,%u\n", i + 1, (unsigned)nodes[i], (unsigned)bits[i]);
    }
    printf("%zu nodes expanded\n", found.takings);
    return 0;
}
