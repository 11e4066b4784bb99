/* Teaches the largest game that document 01 allows, 4,096 counters of 64 lanes, in exactly the memory it lends: behind each buffer lies a page
   that may not be touched. */
#define _DEFAULT_SOURCE
#include <stdio.h>
#include <stdlib.h>
#include <string.h>
#include <sys/mman.h>
#include <unistd.h>
#include "spoonmeadow.h"

enum { N = 4096, DIMENSION = 64, SIZE = 64, HOPS = 256 };

/* words of memory whose last byte is the last before a page that may not be touched */
static void *lend(size_t words) {
    size_t page = (size_t)sysconf(_SC_PAGESIZE);
    size_t bytes = (words * 4 + page - 1) / page * page;
    char *at = mmap(NULL, bytes + page, PROT_READ | PROT_WRITE, MAP_PRIVATE | MAP_ANONYMOUS, -1, 0);
    if (at == MAP_FAILED || mprotect(at + bytes, page, PROT_NONE) != 0) {
        perror("lend");
        exit(2);
    }
    return at + bytes - words * 4;
}

static int zero(const void *p, size_t words) {
    const uint32_t *w = p;
    for (size_t i = 0; i < words; i++)
        if (w[i] != 0) return 0;
    return 1;
}

/* each row: some nodes below N, then N in every slot left */
static int rows_are_sound(const uint32_t *graph) {
    for (size_t q = 0; q < N; q++) {
        const uint32_t *row = graph + q * SIZE;
        size_t live = 0;
        while (live < SIZE && row[live] < N) live++;
        if (live == 0) return 0;
        for (size_t i = live; i < SIZE; i++)
            if (row[i] != N) return 0;
    }
    return 1;
}

int main(void) {
    size_t scratch = SPOONMEADOW_BUILD_SCRATCH(N, SIZE, SIZE);
    float *lanes = lend((size_t)N * DIMENSION);
    uint32_t *graph = lend((size_t)N * SIZE), *words = lend(scratch);
    float *floats = lend(scratch);
    uint32_t x = 2463534242u;
    for (size_t i = 0; i < (size_t)N * DIMENSION; i++) {
        x ^= x << 13, x ^= x >> 17, x ^= x << 5;
        lanes[i] = (float)(x % 4096);
    }
    memset(words, 0xCD, scratch * 4);
    memset(floats, 0xCD, scratch * 4);
    spoonmeadow_said said = spoonmeadow_build(SIZE, SIZE, HOPS, 0.5f, DIMENSION, N, lanes, (size_t)N * DIMENSION, graph,
                                              (size_t)N * SIZE, words, scratch, floats, scratch);
    printf("refusal %u, rows %s, scratch %s\n", (unsigned)said.refusal, rows_are_sound(graph) ? "sound" : "wrong",
           zero(words, scratch) && zero(floats, scratch) ? "zero" : "left");
    return 0;
}
