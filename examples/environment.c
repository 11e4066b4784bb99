/* Names a counter in each floating-point environment of an x86-64 processor, and asks spoonmeadow_environment_is_default beside it.

   Two counters are looked up, both of them roots of a graph without links, so the one at the lower distance is named, and of two at one distance
   counter 0. The query is 0 in every lane. A distance starts at 0 and adds the square of each lane, which by document 01 is rounded once, to
   nearest, and so is each sum:

   tiny   lanes 1e-20 | 0. Counter 0 is at some 1e-40, which is subnormal, and counter 1 at 0: counter 1 is named. Where results are flushed the
          square is 0, and where operands are it is read as 0: both are at 0, and counter 0 is named.
   below  lanes 1, 2^-13 | 1, 0. Counter 0 is at 1 + 2^-26, an eighth of the way to the next float, which is 1, and counter 1 at 1: counter 0 is
          named. Upward it is the next float: counter 1 is named.
   above  lanes 1, 1.25 * 2^-12 | 1, 0. Counter 0 is at 1 + 25/32 * 2^-23, most of the way to the next float, which is that float, and counter 1
          at 1: counter 1 is named. Downward and toward zero it is 1: counter 0 is named.

   The lines that are expected, environment.stdout, follow from this; where the program is linked with -ffast-math its first line is that of both
   flushed, and the rest, which sets the environment itself, is the same. */
#include <stdio.h>
#include <xmmintrin.h>
#include "spoonmeadow.h"

enum { N = 2, K = 1, MOST_LANES = 2, SCRATCH = SPOONMEADOW_SEARCH_SCRATCH(N) };

/* The processor's flags: every exception masked and nothing else, which is the default; and what may be set beside it. */
enum { DEFAULT = 0x1F80, RESULTS = 0x8000, OPERANDS = 0x0040, DOWNWARD = 0x2000, UPWARD = 0x4000, TOWARD_ZERO = 0x6000 };

static uint32_t scratch_u[SCRATCH];
static float scratch_f[SCRATCH];

/* the counter that a search names; N where it is refused */
static unsigned named(const float *lanes, size_t dimension) {
    static const uint32_t graph[N] = {N, N}, roots[N] = {0, 1};
    static const float query[MOST_LANES] = {0.0f, 0.0f};
    uint32_t node[K], bits[K];
    spoonmeadow_found found = spoonmeadow_search(dimension, N, lanes, N * dimension, graph, N, 1, roots, N, query, dimension, K,
                                                 node, K, bits, K, scratch_u, SCRATCH, scratch_f, SCRATCH);
    return found.refusal == SPOONMEADOW_DONE ? (unsigned)node[0] : (unsigned)N;
}

/* one line: the environment as it is, whether it is the default one, and the counter named for each input */
static void say(const char *environment, unsigned flags) {
    static const float tiny[] = {1e-20f, 0.0f};
    static const float below[] = {1.0f, 1.220703125e-4f, 1.0f, 0.0f};
    static const float above[] = {1.0f, 3.0517578125e-4f, 1.0f, 0.0f};
    unsigned before = _mm_getcsr(), counters[3];
    int is_default;
    _mm_setcsr(flags);
    is_default = spoonmeadow_environment_is_default();
    counters[0] = named(tiny, 1);
    counters[1] = named(below, 2);
    counters[2] = named(above, 2);
    _mm_setcsr(before);
    printf("%s,%s,%u,%u,%u\n", environment, is_default ? "yes" : "no", counters[0], counters[1], counters[2]);
}

int main(void) {
    printf("environment,default,tiny,below,above\n");
    say("at the start", _mm_getcsr());
    say("the default", DEFAULT);
    say("results flushed", DEFAULT | RESULTS);
    say("operands flushed", DEFAULT | OPERANDS);
    say("both flushed", DEFAULT | RESULTS | OPERANDS);
    say("downward", DEFAULT | DOWNWARD);
    say("upward", DEFAULT | UPWARD);
    say("toward zero", DEFAULT | TOWARD_ZERO);
    say("the default again", DEFAULT);
    return 0;
}
