/* Lends the entries to another program: each call is read from standard input, and what it left is written to standard output.

   A call is u64: the entry (0 ends), the count of numbers, the numbers, the count of slices; then each slice as a u64 length and its u32 words
   (an f32 by its bits). The reply is five u64, what the entry said (unused ones 0), and then every slice, read-only ones too, with
   GUARD words before it and behind it. Slices are separate allocations; guard words are GUARD_WORD, and 0 at every fourth call: a word
   read from behind a slice shows by what it is taken for, and 0 passes for more than any other.
   `lend spoil` turns one bit of each reply round, to see that the other program notices. */
#include "spoonmeadow.h"
#include <stdio.h>
#include <stdlib.h>
#include <string.h>

enum { GUARD = 16, MOST_NUMBERS = 16, MOST_SLICES = 16 };
#define GUARD_WORD 0xDEADBEEFu

static uint64_t number[MOST_NUMBERS];
static uint32_t *room[MOST_SLICES]; /* with the guards */
static uint32_t *word[MOST_SLICES]; /* the slice itself */
static float *lane[MOST_SLICES];    /* the same, as floats */
static size_t length[MOST_SLICES];
static uint64_t reply[5];
static uint64_t calls; /* before this one */

static void must(int holds, const char *what) {
    if (!holds) {
        fprintf(stderr, "lend: %s\n", what);
        exit(2);
    }
}

static void get(void *to, size_t size, size_t count) {
    must(fread(to, size, count, stdin) == count, "a call that stops early");
}

static void put(const void *from, size_t size, size_t count) {
    must(fwrite(from, size, count, stdout) == count, "nobody reads");
}

static uint64_t one(void) {
    uint64_t x;
    get(&x, sizeof x, 1);
    return x;
}

static void get_slice(size_t i) {
    length[i] = one();
    room[i] = malloc((length[i] + 2 * GUARD) * sizeof(uint32_t));
    must(room[i] != NULL, "no room");
    word[i] = room[i] + GUARD;
    lane[i] = (float *)(void *)word[i];
    uint32_t guard = calls % 4 == 3 ? 0 : GUARD_WORD;
    for (size_t g = 0; g < GUARD; g++) {
        room[i][g] = word[i][length[i] + g] = guard;
    }
    get(word[i], sizeof(uint32_t), length[i]);
}

static float number_as_float(size_t i) {
    uint32_t bits = (uint32_t)number[i];
    float x;
    memcpy(&x, &bits, sizeof x);
    return x;
}

static void say(size_t refusal, size_t first, size_t second, size_t count, size_t other_count) {
    reply[0] = refusal;
    reply[1] = first;
    reply[2] = second;
    reply[3] = count;
    reply[4] = other_count;
}

static void say_said(spoonmeadow_said s) {
    say(s.refusal, s.first, s.second, 0, 0);
}

static void say_found(spoonmeadow_found f) {
    say(f.refusal, f.first, f.second, f.m, f.takings);
}

static void say_iterated(spoonmeadow_iterated i) {
    say(i.refusal, i.first, i.second, i.cost, i.total);
}

/* One bit of what was said, or of one slice with its guards. */
static void spoil(size_t slices) {
    uint32_t bit = (uint32_t)1 << rand() % 32;
    size_t which = (size_t)rand() % (slices + 1);
    if (which == slices) {
        reply[rand() % 5] ^= bit;
    } else {
        room[which][(size_t)rand() % (length[which] + 2 * GUARD)] ^= bit;
    }
}

#define U(i) word[i], length[i]
#define F(i) lane[i], length[i]

static void call(uint64_t entry) {
    switch (entry) {
    case 1:
        say_said(spoonmeadow_build(number[0], number[1], number[2], number_as_float(3), number[4], number[5], F(0), U(1), U(2), F(3)));
        break;
    case 2:
        say_found(spoonmeadow_search(number[0], number[1], F(0), U(1), number[2], U(2), F(3), number[3], U(4), U(5), U(6), F(7)));
        break;
    case 3:
        say_said(spoonmeadow_begin(number[0], number[1], F(0), number[2], number[3], U(1), U(2), F(3), U(4), F(5)));
        break;
    case 4:
        say_iterated(spoonmeadow_iterate(number[0], number[1], F(0), number[2], number[3], U(1), U(2), F(3), U(4), F(5)));
        break;
    case 5:
        say_said(spoonmeadow_open(number[0], number[1], F(0), number[2], U(1), F(2), U(3), U(4), F(5), U(6), F(7)));
        break;
    case 6:
        say_said(spoonmeadow_move_job(number[0], number[1], number[2], U(0), F(1)));
        break;
    case 7:
        say_said(spoonmeadow_close(number[0], number[1], U(0), F(1), U(2), F(3), U(4)));
        break;
    default:
        must(0, "no such entry");
    }
}

int main(int words, char **said) {
    int spoils = words > 1 && strcmp(said[1], "spoil") == 0;
    for (;;) {
        uint64_t entry = one();
        if (entry == 0) {
            return 0;
        }
        size_t numbers = one();
        must(numbers <= MOST_NUMBERS, "too many numbers");
        get(number, sizeof number[0], numbers);
        size_t slices = one();
        must(slices <= MOST_SLICES, "too many slices");
        for (size_t i = 0; i < slices; i++) {
            get_slice(i);
        }
        call(entry);
        if (spoils) {
            spoil(slices);
        }
        put(reply, sizeof reply[0], 5);
        for (size_t i = 0; i < slices; i++) {
            put(room[i], sizeof(uint32_t), length[i] + 2 * GUARD);
            free(room[i]);
        }
        must(fflush(stdout) == 0, "nobody reads");
        calls++;
    }
}
