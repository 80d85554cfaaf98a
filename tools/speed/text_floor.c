/* The least cost of a sortable key of a long string: each byte is copied, and compared with 0 and 1, which a key writes as two.

     cc -O3 -march=x86-64-v2 text_floor.c -o text_floor && ./text_floor

   Prints three lines, by the words of 16 bytes that x86-64-v2 has: the copy alone, each string inspected and then copied, and both
   in one loop. Each with its nanoseconds for eight strings of 16 KB, the best of 300 rounds in turn, and by the copy alone. */
#include <emmintrin.h>
#include <stdio.h>
#include <stdlib.h>
#include <string.h>
#include <time.h>

enum { TEXTS = 8, LENGTH = 16384, BLOCK = 64, WAYS = 3, ROUNDS = 300, CALLS = 5 };

static unsigned char texts[TEXTS][LENGTH];

static double now(void) {
    struct timespec at;
    clock_gettime(CLOCK_MONOTONIC, &at);
    return at.tv_sec * 1e9 + at.tv_nsec;
}

static __m128i load(const unsigned char *from) { return _mm_loadu_si128((const __m128i *)from); }

static int is_plain(__m128i least) {
    const __m128i one = _mm_set1_epi8(1);
    return _mm_movemask_epi8(_mm_cmpeq_epi8(_mm_min_epu8(least, one), least)) == 0;
}

/* Return whether no byte of a string is 0 or 1; copy it too if there is a destination. */
static int look(unsigned char *to, const unsigned char *text) {
    __m128i least = _mm_set1_epi8(-1);
    for (size_t at = 0; at < LENGTH; at += BLOCK)
        for (size_t word = at; word < at + BLOCK; word += 16) {
            const __m128i bytes = load(text + word);
            if (to) _mm_storeu_si128((__m128i *)(to + word), bytes);
            least = _mm_min_epu8(least, bytes);
        }
    return is_plain(least);
}

static int copied(unsigned char *to, const unsigned char *text) { return memcpy(to, text, LENGTH) != NULL; }

static int looked_at(unsigned char *to, const unsigned char *text) { return look(NULL, text) & copied(to, text); }

static int in_one_loop(unsigned char *to, const unsigned char *text) { return look(to, text); }

/* A key of all strings, with a byte before and after each. */
static int key(int (*way)(unsigned char *, const unsigned char *)) {
    unsigned char *made = malloc(TEXTS * (LENGTH + 2)), *to = made;
    if (!made) exit(1);
    int plain = 1;
    for (int text = 0; text < TEXTS; text++) {
        *to++ = 5;
        plain &= way(to, texts[text]);
        to += LENGTH;
        *to++ = 0;
    }
    plain &= made[LENGTH / 2] > 1;
    free(made);
    return plain;
}

int main(void) {
    static const char *const names[WAYS] = {"copied", "looked at, then copied", "in one loop"};
    int (*const ways[WAYS])(unsigned char *, const unsigned char *) = {copied, looked_at, in_one_loop};
    double best[WAYS] = {1e18, 1e18, 1e18};
    for (int text = 0; text < TEXTS; text++)
        for (int at = 0; at < LENGTH; at++) texts[text][at] = 'a' + (at * 7 + text) % 26;
    for (int round = 0; round < ROUNDS; round++)
        for (int way = 0; way < WAYS; way++) {
            const double begun = now();
            for (int call = 0; call < CALLS; call++)
                if (!key(ways[way])) return 1;
            const double took = (now() - begun) / CALLS;
            if (took < best[way]) best[way] = took;
        }
    for (int way = 0; way < WAYS; way++) printf("%-24s %6.0f ns  %.2f\n", names[way], best[way], best[way] / best[0]);
    return 0;
}
