/*
 * Times searches against the length of the haystack and against the number of states, and prints nanoseconds per byte, and per
 * byte and state. The time is linear if a column stays level. The answers are printed too, so that no work is optimized away.
 */
#include "bench.h"

#include <stdint.h>
#include <stdio.h>
#include <stdlib.h>
#include <string.h>
#include <time.h>

enum { FIND_ITER = 0, IS_MATCH = 4 };

static const char *const words[] = {"the ", "harbour ", "walking ", "sing ", "of ", "2010-03-14 ", "Holmes\n", "in "};

/* Returns words in the order of a small linear congruential generator. */
static uint8_t *text(size_t len) {
    uint8_t *bytes = malloc(len + 16);
    if (bytes == NULL) {
        fputs("times: no memory\n", stderr);
        exit(2);
    }
    uint32_t order = 1;
    for (size_t at = 0; at < len;) {
        order = order * 1664525u + 1013904223u;
        const char *word = words[order >> 29];
        size_t size = strlen(word);
        memcpy(bytes + at, word, size);
        at += size;
    }
    return bytes;
}

/* Returns the least time of three runs, in nanoseconds. */
static double least(uint32_t job, const char *pattern, const uint8_t *haystack, size_t len, size_t *answer) {
    double best = 0;
    for (int run = 0; run < 3; run++) {
        struct timespec from, to;
        clock_gettime(CLOCK_MONOTONIC, &from);
        *answer = bites_bench(job, (const uint8_t *)pattern, strlen(pattern), haystack, len, (const uint8_t *)"", 0, 1);
        clock_gettime(CLOCK_MONOTONIC, &to);
        double took = (double)(to.tv_sec - from.tv_sec) * 1e9 + (double)(to.tv_nsec - from.tv_nsec);
        if (run == 0 || took < best) best = took;
    }
    return best;
}

static void by_length(void) {
    static const char *const patterns[] = {"harbour", "[a-z]+ing", "\\d{4}-\\d{2}-\\d{2}"};
    puts("pattern\tbytes\tns/byte\tmatches");
    for (size_t k = 0; k < sizeof patterns / sizeof *patterns; k++) {
        for (size_t len = 1000000; len <= 100000000; len *= 10) {
            uint8_t *haystack = text(len);
            size_t matches;
            double took = least(FIND_ITER, patterns[k], haystack, len, &matches);
            printf("%s\t%zu\t%.1f\t%zu\n", patterns[k], len, took / (double)len, matches);
            free(haystack);
        }
    }
}

/* All the letters are alive at each offset of a haystack of `a`, and each of them is tried there. */
static void by_states(void) {
    enum { LEN = 100000 };
    uint8_t *haystack = malloc(LEN);
    if (haystack == NULL) {
        fputs("times: no memory\n", stderr);
        exit(2);
    }
    memset(haystack, 'a', LEN);
    puts("pattern\tbytes\tns/byte\tns/(byte*letter)\tmatches");
    for (unsigned letters = 10; letters <= 1000; letters *= 10) {
        char pattern[64];
        snprintf(pattern, sizeof pattern, "(?:a?){%u}b", letters);
        size_t matches;
        double took = least(IS_MATCH, pattern, haystack, LEN, &matches);
        printf("%s\t%d\t%.1f\t%.2f\t%zu\n", pattern, LEN, took / LEN, took / LEN / letters, matches);
    }
    free(haystack);
}

int main(void) {
    by_length();
    by_states();
    return 0;
}
