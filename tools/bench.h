/* A job to be timed, over the library bites_c (bench.c). */
#ifndef BITES_BENCH_H
#define BITES_BENCH_H
#include <stddef.h>
#include <stdint.h>

/* Does a job with one regex, `times` times, and returns the checksum of the last time. Returns SIZE_MAX if the job is unknown, or
 * if the pattern, the haystack or memory was refused.
 *
 * The jobs:
 *  0 counts the matches.
 *  1 sums the ends of group 3 over all matches.
 *  2 sums the lengths of the first match of each line.
 *  3 returns the end of the first match, or 0 for none.
 *  4 returns 1 if something matches, else 0.
 *  5 counts the pieces between the matches.
 *  6 sums the bytes of the haystack with each match replaced by `template_text`.
 *  7 makes the regex each time, and returns the number of its groups.
 *  8 counts the matches of a regex over texts.
 *  9 sums the ends of the matches, and reads their groups.
 * Sums are modulo 1000000007. All jobs but 7 search with one cache, which is made before the first time. */
size_t bites_bench(uint32_t job, const uint8_t *pattern, size_t pattern_len, const uint8_t *haystack, size_t haystack_len,
                   const uint8_t *template_text, size_t template_len, size_t times);
#endif
