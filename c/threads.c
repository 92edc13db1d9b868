/* Eight threads search with clones of one regex at once, each with a cache of its own. Meanwhile they make and free further
 * clones. A handle moves to each thread, and is freed there. This is run under a race detector too. */
#include "bites.h"
#include <pthread.h>
#include <stdio.h>
#include <stdlib.h>
#include <string.h>

#define BYTES(text) (const uint8_t *)(text), sizeof(text) - 1
#define HAYSTACK BYTES("-- some 42 words, and 137 others")
enum { THREADS = 8, TURNS = 200 };

/* Returns whether the four matches are found and replaced as they should be. */
static int searches_well(bites *regex, bites_cache *cache) {
    const size_t ends[] = {10, 16, 25, 32};
    bites_span m, groups[3];
    uint8_t out[64];
    size_t count = 0;
    for (size_t last = BITES_NONE; bites_find_next(regex, cache, HAYSTACK, last, &m) == BITES_MATCH; last = m.end, count++)
        if (count == 4 || m.end != ends[count]) return 0;
    bites_size size = bites_replace(regex, cache, HAYSTACK, 0, BYTES("<$2>"), out, sizeof out);
    return count == 4 && size.code == BITES_MATCH && size.size == 20 && !memcmp(out, "-- <42> <>, <137> <>", 20)
        && bites_captures_at(regex, cache, HAYSTACK, 0, groups, 3).code == BITES_MATCH && groups[2].start == 8;
}

static void *work(void *handle) {
    bites *regex = handle, further = {0};
    bites_cache cache = {0};
    int right = bites_cache_new(regex, &cache) == BITES_DONE;
    for (int turn = 0; turn < TURNS && right; turn++)
        right = bites_clone(regex, &further) == BITES_DONE && searches_well(turn % 2 ? regex : &further, &cache);
    bites_free(&further);
    bites_cache_free(&cache);
    bites_free(regex);
    return right ? handle : NULL;
}

int main(void) {
    bites regex = {0}, clones[THREADS] = {{0}};
    pthread_t threads[THREADS];
    int started = 0, right = bites_new(BYTES("(?<word>[a-z]+)(?: ([0-9]{2,3}))?"), 0, BITES_SIZE_LIMIT, BITES_NEST_LIMIT, &regex) == BITES_DONE;
    while (right && started < THREADS) {
        right = bites_clone(&regex, &clones[started]) == BITES_DONE && !pthread_create(&threads[started], NULL, work, &clones[started]);
        started += right;
    }
    for (int index = 0; index < started; index++) {
        void *answer = NULL;
        right = !pthread_join(threads[index], &answer) && answer == &clones[index] && right;
    }
    bites_free(&regex);
    puts(right ? "eight threads answer as one" : "a thread answers otherwise");
    return !right;
}
