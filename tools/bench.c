#include "bench.h"

#include "../c/bites.h"

#include <stdbool.h>
#include <stdlib.h>
#include <string.h>

enum { SUM = 1000000007, GROUPS = 64 };

/* What a job uses. One cache serves all searches, as the Rust crate's regex keeps its own. */
struct work {
    bites regex;
    bites_cache cache;
    const uint8_t *haystack, *template_text;
    size_t len, template_len;
};

/* The matches of a job, one after another. Only if `has_groups` is set, `groups` has all groups of a match. */
struct matches {
    bites_span groups[GROUPS];
    size_t last;
    bool has_groups;
};

static struct matches all_matches(bool has_groups) {
    return (struct matches){.last = BITES_NONE, .has_groups = has_groups};
}

/* Finds the next match, whose span is group 0. Returns whether there is one. */
static bool next(struct work *work, struct matches *matches) {
    uint32_t code = matches->has_groups
        ? bites_captures_next(&work->regex, &work->cache, work->haystack, work->len, matches->last, matches->groups, GROUPS).code
        : bites_find_next(&work->regex, &work->cache, work->haystack, work->len, matches->last, matches->groups);
    matches->last = matches->groups[0].end;
    return code == BITES_MATCH;
}

static size_t count(struct work *work) {
    struct matches matches = all_matches(false);
    size_t number = 0;
    while (next(work, &matches)) number++;
    return number;
}

static size_t count_pieces(struct work *work) { return count(work) + 1; }

/* Returns the sum of the ends of this group over all matches in which it participates. */
static size_t sum_ends(struct work *work, size_t group) {
    struct matches matches = all_matches(true);
    size_t sum = 0;
    while (next(work, &matches))
        if (matches.groups[group].end != BITES_NONE) sum = (sum + matches.groups[group].end) % SUM;
    return sum;
}

static size_t sum_third(struct work *work) { return sum_ends(work, 3); }

static size_t sum_whole(struct work *work) { return sum_ends(work, 0); }

/* Returns the first match, or an empty span at 0 if there is none. */
static bites_span first(struct work *work, const uint8_t *haystack, size_t len) {
    bites_span found = {0, 0};
    if (bites_find_at(&work->regex, &work->cache, haystack, len, 0, &found) != BITES_MATCH) found = (bites_span){0, 0};
    return found;
}

static size_t sum_lines(struct work *work) {
    size_t sum = 0;
    for (size_t from = 0; from < work->len;) {
        const uint8_t *end = memchr(work->haystack + from, '\n', work->len - from);
        size_t to = end == NULL ? work->len : (size_t)(end - work->haystack);
        bites_span found = first(work, work->haystack + from, to - from);
        sum = (sum + found.end - found.start) % SUM;
        from = to + 1;
    }
    return sum;
}

static size_t end_of_first(struct work *work) { return first(work, work->haystack, work->len).end; }

static size_t matches(struct work *work) {
    return bites_is_match_at(&work->regex, &work->cache, work->haystack, work->len, 0) == BITES_MATCH;
}

static size_t sum_replaced(struct work *work) {
    size_t room = 2 * work->len + 1024, sum = 0;
    uint8_t *out = malloc(room);
    if (out == NULL) return SIZE_MAX;
    bites_size size = bites_replace(&work->regex, &work->cache, work->haystack, work->len, 0, work->template_text, work->template_len, out, room);
    const uint8_t *text = size.code == BITES_MATCH ? out : work->haystack; /* Where nothing matches it is the haystack. */
    for (size_t at = 0; at < size.size; at++) sum = (sum + text[at]) % SUM;
    free(out);
    return size.code == BITES_MATCH || size.code == BITES_NO_MATCH ? sum : SIZE_MAX;
}

static size_t (*const jobs[])(struct work *) = {count, sum_third, sum_lines, end_of_first, matches,
                                                count_pieces, sum_replaced, NULL, count, sum_whole};
enum { MAKE = 7, TEXTS = 8, JOBS = sizeof jobs / sizeof *jobs };

size_t bites_bench(uint32_t job, const uint8_t *pattern, size_t pattern_len, const uint8_t *haystack, size_t haystack_len,
                   const uint8_t *template_text, size_t template_len, size_t times) {
    struct work work = {.haystack = haystack, .template_text = template_text, .len = haystack_len, .template_len = template_len};
    size_t answer = SIZE_MAX, makes = job == MAKE ? times : 1;
    if (job >= JOBS) return SIZE_MAX;
    for (size_t time = 0; time < makes; time++)
        if (bites_new(pattern, pattern_len, job == TEXTS ? BITES_TEXT : 0, BITES_SIZE_LIMIT, BITES_NEST_LIMIT, &work.regex) != BITES_DONE)
            return SIZE_MAX;
    if (job == MAKE) answer = bites_captures_len(&work.regex);
    else {
        bites_prepare(&work.regex, BITES_DFA_SIZE_LIMIT, &work.regex);
        bites_cache_new(&work.regex, &work.cache);
    }
    for (size_t time = 0; job != MAKE && time < times; time++) answer = jobs[job](&work);
    bites_cache_free(&work.cache);
    bites_free(&work.regex);
    return answer;
}
