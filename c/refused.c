/* Refuses each request for memory of each call of bites.h that allocates: the first, the second and each further one, until a
 * run has none refused. Then it does all of that again with the requests after the refused one refused too. A refused call must
 * return BITES_NO_MEMORY. But bites_prepare and its kin may be done if only tables and literals were refused memory, and what they
 * made must work then. The handles of a refused call must still work, `out` of a call that makes something must hold
 * nothing, other memory that it writes to must be unchanged, and all that it allocated must be freed. Searches must not allocate
 * at all. */
#include "bites.h"
#include "refusing.h"

#define BYTES(text) (const uint8_t *)(text), sizeof(text) - 1
#define LIMITS BITES_SIZE_LIMIT, BITES_NEST_LIMIT
#define PATTERN BYTES("(?<word>[a-z]+)(?: ([0-9]{2,3}))?")
#define HAYSTACK BYTES("-- some 42 words, and 137 others")
#define LONG_TEMPLATE BYTES("<$word: ${2}> $$ and a text that is longer than all that stands before it, twice: $word $word")
#define SET BYTES("[a-z]+[0-9]{2,3}--$"), ends, 3
#define ROOM 1024

/* the ends of the patterns of SET: a word, a number, and a line that ends with two dashes */
static const size_t ends[] = {6, 16, 19};

/* The arguments of the calls, made with ample memory for each run. */
struct given {
    bites regex;
    bites_cache cache;
    bites made;             /* what a call makes; it holds something before */
    bites_cache made_cache; /* the same */
    bites_set set;
    bites_set made_set; /* the same */
    bites_span groups[3];   /* of the first match */
    uint8_t out[ROOM];
};

/* A call, the text that it writes or NULL, and the code that it returns if there is enough memory. */
struct call {
    const char *name;
    const char *text;
    uint32_t code;
    bites_size (*ask)(struct given *given);
};

static bites_size only(uint32_t code) { return (bites_size){code, 0}; }

static bites_size new(struct given *given) { return only(bites_new(PATTERN, BITES_TEXT, LIMITS, &given->made)); }

static bites_size clone(struct given *given) { return only(bites_clone(&given->regex, &given->made)); }

static bites_size prepare(struct given *given) { return only(bites_prepare(&given->regex, BITES_DFA_SIZE_LIMIT, &given->made)); }
static bites_size prepare_unanchored(struct given *given) {
    return only(bites_prepare_unanchored(&given->regex, BITES_DFA_SIZE_LIMIT, &given->made));
}

static bites_size cache_new(struct given *given) { return only(bites_cache_new(&given->regex, &given->made_cache)); }

static bites_size new_set(struct given *given) { return bites_set_new(SET, BITES_TEXT, LIMITS, &given->made_set); }

static bites_size clone_set(struct given *given) { return only(bites_set_clone(&given->set, &given->made_set)); }

static bites_size prepare_set(struct given *given) {
    return only(bites_set_prepare(&given->set, BITES_DFA_SIZE_LIMIT, &given->made_set));
}

static bites_size escape(struct given *given) { return bites_escape(BYTES("a.b*c[d] and more, to grow: (((((((((())))))))))"), given->out, ROOM); }

static bites_size replace(struct given *given) {
    return bites_replace(&given->regex, &given->cache, HAYSTACK, 2, BYTES("<$word$2>"), given->out, ROOM);
}

static bites_size replace_literal(struct given *given) {
    return bites_replace_literal(&given->regex, &given->cache, HAYSTACK, 0, BYTES("$word"), given->out, ROOM);
}

static bites_size expand(struct given *given) {
    return bites_expand(&given->regex, HAYSTACK, given->groups, 3, LONG_TEMPLATE, given->out, ROOM);
}

static bites_size error_at(struct given *given) {
    size_t offset = 0;
    uint32_t code = bites_error_at(BYTES("(?<name>[a-z])(?<name>)"), 0, BITES_NEST_LIMIT, &offset);
    (void)given;
    return only((code == BITES_NO_MEMORY ? offset == BITES_NONE : offset == 22) ? code : UINT32_MAX);
}

static const struct call calls[] = {
    {"bites_new", NULL, BITES_DONE, new},
    {"bites_error_at", "", 3, error_at},
    {"bites_clone", NULL, BITES_DONE, clone},
    {"bites_prepare", NULL, BITES_DONE, prepare},
    {"bites_prepare_unanchored", NULL, BITES_DONE, prepare_unanchored},
    {"bites_cache_new", NULL, BITES_DONE, cache_new},
    {"bites_set_new", NULL, BITES_DONE, new_set},
    {"bites_set_clone", NULL, BITES_DONE, clone_set},
    {"bites_set_prepare", NULL, BITES_DONE, prepare_set},
    {"bites_escape", "a\\.b\\*c\\[d\\] and more, to grow: \\(\\(\\(\\(\\(\\(\\(\\(\\(\\(\\)\\)\\)\\)\\)\\)\\)\\)\\)\\)", BITES_DONE, escape},
    {"bites_replace", "-- <some42> <words>, and 137 others", BITES_MATCH, replace},
    {"bites_replace_literal", "-- $word $word, $word $word", BITES_MATCH, replace_literal},
    {"bites_expand", "<some: 42> $ and a text that is longer than all that stands before it, twice: some some", BITES_DONE, expand},
};

static bool complain(const char *name, size_t number, const char *what) {
    printf("%s: request %zu refused: %s\n", name, number, what);
    return false;
}

/* Returns whether the searches with these handles return what they should, and allocate nothing. */
static bool search_well(bites *regex, bites_cache *cache) {
    bites_span m = {0, 0}, groups[3];
    uint8_t out[4];
    size_t end = 0, before = requests, count = 0;
    bool right = bites_is_match(regex, cache, HAYSTACK) == BITES_MATCH;
    right = right && bites_is_match_at(regex, cache, HAYSTACK, 0) == BITES_MATCH;
    right = right && bites_shortest_match_at(regex, cache, HAYSTACK, 0, &end) == BITES_MATCH && end == 4;
    right = right && bites_find_at(regex, cache, HAYSTACK, 0, &m) == BITES_MATCH && m.start == 3 && m.end == 10;
    right = right && bites_captures_at(regex, cache, HAYSTACK, 0, groups, 3).code == BITES_MATCH && groups[2].start == 8;
    right = right && bites_find_anchored_at(regex, cache, HAYSTACK, 3, &m) == BITES_MATCH && m.end == 10;
    right = right && bites_captures_anchored_at(regex, cache, HAYSTACK, 3, groups, 3).code == BITES_MATCH && groups[2].end == 10;
    right = right && bites_is_full_match(regex, cache, HAYSTACK) == BITES_NO_MATCH;
    right = right && bites_captures_next(regex, cache, HAYSTACK, 10, groups, 3).code == BITES_MATCH && groups[0].start == 11;
    for (size_t last = BITES_NONE; right && bites_find_next(regex, cache, HAYSTACK, last, &m) == BITES_MATCH; last = m.end)
        count++;
    size_t last = BITES_NONE, pieces = 1;
    while (right && bites_split_next(regex, cache, HAYSTACK, &last, &m) == BITES_MATCH) pieces++;
    right = right && pieces == 5 && last == 32 && m.start == 32 && m.end == 32;
    right = right && bites_replace(regex, cache, BYTES("-- 42"), 0, BYTES("$word"), out, sizeof out).code == BITES_NO_MATCH;
    return right && count == 4 && bites_captures_len(regex) == 3 && requests == before;
}

/* The same for a set: a word and a number stand in the haystack, and the last pattern matches nowhere. */
static bool set_searches_well(bites_set *set) {
    uint8_t matched[3] = {7, 7, 7};
    size_t before = requests;
    bool right = bites_set_len(set).size == 3 && bites_set_is_match_at(set, HAYSTACK, 0) == BITES_MATCH;
    right = right && bites_set_matches_at(set, HAYSTACK, 0, matched, 3).code == BITES_MATCH;
    return right && matched[0] == 1 && matched[1] == 1 && matched[2] == 0 && requests == before;
}

static bool makes_set(const struct call *call) { return call->ask == new_set || call->ask == clone_set || call->ask == prepare_set; }

static bool makes_tables(const struct call *call) { return call->ask == prepare || call->ask == prepare_unanchored || call->ask == prepare_set; }

static bool set_up(struct given *given) {
    *given = (struct given){0};
    memset(given->out, '-', ROOM);
    return bites_new(PATTERN, BITES_TEXT, LIMITS, &given->regex) == BITES_DONE
        && bites_cache_new(&given->regex, &given->cache) == BITES_DONE
        && bites_new(BYTES("old"), 0, LIMITS, &given->made) == BITES_DONE
        && bites_cache_new(&given->made, &given->made_cache) == BITES_DONE
        && bites_set_new(SET, BITES_TEXT, LIMITS, &given->set).code == BITES_DONE
        && bites_set_new(BYTES("old"), ends, 0, 0, LIMITS, &given->made_set).code == BITES_DONE
        && bites_captures_at(&given->regex, &given->cache, HAYSTACK, 0, given->groups, 3).code == BITES_MATCH;
}

static bool is_untouched(const struct given *given) {
    for (size_t place = 0; place < ROOM; place++)
        if (given->out[place] != '-') return false;
    return true;
}

/* Returns whether the call did its work: it put its text, or searches work with what it made. */
static bool is_done(const struct call *call, struct given *given, bites_size answer) {
    if (answer.code != call->code) return false;
    if (call->text != NULL)
        return answer.size == strlen(call->text) && memcmp(given->out, call->text, answer.size) == 0 && given->out[answer.size] == '-';
    if (call->ask == cache_new) return search_well(&given->regex, &given->made_cache);
    if (makes_set(call)) return set_searches_well(&given->made_set);
    return search_well(&given->made, &given->cache);
}

/* Returns whether a refused call returned BITES_NO_MEMORY and left its arguments unchanged, and is done when it is repeated. */
static bool is_kept(const struct call *call, struct given *given, bites_size answer, size_t number) {
    /* a set that is refused names a pattern */
    size_t most = call->ask == new_set ? 2 : 0;
    if (answer.code != BITES_NO_MEMORY || answer.size > most) return complain(call->name, number, "another answer");
    if (!is_untouched(given)) return complain(call->name, number, "something is written");
    void *made = call->ask == cache_new ? given->made_cache.at : makes_set(call) ? given->made_set.at : given->made.at;
    if (call->text == NULL && made != NULL) return complain(call->name, number, "`out` holds something");
    if (!search_well(&given->regex, &given->cache) || !set_searches_well(&given->set)) return complain(call->name, number, "the handles do not go on");
    return is_done(call, given, call->ask(given)) || complain(call->name, number, "asked again, it answers otherwise");
}

/* Runs the call with the request of this number refused. Returns whether all is right. `needed` is the number of requests. */
static bool run(const struct call *call, size_t number, bool rest, size_t *needed) {
    struct given given;
    blocks = 0, misused = false;
    refuse_at = 0;
    if (!set_up(&given)) return complain(call->name, 0, "no answer to begin with");
    requests = refusals = 0;
    refuse_at = number, refuse_rest = rest;
    bites_size answer = call->ask(&given);
    refuse_at = 0;
    *needed = requests;
    bool lacks_table = makes_tables(call) && answer.code == BITES_DONE;
    bool right = refusals > 0 && !lacks_table ? is_kept(call, &given, answer, number)
                                               : is_done(call, &given, answer) || complain(call->name, number, "a wrong answer");
    bites_set_free(&given.made_set);
    bites_set_free(&given.set);
    bites_free(&given.made);
    bites_cache_free(&given.made_cache);
    bites_cache_free(&given.cache);
    bites_free(&given.regex);
    if (blocks != 0 || misused) return complain(call->name, number, "blocks are not freed, or twice");
    return right;
}

/* Refuses each request of the call in turn. Returns whether all runs are right. `count` is the number of requests. */
static bool try_call(const struct call *call, size_t *count) {
    size_t needed;
    if (!run(call, 0, false, count)) return false;
    for (int turn = 0; turn < 2; turn++)
        for (size_t number = 1;; number++) {
            if (!run(call, number, turn == 1, &needed)) return false;
            if (refusals == 0) break;
        }
    return *count > 0;
}

int main(void) {
    size_t failed = 0;
    for (size_t index = 0; index < sizeof calls / sizeof *calls; index++) {
        size_t count = 0;
        bool right = try_call(&calls[index], &count);
        printf("%-22s %3zu requests, %s\n", calls[index].name, count, right ? "each refused in turn" : "FAILED");
        failed += !right;
    }
    return failed != 0;
}
