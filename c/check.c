/* Tests each call of bites.h: results that are known, and each refusal. It stops at the first wrong result. */
#include "bites.h"
#include <stdio.h>
#include <stdlib.h>
#include <string.h>

#define BYTES(text) (const uint8_t *)(text), sizeof(text) - 1
#define LIMITS BITES_SIZE_LIMIT, BITES_NEST_LIMIT
#define CHECK(holds) ((holds) ? (void)0 : wrong(#holds, __LINE__))

/* what the archive takes these types to be */
_Static_assert(sizeof(bites) == sizeof(void *) && sizeof(bites_cache) == sizeof(void *) && sizeof(bites_set) == sizeof(void *), "a handle is a pointer");
_Static_assert(sizeof(bites_span) == 16 && offsetof(bites_span, end) == 8, "a span is two places");
_Static_assert(sizeof(bites_size) == 16 && offsetof(bites_size, size) == 8, "a code, and a size behind it");
_Static_assert(sizeof(bites_table) == 24 && offsetof(bites_table, bytes) == 8 && offsetof(bites_table, is_whole) == 16, "two sizes, and a number behind them");

static void wrong(const char *what, int line) {
    fprintf(stderr, "check.c:%d: not so: %s\n", line, what);
    exit(1);
}

static void searches(void) {
    bites regex = {0};
    bites_cache cache = {0};
    bites_span span = {7, 7}, groups[4] = {{7, 7}, {7, 7}, {7, 7}, {7, 7}};
    size_t end = 7;
    CHECK(bites_new(BYTES("(?P<year>[0-9]{4})(-[0-9]+)?|x"), 0, LIMITS, &regex) == BITES_DONE);
    CHECK(bites_cache_new(&regex, &cache) == BITES_DONE);
    CHECK(bites_captures_len(&regex) == 3 && bites_static_captures_len(&regex) == 0);
    CHECK(bites_is_match(&regex, &cache, BYTES("in 2024-05")) == BITES_MATCH);
    CHECK(bites_is_match(&regex, &cache, BYTES("in 202")) == BITES_NO_MATCH);
    CHECK(bites_is_match_at(&regex, &cache, BYTES("in 2024-05"), 0) == BITES_MATCH);
    CHECK(bites_is_match_at(&regex, &cache, BYTES("in 2024-05"), 4) == BITES_NO_MATCH);
    CHECK(bites_shortest_match_at(&regex, &cache, BYTES("in 2024-05"), 0, &end) == BITES_MATCH && end == 7);
    end = 9;
    CHECK(bites_shortest_match_at(&regex, &cache, BYTES("in"), 0, &end) == BITES_NO_MATCH && end == 9);
    CHECK(bites_find_at(&regex, &cache, BYTES("in 2024-05"), 0, &span) == BITES_MATCH && span.start == 3 && span.end == 10);
    bites_size size = bites_captures_at(&regex, &cache, BYTES("in 2024-05"), 0, groups, 4);
    CHECK(size.code == BITES_MATCH && size.size == 3);
    CHECK(groups[0].start == 3 && groups[0].end == 10 && groups[1].start == 3 && groups[1].end == 7);
    CHECK(groups[2].start == 7 && groups[2].end == 10 && groups[3].start == 7 && groups[3].end == 7);
    size = bites_captures_at(&regex, &cache, BYTES("x"), 0, groups, 3);
    CHECK(size.code == BITES_MATCH && groups[0].end == 1 && groups[1].start == BITES_NONE && groups[2].end == BITES_NONE);
    /* a start within a line is not the start of the line */
    CHECK(bites_compile("^b", &regex) == BITES_DONE && bites_cache_new(&regex, &cache) == BITES_DONE);
    CHECK(bites_find_at(&regex, &cache, BYTES("ab"), 1, &span) == BITES_NO_MATCH && bites_find_at(&regex, &cache, BYTES("b"), 0, &span) == BITES_MATCH);
    bites_cache_free(&cache);
    bites_free(&regex);
}

/* a start past the end, and a slice with too few places */
static void limits_of_searches(void) {
    bites regex = {0};
    bites_cache cache = {0};
    bites_span span = {7, 7}, groups[2] = {{7, 7}, {7, 7}};
    CHECK(bites_compile("(x)(y)?", &regex) == BITES_DONE && bites_cache_new(&regex, &cache) == BITES_DONE);
    span.start = 5;
    CHECK(bites_find_at(&regex, &cache, BYTES("x"), 2, &span) == BITES_NO_MATCH && span.start == 5);
    CHECK(bites_is_match_at(&regex, &cache, BYTES("x"), SIZE_MAX) == BITES_NO_MATCH);
    bites_size size = bites_captures_at(&regex, &cache, BYTES("x"), 0, groups, 2);
    CHECK(size.code == BITES_TOO_SMALL && size.size == 3 && groups[0].end == 7);
    bites_cache_free(&cache);
    bites_free(&regex);
}

/* a match that begins at an offset, and one of the whole haystack */
static void anchored(void) {
    bites regex = {0};
    bites_cache cache = {0};
    bites_span span = {7, 7}, groups[2] = {{7, 7}, {7, 7}};
    CHECK(bites_find_anchored_at(&regex, &cache, BYTES("ab"), 0, &span) == BITES_EMPTY_HANDLE && bites_is_full_match(&regex, &cache, BYTES("ab")) == BITES_EMPTY_HANDLE);
    CHECK(bites_captures_anchored_at(&regex, &cache, BYTES("ab"), 0, groups, 2).code == BITES_EMPTY_HANDLE && span.start == 7);
    CHECK(bites_new(BYTES("a|a(b)"), 0, LIMITS, &regex) == BITES_DONE && bites_cache_new(&regex, &cache) == BITES_DONE);
    CHECK(bites_find_anchored_at(&regex, &cache, BYTES("xab"), 0, &span) == BITES_NO_MATCH && span.start == 7);
    CHECK(bites_find_anchored_at(&regex, &cache, BYTES("xab"), 1, &span) == BITES_MATCH && span.start == 1 && span.end == 2);
    CHECK(bites_find_anchored_at(&regex, &cache, BYTES("xab"), 4, &span) == BITES_NO_MATCH);
    CHECK(bites_is_full_match(&regex, &cache, BYTES("ab")) == BITES_MATCH && bites_is_full_match(&regex, &cache, BYTES("abb")) == BITES_NO_MATCH);
    bites_size size = bites_captures_anchored_at(&regex, &cache, BYTES("xab"), 1, groups, 1);
    CHECK(size.code == BITES_TOO_SMALL && size.size == 2 && groups[0].start == 7);
    size = bites_captures_anchored_at(&regex, &cache, BYTES("xab"), 1, groups, 2);
    CHECK(size.code == BITES_MATCH && size.size == 2 && groups[0].start == 1 && groups[0].end == 2 && groups[1].start == BITES_NONE);
    CHECK(bites_captures_anchored_at(&regex, &cache, BYTES("xab"), 0, groups, 2).code == BITES_NO_MATCH && groups[0].start == 1);
    CHECK(bites_new(BYTES("a|a(b)"), BITES_LEFTMOST_LONGEST | BITES_TEXT, LIMITS, &regex) == BITES_DONE && bites_cache_new(&regex, &cache) == BITES_DONE);
    CHECK(bites_captures_anchored_at(&regex, &cache, BYTES("xab"), 1, groups, 2).code == BITES_MATCH && groups[0].end == 3 && groups[1].start == 2);
    CHECK(bites_find_anchored_at(&regex, &cache, BYTES("\xff"), 0, &span) == BITES_NOT_UTF8 && bites_is_full_match(&regex, &cache, BYTES("\xff")) == BITES_NOT_UTF8);
    CHECK(bites_find_anchored_at(&regex, &cache, BYTES("\xc3\xa9"), 1, &span) == BITES_NOT_BORDER && bites_captures_anchored_at(&regex, &cache, BYTES("\xc3\xa9"), 1, groups, 2).code == BITES_NOT_BORDER);
    CHECK(bites_find_anchored_at(NULL, &cache, BYTES("a"), 0, &span) == BITES_EMPTY_HANDLE && bites_find_anchored_at(&regex, NULL, BYTES("a"), 0, &span) == BITES_EMPTY_HANDLE);
    CHECK(bites_is_full_match(NULL, &cache, BYTES("a")) == BITES_EMPTY_HANDLE && bites_is_full_match(&regex, NULL, BYTES("a")) == BITES_EMPTY_HANDLE);
    CHECK(bites_captures_anchored_at(NULL, &cache, BYTES("a"), 0, groups, 2).code == BITES_EMPTY_HANDLE && bites_captures_anchored_at(&regex, NULL, NULL, 0, 0, NULL, 0).code == BITES_EMPTY_HANDLE);
    bites_cache_free(&cache);
    bites_free(&regex);
}

/* the matches of x* in "axb" followed by a letter of two bytes: empty, x, empty, empty */
static void successive(void) {
    bites regex = {0};
    bites_cache cache = {0};
    bites_span m = {0, 0};
    const size_t wanted[] = {0, 0, 1, 2, 3, 3, 5, 5};
    size_t count = 0;
    CHECK(bites_new(BYTES("x*"), 0, LIMITS, &regex) == BITES_DONE && bites_cache_new(&regex, &cache) == BITES_DONE);
    for (size_t last = BITES_NONE; bites_find_next(&regex, &cache, BYTES("axb\xc3\xa9"), last, &m) == BITES_MATCH; last = m.end) {
        CHECK(count < 4 && m.start == wanted[2 * count] && m.end == wanted[2 * count + 1]);
        count++;
    }
    CHECK(count == 4 && m.end == 5);
    CHECK(bites_find_next(&regex, &cache, BYTES("a"), 9, &m) == BITES_NO_MATCH);
    bites_cache_free(&cache);
    bites_free(&regex);
}

/* whether the call put this piece, and `last` is this offset after it */
static int is_piece(uint32_t code, uint32_t wanted, bites_span piece, size_t start, size_t end, size_t last, size_t place) {
    return code == wanted && piece.start == start && piece.end == end && last == place;
}

/* a, b and c between commas and spaces; and the pieces between the empty matches of x* in "axb" and its x */
static void pieces(void) {
    bites regex = {0};
    bites_cache cache = {0};
    bites_span p = {7, 7};
    size_t last = BITES_NONE;
    uint32_t code = bites_split_next(&regex, &cache, BYTES("a"), &last, &p);
    CHECK(is_piece(code, BITES_EMPTY_HANDLE, p, 7, 7, last, BITES_NONE));
    CHECK(bites_new(BYTES(", *"), 0, LIMITS, &regex) == BITES_DONE && bites_cache_new(&regex, &cache) == BITES_DONE);
    code = bites_split_next(&regex, &cache, BYTES("a, b,c"), &last, &p);
    CHECK(is_piece(code, BITES_MATCH, p, 0, 1, last, 3));
    code = bites_split_next(&regex, &cache, BYTES("a, b,c"), &last, &p);
    CHECK(is_piece(code, BITES_MATCH, p, 3, 4, last, 5));
    code = bites_split_next(&regex, &cache, BYTES("a, b,c"), &last, &p);
    CHECK(is_piece(code, BITES_NO_MATCH, p, 5, 6, last, 5));
    last = 9;
    code = bites_split_next(&regex, &cache, BYTES("a,"), &last, &p);
    CHECK(is_piece(code, BITES_NO_MATCH, p, 2, 2, last, 9));
    CHECK(bites_new(BYTES("x*"), 0, LIMITS, &regex) == BITES_DONE && bites_cache_new(&regex, &cache) == BITES_DONE);
    const size_t wanted[] = {0, 0, 0, 0, 1, 2, 2, 3, 3};
    size_t count = 0;
    for (last = BITES_NONE; bites_split_next(&regex, &cache, BYTES("axb"), &last, &p) == BITES_MATCH; count++)
        CHECK(count < 3 && is_piece(BITES_MATCH, BITES_MATCH, p, wanted[3 * count], wanted[3 * count + 1], last, wanted[3 * count + 2]));
    CHECK(count == 3 && p.start == 3 && p.end == 3 && last == 3);
    bites_cache_free(&cache);
    bites_free(&regex);
}

static void names(void) {
    bites regex = {0};
    uint8_t name[8] = "--------";
    CHECK(bites_group_name(&regex, 0, name, 8).code == BITES_EMPTY_HANDLE);
    CHECK(bites_new(BYTES("(?P<year>a)(b)"), 0, LIMITS, &regex) == BITES_DONE);
    bites_size size = bites_group_name(&regex, 1, name, 0);
    CHECK(size.code == BITES_TOO_SMALL && size.size == 4 && name[0] == '-');
    size = bites_group_name(&regex, 1, name, 8);
    CHECK(size.code == BITES_DONE && size.size == 4 && !memcmp(name, "year----", 8));
    CHECK(bites_group_name(&regex, 0, name, 8).code == BITES_NO_NAME);
    CHECK(bites_group_name(&regex, 2, name, 8).code == BITES_NO_NAME);
    CHECK(bites_group_name(&regex, SIZE_MAX, name, 8).code == BITES_NO_NAME);
    bites_free(&regex);
}

/* the groups of all matches of ([a-z])(x)? in "axb": a with x, then b without */
static void groups_in_turn(void) {
    bites regex = {0};
    bites_cache cache = {0};
    bites_span groups[3] = {{7, 7}, {7, 7}, {7, 7}};
    CHECK(bites_captures_next(&regex, &cache, BYTES("axb"), BITES_NONE, groups, 3).code == BITES_EMPTY_HANDLE);
    CHECK(bites_new(BYTES("([a-z])(x)?"), 0, LIMITS, &regex) == BITES_DONE && bites_cache_new(&regex, &cache) == BITES_DONE);
    bites_size size = bites_captures_next(&regex, &cache, BYTES("axb"), BITES_NONE, groups, 2);
    CHECK(size.code == BITES_TOO_SMALL && size.size == 3 && groups[0].end == 7);
    size = bites_captures_next(&regex, &cache, BYTES("axb"), BITES_NONE, groups, 3);
    CHECK(size.code == BITES_MATCH && size.size == 3 && groups[0].start == 0 && groups[0].end == 2);
    CHECK(groups[1].end == 1 && groups[2].start == 1 && groups[2].end == 2);
    size = bites_captures_next(&regex, &cache, BYTES("axb"), 2, groups, 3);
    CHECK(size.code == BITES_MATCH && groups[0].start == 2 && groups[0].end == 3 && groups[2].start == BITES_NONE);
    CHECK(bites_captures_next(&regex, &cache, BYTES("axb"), 3, groups, 3).code == BITES_NO_MATCH && groups[0].end == 3);
    /* an empty match right after another match is skipped */
    CHECK(bites_new(BYTES("(x)*"), 0, LIMITS, &regex) == BITES_DONE && bites_cache_new(&regex, &cache) == BITES_DONE);
    size = bites_captures_next(&regex, &cache, BYTES("axb"), 0, groups, 3);
    CHECK(size.code == BITES_MATCH && groups[0].start == 1 && groups[0].end == 2 && groups[1].start == 1);
    bites_cache_free(&cache);
    bites_free(&regex);
}

static void numbers(void) {
    bites regex = {0};
    CHECK(bites_group_index(&regex, BYTES("year")).code == BITES_EMPTY_HANDLE);
    CHECK(bites_new(BYTES("(?P<year>a)(b)(?P<day>c)"), 0, LIMITS, &regex) == BITES_DONE);
    bites_size size = bites_group_index(&regex, BYTES("day"));
    CHECK(size.code == BITES_DONE && size.size == 3);
    size = bites_group_index(&regex, BYTES("year"));
    CHECK(size.code == BITES_DONE && size.size == 1);
    size = bites_group_index(&regex, BYTES("month"));
    CHECK(size.code == BITES_NO_NAME && size.size == 0);
    CHECK(bites_group_index(&regex, BYTES("\xff")).code == BITES_NO_NAME);
    CHECK(bites_group_index(&regex, BYTES("")).code == BITES_NO_NAME);
    bites_free(&regex);
}

/* whether the call put this text */
static int is_text(bites_size size, const uint8_t *out, const char *text) {
    return size.code == BITES_DONE && size.size == strlen(text) && !memcmp(out, text, size.size);
}

/* whether a match was replaced, and the call put this text */
static int is_replaced(bites_size size, const uint8_t *out, const char *text) {
    return size.code == BITES_MATCH && size.size == strlen(text) && !memcmp(out, text, size.size);
}

static void texts(void) {
    bites regex = {0}, other = {0};
    bites_cache cache = {0};
    uint8_t out[32];
    bites_size size = bites_escape(BYTES("a.b"), out, 0);
    CHECK(size.code == BITES_TOO_SMALL && size.size == 4);
    CHECK(is_text(bites_escape(BYTES("a.b"), out, sizeof out), out, "a\\.b"));
    CHECK(bites_escape(BYTES("\xff"), out, sizeof out).code == BITES_NOT_UTF8);
    CHECK(bites_replace(&regex, &cache, BYTES("a"), 0, BYTES("b"), out, sizeof out).code == BITES_EMPTY_HANDLE);
    CHECK(bites_replace_literal(&regex, &cache, BYTES("a"), 0, BYTES("b"), out, sizeof out).code == BITES_EMPTY_HANDLE);
    CHECK(bites_new(BYTES("(?P<first>[a-z])([0-9])?"), 0, LIMITS, &regex) == BITES_DONE);
    CHECK(bites_replace(&regex, &cache, BYTES("a"), 0, BYTES("b"), out, sizeof out).code == BITES_EMPTY_HANDLE);
    CHECK(bites_new(BYTES("a"), 0, LIMITS, &other) == BITES_DONE && bites_cache_new(&other, &cache) == BITES_DONE);
    size = bites_replace(&regex, &cache, BYTES("a"), 0, BYTES("b"), out, sizeof out);
    CHECK(size.code == BITES_UNFIT_CACHE && size.size == 0);
    CHECK(bites_replace_literal(&regex, &cache, BYTES("a"), 0, BYTES("b"), out, sizeof out).code == BITES_UNFIT_CACHE);
    CHECK(bites_cache_new(&regex, &cache) == BITES_DONE);
    out[0] = '-';
    size = bites_replace(&regex, &cache, BYTES("a1 b"), 0, BYTES("<$2$first>"), out, 7);
    CHECK(size.code == BITES_TOO_SMALL && size.size == 8 && out[0] == '-');
    CHECK(is_replaced(bites_replace(&regex, &cache, BYTES("a1 b"), 0, BYTES("<$2$first>"), out, sizeof out), out, "<1a> <b>"));
    CHECK(is_replaced(bites_replace(&regex, &cache, BYTES("-a1 b!"), 0, BYTES("${0}$9"), out, sizeof out), out, "-a1 b!"));
    CHECK(is_replaced(bites_replace(&regex, &cache, BYTES("a1 b"), 1, BYTES("$$"), out, sizeof out), out, "$ b"));
    CHECK(is_replaced(bites_replace(&regex, &cache, BYTES("a1 b c"), 2, BYTES("."), out, sizeof out), out, ". . c"));
    CHECK(is_replaced(bites_replace(&regex, &cache, BYTES("a"), 0, BYTES(""), out, sizeof out), out, ""));
    CHECK(is_replaced(bites_replace_literal(&regex, &cache, BYTES("a1 b"), 0, BYTES("$2"), out, sizeof out), out, "$2 $2"));
    CHECK(is_replaced(bites_replace_literal(&regex, &cache, BYTES("a1 b c"), 1, BYTES("$2"), out, sizeof out), out, "$2 b c"));
    size = bites_replace_literal(&regex, &cache, BYTES("a1 b"), 0, BYTES("$2"), out, 4);
    CHECK(size.code == BITES_TOO_SMALL && size.size == 5 && out[0] == '$');
    /* if nothing matches, the haystack is the result, and too little room does not matter */
    out[0] = '-';
    size = bites_replace(&regex, &cache, BYTES("??"), 0, BYTES("$0"), out, 1);
    CHECK(size.code == BITES_NO_MATCH && size.size == 2 && out[0] == '-');
    size = bites_replace_literal(&regex, &cache, BYTES("??"), 0, BYTES("x"), out, sizeof out);
    CHECK(size.code == BITES_NO_MATCH && size.size == 2 && out[0] == '-');
    bites_cache_free(&cache);
    bites_free(&other);
    bites_free(&regex);
}

static void templates(void) {
    bites regex = {0};
    uint8_t out[32] = "-";
    bites_span groups[3] = {{0, 2}, {0, 1}, {BITES_NONE, BITES_NONE}};
    CHECK(bites_expand(&regex, BYTES("a1"), groups, 3, BYTES("$0"), out, sizeof out).code == BITES_EMPTY_HANDLE);
    CHECK(bites_new(BYTES("(?P<first>[a-z])([0-9])?"), 0, LIMITS, &regex) == BITES_DONE);
    bites_size size = bites_expand(&regex, BYTES("a1"), groups, 3, BYTES("$first-${0}-$2-$9"), out, 0);
    CHECK(size.code == BITES_TOO_SMALL && size.size == 6 && out[0] == '-');
    CHECK(is_text(bites_expand(&regex, BYTES("a1"), groups, 3, BYTES("$first-${0}-$2-$9"), out, sizeof out), out, "a-a1--"));
    CHECK(is_text(bites_expand(&regex, BYTES("a1"), groups, 1, BYTES("[$first]"), out, sizeof out), out, "[]"));
    groups[1].end = 3;
    CHECK(bites_expand(&regex, BYTES("a1"), groups, 3, BYTES("$0"), out, sizeof out).code == BITES_BAD_SPAN);
    groups[1].start = 2, groups[1].end = 1;
    CHECK(bites_expand(&regex, BYTES("a1"), groups, 3, BYTES("$0"), out, sizeof out).code == BITES_BAD_SPAN && out[0] == '[');
    bites_free(&regex);
}

static void handles(void) {
    bites regex = {0}, copy = {0}, other = {0};
    bites_cache cache = {0};
    bites_span span = {7, 7};
    CHECK(bites_is_match_at(&regex, &cache, BYTES("a"), 0) == BITES_EMPTY_HANDLE);
    CHECK(bites_clone(&regex, &copy) == BITES_EMPTY_HANDLE && !copy.at);
    CHECK(bites_cache_new(&regex, &cache) == BITES_EMPTY_HANDLE && !cache.at);
    CHECK(bites_captures_len(&regex) == 0 && bites_static_captures_len(&regex) == 0);
    CHECK(bites_new(BYTES("b+"), 0, LIMITS, &regex) == BITES_DONE);
    CHECK(bites_static_captures_len(&regex) == 1);
    CHECK(bites_find_at(&regex, &cache, BYTES("b"), 0, &span) == BITES_EMPTY_HANDLE && span.start == 7);
    CHECK(bites_cache_new(&regex, &cache) == BITES_DONE);
    CHECK(bites_clone(&regex, &copy) == BITES_DONE);
    bites_free(&regex);
    CHECK(!regex.at);
    bites_free(&regex);
    /* the clone still works, also with the cache */
    CHECK(bites_find_at(&copy, &cache, BYTES("abbc"), 0, &span) == BITES_MATCH && span.start == 1 && span.end == 3);
    CHECK(bites_new(BYTES("(a)(b)(c)"), 0, LIMITS, &other) == BITES_DONE);
    CHECK(bites_find_at(&other, &cache, BYTES("abc"), 0, &span) == BITES_UNFIT_CACHE && span.end == 3);
    CHECK(bites_captures_at(&other, &cache, BYTES("abc"), 0, &span, 1).code == BITES_UNFIT_CACHE && span.end == 3);
    /* making a new one frees the old one */
    CHECK(bites_cache_new(&other, &cache) == BITES_DONE && bites_clone(&other, &copy) == BITES_DONE);
    CHECK(bites_is_match_at(&copy, &cache, BYTES("abc"), 0) == BITES_MATCH);
    bites_cache_free(&cache);
    bites_cache_free(&cache);
    bites_free(&copy);
    bites_free(&other);
}

/* The pattern of the partial table has about two to the twelfth lists. */
static void tables(void) {
    bites regex = {0}, prepared = {0}, copy = {0};
    bites_cache cache = {0};
    bites_table size = {7, 7, 7};
    bites_span groups[2];
    CHECK(bites_prepare(&regex, BITES_DFA_SIZE_LIMIT, &prepared) == BITES_EMPTY_HANDLE && !prepared.at);
    CHECK(bites_table_size(&regex, &size) == BITES_EMPTY_HANDLE && size.lists == 7 && size.bytes == 7 && size.is_whole == 7);
    CHECK(bites_new(BYTES("x(b+)"), 0, LIMITS, &regex) == BITES_DONE && bites_cache_new(&regex, &cache) == BITES_DONE);
    /* none is made by bites_new, and with limit 0 */
    CHECK(bites_table_size(&regex, &size) == BITES_DONE && size.lists == 0 && size.bytes == 0 && size.is_whole == 0);
    CHECK(bites_prepare(&regex, 0, &prepared) == BITES_DONE && bites_table_size(&prepared, &size) == BITES_DONE && size.lists == 0);
    /* a whole one; the other regex has none still, and the cache of that one fits */
    CHECK(bites_prepare(&regex, BITES_DFA_SIZE_LIMIT, &prepared) == BITES_DONE);
    CHECK(bites_table_size(&prepared, &size) == BITES_DONE && size.lists > 1 && size.bytes > size.lists && size.is_whole == 1);
    CHECK(bites_table_size(&regex, &size) == BITES_DONE && size.lists == 0);
    CHECK(bites_captures_at(&prepared, &cache, BYTES("abxbbc"), 0, groups, 2).code == BITES_MATCH);
    CHECK(groups[0].start == 2 && groups[0].end == 5 && groups[1].start == 3 && groups[1].end == 5);
    /* a clone shares it, also after what it was made from is freed */
    CHECK(bites_clone(&prepared, &copy) == BITES_DONE);
    bites_free(&prepared);
    bites_free(&regex);
    CHECK(bites_table_size(&copy, &size) == BITES_DONE && size.is_whole == 1 && bites_is_match(&copy, &cache, BYTES("axbc")) == BITES_MATCH);
    /* in place, and back to none */
    CHECK(bites_prepare(&copy, 0, &copy) == BITES_DONE && bites_table_size(&copy, &size) == BITES_DONE && size.lists == 0);
    CHECK(bites_prepare(&copy, BITES_DFA_SIZE_LIMIT, &copy) == BITES_DONE && bites_table_size(&copy, &size) == BITES_DONE && size.is_whole == 1);
    CHECK(bites_prepare(&regex, 0, &regex) == BITES_EMPTY_HANDLE && bites_prepare(NULL, 0, &copy) == BITES_EMPTY_HANDLE);
    CHECK(bites_prepare(&copy, 0, NULL) == BITES_EMPTY_HANDLE && bites_table_size(NULL, &size) == BITES_EMPTY_HANDLE);
    CHECK(bites_table_size(&copy, NULL) == BITES_EMPTY_HANDLE);
    /* counted by hand: the lists of searches at one place are left out where they aren't asked for, and if matches begin at the start alone */
    CHECK(bites_new(BYTES("a"), 0, LIMITS, &regex) == BITES_DONE && bites_prepare(&regex, BITES_DFA_SIZE_LIMIT, &prepared) == BITES_DONE);
    CHECK(bites_table_size(&prepared, &size) == BITES_DONE && size.lists == 5 && size.is_whole == 1);
    CHECK(bites_prepare_unanchored(&regex, BITES_DFA_SIZE_LIMIT, &prepared) == BITES_DONE);
    CHECK(bites_table_size(&prepared, &size) == BITES_DONE && size.lists == 4 && size.is_whole == 1);
    CHECK(bites_cache_new(&prepared, &cache) == BITES_DONE);
    CHECK(bites_find_anchored_at(&prepared, &cache, BYTES("ba"), 1, groups) == BITES_MATCH && groups[0].start == 1 && groups[0].end == 2);
    CHECK(bites_find_anchored_at(&prepared, &cache, BYTES("ba"), 0, groups) == BITES_NO_MATCH);
    CHECK(bites_prepare_unanchored(&regex, BITES_DFA_SIZE_LIMIT, &regex) == BITES_DONE && bites_table_size(&regex, &size) == BITES_DONE && size.lists == 4);
    CHECK(bites_prepare_unanchored(NULL, 0, &prepared) == BITES_EMPTY_HANDLE && bites_prepare_unanchored(&regex, 0, NULL) == BITES_EMPTY_HANDLE);
    CHECK(bites_new(BYTES("^a"), 0, LIMITS, &regex) == BITES_DONE && bites_prepare(&regex, BITES_DFA_SIZE_LIMIT, &prepared) == BITES_DONE);
    CHECK(bites_table_size(&prepared, &size) == BITES_DONE && size.lists == 7 && size.is_whole == 1);
    /* with lists for the longest match at one place, which has a last list of its own */
    CHECK(bites_new(BYTES("a"), BITES_LEFTMOST_LONGEST, LIMITS, &regex) == BITES_DONE && bites_prepare(&regex, BITES_DFA_SIZE_LIMIT, &prepared) == BITES_DONE);
    CHECK(bites_table_size(&prepared, &size) == BITES_DONE && size.lists == 6 && size.is_whole == 1);
    CHECK(bites_prepare_unanchored(&regex, BITES_DFA_SIZE_LIMIT, &prepared) == BITES_DONE);
    CHECK(bites_table_size(&prepared, &size) == BITES_DONE && size.lists == 4 && size.is_whole == 1);
    /* a part of one, and one for searches that find the longest match: where it begins, and at that place */
    CHECK(bites_new(BYTES("[ab]*a[ab]{12}c"), 0, LIMITS, &regex) == BITES_DONE && bites_prepare(&regex, 4096, &prepared) == BITES_DONE);
    CHECK(bites_table_size(&prepared, &size) == BITES_DONE && size.lists > 0 && size.is_whole == 0);
    CHECK(bites_new(BYTES("a|aab"), BITES_LEFTMOST_LONGEST, LIMITS, &regex) == BITES_DONE);
    CHECK(bites_prepare(&regex, BITES_DFA_SIZE_LIMIT, &prepared) == BITES_DONE && bites_table_size(&prepared, &size) == BITES_DONE && size.is_whole == 1);
    CHECK(bites_cache_new(&prepared, &cache) == BITES_DONE);
    CHECK(bites_find_at(&prepared, &cache, BYTES("xaabc"), 0, groups) == BITES_MATCH && groups[0].start == 1 && groups[0].end == 4);
    CHECK(bites_find_at(&prepared, &cache, BYTES("xbc"), 0, groups) == BITES_NO_MATCH);
    CHECK(bites_find_anchored_at(&prepared, &cache, BYTES("xaabc"), 1, groups) == BITES_MATCH && groups[0].start == 1 && groups[0].end == 4);
    CHECK(bites_find_anchored_at(&prepared, &cache, BYTES("xaac"), 1, groups) == BITES_MATCH && groups[0].end == 2);
    CHECK(bites_find_anchored_at(&prepared, &cache, BYTES("xaabc"), 0, groups) == BITES_NO_MATCH);
    CHECK(bites_is_full_match(&prepared, &cache, BYTES("aab")) == BITES_MATCH && bites_is_full_match(&prepared, &cache, BYTES("aabc")) == BITES_NO_MATCH);
    bites_cache_free(&cache);
    bites_free(&copy);
    bites_free(&prepared);
    bites_free(&regex);
}

static void refusals(void) {
    bites regex = {0};
    uint8_t text[128];
    CHECK(bites_new(BYTES("x"), 0, LIMITS, &regex) == BITES_DONE);
    CHECK(bites_new(BYTES("\xff"), 0, LIMITS, &regex) == BITES_NOT_UTF8 && !regex.at);
    uint32_t code = bites_new(BYTES("(a"), 0, LIMITS, &regex);
    size_t len = bites_error_text(code, text, sizeof text);
    CHECK(!regex.at && len == 36 && !memcmp(text, "found open group without closing ')'", 36));
    CHECK(bites_new(BYTES("abc"), 0, 10, BITES_NEST_LIMIT, &regex) == 55);
    char message[96] = "-";
    CHECK(bites_message(code, message, sizeof message) == 36 && !strcmp(message, "found open group without closing ')'"));
    CHECK(bites_message(code, message, 6) == 36 && !strcmp(message, "found"));
    CHECK(bites_message(BITES_NO_MATCH, message, 1) == 18 && !strcmp(message, "") && bites_message(BITES_MATCH, NULL, 0) == 17);
    CHECK(bites_message(BITES_NOT_BORDER, message, sizeof message) == 33 && !strcmp(message, "an offset lies within a character"));
    CHECK(bites_message(0, message, 96) == 0 && bites_message(59, message, 96) == 0 && bites_message(109, message, 96) == 0 && !message[0]);
    for (uint32_t number = 1; number <= BITES_NOT_BORDER; number++)
        CHECK((number > BITES_NO_MEMORY && number < BITES_MATCH) || (bites_message(number, message, sizeof message) < sizeof message && message[0]));
    CHECK(bites_compile("(a", &regex) == code && bites_compile("\xff", NULL) == BITES_EMPTY_HANDLE);
    CHECK(bites_compile("x", &regex) == BITES_DONE && bites_captures_len(&regex) == 1);
    bites_free(&regex);
    size_t offset = 7;
    CHECK(bites_error_at(BYTES("a(b|*)"), 0, BITES_NEST_LIMIT, &offset) == 32 && offset == 4);
    CHECK(bites_error_at(BYTES("a #)"), BITES_IGNORE_WHITESPACE, BITES_NEST_LIMIT, &offset) == BITES_DONE && offset == BITES_NONE);
    CHECK(bites_error_at(BYTES("(a)"), 0, 0, &offset) == 1 && offset == 1);
    CHECK(bites_error_at(BYTES("a|b"), 0, 0, &offset) == 1 && offset == BITES_NONE);
    offset = 7;
    CHECK(bites_error_at(BYTES("(?:a{1000}){1000}"), 0, BITES_NEST_LIMIT, &offset) == BITES_DONE && offset == BITES_NONE);
    offset = 7;
    CHECK(bites_error_at(BYTES("(\xff"), 0, BITES_NEST_LIMIT, &offset) == BITES_NOT_UTF8 && offset == BITES_NONE);
    CHECK(bites_error_at(NULL, 0, 0, 0, &offset) == BITES_DONE && offset == BITES_NONE);
    CHECK(bites_error_text(BITES_NO_MEMORY, text, 3) > 3 && bites_error_text(0, text, 3) == 0 && bites_error_text(59, text, 3) == 0);
}

static void flags(void) {
    bites regex = {0};
    bites_cache cache = {0};
    bites_span span = {0, 0};
    CHECK(bites_new(BYTES("SAM|samwise"), BITES_CASE_INSENSITIVE, LIMITS, &regex) == BITES_DONE);
    CHECK(bites_cache_new(&regex, &cache) == BITES_DONE);
    CHECK(bites_find_at(&regex, &cache, BYTES("samwise"), 0, &span) == BITES_MATCH && span.end == 3);
    CHECK(bites_new(BYTES("sam|samwise"), BITES_LEFTMOST_LONGEST, LIMITS, &regex) == BITES_DONE);
    CHECK(bites_cache_new(&regex, &cache) == BITES_DONE);
    CHECK(bites_find_at(&regex, &cache, BYTES("samwise"), 0, &span) == BITES_MATCH && span.end == 7);
    CHECK(bites_new(BYTES("(a){0}b"), 0, LIMITS, &regex) == BITES_DONE && bites_captures_len(&regex) == 1);
    CHECK(bites_new(BYTES("(a){0}b"), BITES_KEEP_DROPPED_GROUPS, LIMITS, &regex) == BITES_DONE && bites_captures_len(&regex) == 2);
    bites_cache_free(&cache);
    bites_free(&regex);
}

/* a letter of two bytes between an a and a b, and again without its second byte */
#define TEXT BYTES("a\xc3\xa9" "b")
#define NO_TEXT BYTES("a\xc3" "b")
#define PATTERN BYTES("[^a](b)?")

static void searches_of_texts(void) {
    bites regex = {0}, copy = {0}, other = {0};
    bites_cache cache = {0};
    bites_span m = {7, 7};
    size_t end = 7;
    CHECK(bites_new(PATTERN, BITES_TEXT, LIMITS, &regex) == BITES_DONE && bites_clone(&regex, &copy) == BITES_DONE);
    CHECK(bites_is_match_at(&regex, &cache, NO_TEXT, 0) == BITES_EMPTY_HANDLE);
    CHECK(bites_new(BYTES("(a)(b)(c)"), BITES_TEXT, LIMITS, &other) == BITES_DONE && bites_cache_new(&other, &cache) == BITES_DONE);
    CHECK(bites_is_match_at(&regex, &cache, NO_TEXT, 0) == BITES_UNFIT_CACHE);
    CHECK(bites_cache_new(&regex, &cache) == BITES_DONE);
    CHECK(bites_is_match_at(&regex, &cache, NO_TEXT, 2) == BITES_NOT_UTF8);
    CHECK(bites_is_match_at(&regex, &cache, NO_TEXT, 9) == BITES_NOT_UTF8);
    CHECK(bites_is_match_at(&regex, &cache, TEXT, 2) == BITES_NOT_BORDER);
    CHECK(bites_is_match_at(&regex, &cache, TEXT, 1) == BITES_MATCH && bites_is_match_at(&regex, &cache, TEXT, 3) == BITES_MATCH);
    CHECK(bites_is_match_at(&regex, &cache, TEXT, 4) == BITES_NO_MATCH && bites_is_match_at(&regex, &cache, TEXT, 5) == BITES_NO_MATCH);
    CHECK(bites_is_match_at(&regex, &cache, BYTES(""), 0) == BITES_NO_MATCH);
    CHECK(bites_is_match_at(&copy, &cache, NO_TEXT, 0) == BITES_NOT_UTF8 && bites_is_match_at(&copy, &cache, TEXT, 2) == BITES_NOT_BORDER);
    CHECK(bites_shortest_match_at(&regex, &cache, NO_TEXT, 0, &end) == BITES_NOT_UTF8 && end == 7);
    CHECK(bites_shortest_match_at(&regex, &cache, TEXT, 2, &end) == BITES_NOT_BORDER && end == 7);
    CHECK(bites_shortest_match_at(&regex, &cache, TEXT, 0, &end) == BITES_MATCH && end == 3);
    CHECK(bites_find_at(&regex, &cache, NO_TEXT, 0, &m) == BITES_NOT_UTF8 && m.start == 7 && m.end == 7);
    CHECK(bites_find_at(&regex, &cache, TEXT, 2, &m) == BITES_NOT_BORDER && m.start == 7 && m.end == 7);
    CHECK(bites_find_at(&regex, &cache, TEXT, 0, &m) == BITES_MATCH && m.start == 1 && m.end == 4);
    /* without the flag, and with a bit that has no name, nothing is checked */
    CHECK(bites_new(PATTERN, 1u << 31 | 512, LIMITS, &regex) == BITES_DONE && bites_cache_new(&regex, &cache) == BITES_DONE);
    CHECK(bites_find_at(&regex, &cache, NO_TEXT, 2, &m) == BITES_MATCH && m.start == 2 && m.end == 3);
    CHECK(bites_find_at(&regex, &cache, TEXT, 3, &m) == BITES_MATCH && m.start == 3);
    CHECK(bites_is_match_at(&regex, &cache, TEXT, 2) == BITES_MATCH);
    bites_cache_free(&cache);
    bites_free(&other);
    bites_free(&copy);
    bites_free(&regex);
}

/* after a match only the offset is checked */
static void successive_in_texts(void) {
    bites regex = {0};
    bites_cache cache = {0};
    bites_span m = {7, 7};
    CHECK(bites_new(PATTERN, BITES_TEXT, LIMITS, &regex) == BITES_DONE && bites_cache_new(&regex, &cache) == BITES_DONE);
    CHECK(bites_find_next(&regex, &cache, NO_TEXT, BITES_NONE, &m) == BITES_NOT_UTF8 && m.start == 7);
    CHECK(bites_find_next(&regex, &cache, TEXT, 2, &m) == BITES_NOT_BORDER && m.start == 7);
    CHECK(bites_find_next(&regex, &cache, TEXT, BITES_NONE, &m) == BITES_MATCH && m.start == 1 && m.end == 4);
    CHECK(bites_find_next(&regex, &cache, TEXT, 4, &m) == BITES_NO_MATCH && bites_find_next(&regex, &cache, TEXT, 5, &m) == BITES_NO_MATCH);
    CHECK(bites_find_next(&regex, &cache, NO_TEXT, 2, &m) == BITES_MATCH && m.start == 2 && m.end == 3);
    /* empty matches stand between characters */
    CHECK(bites_new(BYTES("x*"), BITES_TEXT, LIMITS, &regex) == BITES_DONE && bites_cache_new(&regex, &cache) == BITES_DONE);
    const size_t wanted[] = {0, 1, 3, 4};
    size_t count = 0;
    for (size_t last = BITES_NONE; bites_find_next(&regex, &cache, TEXT, last, &m) == BITES_MATCH; last = m.end, count++)
        CHECK(count < 4 && m.start == wanted[count] && m.end == wanted[count]);
    CHECK(count == 4);
    bites_cache_free(&cache);
    bites_free(&regex);
}

/* whether the code is this and the size 0, and the span is unchanged */
static int is_refused(bites_size size, uint32_t code, bites_span place) {
    return size.code == code && size.size == 0 && place.start == 7 && place.end == 7;
}

static void groups_in_texts(void) {
    bites regex = {0};
    bites_cache cache = {0};
    bites_span groups[2] = {{7, 7}, {7, 7}};
    CHECK(bites_new(PATTERN, BITES_TEXT, LIMITS, &regex) == BITES_DONE && bites_cache_new(&regex, &cache) == BITES_DONE);
    /* the haystack and the offset are checked before the number of places */
    CHECK(is_refused(bites_captures_at(&regex, &cache, NO_TEXT, 2, groups, 1), BITES_NOT_UTF8, groups[0]));
    CHECK(is_refused(bites_captures_at(&regex, &cache, TEXT, 2, groups, 1), BITES_NOT_BORDER, groups[0]));
    CHECK(bites_captures_at(&regex, &cache, TEXT, 1, groups, 1).code == BITES_TOO_SMALL && groups[0].end == 7);
    CHECK(is_refused(bites_captures_next(&regex, &cache, NO_TEXT, BITES_NONE, groups, 1), BITES_NOT_UTF8, groups[0]));
    CHECK(is_refused(bites_captures_next(&regex, &cache, TEXT, 2, groups, 1), BITES_NOT_BORDER, groups[0]));
    CHECK(bites_captures_next(&regex, &cache, TEXT, 4, groups, 1).code == BITES_TOO_SMALL && groups[0].end == 7);
    CHECK(bites_captures_at(&regex, &cache, TEXT, 1, groups, 2).code == BITES_MATCH && groups[0].start == 1 && groups[0].end == 4);
    CHECK(groups[1].start == 3 && groups[1].end == 4);
    CHECK(bites_captures_next(&regex, &cache, TEXT, BITES_NONE, groups, 2).code == BITES_MATCH && groups[0].start == 1);
    CHECK(bites_captures_next(&regex, &cache, NO_TEXT, 2, groups, 2).code == BITES_MATCH && groups[0].start == 2);
    CHECK(bites_captures_next(&regex, &cache, TEXT, 4, groups, 2).code == BITES_NO_MATCH && groups[0].start == 2);
    bites_cache_free(&cache);
    bites_free(&regex);
}

/* whether the code is this and the size 0, and nothing was put */
static int is_unput(bites_size size, uint32_t code, const uint8_t *out) {
    return size.code == code && size.size == 0 && out[0] == '-';
}

static void expanded_texts(void) {
    bites regex = {0};
    uint8_t out[32] = "-";
    bites_span groups[3] = {{1, 3}, {3, 4}, {BITES_NONE, BITES_NONE}};
    CHECK(bites_new(PATTERN, BITES_TEXT, LIMITS, &regex) == BITES_DONE);
    CHECK(is_unput(bites_expand(&regex, NO_TEXT, groups, 3, BYTES("$1"), out, 9), BITES_NOT_UTF8, out));
    CHECK(is_unput(bites_expand(&regex, TEXT, groups, 3, NO_TEXT, out, 9), BITES_NOT_UTF8, out));
    groups[0].end = 2;
    CHECK(is_unput(bites_expand(&regex, TEXT, groups, 3, BYTES("$1"), out, 9), BITES_NOT_BORDER, out));
    groups[0].start = 2, groups[0].end = 3;
    CHECK(is_unput(bites_expand(&regex, TEXT, groups, 3, BYTES("$1"), out, 9), BITES_NOT_BORDER, out));
    /* BITES_BAD_SPAN comes before BITES_NOT_BORDER, and after BITES_NOT_UTF8 */
    groups[1].end = 5;
    CHECK(is_unput(bites_expand(&regex, TEXT, groups, 3, BYTES("$1"), out, 9), BITES_BAD_SPAN, out));
    CHECK(is_unput(bites_expand(&regex, TEXT, groups, 3, NO_TEXT, out, 9), BITES_NOT_UTF8, out));
    groups[0].start = 1, groups[1].end = 4;
    CHECK(is_text(bites_expand(&regex, TEXT, groups, 3, BYTES("$1$0$2"), out, 9), out, "b\xc3\xa9"));
    /* without the flag the call is done */
    groups[0].start = 2;
    CHECK(bites_new(PATTERN, 0, LIMITS, &regex) == BITES_DONE);
    CHECK(is_text(bites_expand(&regex, TEXT, groups, 3, BYTES("$0"), out, 9), out, "\xa9"));
    bites_free(&regex);
}

static void replaced_texts(void) {
    bites regex = {0}, bytes = {0};
    bites_cache cache = {0};
    uint8_t out[32] = "-";
    bites_span p = {7, 7};
    size_t last = BITES_NONE;
    CHECK(bites_replace(&regex, &cache, NO_TEXT, 0, NO_TEXT, out, 9).code == BITES_EMPTY_HANDLE);
    CHECK(bites_new(PATTERN, BITES_TEXT, LIMITS, &regex) == BITES_DONE && bites_cache_new(&regex, &cache) == BITES_DONE);
    CHECK(is_unput(bites_replace(&regex, &cache, NO_TEXT, 0, TEXT, out, 0), BITES_NOT_UTF8, out));
    CHECK(is_unput(bites_replace(&regex, &cache, TEXT, 0, NO_TEXT, out, 9), BITES_NOT_UTF8, out));
    CHECK(is_unput(bites_replace_literal(&regex, &cache, NO_TEXT, 0, TEXT, out, 0), BITES_NOT_UTF8, out));
    CHECK(is_unput(bites_replace_literal(&regex, &cache, TEXT, 0, NO_TEXT, out, 9), BITES_NOT_UTF8, out));
    CHECK(is_replaced(bites_replace(&regex, &cache, TEXT, 0, BYTES("<$1>"), out, 9), out, "a<b>"));
    CHECK(is_replaced(bites_replace_literal(&regex, &cache, TEXT, 0, BYTES("<$1>"), out, 9), out, "a<$1>"));
    /* pieces: the haystack is checked for the first one, and only the offset after a match */
    CHECK(is_piece(bites_split_next(&regex, &cache, NO_TEXT, &last, &p), BITES_NOT_UTF8, p, 7, 7, last, BITES_NONE));
    last = 2;
    CHECK(is_piece(bites_split_next(&regex, &cache, TEXT, &last, &p), BITES_NOT_BORDER, p, 7, 7, last, 2));
    CHECK(bites_split_next(&regex, &cache, NO_TEXT, &last, &p) == BITES_MATCH && p.start == 2 && p.end == 2 && last == 3);
    CHECK(bites_is_match(&regex, &cache, NO_TEXT) == BITES_NOT_UTF8 && bites_is_match(&regex, &cache, TEXT) == BITES_MATCH);
    /* without the flag nothing is refused */
    CHECK(bites_new(PATTERN, 0, LIMITS, &bytes) == BITES_DONE && bites_cache_new(&bytes, &cache) == BITES_DONE);
    CHECK(is_replaced(bites_replace_literal(&bytes, &cache, BYTES("a\xff"), 1, BYTES("\xfe"), out, 9), out, "a\xfe"));
    bites_cache_free(&cache);
    bites_free(&bytes);
    bites_free(&regex);
}

/* NULL as a handle is refused, and with length, room or count 0 it is an empty text or no room */
static void nulls(void) {
    bites regex = {0};
    bites_cache cache = {0};
    bites_span m = {7, 7};
    size_t place = 7;
    CHECK(bites_new(NULL, 0, 0, LIMITS, NULL) == BITES_EMPTY_HANDLE);
    CHECK(bites_new(NULL, 0, 0, LIMITS, &regex) == BITES_DONE && bites_cache_new(&regex, &cache) == BITES_DONE);
    CHECK(bites_find_at(&regex, &cache, NULL, 0, 0, &m) == BITES_MATCH && m.start == 0 && m.end == 0);
    CHECK(bites_is_match(&regex, &cache, NULL, 0) == BITES_MATCH && bites_is_match_at(&regex, &cache, NULL, 0, 1) == BITES_NO_MATCH);
    CHECK(bites_shortest_match_at(&regex, &cache, NULL, 0, 0, &place) == BITES_MATCH && place == 0);
    place = BITES_NONE;
    CHECK(bites_find_next(&regex, &cache, NULL, 0, BITES_NONE, &m) == BITES_MATCH && bites_find_next(&regex, &cache, NULL, 0, 0, &m) == BITES_NO_MATCH);
    CHECK(bites_split_next(&regex, &cache, NULL, 0, &place, &m) == BITES_MATCH && place == 0);
    CHECK(bites_captures_at(&regex, &cache, NULL, 0, 0, NULL, 0).size == 1 && bites_captures_next(&regex, &cache, NULL, 0, 0, NULL, 0).size == 1);
    CHECK(bites_group_name(&regex, 0, NULL, 0).code == BITES_NO_NAME && bites_group_index(&regex, NULL, 0).code == BITES_NO_NAME);
    CHECK(bites_escape(NULL, 0, NULL, 0).code == BITES_DONE && bites_escape(BYTES("."), NULL, 0).size == 2);
    CHECK(bites_replace(&regex, &cache, NULL, 0, 0, NULL, 0, NULL, 0).code == BITES_MATCH);
    CHECK(bites_replace_literal(&regex, &cache, NULL, 0, 0, BYTES("ab"), NULL, 0).size == 2);
    CHECK(bites_expand(&regex, NULL, 0, NULL, 0, NULL, 0, NULL, 0).code == BITES_DONE);
    CHECK(bites_error_text(BITES_NO_MEMORY, NULL, 0) > 0);
    bites_cache_free(&cache);
    bites_free(&regex);
}

/* which patterns of a set match; the patterns are `foo`, `^o+`, `d$`, the empty one, and a letter that is not ASCII */
static void sets(void) {
    static const size_t ends[] = {3, 6, 8, 8, 10};
    bites_set set = {0}, copy = {0};
    uint8_t m[6] = {7, 7, 7, 7, 7, 7};
    CHECK(bites_set_len(&set).code == BITES_EMPTY_HANDLE && bites_set_is_match_at(&set, BYTES("a"), 0) == BITES_EMPTY_HANDLE);
    CHECK(bites_set_matches_at(&set, BYTES("a"), 0, m, 6).code == BITES_EMPTY_HANDLE && bites_set_clone(&set, &copy) == BITES_EMPTY_HANDLE && m[0] == 7);
    bites_size size = bites_set_new(BYTES("foo^o+d$\xC3\xA9"), ends, 5, 0, LIMITS, &set);
    CHECK(size.code == BITES_DONE && size.size == 5 && bites_set_len(&set).code == BITES_DONE && bites_set_len(&set).size == 5);
    size = bites_set_matches_at(&set, BYTES("a food"), 0, m, 6);
    CHECK(size.code == BITES_MATCH && size.size == 5 && m[0] == 1 && m[1] == 0 && m[2] == 1 && m[3] == 1 && m[4] == 0 && m[5] == 7);
    size = bites_set_matches_at(&set, BYTES("oo\xC3\xA9"), 0, m, 5);
    CHECK(size.code == BITES_MATCH && m[0] == 0 && m[1] == 1 && m[2] == 0 && m[3] == 1 && m[4] == 1);
    /* a start within the haystack is not its start, and nothing matches past the end */
    size = bites_set_matches_at(&set, BYTES("ood"), 1, m, 5);
    CHECK(size.code == BITES_MATCH && m[0] == 0 && m[1] == 0 && m[2] == 1 && m[3] == 1 && m[4] == 0);
    size = bites_set_matches_at(&set, BYTES("ood"), 4, m, 5);
    CHECK(size.code == BITES_NO_MATCH && size.size == 5 && m[2] == 0 && m[3] == 0);
    CHECK(bites_set_is_match_at(&set, BYTES("x"), 1) == BITES_MATCH && bites_set_is_match_at(&set, BYTES("x"), 2) == BITES_NO_MATCH);
    m[0] = 7;
    size = bites_set_matches_at(&set, BYTES("a food"), 0, m, 4);
    CHECK(size.code == BITES_TOO_SMALL && size.size == 5 && m[0] == 7);
    /* a clone outlives the set, and a set without patterns matches nothing */
    CHECK(bites_set_clone(&set, &copy) == BITES_DONE);
    size = bites_set_new(NULL, 0, NULL, 0, 0, LIMITS, &set);
    CHECK(size.code == BITES_DONE && size.size == 0 && bites_set_len(&set).size == 0 && bites_set_is_match_at(&set, BYTES(""), 0) == BITES_NO_MATCH);
    CHECK(bites_set_matches_at(&set, BYTES("a"), 0, NULL, 0).code == BITES_NO_MATCH);
    CHECK(bites_set_matches_at(&copy, BYTES("food"), 0, m, 5).code == BITES_MATCH && m[0] == 1 && m[2] == 1);
    bites_set_free(&copy);
    bites_set_free(&set);
    CHECK(!copy.at && !set.at);
}

/* Writes how large the tables of these two patterns are, each by itself, without lists for searches at one place, which a set doesn't make. */
static bites_table sizes_of_both(const char *first, const char *second) {
    const char *patterns[] = {first, second};
    bites_table both = {0, 0, 1}, size;
    for (int k = 0; k < 2; k++) {
        bites regex = {0};
        CHECK(bites_compile(patterns[k], &regex) == BITES_DONE && bites_prepare_unanchored(&regex, BITES_DFA_SIZE_LIMIT, &regex) == BITES_DONE);
        CHECK(bites_table_size(&regex, &size) == BITES_DONE);
        both.lists += size.lists, both.bytes += size.bytes, both.is_whole &= size.is_whole;
        bites_free(&regex);
    }
    return both;
}

/* the tables of a set are bounded together, and searches return the same with any of them */
static void tables_of_sets(void) {
    static const size_t ends[] = {5, 8};
    bites_set set = {0}, prepared = {0}, copy = {0};
    bites_table size = {7, 7, 7}, both = sizes_of_both("(b+)c", "^ad");
    uint8_t m[2];
    CHECK(bites_set_prepare(&set, BITES_DFA_SIZE_LIMIT, &prepared) == BITES_EMPTY_HANDLE && !prepared.at);
    CHECK(bites_set_table_size(&set, &size) == BITES_EMPTY_HANDLE && size.lists == 7 && size.bytes == 7 && size.is_whole == 7);
    CHECK(bites_set_new(BYTES("(b+)c^ad"), ends, 2, 0, LIMITS, &set).code == BITES_DONE);
    CHECK(bites_set_table_size(&set, &size) == BITES_DONE && size.lists == 0 && size.bytes == 0 && size.is_whole == 0);
    for (size_t limit = 0; limit < both.bytes + 64; limit += 32) {
        CHECK(bites_set_prepare(&set, limit, &prepared) == BITES_DONE && bites_set_table_size(&prepared, &size) == BITES_DONE && size.bytes <= limit);
        CHECK(bites_set_matches_at(&prepared, BYTES("xabbc"), 0, m, 2).code == BITES_MATCH && m[0] == 1 && m[1] == 0);
        CHECK(bites_set_matches_at(&prepared, BYTES("adb"), 0, m, 2).code == BITES_MATCH && m[0] == 0 && m[1] == 1);
    }
    CHECK(bites_set_prepare(&set, BITES_DFA_SIZE_LIMIT, &prepared) == BITES_DONE && bites_set_table_size(&prepared, &size) == BITES_DONE);
    CHECK(size.lists == both.lists && size.bytes == both.bytes && both.is_whole == 1 && size.is_whole == 1);
    /* a clone shares the tables, and outlives the set */
    CHECK(bites_set_clone(&prepared, &copy) == BITES_DONE);
    bites_set_free(&prepared);
    CHECK(bites_set_table_size(&copy, &size) == BITES_DONE && size.bytes == both.bytes && bites_set_is_match_at(&copy, BYTES("bc"), 0) == BITES_MATCH);
    /* a set that is prepared into itself */
    CHECK(bites_set_prepare(&copy, 0, &copy) == BITES_DONE && bites_set_table_size(&copy, &size) == BITES_DONE && size.lists == 0);
    CHECK(bites_set_prepare(&copy, BITES_DFA_SIZE_LIMIT, &copy) == BITES_DONE && bites_set_table_size(&copy, &size) == BITES_DONE && size.is_whole == 1);
    CHECK(bites_set_prepare(&prepared, 0, &prepared) == BITES_EMPTY_HANDLE && bites_set_prepare(NULL, 0, &copy) == BITES_EMPTY_HANDLE);
    CHECK(bites_set_prepare(&copy, 0, NULL) == BITES_EMPTY_HANDLE && bites_set_table_size(NULL, &size) == BITES_EMPTY_HANDLE);
    CHECK(bites_set_table_size(&copy, NULL) == BITES_EMPTY_HANDLE && bites_set_is_match_at(&copy, BYTES("ad"), 0) == BITES_MATCH);
    /* a set without patterns has no table */
    CHECK(bites_set_new(NULL, 0, NULL, 0, 0, LIMITS, &set).code == BITES_DONE && bites_set_prepare(&set, BITES_DFA_SIZE_LIMIT, &set) == BITES_DONE);
    CHECK(bites_set_table_size(&set, &size) == BITES_DONE && size.lists == 0 && size.is_whole == 0);
    bites_set_free(&copy);
    bites_set_free(&set);
}

/* what refuses a set, and the number of its pattern; flags, and searches of texts */
static void refused_sets(void) {
    static const size_t ends[] = {1, 3, 5}, falling[] = {1, 3, 2}, late[] = {1, 3, 6};
    bites_set set = {0};
    uint8_t m[3] = {7, 7, 7};
    bites_size size = bites_set_new(BYTES("a(b)c"), ends, 3, 0, LIMITS, &set);
    CHECK(size.code == 4 && size.size == 1 && !set.at); /* `(b` is not closed */
    size = bites_set_new(BYTES("ab\xFF" "cd"), ends, 3, 0, LIMITS, &set);
    CHECK(size.code == BITES_NOT_UTF8 && size.size == 1 && !set.at);
    size = bites_set_new(BYTES("abcde"), falling, 3, 0, LIMITS, &set);
    CHECK(size.code == BITES_BAD_SPAN && size.size == 2 && !set.at);
    size = bites_set_new(BYTES("abcde"), late, 3, 0, LIMITS, &set);
    CHECK(size.code == BITES_BAD_SPAN && size.size == 2 && !set.at);
    size = bites_set_new(BYTES("abcde"), ends, 3, BITES_CASE_INSENSITIVE | BITES_TEXT, LIMITS, &set);
    CHECK(size.code == BITES_DONE && bites_set_matches_at(&set, BYTES("DEA"), 0, m, 3).code == BITES_MATCH && m[0] == 1 && m[1] == 0 && m[2] == 1);
    m[0] = 7;
    CHECK(bites_set_is_match_at(&set, BYTES("a\xFF"), 0) == BITES_NOT_UTF8 && bites_set_is_match_at(&set, BYTES("a\xC3\xA9"), 2) == BITES_NOT_BORDER);
    size = bites_set_matches_at(&set, BYTES("a\xFF"), 0, m, 3);
    CHECK(size.code == BITES_NOT_UTF8 && size.size == 0 && m[0] == 7);
    CHECK(bites_set_new(BYTES("a"), ends, 1, 0, LIMITS, NULL).code == BITES_EMPTY_HANDLE && bites_set_clone(NULL, &set) == BITES_EMPTY_HANDLE);
    CHECK(bites_set_clone(&set, NULL) == BITES_EMPTY_HANDLE && bites_set_clone(&set, &set) == BITES_DONE && bites_set_len(NULL).code == BITES_EMPTY_HANDLE);
    CHECK(bites_set_is_match_at(NULL, BYTES("a"), 0) == BITES_EMPTY_HANDLE && bites_set_matches_at(NULL, BYTES("a"), 0, m, 3).code == BITES_EMPTY_HANDLE);
    bites_set_free(NULL);
    bites_set_free(&set);
}

static void no_handles(void) {
    bites regex = {0}, copy = {0};
    bites_cache cache = {0};
    bites_span m = {7, 7};
    size_t place = 7;
    CHECK(bites_new(BYTES("a"), 0, LIMITS, &regex) == BITES_DONE && bites_cache_new(&regex, &cache) == BITES_DONE);
    CHECK(bites_clone(NULL, &copy) == BITES_EMPTY_HANDLE && bites_clone(&regex, NULL) == BITES_EMPTY_HANDLE);
    CHECK(bites_cache_new(NULL, &cache) == BITES_EMPTY_HANDLE && bites_cache_new(&regex, NULL) == BITES_EMPTY_HANDLE);
    bites_free(NULL);
    bites_cache_free(NULL);
    CHECK(bites_is_match(NULL, &cache, BYTES("a")) == BITES_EMPTY_HANDLE && bites_is_match(&regex, NULL, BYTES("a")) == BITES_EMPTY_HANDLE);
    CHECK(bites_is_match_at(NULL, &cache, BYTES("a"), 0) == BITES_EMPTY_HANDLE && bites_is_match_at(&regex, NULL, BYTES("a"), 0) == BITES_EMPTY_HANDLE);
    CHECK(bites_shortest_match_at(NULL, &cache, BYTES("a"), 0, &place) == BITES_EMPTY_HANDLE && bites_shortest_match_at(&regex, NULL, BYTES("a"), 0, &place) == BITES_EMPTY_HANDLE);
    CHECK(bites_find_at(NULL, &cache, BYTES("a"), 0, &m) == BITES_EMPTY_HANDLE && bites_find_at(&regex, NULL, BYTES("a"), 0, &m) == BITES_EMPTY_HANDLE);
    CHECK(bites_find_next(NULL, &cache, BYTES("a"), 0, &m) == BITES_EMPTY_HANDLE && bites_find_next(&regex, NULL, BYTES("a"), 0, &m) == BITES_EMPTY_HANDLE);
    CHECK(bites_split_next(NULL, &cache, BYTES("a"), &place, &m) == BITES_EMPTY_HANDLE && bites_split_next(&regex, NULL, BYTES("a"), &place, &m) == BITES_EMPTY_HANDLE);
    CHECK(bites_captures_at(NULL, &cache, BYTES("a"), 0, &m, 1).code == BITES_EMPTY_HANDLE && bites_captures_at(&regex, NULL, BYTES("a"), 0, &m, 1).code == BITES_EMPTY_HANDLE);
    CHECK(bites_captures_next(NULL, &cache, BYTES("a"), 0, &m, 1).code == BITES_EMPTY_HANDLE && bites_captures_next(&regex, NULL, BYTES("a"), 0, &m, 1).code == BITES_EMPTY_HANDLE);
    CHECK(bites_captures_len(NULL) == 0 && bites_static_captures_len(NULL) == 0);
    CHECK(bites_group_name(NULL, 0, NULL, 0).code == BITES_EMPTY_HANDLE && bites_group_index(NULL, BYTES("a")).code == BITES_EMPTY_HANDLE);
    CHECK(bites_replace(NULL, &cache, BYTES("a"), 0, BYTES("b"), NULL, 0).code == BITES_EMPTY_HANDLE && bites_replace(&regex, NULL, BYTES("a"), 0, BYTES("b"), NULL, 0).code == BITES_EMPTY_HANDLE);
    CHECK(bites_replace_literal(NULL, &cache, BYTES("a"), 0, BYTES("b"), NULL, 0).code == BITES_EMPTY_HANDLE && bites_replace_literal(&regex, NULL, BYTES("a"), 0, BYTES("b"), NULL, 0).code == BITES_EMPTY_HANDLE);
    CHECK(bites_expand(NULL, BYTES("a"), &m, 1, BYTES("b"), NULL, 0).code == BITES_EMPTY_HANDLE);
    CHECK(m.start == 7 && m.end == 7 && place == 7 && bites_is_match(&regex, &cache, BYTES("a")) == BITES_MATCH);
    /* a clone into itself */
    CHECK(bites_clone(&regex, &regex) == BITES_DONE && bites_is_match(&regex, &cache, BYTES("a")) == BITES_MATCH);
    CHECK(bites_clone(&copy, &copy) == BITES_EMPTY_HANDLE && !copy.at);
    bites_cache_free(&cache);
    bites_free(&regex);
}

int main(void) {
    searches();
    limits_of_searches();
    tables();
    anchored();
    successive();
    pieces();
    names();
    groups_in_turn();
    numbers();
    texts();
    templates();
    handles();
    refusals();
    flags();
    searches_of_texts();
    successive_in_texts();
    groups_in_texts();
    expanded_texts();
    replaced_texts();
    sets();
    tables_of_sets();
    refused_sets();
    nulls();
    no_handles();
    CHECK(bites_version() == 0x000106);
    puts("all answers are as they should be");
    return 0;
}
