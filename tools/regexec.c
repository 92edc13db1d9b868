/* Times matches of whole lines and longest matches, one call for each line, beside regexec of the C library: nanoseconds a line.
 *
 *     tools/archive bites_c
 *     cc -std=gnu11 -O2 -Ic tools/regexec.c crates/bites_c/out/libbites_c.a "$(dirname "$(rt doc)")"/c/liblibc_c.a -o regexec && ./regexec
 *
 * Each row has the best of seven runs, of processor time. All three must find the same, else the row says so. A lexer's row is of one token. */
#include "bites.h"
#include <regex.h>
#include <stdio.h>
#include <stdlib.h>
#include <string.h>
#include <time.h>

enum { LINES = 20000, RUNS = 7, GROUPS = 10 };

typedef struct { char text[160]; size_t len; } line;

/* What a row asks of each line: whether it matches as a whole, whether something matches, the span, or all groups. */
typedef enum { WHOLE, IS_MATCH, SPAN, CAPTURES } question;

typedef struct { const char *name, *pattern, *posix; question asks; line *lines; } job;

static line logs[LINES], paths[LINES], times[LINES];
static unsigned long long drawn = 1;

static unsigned draw(unsigned below) {
    drawn = drawn * 6364136223846793005ull + 1442695040888963407ull;
    return (unsigned)((drawn >> 33) % below);
}

static void make_lines(void) {
    static const char *words[] = {"frank", "grace", "ada", "bob", "harbour", "mill", "error", "lantern"};
    for (int k = 0; k < LINES; k++) {
        logs[k].len = (size_t)sprintf(logs[k].text, "10.0.%u.%u %s %s@%s %s took %u ms", draw(256), draw(256), words[draw(8)], words[draw(8)], words[draw(8)], words[draw(8)], draw(5000));
        paths[k].len = (size_t)sprintf(paths[k].text, draw(2) ? "/users/%u/posts/%s" : "/files/%u/%s.html", draw(9000), words[draw(8)]);
        times[k].len = (size_t)sprintf(times[k].text, "%u-%02u-%02uT%02u:%02u:%02uZ %s 10.0.%u.%u took %u ms", 2000 + draw(30), 1 + draw(12), 1 + draw(28), draw(24), draw(60), draw(60), words[draw(8)], draw(256), draw(256), draw(5000));
    }
}

static double now(void) {
    struct timespec t;
    clock_gettime(CLOCK_PROCESS_CPUTIME_ID, &t);
    return t.tv_sec * 1e9 + t.tv_nsec;
}

/* Asks a line of our engine. Returns a number that two engines share if they found the same. */
static size_t ask(bites *regex, bites_cache *cache, const job *j, const line *l) {
    const uint8_t *text = (const uint8_t *)l->text;
    bites_span groups[GROUPS];
    switch (j->asks) {
    case WHOLE: return bites_is_full_match(regex, cache, text, l->len) == BITES_MATCH;
    case IS_MATCH: return bites_is_match(regex, cache, text, l->len) == BITES_MATCH;
    case SPAN: return bites_find_at(regex, cache, text, l->len, 0, groups) == BITES_MATCH ? groups[0].start + groups[0].end : 0;
    default: {
        bites_size found = bites_captures_at(regex, cache, text, l->len, 0, groups, GROUPS);
        return found.code == BITES_MATCH ? groups[0].end + groups[found.size - 1].end : 0;
    }
    }
}

static size_t ask_posix(const regex_t *regex, const job *j, const line *l) {
    regmatch_t groups[GROUPS];
    size_t count = j->asks == CAPTURES ? regex->re_nsub + 1 : j->asks == SPAN ? 1 : 0;
    if (regexec(regex, l->text, count, groups, 0) != 0) return 0;
    if (j->asks == SPAN) return (size_t)(groups[0].rm_so + groups[0].rm_eo);
    return j->asks == CAPTURES ? (size_t)(groups[0].rm_eo + groups[regex->re_nsub].rm_eo) : 1;
}

/* The best nanoseconds a line, and the sum of the answers. */
static double time_ours(bites *regex, const job *j, size_t *sum) {
    bites_cache cache = {0};
    if (bites_cache_new(regex, &cache) != BITES_DONE) exit(2);
    double best = 1e18;
    for (int run = 0; run < RUNS; run++) {
        double begin = now();
        *sum = 0;
        for (int k = 0; k < LINES; k++) *sum += ask(regex, &cache, j, &j->lines[k]);
        double took = now() - begin;
        if (took < best) best = took;
    }
    bites_cache_free(&cache);
    return best / LINES;
}

static double time_posix(const regex_t *regex, const job *j, size_t *sum) {
    double best = 1e18;
    for (int run = 0; run < RUNS; run++) {
        double begin = now();
        *sum = 0;
        for (int k = 0; k < LINES; k++) *sum += ask_posix(regex, j, &j->lines[k]);
        double took = now() - begin;
        if (took < best) best = took;
    }
    return best / LINES;
}

static void make(const char *pattern, bites *plain, bites *prepared) {
    uint32_t flags = BITES_LEFTMOST_LONGEST;
    if (bites_new((const uint8_t *)pattern, strlen(pattern), flags, BITES_SIZE_LIMIT, BITES_NEST_LIMIT, plain) != BITES_DONE) exit(2);
    if (bites_prepare(plain, BITES_DFA_SIZE_LIMIT, prepared) != BITES_DONE) exit(2);
}

static void run(const job *j) {
    bites plain = {0}, prepared = {0};
    regex_t posix;
    size_t with, without, other;
    make(j->pattern, &plain, &prepared);
    if (regcomp(&posix, j->posix, REG_EXTENDED) != 0) exit(2);
    double a = time_ours(&prepared, j, &with), b = time_ours(&plain, j, &without), c = time_posix(&posix, j, &other);
    printf("| %s | %.0f | %.0f | %.0f |%s\n", j->name, a, b, c, with == without && with == other ? "" : " DIFFERS");
    regfree(&posix);
    bites_free(&prepared);
    bites_free(&plain);
}

/* Cuts all lines into tokens by the longest match of five rules at one offset. Returns the number of tokens. */
static size_t cut(bites *rules, bites_cache *caches, int count, size_t *sum) {
    size_t tokens = 0;
    *sum = 0;
    for (int k = 0; k < LINES; k++)
        for (size_t at = 0; at < logs[k].len; tokens++) {
            size_t end = at + 1;
            for (int r = 0; r < count; r++) {
                bites_span found;
                if (bites_find_anchored_at(&rules[r], &caches[r], (const uint8_t *)logs[k].text, logs[k].len, at, &found) == BITES_MATCH && found.end > end) end = found.end;
            }
            *sum += end;
            at = end;
        }
    return tokens;
}

static double time_lexer(bites *rules, int count, size_t *sum) {
    bites_cache caches[5] = {{0}};
    double best = 1e18;
    for (int r = 0; r < count; r++)
        if (bites_cache_new(&rules[r], &caches[r]) != BITES_DONE) exit(2);
    for (int k = 0; k < RUNS; k++) {
        double begin = now();
        size_t tokens = cut(rules, caches, count, sum);
        double took = (now() - begin) / tokens;
        if (took < best) best = took;
    }
    for (int r = 0; r < count; r++) bites_cache_free(&caches[r]);
    return best;
}

static void run_lexer(void) {
    static const char *patterns[] = {"[0-9]+", "[a-zA-Z]+", "[ \\n]+", "\"[^\"]*\"", "[-./:\\[\\]?=_@]"};
    bites plain[5] = {{0}}, prepared[5] = {{0}};
    size_t with, without;
    for (int r = 0; r < 5; r++) make(patterns[r], &plain[r], &prepared[r]);
    double a = time_lexer(prepared, 5, &with), b = time_lexer(plain, 5, &without);
    printf("| a token of a lexer of five rules | %.0f | %.0f | |%s\n", a, b, with == without ? "" : " DIFFERS");
    for (int r = 0; r < 5; r++) {
        bites_free(&plain[r]);
        bites_free(&prepared[r]);
    }
}

int main(void) {
    static const job jobs[] = {
        {"whether `(\\S+) (\\w+) (\\w+)@(\\w+) (\\w+) took (\\d+) ms` is the whole line", "(\\S+) (\\w+) (\\w+)@(\\w+) (\\w+) took (\\d+) ms", "^([^ ]+) ([0-9A-Za-z_]+) ([0-9A-Za-z_]+)@([0-9A-Za-z_]+) ([0-9A-Za-z_]+) took ([0-9]+) ms$", WHOLE, logs},
        {"whether `/users/([0-9]+)/posts/(\\w+)` is the whole path", "/users/([0-9]+)/posts/(\\w+)", "^/users/([0-9]+)/posts/([0-9A-Za-z_]+)$", WHOLE, paths},
        {"whether `error` stands in a line", "error", "error", IS_MATCH, logs},
        {"the longest `[0-9]+ ms$`", "[0-9]+ ms$", "[0-9]+ ms$", SPAN, logs},
        {"the longest `[a-z]+@[a-z]+|[a-z]+`", "[a-z]+@[a-z]+|[a-z]+", "[a-z]+@[a-z]+|[a-z]+", SPAN, logs},
        {"groups of the longest `([0-9]{4})-([0-9]{2})-([0-9]{2})`", "([0-9]{4})-([0-9]{2})-([0-9]{2})", "([0-9]{4})-([0-9]{2})-([0-9]{2})", CAPTURES, times},
        {"seven groups of the longest ISO time at the start of a line", "^([0-9]{4})-([0-9]{2})-([0-9]{2})T([0-9]{2}):([0-9]{2}):([0-9]{2})", "^([0-9]{4})-([0-9]{2})-([0-9]{2})T([0-9]{2}):([0-9]{2}):([0-9]{2})", CAPTURES, times},
    };
    make_lines();
    puts("| Search | with a table | without | `regexec` |\n|---|---|---|---|");
    for (size_t k = 0; k < sizeof jobs / sizeof *jobs; k++) run(&jobs[k]);
    run_lexer();
    return 0;
}
