/*
 * Patterns and haystacks that are made to take long. The library bites_c or the program bites runs on each in a process of its
 * own, once at this length and once at ten times the length. The answer must be right, the time must grow by a factor below 20,
 * and time and memory must stay below the bounds of the row. Times are processor time.
 *
 * hostile PROGRAM: the path of the program bites.
 */
#include "../c/bites.h"

#include <errno.h>
#include <stdbool.h>
#include <stdio.h>
#include <stdlib.h>
#include <string.h>
#include <sys/resource.h>
#include <sys/wait.h>
#include <unistd.h>

/* The rows. */

/* A text whose middle is repeated. Each `#` in the middle is a digit of the number of the repetition. */
struct long_text {
    const char *front, *middle, *back;
    size_t count;
};

/* The part that is made ten times as long. */
enum long_part { PATTERN, HAYSTACK };

struct row {
    enum long_part long_part;
    const char *job; /* of the library, or a word of the program after `bites ` */
    struct long_text pattern, haystack;
    const char *answer; /* the answer, or a prefix of it */
    double seconds;     /* that the longer one takes at most */
    size_t megabytes;   /* that the longer one takes at most */
};

#define ONE(text) {text, "", "", 0}
#define MANY(front, middle, back) {front, middle, back, 1000 * 1000}
#define SOME(front, middle, back) {front, middle, back, 100 * 1000}
#define LINES(text) {"", text, "", 1000 * 1000}

#define NESTING "pattern has too much nesting"
#define TOO_BIG "compiled regex exceeded size limit"
#define TOO_MANY "exhausted state IDs, too many states"
#define NO_CLASS "nested character classes are not supported"
#define GROUPS {"(?:(?<g", "####>b)|(?<g", "3999>a))+", 3999}
#define LIVE_GROUPS {"(?:(?<g", "####>a)|(?<g", "3999>a))+", 3999}
#define ENDLESS "(?:(?:a{4294967295}){4294967295}){4294967295}"

static const struct row rows[] = {
    /* Patterns. */
    {PATTERN, "new", MANY("", "(", ""), ONE(""), NESTING, 20, 1000},
    {PATTERN, "new", MANY("", "(?:", ""), ONE(""), NESTING, 20, 1000},
    {PATTERN, "new", MANY("", "[", ""), ONE(""), NO_CLASS, 20, 1000},
    {PATTERN, "new", MANY("a", "*", ""), ONE(""), NESTING, 20, 1000},
    {PATTERN, "new", MANY("a", "+?", ""), ONE(""), NESTING, 20, 1000},
    {PATTERN, "new", MANY("a", "{2}", ""), ONE(""), NESTING, 20, 1000},
    {PATTERN, "new", MANY("a", "*", "{0}"), ONE("a"), "0..0", 20, 1000},
    {PATTERN, "new", MANY("", "|", ""), ONE(""), TOO_BIG, 30, 2500},
    {PATTERN, "new", SOME("", "()", ""), ONE(""), TOO_BIG, 20, 300},
    {PATTERN, "new", MANY("", "a*", ""), ONE(""), TOO_BIG, 30, 2500},
    {PATTERN, "new", MANY("", "(?:)", ""), ONE(""), TOO_BIG, 30, 2500},
    {PATTERN, "new", MANY("[", "a-c", "]"), ONE("dc"), "1..2", 20, 2000},
    {PATTERN, "limits", SOME("", "|", ""), ONE(""), "0..0", 20, 2000},
    {PATTERN, "limits", {"", "a*", "$", 10 * 1000}, ONE("aab"), "3..3", 20, 1000},
    {HAYSTACK, "new", ONE("(?:a{1000}){1000}"), LINES("a"), TOO_BIG, 20, 100},
    {HAYSTACK, "new", ONE("(?:a{1000000}){1000000}"), LINES("a"), TOO_BIG, 20, 100},
    {HAYSTACK, "new", ONE("(?:){4294967295}"), LINES("a"), TOO_BIG, 20, 100},
    {HAYSTACK, "limits", ONE("a{4294967295}"), LINES("a"), TOO_MANY, 20, 100},
    {HAYSTACK, "limits", ONE(ENDLESS), LINES("a"), TOO_BIG, 20, 100},
    /* Haystacks. */
    {HAYSTACK, "is", ONE("(?:|a)*b"), LINES("a"), "none", 60, 100},
    {HAYSTACK, "is", ONE("(?:a|)+b"), LINES("a"), "none", 60, 100},
    {HAYSTACK, "is", ONE("(a*)*b"), LINES("a"), "none", 60, 100},
    {HAYSTACK, "is", ONE("(?:)*b"), LINES("a"), "none", 60, 100},
    {HAYSTACK, "is", ONE("(?:a?)*?b"), LINES("a"), "none", 60, 100},
    {HAYSTACK, "is", ONE("(?:a|a)*b"), LINES("a"), "none", 60, 100},
    {HAYSTACK, "is", ONE("(?:(?:a{1,3}){1,3}){1,3}b"), LINES("a"), "none", 60, 100},
    {HAYSTACK, "captures", ONE("((?:a|b)*)*c"), LINES("a"), "none", 60, 100},
    {HAYSTACK, "captures", ONE("(?:(a)|b)*"), LINES("a"), "0..", 60, 100},
    {HAYSTACK, "is, text", ONE("(?:|a)*b"), LINES("a"), "none", 60, 100},
    {HAYSTACK, "is", ONE("(?:a?){10000}b"), {"", "c", "", 10 * 1000}, "none", 120, 100},
    /* Four thousand named groups, under the default limits. A cache reserves rows of slots, their number being states times
     * groups. A search writes those that its threads need. In the last rows all groups are alive at each offset. */
    {HAYSTACK, "is", GROUPS, {"", "a", "", 1000}, "match", 20, 50},
    {HAYSTACK, "find", GROUPS, {"", "a", "", 1000}, "0..1000", 20, 50},
    {HAYSTACK, "captures", GROUPS, {"", "a", "", 1000}, "0..1000", 20, 50},
    {HAYSTACK, "replace", GROUPS, {"", "a", "", 1000}, "2 bytes", 20, 50},
    {HAYSTACK, "is", LIVE_GROUPS, {"", "a", "", 1}, "match", 20, 50},
    {HAYSTACK, "find", LIVE_GROUPS, {"", "a", "", 1}, "0..1", 20, 50},
    {HAYSTACK, "captures", LIVE_GROUPS, {"", "a", "", 1}, "0..1", 60, 900},
    {HAYSTACK, "replace", LIVE_GROUPS, {"", "a", "", 1}, "3 bytes", 60, 900},
    /* Anchored patterns. The start is walked at each offset, so each rule of the lexer searches all that is left: its haystack is
     * short. */
    {HAYSTACK, "is", ONE("^a"), LINES("b"), "none", 1, 100},
    {HAYSTACK, "is", ONE("\\Aa|\\Ab"), LINES("c"), "none", 1, 100},
    {HAYSTACK, "captures", ONE("^(a)"), LINES("b"), "none", 1, 100},
    {HAYSTACK, "is", ONE("(?:^a|^b)*c"), LINES("d"), "none", 3, 100},
    {HAYSTACK, "is full", ONE("^a"), {"", "b", "", 10 * 1000 * 1000}, "none", 2, 300},
    {HAYSTACK, "is at 1", ONE("^a"), {"", "b", "", 10 * 1000 * 1000}, "none", 2, 300},
    {HAYSTACK, "is", ONE("(?m)^a"), LINES("b\n"), "none", 60, 100},
    {HAYSTACK, "lex", ONE(""), {"", "x = y1 + 42;\n", "", 30}, "12 tokens a line", 10, 100},
    /* Literals that searches look for, in haystacks that are made of them: all of a literal but its last byte, the literal itself
     * where nothing matches, a literal in each second byte, many words that share their rarest bytes, and bytes that may stand before
     * an end. Then one long run of a class, which a search for the least end must not read over. */
    {HAYSTACK, "is", ONE("harbour[0-9]"), LINES("harboux"), "none", 2, 100},
    {HAYSTACK, "is", ONE("harbour[0-9]"), LINES("harbour"), "none", 2, 100},
    {HAYSTACK, "count", ONE("z"), LINES("az"), "1 match a repetition", 5, 100},
    {HAYSTACK, "count", ONE("z[0-9]"), LINES("az"), "0 matches a repetition", 2, 100},
    {HAYSTACK, "count", ONE("[a-y]+z"), LINES("az"), "1 match a repetition", 5, 100},
    {HAYSTACK, "count", {"zq990", "|zq##0", "", 49}, LINES("zqx"), "0 matches a repetition", 2, 100},
    {HAYSTACK, "count", {"zq990", "|zq##0", "", 49}, LINES("zq110zq11"), "1 match a repetition", 5, 100},
    {HAYSTACK, "is", ONE("[a-z]+\\.com$"), LINES("a.com"), "match", 2, 100},
    {HAYSTACK, "is", ONE("[a-z.]+-com$"), LINES("a.com"), "none", 2, 100},
    {HAYSTACK, "each offset", ONE("[a-z]+"), {"", "a", "", 100 * 1000}, "one byte each", 10, 100},
    /* The program. */
    {HAYSTACK, "bites is", ONE("(?:a|b)*c"), {"", "a", "", 10 * 1000 * 1000}, "none\n", 60, 150},
    {HAYSTACK, "bites find", ONE("a*"), {"", "a", "", 10 * 1000 * 1000}, "0..1000000", 60, 150},
    {HAYSTACK, "bites captures", ONE("(a)|b"), LINES("a"), "0..1 0..1\n1..2 1..2\n", 60, 100},
    {HAYSTACK, "bites split", ONE("a"), LINES("a"), "0..0\n1..1\n2..2\n", 60, 100},
    {HAYSTACK, "bites replace", ONE("a"), LINES("a"), "bbbbbbbbbb", 60, 100},
};

/* Runs. */

/* What a run shows: whether its answer is right, and its time and memory. */
struct seen {
    bool is_right;
    double seconds;
    size_t megabytes;
};

/* Replaces each `#` by a digit of the number, the lowest digit last. */
static void number(char *chars, size_t len, size_t turn) {
    for (size_t at = len; at-- > 0;)
        if (chars[at] == '#') chars[at] = (char)('0' + turn % 10), turn /= 10;
}

/* Returns the text with its middle repeated `times` times as often. The caller frees it. */
static char *made(const struct long_text *text, size_t times, size_t *len) {
    size_t front = strlen(text->front), middle = strlen(text->middle), back = strlen(text->back);
    *len = front + middle * text->count * times + back;
    char *chars = malloc(*len + 1);
    if (chars == NULL) exit(2);
    memcpy(chars, text->front, front);
    for (size_t turn = 0; turn < text->count * times; turn++) {
        memcpy(chars + front + turn * middle, text->middle, middle);
        number(chars + front + turn * middle, middle, turn);
    }
    memcpy(chars + *len - back, text->back, back + 1);
    return chars;
}

/* Ends the process of a run, with status 0 if the answer begins as it should. */
static _Noreturn void end(const struct row *row, const char *answer) {
    exit(strncmp(answer, row->answer, strlen(row->answer)) != 0);
}

static _Noreturn void end_with_span(const struct row *row, uint32_t code, bites_span span) {
    char answer[64] = "none";
    if (code == BITES_MATCH) snprintf(answer, sizeof answer, "%zu..%zu", span.start, span.end);
    end(row, code == BITES_MATCH || code == BITES_NO_MATCH ? answer : "a fault");
}

/* Makes a regex with its table, and a cache for it. If the pattern is refused, the message is the answer. */
static void make(const struct row *row, const char *pattern, size_t len, bites *regex, bites_cache *cache) {
    bool has_limits = strcmp(row->job, "limits") != 0;
    uint32_t flags = strstr(row->job, ", text") != NULL ? BITES_TEXT : 0;
    uint32_t code = bites_new((const uint8_t *)pattern, len, flags, has_limits ? BITES_SIZE_LIMIT : SIZE_MAX,
                              has_limits ? BITES_NEST_LIMIT : UINT32_MAX, regex);
    char message[200] = "";
    if (code != BITES_DONE) bites_error_text(code, (uint8_t *)message, sizeof message - 1);
    if (code != BITES_DONE) end(row, message);
    if (bites_prepare(regex, BITES_DFA_SIZE_LIMIT, regex) != BITES_DONE) exit(2);
    if (bites_cache_new(regex, cache) != BITES_DONE) exit(2);
}

static _Noreturn void find_captures(const struct row *row, bites *regex, bites_cache *cache, const uint8_t *haystack, size_t len) {
    size_t count = bites_captures_len(regex);
    bites_span *groups = malloc(count * sizeof *groups);
    if (groups == NULL) exit(2);
    bites_size found = bites_captures_at(regex, cache, haystack, len, 0, groups, count);
    end_with_span(row, found.code, groups[0]);
}

static _Noreturn void replace(const struct row *row, bites *regex, bites_cache *cache, const uint8_t *haystack, size_t len) {
    char answer[100] = "";
    bites_size size = bites_replace(regex, cache, haystack, len, 1, (const uint8_t *)"<$1>", 4, (uint8_t *)answer, 0);
    snprintf(answer, sizeof answer, "%zu bytes", size.size);
    end(row, size.code == BITES_TOO_SMALL ? answer : "a fault");
}

/* Counts the successive matches, which are as many in each repetition of the haystack's middle. */
static _Noreturn void count(const struct row *row, bites *regex, bites_cache *cache, const uint8_t *haystack, size_t len) {
    size_t matches = 0, times = len / strlen(row->haystack.middle);
    char answer[64];
    bites_span found;
    for (size_t last = BITES_NONE; bites_find_next(regex, cache, haystack, len, last, &found) == BITES_MATCH; last = found.end) matches++;
    if (matches % times != 0) end(row, "not as many in each repetition");
    snprintf(answer, sizeof answer, matches == times ? "%zu match a repetition" : "%zu matches a repetition", matches / times);
    end(row, answer);
}

/* Asks at each offset for a match and for its least end, which is one byte away. */
static _Noreturn void ask_at_each_offset(const struct row *row, bites *regex, bites_cache *cache, const uint8_t *haystack, size_t len) {
    for (size_t from = 0; from < len; from++) {
        size_t least = 0;
        if (bites_is_match_at(regex, cache, haystack, len, from) != BITES_MATCH) exit(1);
        if (bites_shortest_match_at(regex, cache, haystack, len, from, &least) != BITES_MATCH || least != from + 1) exit(1);
    }
    end(row, "one byte each");
}

/* The rules of a small language. Each must match at the start of what is left. */
static const char *const rules[] = {"^[a-z]+", "^[0-9]+", "^[ \n]+", "^\"[^\"]*\"", "^[-+*/=]", "^[(){};]"};
enum { RULES = sizeof rules / sizeof *rules };

/* Cuts the haystack into tokens, by the first rule that matches each rest, and counts them. */
static _Noreturn void lex(const struct row *row, const uint8_t *haystack, size_t len) {
    bites regexes[RULES] = {0};
    bites_cache caches[RULES] = {0};
    size_t tokens = 0;
    for (size_t at = 0; at < RULES; at++) make(row, rules[at], strlen(rules[at]), &regexes[at], &caches[at]);
    for (size_t from = 0; from < len; tokens++) {
        bites_span token = {0, 0};
        for (size_t at = 0; at < RULES && token.end == 0; at++)
            bites_find_at(&regexes[at], &caches[at], haystack + from, len - from, 0, &token);
        if (token.end == 0) exit(1);
        from += token.end;
    }
    size_t lines = row->haystack.count > 0 ? len / strlen(row->haystack.middle) : 1;
    char answer[64];
    snprintf(answer, sizeof answer, tokens % lines == 0 ? "%zu tokens a line" : "%zu tokens", tokens % lines == 0 ? tokens / lines : tokens);
    end(row, answer);
}

/* Does the job of the library, in the process of a run. */
static _Noreturn void do_job(const struct row *row, size_t pattern_times, size_t haystack_times) {
    size_t pattern_len, len;
    char *pattern = made(&row->pattern, pattern_times, &pattern_len);
    const uint8_t *haystack = (const uint8_t *)made(&row->haystack, haystack_times, &len);
    bites regex = {0};
    bites_cache cache = {0};
    bites_span found = {0, 0};
    if (strcmp(row->job, "lex") == 0) lex(row, haystack, len);
    make(row, pattern, pattern_len, &regex, &cache);
    if (strcmp(row->job, "is full") == 0) end(row, bites_is_full_match(&regex, &cache, haystack, len) == BITES_MATCH ? "match" : "none");
    if (strcmp(row->job, "is at 1") == 0) end(row, bites_find_anchored_at(&regex, &cache, haystack, len, 1, &found) == BITES_MATCH ? "match" : "none");
    if (strncmp(row->job, "is", 2) == 0) end(row, bites_is_match_at(&regex, &cache, haystack, len, 0) == BITES_MATCH ? "match" : "none");
    if (strcmp(row->job, "each offset") == 0) ask_at_each_offset(row, &regex, &cache, haystack, len);
    if (strcmp(row->job, "count") == 0) count(row, &regex, &cache, haystack, len);
    if (strcmp(row->job, "captures") == 0) find_captures(row, &regex, &cache, haystack, len);
    if (strcmp(row->job, "replace") == 0) replace(row, &regex, &cache, haystack, len);
    uint32_t code = bites_find_at(&regex, &cache, haystack, len, 0, &found);
    end_with_span(row, code, found);
}

/* Returns a file with the text, open at its start. */
static FILE *file_of(const struct long_text *text, size_t times) {
    FILE *file = tmpfile();
    if (file == NULL) exit(2);
    setvbuf(file, NULL, _IOFBF, 1 << 16);
    fputs(text->front, file);
    for (size_t turn = 0; turn < text->count * times; turn++) fputs(text->middle, file);
    fputs(text->back, file);
    if (fflush(file) != 0 || fseek(file, 0, SEEK_SET) != 0) exit(2);
    return file;
}

/* Turns the process of a run into the program on these streams. */
static _Noreturn void become(const char *program, const struct row *row, FILE *input, FILE *output) {
    const char *word = strchr(row->job, ' ') + 1;
    const char *template = strcmp(word, "replace") == 0 ? "b" : NULL;
    if (dup2(fileno(input), 0) < 0 || dup2(fileno(output), 1) < 0) _exit(2);
    execl(program, "bites", word, row->pattern.front, template, (char *)NULL);
    _exit(2);
}

/* Returns whether the file begins with the answer. */
static bool begins_with(FILE *file, const char *answer) {
    char front[100];
    size_t len = strlen(answer);
    return fseek(file, 0, SEEK_SET) == 0 && fread(front, 1, len, file) == len && memcmp(front, answer, len) == 0;
}

/* Returns the time and memory of a process that has ended. It must have ended with status 0, or with 1 if that is right too. */
static struct seen ended(pid_t process, bool may_be_one) {
    struct rusage usage;
    int status;
    while (wait4(process, &status, 0, &usage) < 0)
        if (errno != EINTR) exit(2);
    bool is_right = WIFEXITED(status) && (WEXITSTATUS(status) == 0 || (may_be_one && WEXITSTATUS(status) == 1));
    double micros = 1e6 * (double)(usage.ru_utime.tv_sec + usage.ru_stime.tv_sec) +
                    (double)(usage.ru_utime.tv_usec + usage.ru_stime.tv_usec);
    return (struct seen){is_right, micros / 1e6, (size_t)usage.ru_maxrss / 1024};
}

static pid_t forked(void) {
    fflush(stdout);
    pid_t process = fork();
    if (process < 0) exit(2);
    return process;
}

static struct seen run(const char *program, const struct row *row, size_t times) {
    if (strncmp(row->job, "bites ", 6) != 0) {
        bool is_pattern = row->long_part == PATTERN;
        pid_t process = forked();
        if (process == 0) do_job(row, is_pattern ? times : 1, is_pattern ? 1 : times);
        return ended(process, false);
    }
    FILE *input = file_of(&row->haystack, times), *output = tmpfile();
    if (output == NULL) exit(2);
    pid_t process = forked();
    if (process == 0) become(program, row, input, output);
    struct seen seen = ended(process, true);
    seen.is_right = seen.is_right && begins_with(output, row->answer);
    fclose(input);
    fclose(output);
    return seen;
}

/* Returns whether memory grows with the length and with nothing else. */
static bool is_in_step(size_t shorter, size_t longer) { return longer < 12 * shorter + 16; }

/* Returns a short text that says what is searched. */
static void tell_text(const struct long_text *text, size_t times) {
    printf("%.24s", text->front);
    if (text->count > 0) printf("%s... %zu times%s", text->middle, text->count * times, text->back);
}

/* Returns whether the time of the longer run is within a factor of 20. A time below a tenth of a second says too little. */
static bool is_linear(double shorter, double longer) { return longer < 20 * (shorter > 0.1 ? shorter : 0.1); }

/* Returns what two runs of one length show: the lesser time, and the greater memory. */
static struct seen least(struct seen one, struct seen other) {
    return (struct seen){one.is_right && other.is_right, one.seconds < other.seconds ? one.seconds : other.seconds,
                         one.megabytes > other.megabytes ? one.megabytes : other.megabytes};
}

/* A processor of a shared machine can lose half of its speed for a while. So times that are not in step are taken up to twice more. */
static bool try_row(const char *program, const struct row *row) {
    struct seen shorter = run(program, row, 1), longer = run(program, row, 10);
    for (int turn = 0; turn < 2 && !is_linear(shorter.seconds, longer.seconds); turn++) {
        shorter = least(shorter, run(program, row, 1));
        longer = least(longer, run(program, row, 10));
    }
    const char *verdict = !shorter.is_right || !longer.is_right                  ? "WRONG ANSWER"
                          : !is_linear(shorter.seconds, longer.seconds)          ? "NOT LINEAR"
                          : !is_in_step(shorter.megabytes, longer.megabytes)     ? "MEMORY NOT LINEAR"
                          : longer.seconds > row->seconds                        ? "TOO SLOW"
                          : longer.megabytes > row->megabytes                    ? "TOO MUCH MEMORY"
                                                                                 : "ok";
    printf("%8.2f s %8.2f s %6zu MB %6zu MB  %s  %s ", shorter.seconds, longer.seconds, shorter.megabytes, longer.megabytes,
           verdict, row->job);
    tell_text(&row->pattern, row->long_part == PATTERN ? 10 : 1);
    if (row->haystack.count > 0) fputs(" over ", stdout);
    if (row->haystack.count > 0) tell_text(&row->haystack, row->long_part == HAYSTACK ? 10 : 1);
    puts("");
    return strcmp(verdict, "ok") == 0;
}

int main(int count, char **words) {
    size_t passed = 0, failed = 0;
    if (count < 2) {
        fputs("usage: hostile PROGRAM [PART OF A JOB'S NAME]\n", stderr);
        return 2;
    }
    puts("processor time and greatest memory, of a length and of ten times as much");
    for (size_t index = 0; index < sizeof rows / sizeof *rows; index++) {
        if (count > 2 && strstr(rows[index].job, words[2]) == NULL) continue;
        try_row(words[1], &rows[index]) ? passed++ : failed++;
    }
    printf("%zu passed, %zu failed\n", passed, failed);
    return failed != 0;
}
