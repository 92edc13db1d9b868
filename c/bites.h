/* The proved engine for regular expressions, for C and C++.
 *
 * Handles. A `bites` holds a compiled regex, and a `bites_cache` holds the memory that its searches use. Initialize each with
 * {0}, which holds nothing, and free each after use. Freeing a handle that holds nothing does nothing. A call that makes a
 * regex or a cache frees what `out` held and puts the new one into `out`. Never write `at`, and never copy a handle that holds
 * something: use bites_clone. Never pass one handle twice in one call, except that bites_clone(&r, &r) leaves `r` unchanged, and
 * that bites_prepare(&r, limit, &r) gives `r` a table, or leaves it unchanged if there is no memory for the handle. So do
 * bites_prepare_unanchored(&r, limit, &r), and bites_set_prepare(&s, limit, &s) for a set.
 *
 * Sets. A `bites_set` holds several compiled patterns and the memory that its searches use, so it needs no cache. All that is
 * said of a `bites` holds of it too.
 *
 * Threads. A handle may move to another thread. A handle serves one call at a time, since a search takes the regex out of its
 * handle and puts it back. Clones share the compiled program. Several threads may search at once if each has its own clone and
 * its own cache. Clone in the thread that has the handle, and pass the clone on by the start of a thread, by a lock, or by an
 * atomic: a store that releases, and a load that acquires and reads what it stored. Sequentially consistent ones do so too.
 *
 * Bytes. A haystack, a pattern or a text is a pointer and a length in bytes. NULL with length 0 is the empty text, and NULL
 * with room or count 0 is no room. The memory that a call writes must not overlap the memory that it reads. A haystack may be
 * any bytes. Offsets count bytes from its start, and assertions also look at the bytes before `start`. A start after the end
 * of the haystack finds nothing.
 *
 * Texts. A regex made with BITES_TEXT, and each clone of it, searches texts only. A call with a haystack then returns
 * BITES_NOT_UTF8 if the haystack, or the template or text that is passed with it, is not UTF-8. It returns BITES_NOT_BORDER if
 * the offset to start from lies within a character. This check reads the whole haystack. Matches and groups then begin and end
 * between characters. A call that goes on after a match checks only its offset `last`: bites_find_next, bites_captures_next
 * and bites_split_next with a `last` other than BITES_NONE. Its caller must pass the haystack that was checked for the first
 * match. So finding all matches checks a haystack once. Without the flag nothing is checked.
 *
 * Patterns. `docs/SYNTAX.md` of the repository, and of a release, says what a pattern may contain.
 *
 * Time. A search takes time in the order of the states of the compiled pattern times the bytes of the haystack behind the place
 * where it begins, `start` or `last`. A search for groups takes that times the number of groups. `x{20}` has 20 times the states of `x`.
 * These are bounds for any pattern and haystack, and most searches take much less. A loop over all matches, and a replacement of all,
 * make a search for each match, and one that finds no more. Where such a search finds an empty match at the end of the match before,
 * which is passed over, a second one follows. The search of a set takes as much as one for each of its patterns. With BITES_TEXT each
 * call that checks its haystack also reads all of it once, wherever the search begins and ends. So a loop of such calls over one long
 * text is better made with a regex without the flag, and the text checked before.
 *
 * Results. Each call returns one of the numbers below. A call that is out of memory returns BITES_NO_MEMORY and leaves what it
 * was given unchanged, except that `out` of a call that makes a regex or a cache then holds nothing. No search allocates. */
#ifndef BITES_H
#define BITES_H
#include <stddef.h>
#include <stdint.h>
#include <string.h>

#ifdef __cplusplus
extern "C" {
#endif

enum {
    BITES_DONE = 0,
    /* 1 to 57: the pattern was refused; bites_error_text writes the message of the number */
    BITES_NO_MEMORY = 58,
    BITES_MATCH = 100,
    BITES_NO_MATCH = 101,
    BITES_NOT_UTF8 = 102,     /* the pattern or the text to escape is not UTF-8; with BITES_TEXT also a haystack, template or text */
    BITES_EMPTY_HANDLE = 103, /* a handle holds nothing, or is NULL */
    BITES_UNFIT_CACHE = 104,  /* the cache was made for a regex of another size */
    BITES_TOO_SMALL = 105,    /* the room that the caller passed is too small; it is unchanged */
    BITES_NO_NAME = 106,      /* no group has this number, or the group has no name; or no group has this name */
    BITES_BAD_SPAN = 107,     /* a span does not lie in the haystack; or a pattern of a set ends before it begins, or too late */
    BITES_NOT_BORDER = 108    /* with BITES_TEXT: an offset to start from, or an end of a span, lies within a character */
};

/* Flags of bites_new, which may be combined. Bits that have no name here change nothing. */
enum {
    BITES_CASE_INSENSITIVE = 1,      /* i */
    BITES_MULTI_LINE = 2,            /* m */
    BITES_DOT_MATCHES_NEW_LINE = 4,  /* s */
    BITES_CRLF = 8,                  /* R */
    BITES_SWAP_GREED = 16,           /* U */
    BITES_IGNORE_WHITESPACE = 32,    /* x */
    BITES_LEFTMOST_LONGEST = 64,     /* searches find the longest match instead of the preferred one */
    BITES_KEEP_DROPPED_GROUPS = 128, /* groups that the pattern repeats 0 times keep their numbers and names */
    BITES_TEXT = 256                 /* haystacks are texts, which are checked (see "Texts" above) */
};

/* The default limits: of the size of a compiled program, roughly in bytes, of the nesting depth of a pattern, and of the bytes of
 * a table (bites_prepare). */
#define BITES_SIZE_LIMIT ((size_t)10485760)
#define BITES_NEST_LIMIT ((uint32_t)50)
#define BITES_DFA_SIZE_LIMIT ((size_t)1048576)

/* Both offsets of a group that does not participate, and `last` before the first match. */
#define BITES_NONE SIZE_MAX

typedef struct { void *at; } bites;
typedef struct { void *at; } bites_cache;
typedef struct { void *at; } bites_set;
typedef struct { size_t start, end; } bites_span;
typedef struct { uint32_t code; size_t size; } bites_size;
typedef struct { size_t lists, bytes; uint32_t is_whole; } bites_table;

/* Returns the version of this library: major << 16 | minor << 8 | patch. */
uint32_t bites_version(void);

/* Compiles the pattern into `out`. Returns BITES_DONE, the number 1 to 57 of the message that refuses the pattern,
 * BITES_NO_MEMORY, BITES_NOT_UTF8, or BITES_EMPTY_HANDLE if `out` is NULL. If it does not return BITES_DONE, `out` holds nothing. */
uint32_t bites_new(const uint8_t *pattern, size_t len, uint32_t flags, size_t size_limit, uint32_t nest_limit, bites *out);

/* Finds the message that refuses the pattern, and puts the number of bytes before the place that it is about into `offset`. Returns
 * the number 1 to 54 of the message, BITES_DONE if the pattern is read, BITES_NO_MEMORY or BITES_NOT_UTF8. If no message is about a
 * place, `offset` is BITES_NONE. A syntax tree that is too tall has no place. The numbers 55 to 57 of bites_new are about the
 * compiled program, and about no place. */
uint32_t bites_error_at(const uint8_t *pattern, size_t len, uint32_t flags, uint32_t nest_limit, size_t *offset);

/* Puts a regex that shares the program of `regex` into `out`. Returns BITES_DONE, BITES_NO_MEMORY, or BITES_EMPTY_HANDLE if
 * `regex` holds nothing. If it does not return BITES_DONE, `out` holds nothing. */
uint32_t bites_clone(bites *regex, bites *out);

void bites_free(bites *regex);

/* Puts the same regex with a table into `out`. Its searches return the same, and mostly much sooner. Making a table takes longer
 * than making the regex, so prepare a regex that searches much. If it never searches at one offset or for a match of the whole
 * haystack, bites_prepare_unanchored takes less time and memory. bites_new makes no table. Without one, a search for a pattern that
 * matches at the start of the haystack alone, as ^a+b, goes over the whole haystack if nothing matches.
 *
 * If each match holds a literal, or begins with one of several, the searches of `out` look for these first, many bytes at a time. If
 * each match ends at the end of the haystack, they explore only the places near the end. If the pattern is a class of ASCII, as [,;], or
 * that class with a greedy +, as \w+, they look for its bytes. If each match begins at the start of the haystack and has one width of at
 * most 64 bytes, they compare its bytes. That is done only for patterns of ASCII without branches, in which each repetition has one
 * count and no assertion stands but those of the start and the end. If the matches of any other pattern begin at the start of the
 * haystack alone, they look for a literal only in a haystack of at most 256 bytes, and only if the search may go on for long, as that of
 * ^.*error. Searches at one offset and for a match of the whole haystack do none of this, nor do those of a regex that bites_new made.
 *
 * The thread lists and transitions of the table take at most `dfa_size_limit` bytes, and bites_table_size says how many. Its classes
 * of characters are not counted. What it has no room for is left to the search. There is no table with limit 0, or if the limit is
 * too small for where searches begin. Literals are looked for then too.
 *
 * With BITES_LEFTMOST_LONGEST a table finds where a match begins, if it knows all that a search can come to. A second search, at that
 * offset alone, finds the longest match by the table too. So use bites_prepare with that flag, and not bites_prepare_unanchored.
 *
 * `out` shares the program of `regex`, and clones of `out` share its table too. A cache of one fits the other. `regex` is
 * unchanged, with its table if it has one. No table is made if the pattern has too many classes of characters, or too many states to
 * find these. Returns what bites_clone returns. BITES_NO_MEMORY says that there was no memory for the handle. If there is none for the
 * table or to find the literal, `out` holds the regex without it, and the call returns BITES_DONE. */
uint32_t bites_prepare(bites *regex, size_t dfa_size_limit, bites *out);

/* Puts the same regex into `out` as bites_prepare does, but with a table without the thread lists that bites_find_anchored_at,
 * bites_captures_anchored_at and bites_is_full_match need. These find the same, and take as long as without a table. Such a table takes
 * up to a third less time to make, and up to 43 % fewer bytes. If matches begin at the start of the haystack alone, it is the table
 * of bites_prepare, but not with BITES_LEFTMOST_LONGEST, which needs the thread lists that are left out. */
uint32_t bites_prepare_unanchored(bites *regex, size_t dfa_size_limit, bites *out);

/* Puts how large the table of the regex is into `out`: the number of its thread lists, its bytes, and 1 if it knows all that a
 * search can come to, else 0. All are 0 if there is no table. Returns BITES_DONE, or BITES_EMPTY_HANDLE and `out` is unchanged. */
uint32_t bites_table_size(bites *regex, bites_table *out);

/* Makes a cache for searches with the regex and its clones, one search at a time, and puts it into `out`. Returns what
 * bites_clone returns. */
uint32_t bites_cache_new(bites *regex, bites_cache *out);

void bites_cache_free(bites_cache *cache);

/* A search returns BITES_MATCH or BITES_NO_MATCH. If its handles are wrong, it returns BITES_EMPTY_HANDLE or BITES_UNFIT_CACHE.
 * With BITES_TEXT it then checks the haystack, and may return BITES_NOT_UTF8 or BITES_NOT_BORDER. It writes only if it returns
 * BITES_MATCH, with two exceptions: bites_split_next also writes the last piece, and bites_set_matches_at also writes if no pattern
 * matches. */

/* Returns whether the regex matches anywhere in the haystack. */
uint32_t bites_is_match(bites *regex, bites_cache *cache, const uint8_t *haystack, size_t len);

/* Returns whether a match begins at or after `start`. */
uint32_t bites_is_match_at(bites *regex, bites_cache *cache, const uint8_t *haystack, size_t len, size_t start);

/* Puts the least end of any match that begins at or after `start` into `end`. */
uint32_t bites_shortest_match_at(bites *regex, bites_cache *cache, const uint8_t *haystack, size_t len, size_t start, size_t *end);

/* Puts the first match that begins at or after `start` into `out`. Assertions see the bytes before `start`, so `^` does not match at
 * a `start` within a line. A pager that goes on in a line passes the whole line and an offset, where regexec takes the rest of the
 * line and REG_NOTBOL:
 *     bites_find_at(&regex, &cache, line, len, m.end, &m) */
uint32_t bites_find_at(bites *regex, bites_cache *cache, const uint8_t *haystack, size_t len, size_t start, bites_span *out);

/* Puts the match that begins at `start` into `out`: the preferred one, or the longest with BITES_LEFTMOST_LONGEST. The search
 * stops as soon as no match from `start` can go on, so it reads no further than a match could reach, but for the check of
 * BITES_TEXT. */
uint32_t bites_find_anchored_at(bites *regex, bites_cache *cache, const uint8_t *haystack, size_t len, size_t start, bites_span *out);

/* Returns whether the regex matches the whole haystack, by any of its matches. If a table finds a shorter match from the start first, a
 * second search looks for the longest one without the table. With BITES_LEFTMOST_LONGEST one search by the table of bites_prepare tells,
 * so set it where many haystacks match in part, as the paths of a router do. */
uint32_t bites_is_full_match(bites *regex, bites_cache *cache, const uint8_t *haystack, size_t len);

/* Puts the next match after one that ends at `last` into `out`, or the first match if `last` is BITES_NONE. This loop finds each
 * match once, in order:
 *     for (size_t last = BITES_NONE; bites_find_next(&regex, &cache, text, len, last, &m) == BITES_MATCH; last = m.end) */
uint32_t bites_find_next(bites *regex, bites_cache *cache, const uint8_t *haystack, size_t len, size_t last, bites_span *out);

/* Puts the next piece of the haystack, as its matches split it, into `piece`. Set `last` to BITES_NONE first. BITES_MATCH: the
 * piece ends where the next match begins, and `last` becomes the end of that match. BITES_NO_MATCH: the piece is the last one,
 * up to the end of the haystack, and `last` is unchanged. For any other number both are unchanged. This loop finds all pieces:
 *     size_t last = BITES_NONE;
 *     uint32_t code;
 *     do { code = bites_split_next(&regex, &cache, text, len, &last, &piece); } while (code == BITES_MATCH); */
uint32_t bites_split_next(bites *regex, bites_cache *cache, const uint8_t *haystack, size_t len, size_t *last, bites_span *piece);

/* Puts the groups of the first match that begins at or after `start` into `groups`, group 0 first. The code is that of a
 * search, or BITES_TOO_SMALL if `count` is less than the number of groups: then nothing is searched. `size` is the number of
 * groups, or 0 if the handles or the haystack are refused. Places after the last group are unchanged. */
bites_size bites_captures_at(bites *regex, bites_cache *cache, const uint8_t *haystack, size_t len, size_t start, bites_span *groups, size_t count);

/* Puts the groups of the match that bites_find_anchored_at finds into `groups`, as bites_captures_at does. */
bites_size bites_captures_anchored_at(bites *regex, bites_cache *cache, const uint8_t *haystack, size_t len, size_t start, bites_span *groups, size_t count);

/* Puts the groups of the match that bites_find_next finds into `groups`, as bites_captures_at does. */
bites_size bites_captures_next(bites *regex, bites_cache *cache, const uint8_t *haystack, size_t len, size_t last, bites_span *groups, size_t count);

/* Returns the number of groups, with group 0, or 0 for an empty handle. */
size_t bites_captures_len(bites *regex);

/* Returns a lower bound on the number of groups that participate in any match, with group 0. Returns 0 if the form of the
 * pattern gives none, as for `(a)|b`, or for an empty handle. */
size_t bites_static_captures_len(bites *regex);

/* Puts the name of group number `group` into `name`, in UTF-8 with no NUL. The code is BITES_DONE, BITES_TOO_SMALL,
 * BITES_NO_NAME or BITES_EMPTY_HANDLE. `size` is the length of the name in bytes. If `len` is less, the code is
 * BITES_TOO_SMALL, so a call with `len` 0 returns the size. Unless the code is BITES_DONE, `name` is unchanged. */
bites_size bites_group_name(bites *regex, size_t group, uint8_t *name, size_t len);

/* Finds the number of the group of this name. If the code is BITES_DONE, `size` is that number. Else the code is BITES_NO_NAME
 * or BITES_EMPTY_HANDLE. */
bites_size bites_group_index(bites *regex, const uint8_t *name, size_t len);

/* Each of the next four calls puts a text into `out`, with no NUL. `size` is the length of the text in bytes. If `room` is less,
 * the code is BITES_TOO_SMALL and `out` is unchanged, so a call with `room` 0 returns the size. These calls allocate, and may
 * return BITES_NO_MEMORY. After any refusal `out` is unchanged. */

/* Writes the pattern in which each character of the text stands for itself. The code is BITES_DONE, or BITES_NOT_UTF8 if the
 * text is not UTF-8. */
bites_size bites_escape(const uint8_t *text, size_t len, uint8_t *out, size_t room);

/* Writes the haystack with its first `limit` matches, or all for 0, replaced by what the template stands for: $name and ${name}
 * stand for the text of the group of that name or number, $$ stands for a $, and all else stands for itself. BITES_MATCH: a
 * match was replaced, and `out` has the text. BITES_NO_MATCH: nothing matches, so the haystack itself is the text. Then `out` is
 * unchanged, and `size` is `len`. The handles are checked as for a search, and with BITES_TEXT the haystack and the template. */
bites_size bites_replace(bites *regex, bites_cache *cache, const uint8_t *haystack, size_t len, size_t limit, const uint8_t *template_text, size_t template_len, uint8_t *out, size_t room);

/* Like bites_replace, but each match is replaced by the text itself. */
bites_size bites_replace_literal(bites *regex, bites_cache *cache, const uint8_t *haystack, size_t len, size_t limit, const uint8_t *text, size_t text_len, uint8_t *out, size_t room);

/* Writes what the template stands for by these groups of the regex in the haystack. Groups from number `count` on do not
 * participate, nor does a span whose offsets are both BITES_NONE. The code is BITES_DONE, BITES_EMPTY_HANDLE, or BITES_BAD_SPAN
 * if any other span does not lie in the haystack. With BITES_TEXT it is BITES_NOT_UTF8, checked before the spans, or
 * BITES_NOT_BORDER if a span begins or ends within a character, checked after them. */
bites_size bites_expand(bites *regex, const uint8_t *haystack, size_t len, const bites_span *groups, size_t count, const uint8_t *template_text, size_t template_len, uint8_t *out, size_t room);

/* Compiles `count` patterns into `out`. They stand one after another in the `len` bytes at `patterns`. Pattern k ends before the
 * offset ends[k]; the next one begins there, and pattern 0 at offset 0. The flags and limits of bites_new are those of each
 * pattern. If the code is BITES_DONE, `size` is `count`. Else `size` is the number of the first pattern that the code is about, or 0 if
 * it is about none, and `out` holds nothing. The code is then the number 1 to 57 of the message that refuses the pattern, BITES_NO_MEMORY, BITES_NOT_UTF8,
 * BITES_BAD_SPAN if ends[k] is below the end before it or above `len`, or BITES_EMPTY_HANDLE if `out` is NULL. The first pattern
 * that is not UTF-8 or has a wrong end is named before any that a message refuses. No tables are made (bites_set_prepare). */
bites_size bites_set_new(const uint8_t *patterns, size_t len, const size_t *ends, size_t count, uint32_t flags, size_t size_limit, uint32_t nest_limit, bites_set *out);

/* Puts a set that shares the programs of `set` into `out`. It has memory of its own for searches. Returns what bites_clone
 * returns. */
uint32_t bites_set_clone(bites_set *set, bites_set *out);

void bites_set_free(bites_set *set);

/* Puts the same set with a table for each pattern into `out`, as bites_prepare_unanchored does for one regex. Its searches look for
 * literals first too. A set of four patterns or more passes over most of those that do not match, by their literals, if the haystack has
 * at most 32 bytes for each pattern and 2,048 in all. The tables of all patterns together take at most `dfa_size_limit` bytes: each
 * pattern's table may take what those of the patterns before it leave. A pattern for which too little is left, or for whose table there
 * is no memory, has none.
 *
 * `out` shares the programs of `set`, and clones of `out` share its tables too. `set` is unchanged. Returns what bites_clone
 * returns. BITES_NO_MEMORY says that there was no memory for the handle or for what its searches need. */
uint32_t bites_set_prepare(bites_set *set, size_t dfa_size_limit, bites_set *out);

/* Puts how large the tables of all patterns are together into `out`, as bites_table_size does: the number of their thread lists,
 * their bytes, and 1 if each pattern has a table that knows all, else 0. All are 0 if no pattern has a table. Returns what
 * bites_table_size returns. */
uint32_t bites_set_table_size(bites_set *set, bites_table *out);

/* Returns the number of patterns as `size`, with the code BITES_DONE, or the code BITES_EMPTY_HANDLE. */
bites_size bites_set_len(bites_set *set);

/* Returns whether any pattern of the set matches at or after `start`. The number is that of a search. */
uint32_t bites_set_is_match_at(bites_set *set, const uint8_t *haystack, size_t len, size_t start);

/* Puts for each pattern of the set one byte into `matched`: 1 if it matches at or after `start`, and 0 if not. The code is
 * BITES_MATCH if any matches and BITES_NO_MATCH if none does; both write all bytes. `size` is the number of patterns. If `room` is
 * less, the code is BITES_TOO_SMALL and nothing is searched. For any other number `matched` is unchanged, and `size` is 0 if the
 * handle or the haystack is refused. Bytes after the last pattern's are unchanged. */
bites_size bites_set_matches_at(bites_set *set, const uint8_t *haystack, size_t len, size_t start, uint8_t *matched, size_t room);

/* Puts the message of the number `code`, 1 to 58, into `text`, with no NUL: as many of its first bytes as fit into `len`.
 * Returns the length of the whole message in bytes, or 0 for any other number. */
size_t bites_error_text(uint32_t code, uint8_t *text, size_t len);

/* Puts what the number `code` says into `text`, with a NUL after it: the message of an error, 1 to 58, or what a call returned,
 * BITES_MATCH to BITES_NOT_BORDER. If `room` is too small, it gets as many of the first bytes as leave a byte for the NUL. With
 * `room` 0 nothing is put. Returns the length of the whole text in bytes, without the NUL, or 0 for any other number. A room of
 * 96 bytes is enough for each text. */
size_t bites_message(uint32_t code, char *text, size_t room);

/* C and C++ call the functions below under the names above. Each refuses a NULL handle, replaces a NULL that has length, room or
 * count 0 by a valid pointer, and then calls the library. In C++ they are the same functions in all files of a program, so that
 * inline functions of several files may call them. */
#ifdef __cplusplus
#define BITES_INLINE inline
#else
#define BITES_INLINE static inline
#endif

BITES_INLINE bites_size bites_only(uint32_t code) {
    bites_size answer = {code, 0};
    return answer;
}

BITES_INLINE const uint8_t *bites_bytes(const uint8_t *text, size_t len) {
    static const uint8_t empty = 0;
    return len ? text : &empty;
}

BITES_INLINE uint8_t *bites_room(uint8_t *out, size_t room) {
    static uint8_t none;
    return room ? out : &none;
}

BITES_INLINE bites_span *bites_spans(bites_span *groups, size_t count) {
    static bites_span none;
    return count ? groups : &none;
}

BITES_INLINE uint32_t bites_checked_new(const uint8_t *pattern, size_t len, uint32_t flags, size_t size_limit, uint32_t nest_limit, bites *out) {
    if (!out) return BITES_EMPTY_HANDLE;
    return bites_new(bites_bytes(pattern, len), len, flags, size_limit, nest_limit, out);
}

BITES_INLINE uint32_t bites_checked_error_at(const uint8_t *pattern, size_t len, uint32_t flags, uint32_t nest_limit, size_t *offset) {
    return bites_error_at(bites_bytes(pattern, len), len, flags, nest_limit, offset);
}

BITES_INLINE uint32_t bites_checked_clone(bites *regex, bites *out) {
    if (!regex || !out) return BITES_EMPTY_HANDLE;
    if (regex == out) return regex->at ? BITES_DONE : BITES_EMPTY_HANDLE;
    return bites_clone(regex, out);
}

BITES_INLINE void bites_checked_free(bites *regex) {
    if (regex) bites_free(regex);
}

/* Puts what a call made of a regex into it, unless the call failed. */
BITES_INLINE uint32_t bites_replaced(bites *regex, bites *made, uint32_t code) {
    if (code != BITES_DONE) return code;
    bites_free(regex);
    *regex = *made;
    return code;
}

BITES_INLINE uint32_t bites_checked_prepare(bites *regex, size_t dfa_size_limit, bites *out) {
    bites made = {0};
    if (!regex || !out) return BITES_EMPTY_HANDLE;
    if (regex != out) return bites_prepare(regex, dfa_size_limit, out);
    return bites_replaced(regex, &made, bites_prepare(regex, dfa_size_limit, &made));
}

BITES_INLINE uint32_t bites_checked_prepare_unanchored(bites *regex, size_t dfa_size_limit, bites *out) {
    bites made = {0};
    if (!regex || !out) return BITES_EMPTY_HANDLE;
    if (regex != out) return bites_prepare_unanchored(regex, dfa_size_limit, out);
    return bites_replaced(regex, &made, bites_prepare_unanchored(regex, dfa_size_limit, &made));
}

BITES_INLINE uint32_t bites_checked_table_size(bites *regex, bites_table *out) {
    if (!regex || !out) return BITES_EMPTY_HANDLE;
    return bites_table_size(regex, out);
}

BITES_INLINE uint32_t bites_checked_cache_new(bites *regex, bites_cache *out) {
    if (!regex || !out) return BITES_EMPTY_HANDLE;
    return bites_cache_new(regex, out);
}

BITES_INLINE void bites_checked_cache_free(bites_cache *cache) {
    if (cache) bites_cache_free(cache);
}

BITES_INLINE uint32_t bites_checked_is_match(bites *regex, bites_cache *cache, const uint8_t *haystack, size_t len) {
    if (!regex || !cache) return BITES_EMPTY_HANDLE;
    return bites_is_match(regex, cache, bites_bytes(haystack, len), len);
}

BITES_INLINE uint32_t bites_checked_is_match_at(bites *regex, bites_cache *cache, const uint8_t *haystack, size_t len, size_t start) {
    if (!regex || !cache) return BITES_EMPTY_HANDLE;
    return bites_is_match_at(regex, cache, bites_bytes(haystack, len), len, start);
}

BITES_INLINE uint32_t bites_checked_shortest_match_at(bites *regex, bites_cache *cache, const uint8_t *haystack, size_t len, size_t start, size_t *end) {
    if (!regex || !cache) return BITES_EMPTY_HANDLE;
    return bites_shortest_match_at(regex, cache, bites_bytes(haystack, len), len, start, end);
}

BITES_INLINE uint32_t bites_checked_find_at(bites *regex, bites_cache *cache, const uint8_t *haystack, size_t len, size_t start, bites_span *out) {
    if (!regex || !cache) return BITES_EMPTY_HANDLE;
    return bites_find_at(regex, cache, bites_bytes(haystack, len), len, start, out);
}

BITES_INLINE uint32_t bites_checked_find_anchored_at(bites *regex, bites_cache *cache, const uint8_t *haystack, size_t len, size_t start, bites_span *out) {
    if (!regex || !cache) return BITES_EMPTY_HANDLE;
    return bites_find_anchored_at(regex, cache, bites_bytes(haystack, len), len, start, out);
}

BITES_INLINE uint32_t bites_checked_is_full_match(bites *regex, bites_cache *cache, const uint8_t *haystack, size_t len) {
    if (!regex || !cache) return BITES_EMPTY_HANDLE;
    return bites_is_full_match(regex, cache, bites_bytes(haystack, len), len);
}

BITES_INLINE uint32_t bites_checked_find_next(bites *regex, bites_cache *cache, const uint8_t *haystack, size_t len, size_t last, bites_span *out) {
    if (!regex || !cache) return BITES_EMPTY_HANDLE;
    return bites_find_next(regex, cache, bites_bytes(haystack, len), len, last, out);
}

BITES_INLINE uint32_t bites_checked_split_next(bites *regex, bites_cache *cache, const uint8_t *haystack, size_t len, size_t *last, bites_span *piece) {
    if (!regex || !cache) return BITES_EMPTY_HANDLE;
    return bites_split_next(regex, cache, bites_bytes(haystack, len), len, last, piece);
}

BITES_INLINE bites_size bites_checked_captures_at(bites *regex, bites_cache *cache, const uint8_t *haystack, size_t len, size_t start, bites_span *groups, size_t count) {
    if (!regex || !cache) return bites_only(BITES_EMPTY_HANDLE);
    return bites_captures_at(regex, cache, bites_bytes(haystack, len), len, start, bites_spans(groups, count), count);
}

BITES_INLINE bites_size bites_checked_captures_anchored_at(bites *regex, bites_cache *cache, const uint8_t *haystack, size_t len, size_t start, bites_span *groups, size_t count) {
    if (!regex || !cache) return bites_only(BITES_EMPTY_HANDLE);
    return bites_captures_anchored_at(regex, cache, bites_bytes(haystack, len), len, start, bites_spans(groups, count), count);
}

BITES_INLINE bites_size bites_checked_captures_next(bites *regex, bites_cache *cache, const uint8_t *haystack, size_t len, size_t last, bites_span *groups, size_t count) {
    if (!regex || !cache) return bites_only(BITES_EMPTY_HANDLE);
    return bites_captures_next(regex, cache, bites_bytes(haystack, len), len, last, bites_spans(groups, count), count);
}

BITES_INLINE size_t bites_checked_captures_len(bites *regex) {
    if (!regex) return 0;
    return bites_captures_len(regex);
}

BITES_INLINE size_t bites_checked_static_captures_len(bites *regex) {
    if (!regex) return 0;
    return bites_static_captures_len(regex);
}

BITES_INLINE bites_size bites_checked_group_name(bites *regex, size_t group, uint8_t *name, size_t len) {
    if (!regex) return bites_only(BITES_EMPTY_HANDLE);
    return bites_group_name(regex, group, bites_room(name, len), len);
}

BITES_INLINE bites_size bites_checked_group_index(bites *regex, const uint8_t *name, size_t len) {
    if (!regex) return bites_only(BITES_EMPTY_HANDLE);
    return bites_group_index(regex, bites_bytes(name, len), len);
}

BITES_INLINE bites_size bites_checked_escape(const uint8_t *text, size_t len, uint8_t *out, size_t room) {
    return bites_escape(bites_bytes(text, len), len, bites_room(out, room), room);
}

BITES_INLINE bites_size bites_checked_replace(bites *regex, bites_cache *cache, const uint8_t *haystack, size_t len, size_t limit, const uint8_t *template_text, size_t template_len, uint8_t *out, size_t room) {
    if (!regex || !cache) return bites_only(BITES_EMPTY_HANDLE);
    return bites_replace(regex, cache, bites_bytes(haystack, len), len, limit, bites_bytes(template_text, template_len), template_len, bites_room(out, room), room);
}

BITES_INLINE bites_size bites_checked_replace_literal(bites *regex, bites_cache *cache, const uint8_t *haystack, size_t len, size_t limit, const uint8_t *text, size_t text_len, uint8_t *out, size_t room) {
    if (!regex || !cache) return bites_only(BITES_EMPTY_HANDLE);
    return bites_replace_literal(regex, cache, bites_bytes(haystack, len), len, limit, bites_bytes(text, text_len), text_len, bites_room(out, room), room);
}

BITES_INLINE bites_size bites_checked_expand(bites *regex, const uint8_t *haystack, size_t len, const bites_span *groups, size_t count, const uint8_t *template_text, size_t template_len, uint8_t *out, size_t room) {
    if (!regex) return bites_only(BITES_EMPTY_HANDLE);
    return bites_expand(regex, bites_bytes(haystack, len), len, count ? groups : bites_spans(NULL, 0), count, bites_bytes(template_text, template_len), template_len, bites_room(out, room), room);
}

BITES_INLINE const size_t *bites_ends(const size_t *ends, size_t count) {
    static const size_t none = 0;
    return count ? ends : &none;
}

BITES_INLINE bites_size bites_checked_set_new(const uint8_t *patterns, size_t len, const size_t *ends, size_t count, uint32_t flags, size_t size_limit, uint32_t nest_limit, bites_set *out) {
    if (!out) return bites_only(BITES_EMPTY_HANDLE);
    return bites_set_new(bites_bytes(patterns, len), len, bites_ends(ends, count), count, flags, size_limit, nest_limit, out);
}

BITES_INLINE uint32_t bites_checked_set_clone(bites_set *set, bites_set *out) {
    if (!set || !out) return BITES_EMPTY_HANDLE;
    if (set == out) return set->at ? BITES_DONE : BITES_EMPTY_HANDLE;
    return bites_set_clone(set, out);
}

BITES_INLINE void bites_checked_set_free(bites_set *set) {
    if (set) bites_set_free(set);
}

BITES_INLINE uint32_t bites_checked_set_prepare(bites_set *set, size_t dfa_size_limit, bites_set *out) {
    bites_set made = {0};
    uint32_t code;
    if (!set || !out) return BITES_EMPTY_HANDLE;
    if (set != out) return bites_set_prepare(set, dfa_size_limit, out);
    code = bites_set_prepare(set, dfa_size_limit, &made);
    if (code != BITES_DONE) return code;
    bites_set_free(set);
    *set = made;
    return code;
}

BITES_INLINE uint32_t bites_checked_set_table_size(bites_set *set, bites_table *out) {
    if (!set || !out) return BITES_EMPTY_HANDLE;
    return bites_set_table_size(set, out);
}

BITES_INLINE bites_size bites_checked_set_len(bites_set *set) {
    if (!set) return bites_only(BITES_EMPTY_HANDLE);
    return bites_set_len(set);
}

BITES_INLINE uint32_t bites_checked_set_is_match_at(bites_set *set, const uint8_t *haystack, size_t len, size_t start) {
    if (!set) return BITES_EMPTY_HANDLE;
    return bites_set_is_match_at(set, bites_bytes(haystack, len), len, start);
}

BITES_INLINE bites_size bites_checked_set_matches_at(bites_set *set, const uint8_t *haystack, size_t len, size_t start, uint8_t *matched, size_t room) {
    if (!set) return bites_only(BITES_EMPTY_HANDLE);
    return bites_set_matches_at(set, bites_bytes(haystack, len), len, start, bites_room(matched, room), room);
}

BITES_INLINE size_t bites_checked_error_text(uint32_t code, uint8_t *text, size_t len) {
    return bites_error_text(code, bites_room(text, len), len);
}

BITES_INLINE size_t bites_checked_message(uint32_t code, char *text, size_t room) {
    static char none;
    return bites_message(code, room ? text : &none, room);
}

/* Compiles a pattern that ends with a NUL into `out`, with no flags and the default limits. Returns what bites_new returns. */
BITES_INLINE uint32_t bites_compile(const char *pattern, bites *out) {
    return bites_checked_new((const uint8_t *)pattern, strlen(pattern), 0, BITES_SIZE_LIMIT, BITES_NEST_LIMIT, out);
}

#undef BITES_INLINE

#ifdef __cplusplus
}
#endif

#define bites_new bites_checked_new
#define bites_error_at bites_checked_error_at
#define bites_clone bites_checked_clone
#define bites_free bites_checked_free
#define bites_prepare bites_checked_prepare
#define bites_prepare_unanchored bites_checked_prepare_unanchored
#define bites_table_size bites_checked_table_size
#define bites_cache_new bites_checked_cache_new
#define bites_cache_free bites_checked_cache_free
#define bites_is_match bites_checked_is_match
#define bites_is_match_at bites_checked_is_match_at
#define bites_shortest_match_at bites_checked_shortest_match_at
#define bites_find_at bites_checked_find_at
#define bites_find_anchored_at bites_checked_find_anchored_at
#define bites_is_full_match bites_checked_is_full_match
#define bites_find_next bites_checked_find_next
#define bites_split_next bites_checked_split_next
#define bites_captures_at bites_checked_captures_at
#define bites_captures_anchored_at bites_checked_captures_anchored_at
#define bites_captures_next bites_checked_captures_next
#define bites_captures_len bites_checked_captures_len
#define bites_static_captures_len bites_checked_static_captures_len
#define bites_group_name bites_checked_group_name
#define bites_group_index bites_checked_group_index
#define bites_escape bites_checked_escape
#define bites_replace bites_checked_replace
#define bites_replace_literal bites_checked_replace_literal
#define bites_expand bites_checked_expand
#define bites_set_new bites_checked_set_new
#define bites_set_clone bites_checked_set_clone
#define bites_set_free bites_checked_set_free
#define bites_set_prepare bites_checked_set_prepare
#define bites_set_table_size bites_checked_set_table_size
#define bites_set_len bites_checked_set_len
#define bites_set_is_match_at bites_checked_set_is_match_at
#define bites_set_matches_at bites_checked_set_matches_at
#define bites_error_text bites_checked_error_text
#define bites_message bites_checked_message
#endif
