/* Writes each line of standard input with its matches replaced: example_sed [-g] PATTERN TEMPLATE. Without -g the first match
 * of a line is replaced. In the template $1 and $name stand for groups. */
#define _POSIX_C_SOURCE 200809L
#include "bites.h"
#include <stdio.h>
#include <stdlib.h>
#include <string.h>

static int refused(uint32_t code) {
    char text[96];
    bites_message(code, text, sizeof text);
    fprintf(stderr, "example_sed: %s\n", text);
    return 2;
}

/* Room for one replaced line, which grows as needed. */
struct room {
    uint8_t *at;
    size_t size;
};

/* Puts the line with its matches replaced into the room. For BITES_NO_MATCH the line itself is the result. */
static bites_size replace(bites *regex, bites_cache *cache, const char *line, size_t len, size_t limit, const char *by, struct room *room) {
    for (;;) {
        bites_size replaced = bites_replace(regex, cache, (const uint8_t *)line, len, limit, (const uint8_t *)by, strlen(by), room->at, room->size);
        if (replaced.code != BITES_TOO_SMALL)
            return replaced;
        uint8_t *larger = realloc(room->at, replaced.size);
        if (!larger)
            return (bites_size){BITES_NO_MEMORY, 0};
        *room = (struct room){larger, replaced.size};
    }
}

static uint32_t edit(bites *regex, bites_cache *cache, size_t limit, const char *by, struct room *room) {
    char *line = NULL;
    size_t size = 0;
    ssize_t read;
    uint32_t code = BITES_DONE;
    while (code == BITES_DONE && (read = getline(&line, &size, stdin)) > 0) {
        size_t len = (size_t)read - (line[read - 1] == '\n');
        bites_size replaced = replace(regex, cache, line, len, limit, by, room);
        if (replaced.code == BITES_MATCH)
            fwrite(room->at, 1, replaced.size, stdout);
        else if (replaced.code == BITES_NO_MATCH)
            fwrite(line, 1, len, stdout);
        else
            code = replaced.code;
        if (code == BITES_DONE && len < (size_t)read)
            putchar('\n');
    }
    free(line);
    return code;
}

int main(int argc, char **argv) {
    int all = argc > 1 && strcmp(argv[1], "-g") == 0;
    if (argc - all != 3) {
        fputs("usage: example_sed [-g] PATTERN TEMPLATE\n", stderr);
        return 2;
    }
    const char *pattern = argv[argc - 2];
    bites regex = {0};
    bites_cache cache = {0};
    struct room room = {NULL, 0};
    uint32_t code = bites_new((const uint8_t *)pattern, strlen(pattern), 0, BITES_SIZE_LIMIT, BITES_NEST_LIMIT, &regex);
    if (code == BITES_DONE)
        code = bites_cache_new(&regex, &cache);
    if (code == BITES_DONE)
        code = edit(&regex, &cache, all ? 0 : 1, argv[argc - 1], &room);
    free(room.at);
    bites_cache_free(&cache);
    bites_free(&regex);
    return code == BITES_DONE ? 0 : refused(code);
}
