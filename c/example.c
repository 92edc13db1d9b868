/* Writes the lines of standard input that the pattern matches: example PATTERN */
#define _POSIX_C_SOURCE 200809L
#include "bites.h"
#include <stdio.h>
#include <stdlib.h>

static int refused(uint32_t code) {
    char text[96];
    bites_message(code, text, sizeof text);
    fprintf(stderr, "example: %s\n", text);
    return 2;
}

int main(int argc, char **argv) {
    if (argc != 2) {
        fputs("usage: example PATTERN\n", stderr);
        return 2;
    }
    bites regex = {0};
    bites_cache cache = {0};
    uint32_t code = bites_compile(argv[1], &regex);
    if (code == BITES_DONE)
        code = bites_cache_new(&regex, &cache);
    if (code != BITES_DONE)
        return refused(code);
    int status = 1;
    char *line = NULL;
    size_t room = 0;
    for (ssize_t read; (read = getline(&line, &room, stdin)) > 0;) {
        size_t len = (size_t)read - (line[read - 1] == '\n');
        if (bites_is_match(&regex, &cache, (const uint8_t *)line, len) == BITES_MATCH) {
            fwrite(line, 1, len, stdout);
            putchar('\n');
            status = 0;
        }
    }
    if (ferror(stdin)) {
        fputs("example: cannot read standard input\n", stderr);
        status = 2;
    }
    free(line);
    bites_cache_free(&cache);
    bites_free(&regex);
    return status;
}
