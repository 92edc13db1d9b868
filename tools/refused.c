/*
 * Refuses each request for memory of the program bites_rows in turn, for each row of a table by itself: the first, the second and
 * each further one, until a run has none refused. Then it does all of that again with the requests after the refused one refused
 * too. A run must write the row with its answer, or write nothing and report that it is out of memory. The last run must write
 * the row.
 *
 * refused PROGRAM SHIM TABLE: SHIM is refuse_calls.c as a shared library. The answers of the rows were worked out by hand.
 */
#include <errno.h>
#include <fcntl.h>
#include <stdbool.h>
#include <stdio.h>
#include <stdlib.h>
#include <string.h>
#include <sys/wait.h>
#include <unistd.h>

enum { ROOM = 1 << 16 };

/* The files of a run, which it reads and writes from their starts. */
struct files {
    FILE *input, *output, *errors, *refused;
};

static const char *program, *shim;

static FILE *file(void) {
    FILE *made = tmpfile();
    if (made == NULL) exit(2);
    return made;
}

/* Empties the file, and goes to its start. */
static void clear(FILE *file) {
    if (ftruncate(fileno(file), 0) != 0 || lseek(fileno(file), 0, SEEK_SET) != 0) exit(2);
}

/* Returns the contents of the file as a text. */
static const char *contents(FILE *file, char *room) {
    ssize_t len = pread(fileno(file), room, ROOM - 1, 0);
    if (len < 0) exit(2);
    room[len] = '\0';
    return room;
}

/* Turns the process of a run into the program, with the request of this number refused. */
static _Noreturn void become(const struct files *files, size_t number, bool rest) {
    char text[32];
    snprintf(text, sizeof text, "%zu", number);
    if (dup2(fileno(files->input), 0) < 0 || dup2(fileno(files->output), 1) < 0 || dup2(fileno(files->errors), 2) < 0 ||
        dup2(fileno(files->refused), 9) < 0 || setenv("LD_PRELOAD", shim, 1) != 0 || setenv("REFUSE", text, 1) != 0 ||
        (rest && setenv("REFUSE_REST", "1", 1) != 0))
        _exit(2);
    execl(program, program, (char *)NULL);
    _exit(2);
}

/* Runs the program on the row. Returns its status, or -1 if a signal ended it. */
static int run(const struct files *files, size_t number, bool rest) {
    if (lseek(fileno(files->input), 0, SEEK_SET) != 0) exit(2);
    clear(files->output);
    clear(files->errors);
    clear(files->refused);
    pid_t process = fork();
    int status;
    if (process < 0) exit(2);
    if (process == 0) become(files, number, rest);
    while (waitpid(process, &status, 0) < 0)
        if (errno != EINTR) exit(2);
    return WIFEXITED(status) ? WEXITSTATUS(status) : -1;
}

/* Refuses each request in turn. Returns whether all runs are right. `count` is how many of them were out of memory. */
static bool refuse_each(const struct files *files, const char *row, bool rest, size_t *count) {
    static char output[ROOM], errors[ROOM], refused[ROOM];
    for (size_t number = 1;; number++) {
        int status = run(files, number, rest);
        const char *wrote = contents(files->output, output), *told = contents(files->errors, errors);
        bool is_refused = contents(files->refused, refused)[0] != '\0';
        bool is_answered = status == 0 && strcmp(wrote, row) == 0 && told[0] == '\0';
        bool is_out = status == 1 && wrote[0] == '\0' && strstr(told, "OutOfMemory") != NULL;
        if (!is_answered && !(is_refused && is_out)) {
            printf("request %zu refused%s: status %d: %s%s", number, rest ? " and all after it" : "", status, wrote, told);
            return false;
        }
        if (!is_refused) return true;
        *count += is_out;
    }
}

/* Refuses each request of a row, in both ways. */
static bool try_row(const char *row) {
    struct files files = {file(), file(), file(), file()};
    size_t count = 0, counts = 0;
    fputs(row, files.input);
    if (fflush(files.input) != 0) exit(2);
    bool is_right = refuse_each(&files, row, false, &count) && refuse_each(&files, row, true, &counts) && count > 0 && counts > 0;
    printf("%4zu refused in turn  %s  %s", count, is_right ? "ok" : "FAILED", row);
    fclose(files.input);
    fclose(files.output);
    fclose(files.errors);
    fclose(files.refused);
    return is_right;
}

int main(int count, char **words) {
    size_t passed = 0, failed = 0;
    char row[ROOM];
    FILE *table = count == 4 ? fopen(words[3], "r") : NULL;
    if (table == NULL) {
        fputs("usage: refused PROGRAM SHIM TABLE\n", stderr);
        return 2;
    }
    program = words[1];
    shim = words[2];
    while (fgets(row, sizeof row, table) != NULL) {
        if (row[0] == '#' || row[0] == '\n') continue;
        try_row(row) ? passed++ : failed++;
        fflush(stdout);
    }
    printf("%zu passed, %zu failed\n", passed, failed);
    return failed != 0;
}
