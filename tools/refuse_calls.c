/*
 * For LD_PRELOAD: refuses the call whose number a variable gives, and writes a byte to file 9 when it does. REFUSE counts
 * requests for memory, REFUSE_READ reads from standard input, and REFUSE_WRITE writes to standard output. With REFUSE_REST the
 * requests for memory after the refused one are refused too. With REFUSE=0 none is refused, and their number is written to file 9
 * at the end.
 */
#include <errno.h>
#include <stdbool.h>
#include <stddef.h>
#include <stdio.h>
#include <stdlib.h>
#include <string.h>
#include <sys/syscall.h>
#include <unistd.h>

/* The allocator of the C library under its other names. */
void *__libc_malloc(size_t size);
void *__libc_realloc(void *block, size_t size);

static bool is_refused(const char *variable, unsigned long *calls) {
    const char *number = getenv(variable);
    return number != NULL && ++*calls == strtoul(number, NULL, 10) && syscall(SYS_write, 9, "x", 1) == 1;
}

static unsigned long requests;

static bool is_request_refused(void) {
    static bool was_refused;
    if (was_refused && getenv("REFUSE_REST") != NULL) return true;
    bool refused = is_refused("REFUSE", &requests);
    was_refused = was_refused || refused;
    return refused;
}

__attribute__((destructor)) static void tell_requests(void) {
    const char *number = getenv("REFUSE");
    char text[32];
    if (number == NULL || strcmp(number, "0") != 0) return;
    snprintf(text, sizeof text, "%lu\n", requests);
    syscall(SYS_write, 9, text, strlen(text));
}

void *malloc(size_t size) { return is_request_refused() ? NULL : __libc_malloc(size); }

void *realloc(void *block, size_t size) { return is_request_refused() ? NULL : __libc_realloc(block, size); }

ssize_t read(int file, void *bytes, size_t len) {
    static unsigned long reads;
    if (file == 0 && is_refused("REFUSE_READ", &reads)) {
        errno = EIO;
        return -1;
    }
    return syscall(SYS_read, file, bytes, len);
}

ssize_t write(int file, const void *bytes, size_t len) {
    static unsigned long writes;
    if (file == 1 && is_refused("REFUSE_WRITE", &writes)) {
        errno = EIO;
        return -1;
    }
    return syscall(SYS_write, file, bytes, len);
}
