/* An allocator for programs that are linked with one of the archives of this repository, instead of the C library's. It refuses
 * the request for memory that `refuse_at` names, counts the blocks that are not freed, and notes a block that is freed twice. */
#ifndef REFUSING_H
#define REFUSING_H
#include <stdbool.h>
#include <stddef.h>
#include <stdio.h>
#include <stdlib.h>
#include <string.h>

struct tried {
    bool ok;
    void *block;
};

struct head {
    size_t size;
    size_t mark;
};

enum { LIVE = 0x11f3, FREED = 0xdead };

static size_t requests;  /* since it was set to 0 */
static size_t refuse_at; /* the number of the request that is refused; 0 for none */
static bool refuse_rest; /* whether those after it are refused too */
static size_t refusals;  /* since it was set to 0 */
static long blocks;      /* taken and not freed */
static bool misused;     /* whether a block was freed that is not live */

static bool is_refused(void) {
    requests++;
    bool refused = refuse_at != 0 && (requests == refuse_at || (refuse_rest && requests > refuse_at));
    refusals += refused;
    return refused;
}

/* Returns a new block, whose bytes are not zero. */
static void *take(size_t size) {
    struct head *head = malloc(sizeof *head + size);
    if (head == NULL) {
        fputs("the driver itself has no memory\n", stderr);
        exit(2);
    }
    *head = (struct head){size, LIVE};
    memset(head + 1, 0xa5, size);
    blocks++;
    return head + 1;
}

static void give_back(void *block) {
    struct head *head = (struct head *)block - 1;
    if (head->mark != LIVE) {
        misused = true;
        return;
    }
    memset(block, 0x5a, head->size);
    head->mark = FREED;
    blocks--;
    free(head);
}

struct tried rattle_alloc(size_t size, size_t align) {
    (void)align;
    if (is_refused()) return (struct tried){false, NULL};
    return (struct tried){true, take(size)};
}

/* Moves the block even if it shrinks. */
struct tried rattle_realloc(void *block, size_t old_size, size_t size, size_t align) {
    (void)old_size;
    (void)align;
    if (is_refused()) return (struct tried){false, block};
    size_t old = ((struct head *)block - 1)->size;
    void *moved = take(size);
    memcpy(moved, block, old < size ? old : size);
    give_back(block);
    return (struct tried){true, moved};
}

void rattle_dealloc(void *block) { give_back(block); }
#endif
