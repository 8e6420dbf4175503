#include <stdlib.h>
#include <string.h>
#include "fault.h"
#include "lend.h"

/* More than the longest text of a table, so that a whole answer in a buffer that is too short ends among the sentinels. With an EDGE of 0
   a block is just what is lent: tests/memcheck then sees every access outside it. */
#ifndef EDGE
#define EDGE 2048
#endif

enum { MOST_LOANS = 3 };

static const size_t edge = EDGE;

struct loan { const char *name; const void *original; uint8_t *block; size_t size; };

static struct loan loans[MOST_LOANS];
static size_t lent;

/* Neighbours differ, so that a run of one value does not pass for sentinels. */
static uint8_t sentinel(size_t i) { return (uint8_t)(53 + 37 * i); }

static uint8_t *lend(const char *name, const void *original, size_t size) {
    uint8_t *block = malloc(edge + size + edge);
    if (block == NULL || lent == MOST_LOANS) unreadable("there is no room for a loan");
    for (size_t i = 0; i < edge; i++) block[i] = block[edge + size + i] = sentinel(i);
    loans[lent++] = (struct loan){name, original, block, size};
    return block + edge;
}

const void *lend_to_read(const char *name, const void *original, size_t size) {
    return memcpy(lend(name, original, size), original, size);
}

void *lend_to_write(const char *name, size_t size, uint8_t value) {
    return memset(lend(name, NULL, size), value, size);
}

static void settle(const struct loan *loan) {
    const uint8_t *block = loan->block, *behind = block + edge + loan->size;
    for (size_t i = 0; i < edge; i++) {
        if (block[i] != sentinel(i)) broken(loan->name, "a byte before the lent buffer has changed");
        if (behind[i] != sentinel(i)) broken(loan->name, "a byte behind the lent buffer has changed");
    }
    if (loan->original != NULL && memcmp(block + edge, loan->original, loan->size) != 0)
        broken(loan->name, "what was lent to be read has changed");
}

void settle_loans(void) {
    while (lent > 0) {
        lent -= 1;
        settle(&loans[lent]);
        free(loans[lent].block);
    }
}
