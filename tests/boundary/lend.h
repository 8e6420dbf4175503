/* Buffers lent to the library for one call: each is a block of its own, with sentinels before and behind it. */
#ifndef LEND_H
#define LEND_H
#include <stddef.h>
#include <stdint.h>

/* Lends a copy of what may only be read. The original must stay as it is until the loans are settled: they are compared. */
const void *lend_to_read(const char *name, const void *original, size_t size);

/* Lends bytes that all hold the same value. */
void *lend_to_write(const char *name, size_t size, uint8_t value);

/* Ends all loans, and stops the program where a sentinel or what may only be read has changed. */
void settle_loans(void);

#endif
