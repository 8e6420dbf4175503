/* The stream of calls on standard input, as tests/second/README.md lays it out: each call stands after its length in 2 bytes. */
#ifndef STREAM_H
#define STREAM_H
#include <stddef.h>
#include <stdint.h>

/* Reads the next call; 0 at the end of the stream. */
int next_call(void);

/* The index of the call at hand, from 0. */
size_t call_index(void);

/* A number of that many bytes, lowest first, from the call at hand. */
uint64_t take_number(size_t size);

/* The next bytes of the call at hand; they stay until the next call. */
const uint8_t *take_bytes(size_t size);

/* How many bytes of the call at hand are not taken yet. */
size_t bytes_left(void);

#endif
