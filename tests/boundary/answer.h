/* The answer to the call at hand, as tests/second/README.md lays it out: it is put together and then sent to standard output. */
#ifndef ANSWER_H
#define ANSWER_H
#include <stddef.h>
#include <stdint.h>

/* A number in that many bytes, lowest first. One that needs more is no answer: the library would have told something else. */
void put_number(uint64_t number, size_t size);

void put_bytes(const uint8_t *bytes, size_t size);

/* A refusal's number and place, or 0 and 0. */
void put_verdict(uint32_t number, size_t place);

/* The line with which a program tells a refusal. */
void put_refusal_line(uint32_t number, size_t place);

/* Sends what was put, after its length in 2 bytes. */
void send_answer(void);

#endif
