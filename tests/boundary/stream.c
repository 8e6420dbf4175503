#include <stdio.h>
#include "fault.h"
#include "stream.h"

enum { MOST_BYTES = 65535 };

static uint8_t call[MOST_BYTES];
static size_t length, taken, calls;

int next_call(void) {
    uint8_t front[2];
    calls += 1;
    size_t got = fread(front, 1, 2, stdin);
    if (got == 0) return 0;
    if (got < 2) unreadable("the stream ends inside a length");
    length = (size_t)front[0] + 256 * (size_t)front[1];
    taken = 0;
    if (fread(call, 1, length, stdin) < length) unreadable("the stream ends inside a call");
    return 1;
}

size_t call_index(void) { return calls - 1; }

uint64_t take_number(size_t size) {
    const uint8_t *bytes = take_bytes(size);
    uint64_t number = 0;
    for (size_t i = size; i > 0; i--) number = 256 * number + bytes[i - 1];
    return number;
}

const uint8_t *take_bytes(size_t size) {
    if (size > bytes_left()) unreadable("the call ends before a field that is due");
    taken += size;
    return call + taken - size;
}

size_t bytes_left(void) { return length - taken; }
