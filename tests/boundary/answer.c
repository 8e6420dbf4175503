#include <stdio.h>
#include <string.h>
#include "answer.h"
#include "fault.h"

enum { LENGTH = 2, MOST_BYTES = 65535, LONGEST_LINE = 64 };

static uint8_t answer[LENGTH + MOST_BYTES];
static size_t put;

void put_bytes(const uint8_t *bytes, size_t size) {
    if (size > MOST_BYTES - put) unreadable("the answer is longer than its length can say");
    memcpy(answer + LENGTH + put, bytes, size);
    put += size;
}

void put_number(uint64_t number, size_t size) {
    uint8_t bytes[8];
    for (size_t i = 0; i < size; i++, number /= 256) bytes[i] = (uint8_t)(number % 256);
    if (size < sizeof bytes && number != 0) broken("the answer", "a number is too great for its field");
    put_bytes(bytes, size);
}

void put_verdict(uint32_t number, size_t place) {
    put_number(number, 1);
    put_number(place, 4);
}

void put_refusal_line(uint32_t number, size_t place) {
    char line[LONGEST_LINE];
    int size = snprintf(line, sizeof line, "refused %u at %zu\n", number, place);
    put_bytes((const uint8_t *)line, (size_t)size);
}

void send_answer(void) {
    answer[0] = (uint8_t)(put % 256);
    answer[1] = (uint8_t)(put / 256);
    if (fwrite(answer, 1, LENGTH + put, stdout) < LENGTH + put) unreadable("the answer cannot be written");
    put = 0;
}
