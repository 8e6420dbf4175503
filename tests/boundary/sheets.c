/* The calls on sheets: kinds 4 to 7 and 9. */
#include "answer.h"
#include "eelbasket.h"
#include "fault.h"
#include "kinds.h"
#include "lend.h"
#include "stream.h"
#include "tasks.h"

/* A lent sheet. */
struct sheet { const uint8_t *bytes; size_t size; };

static struct sheet lend_sheet(const char *name, size_t size) {
    return (struct sheet){lend_to_read(name, take_bytes(size), size), size};
}

void answer_read(void) {
    struct sheet lent = lend_sheet("the sheet", bytes_left());
    struct eelbasket_reading told = eelbasket_read(lent.bytes, lent.size);
    const struct eelbasket_sheet *sheet = &told.sheet;
    put_verdict(told.number, told.place);
    put_number(sheet->station.policy, 2);
    put_number(sheet->station.m, 2);
    put_number(sheet->settings_count, 2);
    put_number(sheet->station.w, 2);
    put_number(sheet->station.q, 2);
    put_number(sheet->station.edition, 2);
    put_number(sheet->table.n, 2);
    put_number(sheet->results.n, 2);
    put_tasks(sheet->table.rows, EELBASKET_MOST_TASKS);
    for (size_t i = 0; i < EELBASKET_MOST_TASKS; i++) {
        put_number(sheet->results.rows[i].period, 4);
        put_number(sheet->results.rows[i].processor, 2);
    }
}

static void take_results(struct eelbasket_results *results) {
    for (size_t i = 0; i < present(results->n); i++) {
        results->rows[i].period = (uint32_t)take_number(4);
        results->rows[i].processor = (uint16_t)take_number(2);
    }
}

void answer_write(void) {
    struct eelbasket_sheet sheet = {0};
    struct settings settings = take_settings();
    sheet.station = settings.station;
    sheet.settings_count = settings.count;
    sheet.table.n = (size_t)take_number(2);
    sheet.results.n = (size_t)take_number(2);
    size_t size = (size_t)take_number(2);
    take_tasks(sheet.table.rows, sheet.table.n);
    take_results(&sheet.results);
    uint8_t *out = lend_to_write("the buffer", size, BYTE_BEFORE);
    struct eelbasket_counted told = eelbasket_write(sheet, out, size);
    put_verdict(told.number, told.place);
    put_number(told.count, 2);
    put_bytes(out, size);
}

void answer_change_over(void) {
    size_t standing_len = (size_t)take_number(2);
    struct sheet standing = lend_sheet("the standing sheet", standing_len);
    struct sheet proposed = lend_sheet("the proposed sheet", bytes_left());
    struct eelbasket_part part = eelbasket_change_over(standing.bytes, standing.size, proposed.bytes, proposed.size);
    if (part.which > 1) broken("the change-over", "its part is of neither sheet");
    struct sheet of = part.which == 0 ? standing : proposed;
    if (part.place > of.size || part.size > of.size - part.place) broken("the change-over", "its part does not lie in the sheet");
    put_number(part.which, 1);
    put_number(part.place, 2);
    put_number(part.size, 2);
    put_bytes(of.bytes + part.place, part.size);
}

/* The stream has nothing of the output past the filled sheet, and of a refused call's nothing at all. */
static void expect_untouched(const uint8_t *bytes, size_t size) {
    for (size_t i = 0; i < size; i++)
        if (bytes[i] != BYTE_BEFORE) broken("the filled sheet", "a byte past it has changed");
}

void answer_fill(void) {
    struct sheet lent = lend_sheet("the sheet", bytes_left());
    uint8_t *out = lend_to_write("the filled sheet", EELBASKET_LONGEST_SHEET, BYTE_BEFORE);
    struct eelbasket_counted told = eelbasket_fill(lent.bytes, lent.size, out);
    if (told.count > EELBASKET_LONGEST_SHEET) broken("the filled sheet", "it is longer than its buffer");
    if (told.number != 0 && told.count != 0) broken("the filled sheet", "a refusal has a length");
    if (told.number == 0 && told.place != 0) broken("the filled sheet", "an acceptance has a place");
    expect_untouched(out + told.count, EELBASKET_LONGEST_SHEET - told.count);
    if (told.number == 0) put_bytes(out, told.count);
    else put_refusal_line(told.number, told.place);
}

void answer_check(void) {
    static const uint8_t accepted[] = {'a', 'c', 'c', 'e', 'p', 't', 'e', 'd', '\n'};
    struct sheet lent = lend_sheet("the sheet", bytes_left());
    struct eelbasket_verdict told = eelbasket_check(lent.bytes, lent.size);
    put_verdict(told.number, told.place);
    if (told.number == 0) put_bytes(accepted, sizeof accepted);
    else put_refusal_line(told.number, told.place);
}
