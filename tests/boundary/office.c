/* The office's calls: kinds 11 and 12. */
#include "answer.h"
#include "eelbasket.h"
#include "kinds.h"
#include "lend.h"
#include "stream.h"
#include "tasks.h"

static void put_counted(struct eelbasket_counted told) {
    put_verdict(told.number, told.place);
    put_number(told.count, 2);
}

void answer_import(void) {
    size_t rows_len = (size_t)take_number(1);
    size_t text_len = bytes_left();
    const uint8_t *text = lend_to_read("the text", take_bytes(text_len), text_len);
    struct eelbasket_task *rows = lend_to_write("the rows", rows_len * sizeof *rows, NUMBER_BEFORE);
    put_counted(eelbasket_import(text, text_len, rows, rows_len));
    put_tasks(rows, rows_len);
}

void answer_export(void) {
    size_t tasks = (size_t)take_number(2);
    size_t size = (size_t)take_number(2);
    const struct eelbasket_task *rows = lend_tasks(tasks);
    uint8_t *out = lend_to_write("the text", size, BYTE_BEFORE);
    put_counted(eelbasket_export(rows, tasks, out, size));
    put_bytes(out, size);
}
