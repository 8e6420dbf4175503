#include "answer.h"
#include "lend.h"
#include "stream.h"
#include "tasks.h"

struct settings take_settings(void) {
    struct settings settings;
    settings.station.policy = (uint16_t)take_number(2);
    take_number(1);
    settings.station.m = (uint16_t)take_number(2);
    settings.count = (size_t)take_number(2);
    settings.station.w = (uint16_t)take_number(2);
    settings.station.q = (uint16_t)take_number(2);
    settings.station.edition = (uint16_t)take_number(2);
    return settings;
}

size_t present(size_t count) { return count < EELBASKET_MOST_TASKS ? count : EELBASKET_MOST_TASKS; }

void take_tasks(struct eelbasket_task *rows, size_t count) {
    for (size_t i = 0; i < present(count); i++) {
        rows[i].c = (uint32_t)take_number(4);
        rows[i].tmin = (uint32_t)take_number(4);
        rows[i].tmax = (uint32_t)take_number(4);
        rows[i].e = (uint32_t)take_number(4);
    }
}

const struct eelbasket_task *lend_tasks(size_t count) {
    static struct eelbasket_task rows[MOST_ROWS]; /* past the first 32 these stay zeros */
    take_tasks(rows, count);
    return lend_to_read("the rows", rows, count * sizeof *rows);
}

void put_tasks(const struct eelbasket_task *rows, size_t count) {
    for (size_t i = 0; i < count; i++) {
        put_number(rows[i].c, 4);
        put_number(rows[i].tmin, 4);
        put_number(rows[i].tmax, 4);
        put_number(rows[i].e, 4);
    }
}
