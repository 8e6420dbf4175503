/* The calls on tables: kinds 1 to 3, 8, 13 and 15; and on one record: 16 and 17. */
#include "answer.h"
#include "eelbasket.h"
#include "fault.h"
#include "kinds.h"
#include "lend.h"
#include "stream.h"
#include "tasks.h"

enum { MOST_PROPOSED = 255 };

typedef struct eelbasket_told finder(const struct eelbasket_task *, size_t, struct eelbasket_station, uint32_t *, size_t, uint16_t *,
                                     size_t);

/* The two outputs of a finder. */
struct outputs { uint32_t *periods; uint16_t *processors; size_t periods_len, processors_len; };

static struct outputs lend_outputs(void) {
    struct outputs lent;
    lent.periods_len = (size_t)take_number(1);
    lent.processors_len = (size_t)take_number(1);
    lent.periods = lend_to_write("the periods", lent.periods_len * sizeof *lent.periods, NUMBER_BEFORE);
    lent.processors = lend_to_write("the processors", lent.processors_len * sizeof *lent.processors, SHORT_BEFORE);
    return lent;
}

static void put_outputs(const struct outputs *lent) {
    for (size_t i = 0; i < lent->periods_len; i++) put_number(lent->periods[i], 4);
    for (size_t i = 0; i < lent->processors_len; i++) put_number(lent->processors[i], 2);
}

static void put_step(struct eelbasket_told told) {
    put_verdict(told.number, told.place);
    put_number(told.step, 4);
}

/* The stream has no looks of a finder that makes none. */
static void expect_no_looks(struct eelbasket_told told) {
    if (told.looks != 0) broken("a finder that makes no looks", "it tells of some");
}

static struct eelbasket_told ask(finder *find, struct outputs *lent) {
    struct eelbasket_station station = take_settings().station;
    size_t tasks = (size_t)take_number(2);
    *lent = lend_outputs();
    const struct eelbasket_task *rows = lend_tasks(tasks);
    return find(rows, tasks, station, lent->periods, lent->periods_len, lent->processors, lent->processors_len);
}

void answer_plain(void) {
    struct outputs lent;
    struct eelbasket_told told = ask(eelbasket_plain, &lent);
    expect_no_looks(told);
    put_step(told);
    put_outputs(&lent);
}

void answer_quick(void) {
    struct outputs lent;
    struct eelbasket_told told = ask(eelbasket_quick, &lent);
    put_step(told);
    put_number(told.looks, 2);
    put_outputs(&lent);
}

void answer_margin(void) {
    struct eelbasket_station station = take_settings().station;
    size_t tasks = (size_t)take_number(2);
    uint32_t step = (uint32_t)take_number(4);
    struct eelbasket_told_margin told = eelbasket_margin(lend_tasks(tasks), tasks, station, step);
    put_verdict(told.number, told.place);
    put_number((uint64_t)told.margin, 8);
}

void answer_relief(void) {
    struct eelbasket_station station = take_settings().station;
    size_t tasks = (size_t)take_number(2);
    size_t without_len = (size_t)take_number(1);
    const struct eelbasket_task *rows = lend_tasks(tasks);
    uint32_t *without = lend_to_write("the steps without each task", without_len * sizeof *without, NUMBER_BEFORE);
    struct eelbasket_told_relief told = eelbasket_relief(rows, tasks, station, without, without_len);
    put_verdict(told.number, told.place);
    put_number(told.least, 4);
    put_number(told.more, 4);
    for (size_t i = 0; i < without_len; i++) put_number(without[i], 4);
}

static const uint16_t *lend_proposal(size_t entries) {
    static uint16_t proposal[MOST_PROPOSED];
    for (size_t i = 0; i < entries; i++) proposal[i] = (uint16_t)take_number(2);
    return lend_to_read("the proposal", proposal, entries * sizeof *proposal);
}

void answer_proposal(void) {
    struct eelbasket_station station = take_settings().station;
    size_t tasks = (size_t)take_number(2);
    uint32_t step = (uint32_t)take_number(4);
    size_t proposal_len = (size_t)take_number(1);
    size_t loads_len = (size_t)take_number(1);
    const struct eelbasket_task *rows = lend_tasks(tasks);
    const uint16_t *proposal = lend_proposal(proposal_len);
    uint32_t *loads = lend_to_write("the loads", loads_len * sizeof *loads, NUMBER_BEFORE);
    struct eelbasket_verdict told = eelbasket_check_proposal(rows, tasks, station, step, proposal, proposal_len, loads, loads_len);
    put_verdict(told.number, told.place);
    for (size_t i = 0; i < loads_len; i++) put_number(loads[i], 4);
}

static void take_wide_tasks(struct eelbasket_wide_task *rows, size_t count) {
    for (size_t i = 0; i < present(count); i++) {
        rows[i].c = take_number(8);
        rows[i].l = (uint32_t)take_number(4);
        rows[i].tmin = (uint32_t)take_number(4);
        rows[i].tmax = (uint32_t)take_number(4);
        rows[i].e = (uint32_t)take_number(4);
    }
}

static const struct eelbasket_wide_task *lend_wide_tasks(size_t count) {
    static struct eelbasket_wide_task rows[MOST_ROWS]; /* past the first 32 these stay zeros */
    take_wide_tasks(rows, count);
    return lend_to_read("the rows", rows, count * sizeof *rows);
}

void answer_wide(void) {
    uint16_t m = (uint16_t)take_number(2);
    size_t tasks = (size_t)take_number(2);
    struct outputs lent = lend_outputs();
    const struct eelbasket_wide_task *rows = lend_wide_tasks(tasks);
    struct eelbasket_told told =
        eelbasket_wide(rows, tasks, m, lent.periods, lent.periods_len, lent.processors, lent.processors_len);
    expect_no_looks(told);
    put_step(told);
    put_outputs(&lent);
}

void answer_record(void) {
    struct eelbasket_station station = take_settings().station;
    uint32_t step = (uint32_t)take_number(4);
    struct eelbasket_task task;
    take_tasks(&task, 1);
    put_number(eelbasket_reason(task, station.w, station.q), 1);
    put_number(eelbasket_share(task, station, step), 4);
}

void answer_wide_record(void) {
    struct eelbasket_wide_task task;
    take_wide_tasks(&task, 1);
    put_number(eelbasket_wide_reason(task), 1);
}
