/* Runs of the release clock: kind 10. */
#include "answer.h"
#include "eelbasket.h"
#include "fault.h"
#include "kinds.h"
#include "lend.h"
#include "stream.h"

enum { MOST_PERIODS = 255 };

static struct eelbasket_clock start_clock(void) {
    static uint32_t periods[MOST_PERIODS];
    uint32_t tick = (uint32_t)take_number(4);
    size_t tasks = (size_t)take_number(1);
    for (size_t i = 0; i < tasks; i++) periods[i] = (uint32_t)take_number(4);
    const uint32_t *lent = lend_to_read("the periods", periods, tasks * sizeof *periods);
    struct eelbasket_started told = eelbasket_clock_start(lent, tasks, tick);
    put_verdict(told.number, told.place);
    return told.clock;
}

/* A clock as it stands, which is not asked of the library. */
static struct eelbasket_clock take_clock(void) {
    struct eelbasket_clock clock;
    clock.n = (size_t)take_number(2);
    for (size_t i = 0; i < EELBASKET_MOST_TASKS; i++) clock.periods[i] = (uint32_t)take_number(4);
    for (size_t i = 0; i < EELBASKET_MOST_TASKS; i++) clock.next[i] = (uint32_t)take_number(4);
    put_verdict(0, 0);
    return clock;
}

static struct eelbasket_clock call_clock(struct eelbasket_clock clock, uint32_t present) {
    struct eelbasket_called told = eelbasket_clock_call(clock, present);
    put_verdict(told.number, told.place);
    put_number(told.due, 1);
    put_number(told.task, 1);
    return told.clock;
}

void answer_clock(void) {
    uint64_t beginning = take_number(1);
    if (beginning > 1) unreadable("a clock begins in no such way");
    struct eelbasket_clock clock = beginning == 0 ? start_clock() : take_clock();
    while (bytes_left() > 0) clock = call_clock(clock, (uint32_t)take_number(4));
    put_number(clock.n, 2);
    for (size_t i = 0; i < EELBASKET_MOST_TASKS; i++) put_number(clock.periods[i], 4);
    for (size_t i = 0; i < EELBASKET_MOST_TASKS; i++) put_number(clock.next[i], 4);
}
