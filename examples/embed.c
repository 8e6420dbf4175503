/* Fills in bench case K from C, seven tasks on three processors by first fit, checks its processors at other steps as a planner's proposal,
   and runs a release clock with its periods. */
#include <stdio.h>
#include "eelbasket.h"

/* Prints the tasks that are due at a tick, and hands the clock back. */
static struct eelbasket_clock release(struct eelbasket_clock clock, uint32_t tick) {
    printf("tick %u releases", tick);
    for (;;) {
        struct eelbasket_called called = eelbasket_clock_call(clock, tick);
        clock = called.clock;
        if (called.due == 0) break;
        printf(" %zu", called.task);
    }
    printf("\n");
    return clock;
}

/* Prints what the checker says of a proposal at a step. */
static void check(const struct eelbasket_task *tasks, struct eelbasket_station station, uint32_t step, const uint16_t *proposal) {
    uint32_t loads[3];
    struct eelbasket_verdict told = eelbasket_check_proposal(tasks, 7, station, step, proposal, 7, loads, 3);
    if (told.number != 0)
        printf("at step %u these processors are refused by %u at %zu\n", step, told.number, told.place);
    else
        printf("at step %u these processors have loads %u, %u, %u\n", step, loads[0], loads[1], loads[2]);
}

int main(void) {
    const struct eelbasket_task tasks[] = {
        {3000, 4000, 5000, 10000}, {450, 1000, 1000, 0}, {320, 1000, 1000, 0}, {350, 1000, 1000, 0},
        {300, 1000, 1000, 0},      {230, 1000, 1000, 0}, {650, 1000, 1000, 0},
    };
    const struct eelbasket_station station = {.policy = 4, .m = 3, .w = 0, .q = 1, .edition = 1};
    uint32_t periods[7];
    uint16_t processors[7];
    struct eelbasket_told told = eelbasket_plain(tasks, 7, station, periods, 7, processors, 7);
    if (told.number != 0) {
        printf("refused %u at %zu\n", told.number, told.place);
        return 1;
    }
    printf("step %u\n", told.step);
    for (int i = 0; i < 7; i++) printf("task %d: period %u on processor %u\n", i, periods[i], processors[i]);
    check(tasks, station, told.step, processors);
    check(tasks, station, 7, processors);  /* where first fit fails */
    check(tasks, station, 4, processors);
    told = eelbasket_quick(tasks, 7, station, periods, 7, processors, 7);
    printf("the quick finder is refused by %u: it does not serve policy 4\n", told.number);
    const struct eelbasket_station pooled = {.policy = 1, .m = 3, .w = 0, .q = 1, .edition = 1};
    struct eelbasket_told_margin margin = eelbasket_margin(tasks, 7, pooled, 0);
    printf("pooled, the same tasks have a margin of %lld parts at step 0\n", (long long)margin.margin);
    struct eelbasket_started started = eelbasket_clock_start(periods, 7, 4294967290u);
    struct eelbasket_clock clock = release(started.clock, 4294967290u);
    clock = release(clock, 993);  /* 999 ticks later, over the turn */
    clock = release(clock, 994);
    clock = release(clock, 4280);
    periods[3] = 0;
    started = eelbasket_clock_start(periods, 7, 0);
    printf("a period of 0 is refused by %u at %zu\n", started.number, started.place);
    return 0;
}
