/* How much stack each call takes, in bytes, with what is passed by value: a line `CALL BYTES` for each. Every call is made on a stack of its own
   that is painted before it, on tables and sheets of the most tasks and of few, under every policy and both editions, accepted and refused; what
   is told is the most that was painted over, less what a call of nothing takes. */
#define _XOPEN_SOURCE 700
#include <stdio.h>
#include <string.h>
#include <ucontext.h>
#include "eelbasket.h"

enum { ROOM = 256 * 1024, PAINT = 0xA5, TASKS = EELBASKET_MOST_TASKS, STATIONS = 12 };

static unsigned char stack[ROOM];
static ucontext_t here, there;
static void (*made)(void);

/* What the calls are made on: they stand here, so that a caller's frame has nothing of them. */
static struct eelbasket_task rows[TASKS];
static struct eelbasket_wide_task wide[TASKS];
static struct eelbasket_station station;
static struct eelbasket_reading reading;
static struct eelbasket_changed changed;
static struct eelbasket_started started;
static struct eelbasket_called called;
static size_t tasks, bytes, filled_bytes;
static uint32_t numbers[TASKS];
static uint16_t shorts[TASKS], proposal[TASKS];
static uint8_t sheet[EELBASKET_LONGEST_SHEET], filled[EELBASKET_LONGEST_SHEET], text[2048];
static volatile uint64_t kept; /* so that no call is left out */

static void nothing(void) { kept = 0; }
static void plain(void) { kept = eelbasket_plain(rows, tasks, station, numbers, TASKS, shorts, TASKS).step; }
static void quick(void) { kept = eelbasket_quick(rows, tasks, station, numbers, TASKS, shorts, TASKS).step; }
static void margin(void) { kept = eelbasket_margin(rows, tasks, station, 3).place; }
static void relief(void) { kept = eelbasket_relief(rows, tasks, station, numbers, TASKS).more; }
static void check_proposal(void) { kept = eelbasket_check_proposal(rows, tasks, station, 3, proposal, TASKS, numbers, TASKS).place; }
static void several(void) { kept = eelbasket_wide(wide, tasks, station.m, numbers, TASKS, shorts, TASKS).step; }
static void reason(void) { kept = eelbasket_reason(rows[0], station.w, station.q); }
static void wide_reason(void) { kept = eelbasket_wide_reason(wide[0]); }
static void share(void) { kept = eelbasket_share(rows[0], station, 3); }
static void read_sheet(void) { reading = eelbasket_read(sheet, bytes); }
static void write_sheet(void) { kept = eelbasket_write(reading.sheet, filled, sizeof filled).count; }
static void fill(void) { kept = eelbasket_fill(sheet, bytes, filled).count; }
static void check(void) { kept = eelbasket_check(filled, filled_bytes).place; }
static void change_over(void) { kept = eelbasket_change_over(sheet, bytes, filled, filled_bytes).size; }
static void join(void) { changed = eelbasket_join(changed.kept, station.w, station.q, rows[0]); }
static void leave(void) { changed = eelbasket_leave(changed.kept, station.w, station.q, 0); }
static void import(void) { kept = eelbasket_import(text, strlen((const char *)text), rows, TASKS).count; }
static void export(void) { kept = eelbasket_export(rows, tasks, text, sizeof text - 1).count; }
static void clock_start(void) { started = eelbasket_clock_start(numbers, tasks, 5); }
static void clock_call(void) { called = eelbasket_clock_call(started.clock, 7); }

static void run(void) { made(); }

/* The bytes of the painted stack that a call has written over. */
static size_t taken(void (*call)(void)) {
    memset(stack, PAINT, sizeof stack);
    made = call;
    getcontext(&there);
    there.uc_stack.ss_sp = stack;
    there.uc_stack.ss_size = sizeof stack;
    there.uc_link = &here;
    makecontext(&there, run, 0);
    swapcontext(&here, &there);
    size_t clean = 0;
    while (clean < sizeof stack && stack[clean] == PAINT) clean++;
    return sizeof stack - clean;
}

static const struct { const char *name; void (*call)(void); } calls[] = {
    {"eelbasket_plain", plain}, {"eelbasket_quick", quick}, {"eelbasket_margin", margin}, {"eelbasket_relief", relief},
    {"eelbasket_check_proposal", check_proposal}, {"eelbasket_wide", several}, {"eelbasket_reason", reason},
    {"eelbasket_wide_reason", wide_reason}, {"eelbasket_share", share}, {"eelbasket_read", read_sheet}, {"eelbasket_write", write_sheet},
    {"eelbasket_fill", fill}, {"eelbasket_check", check}, {"eelbasket_change_over", change_over}, {"eelbasket_join", join},
    {"eelbasket_leave", leave}, {"eelbasket_import", import}, {"eelbasket_export", export}, {"eelbasket_clock_start", clock_start},
    {"eelbasket_clock_call", clock_call},
};

/* The stations: four policies on one processor and on three, under both editions, and none. */
static const struct eelbasket_station stations[STATIONS] = {
    {1, 1, 0, 1, 1}, {2, 3, 0, 1, 1}, {4, 3, 0, 1, 1}, {5, 1, 0, 1, 1}, {1, 1, 1, 1, 2}, {2, 3, 1, 1, 2},
    {4, 3, 1, 1, 2}, {5, 1, 1, 1, 2}, {1, 16, 0, 1, 1}, {4, 16, 0, 1, 2}, {3, 1, 0, 1, 1}, {1, 0, 0, 0, 0},
};

/* So many tasks at a station: heavy ones fit at no step, light ones at some. */
static void set_up(struct eelbasket_station at, size_t count, uint32_t cost) {
    station = at;
    tasks = count;
    for (size_t i = 0; i < TASKS; i++) {
        rows[i] = (struct eelbasket_task){cost, 40, 400, 1000};
        wide[i] = (struct eelbasket_wide_task){cost * 30, 5, 40, 80, 1000};
        numbers[i] = 100;
        proposal[i] = 1;
    }
    struct eelbasket_sheet written = {.settings_count = 5, .station = at, .table = {.n = count}};
    memcpy(written.table.rows, rows, sizeof rows);
    struct eelbasket_counted counted = eelbasket_write(written, sheet, sizeof sheet);
    bytes = counted.count;
    memcpy(filled, sheet, sizeof filled);
    counted = eelbasket_fill(sheet, bytes, filled);
    filled_bytes = counted.number == 0 ? counted.count : bytes;
    reading = eelbasket_read(sheet, bytes);
    memset(&changed, 0, sizeof changed);
    changed.kept.table = written.table;
    text[eelbasket_export(rows, count, text, sizeof text - 1).count] = 0;
    started = eelbasket_clock_start(numbers, count, 5);
}

int main(void) {
    static size_t most[sizeof calls / sizeof *calls];
    size_t none = taken(nothing);
    for (size_t at = 0; at < STATIONS; at++)
        for (size_t count = 1; count <= TASKS; count += 10)
            for (uint32_t cost = 1; cost <= 41; cost += 10)
                for (size_t i = 0; i < sizeof calls / sizeof *calls; i++) {
                    set_up(stations[at], count < 31 ? count : TASKS, cost);
                    size_t bytes_taken = taken(calls[i].call) - none;
                    if (bytes_taken > most[i]) most[i] = bytes_taken;
                }
    for (size_t i = 0; i < sizeof calls / sizeof *calls; i++) printf("%s %zu\n", calls[i].name, most[i]);
    return 0;
}
