/* What the page's JavaScript calls: each call of eelbasket.h on a desk of fixed buffers, with numbers of 32 bits in and out. JavaScript lays what
   goes in on the desk, makes a call, and takes the answer from there. Nothing is worked out here. */
#include "eelbasket.h"
#include <string.h>

enum { MOST_ROWS = 1024, MOST_GIVEN = 65536, MOST_WRITTEN = 4096 };

/* ---- The desk ---- */

struct eelbasket_station station;
struct eelbasket_task rows[MOST_ROWS];
struct eelbasket_wide_task wide_rows[MOST_ROWS];
struct eelbasket_granted results[EELBASKET_MOST_TASKS];
uint32_t periods[EELBASKET_MOST_TASKS], without[EELBASKET_MOST_TASKS], loads[EELBASKET_MOST_PROCESSORS];
uint16_t processors[EELBASKET_MOST_TASKS], proposal[EELBASKET_MOST_TASKS];
uint8_t given[MOST_GIVEN], written[MOST_WRITTEN];

/* What a call tells; what it does not tell is 0. */
struct answer { int64_t margin; uint32_t number, place, step, looks, least, more, count, settings_count, results_count; } answer;

/* ---- Tables ---- */

static void tell(struct eelbasket_told told) {
    answer = (struct answer){.number = told.number, .place = told.place, .step = told.step, .looks = told.looks};
}

void plain(uint32_t tasks) {
    tell(eelbasket_plain(rows, tasks, station, periods, EELBASKET_MOST_TASKS, processors, EELBASKET_MOST_TASKS));
}

void quick(uint32_t tasks) {
    tell(eelbasket_quick(rows, tasks, station, periods, EELBASKET_MOST_TASKS, processors, EELBASKET_MOST_TASKS));
}

/* On as many processors as the station has. */
void wide(uint32_t tasks) {
    tell(eelbasket_wide(wide_rows, tasks, station.m, periods, EELBASKET_MOST_TASKS, processors, EELBASKET_MOST_TASKS));
}

void margin(uint32_t tasks, uint32_t step) {
    struct eelbasket_told_margin told = eelbasket_margin(rows, tasks, station, step);
    answer = (struct answer){.number = told.number, .place = told.place, .margin = told.margin};
}

void relief(uint32_t tasks) {
    struct eelbasket_told_relief told = eelbasket_relief(rows, tasks, station, without, EELBASKET_MOST_TASKS);
    answer = (struct answer){.number = told.number, .place = told.place, .least = told.least, .more = told.more};
}

static void tell_verdict(struct eelbasket_verdict told) {
    answer = (struct answer){.number = told.number, .place = told.place};
}

void check_proposal(uint32_t tasks, uint32_t step, uint32_t proposed) {
    tell_verdict(eelbasket_check_proposal(rows, tasks, station, step, proposal, proposed, loads, EELBASKET_MOST_PROCESSORS));
}

/* ---- One record, which is the first row: nothing is refused, and the number is handed back ---- */

uint32_t reason(void) { return eelbasket_reason(rows[0], station.w, station.q); }

uint32_t wide_reason(void) { return eelbasket_wide_reason(wide_rows[0]); }

uint32_t share(uint32_t step) { return eelbasket_share(rows[0], station, step); }

/* ---- Sheets ---- */

/* The sheet of the bytes that are given, laid out as station, rows and results. */
void read_sheet(uint32_t length) {
    struct eelbasket_reading told = eelbasket_read(given, length);
    station = told.sheet.station;
    memcpy(rows, told.sheet.table.rows, sizeof told.sheet.table.rows);
    memcpy(results, told.sheet.results.rows, sizeof told.sheet.results.rows);
    answer = (struct answer){.number = told.number, .place = told.place, .count = told.sheet.table.n,
                             .settings_count = told.sheet.settings_count, .results_count = told.sheet.results.n};
}

static void tell_counted(struct eelbasket_counted told) {
    answer = (struct answer){.number = told.number, .place = told.place, .count = told.count};
}

/* The sheet of the station, the rows and the results that are laid out. */
void write_sheet(uint32_t settings_count, uint32_t tasks, uint32_t granted) {
    struct eelbasket_sheet sheet = {.settings_count = settings_count, .station = station};
    memcpy(sheet.table.rows, rows, sizeof sheet.table.rows);
    memcpy(sheet.results.rows, results, sizeof sheet.results.rows);
    sheet.table.n = tasks;
    sheet.results.n = granted;
    tell_counted(eelbasket_write(sheet, written, MOST_WRITTEN));
}

void fill_sheet(uint32_t length) { tell_counted(eelbasket_fill(given, length, written)); }

void check_sheet(uint32_t length) { tell_verdict(eelbasket_check(given, length)); }

/* ---- The office's texts ---- */

void import_text(uint32_t length) { tell_counted(eelbasket_import(given, length, rows, EELBASKET_MOST_TASKS)); }

void export_text(uint32_t tasks) { tell_counted(eelbasket_export(rows, tasks, written, MOST_WRITTEN)); }

/* ---- What the library asks of a C library ---- */

void *memcpy(void *to, const void *from, size_t size) {
    for (size_t i = 0; i < size; i++) ((uint8_t *)to)[i] = ((const uint8_t *)from)[i];
    return to;
}

void *memset(void *to, int value, size_t size) {
    for (size_t i = 0; i < size; i++) ((uint8_t *)to)[i] = (uint8_t)value;
    return to;
}
