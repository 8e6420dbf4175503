/* Each call of eelbasket.h by the target's own C rules, over the proved code, of which retarget.py has made calls that take numbers and
   pointers alone. The proved code's sizes have 64 bits on every target, and its structs stand here as it lays them out. Where size_t is
   narrower, what is handed over is widened and what comes back narrowed; that loses nothing, as every place and count is at most 1,408 or a
   count or a place of what was handed over. */
#include "eelbasket.h"
#include <string.h>

_Static_assert(__BYTE_ORDER__ == __ORDER_LITTLE_ENDIAN__, "the proved code reads and writes numbers lowest byte first");

/* ---- The proved code's structs ---- */

typedef uint64_t usize;
struct proved_told { uint32_t number, step, looks; usize place; };
struct proved_verdict { uint32_t number; usize place; };
struct proved_margin { uint32_t number; usize place; int64_t margin; };
struct proved_relief { uint32_t number, least, more; usize place; };
struct proved_counted { uint32_t number; usize place, count; };
struct proved_part { uint32_t which; usize place, size; };
struct proved_table { struct eelbasket_task rows[EELBASKET_MOST_TASKS]; usize n; };
struct proved_results { struct eelbasket_granted rows[EELBASKET_MOST_TASKS]; usize n; };
struct proved_sheet { usize settings_count; struct eelbasket_station station; struct proved_table table; struct proved_results results; };
struct proved_reading { uint32_t number; usize place; struct proved_sheet sheet; };
struct proved_index { uint16_t entries[EELBASKET_MOST_TASKS]; usize n; };
struct proved_kept { struct proved_table table; struct proved_index index; };
struct proved_changed { uint32_t number; usize place; struct proved_kept kept; };
struct proved_clock { uint32_t periods[EELBASKET_MOST_TASKS], next[EELBASKET_MOST_TASKS]; usize n; };
struct proved_started { uint32_t number; usize place; struct proved_clock clock; };
struct proved_called { uint32_t number, due; usize task, place; struct proved_clock clock; };

_Static_assert(sizeof(struct proved_told) == 24 && sizeof(struct proved_margin) == 24 && sizeof(struct proved_reading) == 824
    && sizeof(struct proved_changed) == 608 && sizeof(struct proved_called) == 288, "the proved code's layout");

/* ---- The proved code's calls: a station as its first four numbers and its edition, a task as its two halves ---- */

void proved_plain(struct proved_told *, const struct eelbasket_task *, usize, usize, uint16_t, uint32_t *, usize, uint16_t *, usize);
void proved_quick(struct proved_told *, const struct eelbasket_task *, usize, usize, uint16_t, uint32_t *, usize, uint16_t *, usize);
void proved_margin(struct proved_margin *, const struct eelbasket_task *, usize, usize, uint16_t, uint32_t);
void proved_relief(struct proved_relief *, const struct eelbasket_task *, usize, usize, uint16_t, uint32_t *, usize);
void proved_check_proposal(struct proved_verdict *, const struct eelbasket_task *, usize, usize, uint16_t, uint32_t, const uint16_t *, usize,
                           uint32_t *, usize);
void proved_wide(struct proved_told *, const struct eelbasket_wide_task *, usize, uint16_t, uint32_t *, usize, uint16_t *, usize);
void proved_reason(uint32_t *, uint64_t, uint64_t, uint16_t, uint16_t);
void proved_wide_reason(uint32_t *, const struct eelbasket_wide_task *);
void proved_share(uint32_t *, uint64_t, uint64_t, usize, uint16_t, uint32_t);
void proved_read(struct proved_reading *, const uint8_t *, usize);
void proved_write(struct proved_counted *, const struct proved_sheet *, uint8_t *, usize);
void proved_fill(struct proved_counted *, const uint8_t *, usize, uint8_t *);
void proved_check(struct proved_verdict *, const uint8_t *, usize);
void proved_change_over(struct proved_part *, const uint8_t *, usize, const uint8_t *, usize);
void proved_join(struct proved_changed *, const struct proved_kept *, uint16_t, uint16_t, uint64_t, uint64_t);
void proved_leave(struct proved_changed *, const struct proved_kept *, uint16_t, uint16_t, usize);
void proved_import(struct proved_counted *, const uint8_t *, usize, struct eelbasket_task *, usize);
void proved_export(struct proved_counted *, const struct eelbasket_task *, usize, uint8_t *, usize);
void proved_clock_start(struct proved_started *, const uint32_t *, usize, uint32_t);
void proved_clock_call(struct proved_called *, const struct proved_clock *, uint32_t);

/* ---- There: what is handed over by value ---- */

static uint64_t eight_bytes(const void *from, size_t at) {
    uint64_t bytes;
    memcpy(&bytes, (const uint8_t *)from + at, sizeof bytes);
    return bytes;
}

static void put_table(struct proved_table *to, const struct eelbasket_table *from) {
    memcpy(to->rows, from->rows, sizeof to->rows);
    to->n = from->n;
}

static void put_sheet(struct proved_sheet *to, const struct eelbasket_sheet *from) {
    to->settings_count = from->settings_count;
    to->station = from->station;
    put_table(&to->table, &from->table);
    memcpy(to->results.rows, from->results.rows, sizeof to->results.rows);
    to->results.n = from->results.n;
}

static void put_kept(struct proved_kept *to, const struct eelbasket_kept *from) {
    put_table(&to->table, &from->table);
    memcpy(to->index.entries, from->index.entries, sizeof to->index.entries);
    to->index.n = from->index.n;
}

static void put_clock(struct proved_clock *to, const struct eelbasket_clock *from) {
    memcpy(to->periods, from->periods, sizeof to->periods);
    memcpy(to->next, from->next, sizeof to->next);
    to->n = from->n;
}

/* ---- Back: what comes back ---- */

static struct eelbasket_told told(const struct proved_told *from) {
    return (struct eelbasket_told){from->number, from->step, from->looks, (size_t)from->place};
}

static struct eelbasket_verdict verdict(const struct proved_verdict *from) {
    return (struct eelbasket_verdict){from->number, (size_t)from->place};
}

static struct eelbasket_counted counted(const struct proved_counted *from) {
    return (struct eelbasket_counted){from->number, (size_t)from->place, (size_t)from->count};
}

static void take_table(struct eelbasket_table *to, const struct proved_table *from) {
    memcpy(to->rows, from->rows, sizeof to->rows);
    to->n = (size_t)from->n;
}

static struct eelbasket_changed changed(const struct proved_changed *from) {
    struct eelbasket_changed to = {.number = from->number, .place = (size_t)from->place};
    take_table(&to.kept.table, &from->kept.table);
    memcpy(to.kept.index.entries, from->kept.index.entries, sizeof to.kept.index.entries);
    to.kept.index.n = (size_t)from->kept.index.n;
    return to;
}

static void take_clock(struct eelbasket_clock *to, const struct proved_clock *from) {
    memcpy(to->periods, from->periods, sizeof to->periods);
    memcpy(to->next, from->next, sizeof to->next);
    to->n = (size_t)from->n;
}

/* ---- The calls ---- */

struct eelbasket_told eelbasket_plain(const struct eelbasket_task *rows, size_t tasks, struct eelbasket_station station,
                                      uint32_t *periods, size_t periods_len, uint16_t *processors, size_t processors_len) {
    struct proved_told tells;
    proved_plain(&tells, rows, tasks, eight_bytes(&station, 0), station.edition, periods, periods_len, processors, processors_len);
    return told(&tells);
}

struct eelbasket_told eelbasket_quick(const struct eelbasket_task *rows, size_t tasks, struct eelbasket_station station,
                                      uint32_t *periods, size_t periods_len, uint16_t *processors, size_t processors_len) {
    struct proved_told tells;
    proved_quick(&tells, rows, tasks, eight_bytes(&station, 0), station.edition, periods, periods_len, processors, processors_len);
    return told(&tells);
}

struct eelbasket_told_margin eelbasket_margin(const struct eelbasket_task *rows, size_t tasks, struct eelbasket_station station, uint32_t step) {
    struct proved_margin tells;
    proved_margin(&tells, rows, tasks, eight_bytes(&station, 0), station.edition, step);
    return (struct eelbasket_told_margin){tells.number, (size_t)tells.place, tells.margin};
}

struct eelbasket_told_relief eelbasket_relief(const struct eelbasket_task *rows, size_t tasks, struct eelbasket_station station,
                                         uint32_t *without, size_t without_len) {
    struct proved_relief tells;
    proved_relief(&tells, rows, tasks, eight_bytes(&station, 0), station.edition, without, without_len);
    return (struct eelbasket_told_relief){tells.number, tells.least, tells.more, (size_t)tells.place};
}

struct eelbasket_verdict eelbasket_check_proposal(const struct eelbasket_task *rows, size_t tasks, struct eelbasket_station station,
                                                  uint32_t step, const uint16_t *proposal, size_t proposal_len,
                                                  uint32_t *loads, size_t loads_len) {
    struct proved_verdict tells;
    proved_check_proposal(&tells, rows, tasks, eight_bytes(&station, 0), station.edition, step, proposal, proposal_len, loads, loads_len);
    return verdict(&tells);
}

struct eelbasket_told eelbasket_wide(const struct eelbasket_wide_task *rows, size_t tasks, uint16_t m,
                                     uint32_t *periods, size_t periods_len, uint16_t *cores, size_t cores_len) {
    struct proved_told tells;
    proved_wide(&tells, rows, tasks, m, periods, periods_len, cores, cores_len);
    return told(&tells);
}

uint32_t eelbasket_reason(struct eelbasket_task task, uint16_t w, uint16_t q) {
    uint32_t reason;
    proved_reason(&reason, eight_bytes(&task, 0), eight_bytes(&task, 8), w, q);
    return reason;
}

uint32_t eelbasket_wide_reason(struct eelbasket_wide_task task) {
    uint32_t reason;
    proved_wide_reason(&reason, &task);
    return reason;
}

uint32_t eelbasket_share(struct eelbasket_task task, struct eelbasket_station station, uint32_t step) {
    uint32_t share;
    proved_share(&share, eight_bytes(&task, 0), eight_bytes(&task, 8), eight_bytes(&station, 0), station.edition, step);
    return share;
}

struct eelbasket_reading eelbasket_read(const uint8_t *sheet, size_t sheet_len) {
    struct proved_reading tells;
    proved_read(&tells, sheet, sheet_len);
    struct eelbasket_reading reading = {.number = tells.number, .place = (size_t)tells.place};
    reading.sheet.settings_count = (size_t)tells.sheet.settings_count;
    reading.sheet.station = tells.sheet.station;
    take_table(&reading.sheet.table, &tells.sheet.table);
    memcpy(reading.sheet.results.rows, tells.sheet.results.rows, sizeof reading.sheet.results.rows);
    reading.sheet.results.n = (size_t)tells.sheet.results.n;
    return reading;
}

struct eelbasket_counted eelbasket_write(struct eelbasket_sheet sheet, uint8_t *out, size_t out_len) {
    struct proved_sheet handed;
    struct proved_counted tells;
    put_sheet(&handed, &sheet);
    proved_write(&tells, &handed, out, out_len);
    return counted(&tells);
}

struct eelbasket_counted eelbasket_fill(const uint8_t *sheet, size_t sheet_len, uint8_t out[EELBASKET_LONGEST_SHEET]) {
    struct proved_counted tells;
    proved_fill(&tells, sheet, sheet_len, out);
    return counted(&tells);
}

struct eelbasket_verdict eelbasket_check(const uint8_t *sheet, size_t sheet_len) {
    struct proved_verdict tells;
    proved_check(&tells, sheet, sheet_len);
    return verdict(&tells);
}

struct eelbasket_part eelbasket_change_over(const uint8_t *standing, size_t standing_len, const uint8_t *proposed, size_t proposed_len) {
    struct proved_part tells;
    proved_change_over(&tells, standing, standing_len, proposed, proposed_len);
    return (struct eelbasket_part){tells.which, (size_t)tells.place, (size_t)tells.size};
}

struct eelbasket_changed eelbasket_join(struct eelbasket_kept kept, uint16_t w, uint16_t q, struct eelbasket_task task) {
    struct proved_kept handed;
    struct proved_changed tells;
    put_kept(&handed, &kept);
    proved_join(&tells, &handed, w, q, eight_bytes(&task, 0), eight_bytes(&task, 8));
    return changed(&tells);
}

struct eelbasket_changed eelbasket_leave(struct eelbasket_kept kept, uint16_t w, uint16_t q, size_t record) {
    struct proved_kept handed;
    struct proved_changed tells;
    put_kept(&handed, &kept);
    proved_leave(&tells, &handed, w, q, record);
    return changed(&tells);
}

struct eelbasket_counted eelbasket_import(const uint8_t *text, size_t text_len, struct eelbasket_task *rows, size_t rows_len) {
    struct proved_counted tells;
    proved_import(&tells, text, text_len, rows, rows_len);
    return counted(&tells);
}

struct eelbasket_counted eelbasket_export(const struct eelbasket_task *rows, size_t tasks, uint8_t *out, size_t out_len) {
    struct proved_counted tells;
    proved_export(&tells, rows, tasks, out, out_len);
    return counted(&tells);
}

struct eelbasket_started eelbasket_clock_start(const uint32_t *periods, size_t tasks, uint32_t tick) {
    struct proved_started tells;
    proved_clock_start(&tells, periods, tasks, tick);
    struct eelbasket_started started = {.number = tells.number, .place = (size_t)tells.place};
    take_clock(&started.clock, &tells.clock);
    return started;
}

struct eelbasket_called eelbasket_clock_call(struct eelbasket_clock clock, uint32_t present) {
    struct proved_clock handed;
    struct proved_called tells;
    put_clock(&handed, &clock);
    proved_clock_call(&tells, &handed, present);
    struct eelbasket_called called = {tells.number, tells.due, (size_t)tells.task, (size_t)tells.place, {{0}, {0}, 0}};
    take_clock(&called.clock, &tells.clock);
    return called;
}
