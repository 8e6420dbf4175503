/* The pace setter for C: link with libeelbasket.a (`scripts/library` writes target/staticlib/libeelbasket.a for x86-64, and
 * `scripts/library --target` makes it for others).
 *
 * A caller owes what the types say: each pointer has as many entries behind it as the length after it says (a pointer that is not null, also
 * where the length is 0), and outputs overlap nothing else. Every call is total: any numbers and bytes may be passed, and bad ones are
 * refused by number, the first in the order that stands with each call. Number 0 is acceptance, with place 0.
 *
 * A task takes C ticks in each period, from Tmin to Tmax. Its share is C / period, in millionths of a processor and rounded up: largest at Tmin,
 * least at Tmax. With each step it falls by E millionths; at full compression no share falls further, and a share with E = 0 stays. What counts is the
 * E of the tasks beside each other, and a tenth of every E gives finer steps. With C = 6, Tmin = 10, Tmax = 20 and E = 1000 it is 600,000 at step 0,
 * 599,000 at step 1, and 300,000 from step 300 on. The margin is what the policy's test leaves free at a step; looks are the steps that the quick
 * finder tried.
 *
 *  No.   Given exactly when                                                  Place
 *    1   the policy is not 1 to 5                                            0
 *    2   there are no processors, or more than 16 (policy 5, asked of a      0
 *        finder or the margin: than 1), or q is 0 or the edition neither 1
 *        nor 2 (where a station is asked; a kept table: q is 0)
 *    3   there are more than 32 tasks, or there would be after a join        the count (reading s settings: 2 + 2s, import: 32)
 *    4   policy 4, asked of the quick finder or the margin                   0
 *    5   a lent output holds fewer entries, rows or bytes than needed, or a  how many are needed
 *        proposal fewer entries
 *    6   a record is not good, such as one with C + 2w above Tmin, or with   the first such record, from 0
 *        a Tmin or Tmax that is no multiple of q
 *    7   no step from 0 to full compression passes                           0
 *    8   the sheet ends before or inside a field that is due                 its length
 *    9   the settings count is not 2 to 5                                    0
 *   10   the result count is neither 0 nor the task count                    where it stands (writing: 0)
 *   11   there are bytes after the last section                              the first of them
 *   12   a record that is to leave is not there                              its number
 *   13   a proposal's processor is not 1 to m                                the first such task, from 0
 *   14   a proposal loads a processor above S, which is 1,000,000 parts      the lowest such processor, from 1
 *   15   policy 3, which is withdrawn: in the place of 1                     0
 *   16   a line of a text is bad                                             the first such line, from 0
 *   17   a clock's period is 0 or above 1,000,000,000                        the first such task, from 0
 *   18   checking a filled sheet: tasks stand there without results          0
 *   19   checking a filled sheet: a result differs                           the first such result, from 0
 *
 * A refusal writes nothing to what was lent, and its step, looks, margin, count or sheet is 0 (but for the looks of 7, and a kept table is
 * handed back as it was). An acceptance writes what its answer needs, and nothing past it.
 *
 * The library keeps nothing from call to call, so that calls may be made at once from any threads, and from an interrupt, on outputs of their
 * own. It asks for memcpy and memset, and for nothing else. On x86-64 it has at most 30,000 bytes of code and constants and no data, and no
 * call takes more than 7,200 bytes of stack; docs/EMBEDDING.md has each by itself.
 *
 * Every call ends. The plain finder tests each step from 0 on, at most 1,000,000; the quick one makes at most tasks + 1 looks, in edition 2 at
 * most 20. The relief searches tasks + 2 times as the quick finder does, and under policy 4 as the plain one. The steps of jobs that need several
 * cores are halved. A sheet is filled and checked, and a change-over judged, by the plain finder. The other calls take a time that grows with the
 * tasks or the bytes alone. */
#ifndef EELBASKET_H
#define EELBASKET_H
#include <stddef.h>
#include <stdint.h>

#ifdef __cplusplus
extern "C" {
#define EELBASKET_ASSERT static_assert
#else
#define EELBASKET_ASSERT _Static_assert
#endif

/* The version; the most tasks of a table, processors of a station and cores of a job, the bytes of the longest sheet, the parts of a whole processor, the
 * longest period in ticks and the greatest elasticity. */
#define EELBASKET_VERSION "1.1.0"
#define EELBASKET_MOST_TASKS 32
#define EELBASKET_MOST_PROCESSORS 16
#define EELBASKET_LONGEST_SHEET 720
#define EELBASKET_SCALE 1000000
#define EELBASKET_LONGEST_PERIOD 1000000000
#define EELBASKET_GREATEST_ELASTICITY 1000000

/* The policies. */
enum eelbasket_policy {
    EELBASKET_POOLED = 1,
    EELBASKET_GLOBAL_EDF = 2,
    EELBASKET_GLOBAL_RM = 3,
    EELBASKET_FIRST_FIT = 4,
    EELBASKET_ONE_CORE_RM = 5,
};

/* The refusals, as docs/refusals.txt names them. */
enum eelbasket_refusal {
    EELBASKET_NO_SUCH_POLICY = 1,
    EELBASKET_MISSET = 2,
    EELBASKET_TOO_MANY_TASKS = 3,
    EELBASKET_POLICY_NOT_SERVED = 4,
    EELBASKET_OUTPUT_TOO_SHORT = 5,
    EELBASKET_BAD_RECORD = 6,
    EELBASKET_NO_STEP_PASSES = 7,
    EELBASKET_SHEET_ENDS = 8,
    EELBASKET_WRONG_SETTINGS_COUNT = 9,
    EELBASKET_WRONG_RESULT_COUNT = 10,
    EELBASKET_BYTES_AFTER_LAST = 11,
    EELBASKET_NO_SUCH_RECORD = 12,
    EELBASKET_PROCESSOR_OUT_OF_RANGE = 13,
    EELBASKET_PROCESSOR_OVERFULL = 14,
    EELBASKET_POLICY_WITHDRAWN = 15,
    EELBASKET_BAD_LINE = 16,
    EELBASKET_BAD_PERIOD = 17,
    EELBASKET_NO_RESULTS = 18,
    EELBASKET_WRONG_RESULT = 19,
};

/* A task record: cost, shortest and longest period in ticks, elasticity. It is good with a swap cost w and a notch q when 1 <= C,
 * C + 2w <= Tmin, Tmin <= Tmax <= 1,000,000,000, E <= 1,000,000, and Tmin and Tmax are multiples of q. */
struct eelbasket_task { uint32_t c, tmin, tmax, e; };

/* The policy (1 pooled, 2 global EDF, 4 first fit, 5 one-core RM; 3, global RM, is withdrawn), how many processors there are, the swap cost
 * in ticks, the notch in ticks, and the edition. Each job pays for being swapped in and out, so every C in shares and periods is read as
 * C + 2w. Each period is a multiple of q, which is 1 where every tick can be timed, and never 0. Edition 1 tests and places tasks by their
 * shares, edition 2 by what the period granted at the step charges them, (C + 2w) * S / period rounded up; the periods and full compression
 * go by the shares in both.
 *
 * Each policy is for a kernel of its own, under which no job that follows the plan misses its deadline (docs/AUDIT.md): 1 on one processor,
 * and 4 on each processor by itself, run the earliest deadline first; 2 runs the m earliest; 5 runs the shortest period first; and 1 on more
 * than one processor is fluid, it gives each job its share of a processor in every tick. Global EDF misses deadlines under some such plans. */
struct eelbasket_station { uint16_t policy, m, w, q, edition; };

/* ---- The finders and the margin ---- */

/* What a finder tells. The plain finder makes no looks. */
struct eelbasket_told { uint32_t number, step, looks; size_t place; };

/* What a check tells. */
struct eelbasket_verdict { uint32_t number; size_t place; };

/* What the margin tells: the right side of the policy's test minus the left. */
struct eelbasket_told_margin { uint32_t number; size_t place; int64_t margin; };

/* The least passing step, each task's period and its processor (0: any). Refusals 1 or 15, 2, 3, 5, 6, 7; 5 where either output is short. */
struct eelbasket_told eelbasket_plain(const struct eelbasket_task *rows, size_t tasks, struct eelbasket_station station,
                                      uint32_t *periods, size_t periods_len, uint16_t *processors, size_t processors_len);

/* The same for policies 1, 2 and 5, with its looks, counted also where 7 is given: in edition 1 at most tasks + 1, in edition 2, where it
 * halves the range of steps, at most 20. Refusals 1 or 15, 2, 3, 4, 5, 6, 7. */
struct eelbasket_told eelbasket_quick(const struct eelbasket_task *rows, size_t tasks, struct eelbasket_station station,
                                      uint32_t *periods, size_t periods_len, uint16_t *processors, size_t processors_len);

/* The margin at any step, for policies 1, 2 and 5. Refusals 1 or 15, 2, 3, 4, 6. */
struct eelbasket_told_margin eelbasket_margin(const struct eelbasket_task *rows, size_t tasks, struct eelbasket_station station, uint32_t step);

/* ---- Relief ---- */

/* What the relief tells: the least step of the table as it stands, and with one processor more, each as a number: 0 for none, else the
 * step + 1. */
struct eelbasket_told_relief { uint32_t number, least, more; size_t place; };

/* What would relieve a table that fits at no step, or ease one that fits: the least step with one processor more, and without each task, which
 * is written as such a number to its entry of the output. More than 16 processors, and under policy 5 more than one, is none. That no step
 * passes is no refusal here: least is 0. Refusals 1 or 15, 2, 3, 5, 6. */
struct eelbasket_told_relief eelbasket_relief(const struct eelbasket_task *rows, size_t tasks, struct eelbasket_station station,
                                         uint32_t *without, size_t without_len);

/* ---- A planner's proposal ---- */

/* Whether a processor proposed for each task is from 1 to m, and the shares at any step (edition 2: the charges) load no processor above
 * S, whoever made the proposal. The m loads, which add up to the sum of the shares (or charges), are written where it is accepted. The
 * policy is not looked at, nor are entries of the proposal past the tasks. Refusals 2, 3, 5 (the proposal has fewer entries than there are
 * tasks, then the output fewer than m), 6, 13, 14. */
struct eelbasket_verdict eelbasket_check_proposal(const struct eelbasket_task *rows, size_t tasks, struct eelbasket_station station,
                                                  uint32_t step, const uint16_t *proposal, size_t proposal_len,
                                                  uint32_t *loads, size_t loads_len);

/* ---- Jobs that need several cores ---- */

/* A task record with a span: cost, span, shortest and longest period in ticks, elasticity. It is good when 1 <= L < Tmin, L < C, Tmax < C,
 * C <= 16 * Tmin, Tmin <= Tmax <= 1,000,000,000 and E <= 1,000,000. */
struct eelbasket_wide_task { uint64_t c; uint32_t l, tmin, tmax, e; };

/* The least passing step on m processors, each task's period and how many cores it takes; no looks, and no swap cost, notch or edition
 * counts here. Refusals 2, 3, 5, 6, 7. */
struct eelbasket_told eelbasket_wide(const struct eelbasket_wide_task *rows, size_t tasks, uint16_t m,
                                     uint32_t *periods, size_t periods_len, uint16_t *cores, size_t cores_len);

/* ---- One record ---- */

/* Why a task record is not good: the first limit that it breaks, in the documents' order. The last is given where the others are kept and q
 * is 0. */
enum eelbasket_reason_number {
    EELBASKET_GOOD = 0,
    EELBASKET_NO_COST = 1,
    EELBASKET_COST_ABOVE_TMIN = 2,
    EELBASKET_TMIN_ABOVE_TMAX = 3,
    EELBASKET_TMAX_TOO_LONG = 4,
    EELBASKET_ELASTICITY_TOO_GREAT = 5,
    EELBASKET_TMIN_OFF_NOTCH = 6,
    EELBASKET_TMAX_OFF_NOTCH = 7,
    EELBASKET_NO_NOTCH = 8,
};

/* The same for a task that needs several cores. */
enum eelbasket_wide_reason_number {
    EELBASKET_WIDE_GOOD = 0,
    EELBASKET_WIDE_NO_SPAN = 1,
    EELBASKET_WIDE_SPAN_NOT_BELOW_TMIN = 2,
    EELBASKET_WIDE_SPAN_NOT_BELOW_COST = 3,
    EELBASKET_WIDE_COST_NOT_ABOVE_TMAX = 4,
    EELBASKET_WIDE_COST_TOO_GREAT = 5,
    EELBASKET_WIDE_TMIN_ABOVE_TMAX = 6,
    EELBASKET_WIDE_TMAX_TOO_LONG = 7,
    EELBASKET_WIDE_ELASTICITY_TOO_GREAT = 8,
};

/* The number of the first limit that a record breaks with a swap cost w and a notch q; 0 where it is good. It refuses nothing. */
uint32_t eelbasket_reason(struct eelbasket_task task, uint16_t w, uint16_t q);

/* The same for a task that needs several cores. It refuses nothing. */
uint32_t eelbasket_wide_reason(struct eelbasket_wide_task task);

/* The share of a record at any step, in parts of EELBASKET_SCALE; 0 where it is not good. Of the station w and q count. It refuses nothing. */
uint32_t eelbasket_share(struct eelbasket_task task, struct eelbasket_station station, uint32_t step);

/* ---- Station sheets ---- */

/* What is granted a task: its period and its processor (0: any). */
struct eelbasket_granted { uint32_t period; uint16_t processor; };

/* The task section and the results section of a sheet: the first n rows count, and after a reading the others are zeros. */
struct eelbasket_table { struct eelbasket_task rows[EELBASKET_MOST_TASKS]; size_t n; };
struct eelbasket_results { struct eelbasket_granted rows[EELBASKET_MOST_TASKS]; size_t n; };

/* A station sheet in numbers. The settings count says how many numbers its settings section has: the first 2 to 5 of policy, m, w, q,
 * edition. A reading keeps it, and w is 0, q is 1 and the edition 1 where the sheet has none. Only eelbasket_write looks at it: the finders
 * use w, q and the edition whatever the count says. */
struct eelbasket_sheet {
    size_t settings_count;
    struct eelbasket_station station;
    struct eelbasket_table table;
    struct eelbasket_results results;
};

/* What a reading tells: the sheet is all zeros, q and the edition too, where it is refused. */
struct eelbasket_reading { uint32_t number; size_t place; struct eelbasket_sheet sheet; };

/* What a call tells that hands over rows or bytes: how many it wrote. */
struct eelbasket_counted { uint32_t number; size_t place, count; };

/* A part of one of two sheets: which (0 the standing, 1 the proposed one), from which place on, and how many bytes. */
struct eelbasket_part { uint32_t which; size_t place, size; };

/* Reads a sheet; it judges neither a number of the settings nor a record. Refusals 8, 9, 3, 10, 11, whichever comes first from the left. */
struct eelbasket_reading eelbasket_read(const uint8_t *sheet, size_t sheet_len);

/* Writes a sheet of 6 + 2s + 16n + 6r bytes, for s settings, n tasks and r results; a setting past the settings count is left out.
 * Refusals 9, 3, 10, 5. */
struct eelbasket_counted eelbasket_write(struct eelbasket_sheet sheet, uint8_t *out, size_t out_len);

/* Reads a sheet and writes it with the plain finder's results, replacing older ones. Refusals of eelbasket_read, then 1 or 15, 2, 6, 7.
 * Unlike the program `pace` it writes no line where it refuses. */
struct eelbasket_counted eelbasket_fill(const uint8_t *sheet, size_t sheet_len, uint8_t out[EELBASKET_LONGEST_SHEET]);

/* Whether a filled sheet has the results that the plain finder gives. Refusals of eelbasket_read, then 1 or 15, 2, 6, 7, then 18, 19.
 * Unlike the program `check_sheet` it writes no line. */
struct eelbasket_verdict eelbasket_check(const uint8_t *sheet, size_t sheet_len);

/* The change-over: the task records of the proposed sheet if it reads and the plain finder accepts it, otherwise those of the standing
 * one under the same condition, otherwise the empty front of the standing sheet. It refuses nothing. */
struct eelbasket_part eelbasket_change_over(const uint8_t *standing, size_t standing_len, const uint8_t *proposed, size_t proposed_len);

/* ---- A table kept with its saturation order ---- */

/* The numbers of a table's tasks with E > 0, ordered by saturation step, ties by record number: the first n entries count. */
struct eelbasket_index { uint16_t entries[EELBASKET_MOST_TASKS]; size_t n; };

/* A table and its index. A change takes them and hands them back changed, with the index worked out afresh, whatever was handed in, and with
 * zeros past both ends. */
struct eelbasket_kept { struct eelbasket_table table; struct eelbasket_index index; };

/* What a change tells: where it is refused, what was handed in is handed back as it was, past the ends too. */
struct eelbasket_changed { uint32_t number; size_t place; struct eelbasket_kept kept; };

/* The table with a task joined at its end, with a swap cost w and a notch q. Refusals 2, 3 (at the count, from 32 on), 6 (the joining task at
 * the count). */
struct eelbasket_changed eelbasket_join(struct eelbasket_kept kept, uint16_t w, uint16_t q, struct eelbasket_task task);

/* The table without a record, from 0; later ones move down by one. Refusals 2, 3 (at the count, above 32), 6, 12. */
struct eelbasket_changed eelbasket_leave(struct eelbasket_kept kept, uint16_t w, uint16_t q, size_t record);

/* ---- Tables from the office: a line `C,Tmin,Tmax,E` for each task ---- */

/* The table of a text, into lent rows. Refusals 16 and 3, whichever comes first from the left, then 5. */
struct eelbasket_counted eelbasket_import(const uint8_t *text, size_t text_len, struct eelbasket_task *rows, size_t rows_len);

/* The text of a table. Refusals 3, 5. */
struct eelbasket_counted eelbasket_export(const struct eelbasket_task *rows, size_t tasks, uint8_t *out, size_t out_len);

/* ---- The release clock on 32 bits ---- */

/* Each task's period and next release, of which the first n count. Start makes a clock; a call takes it and hands it back moved on. */
struct eelbasket_clock { uint32_t periods[EELBASKET_MOST_TASKS], next[EELBASKET_MOST_TASKS]; size_t n; };

/* What a start tells: the clock is all zeros where it is refused. */
struct eelbasket_started { uint32_t number; size_t place; struct eelbasket_clock clock; };

/* What a call tells: how many tasks are handed back (1 or 0), which one (0 for none), and the clock after it. */
struct eelbasket_called { uint32_t number, due; size_t task, place; struct eelbasket_clock clock; };

/* A clock for these periods: each task's next release is the starting tick. Refusals 3, 17. */
struct eelbasket_started eelbasket_clock_start(const uint32_t *periods, size_t tasks, uint32_t tick);

/* The due task that is furthest behind at the present tick, lowest record on a tie. Ticks wrap; each must be at most 1,000,000,000 behind
 * the furthest one given, and no task may fall 2,147,483,648 ticks behind. Refusal 3. */
struct eelbasket_called eelbasket_clock_call(struct eelbasket_clock clock, uint32_t present);

/* ---- The layout, as the proved code has it ---- */

EELBASKET_ASSERT(sizeof(struct eelbasket_task) == 16 && sizeof(struct eelbasket_station) == 10 && sizeof(struct eelbasket_granted) == 8
    && sizeof(struct eelbasket_wide_task) == 24 && offsetof(struct eelbasket_wide_task, tmin) == 12, "the layout of records");
#if SIZE_MAX > 0xffffffff
EELBASKET_ASSERT(sizeof(struct eelbasket_told) == 24 && sizeof(struct eelbasket_verdict) == 16 && sizeof(struct eelbasket_counted) == 24
    && sizeof(struct eelbasket_reading) == 824 && sizeof(struct eelbasket_changed) == 608 && sizeof(struct eelbasket_called) == 288,
    "the layout of what is told");
#endif

#ifdef __cplusplus
}
#endif
#endif
