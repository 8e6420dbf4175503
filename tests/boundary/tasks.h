/* What several kinds of call have in common: settings, rows of task records, and the values that outputs hold before a call. */
#ifndef TASKS_H
#define TASKS_H
#include "eelbasket.h"

enum { MOST_ROWS = 65535, NUMBER_BEFORE = 0xA5, SHORT_BEFORE = 0x5A, BYTE_BEFORE = 0xEE };

/* The settings of a call. A further choice crosses as the number that it holds; the settings count goes to the writer only. */
struct settings { struct eelbasket_station station; size_t count; };

struct settings take_settings(void);

/* How many of so many rows the stream has: at most 32. */
size_t present(size_t count);

/* The rows that the stream has of so many. */
void take_tasks(struct eelbasket_task *rows, size_t count);

/* The same, lent as exactly so many rows: those that the stream does not have are zeros. */
const struct eelbasket_task *lend_tasks(size_t count);

void put_tasks(const struct eelbasket_task *rows, size_t count);

#endif
