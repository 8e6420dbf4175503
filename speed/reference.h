/* Both finders, a join and a leave in C, to compare with: the same promises, the same algorithms, written as one would for speed. */
#ifndef REFERENCE_H
#define REFERENCE_H
#include "eelbasket.h"

typedef struct eelbasket_told finder(const struct eelbasket_task *rows, size_t tasks, struct eelbasket_station station, uint32_t *periods,
                                     size_t periods_len, uint16_t *processors, size_t processors_len);

/* The plain finder. Each divides once for a call; the shares of a step are multiplied out of the springs, or carried from the step
   before, in a select or a maximum. */
finder reference_multiplied, reference_select, reference_max;

/* The quick finder. Each of them serves both editions: edition 2 tests charges, two divisions for a task and step, and the quick finder
   halves the range of steps. */
finder reference_quick;

/* A join, and a leave: the index is sorted by insertion. */
struct eelbasket_changed reference_join(struct eelbasket_kept kept, uint16_t w, uint16_t q, struct eelbasket_task task);
struct eelbasket_changed reference_leave(struct eelbasket_kept kept, uint16_t w, uint16_t q, size_t place);
#endif
