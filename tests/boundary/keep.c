/* Changes of a table that is kept with its saturation order: kind 14. */
#include "answer.h"
#include "eelbasket.h"
#include "fault.h"
#include "kinds.h"
#include "stream.h"
#include "tasks.h"

static struct eelbasket_kept take_kept(void) {
    struct eelbasket_kept kept;
    kept.table.n = (size_t)take_number(2);
    take_tasks(kept.table.rows, EELBASKET_MOST_TASKS);
    kept.index.n = (size_t)take_number(2);
    for (size_t i = 0; i < EELBASKET_MOST_TASKS; i++) kept.index.entries[i] = (uint16_t)take_number(2);
    return kept;
}

static void put_kept(const struct eelbasket_kept *kept) {
    put_number(kept->table.n, 2);
    put_tasks(kept->table.rows, EELBASKET_MOST_TASKS);
    put_number(kept->index.n, 2);
    for (size_t i = 0; i < EELBASKET_MOST_TASKS; i++) put_number(kept->index.entries[i], 2);
}

void answer_keep(void) {
    uint64_t change = take_number(1);
    if (change > 1) unreadable("a kept table changes in no such way");
    uint16_t w = (uint16_t)take_number(2);
    uint16_t q = (uint16_t)take_number(2);
    struct eelbasket_kept kept = take_kept();
    struct eelbasket_changed told;
    if (change == 0) {
        struct eelbasket_task task;
        take_tasks(&task, 1);
        told = eelbasket_join(kept, w, q, task);
    } else {
        told = eelbasket_leave(kept, w, q, (size_t)take_number(2));
    }
    put_verdict(told.number, told.place);
    put_kept(&told.kept);
}
