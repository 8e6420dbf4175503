/* Times the library's finders, joins and leaves beside those of reference.c on the same tables, after checking that they agree, and prints
 * ratios. */
#include <stdio.h>
#include <time.h>
#include "reference.h"

static uint32_t periods[33], other_periods[33];
static uint16_t processors[33], other_processors[33];

/* The time that this process has run, not that of the wall: the machine may do other work. */
static double now(void) {
    struct timespec t;
    clock_gettime(CLOCK_PROCESS_CPUTIME_ID, &t);
    return (double)t.tv_sec * 1e9 + (double)t.tv_nsec;
}

static double batch(finder *f, const struct eelbasket_task *rows, size_t n, struct eelbasket_station s, long calls) {
    double start = now();
    for (long i = 0; i < calls; i++) f(rows, n, s, periods, 33, processors, 33);
    return (now() - start) / (double)calls;
}

enum { MOST_FORMS = 4 };

/* The best time of one call of each in nanoseconds: they take turns, in batches of some 0.1 ms or of one call, for half a second or
   more, so that what else the machine does falls on all. */
static void time_of(finder *const *f, int forms, const struct eelbasket_task *rows, size_t n, struct eelbasket_station s, double *best) {
    long calls = (long)(1e5 / (batch(f[0], rows, n, s, 3) + 1)) + 1;
    double start = now();
    for (int j = 0; j < forms; j++) best[j] = 1e18;
    for (int turn = 0; turn < 5 || now() - start < 5e8; turn++)
        for (int j = 0; j < forms; j++) {
            double x = batch(f[j], rows, n, s, calls);
            if (x < best[j]) best[j] = x;
        }
}

static int agree(finder *f, finder *g, const struct eelbasket_task *rows, size_t n, struct eelbasket_station s) {
    for (int i = 0; i < 33; i++) periods[i] = other_periods[i] = 7, processors[i] = other_processors[i] = 9;
    struct eelbasket_told a = f(rows, n, s, periods, 33, processors, 33), b = g(rows, n, s, other_periods, 33, other_processors, 33);
    int same = a.number == b.number && a.step == b.step && a.looks == b.looks && a.place == b.place;
    for (int i = 0; i < 33; i++) same = same && periods[i] == other_periods[i] && processors[i] == other_processors[i];
    return same;
}

/* The library's finder, f[0], beside the best of the C forms that follow it. */
static int row(const char *name, const char *what, finder *const *f, int forms, const struct eelbasket_task *rows, size_t n, struct eelbasket_station s) {
    for (int j = 1; j < forms; j++)
        if (!agree(f[0], f[j], rows, n, s)) {
            printf("%s, %s: the two do not agree\n", name, what);
            return 0;
        }
    double best[MOST_FORMS], c = 1e18;
    time_of(f, forms, rows, n, s, best);
    for (int j = 1; j < forms; j++)
        if (best[j] < c) c = best[j];
    printf("| %s | %s | %.0f | %.0f | %.2f |\n", name, what, best[0], c, best[0] / c);
    return 1;
}

static int plain(const char *name, const char *what, const struct eelbasket_task *rows, size_t n, struct eelbasket_station s) {
    static finder *const forms[] = {eelbasket_plain, reference_multiplied, reference_select, reference_max};
    return row(name, what, forms, 4, rows, n, s);
}

static int quick(const char *name, const char *what, const struct eelbasket_task *rows, size_t n, struct eelbasket_station s) {
    static finder *const forms[] = {eelbasket_quick, reference_quick};
    return row(name, what, forms, 2, rows, n, s);
}

/* A join of the task, or a leave of the record in the middle. */
typedef struct eelbasket_changed change(const struct eelbasket_kept *kept, struct eelbasket_task task);

enum { SWAP = 5, NOTCH = 1 };

static struct eelbasket_changed join(const struct eelbasket_kept *kept, struct eelbasket_task task) {
    return eelbasket_join(*kept, SWAP, NOTCH, task);
}

static struct eelbasket_changed join_in_c(const struct eelbasket_kept *kept, struct eelbasket_task task) {
    return reference_join(*kept, SWAP, NOTCH, task);
}

static struct eelbasket_changed leave(const struct eelbasket_kept *kept, struct eelbasket_task task) {
    (void)task;
    return eelbasket_leave(*kept, SWAP, NOTCH, kept->table.n / 2);
}

static struct eelbasket_changed leave_in_c(const struct eelbasket_kept *kept, struct eelbasket_task task) {
    (void)task;
    return reference_leave(*kept, SWAP, NOTCH, kept->table.n / 2);
}

static int same_change(const struct eelbasket_changed *a, const struct eelbasket_changed *b) {
    int same = a->number == b->number && a->place == b->place && a->kept.table.n == b->kept.table.n && a->kept.index.n == b->kept.index.n;
    for (int i = 0; i < 32; i++) {
        const struct eelbasket_task *t = &a->kept.table.rows[i], *u = &b->kept.table.rows[i];
        same = same && t->c == u->c && t->tmin == u->tmin && t->tmax == u->tmax && t->e == u->e;
        same = same && a->kept.index.entries[i] == b->kept.index.entries[i];
    }
    return same;
}

static double change_batch(change *f, const struct eelbasket_kept *kept, struct eelbasket_task task, long calls) {
    static struct eelbasket_changed changed;
    double start = now();
    for (long i = 0; i < calls; i++) changed = f(kept, task);
    return (now() - start) / (double)calls + 0 * (double)changed.number;
}

static int change_row(const char *name, const char *what, change *const *f, const struct eelbasket_kept *kept, struct eelbasket_task task) {
    struct eelbasket_changed a = f[0](kept, task), b = f[1](kept, task);
    if (a.number != 0 || !same_change(&a, &b)) {
        printf("%s, %s: the two do not agree\n", name, what);
        return 0;
    }
    double best[] = {1e18, 1e18}, start = now();
    for (int turn = 0; turn < 5 || now() - start < 5e8; turn++)
        for (int j = 0; j < 2; j++) {
            double x = change_batch(f[j], kept, task, 100);
            if (x < best[j]) best[j] = x;
        }
    printf("| %s | %s | %.0f | %.0f | %.2f |\n", name, what, best[0], best[1], best[0] / best[1]);
    return 1;
}

/* A join to all rows but the last, and a leave of all of them. */
static int changes(const char *name, const struct eelbasket_task *rows, size_t n) {
    static struct eelbasket_kept kept;
    static change *const joins[] = {join, join_in_c}, *const leaves[] = {leave, leave_in_c};
    for (size_t i = 0; i < n; i++) kept.table.rows[i] = rows[i];
    kept.table.n = n - 1;
    int ok = change_row(name, "join", joins, &kept, rows[n - 1]);
    kept.table.n = n;
    return ok & change_row(name, "leave", leaves, &kept, rows[n - 1]);
}

static void spread(struct eelbasket_task *rows, int n, uint32_t from, uint32_t step) {
    for (int i = 0; i < n; i++) rows[i] = (struct eelbasket_task){(uint32_t)(300 + 17 * i), (uint32_t)(1000 + 31 * i), (uint32_t)(9000 + 501 * i), from + step * (uint32_t)i};
}

/* The same tasks with periods of whole notches. */
static void notch(struct eelbasket_task *rows, int n, uint32_t q) {
    for (int i = 0; i < n; i++) rows[i].tmin -= rows[i].tmin % q, rows[i].tmax -= rows[i].tmax % q;
}

int main(void) {
    static struct eelbasket_task rows[32];
    int ok = 1;
    printf("| table | finder | library, ns | C, ns | ratio |\n|---|---|---|---|---|\n");
    for (int wide = 1; wide >= 0; wide--) {
        spread(rows, 20, wide ? 100 : 1, wide ? 100 : 1);
        const char *name = wide ? "20 tasks, m = 4, E 100 to 2000" : "20 tasks, m = 4, E 1 to 20";
        const char *one_core = wide ? "20 tasks, m = 1, E 100 to 2000" : "20 tasks, m = 1, E 1 to 20";
        ok &= quick(name, "quick, policy 1", rows, 20, (struct eelbasket_station){1, 4, 0, 1, 1});
        ok &= quick(name, "quick, policy 2", rows, 20, (struct eelbasket_station){2, 4, 0, 1, 1});
        ok &= plain(name, "plain, policy 1", rows, 20, (struct eelbasket_station){1, 4, 0, 1, 1});
        ok &= plain(name, "plain, policy 2", rows, 20, (struct eelbasket_station){2, 4, 0, 1, 1});
        ok &= plain(name, "plain, policy 4", rows, 20, (struct eelbasket_station){4, 4, 0, 1, 1});
        ok &= quick(name, "quick, policy 2, w = 50", rows, 20, (struct eelbasket_station){2, 4, 50, 1, 1});
        ok &= plain(name, "plain, policy 2, w = 50", rows, 20, (struct eelbasket_station){2, 4, 50, 1, 1});
        ok &= quick(one_core, "quick, policy 5", rows, 20, (struct eelbasket_station){5, 1, 0, 1, 1});
        ok &= plain(one_core, "plain, policy 5", rows, 20, (struct eelbasket_station){5, 1, 0, 1, 1});
        ok &= quick(name, "quick, policy 1, edition 2", rows, 20, (struct eelbasket_station){1, 4, 0, 1, 2});
        ok &= quick(name, "quick, policy 2, edition 2", rows, 20, (struct eelbasket_station){2, 4, 0, 1, 2});
        ok &= plain(name, "plain, policy 2, edition 2", rows, 20, (struct eelbasket_station){2, 4, 0, 1, 2});
        ok &= plain(name, "plain, policy 4, edition 2", rows, 20, (struct eelbasket_station){4, 4, 0, 1, 2});
        notch(rows, 20, 10);
        ok &= quick(name, "quick, policy 2, q = 10", rows, 20, (struct eelbasket_station){2, 4, 0, 10, 1});
        ok &= plain(name, "plain, policy 2, q = 10", rows, 20, (struct eelbasket_station){2, 4, 0, 10, 1});
        ok &= quick(name, "quick, policy 2, q = 10, edition 2", rows, 20, (struct eelbasket_station){2, 4, 0, 10, 2});
        ok &= plain(name, "plain, policy 2, q = 10, edition 2", rows, 20, (struct eelbasket_station){2, 4, 0, 10, 2});
    }
    spread(rows, 32, 100, 100);
    ok &= changes("20 tasks, E 100 to 2000", rows, 20);
    ok &= changes("32 tasks, E 100 to 3200", rows, 32);
    for (int i = 0; i < 32; i++) rows[i].e = (uint32_t)(13 * i % 32 * 100 + 100);
    ok &= changes("32 tasks, E mixed", rows, 32);
    for (int i = 0; i < 32; i++) rows[i] = (struct eelbasket_task){1, 1, 1000000000, 1};
    ok &= quick("case J", "quick", rows, 2, (struct eelbasket_station){1, 1, 0, 1, 1});
    ok &= plain("case J", "plain", rows, 2, (struct eelbasket_station){1, 1, 0, 1, 1});
    ok &= quick("case J", "quick, edition 2", rows, 2, (struct eelbasket_station){1, 1, 0, 1, 2});
    ok &= plain("case J", "plain, edition 2", rows, 2, (struct eelbasket_station){1, 1, 0, 1, 2});
    ok &= quick("32 tasks of case J's kind, m = 16", "quick", rows, 32, (struct eelbasket_station){1, 16, 0, 1, 1});
    ok &= plain("32 tasks of case J's kind, m = 16", "plain", rows, 32, (struct eelbasket_station){1, 16, 0, 1, 1});
    for (int i = 1; i < 32; i++) rows[i] = (struct eelbasket_task){600, 1000, 1000, 0};
    ok &= quick("K = 999,999, refused", "quick, edition 2", rows, 32, (struct eelbasket_station){1, 16, 0, 1, 2});
    ok &= plain("K = 999,999, refused", "plain, edition 2", rows, 32, (struct eelbasket_station){1, 16, 0, 1, 2});
    ok &= plain("first fit, K = 999,999, refused", "plain, policy 4", rows, 20, (struct eelbasket_station){4, 16, 0, 1, 1});
    return ok ? 0 : 1;
}
