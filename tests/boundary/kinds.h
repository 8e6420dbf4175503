/* The kinds of call: each takes what it is asked from the stream, makes the call and puts the answer. */
#ifndef KINDS_H
#define KINDS_H

/* on tables */
void answer_plain(void);
void answer_quick(void);
void answer_margin(void);
void answer_relief(void);
void answer_wide(void);
void answer_proposal(void);

/* on one record */
void answer_record(void);
void answer_wide_record(void);

/* on sheets */
void answer_read(void);
void answer_write(void);
void answer_change_over(void);
void answer_fill(void);
void answer_check(void);

/* of a kept table */
void answer_keep(void);

/* of the release clock */
void answer_clock(void);

/* of the office */
void answer_import(void);
void answer_export(void);

#endif
