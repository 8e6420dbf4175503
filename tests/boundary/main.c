/* Reads a stream of calls on standard input, makes each through the library that a controller links, and writes the answers to standard
   output. Status 1: the library has not kept what the header says. Status 2: the stream cannot be read. */
#include <stdio.h>
#include "answer.h"
#include "fault.h"
#include "kinds.h"
#include "lend.h"
#include "stream.h"

/* In the order of the kinds, from kind 1. */
static void (*const answers[])(void) = {
    answer_plain, answer_quick, answer_margin, answer_read,   answer_write,  answer_change_over, answer_fill,
    answer_wide,  answer_check, answer_clock,  answer_import, answer_export, answer_proposal,    answer_keep,
    answer_relief, answer_record, answer_wide_record,
};

int main(void) {
    while (next_call()) {
        uint64_t kind = take_number(1);
        if (kind < 1 || kind > sizeof answers / sizeof *answers) unreadable("there is no such kind of call");
        answers[kind - 1]();
        if (bytes_left() > 0) unreadable("bytes follow the call's last field");
        settle_loans();
        send_answer();
    }
    if (fflush(stdout) != 0) unreadable("the answers cannot be written");
    return 0;
}
