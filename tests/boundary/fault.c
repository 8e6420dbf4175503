#include <stdio.h>
#include <stdlib.h>
#include "fault.h"
#include "stream.h"

_Noreturn void broken(const char *what, const char *how) {
    fprintf(stderr, "boundary: call %zu: %s: %s\n", call_index(), what, how);
    exit(1);
}

_Noreturn void unreadable(const char *why) {
    fprintf(stderr, "boundary: call %zu: %s\n", call_index(), why);
    exit(2);
}
