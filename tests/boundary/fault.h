/* The two ways in which the program stops before the stream's end, each with a line on standard error. */
#ifndef FAULT_H
#define FAULT_H

/* The library has not kept what the header says: status 1. */
_Noreturn void broken(const char *what, const char *how);

/* The stream is not one of calls: status 2. */
_Noreturn void unreadable(const char *why);

#endif
