// SPDX-License-Identifier: Apache-2.0
// What the libraries share that are loaded in front of a program: variables of the environment, and a count that is written as the program ends.
#ifndef IN_FRONT_H
#define IN_FRONT_H

#include <stdio.h>
#include <stdlib.h>
#include <sys/syscall.h>
#include <unistd.h>

// The number that a variable has, or another one if there is no variable.
static inline long number_or(const char *name, long otherwise) {
    const char *text = getenv(name);
    return text ? atol(text) : otherwise;
}

static inline long number(const char *name) { return number_or(name, 0); }

// Ends the process, with status 98, if what the library needs is not so.
static inline void stop_unless(int holds) {
    if (!holds) {
        _exit(98);
    }
}

// Writes a count to the descriptor that a variable names, if there is one, past the C library, whose own `write` may be the library's.
static inline void tell(const char *name, long count) {
    const char *to = getenv(name);
    char text[32];
    int length = snprintf(text, sizeof text, "%ld", count);
    if (to && syscall(SYS_write, atoi(to), text, (size_t)length) != length) {
        _exit(99);
    }
}

#endif
