// SPDX-License-Identifier: Apache-2.0
// Loaded in front of a program: ends it at one of the calls by which it changes a file, before the call is made. Counted are the calls that write
// to a file, set its length and have it synced; those on the standard streams go by. By variables of the environment:
//
//   STOP=N       the Nth such call ends the process, with status 97 (0, or no variable: none)
//   STOP_HALF=1  if that call writes, it writes the first half of its bytes before
//   STOP_TOLD=D  the count of calls is written to the descriptor D as the program ends
#define _GNU_SOURCE
#include "in_front.h"

static long calls, stopping, halves;

__attribute__((constructor)) static void begin(void) {
    stopping = number("STOP");
    halves = number("STOP_HALF");
}

// Counts a call on a file, and tells whether the process ends by it.
static int is_last(int place) {
    return place > STDERR_FILENO && ++calls == stopping;
}

// Each call below goes to the kernel past the C library, whose own functions of these names are ours now.

ssize_t pwrite(int place, const void *bytes, size_t size, off_t at) {
    if (is_last(place)) {
        if (halves) {
            syscall(SYS_pwrite64, place, bytes, size / 2, at);
        }
        _exit(97);
    }
    return syscall(SYS_pwrite64, place, bytes, size, at);
}

ssize_t write(int place, const void *bytes, size_t size) {
    if (is_last(place)) {
        if (halves) {
            syscall(SYS_write, place, bytes, size / 2);
        }
        _exit(97);
    }
    return syscall(SYS_write, place, bytes, size);
}

int ftruncate(int place, off_t size) {
    if (is_last(place)) {
        _exit(97);
    }
    return (int)syscall(SYS_ftruncate, place, size);
}

int fsync(int place) {
    if (is_last(place)) {
        _exit(97);
    }
    return (int)syscall(SYS_fsync, place);
}

int fdatasync(int place) {
    if (is_last(place)) {
        _exit(97);
    }
    return (int)syscall(SYS_fdatasync, place);
}

__attribute__((destructor)) static void end(void) { tell("STOP_TOLD", calls); }
