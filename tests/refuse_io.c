// SPDX-License-Identifier: Apache-2.0
// Loaded in front of a program: refuses its Nth read, write or accept, and gives its reads and writes little at a time. Counted are
// the calls on the standard input, the standard output and sockets; those on files, as of settings and stores, and on the standard
// error go by. By variables of the environment, of which one that is missing, or 0, changes nothing:
//
//   REFUSE_READ=N, REFUSE_WRITE=N           the Nth read, the Nth write fails with EIO
//   REFUSE_STALL=N                          the Nth write takes nothing: it answers 0
//   REFUSE_ACCEPT=N                         the Nth accept fails with EMFILE
//   REFUSE_READ_MOST=K, REFUSE_WRITE_MOST=K each read gives, each write takes at most K bytes
#define _GNU_SOURCE
#include "in_front.h"
#include <errno.h>
#include <sys/socket.h>
#include <sys/stat.h>

static long read_failing, read_most, write_failing, write_stalling, write_most, accept_failing;
static long reads, writes, accepts;

__attribute__((constructor)) static void begin(void) {
    read_failing = number("REFUSE_READ");
    read_most = number("REFUSE_READ_MOST");
    write_failing = number("REFUSE_WRITE");
    write_stalling = number("REFUSE_STALL");
    write_most = number("REFUSE_WRITE_MOST");
    accept_failing = number("REFUSE_ACCEPT");
}

static int is_counted(int place) {
    struct stat found;
    return place == STDIN_FILENO || place == STDOUT_FILENO || (fstat(place, &found) == 0 && S_ISSOCK(found.st_mode));
}

static size_t cut(size_t size, long most) { return most > 0 && size > (size_t)most ? (size_t)most : size; }

static int fails(int error) {
    errno = error;
    return -1;
}

// Each call below goes to the kernel past the C library, whose own functions of these names are ours now.

static ssize_t received(int place, void *bytes, size_t size, int flags, int from_socket) {
    if (is_counted(place)) {
        reads += 1;
        if (reads == read_failing) {
            return fails(EIO);
        }
        size = cut(size, read_most);
    }
    return from_socket ? syscall(SYS_recvfrom, place, bytes, size, flags, NULL, NULL) : syscall(SYS_read, place, bytes, size);
}

static ssize_t sent(int place, const void *bytes, size_t size, int flags, int to_socket) {
    if (is_counted(place)) {
        writes += 1;
        if (writes == write_failing) {
            return fails(EIO);
        }
        if (writes == write_stalling) {
            return 0;
        }
        size = cut(size, write_most);
    }
    return to_socket ? syscall(SYS_sendto, place, bytes, size, flags, NULL, 0) : syscall(SYS_write, place, bytes, size);
}

ssize_t read(int place, void *bytes, size_t size) { return received(place, bytes, size, 0, 0); }

ssize_t recv(int place, void *bytes, size_t size, int flags) { return received(place, bytes, size, flags, 1); }

ssize_t write(int place, const void *bytes, size_t size) { return sent(place, bytes, size, 0, 0); }

ssize_t __write(int place, const void *bytes, size_t size) { return sent(place, bytes, size, 0, 0); }

ssize_t send(int place, const void *bytes, size_t size, int flags) { return sent(place, bytes, size, flags, 1); }

int accept4(int place, struct sockaddr *peer, socklen_t *length, int flags) {
    accepts += 1;
    return accepts == accept_failing ? fails(EMFILE) : (int)syscall(SYS_accept4, place, peer, length, flags);
}

int accept(int place, struct sockaddr *peer, socklen_t *length) { return accept4(place, peer, length, 0); }
