// SPDX-License-Identifier: Apache-2.0
// Loaded in front of a program: refuses one of its requests for memory.
//
//   REFUSE=N        the Nth request is refused (0, or no variable: none)
//   REFUSE_AFTER=N  each request after the Nth is refused in a copy of the process, which goes on from there to its end, while the
//                   process itself waits and then gets its memory; the copy of request M has its output in the files M.out and M.err of
//                   the folder REFUSE_FOLDER, and its status in M.status
//   REFUSE_EVERY=K  of them the first one, and then each Kth
//   REFUSE_TOLD=D   the count of requests is written to the descriptor D as the program ends
//
// A copy reads on from where the process is, and begins with what that wrote, so the three standard streams must be files. Of another file that
// is open both would move the place, so copies may be made only if there is none: in lines, over a store in memory.
#define _GNU_SOURCE
#include "in_front.h"
#include <fcntl.h>
#include <sys/sendfile.h>
#include <sys/types.h>
#include <sys/wait.h>

extern void *__libc_malloc(size_t size);
extern void *__libc_realloc(void *old, size_t size);

static long requests, refused, copied_after = -1, copied_every = 1;
static int is_copy;

// Has a descriptor read a file again, from the place where it is, and move apart from the process's own.
static void reopen(int descriptor) {
    char path[32];
    snprintf(path, sizeof path, "/proc/self/fd/%d", descriptor);
    off_t place = lseek(descriptor, 0, SEEK_CUR);
    int anew = open(path, O_RDONLY);
    stop_unless(place >= 0 && anew >= 0 && lseek(anew, place, SEEK_SET) == place && dup2(anew, descriptor) == descriptor);
    close(anew);
}

// Has a descriptor write to a new file, which begins with what was written before.
static void redirect(int descriptor, const char *path) {
    off_t place = lseek(descriptor, 0, SEEK_CUR), copied = 0;
    reopen(descriptor);
    int anew = open(path, O_WRONLY | O_CREAT | O_EXCL, 0600);
    stop_unless(place >= 0 && anew >= 0);
    while (copied < place) {
        stop_unless(sendfile(anew, descriptor, &copied, (size_t)(place - copied)) > 0);
    }
    stop_unless(dup2(anew, descriptor) == descriptor);
    close(anew);
}

static void name_file(char *path, size_t size, long number, const char *end) {
    int length = snprintf(path, size, "%s/%ld.%s", getenv("REFUSE_FOLDER"), number, end);
    stop_unless(length > 0 && (size_t)length < size);
}

static void write_status(int status) {
    char path[256], text[32];
    name_file(path, sizeof path, requests, "status");
    int file = open(path, O_WRONLY | O_CREAT | O_EXCL, 0600);
    int length = snprintf(text, sizeof text, "%d", WIFEXITED(status) ? WEXITSTATUS(status) : -WTERMSIG(status));
    stop_unless(file >= 0 && write(file, text, (size_t)length) == length);
    close(file);
}

// Makes a copy of the process: in it the answer is 1.
static int in_a_copy(void) {
    char path[256];
    int status;
    pid_t child = fork();
    stop_unless(child >= 0);
    if (child > 0) {
        stop_unless(waitpid(child, &status, 0) == child);
        write_status(status);
        return 0;
    }
    is_copy = 1;
    reopen(STDIN_FILENO);
    name_file(path, sizeof path, requests, "out");
    redirect(STDOUT_FILENO, path);
    name_file(path, sizeof path, requests, "err");
    redirect(STDERR_FILENO, path);
    return 1;
}

static int is_refused(void) {
    requests += 1;
    if (copied_after >= 0 && requests > copied_after && (requests - copied_after - 1) % copied_every == 0 && !is_copy) {
        return in_a_copy();
    }
    return requests == refused;
}

__attribute__((constructor)) static void begin(void) {
    refused = number("REFUSE");
    copied_after = number_or("REFUSE_AFTER", -1);
    copied_every = number_or("REFUSE_EVERY", 1);
    requests = 0;
}

void *malloc(size_t size) { return is_refused() ? NULL : __libc_malloc(size); }

void *realloc(void *old, size_t size) { return is_refused() ? NULL : __libc_realloc(old, size); }

__attribute__((destructor)) static void end(void) {
    if (!is_copy) {
        tell("REFUSE_TOLD", requests);
    }
}
