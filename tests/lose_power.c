// SPDX-License-Identifier: Apache-2.0
// Loaded in front of a program: the power goes at one of its calls on files, those that write at a place, change a length, or sync.
//
//   LOSE_AT=N      it goes at the Nth call (0, or no variable: never). What was written to a file since it was synced is taken back,
//                  with changes of its length; of the last write a part is made; and the process ends by SIGKILL
//   LOSE_KEPT=K    of what was not synced the first K calls stay
//   LOSE_PART=B    of the last write at most B bytes are made
//   LOSE_SYNCED=1  the last change that was synced is taken back too, and no part is made: so a disk lies that had answered the sync
//   LOSE_TOLD=D    the count of calls is written to the descriptor D as the program ends
//
// What a call changes is done at once, and what stood there is kept until the file is synced. A file is known by its descriptor, so no two may be
// open on one. Calls on folders go by: that a new file is in its folder is not lost.
#define _GNU_SOURCE
#include "in_front.h"
#include <signal.h>
#include <string.h>
#include <sys/stat.h>

#define MOST 100000

// What a call has changed: from a place on, and the length.
struct change {
    int file, is_synced;
    off_t at, length;
    size_t size;
    char *before;
};

static struct change changes[MOST];
static long count, calls, losing_at, kept, part, synced_too;
// The last write: where and what, and which change it made.
static char *last_bytes;
static size_t last_size;
static off_t last_at;
static long last = -1;
// The last change that was synced: of those before it nothing is kept.
static long last_synced = -1;

__attribute__((constructor)) static void begin(void) {
    losing_at = number("LOSE_AT");
    kept = number("LOSE_KEPT");
    part = number("LOSE_PART");
    synced_too = number("LOSE_SYNCED");
}

__attribute__((destructor)) static void end(void) { tell("LOSE_TOLD", calls); }

static int is_file(int place) {
    struct stat found;
    return fstat(place, &found) == 0 && S_ISREG(found.st_mode);
}

static off_t length_of(int file) {
    struct stat found;
    stop_unless(fstat(file, &found) == 0);
    return found.st_size;
}

static void put(int file, const char *bytes, size_t size, off_t at) {
    stop_unless(size == 0 || syscall(SYS_pwrite64, file, bytes, size, at) == (long)size);
}

static void set_length(int file, off_t length) { stop_unless(syscall(SYS_ftruncate, file, length) == 0); }

// Keeps what stands from a place on, as far as the file goes.
static void note(int file, off_t at, size_t size) {
    off_t length = length_of(file);
    size = at >= length ? 0 : size > (size_t)(length - at) ? (size_t)(length - at) : size;
    stop_unless(count < MOST);
    struct change *new = &changes[count++];
    *new = (struct change){.file = file, .at = at, .length = length, .size = size, .before = malloc(size + 1)};
    stop_unless(new->before && (size == 0 || syscall(SYS_pread64, file, new->before, size, at) == (long)size));
}

static void note_write(int file, const char *bytes, size_t size, off_t at) {
    last = count;
    note(file, at, size);
    free(last_bytes);
    last_bytes = malloc(size + 1);
    stop_unless(last_bytes != NULL);
    memcpy(last_bytes, bytes, size);
    last_size = size;
    last_at = at;
}

static void take_back(const struct change *done) {
    put(done->file, done->before, done->size, done->at);
    set_length(done->file, done->length);
}

static void lose_power(void) {
    long unsynced = 0, place;
    for (place = 0; place < count; place++) {
        unsynced += !changes[place].is_synced;
    }
    for (place = count - 1; place >= 0; place--) {
        if (!changes[place].is_synced && unsynced-- > kept) {
            take_back(&changes[place]);
        }
    }
    if (synced_too) {
        if (last_synced >= 0) {
            take_back(&changes[last_synced]);
        }
    } else if (last >= 0 && !changes[last].is_synced) {
        put(changes[last].file, last_bytes, last_size < (size_t)part ? last_size : (size_t)part, last_at);
    }
    kill(getpid(), SIGKILL);
}

// Counts a call, before it is done.
static void called(void) {
    calls += 1;
    if (calls == losing_at) {
        lose_power();
    }
}

// Each call below goes to the kernel past the C library, whose own functions of these names are ours now.

ssize_t pwrite(int place, const void *bytes, size_t size, off_t at) {
    if (is_file(place)) {
        note_write(place, bytes, size, at);
        called();
    }
    return syscall(SYS_pwrite64, place, bytes, size, at);
}

int ftruncate(int place, off_t length) {
    if (is_file(place)) {
        off_t before = length_of(place);
        note(place, length, before > length ? (size_t)(before - length) : 0);
        called();
    }
    return (int)syscall(SYS_ftruncate, place, length);
}

static void mark_synced(int file) {
    for (long i = 0; i < count; i++) {
        if (changes[i].file == file && !changes[i].is_synced) {
            changes[i].is_synced = 1;
            if (last_synced >= 0) {
                free(changes[last_synced].before);
                changes[last_synced].before = NULL;
            }
            last_synced = i;
        }
    }
}

// Past it what was changed in a file is not lost any more.
static int synced(int place, long call) {
    int answer;
    if (is_file(place)) {
        called();
    }
    answer = (int)syscall(call, place);
    if (answer == 0) {
        mark_synced(place);
    }
    return answer;
}

int fsync(int place) { return synced(place, SYS_fsync); }

int fdatasync(int place) { return synced(place, SYS_fdatasync); }
