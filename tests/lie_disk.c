// SPDX-License-Identifier: Apache-2.0
// Loaded in front of a program: one of its reads of a store's files is answered with other bytes than the file holds, and no fault. Counted are
// the reads at a place, which the program makes of the database and of its log alone. By variables of the environment:
//
//   LIE_AT=N        the Nth read is answered so (0, or no variable: none)
//   LIE_KIND=K      1: bytes that are drawn; 2: one bit is turned; 3: what stood there earlier; 4: zeros
//   LIE_SEED=S      draws the bytes or the bit
//   LIE_LASTS=1     later reads of these bytes are answered so too, until they are written
//   LIE_OLDER=PATH  earlier forms of the two files are at PATH and PATH-wal. What the program itself has written over comes before them
//   LIE_TOLD=D      as the program ends, figures are written to the descriptor D: how many reads there were before the first read of the
//                   standard input, so by the open; before the last one, so by the open and by lines; and in all; how many were answered with
//                   other bytes, and of which file the first of them was (d: the database, w: its log, -: none was)
#define _GNU_SOURCE
#include "in_front.h"
#include <fcntl.h>
#include <string.h>
#include <sys/stat.h>

#define MOST 100000
enum { DRAWN = 1, BIT, OLDER, ZEROS };

// What a write has taken the place of.
struct change {
    int file;
    off_t at;
    size_t size;
    char *before;
};

static struct change changes[MOST];
static long count, reads, of_open = -1, of_lines, lies, lying_at, kind, lasts;
static unsigned long long seed;
static char first_file = '-';
// The lie that was told: of which file, from where on, the bytes, and which of them still stand.
static int lie_file = -1;
static off_t lie_at;
static size_t lie_size;
static char *lie_bytes, *lie_stands;

__attribute__((constructor)) static void begin(void) {
    lying_at = number("LIE_AT");
    kind = number("LIE_KIND");
    lasts = number("LIE_LASTS");
    seed = (unsigned long long)number("LIE_SEED") * 2 + 1;
}

__attribute__((destructor)) static void end(void) {
    const char *to = getenv("LIE_TOLD");
    char text[96];
    int is_open = of_open >= 0;
    int length = snprintf(text, sizeof text, "%ld %ld %ld %ld %c", is_open ? of_open : reads, is_open ? of_lines : reads, reads, lies, first_file);
    if (to && syscall(SYS_write, atoi(to), text, (size_t)length) != length) {
        _exit(99);
    }
}

static int is_log(int file) {
    char place[64], path[4096];
    snprintf(place, sizeof place, "/proc/self/fd/%d", file);
    ssize_t length = readlink(place, path, sizeof path - 1);
    return length > 4 && memcmp(path + length - 4, "-wal", 4) == 0;
}

// The next of the bytes that the seed draws (splitmix64).
static unsigned long long drawn(void) {
    unsigned long long next = seed += 0x9e3779b97f4a7c15ULL;
    next = (next ^ (next >> 30)) * 0xbf58476d1ce4e5b9ULL;
    next = (next ^ (next >> 27)) * 0x94d049bb133111ebULL;
    return next ^ (next >> 31);
}

// Keeps what a write is about to take the place of, as far as the file goes.
static void note(int file, size_t size, off_t at) {
    struct stat found;
    stop_unless(count < MOST && fstat(file, &found) == 0);
    size = at >= found.st_size ? 0 : size > (size_t)(found.st_size - at) ? (size_t)(found.st_size - at) : size;
    struct change *new = &changes[count++];
    *new = (struct change){.file = file, .at = at, .size = size, .before = malloc(size + 1)};
    stop_unless(new->before && syscall(SYS_pread64, file, new->before, size, at) == (long)size);
}

// Where two ranges of bytes overlap: from where, up to where.
static int overlap(off_t at, size_t size, off_t other_at, size_t other_size, off_t *from, off_t *to) {
    off_t end = at + (off_t)size, other_end = other_at + (off_t)other_size;
    *from = at > other_at ? at : other_at;
    *to = end < other_end ? end : other_end;
    return *from < *to;
}

// Puts what stood at a place earlier over the bytes that stand there now: before this run, and then before the last write in it.
static void put_older(int file, char *bytes, size_t size, off_t at) {
    const char *older = getenv("LIE_OLDER");
    char path[4096];
    off_t from, to;
    if (older) {
        snprintf(path, sizeof path, "%s%s", older, is_log(file) ? "-wal" : "");
        int place = open(path, O_RDONLY);
        stop_unless(place >= 0 && syscall(SYS_pread64, place, bytes, size, at) >= 0);
        close(place);
    }
    for (long i = 0; i < count; i++) {
        if (changes[i].file == file && overlap(at, size, changes[i].at, changes[i].size, &from, &to)) {
            memcpy(bytes + (from - at), changes[i].before + (from - changes[i].at), (size_t)(to - from));
        }
    }
}

static void put_lie(int file, char *bytes, size_t size, off_t at) {
    if (kind == DRAWN) {
        for (size_t i = 0; i < size; i++) {
            bytes[i] = (char)(drawn() >> 32);
        }
    } else if (kind == BIT) {
        unsigned long long bit = (drawn() >> 8) % (size * 8);
        bytes[bit / 8] ^= (char)(1 << bit % 8);
    } else if (kind == OLDER) {
        put_older(file, bytes, size, at);
    } else {
        stop_unless(kind == ZEROS);
        memset(bytes, 0, size);
    }
}

// Tells a lie in place of the bytes, and keeps it.
static void lie(int file, char *bytes, size_t size, off_t at) {
    char *truth = malloc(size);
    lie_bytes = malloc(size);
    lie_stands = malloc(size);
    stop_unless(truth && lie_bytes && lie_stands);
    memcpy(truth, bytes, size);
    put_lie(file, bytes, size, at);
    if (memcmp(truth, bytes, size) != 0) {
        lies += 1;
        first_file = is_log(file) ? 'w' : 'd';
        memcpy(lie_bytes, bytes, size);
        memset(lie_stands, 1, size);
        lie_file = file;
        lie_at = at;
        lie_size = size;
    }
    free(truth);
}

// Tells the lie again, of the bytes that it was about.
static void lie_again(int file, char *bytes, size_t size, off_t at) {
    off_t from, to;
    int differs = 0;
    if (!lasts || file != lie_file || !overlap(at, size, lie_at, lie_size, &from, &to)) {
        return;
    }
    for (off_t place = from; place < to; place++) {
        if (lie_stands[place - lie_at]) {
            differs |= bytes[place - at] != lie_bytes[place - lie_at];
            bytes[place - at] = lie_bytes[place - lie_at];
        }
    }
    lies += differs;
}

static void end_lie(int file, size_t size, off_t at) {
    off_t from, to;
    if (file == lie_file && overlap(at, size, lie_at, lie_size, &from, &to)) {
        memset(lie_stands + (from - lie_at), 0, (size_t)(to - from));
    }
}

// Each call below goes to the kernel past the C library, whose own functions of these names are ours now.

ssize_t pread(int file, void *bytes, size_t size, off_t at) {
    ssize_t got = syscall(SYS_pread64, file, bytes, size, at);
    reads += 1;
    if (got > 0 && reads == lying_at) {
        lie(file, bytes, (size_t)got, at);
    } else if (got > 0) {
        lie_again(file, bytes, (size_t)got, at);
    }
    return got;
}

ssize_t pwrite(int file, const void *bytes, size_t size, off_t at) {
    if (lying_at && kind == OLDER && reads < lying_at) {
        note(file, size, at);
    }
    end_lie(file, size, at);
    return syscall(SYS_pwrite64, file, bytes, size, at);
}

// The store is open before the first line is read.
ssize_t read(int place, void *bytes, size_t size) {
    if (place == STDIN_FILENO) {
        of_open = of_open < 0 ? reads : of_open;
        of_lines = reads;
    }
    return syscall(SYS_read, place, bytes, size);
}
