// SPDX-License-Identifier: Apache-2.0
// What the replies to lines cost by themselves: reads lines by blocks of 4,096 bytes, and gives each a reply
// by one write, before it takes the next one. The reply is the bytes after `W `, a line end, and the end mark:
// those of a line `1 W 1`. Built by `cc -O2`; `tools/bench.py` times it beside the program.
#include <stdio.h>
#include <string.h>
#include <unistd.h>

// The bytes of a line, and how many there are.
static char line[4096];
static size_t length;

// Replies to the line: its terminal, a minus and what stands after the command; then the terminal and a point.
static int reply(void) {
    char text[sizeof line * 2 + 8];
    char *space = memchr(line, ' ', length);
    size_t terminal = space ? (size_t)(space - line) : 0, from = terminal + 3, size = 0;
    memcpy(text, line, terminal), size = terminal;
    text[size++] = '-';
    if (from < length) memcpy(text + size, line + from, length - from), size += length - from;
    text[size++] = '\n';
    memcpy(text + size, line, terminal), size += terminal;
    text[size++] = '.', text[size++] = '\n';
    return write(STDOUT_FILENO, text, size) == (ssize_t)size;
}

int main(void) {
    char block[4096];
    for (ssize_t read_now; (read_now = read(STDIN_FILENO, block, sizeof block)) > 0;) {
        for (char *at = block, *end = block + read_now; at < end;) {
            char *feed = memchr(at, '\n', (size_t)(end - at));
            size_t part = (size_t)((feed ? feed : end) - at);
            if (length + part > sizeof line) return 1;
            memcpy(line + length, at, part), length += part, at += part;
            if (feed) {
                if (!reply()) return 1;
                length = 0, at++;
            }
        }
    }
    return 0;
}
