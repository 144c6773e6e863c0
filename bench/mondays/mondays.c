/*
 * What the program mondays does, in plain C: a running sum, a queue of falling moves whose first is
 * the greatest, and digits of its own. To compare times with.
 */
#include <errno.h>
#include <stdint.h>
#include <stdio.h>
#include <string.h>
#include <unistd.h>

enum { WINDOW = 64, MOST_MOVES = 128, LINE = 8, IN_BYTES = 32768 };
enum { OUT_BYTES = 10 * (IN_BYTES / LINE) + 16 }; /* a window's line has at most 9 bytes */

struct windows {
    uint64_t count;         /* lines so far */
    uint32_t restart;       /* of the last line */
    uint32_t sum;           /* of the last 64 lines */
    uint32_t moves[WINDOW]; /* of line i in place i % 64 */
    /* Lines of the window, each with more moves than all after it. */
    uint64_t queue[WINDOW];
    uint64_t first, end;
};

static uint8_t in[IN_BYTES];
static char out[OUT_BYTES]; /* what is printed for a block */

static int print(size_t length)
{
    size_t done = 0;
    while (done < length) {
        ssize_t wrote = write(1, out + done, length - done);
        if (wrote > 0)
            done += (size_t)wrote;
        else if (wrote < 0 && errno != EINTR)
            return perror("mondays: standard output"), -1;
    }
    return 0;
}

/* Fills the block; fewer bytes at the end of the file, -1 if a read fails. */
static ssize_t fill(void)
{
    size_t got = 0;
    while (got < IN_BYTES) {
        ssize_t now = read(0, in + got, IN_BYTES - got);
        if (now > 0)
            got += (size_t)now;
        else if (now == 0)
            break;
        else if (errno != EINTR)
            return perror("mondays: standard input"), -1;
    }
    return (ssize_t)got;
}

static uint32_t word(const uint8_t *at)
{
    uint32_t read;
    memcpy(&read, at, sizeof read);
    return read;
}

/* Writes a number below 10000; gives the place after it. */
static char *put_number(char *at, uint32_t number)
{
    if (number >= 1000)
        *at++ = (char)('0' + number / 1000);
    if (number >= 100)
        *at++ = (char)('0' + number / 100 % 10);
    if (number >= 10)
        *at++ = (char)('0' + number / 10 % 10);
    *at++ = (char)('0' + number % 10);
    return at;
}

/* Takes a good line, and writes the window that it ends, if any; gives the place after it. */
static char *take(struct windows *w, uint32_t moves, char *at)
{
    uint64_t line = w->count++;
    uint32_t *place = &w->moves[line % WINDOW];
    w->sum += moves - *place;
    *place = moves;
    if (w->first < w->end && w->queue[w->first % WINDOW] + WINDOW == line)
        w->first++;
    while (w->first < w->end && w->moves[w->queue[(w->end - 1) % WINDOW] % WINDOW] <= moves)
        w->end--;
    w->queue[w->end++ % WINDOW] = line;
    if (w->count < WINDOW)
        return at;
    at = put_number(at, w->sum);
    *at++ = ' ';
    at = put_number(at, w->moves[w->queue[w->first % WINDOW] % WINDOW]);
    *at++ = '\n';
    return at;
}

/* The number of a bad line, 0 of a good one. */
static uint32_t bad(const struct windows *w, const uint8_t *at, size_t left)
{
    if (left < LINE || (w->count > 0 && word(at) <= w->restart))
        return 24;
    return word(at + 4) > MOST_MOVES ? 25 : 0;
}

/* Takes the lines of a block and prints their windows: 1 if all are good, 0 after a bad one, -1 if
 * a write fails. */
static int take_block(struct windows *w, size_t length)
{
    char *at = out;
    uint32_t number = 0;
    for (size_t line = 0; line < length && !number; line += LINE) {
        number = bad(w, in + line, length - line);
        if (number) {
            memcpy(at, "number ", 7);
            at = put_number(at + 7, number);
            *at++ = '\n';
        } else {
            w->restart = word(in + line);
            at = take(w, word(in + line + 4), at);
        }
    }
    return print((size_t)(at - out)) != 0 ? -1 : !number;
}

int main(void)
{
    static struct windows w;
    ssize_t length;
    int more = 1;
    while (more == 1 && (length = fill()) != 0)
        more = length < 0 ? -1 : take_block(&w, (size_t)length);
    return more < 0;
}
