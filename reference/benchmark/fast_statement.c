/*
 * The statement over many sites in plain C, written for speed: what the program `statement` is timed against.
 *
 * The input buffer holds the longest image behind its length, so an image is judged where it was read to.
 */
#include "fast.h"

#include <string.h>
#include <unistd.h>

enum {
    PAIRS = 1000, CUT = 14, INPUT = 1 << 17, OUTPUT = 1 << 16,
    LINE = 64 /* the longest line of three numbers */, MOVEMENT = 512 /* and of a movement */
};

static uint8_t input[INPUT];
static size_t start, end; /* what is read and not used yet */
static char output[OUTPUT];
static size_t held; /* what is to be written */

struct totals {
    uint64_t fewest, used, latency;
};

/* Whether so many bytes are there. */
static int supply(size_t need) {
    if (end - start >= need)
        return 1;
    memmove(input, input + start, end - start);
    end -= start;
    start = 0;
    while (end < need) {
        ssize_t got = read(STDIN_FILENO, input + end, INPUT - end);
        if (got <= 0)
            return 0;
        end += got;
    }
    return 1;
}

static void write_held(void) {
    for (size_t done = 0; done < held;) {
        ssize_t put = write(STDOUT_FILENO, output + done, held - done);
        if (put <= 0)
            _exit(1);
        done += put;
    }
    held = 0;
}

static void make_room(size_t need) {
    if (OUTPUT - held < need)
        write_held();
}

/* Puts a number, and what stands behind it. Most are of one digit: a node that did not move. */
static void put_number(uint64_t n, char behind) {
    unsigned places = 1;
    for (uint64_t over = n; over >= 10; over /= 10)
        places++;
    for (unsigned at = places; at--; n /= 10)
        output[held + at] = '0' + n % 10;
    held += places;
    output[held++] = behind;
}

static void put_line(uint64_t fewest, uint64_t used, uint64_t latency) {
    make_room(LINE);
    put_number(fewest, ' ');
    put_number(used, ' ');
    put_number(latency, '\n');
}

static void put_refused(unsigned number) {
    make_room(LINE);
    memcpy(output + held, "refused ", 8);
    held += 8;
    put_number(number, '\n');
}

static void put_movement(const struct fast_figures *last, const struct fast_figures *this) {
    make_room(MOVEMENT);
    for (unsigned v = 0; v < this->nodes; v++) {
        int moved = this->free[v] - last->free[v];
        if (moved)
            output[held++] = moved < 0 ? '-' : '+';
        put_number(moved < 0 ? -moved : moved, v + 1 < this->nodes ? ' ' : '\n');
    }
}

/* Reads an image and puts its line: its number, or -1 where the input ends inside it. */
static int read_month(struct fast_figures *figures, struct totals *totals) {
    if (!supply(2))
        return -1;
    size_t length = input[start] << 8 | input[start + 1];
    if (!supply(2 + length))
        return -1;
    int number = fast_figures(input + start + 2, length, figures);
    start += 2 + length;
    if (number) {
        put_refused(number);
        return number;
    }
    put_line(figures->fewest, figures->used, figures->latency);
    totals->fewest += figures->fewest;
    totals->used += figures->used;
    if (figures->latency > totals->latency)
        totals->latency = figures->latency;
    return 0;
}

/* Reads all pairs and puts their lines; 0 where the input ends inside one. */
static int read_pairs(struct totals *totals) {
    struct fast_figures last, this;
    for (unsigned pair = 0; pair < PAIRS && supply(1); pair++) {
        int was = read_month(&last, totals), is = was < 0 ? was : read_month(&this, totals);
        if (is < 0)
            return 0;
        if (!was && !is && last.nodes == this.nodes)
            put_movement(&last, &this);
    }
    return 1;
}

int main(void) {
    struct totals totals = {0};
    if (read_pairs(&totals))
        put_line(totals.fewest, totals.used, totals.latency);
    else
        put_refused(CUT);
    write_held();
    return 0;
}
