/*
 * A book damaged on a laptop: what can be kept of it.
 *
 * examples/run salvage builds this program with the planner's library and runs it; it prints examples/salvage.said.
 */
#include <stdio.h>
#include <string.h>

#include "lindurask.h"

/* Nodes 0, 1, 2 and 3 in a line: 0 is linked to 1, 1 to 2 and 2 to 3. */
static const uint8_t links[32] = {
    0, 0, 0, 0, 0, 0, 0, 2,
    0, 0, 0, 0, 0, 0, 0, 5,
    0, 0, 0, 0, 0, 0, 0, 10,
    0, 0, 0, 0, 0, 0, 0, 4,
};

/* One account, number 0, that has bought the largest 32-bit number of hop uses: it pays for everything here. */
static const uint8_t accounts[6] = {0, 0, 0xFF, 0xFF, 0xFF, 0xFF};

/* Salvages a book, and says what becomes of each of its rows. */
static int salvage(const char *title, const uint8_t *bad, size_t bad_len) {
    uint8_t book[LINDURASK_LONGEST_IMAGE], report[3 * 64];
    size_t length, rows, lost;
    if (lindurask_salvage(bad, bad_len, book, sizeof book, report, sizeof report, &length, &rows, &lost) != 0)
        return 1;
    printf("%s: %zu rows, %zu bytes lost\n", title, rows, lost);
    for (size_t i = 0; i < rows; i++) {
        const uint8_t *row = report + 3 * i;
        unsigned id = row[1] * 256u + row[2];
        if (row[0] == 0)
            printf("  stream %u kept\n", id);
        else
            printf("  stream %u dropped, %u\n", id, row[0]);
    }
    printf("  check says %u of the book that is written\n", lindurask_check(book, length, &length));
    return 0;
}

int main(void) {
    uint8_t book[LINDURASK_LONGEST_IMAGE], next[LINDURASK_LONGEST_IMAGE], bad[LINDURASK_LONGEST_IMAGE + 7];
    size_t length;
    /* A plan of two tiles with 4 slots, the first downlink; streams 1 and 2 end to end and back. */
    if (lindurask_new(4, 2, 1, 2, 1, 4, links, sizeof links, links, sizeof links, accounts, sizeof accounts, book,
                      sizeof book, &length) != 0 ||
        lindurask_open(book, length, 1, 3, 0, 2, false, 0, next, sizeof next, &length) != 0 ||
        lindurask_open(next, length, 2, 0, 3, 2, false, 0, book, sizeof book, &length) != 0)
        return 1;
    if (salvage("A whole book", book, length) != 0)
        return 1;
    /*
     * The last offset of stream 2, before its account, is overwritten, and 7 bytes of something else stand behind the
     * book.
     */
    memcpy(bad, book, length);
    bad[length - 3] = 0;
    memset(bad + length, 0xFF, 7);
    return salvage("A damaged one", bad, length + 7);
}
