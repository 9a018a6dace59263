/*
 * Probes hear further than they talk: what a yard gets before and after it learns that two nodes hear each other.
 *
 * examples/run hearing builds this program with the planner's library and runs it; it prints examples/hearing.said.
 */
#include <stdio.h>

#include "lindurask.h"

/* Nodes 0, 1, 2 and 3 in a line: 0 is linked to 1, 1 to 2 and 2 to 3. */
static const uint8_t links[32] = {
    0, 0, 0, 0, 0, 0, 0, 2,
    0, 0, 0, 0, 0, 0, 0, 5,
    0, 0, 0, 0, 0, 0, 0, 10,
    0, 0, 0, 0, 0, 0, 0, 4,
};

/* Every link is heard, and 1 and 3 hear each other. */
static const uint8_t further[32] = {
    0, 0, 0, 0, 0, 0, 0, 2,
    0, 0, 0, 0, 0, 0, 0, 13,
    0, 0, 0, 0, 0, 0, 0, 10,
    0, 0, 0, 0, 0, 0, 0, 6,
};

/* The link from 1 to 2 is not heard. */
static const uint8_t deaf[32] = {
    0, 0, 0, 0, 0, 0, 0, 2,
    0, 0, 0, 0, 0, 0, 0, 1,
    0, 0, 0, 0, 0, 0, 0, 8,
    0, 0, 0, 0, 0, 0, 0, 4,
};

/* One account, number 0, that has bought the largest 32-bit number of hop uses: it pays for everything here. */
static const uint8_t accounts[6] = {0, 0, 0xFF, 0xFF, 0xFF, 0xFF};

/* The first slot in which the node sends, read from the first tiles of its table, or -1. */
static int first_sent(const uint8_t *book, size_t book_len, uint8_t node) {
    uint8_t table[LINDURASK_LONGEST_TABLE];
    size_t length;
    if (lindurask_expand(book, book_len, node, 0, LINDURASK_MOST_TILES, table, sizeof table, &length) != 0)
        return -1;
    for (size_t slot = 0; 3 * slot < length; slot++)
        if (table[3 * slot] == 1)
            return (int)slot;
    return -1;
}

/* Opens stream 1 from 0 to 1 and stream 2 from 3 to 2, every 2 tiles each, and says in which slots they are sent. */
static int open_both(const char *title, const uint8_t *hearing) {
    uint8_t book[LINDURASK_LONGEST_IMAGE], next[LINDURASK_LONGEST_IMAGE];
    size_t length;
    if (lindurask_new(4, 2, 1, 2, 1, 4, links, sizeof links, hearing, sizeof links, accounts, sizeof accounts, book,
                      sizeof book, &length) != 0 ||
        lindurask_open(book, length, 1, 0, 1, 2, false, 0, next, sizeof next, &length) != 0 ||
        lindurask_open(next, length, 2, 3, 2, 2, false, 0, book, sizeof book, &length) != 0)
        return 1;
    printf("%s: stream 1 is sent in slot %d, stream 2 in slot %d\n", title, first_sent(book, length, 0),
           first_sent(book, length, 3));
    if (lindurask_open(book, length, 3, 3, 1, 100, false, 0, next, sizeof next, &length) != 0)
        return 1;
    /* The last row ends with its account; before it stand 2 offsets, 3 nodes and the hop count. */
    printf("  from 3 to 1: %u hops\n", next[length - 2 - 2 * 2 - 3 - 1]);
    return 0;
}

int main(void) {
    if (open_both("Each node hears its neighbours", links) != 0 || open_both("1 and 3 hear each other", further) != 0)
        return 1;
    uint8_t book[LINDURASK_LONGEST_IMAGE];
    size_t length;
    uint8_t number = lindurask_new(4, 2, 1, 2, 1, 4, links, sizeof links, deaf, sizeof deaf, accounts,
                                   sizeof accounts, book, sizeof book, &length);
    printf("A link that is not heard: refused %u\n", number);
    return 0;
}
