/*
 * A first book: three nodes, a stream with one route and one with two, one balance.
 *
 * examples/run builds this program with the planner's library and runs it; it prints examples/first_call.said.
 */
#include <inttypes.h>
#include <stdio.h>

#include "lindurask.h"

static void print_image(const char *name, const uint8_t *image, size_t length) {
    printf("%s, %zu bytes:", name, length);
    for (size_t i = 0; i < length; i++)
        printf("%s%02X", i % 16 == 0 ? "\n  " : " ", image[i]);
    printf("\n");
}

int main(void) {
    /* Two images: a call reads one and writes the other, and the two never overlap. */
    uint8_t first[LINDURASK_LONGEST_IMAGE];
    uint8_t other[LINDURASK_LONGEST_IMAGE];
    size_t first_length, other_length;

    /*
     * The site has nodes 0, 1 and 2, all linked to each other. A node's row is 8 bytes, the highest first:
     * bits 1 and 2 in the row of node 0, bits 0 and 2 in that of node 1, bits 0 and 1 in that of node 2.
     */
    const uint8_t links[24] = {
        0, 0, 0, 0, 0, 0, 0, 6,
        0, 0, 0, 0, 0, 0, 0, 5,
        0, 0, 0, 0, 0, 0, 0, 3,
    };

    /* One account: number 1, which has bought 1,000 hop uses per cycle, 03E8. */
    const uint8_t accounts[6] = {0, 1, 0, 0, 0x03, 0xE8};

    /*
     * A tile has 4 slots. The plan repeats after 2 tiles: tile 0 is downlink (bit 0 of the kinds), and
     * its first 2 slots are control; tile 1 is uplink, and its first slot is control. Each node hears
     * exactly its neighbours.
     */
    uint8_t number = lindurask_new(4, 2, 1, 2, 1, 3, links, sizeof links, links, sizeof links, accounts,
                                   sizeof accounts, first, sizeof first, &first_length);
    if (number != 0) {
        printf("no book was made: refused %u\n", number);
        return 1;
    }
    print_image("The empty book", first, first_length);

    /*
     * Stream 7 sends from node 1 to node 0 every 2 tiles, and account 1 pays: one hop, 500 times a cycle. The
     * planner finds its route and its slots, and writes the book with it. The new row: id 0007, route 01, period
     * 0002, one hop 01, nodes 01 00, offset 0002, account 0001: slot 2 is the first that is no control slot.
     */
    number = lindurask_open(first, first_length, 7, 1, 0, 2, false, 1, other, sizeof other, &other_length);
    if (number != 0) {
        printf("the stream was not opened: refused %u\n", number);
        return 1;
    }
    print_image("The book with stream 7", other, other_length);

    /*
     * Stream 9 sends from node 0 to node 1 every 10 tiles, and has a second route, so that it lives on where
     * one of the two fails. Its rows: route 01 is the link, and route 02 goes by node 2. Three hops, 100 times a
     * cycle each: account 1 has 200 hop uses left.
     */
    number = lindurask_open(other, other_length, 9, 0, 1, 10, true, 1, first, sizeof first, &first_length);
    if (number != 0) {
        printf("the stream was not opened: refused %u\n", number);
        return 1;
    }
    print_image("The book with stream 9 and its two routes", first, first_length);

    /*
     * The cycle is 1000 tiles. Two tiles have 5 data slots, so 2500; stream 7 comes 500 times, and stream 9
     * comes 100 times on either route.
     */
    uint32_t data, used, free_slots;
    number = lindurask_balance(first, first_length, 1, &data, &used, &free_slots);
    if (number != 0) {
        printf("no balance: refused %u\n", number);
        return 1;
    }
    printf("Node 1: %" PRIu32 " data slots, %" PRIu32 " used, %" PRIu32 " free\n", data, used, free_slots);

    /* A refusal has a number, gives length 0 and leaves the output buffer alone: there is no node 3. */
    number = lindurask_open(first, first_length, 8, 1, 3, 2, false, 1, other, sizeof other, &other_length);
    printf("Opening a stream to node 3: refused %u, length %zu\n", number, other_length);
    return 0;
}
