/*
 * A month's end: opens and closes in one list, worked through in its order, the book written once, and the index by slot.
 *
 * examples/run posting builds this program with the planner's library and runs it; it prints examples/posting.said.
 */
#include <inttypes.h>
#include <stdio.h>

#include "lindurask.h"

static void print_request(const struct lindurask_request *request) {
    if (request->opens)
        printf("  open %u from %u to %u every %u tiles%s: ", request->id, request->source, request->destination,
               request->period, request->second ? ", with a second route" : "");
    else
        printf("  close %u: ", request->id);
    if (request->answer == 0)
        printf("done\n");
    else
        printf("refused %u\n", request->answer);
}

/* The nodes of a set. */
static void print_nodes(uint64_t set) {
    for (unsigned node = 0; node < 64; node++)
        if (set >> node & 1)
            printf(" %u", node);
}

int main(void) {
    uint8_t book[LINDURASK_LONGEST_IMAGE];
    uint8_t next[LINDURASK_LONGEST_IMAGE];
    size_t book_length, next_length;

    /* Nodes 0, 1, 2 and 3 in a line: 0 is linked to 1, 1 to 2 and 2 to 3. A tile has 4 slots, of which 2 or 1 are control. */
    const uint8_t links[32] = {
        0, 0, 0, 0, 0, 0, 0, 2,
        0, 0, 0, 0, 0, 0, 0, 5,
        0, 0, 0, 0, 0, 0, 0, 10,
        0, 0, 0, 0, 0, 0, 0, 4,
    };
    /* Account 0 has bought 10,000 hop uses, 2710; it pays for every stream here, since a request names no other. */
    const uint8_t accounts[6] = {0, 0, 0, 0, 0x27, 0x10};
    uint8_t number = lindurask_new(4, 2, 1, 2, 1, 4, links, sizeof links, links, sizeof links, accounts,
                                   sizeof accounts, book, sizeof book, &book_length);
    if (number != 0) {
        printf("no book was made: refused %u\n", number);
        return 1;
    }

    /*
     * The list. Each request is judged on the book as those before it left it: stream 3 finds no slots beside streams 1
     * and 2, and finds some once stream 1 is closed. On a line there is no second route.
     */
    struct lindurask_request requests[] = {
        {.opens = true, .id = 1, .source = 3, .destination = 0, .period = 2},
        {.opens = true, .id = 2, .source = 0, .destination = 3, .period = 2},
        {.opens = true, .id = 3, .source = 3, .destination = 2, .period = 2},
        {.opens = false, .id = 1},
        {.opens = true, .id = 3, .source = 3, .destination = 2, .period = 2},
        {.opens = true, .second = true, .id = 4, .source = 0, .destination = 1, .period = 50},
        {.opens = false, .id = 1},
    };
    size_t count = sizeof requests / sizeof requests[0];

    /* Nodes 1 and 2 are on mains: only they may stand in the middle of a route. On this line that asks no more of any route. */
    const uint64_t mains = 1u << 1 | 1u << 2;

    /* The index: two words for each slot of 100 tiles, here 4 slots a tile. What it holds before does not matter. */
    enum { WORDS = 2 * 100 * 4 };
    uint64_t index[WORDS];
    number = lindurask_post(book, book_length, mains, requests, count, index, WORDS, next, sizeof next, &next_length);
    if (number != 0) {
        printf("nothing was posted: refused %u\n", number);
        return 1;
    }
    printf("The list was posted, and the book has %zu bytes now:\n", next_length);
    for (size_t i = 0; i < count; i++)
        print_request(&requests[i]);

    /* Who sends and who receives in the first two tiles, which all streams here repeat: nothing of stream 1 is left. */
    for (unsigned slot = 0; slot < 8; slot++)
        if (index[2 * slot] != 0) {
            printf("Slot %u: sending", slot);
            print_nodes(index[2 * slot]);
            printf(", receiving");
            print_nodes(index[2 * slot + 1]);
            printf("\n");
        }

    /* What is left: streams 2 and 3. */
    uint32_t data, used, free_slots;
    for (uint8_t node = 0; node < 4; node++) {
        number = lindurask_balance(next, next_length, node, &data, &used, &free_slots);
        if (number != 0)
            return 1;
        printf("Node %u: %" PRIu32 " data slots, %" PRIu32 " used, %" PRIu32 " free\n", node, data, used, free_slots);
    }

    /* Stream 2 goes by nodes 1 and 2: it keeps to the set, and not to one without node 2. The site has no node 4. */
    const uint64_t sets[] = {mains, 1u << 1, mains | 1u << 4};
    for (size_t i = 0; i < 3; i++) {
        uint8_t keeps;
        number = lindurask_keeps_to(next, next_length, sets[i], &keeps);
        if (number == 0)
            printf("With set %" PRIu64 " on mains: %s\n", sets[i], keeps ? "every relay is" : "some relay is not");
        else
            printf("With set %" PRIu64 " on mains: refused %u\n", sets[i], number);
    }

    /* Where no request is done the number is 0 all the same, and no book is written: the old one is still the book. */
    struct lindurask_request again[] = {
        {.opens = false, .id = 1},
        {.opens = true, .id = 2, .source = 1, .destination = 0, .period = 5},
    };
    number = lindurask_post(next, next_length, mains, again, 2, index, WORDS, book, sizeof book, &book_length);
    printf("A list of which none is done: %u, and %zu bytes are written\n", number, book_length);
    print_request(&again[0]);
    print_request(&again[1]);

    /* A call that is refused as a whole marks no request: a buffer that does not hold the longest book is too short. */
    again[0].answer = 99;
    number = lindurask_post(next, next_length, mains, again, 1, index, WORDS, book, sizeof book - 1, &book_length);
    printf("With a shorter buffer: refused %u, and the answer is still %u\n", number, again[0].answer);
    index[0] = 99;
    number = lindurask_post(next, next_length, mains, again, 1, index, WORDS - 1, book, sizeof book, &book_length);
    printf("With an index a word shorter: refused %u, and its first word is still %" PRIu64 "\n", number, index[0]);
    return 0;
}
