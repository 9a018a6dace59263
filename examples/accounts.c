/*
 * Prepaid accounts: what a stream draws, what is refused, what a purchase and a close give.
 *
 * examples/run accounts builds this program with the planner's library and runs it; it prints examples/accounts.said.
 */
#include <inttypes.h>
#include <stdio.h>

#include "lindurask.h"

/* Nodes 0, 1, 2 and 3 in a line: 0 is linked to 1, 1 to 2 and 2 to 3. */
static const uint8_t links[32] = {
    0, 0, 0, 0, 0, 0, 0, 2,
    0, 0, 0, 0, 0, 0, 0, 5,
    0, 0, 0, 0, 0, 0, 0, 10,
    0, 0, 0, 0, 0, 0, 0, 4,
};

/* Account 5 has bought 1,500 hop uses, which is 05DC; account 9 has bought none. */
static const uint8_t accounts[12] = {
    0, 5, 0, 0, 0x05, 0xDC,
    0, 9, 0, 0, 0, 0,
};

/* The current book, and the buffer for the next. */
static uint8_t images[2][LINDURASK_LONGEST_IMAGE];
static uint8_t *book = images[0], *next = images[1];
static size_t length;

/* Says what became of a call, and makes what it wrote the current book. */
static void settle(uint8_t number, size_t written) {
    if (number != 0) {
        printf("refused %u\n", number);
        return;
    }
    uint8_t *old = book;
    book = next;
    next = old;
    length = written;
    printf("done\n");
}

static void open_stream(uint16_t id, uint8_t source, uint8_t destination, uint16_t period, uint16_t account) {
    size_t written;
    uint8_t number;
    printf("Stream %u from %u to %u every %u tiles, paid by account %u: ", id, source, destination, period, account);
    number = lindurask_open(book, length, id, source, destination, period, false, account, next, sizeof images[0], &written);
    settle(number, written);
}

static void close_stream(uint16_t id) {
    size_t written;
    uint8_t number;
    printf("Stream %u closed: ", id);
    number = lindurask_close(book, length, id, next, sizeof images[0], &written);
    settle(number, written);
}

static void buy(uint16_t account, uint32_t amount) {
    size_t written;
    uint8_t number;
    printf("Account %u buys %" PRIu32 ": ", account, amount);
    number = lindurask_purchase(book, length, account, amount, next, sizeof images[0], &written);
    settle(number, written);
}

/* What the accounts have bought: behind the 16 bytes of the header stand their number and 6 bytes for each. */
static void print_accounts(void) {
    const uint8_t *account = book + 17;
    for (unsigned left = book[16]; left > 0; left--, account += 6) {
        unsigned number = account[0] * 256u + account[1];
        uint32_t bought = (uint32_t)account[2] << 24 | (uint32_t)account[3] << 16 | (uint32_t)account[4] << 8 | account[5];
        printf("  account %u has bought %" PRIu32 "\n", number, bought);
    }
}

int main(void) {
    if (lindurask_new(4, 2, 1, 2, 1, 4, links, sizeof links, links, sizeof links, accounts, sizeof accounts, book,
                      sizeof images[0], &length) != 0)
        return 1;
    print_accounts();
    /* Three hops, 500 times a cycle each: all that account 5 has bought. */
    open_stream(1, 3, 0, 2, 5);
    /* One hop once a cycle: one hop use more than there is, from any account; account 6 there is none. */
    open_stream(2, 0, 1, 1000, 5);
    open_stream(2, 0, 1, 1000, 6);
    open_stream(2, 0, 1, 1000, 9);
    buy(9, 1);
    print_accounts();
    open_stream(2, 0, 1, 1000, 9);
    /* What is bought stays below 2 to the power of 32, and is bought by an account of the book. */
    buy(9, 4294967295u);
    buy(9, 4294967294u);
    buy(6, 1);
    print_accounts();
    /* Closing stream 1 gives its 1,500 hop uses back, and stream 3 draws one of them. */
    open_stream(3, 3, 2, 1000, 5);
    close_stream(1);
    open_stream(3, 3, 2, 1000, 5);
    printf("The book has %zu bytes\n", length);
    return 0;
}
