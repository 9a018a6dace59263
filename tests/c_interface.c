/*
 * Answers framed calls over the planner's C interface, so that the comparison with the reference holds every call of
 * include/lindurask.h: its parameters and their order, what it gives back, and what it writes. reference/src/frame.rs has
 * the frames. Built with WRONG at a number it is one of the wrong interfaces of c_interface_wrong.h.
 */
#include <stddef.h>
#include <stdio.h>
#include <stdlib.h>
#include <string.h>

#include "lindurask.h"

#ifdef WRONG
#include "c_interface_wrong.h"
#endif

enum { HEAD = 44, REPLY = 13, MOST_BYTES = 4096, MOST_TABLES = 620000, MOST_ROOM = 16384, MOST_WORDS = 6500, MARGIN = 64 };

/* The calls that have a name here. */
enum { NEW = 0, BALANCE = 6, ROUTES = 7, POST = 8, KEEPS = 9, PURCHASE = 10, SALVAGE = 11, BOOK_OF = 12, LINKS = 13 };

/* A record of a framed posting, the most of them, and how many requests or words stand on either side of a list or an index. */
enum { RECORD = 11, MOST_RECORDS = 100, BESIDE = 4, WORD = 8 };

_Static_assert(LINDURASK_LONGEST_IMAGE == 16 + 1 + 6 * LINDURASK_MOST_ACCOUNTS + 16 * 64 + 9 * 64 + 3 * 512,
               "32 accounts, 64 nodes, 64 rows, 512 hops");
_Static_assert(LINDURASK_LONGEST_TABLE == 3 * 100 * 32, "100 tiles of 32 slots");
_Static_assert(LINDURASK_LONGEST_TABLES == 64 * LINDURASK_LONGEST_TABLE, "tables of 64 nodes");
_Static_assert(LINDURASK_LONGEST_LIST == 32 * (1 + 7), "32 routes of 6 hops");

/* The planner's archive lays a request out so; that it does is seen by the comparison. */
_Static_assert(sizeof(struct lindurask_request) == 12, "a request");
_Static_assert(offsetof(struct lindurask_request, opens) == 0, "whether a request opens");
_Static_assert(offsetof(struct lindurask_request, second) == 1, "whether it asks for a second route");
_Static_assert(offsetof(struct lindurask_request, source) == 2, "its source");
_Static_assert(offsetof(struct lindurask_request, destination) == 3, "its destination");
_Static_assert(offsetof(struct lindurask_request, id) == 4, "its id");
_Static_assert(offsetof(struct lindurask_request, period) == 6, "its period");
_Static_assert(offsetof(struct lindurask_request, account) == 8, "its account");
_Static_assert(offsetof(struct lindurask_request, answer) == 10, "its answer");

/* What no call gives back: it shows where one has not set what it should. */
static const uint32_t UNSET = 0xA5A5A5A5;

/* What stands around a buffer. */
static const uint8_t AROUND = 0x5C;

/* What a call gives back beside its buffer; the places between are not to be written. */
struct reply {
    uint64_t margin0;
    size_t length;
    uint64_t margin1;
    uint32_t data;
    uint32_t margin2;
    uint32_t used;
    uint32_t margin3;
    uint32_t free_slots;
    uint32_t margin4;
    uint8_t margin5;
    uint8_t more;
    uint8_t margin6;
    uint8_t links;
    uint8_t margin7;
    uint8_t keeps;
    uint8_t margin8;
    size_t rows;
    uint64_t margin9;
    size_t lost;
    uint64_t margin10;
};

static uint8_t input[MARGIN + MOST_BYTES + MARGIN], before[MOST_BYTES];
static uint8_t hearing[MARGIN + MOST_BYTES + MARGIN], hearing_before[MOST_BYTES];
static uint8_t behind[MARGIN + MOST_TABLES + MARGIN], behind_before[MOST_TABLES]; /* accounts or tables */
static uint8_t output[MARGIN + MOST_ROOM + MARGIN];
static uint8_t report[MARGIN + MOST_BYTES + MARGIN];
static struct lindurask_request list[BESIDE + MOST_RECORDS + BESIDE];
static uint64_t words[BESIDE + MOST_WORDS + BESIDE];

static unsigned be16(const uint8_t *p) { return (unsigned)p[0] << 8 | p[1]; }

static uint32_t be32(const uint8_t *p) { return (uint32_t)be16(p) << 16 | be16(p + 2); }

static uint64_t be64(const uint8_t *p) {
    uint64_t x = 0;
    for (size_t i = 0; i < 8; i++)
        x = x << 8 | p[i];
    return x;
}

static void put16(uint8_t *p, unsigned x) {
    p[0] = (uint8_t)(x >> 8);
    p[1] = (uint8_t)x;
}

static void put32(uint8_t *p, size_t x) {
    for (int i = 0; i < 4; i++)
        p[i] = (uint8_t)(x >> (24 - 8 * i));
}

static void put64(uint8_t *p, uint64_t x) {
    for (int i = 0; i < WORD; i++)
        p[i] = (uint8_t)(x >> (56 - 8 * i));
}

static void fail(const char *why) {
    fprintf(stderr, "the C interface %s\n", why);
    exit(1);
}

/* Fills a buffer of this size, and what is around it. */
static void prepare(uint8_t *buffer, size_t size, uint8_t filler) {
    memset(buffer, AROUND, MARGIN + size + MARGIN);
    memset(buffer + MARGIN, filler, size);
}


/* Puts framed records into the list. */
static void prepare_list(const uint8_t *records, size_t count) {
    memset(list, AROUND, sizeof list);
    for (const uint8_t *p = records; p < records + RECORD * count; p += RECORD)
        list[BESIDE + (p - records) / RECORD] = (struct lindurask_request){
            .opens = p[0] != 0,
            .second = p[1] != 0,
            .source = p[2],
            .destination = p[3],
            .id = (uint16_t)be16(p + 4),
            .period = (uint16_t)be16(p + 6),
            .account = (uint16_t)be16(p + 8),
            .answer = p[10],
        };
}

/* The records of the list, as they are now. */
static void put_list(uint8_t *records, size_t count) {
    memset(records, 0, RECORD * count);
    for (size_t i = 0; i < count; i++, records += RECORD) {
        const struct lindurask_request *r = &list[BESIDE + i];
        records[0] = r->opens;
        records[1] = r->second;
        records[2] = r->source;
        records[3] = r->destination;
        put16(records + 4, r->id);
        put16(records + 6, r->period);
        put16(records + 8, r->account);
        records[10] = r->answer;
    }
}

/* Fills an index of so many words. */
static void prepare_index(size_t count, uint8_t filler) {
    memset(words, AROUND, sizeof words);
    memset(words + BESIDE, filler, WORD * count);
}

/* All bytes of a part are what stands around: each is the one before it, and the first is. */
static int is_as_around(const uint8_t *bytes, size_t size) {
    return size == 0 || (bytes[0] == AROUND && memcmp(bytes, bytes + 1, size - 1) == 0);
}

/* What stands around a buffer of this size is as it was. */
static int is_around(const uint8_t *buffer, size_t size) {
    return is_as_around(buffer, MARGIN) && is_as_around(buffer + MARGIN + size, MARGIN);
}

/* What stands on either side of count entries of the list or of the index is as it was. */
static int is_beside(const void *all, size_t size, size_t entry, size_t count) {
    const uint8_t *bytes = all;
    size_t start = entry * BESIDE, end = entry * (BESIDE + count);
    return is_as_around(bytes, start) && is_as_around(bytes + end, size - end);
}

/*
 * Makes the call of a frame; book has len bytes, hearing has heard, the accounts, the tables or the list have further, out has room,
 * and the index has the words or the report the bytes that the frame says.
 */
static uint8_t call(const uint8_t *head, const uint8_t *book, size_t len, const uint8_t *hearing, size_t heard,
                    size_t further, uint8_t *out, size_t room, struct reply *r) {
    uint16_t id = be16(head + 1), period = be16(head + 5), kinds = be16(head + 9), account = be16(head + 20);
    uint8_t source = head[3], destination = head[4];
    uint64_t mains = be64(head + 26);
    bool second = head[19] != 0;
    switch (head[0]) {
    case NEW:
        return lindurask_new(head[7], head[8], kinds, head[11], head[12], head[13], book, len, hearing, heard,
                             behind + MARGIN, further, out, room, &r->length);
    case BOOK_OF:
        return lindurask_book_of(head[7], head[8], kinds, head[11], head[12], head[13], book, len, hearing, heard,
                                 behind + MARGIN, further, out, room, &r->length);
    case 1:
        return lindurask_check(book, len, &r->length);
    case 2:
        return lindurask_rewrite(book, len, out, room, &r->length);
    case 3:
        return lindurask_open(book, len, id, source, destination, period, second, account, out, room, &r->length);
    case 4:
        return lindurask_close(book, len, id, out, room, &r->length);
    case 5:
        return lindurask_expand(book, len, source, be16(head + 22), be16(head + 24), out, room, &r->length);
    case BALANCE:
        return lindurask_balance(book, len, source, &r->data, &r->used, &r->free_slots);
    case ROUTES:
        return lindurask_routes(book, len, mains, source, destination, out, room, &r->length, &r->more);
    case PURCHASE:
        return lindurask_purchase(book, len, account, be32(head + 34), out, room, &r->length);
    case KEEPS:
        return lindurask_keeps_to(book, len, mains, &r->keeps);
    case LINKS:
        return lindurask_links(book, len, source, &r->links);
    case SALVAGE:
        return lindurask_salvage(book, len, out, room, report + MARGIN, be16(head + 42), &r->length, &r->rows, &r->lost);
    default:
        return lindurask_post(book, len, mains, list + BESIDE, further / RECORD, words + BESIDE, be16(head + 42), out, room,
                              &r->length);
    }
}

/* What the call has set goes into its answer; what it had no business with is as it was. */
static void answer(const uint8_t *head, uint8_t number, const struct reply *r, uint8_t *reply) {
    memset(reply, 0, REPLY);
    reply[0] = number;
    int balance = head[0] == BALANCE, routes = head[0] == ROUTES, links = head[0] == LINKS, keeps = head[0] == KEEPS;
    if (balance) {
        put32(reply + 1, r->data);
        put32(reply + 5, r->used);
        put32(reply + 9, r->free_slots);
    } else {
        put32(reply + 1, links ? r->links : keeps ? r->keeps : r->length);
    }
    if (routes)
        put32(reply + 5, r->more);
    if (head[0] == SALVAGE) {
        put32(reply + 5, r->rows);
        put32(reply + 9, r->lost);
    } else if (r->rows != UNSET || r->lost != UNSET) {
        fail("sets rows or bytes lost where there are none");
    }
    if ((balance || links || keeps) && r->length != UNSET)
        fail("sets a length where there is none");
    if (!balance && (r->data != UNSET || r->used != UNSET || r->free_slots != UNSET))
        fail("sets a count where there is none");
    if (!routes && r->more != (uint8_t)UNSET)
        fail("sets a mark where there is none");
    if (!links && r->links != (uint8_t)UNSET)
        fail("sets a number of links where there is none");
    if (!keeps && r->keeps != (uint8_t)UNSET)
        fail("sets a yes or no where there is none");
    if (r->margin0 | r->margin1 | r->margin2 | r->margin3 | r->margin4 | r->margin5 | r->margin6 | r->margin7 |
        r->margin8 | r->margin9 | r->margin10)
        fail("writes beside what it gives back");
}

/* Reads what a frame has behind its head. */
static void take(uint8_t *bytes, size_t size) {
    if (fread(bytes, 1, size, stdin) != size)
        fail("is given half a frame");
}

static void give(const uint8_t *bytes, size_t size) {
    if (fwrite(bytes, 1, size, stdout) != size)
        fail("has nobody to answer");
}

/* Answers one frame, whose head is read. */
static void serve(const uint8_t *head) {
    size_t len = be16(head + 14), room = be16(head + 16), heard = be16(head + 38);
    size_t many = head[0] == BOOK_OF ? be16(head + 42) : 0, further = 65536 * many + be16(head + 40);
    int makes = head[0] == NEW || head[0] == BOOK_OF;
    size_t lent = makes ? further : 0, recorded = head[0] == POST ? further : 0;
    size_t count = recorded / RECORD, beside = be16(head + 42) - many;
    size_t indexed = head[0] == POST ? beside : 0, reported = head[0] == SALVAGE ? beside : 0;
    uint8_t reply[REPLY], records[RECORD * MOST_RECORDS], word[WORD];
    struct reply r = {.length = UNSET, .data = UNSET, .used = UNSET, .free_slots = UNSET, .rows = UNSET, .lost = UNSET};
    r.more = r.links = r.keeps = (uint8_t)UNSET;
    if (head[0] > LINKS || len > MOST_BYTES || room > MOST_ROOM)
        fail("is given a frame that is none");
    if (heard > MOST_BYTES || (heard != 0 && !makes))
        fail("is given a hearing that is none");
    if (recorded % RECORD != 0 || count > MOST_RECORDS || further != lent + recorded || lent > MOST_TABLES)
        fail("is given further bytes that are none");
    if (indexed > MOST_WORDS || reported > MOST_BYTES || beside != indexed + reported)
        fail("is given an index or a report that is none");
    prepare(input, len, 0);
    prepare(hearing, heard, 0);
    prepare(behind, lent, 0);
    prepare(output, room, head[18]);
    take(before, len);
    take(hearing_before, heard);
    take(behind_before, lent);
    take(records, recorded);
    memcpy(input + MARGIN, before, len);
    memcpy(hearing + MARGIN, hearing_before, heard);
    memcpy(behind + MARGIN, behind_before, lent);
    if (head[0] == POST) {
        prepare_list(records, count);
        prepare_index(indexed, head[18]);
    }
    prepare(report, reported, head[18]);
    uint8_t number = call(head, input + MARGIN, len, hearing + MARGIN, heard, further, output + MARGIN, room, &r);
    answer(head, number, &r, reply);
    put_list(records, count);
    if (memcmp(input + MARGIN, before, len) != 0 || !is_around(input, len))
        fail("changes its input");
    if (memcmp(hearing + MARGIN, hearing_before, heard) != 0 || !is_around(hearing, heard))
        fail("changes its hearing");
    if (memcmp(behind + MARGIN, behind_before, lent) != 0 || !is_around(behind, lent))
        fail("changes its accounts or its tables");
    if (!is_around(output, room))
        fail("writes beside its buffer");
    if (head[0] == POST && !is_beside(list, sizeof list, sizeof list[0], count))
        fail("writes beside its list");
    if (head[0] == POST && !is_beside(words, sizeof words, WORD, indexed))
        fail("writes beside its index");
    if (!is_around(report, reported))
        fail("writes beside its report");
    give(reply, REPLY);
    give(output + MARGIN, room);
    give(records, recorded);
    give(report + MARGIN, reported);
    for (size_t i = 0; i < indexed; i++) {
        put64(word, words[BESIDE + i]);
        give(word, WORD);
    }
}

int main(void) {
    uint8_t head[HEAD];
    while (fread(head, 1, HEAD, stdin) == HEAD && head[0] != 255)
        serve(head);
    return fflush(stdout) == 0 ? 0 : 1;
}
