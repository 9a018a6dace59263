/*
 * Lindurask: a slot planner for radio meshes.
 *
 * A book holds a site's tile plan, its prepaid accounts, its links, who hears whom, and its accepted streams,
 * each of an account and on one route or on two. It is kept as an image: plain bytes, big-endian, that can be stored and sent as they are.
 * Every call but lindurask_new takes an image and checks it in full first; a call that changes the
 * book writes the image of the new book into a second buffer and leaves the first as it is. Nothing
 * is kept between calls, so calls may run in several threads at once, on buffers of their own.
 *
 * Images of versions 1 to 5 are read; in versions 1 and 2 a node hears exactly its neighbours, up to version 3
 * no stream has a period over 100, and up to version 4 there is one account, number 0, that has bought
 * 4,294,967,295 hop uses, and every stream is of it. A new or changed book is written in version 5;
 * lindurask_rewrite keeps the version. The cycle is 1,000 tiles, whatever the version.
 *
 * Link with target/staticlib/libplanner.a, which examples/run makes (x86-64 Linux).
 *
 *
 * What a call says back
 *
 * The result is a number. The first of its refusals that applies is given:
 *
 *    0  done
 *    1  id is 0
 *    2  open: id already in the book
 *    3  close: id not in the book
 *    4  a node number is N or more
 *    5  source is destination
 *    6  period is none of 1, 2, 5, 10, 20, 50, 100, 200, 500, 1000
 *    7  no route exists between the nodes, of any number of hops, with only nodes of the set in its middle
 *    8  rows would pass 64, or hops would pass 512; a stream has a row for each of its routes. Of tables: over 64
 *       different pairs of id and route
 *    9  no placing exists: no free slots for the stream on its route, or on its second route
 *       beside the first
 *   10  a field of bytes 5 to 15 of the image, its account list, or an argument of a new book, out of its range
 *   11  links or hearing: wrong length (new book), a bit from N up, a node joined to itself, one way
 *       only, or a link that is missing from the hearing
 *   12  output buffer shorter than the answer; of a posting, an open or a close, shorter
 *       than LINDURASK_LONGEST_IMAGE, or the index of a posting shorter than 200 x S words
 *   13  image: wrong mark or version
 *   14  image: under 16 bytes, ending inside its account list, or not the length that its header and its number
 *       of accounts give
 *   15  image: rows are not lawful, not rising by id and then route, do not fill it, are of an unknown account,
 *       or draw more than their account has bought
 *   16  image: two clashing hops of different rows meet
 *   17  such routes exist, but every one has over 15 hops
 *   18  no second route: no such route of at most 6 hops that has no middle node in common with the first
 *   19  tables: not of 300 x S x N bytes, an entry that is no operation, an id with control or sleep or none with the
 *       others, or control anywhere but exactly in the control slots
 *   20  no lawful book with periods up to 100 expands to the tables
 *   21  tiles outside the cycle, or a count of 0 or over LINDURASK_MOST_TILES
 *   22  unknown account
 *   23  the account has not enough left
 *   24  a purchase that would pass 32 bits
 *   25  the set has a bit from N up
 *   26  over LINDURASK_MOST_REQUESTS requests in a list
 *
 * An image is tested in the order 14 (under 16 bytes), 13, 10 (bytes 5 to 15), 14 (it ends inside its account
 * list), 10 (the account list), 14 (its length), 11, 15, 16; then a call has its own refusals, in the order given
 * with it below.
 *
 *
 * Prepaid accounts
 *
 * An account has a number and what it has bought: hop uses per cycle. A stream of h hops over all its routes and
 * of period K draws h x 1000/K from its account while it is open; closing it gives the same back. No account ever
 * has drawn more than it has bought, and only lindurask_purchase changes what it has bought.
 *
 *
 * The set of nodes that may stand in the middle of a route
 *
 * lindurask_post, lindurask_routes and lindurask_keeps_to take a set of 64 bits, bit b for node b: the nodes on
 * mains. Only these stand in the middle of a route; its source and its destination may be any. A set with all N bits
 * leaves routes as they are. The set is not part of a book. lindurask_open and lindurask_close have all nodes in it.
 *
 *
 * What is written
 *
 * - Done: the first *length bytes of out are the answer; the bytes behind them are not touched.
 * - Refused: *length is 0, and no byte of out is touched, nor any request of a list, nor any word of its index.
 * - *length is set by every call that has it, whatever the result. lindurask_check always sets
 *   it to 0.
 *
 *
 * What the caller sees to
 *
 * - A pointer is to as many bytes as the length beside it says, or to as many requests as the count,
 *   and not null, also where that is 0. The bools of a request are 0 or 1.
 * - The input, the requests, the index, out, *length, *more, *links, *keeps and the counts of a balance lie apart:
 *   none of them overlaps another. To make the new image the current one, swap the two buffers.
 * - No image is longer than LINDURASK_LONGEST_IMAGE bytes; an output buffer of that size is never
 *   too short for a book, and a posting, an open or a close takes none that is shorter. A part of a
 *   table takes 3 x S bytes for each of its tiles, S the slots of a tile: at most
 *   LINDURASK_LONGEST_TABLE. A list of routes takes at most LINDURASK_LONGEST_LIST. The index of a
 *   posting takes 200 x S words: at most LINDURASK_LONGEST_INDEX.
 * - A call takes up to 80 KB of stack, and nothing from the heap.
 *
 * Every image is otherwise safe to pass: damaged bytes are refused by number.
 */
#ifndef LINDURASK_H
#define LINDURASK_H

#include <stdbool.h>
#include <stddef.h>
#include <stdint.h>

#ifdef __cplusplus
extern "C" {
#endif

/* The longest image, in bytes: 32 accounts, 64 nodes, 64 rows, 512 hops, in version 5. */
#define LINDURASK_LONGEST_IMAGE 3345

/* The most tiles of a table in one call. */
#define LINDURASK_MOST_TILES 100

/* The longest part of a table, in bytes: as many tiles of 32 slots, 3 bytes an entry. */
#define LINDURASK_LONGEST_TABLE 9600

/* The most accounts of a book. */
#define LINDURASK_MOST_ACCOUNTS 32

/* The most requests in a list. */
#define LINDURASK_MOST_REQUESTS 64

/* The longest tables of all nodes, in bytes: 100 tiles of 32 slots, 3 bytes an entry, for 64 nodes. */
#define LINDURASK_LONGEST_TABLES 614400

/* The longest list of routes, in bytes: 32 routes of a hop byte and 7 nodes. */
#define LINDURASK_LONGEST_LIST 256

/* The longest index of a posting, in words of 64 bits: two for each slot of 100 tiles of 32 slots. */
#define LINDURASK_LONGEST_INDEX 6400

/*
 * Makes a book without streams, and writes its image of 17 + accounts_len + 16 x n bytes. Refusals: 10, 11, 12.
 *
 * s            slots of a tile, 1 to 32
 * c            tiles after which the plan repeats: 1, 2, 4, 5 or 10
 * kinds        bit b set if tile b of the plan is downlink, clear if it is uplink; 0 from bit c up
 * d, u         control slots at the start of a downlink and of an uplink tile, 0 to s
 * n            nodes, 2 to 64
 * links        as they stand in the image: a row of 8 bytes, big-endian, for each node; bit b of
 *              a node's row set if node b is its neighbour. links_len is 8 x n
 * hearing      the same for the nodes that hear each other, every link among them. hearing_len is
 *              8 x n; where nodes hear exactly their neighbours, links once more
 * accounts     as they stand in the image: for each its number in 2 bytes, and what it has bought in 4, big-endian,
 *              the numbers rising. accounts_len is 6 for each; 1 to LINDURASK_MOST_ACCOUNTS of them
 */
uint8_t lindurask_new(uint8_t s, uint8_t c, uint16_t kinds, uint8_t d, uint8_t u, uint8_t n,
                      const uint8_t *links, size_t links_len, const uint8_t *hearing, size_t hearing_len,
                      const uint8_t *accounts, size_t accounts_len, uint8_t *out, size_t out_len, size_t *length);

/* Checks an image: 0 if it is that of a lawful book. Writes nothing. Refusals: those of an image. */
uint8_t lindurask_check(const uint8_t *book, size_t book_len, size_t *length);

/* Writes the image of the same book in the same version: the same bytes. Refusals: those of an image, then 12. */
uint8_t lindurask_rewrite(const uint8_t *book, size_t book_len, uint8_t *out, size_t out_len, size_t *length);

/*
 * A request of a list: to open a stream, or to close one, for which id alone counts. A posting sets the
 * answer of each request and changes nothing else in it. 12 bytes, in the order of the fields.
 */
struct lindurask_request {
    bool opens, second;          /* it opens a stream, with a second route */
    uint8_t source, destination; /* from and to these nodes */
    uint16_t id, period;         /* of this id, every so many tiles */
    uint16_t account;            /* paid by this account */
    uint8_t answer;              /* 0 where it was done, otherwise the number of its refusal */
};

/*
 * Works through a list of opens and closes in its order, each on the book as those before it left it, and
 * writes the image of the last book, once, if a request was done; otherwise *length is 0 and nothing is
 * written. A request that is refused leaves the book as it found it, and the list goes on.
 *
 * An open asks for a stream of this id (1 to 65535) from the source to the destination, every `period`
 * tiles, of the account. The route is the shortest with only nodes of `mains` in its middle, the lowest node list among equals; the slots are the lexicographically
 * first that are free. Where `second` is true the stream has a second route as well: another than the
 * first, without a middle node in common with it, its own in `mains` too, at most 6 hops, the shortest and
 * then the lowest node list; its slots are the first that are free beside the first route's. Both are opened or neither. Its
 * answers: 0, or the first that applies of 1, 4, 5, 6, 22, 2, 7, 17, 18, 8, 9, 23.
 *
 * A close takes the stream of this id with all its routes out. Its answers: 0, or the first of 1, 3.
 *
 * `index` is lent: words of 64 bits, two for each slot of the first 100 tiles, 200 times S of them, and at most
 * LINDURASK_LONGEST_INDEX; index_len counts them. A call that is not refused as a whole fills them anew, whatever they
 * held: for each slot the set of nodes sending there, bit b for node b, then the set of nodes receiving, as the streams
 * of the last book take it. Words behind these are not touched.
 *
 * Refusals of the whole call, which leave every request and every word as it is: those of an image, then 25, 26, 12. It is
 * also 12 where the index is shorter than 200 times S words.
 */
uint8_t lindurask_post(const uint8_t *book, size_t book_len, uint64_t mains, struct lindurask_request *requests,
                       size_t count, uint64_t *index, size_t index_len, uint8_t *out, size_t out_len, size_t *length);

/*
 * Opens a stream: a list of one open, with all nodes in the set and an index of its own. Gives the refusal of the whole call, or the answer of the request.
 * Refusals: those of an image, then 12, 1, 4, 5, 6, 22, 2, 7, 17, 18, 8, 9, 23.
 */
uint8_t lindurask_open(const uint8_t *book, size_t book_len, uint16_t id, uint8_t source, uint8_t destination,
                       uint16_t period, bool second, uint16_t account, uint8_t *out, size_t out_len, size_t *length);

/* Closes a stream: a list of one close. Refusals: those of an image, then 12, 1, 3. */
uint8_t lindurask_close(const uint8_t *book, size_t book_len, uint16_t id, uint8_t *out, size_t out_len, size_t *length);

/*
 * Raises what an account has bought by exactly the amount, which may be 0; nothing else of the book changes. The buffer
 * need only hold the book. Refusals: those of an image, then 22, 24, 12.
 */
uint8_t lindurask_purchase(const uint8_t *book, size_t book_len, uint16_t account, uint32_t amount, uint8_t *out,
                           size_t out_len, size_t *length);

/*
 * Writes a part of a node's slot table: so many tiles of the cycle of 1,000, from the first on, which is counted
 * from 0. Each slot has an entry of 3 bytes, an operation and then the stream's id, big-endian, 0 where there is
 * none. The operations: 0 sleep, 1 send from above, 2 receive to buffer, 3 forward from buffer, 4 receive for
 * above, 5 control slot; on a second route 17 to 20 for 1 to 4. Parts that follow each other, joined, are the
 * table of all their tiles. Refusals: those of an image, then 4, 21, 12.
 */
uint8_t lindurask_expand(const uint8_t *book, size_t book_len, uint8_t node, uint16_t first, uint16_t tiles, uint8_t *out,
                         size_t out_len, size_t *length);

/*
 * Gives a node's balance over the cycle of 1,000 tiles: its data slots, those in which it sends or receives on any
 * route, and those in which it sleeps; *used + *free_slots = *data. A refusal sets all three to 0. Refusals: those
 * of an image, then 4.
 */
uint8_t lindurask_balance(const uint8_t *book, size_t book_len, uint8_t node, uint32_t *data, uint32_t *used, uint32_t *free_slots);

/*
 * Gives a node's number of links: how many nodes are its neighbours, 0 to 63. A refusal sets *links to 0.
 * Refusals: those of an image, then 4.
 */
uint8_t lindurask_links(const uint8_t *book, size_t book_len, uint8_t node, uint8_t *links);

/*
 * Lists every route of at most 6 hops from the source to the destination with only nodes of `mains` in its
 * middle, each once, in order of node lists: for each a byte with its hops, and then its nodes, a byte each. The list stops after 32, with
 * *more set to 1 if there are others, and otherwise to 0. No routes is 0 with *length 0. A refusal sets
 * *more to 0. Refusals: those of an image, then 25, 4, 5, 12.
 */
uint8_t lindurask_routes(const uint8_t *book, size_t book_len, uint64_t mains, uint8_t source, uint8_t destination,
                         uint8_t *out, size_t out_len, size_t *length, uint8_t *more);

/*
 * Says whether every route of a book keeps to a set: *keeps is 1 if only nodes of `mains` stand in the middle of any, and
 * otherwise 0. A refusal sets *keeps to 0. Refusals: those of an image, then 25.
 */
uint8_t lindurask_keeps_to(const uint8_t *book, size_t book_len, uint64_t mains, uint8_t *keeps);

/*
 * Salvages what can be kept of a damaged book. Rows are cut out one after the other, while one can be cut out by its hop
 * count; each that is lawful beside those kept is kept, and the book of these is written in the version that came in. The
 * report has 3 bytes for each row cut: 0 where it is kept, or the reason, 15, 8 or 16, and then its id, big-endian. *rows
 * is how many were cut, *lost the number of bytes behind the last of them. A refusal sets *length, *rows and *lost to 0
 * and changes neither buffer. Refusals: 14 (under 16 bytes), 13, 10 (bytes 5 to 15), 14 (it ends inside its account
 * list), 10 (the account list), 14 (it ends before its topologies do), 11, 12 (the output is shorter than the book, or
 * the report than 3 bytes for each row cut).
 */
uint8_t lindurask_salvage(const uint8_t *book, size_t book_len, uint8_t *out, size_t out_len, uint8_t *report,
                          size_t report_len, size_t *length, size_t *rows, size_t *lost);

/*
 * Finds the book of tables made elsewhere: one table of 100 tiles for each node, node 0 first, in the entries of
 * lindurask_expand. Writes the lawful book with periods up to 100 whose nodes have exactly these tables, of which there is
 * one at most; it has one account, number 0, that has bought 4,294,967,295, and every stream is of it. The other arguments
 * are those of lindurask_new. Refusals: 10, 11, 19, 8, 20, 12.
 *
 * tables       300 x s x n bytes: at most LINDURASK_LONGEST_TABLES
 */
uint8_t lindurask_book_of(uint8_t s, uint8_t c, uint16_t kinds, uint8_t d, uint8_t u, uint8_t n,
                          const uint8_t *links, size_t links_len, const uint8_t *hearing, size_t hearing_len,
                          const uint8_t *tables, size_t tables_len, uint8_t *out, size_t out_len, size_t *length);

#ifdef __cplusplus
}
#endif

#endif
