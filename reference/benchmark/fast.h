/* The eleven calls of include/lindurask.h under other names, and the figures of a statement. */
#ifndef FAST_H
#define FAST_H

#include <stdbool.h>
#include <stddef.h>
#include <stdint.h>

uint8_t fast_new(uint8_t s, uint8_t c, uint16_t kinds, uint8_t d, uint8_t u, uint8_t n, const uint8_t *links,
                 size_t links_len, const uint8_t *hearing, size_t hearing_len, const uint8_t *accounts,
                 size_t accounts_len, uint8_t *out, size_t out_len, size_t *length);
uint8_t fast_check(const uint8_t *book, size_t book_len, size_t *length);
uint8_t fast_rewrite(const uint8_t *book, size_t book_len, uint8_t *out, size_t out_len, size_t *length);
struct fast_request {
    bool opens, second;
    uint8_t source, destination;
    uint16_t id, period, account;
    uint8_t answer;
};

uint8_t fast_post(const uint8_t *book, size_t book_len, uint64_t mains, struct fast_request *requests, size_t count,
                  uint64_t *index, size_t index_len, uint8_t *out, size_t out_len, size_t *length);

/* The same, but each offset is tested against every hop of the book, and no index is asked. */
uint8_t fast_post_by_test(const uint8_t *book, size_t book_len, uint64_t mains, struct fast_request *requests, size_t count,
                          uint64_t *index, size_t index_len, uint8_t *out, size_t out_len, size_t *length);

uint8_t fast_open(const uint8_t *book, size_t book_len, uint16_t id, uint8_t source, uint8_t destination, uint16_t period,
                  bool second, uint16_t account, uint8_t *out, size_t out_len, size_t *length);
uint8_t fast_close(const uint8_t *book, size_t book_len, uint16_t id, uint8_t *out, size_t out_len, size_t *length);
uint8_t fast_purchase(const uint8_t *book, size_t book_len, uint16_t account, uint32_t amount, uint8_t *out, size_t out_len,
                      size_t *length);
uint8_t fast_expand(const uint8_t *book, size_t book_len, uint8_t node, uint16_t first, uint16_t tiles, uint8_t *out,
                    size_t out_len, size_t *length);
uint8_t fast_balance(const uint8_t *book, size_t book_len, uint8_t node, uint32_t *data, uint32_t *used, uint32_t *free_slots);
uint8_t fast_routes(const uint8_t *book, size_t book_len, uint64_t mains, uint8_t source, uint8_t destination, uint8_t *out,
                    size_t out_len, size_t *length, uint8_t *more);
uint8_t fast_book_of(uint8_t s, uint8_t c, uint16_t kinds, uint8_t d, uint8_t u, uint8_t n, const uint8_t *links,
                     size_t links_len, const uint8_t *hearing, size_t hearing_len, const uint8_t *tables, size_t tables_len,
                     uint8_t *out, size_t out_len, size_t *length);

/* Of an accepted image: each node's free slots, the fewest of them, the sum of used, the longest latency. */
struct fast_figures {
    unsigned nodes;
    uint32_t free[64], fewest, used, latency;
};

/* The image's number; the figures are set where it is 0. */
uint8_t fast_figures(const uint8_t *book, size_t book_len, struct fast_figures *out);

#endif
