/* Wrong interfaces, one for each value of WRONG: the comparison has to refuse every one. */
#if WRONG == 1 /* a new book: D and U exchanged */
#define lindurask_new(s, c, kinds, d, u, ...) lindurask_new(s, c, kinds, u, d, __VA_ARGS__)
#elif WRONG == 2 /* a new book: S and C exchanged */
#define lindurask_new(s, c, ...) lindurask_new(c, s, __VA_ARGS__)
#elif WRONG == 3 /* a new book: U and N exchanged */
#define lindurask_new(s, c, kinds, d, u, n, ...) lindurask_new(s, c, kinds, d, n, u, __VA_ARGS__)
#elif WRONG == 4 /* a new book: the tile kinds in one byte */
#define lindurask_new(s, c, kinds, ...) lindurask_new(s, c, (uint8_t)(kinds), __VA_ARGS__)
#elif WRONG == 5 /* an open: source and destination exchanged */
#define lindurask_open(book, len, id, source, destination, ...) lindurask_open(book, len, id, destination, source, __VA_ARGS__)
#elif WRONG == 6 /* an open: id and period exchanged */
#define lindurask_open(book, len, id, source, destination, period, ...) \
    lindurask_open(book, len, period, source, destination, id, __VA_ARGS__)
#elif WRONG == 7 /* an open: the id in one byte */
#define lindurask_open(book, len, id, ...) lindurask_open(book, len, (uint8_t)(id), __VA_ARGS__)
#elif WRONG == 8 /* an open: the period in one byte */
#define lindurask_open(book, len, id, source, destination, period, ...) \
    lindurask_open(book, len, id, source, destination, (uint8_t)(period), __VA_ARGS__)
#elif WRONG == 9 /* an open: never a second route */
#define lindurask_open(book, len, id, source, destination, period, second, ...) \
    lindurask_open(book, len, id, source, destination, period, (second) && false, __VA_ARGS__)
#elif WRONG == 10 /* an open: always a second route */
#define lindurask_open(book, len, id, source, destination, period, second, ...) \
    lindurask_open(book, len, id, source, destination, period, (second) || true, __VA_ARGS__)
#elif WRONG == 11 /* a close: the id in one byte */
#define lindurask_close(book, len, id, ...) lindurask_close(book, len, (uint8_t)(id), __VA_ARGS__)
#elif WRONG == 12 /* a table: of another node */
#define lindurask_expand(book, len, node, ...) lindurask_expand(book, len, (node) ^ 1, __VA_ARGS__)
#elif WRONG == 13 /* a balance: data and used exchanged */
#define lindurask_balance(book, len, node, data, used, unused) lindurask_balance(book, len, node, used, data, unused)
#elif WRONG == 14 /* a balance: used and free exchanged */
#define lindurask_balance(book, len, node, data, used, unused) lindurask_balance(book, len, node, data, unused, used)
#elif WRONG == 15 /* a balance: of another node */
#define lindurask_balance(book, len, node, ...) lindurask_balance(book, len, (node) ^ 1, __VA_ARGS__)
#elif WRONG == 16 /* a list of routes: source and destination exchanged */
#define lindurask_routes(book, len, mains, source, destination, ...) \
    lindurask_routes(book, len, mains, destination, source, __VA_ARGS__)
#elif WRONG == 17 /* a list of routes: no mark */
#define lindurask_routes(book, len, mains, source, destination, out, room, length, more) \
    lindurask_routes(book, len, mains, source, destination, out, room, length, &(uint8_t){0})
#elif WRONG == 18 /* a check: the length is not set */
#define lindurask_check(book, len, length) lindurask_check(book, len, &(size_t){0})
#elif WRONG == 19 /* a rewrite: the buffer taken for a byte longer */
#define lindurask_rewrite(book, len, out, room, length) lindurask_rewrite(book, len, out, (room) + 1, length)
#elif WRONG == 20 /* a close: the buffer taken for a byte shorter */
#define lindurask_close(book, len, id, out, room, length) lindurask_close(book, len, id, out, (room) - ((room) > 0), length)
#elif WRONG == 21 /* a table: a byte behind the buffer */
#define lindurask_expand(book, len, node, first, tiles, out, room, length) \
    ((out)[room] = 0, lindurask_expand(book, len, node, first, tiles, out, room, length))
#elif WRONG == 22 /* an open: its input changed */
#define lindurask_open(book, len, ...) ((len) ? ((uint8_t *)(book))[(len) - 1]++ : 0, lindurask_open(book, len, __VA_ARGS__))
#elif WRONG == 23 /* a posting: a request too few */
#define lindurask_post(book, len, mains, list, count, ...) \
    lindurask_post(book, len, mains, list, (count) - ((count) > 0), __VA_ARGS__)
#elif WRONG == 24 /* a posting: the buffer taken for a byte longer */
#define lindurask_post(book, len, mains, list, count, index, words, out, room, length) \
    lindurask_post(book, len, mains, list, count, index, words, out, (room) + 1, length)
#elif WRONG == 25 /* a posting: the length is not set */
#define lindurask_post(book, len, mains, list, count, index, words, out, room, length) \
    lindurask_post(book, len, mains, list, count, index, words, out, room, &(size_t){0})
#elif WRONG == 26 /* a posting: a request behind the list marked */
#define lindurask_post(book, len, mains, list, count, ...) \
    ((list)[count].answer = 0, lindurask_post(book, len, mains, list, count, __VA_ARGS__))
#elif WRONG == 27 /* a posting: its input changed */
#define lindurask_post(book, len, ...) ((len) ? ((uint8_t *)(book))[(len) - 1]++ : 0, lindurask_post(book, len, __VA_ARGS__))
#elif WRONG == 28 /* a request: source and destination exchanged */
#define AMISS(r) exchange(&(r)->source, &(r)->destination, 1)
#elif WRONG == 29 /* a request: id and period exchanged */
#define AMISS(r) exchange(&(r)->id, &(r)->period, 2)
#elif WRONG == 30 /* a request: whether it opens and whether with a second route exchanged */
#define AMISS(r) exchange(&(r)->opens, &(r)->second, 1)
#elif WRONG == 31 /* a request: answer and destination exchanged */
#define AMISS(r) exchange(&(r)->answer, &(r)->destination, 1)
#elif WRONG == 32 /* a request: opens and closes exchanged */
#define AMISS(r) ((r)->opens = !(r)->opens)
#elif WRONG == 33 /* a request: the bytes of its id in the other order */
#define AMISS(r) ((r)->id = (uint16_t)((r)->id << 8 | (r)->id >> 8))
#elif WRONG == 34 /* links: of another node */
#define lindurask_links(book, len, node, links) lindurask_links(book, len, (node) ^ 1, links)
#elif WRONG == 35 /* links: not set where the image is refused */
#define lindurask_links(book, len, node, links) \
    lindurask_links(book, len, node, lindurask_check(book, len, &(size_t){0}) ? &(uint8_t){0} : (links))
#elif WRONG == 36 /* links: two bytes set */
#define lindurask_links(book, len, node, links) ((links)[1] = 1, lindurask_links(book, len, node, links))
#elif WRONG == 37 /* links: the book taken for a byte shorter */
#define lindurask_links(book, len, node, links) lindurask_links(book, (len) - ((len) > 0), node, links)
#elif WRONG == 38 /* links: its input changed */
#define lindurask_links(book, len, ...) ((len) ? ((uint8_t *)(book))[(len) - 1]++ : 0, lindurask_links(book, len, __VA_ARGS__))
#elif WRONG == 39 /* a new book: links and hearing exchanged */
#define lindurask_new(s, c, kinds, d, u, n, links, links_len, hearing, hearing_len, ...) \
    lindurask_new(s, c, kinds, d, u, n, hearing, hearing_len, links, links_len, __VA_ARGS__)
#elif WRONG == 40 /* a new book: the links for the hearing */
#define lindurask_new(s, c, kinds, d, u, n, links, links_len, hearing, hearing_len, ...) \
    lindurask_new(s, c, kinds, d, u, n, links, links_len, (hearing_len) ? links : hearing, hearing_len, __VA_ARGS__)
#elif WRONG == 41 /* a new book: the hearing taken for as long as the links */
#define lindurask_new(s, c, kinds, d, u, n, links, links_len, hearing, hearing_len, ...) \
    lindurask_new(s, c, kinds, d, u, n, links, links_len, hearing, (hearing_len) ? links_len : 0, __VA_ARGS__)
#elif WRONG == 42 /* a posting: the set in 32 bits */
#define lindurask_post(book, len, mains, ...) lindurask_post(book, len, (uint32_t)(mains), __VA_ARGS__)
#elif WRONG == 43 /* a list of routes: the set in 32 bits */
#define lindurask_routes(book, len, mains, ...) lindurask_routes(book, len, (uint32_t)(mains), __VA_ARGS__)
#elif WRONG == 44 /* keeps to: the set in 32 bits */
#define lindurask_keeps_to(book, len, mains, keeps) lindurask_keeps_to(book, len, (uint32_t)(mains), keeps)
#elif WRONG == 45 /* keeps to: yes or no not set where the image is refused */
#define lindurask_keeps_to(book, len, mains, keeps) \
    lindurask_keeps_to(book, len, mains, lindurask_check(book, len, &(size_t){0}) ? &(uint8_t){0} : (keeps))
#elif WRONG == 46 /* keeps to: the set the other way round */
#define lindurask_keeps_to(book, len, mains, keeps) lindurask_keeps_to(book, len, ~(mains), keeps)
#elif WRONG == 47 /* a posting: the index taken for a word longer */
#define lindurask_post(book, len, mains, list, count, index, words, ...) \
    lindurask_post(book, len, mains, list, count, index, (words) + 1, __VA_ARGS__)
#elif WRONG == 48 /* a posting: the index taken for a word shorter */
#define lindurask_post(book, len, mains, list, count, index, words, ...) \
    lindurask_post(book, len, mains, list, count, index, (words) - ((words) > 0), __VA_ARGS__)
#elif WRONG == 49 /* a posting: the length of the index in bytes */
#define lindurask_post(book, len, mains, list, count, index, words, ...) \
    lindurask_post(book, len, mains, list, count, index, 8 * (words), __VA_ARGS__)
#elif WRONG == 50 /* a posting: another index filled */
#define lindurask_post(book, len, mains, list, count, index, words, ...) \
    lindurask_post(book, len, mains, list, count, (uint64_t[6500]){*(index)}, words, __VA_ARGS__)
#elif WRONG == 51 /* a posting: a word behind the index */
#define lindurask_post(book, len, mains, list, count, index, words, ...) \
    ((index)[words] = 0, lindurask_post(book, len, mains, list, count, index, words, __VA_ARGS__))
#elif WRONG == 52 /* a posting: the index a word on */
#define lindurask_post(book, len, mains, list, count, index, words, ...) \
    lindurask_post(book, len, mains, list, count, (index) + 1, words, __VA_ARGS__)
#elif WRONG == 53 /* a table: first tile and number of tiles exchanged */
#define lindurask_expand(book, len, node, first, tiles, ...) lindurask_expand(book, len, node, tiles, first, __VA_ARGS__)
#elif WRONG == 54 /* a table: from the first tile of the cycle on */
#define lindurask_expand(book, len, node, first, tiles, ...) lindurask_expand(book, len, node, (first) - (first), tiles, __VA_ARGS__)
#elif WRONG == 55 /* a table: the first tile in one byte */
#define lindurask_expand(book, len, node, first, tiles, ...) lindurask_expand(book, len, node, (uint8_t)(first), tiles, __VA_ARGS__)
#elif WRONG == 56 /* a table: the number of tiles in one byte */
#define lindurask_expand(book, len, node, first, tiles, ...) lindurask_expand(book, len, node, first, (uint8_t)(tiles), __VA_ARGS__)
#elif WRONG == 57 /* a table: the buffer taken for a byte longer */
#define lindurask_expand(book, len, node, first, tiles, out, room, length) \
    lindurask_expand(book, len, node, first, tiles, out, (room) + 1, length)
#elif WRONG == 58 /* a salvage: rows cut and bytes lost exchanged */
#define lindurask_salvage(book, len, out, room, report, report_len, length, rows, lost) \
    lindurask_salvage(book, len, out, room, report, report_len, length, lost, rows)
#elif WRONG == 59 /* a salvage: the report taken for a byte longer */
#define lindurask_salvage(book, len, out, room, report, report_len, ...) \
    lindurask_salvage(book, len, out, room, report, (report_len) + 1, __VA_ARGS__)
#elif WRONG == 60 /* a salvage: the buffer taken for a byte longer */
#define lindurask_salvage(book, len, out, room, ...) lindurask_salvage(book, len, out, (room) + 1, __VA_ARGS__)
#elif WRONG == 61 /* a salvage: the buffer taken for a byte shorter */
#define lindurask_salvage(book, len, out, room, ...) lindurask_salvage(book, len, out, (room) - ((room) > 0), __VA_ARGS__)
#elif WRONG == 62 /* a salvage: another report filled */
#define lindurask_salvage(book, len, out, room, report, ...) \
    lindurask_salvage(book, len, out, room, (uint8_t[4096]){*(report)}, __VA_ARGS__)
#elif WRONG == 63 /* a salvage: its input changed */
#define lindurask_salvage(book, len, ...) ((len) ? ((uint8_t *)(book))[(len) - 1]++ : 0, lindurask_salvage(book, len, __VA_ARGS__))
#elif WRONG == 64 /* a salvage: rows and bytes lost not set where it is refused */
#define lindurask_salvage(book, len, out, room, report, report_len, length, rows, lost) \
    amiss_salvage(book, len, out, room, report, report_len, length, rows, lost)
static inline uint8_t amiss_salvage(const uint8_t *book, size_t len, uint8_t *out, size_t room, uint8_t *report,
                                    size_t report_len, size_t *length, size_t *rows, size_t *lost) {
    size_t cut, gone;
    uint8_t number = (lindurask_salvage)(book, len, out, room, report, report_len, length, &cut, &gone);
    if (number == 0)
        *rows = cut, *lost = gone;
    return number;
}
#elif WRONG == 65 /* a new book: hearing and accounts exchanged */
#define lindurask_new(s, c, kinds, d, u, n, links, links_len, hearing, hearing_len, accounts, accounts_len, ...) \
    lindurask_new(s, c, kinds, d, u, n, links, links_len, accounts, accounts_len, hearing, hearing_len, __VA_ARGS__)
#elif WRONG == 66 /* a new book: the length of the accounts is their number */
#define lindurask_new(s, c, kinds, d, u, n, links, links_len, hearing, hearing_len, accounts, accounts_len, ...) \
    lindurask_new(s, c, kinds, d, u, n, links, links_len, hearing, hearing_len, accounts, (accounts_len) / 6, __VA_ARGS__)
#elif WRONG == 67 /* a new book: whole accounts only */
#define lindurask_new(s, c, kinds, d, u, n, links, links_len, hearing, hearing_len, accounts, accounts_len, ...) \
    lindurask_new(s, c, kinds, d, u, n, links, links_len, hearing, hearing_len, accounts, (accounts_len) / 6 * 6, __VA_ARGS__)
#elif WRONG == 68 /* a new book: its accounts changed */
#define lindurask_new(s, c, kinds, d, u, n, links, links_len, hearing, hearing_len, accounts, accounts_len, ...) \
    ((accounts_len) ? ((uint8_t *)(accounts))[(accounts_len) - 1]++ : 0, \
     lindurask_new(s, c, kinds, d, u, n, links, links_len, hearing, hearing_len, accounts, accounts_len, __VA_ARGS__))
#elif WRONG == 69 /* an open: the account in one byte */
#define lindurask_open(book, len, id, source, destination, period, second, account, ...) \
    lindurask_open(book, len, id, source, destination, period, second, (uint8_t)(account), __VA_ARGS__)
#elif WRONG == 70 /* an open: account 0 always pays */
#define lindurask_open(book, len, id, source, destination, period, second, account, ...) \
    lindurask_open(book, len, id, source, destination, period, second, (uint16_t)((account) - (account)), __VA_ARGS__)
#elif WRONG == 71 /* an open: account and id exchanged */
#define lindurask_open(book, len, id, source, destination, period, second, account, ...) \
    lindurask_open(book, len, account, source, destination, period, second, id, __VA_ARGS__)
#elif WRONG == 72 /* an open: whether with a second route and account exchanged */
#define lindurask_open(book, len, id, source, destination, period, second, account, ...) \
    lindurask_open(book, len, id, source, destination, period, account, second, __VA_ARGS__)
#elif WRONG == 73 /* a purchase: account and amount exchanged */
#define lindurask_purchase(book, len, account, amount, ...) lindurask_purchase(book, len, (uint16_t)(amount), account, __VA_ARGS__)
#elif WRONG == 74 /* a purchase: the amount in two bytes */
#define lindurask_purchase(book, len, account, amount, ...) lindurask_purchase(book, len, account, (uint16_t)(amount), __VA_ARGS__)
#elif WRONG == 75 /* a purchase: the account in one byte */
#define lindurask_purchase(book, len, account, ...) lindurask_purchase(book, len, (uint8_t)(account), __VA_ARGS__)
#elif WRONG == 76 /* a purchase: the buffer taken for a byte longer */
#define lindurask_purchase(book, len, account, amount, out, room, length) \
    lindurask_purchase(book, len, account, amount, out, (room) + 1, length)
#elif WRONG == 77 /* a purchase: the buffer taken for a byte shorter */
#define lindurask_purchase(book, len, account, amount, out, room, length) \
    lindurask_purchase(book, len, account, amount, out, (room) - ((room) > 0), length)
#elif WRONG == 78 /* a purchase: the length is not set */
#define lindurask_purchase(book, len, account, amount, out, room, length) \
    lindurask_purchase(book, len, account, amount, out, room, &(size_t){0})
#elif WRONG == 79 /* a purchase: its input changed */
#define lindurask_purchase(book, len, ...) \
    ((len) ? ((uint8_t *)(book))[(len) - 1]++ : 0, lindurask_purchase(book, len, __VA_ARGS__))
#elif WRONG == 80 /* a purchase: the book rewritten */
#define lindurask_purchase(book, len, account, amount, out, room, length) \
    ((void)(account), (void)(amount), lindurask_rewrite(book, len, out, room, length))
#elif WRONG == 81 /* a request: account and period exchanged */
#define AMISS(r) exchange(&(r)->account, &(r)->period, 2)
#elif WRONG == 82 /* a request: account and id exchanged */
#define AMISS(r) exchange(&(r)->account, &(r)->id, 2)
#elif WRONG == 83 /* a request: the bytes of its account in the other order */
#define AMISS(r) ((r)->account = (uint16_t)((r)->account << 8 | (r)->account >> 8))
#elif WRONG == 84 /* a request: its account ignored, and account 0 pays */
static uint16_t ignored[100];
#define AMISS(r) exchange(&(r)->account, &ignored[i], 2)
#elif WRONG == 85 /* the book of tables: links and hearing exchanged */
#define lindurask_book_of(s, c, kinds, d, u, n, links, links_len, hearing, hearing_len, ...) \
    lindurask_book_of(s, c, kinds, d, u, n, hearing, hearing_len, links, links_len, __VA_ARGS__)
#elif WRONG == 86 /* the book of tables: D and U exchanged */
#define lindurask_book_of(s, c, kinds, d, u, ...) lindurask_book_of(s, c, kinds, u, d, __VA_ARGS__)
#elif WRONG == 87 /* the book of tables: hearing and tables exchanged */
#define lindurask_book_of(s, c, kinds, d, u, n, links, links_len, hearing, hearing_len, tables, tables_len, ...) \
    lindurask_book_of(s, c, kinds, d, u, n, links, links_len, tables, tables_len, hearing, hearing_len, __VA_ARGS__)
#elif WRONG == 88 /* the book of tables: whole entries only */
#define lindurask_book_of(s, c, kinds, d, u, n, links, links_len, hearing, hearing_len, tables, tables_len, ...) \
    lindurask_book_of(s, c, kinds, d, u, n, links, links_len, hearing, hearing_len, tables, (tables_len) / 3 * 3, __VA_ARGS__)
#elif WRONG == 89 /* the book of tables: its tables changed */
#define lindurask_book_of(s, c, kinds, d, u, n, links, links_len, hearing, hearing_len, tables, tables_len, ...) \
    ((tables_len) ? ((uint8_t *)(tables))[(tables_len) - 1]++ : 0, \
     lindurask_book_of(s, c, kinds, d, u, n, links, links_len, hearing, hearing_len, tables, tables_len, __VA_ARGS__))
#elif WRONG == 90 /* the book of tables: the buffer taken for a byte longer */
#define lindurask_book_of(s, c, kinds, d, u, n, links, links_len, hearing, hearing_len, tables, tables_len, out, room, length) \
    lindurask_book_of(s, c, kinds, d, u, n, links, links_len, hearing, hearing_len, tables, tables_len, out, (room) + 1, length)
#elif WRONG == 91 /* the book of tables: the length is not set */
#define lindurask_book_of(s, c, kinds, d, u, n, links, links_len, hearing, hearing_len, tables, tables_len, out, room, length) \
    lindurask_book_of(s, c, kinds, d, u, n, links, links_len, hearing, hearing_len, tables, tables_len, out, room, &(size_t){0})
#else
#error "there is no such wrong interface"
#endif

#ifdef AMISS
static inline void exchange(void *one, void *two, size_t size) {
    uint8_t kept[2];
    memcpy(kept, one, size);
    memcpy(one, two, size);
    memcpy(two, kept, size);
}

/* Every request is amiss for the call, and put right again behind it. */
static uint8_t amiss_post(const uint8_t *book, size_t len, uint64_t mains, struct lindurask_request *list, size_t count,
                          uint64_t *index, size_t words, uint8_t *out, size_t room, size_t *length) {
    for (size_t i = 0; i < count; i++)
        AMISS(&list[i]);
    uint8_t number = lindurask_post(book, len, mains, list, count, index, words, out, room, length);
    for (size_t i = 0; i < count; i++)
        AMISS(&list[i]);
    return number;
}
#define lindurask_post amiss_post
#endif
