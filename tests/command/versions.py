"""Books of older versions: read as those of the newest are, written in the newest by the first change, and otherwise left as they are."""
import functools

import tool
from tool import check, work_out

# The sample books that each older version can hold.
OLDER = {1: ["kiln", "yard", "site"], 2: ["kiln", "yard", "site", "pond"], 3: ["kiln", "pond", "ridge"], 4: ["kiln", "site", "pond", "ridge", "pins"]}
NEWEST = work_out.NEWEST
READERS = [["check"], ["show"], ["show", "7"], ["show", "--stream"], ["table", "1"], ["balance"], ["quote", "3", "0"], ["routes", "3", "0"], ["page"], ["accounts"]]


@functools.cache
def newest(room, *words):
    """What a command says of a book of the newest version, which no test here changes."""
    return room.run(*words)


def same(room, name):
    """Every reading command says the same of both versions; a program is told which it is."""
    old, new = work_out.Book.read(room.get("old.book")), work_out.Book.read(room.get(name + ".book"))
    for words in READERS:
        more = [str(new.ways[0].id)] if words[-1] == "--stream" else []
        got = room.run(words[0], "old.book", *words[1:], *more)
        want = newest(room, words[0], name + ".book", *words[1:], *more)
        check((got.status, got.all.replace("old.book", name + ".book")) == (want.status, want.all), "%s of a version %d book: %s" % (words, old.version, got.all[:2000]))
    for names in [("old.book", name + ".book"), (name + ".book", "old.book")]:
        books = [work_out.Book.read(room.get(own)) for own in names]
        room.says(0, work_out.diff(*books, names), "diff", *names)
    room.says(0, work_out.check_json(old), "check", "old.book", "--json")
    room.says(0, work_out.show_json(old, old.streams()), "show", "old.book", "--json")


def changed(room, name):
    """The first change writes the newest version, and no other stream moves."""
    old, before = work_out.Book.read(room.get("old.book")), room.get("old.book")
    id = old.ways[-1].id
    room.says(0, work_out.closed(old.stream(id)), "close", "old.book", str(id))
    check(room.get("old.book") == old.without(id).image() and room.get("old.book")[4] == NEWEST, "a close of a version %d book" % old.version)
    room.put("old.book", before)
    if name == "site":
        room.says(1, "refused 8: %s (from node 1 to node 2, period 100)\n" % work_out.WORDS[8], "open", "old.book", "900", "1", "2", "100")
        room.says(0, work_out.bought(old, 0), "buy", "old.book", "0", "0")
        check(room.get("old.book") == old.in_version(NEWEST).image(), "a purchase of nothing in a book of version %d" % old.version)
        room.put("old.book", before)
    else:
        got = old.opened(900, 1, 2, 100)
        room.says(0, work_out.stream("opened ", got), "open", "old.book", "900", "1", "2", "100")
        check(room.get("old.book") == old.with_ways(got).image() and room.get("old.book")[4] == NEWEST, "an open of a version %d book" % old.version)
        room.put("old.book", before)
        room.says(1, "refused 2: a stream of this id is in the book already (id %d)\n" % id, "open", "old.book", str(id), "1", "2", "100")
    room.says(1, "refused 3: no stream of this id is in the book (id 900)\n", "close", "old.book", "900")
    check(room.get("old.book") == before, "a refusal changed a book of version %d" % old.version)


def with_second(room, version):
    """A second route, of a period that no older version has, is had in a book that was of one before."""
    old = work_out.Book.read(room.get("yard.book")).in_version(version)
    room.put("old.book", old.image())
    got = old.opened(7, 4, 9, 200, True)
    room.says(0, work_out.stream("opened ", got), "open", "old.book", "7", "4", "9", "200", "second")
    check(len(got) == 2 and room.get("old.book") == old.with_ways(got).image(), "a second route in a book of version %d" % version)
    room.says(0, work_out.closed(got), "close", "old.book", "7")
    check(room.get("old.book") == old.in_version(NEWEST).image(), "a close of both routes")


def replanned(room, version):
    old = work_out.sample("kiln").in_version(version)
    text, status, new = work_out.replanned(old, work_out.plan_book("yard"))
    room.put("old.book", old.image())
    room.says(status, text, "replan", "old.book", "yard.plan", "new%d.book" % version)
    check(room.get("new%d.book" % version) == new.image(), "a replan of a version %d book" % version)


def longest(room):
    """The longest book of each version is read, and changed into the newest: 64 nodes, 64 routes and 512 hops, each in a slot of its own."""
    links = [(1 << a - 1 if a else 0) | (1 << a + 1 if a < 63 else 0) for a in range(64)]
    ways = [work_out.Way(id, 100, list(range(id % 55, id % 55 + 9)), list(range(8 * id, 8 * id + 8))) for id in range(1, 65)]
    for version, length in {1: 2384, 2: 2448, 3: 2960, 4: 3024, 5: 3345}.items():
        paid = [(number, 10 ** 5) for number in range(31)] + [(65535, work_out.MOST_BOUGHT)] if version >= 5 else work_out.ENDLESS
        book = work_out.Book(32, [True], 0, 0, links, ways, version, [(0, 63)] if version >= 3 else [], accounts=paid)
        room.put("long.book", book.image())
        check(len(book.image()) == length, "the longest book of version %d has %d bytes" % (version, len(book.image())))
        room.says(0, "lawful: %s" % work_out.counts(book), "check", "long.book")
        room.says(1, "refused 8: %s (from node 0 to node 1, period 100)\n" % work_out.WORDS[8], "open", "long.book", "900", "0", "1", "100")
        room.says(0, work_out.closed(book.stream(64), after=book.without(64)), "close", "long.book", "64")
        check(room.get("long.book") == book.without(64).image(), "a close of the longest book of version %d" % version)


def test(room):
    longest(room)
    for version, names in OLDER.items():
        for name in names:
            room.put("old.book", work_out.sample(name).in_version(version).image())
            check(room.get("old.book")[4] == version, "a book of version %d" % version)
            same(room, name)
            changed(room, name)
        with_second(room, version)
        replanned(room, version)
