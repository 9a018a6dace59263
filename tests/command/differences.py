"""Two books compared: the same one twice, both ways round, files that are no books, and books made by chance."""
import itertools
import json
import os
import random

import chance
import tool
from tool import check, refusal, work_out

SITES, PAIRS = 5, 6
SAME = "the books are the same\n"


def twice(room):
    """A book beside itself, by one name or by several, and beside itself in another version."""
    os.symlink("kiln.book", room.at("link.book"))
    for name in tool.SAMPLES:
        room.put("copy.book", room.get(name + ".book"))
        for other in [name + ".book", "copy.book", "./" + name + ".book"] + ["link.book"] * (name == "kiln"):
            room.says(0, SAME, "diff", name + ".book", other)
            kept = ',"accounts":null' * (name == "mill")
            room.says(0, '{"same":true,"version":null,"plan":null,"nodes":null,"links":null,"heard":null,"streams":[],"air":null%s}\n' % kept, "diff", other, name + ".book", "--json")
    versions = {"old.book": 1, "older.book": 2, "elder.book": 3, "former.book": 4, "kiln.book": 5}
    for one, other in itertools.product(versions, versions):
        same = "the same book in versions %d and %d: the air is the same\n" % (versions[one], versions[other])
        room.says(0, SAME if one == other else same, "diff", one, other)


def turned(said):
    """What is said of two books, of the second and the first."""
    for name in ["version", "plan", "nodes", "links", "heard", "accounts"]:
        if name in said:
            said[name] = said[name] and said[name][::-1]
    for stream in said["streams"]:
        stream["books"].reverse()
    if said["air"]:
        said["air"]["entries"].reverse()
    return said


def both_ways(room):
    """Which book comes first changes the sides and nothing else: each book beside the next."""
    names = sorted(["kiln.book", "pond.book", "ridge.book", *(name for name in work_out.others() if name not in ("older.book", "deaf.book"))])

    def sides(pair):
        said, back = room.run("diff", *pair, "--json"), room.run("diff", *pair[::-1], "--json")
        lines, turns = room.run("diff", *pair).out, room.run("diff", *pair[::-1]).out
        alike = said.status == back.status and json.loads(said.out) == turned(json.loads(back.out))
        swapped = sorted(lines.translate(str.maketrans("<>", "><")).split("\n"))
        return alike and (said.status == 0 or swapped == sorted(turns.split("\n"))), pair, lines + turns
    for right, pair, said in tool.all_of(sides, list(zip(names, names[1:]))):
        check(right, "%s: not the same the other way round:\n%s" % (pair, said))


def refused(room):
    """An image that is refused is a file that failed, as the first book and as the second; the first is named where both are."""
    good = room.get("kiln.book")
    row = good.index(bytes([0, 1, 1, 0, 10, 7]))
    cases = [(b"", 14), (good[:-1], 14), (b"X" + good[1:], 13), (good[:5] + b"\x21" + good[6:], 10), (good[:23] + bytes(7) + b"\x03" + good[31:], 11),
             (good[:87] + bytes(8) + good[95:], 11), (good[:row + 4] + b"\x03" + good[row + 5:], 15), (good[:-3] + b"\x02" + good[-2:], 16)]
    for data, number in cases:
        room.put("bad.book", data)
        room.put("worse.book", data)
        line = "refused %s (bad.book)\n" % refusal(number)
        for pair in [["bad.book", "kiln.book"], ["kiln.book", "bad.book"], ["bad.book", "bad.book"], ["bad.book", "worse.book"], ["bad.book", "none.book"]]:
            said = room.run("diff", *pair)
            check((said.status, said.out, said.err) == (2, "", line), "diff %s: %d %s" % (pair, said.status, said.all))
        said = room.run("diff", "kiln.book", "bad.book", "--json")
        want = work_out.in_json({"refused": number, "words": work_out.WORDS[number], "about": "bad.book"})
        check((said.status, said.out, said.err) == (2, want, ""), "diff --json with a book that is none: %d %s" % (said.status, said.all))
        check(room.get("bad.book") == data, "a book that is none was changed")


def failing(room):
    """What is no plain file, as the first book and as the second."""
    os.mkfifo(room.at("fifo"))
    os.mkdir(room.at("folder"))
    os.symlink("nowhere", room.at("to-nothing"))
    cases = [("none.book", "none.book: No such file or directory"), ("to-nothing", "to-nothing: No such file or directory"), ("fifo", "fifo: is no plain file: nothing is read from it"),
             ("folder", "folder: is a folder: nothing is read from it"), ("/dev/zero", "/dev/zero: is no plain file: nothing is read from it"), ("", "the name of a file is empty"),
             ("-", "-: No such file or directory"), (b"\x1b[31m", "\\x1b[31m: No such file or directory")]
    for name, words in cases:
        for pair in [[name, "kiln.book"], ["kiln.book", name], [name, name]]:
            for more in [[], ["--json"]]:
                room.says(2, "lindurask: %s\n" % words, "diff", *pair, *more)


def named(room):
    """Names of files as they may be printed, whatever they hold."""
    kiln, late = work_out.sample("kiln"), work_out.others()["late.book"]
    for name, shown in [(b"\x1b[2J\n.book", "\\x1b[2J\\x0a.book"), (b"--json", "--json"), ("\u202eü".encode(), "\\xe2\\x80\\xaeü")]:
        room.put(name, late.image())
        room.says(1, work_out.diff(kiln, late, ("kiln.book", shown)), "diff", "--", b"kiln.book", name)
        room.says(1, work_out.diff(late, kiln, (shown, "kiln.book")), "diff", "--", name, b"kiln.book")


def grown(dice, book, steps):
    """The book after opens, some with a second route, and closes by chance."""
    for _ in range(steps):
        id = dice.randint(1, 9)
        got = book.opened(id, *dice.sample(range(book.n), 2), dice.choice(work_out.PERIODS), dice.random() < 0.5)
        if book.stream(id):
            book = book.without(id)
        elif not isinstance(got, int):
            book = book.with_ways(got)
    return book


def moved(dice, book):
    """The book with one route some tiles later, as many as the plan has or a multiple: the slots stay data slots, but hops may meet."""
    place = dice.randrange(len(book.ways))
    way, tiles = book.ways[place], len(book.kinds) * dice.randint(1, 40)
    offsets = [o + tiles * book.s for o in way.offsets]
    later = work_out.Way(way.id, way.period, way.nodes, offsets, way.number, way.account)
    return book.but(ways=book.ways[:place] + [later] + book.ways[place + 1:])


def later(dice, book):
    """The book with a hop more, once in the cycle, in a data slot; it may meet another."""
    slots = [slot for slot in range(work_out.CYCLE * book.s) if not book.control(slot)]
    links = work_out.pairs(book)
    return book.with_ways([work_out.Way(dice.randint(10, 65535), work_out.CYCLE, list(dice.choice(links)), [dice.choice(slots)], account=book.usual())]) if slots and links else book


def renamed(dice, book):
    id, new = dice.choice(book.ways).id, dice.randint(10, 65535)
    own = [work_out.Way(new, w.period, w.nodes, w.offsets, w.number, w.account) for w in book.stream(id)]
    return book.without(id).with_ways(own)


def linked(dice, book):
    """The book with a link more or less."""
    a, b = dice.sample(range(book.n), 2)
    rows = list(book.rows)
    rows[a], rows[b] = rows[a] ^ 1 << b, rows[b] ^ 1 << a
    return book.but(rows=rows)


def heard(dice, book):
    """The book with a pair more or less that hears itself without a link."""
    pair = tuple(sorted(dice.sample(range(book.n), 2)))
    return book.but(heard=set(book.heard) ^ {pair}, version=work_out.NEWEST)


def paid(dice, book):
    """The book with an account more, with one that has bought more, or with another in the place of its own."""
    if book.version < work_out.NEWEST:
        book = book.in_version(work_out.NEWEST)
    (number, has), *rest = book.accounts
    new = dice.choice([n for n in range(1, 50) if n not in dict(book.accounts)])
    ways = [work_out.Way(w.id, w.period, w.nodes, w.offsets, w.number, new) for w in book.ways]
    more = book.bought(number, dice.randint(1, 900))
    return dice.choice([book.but(accounts=[*book.accounts, (new, dice.randint(0, 900))]), book if isinstance(more, int) else more, book.but(accounts=[*book.accounts, (new, 10 ** 6)], ways=ways)])


def planned(dice, book):
    """The book with another plan."""
    kinds = [dice.random() < 0.5 for _ in range(dice.choice([1, 2, 4, 5, 10]))]
    return dice.choice([book.but(kinds=kinds), book.but(down=dice.randint(0, book.s)), book.but(up=dice.randint(0, book.s)), book.but(ways=[], slots=1 + book.s % 32)])


def other(dice, book):
    """A book that differs from this one somehow, or not at all."""
    second = [w for w in book.ways if w.number == 2]
    changes = [lambda: grown(dice, book, dice.randint(1, 3)), lambda: linked(dice, book), lambda: heard(dice, book), lambda: paid(dice, book), lambda: planned(dice, book), lambda: book.but(rows=book.rows + [0]),
               lambda: later(dice, book), lambda: grown(dice, chance.plan(dice)[1], 6)]
    changes += [lambda: moved(dice, book), lambda: renamed(dice, book)] * bool(book.ways)
    changes.append((lambda: book.but(ways=[w for w in book.ways if w is not second[0]])) if second else (lambda: book.but(heard=[]).older(dice.choice([1, 2, 3, 4]))))
    return dice.choice(changes)()


def site(turn):
    """Pairs of books by chance: whole answers beside what is worked out; gives where the air showed each first."""
    dice, found = random.Random(chance.SEED * 1000 + turn), []
    with tool.Room() as room:
        book = grown(dice, chance.plan(dice)[1], 8)
        for _ in range(PAIRS):
            new = other(dice, book)
            room.put("a.book", book.image())
            room.put("b.book", new.image())
            said = room.run("check", "b.book")
            if said.status:
                room.says(2, said.all, "diff", "a.book", "b.book")
                room.says(2, said.all, "diff", "b.book", "a.book")
                continue
            for one, second, names in [(book, new, ("a.book", "b.book")), (new, book, ("b.book", "a.book"))]:
                status = int(not work_out.is_same(one, second))
                got = room.says(status, work_out.diff(one, second, names), "diff", *names)
                check(max(map(len, got.out.split("\n"))) <= 80, "diff is wider than 80 columns")
                room.says(status, work_out.diff_json(one, second), "diff", *names, "--json")
            found.append(work_out.seen(book, new))
            if dice.random() < 0.5:
                book = new
    return found


def test(room):
    room.put_others()
    twice(room)
    both_ways(room)
    refused(room)
    failing(room)
    named(room)
    found = [place for places in tool.all_of(site, range(SITES)) for place in places]
    seen = [place for place in found if place]
    check(len(found) > len(seen) > 10 and any(p[0] > 0 for p in seen) and any(p[1] > 0 for p in seen) and any(p[2] > 0 for p in seen), "books by chance differ too little: %s" % found)
