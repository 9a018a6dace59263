"""Tables made elsewhere: a book's tables give that book back, and what belongs to no book is refused where it first fails."""
import os
import pty
import random
import subprocess

import chance
import tool
from tool import check, refusal, work_out

# Plan A and line A of document 01.
LINE = "slots 4\ntiles down up\ncontrol 2 1\nnodes 4\nlink 0 1\nlink 1 2\nlink 2 3\n"
FOUND = "found stream 1: period 2 tiles, latency 4 slots\n     route   3 2 1 0\n     offsets 2 3 5\n"
MADE = "made: 4 nodes, 1 stream of at most 64, 3 hops of at most 512\n"
# Sixteen nodes in a line without control slots.
LONG = "slots 13\ntiles up\ncontrol 0 0\nnodes 16\n" + "".join("link %d %d\n" % (a, a + 1) for a in range(15))
# The most slots of a tile times nodes whose tables a call takes, and the bytes that it takes.
MOST = 218
UNTOLD = work_out.WORDS[20] + "; no entry by itself shows why"
SITES, CHANGES = 12, 40


def line(*ways):
    rows = [2, 5, 10, 4]
    return work_out.Book(4, [True, False], 2, 1, rows, list(ways))


def in_a_row(slots, nodes):
    """A line of nodes without control slots and streams."""
    rows = [sum(1 << b for b in (a - 1, a + 1) if 0 <= b < nodes) for a in range(nodes)]
    return work_out.Book(slots, [False], 0, 0, rows, [])


# What P2 of document 01 opens.
P2 = work_out.Way(1, 2, [3, 2, 1, 0], [2, 3, 5])


def put(raw, book, *entries):
    """The tables with other entries: node, slot of the cycle, operation, id."""
    raw = bytearray(raw)
    for node, slot, operation, id in entries:
        at = 3 * (100 * book.s * node + slot)
        raw[at:at + 3] = bytes([operation]) + id.to_bytes(2, "big")
    return bytes(raw)


def refuses(room, plan, raw, number, words, place=None):
    """Nothing is made, and the words and the place are said."""
    room.put("bad.tables", raw)
    about = "bad.tables" + (", node %d, tile %d, slot %d" % place if place else "")
    room.says(1, "refused %d: %s (%s)\n" % (number, words, about), "adopt", plan, "bad.tables", "bad.book")
    check("bad.book" not in room.names(), "tables that are refused made a book")


def raw_of(room, *words):
    """The bytes that table writes."""
    done = subprocess.run([tool.TOOL, "table", *words, "--raw"], cwd=room.path, capture_output=True, timeout=45)
    check(done.returncode == 0 and done.stderr == b"", "table %s --raw: %s" % (words, done.stderr))
    return done.stdout


def by_hand(room):
    """The line of document 01: P9's operations, the whole table of a node, and the book that comes back."""
    book = line(P2)
    room.put("line.plan", LINE.encode())
    room.put("p2.book", book.image())
    tables = raw_of(room, "p2.book")
    own = raw_of(room, "p2.book", "2")
    check(list(own[:24:3]) == [5, 5, 2, 3, 5, 0, 0, 0] and own[6:9] == b"\2\0\1", "the first entries of node 2: %s" % own[:24].hex())
    check(len(own) == 1200 and own[:24] * 50 == own, "the table of node 2 does not repeat")
    check(tables[2400:3600] == own and len(tables) == 4800, "the tables of the line")
    room.put("p2.tables", tables)
    room.says(0, FOUND + MADE, "adopt", "line.plan", "p2.tables", "back.book")
    check(room.get("back.book") == book.image(), "the book of the tables of P2")
    room.says(0, FOUND + MADE, "adopt", "-", "p2.tables", "typed.book", data=LINE.encode())
    room.put("idle.tables", work_out.raw(line()))
    room.says(0, "made: 4 nodes, 0 streams of at most 64, 0 hops of at most 512\n", "adopt", "line.plan", "idle.tables", "idle.book")
    check(room.get("idle.book") == line().image(), "the book of tables without streams")


def samples(room):
    """Every sample book without a slow stream and without accounts comes back; one in an older version comes back in the newest."""
    for name in work_out.ADOPTED:
        book, file = work_out.sample(name), name + ".book"
        tables = raw_of(room, file)
        check(tables == work_out.raw(book), "the tables of %s" % name)
        check(b"".join(raw_of(room, file, str(node)) for node in range(book.n)) == tables, "the tables of the nodes of %s" % name)
        room.put("a.tables", tables)
        said = room.run("adopt", name + ".plan", "a.tables", name + ".back")
        check(said.status == 0 and said.all == work_out.adopted(book) and room.get(name + ".back") == book.image(), "%s: %s" % (name, said.all))
    kiln = work_out.sample("kiln")
    room.put("first.book", kiln.in_version(1).image())
    check(raw_of(room, "first.book") == work_out.raw(kiln), "the tables of a book in version 1")


def unsound(room):
    """19: the first entry, in the order of the file, that no table of the site has."""
    book = line(P2)
    tables = work_out.raw(book)
    cases = [((1, 6, operation, 0), "%d is no operation" % operation, (1, 1, 2)) for operation in [6, 15, 16, 21, 255]]
    cases += [((3, 399, 21, 1), "21 is no operation", (3, 99, 3)), ((0, 0, 6, 0), "6 is no operation", (0, 0, 0)),
              ((1, 6, 0, 9), "operation 0, sleep, has no stream's id, and here it has 9", (1, 1, 2)), ((1, 4, 5, 256), "operation 5, control, has no stream's id, and here it has 256", (1, 1, 0)),
              ((1, 6, 5, 9), "operation 5, control, has no stream's id, and here it has 9", (1, 1, 2)), ((2, 2, 2, 0), "operation 2 has a stream's id, and here it has none", (2, 0, 2)),
              ((2, 2, 20, 0), "operation 20 has a stream's id, and here it has none", (2, 0, 2)), ((2, 399, 5, 0), "control stands in a data slot", (2, 99, 3)),
              ((0, 4, 0, 0), "this is a control slot, and operation 0 is not control", (0, 1, 0)), ((0, 1, 1, 9), "this is a control slot, and operation 1 is not control", (0, 0, 1))]
    for entry, words, place in cases:
        refuses(room, "line.plan", put(tables, book, entry), 19, words, place)
    refuses(room, "line.plan", put(tables, book, (3, 2, 6, 0), (2, 399, 7, 0), (2, 398, 8, 1)), 19, "8 is no operation", (2, 99, 2))
    # The tiles the other way round: control of a downlink tile stands where that of an uplink tile should.
    room.put("turned.plan", LINE.replace("down up", "up down").encode())
    refuses(room, "turned.plan", tables, 19, "control stands in a data slot", (0, 0, 1))


def lengths(room):
    """A file that is cut short, longer, or empty; one longer than any tables; and tables of any site."""
    tables = work_out.raw(line(P2))
    said = "the tables of 4 nodes with 4 slots in a tile have 4800 bytes, and these %s"
    for raw in [b"", tables[:-1], tables[:-3], tables[:-1200], tables + b"\0", tables + bytes(3), tables * 2, bytes(70000), bytes(614400)]:
        refuses(room, "line.plan", raw, 19, said % len(raw))
    refuses(room, "line.plan", bytes(614401), 19, said % "more")
    for slots, nodes in [(32, 64), (3, 64), (31, 8), (32, 7), (2, 64), (27, 8)]:
        plan = "slots %d\ntiles up\ncontrol 0 0\nnodes %d\n" % (slots, nodes)
        room.put("wide.plan", plan.encode())
        empty = work_out.Book(slots, [False], 0, 0, [0] * nodes, [])
        length = 300 * slots * nodes
        room.put("wide.tables", work_out.raw(empty))
        told = room.run("adopt", "wide.plan", "wide.tables", "wide%d.book" % length)
        check(told.status == 0 and room.get("wide%d.book" % length) == empty.image(), "tables of %d bytes: %s" % (length, told.all))
        words = "the tables of %d nodes with %d slots in a tile have %d bytes, and these %d" % (nodes, slots, length, length - 1)
        refuses(room, "wide.plan", work_out.raw(empty)[:-1], 19, words)


def plans(room):
    """The plan is refused before its tables, whatever they are; and a plan with accounts is not taken."""
    for change, number, words, at in [(("slots 4", "slots 33"), 10, "a tile has 1 to 32 slots", 1), (("nodes 4", "nodes 65"), 10, "a site has 2 to 64 nodes", 4), (("tiles down up", "tiles"), 10, "a plan has 1, 2, 4, 5 or 10 tiles", 2),
                                      (("control 2 1", "control 5 1"), 10, "there are more control slots than slots in a tile", 3), (("link 2 3", "link 2 2"), 11, "no node links to itself (node 2)", 7)]:
        room.put("odd.plan", LINE.replace(*change).encode())
        for raw in [b"", work_out.raw(line(P2)), bytes(614400)]:
            room.put("odd.tables", raw)
            room.says(1, "refused %d: %s (odd.plan, line %d)\n" % (number, words, at), "adopt", "odd.plan", "odd.tables", "odd.book")
    one = "a book made from tables has the one account 0; take the account lines out of the plan"
    room.put("odd.plan", (LINE + "account 9 5\naccount 0 4294967295\n").encode())
    room.says(2, "odd.plan, line 8: %s\n" % one, "adopt", "odd.plan", "p2.tables", "odd.book")
    room.says(2, "standard input, line 1: %s\n" % one, "adopt", "-", "p2.tables", "odd.book", data=b"account 0 4294967295\n" + LINE.encode())
    room.says(2, "odd.plan, line 1: write slots and one number, as in: slots 4\n", "adopt", room.put("odd.plan", b"slots x\n") and "odd.plan", "p2.tables", "odd.book")
    check("odd.book" not in room.names(), "a plan that is refused made a book")


def full(room):
    """8: over 64 routes, before 20; over 512 hops in fewer is 20."""
    room.put("long.plan", LONG.encode())
    empty = in_a_row(13, 16)
    check(room.run("new", "long.book", "long.plan").status == 0 and room.get("long.book") == empty.image(), "the long line")

    def adopts(name, book):
        room.put("long.tables", work_out.raw(book))
        said = room.run("adopt", "long.plan", "long.tables", name)
        check(said.status == 0 and said.all == work_out.adopted(book) and room.get(name) == book.image(), "%s: %s" % (name, said.all[-300:]))
    links = [work_out.Way(id, 100, [0, 1], [id - 1]) for id in range(1, 66)]
    adopts("most.book", empty.but(ways=links[:64]))
    over = work_out.raw(empty.but(ways=links))
    words = "here starts route 65, and a book has at most 64"
    refuses(room, "long.plan", over, 8, words, (0, 4, 12))
    refuses(room, "long.plan", put(over, empty, (1, 64, 0, 0), (1, 9, 4, 60)), 8, words, (0, 4, 12))
    refuses(room, "long.plan", put(over, empty, (15, 1299, 6, 0)), 19, "6 is no operation", (15, 99, 12))
    lines = [work_out.Way(id, 100, list(range(16)), list(range(15 * id - 15, 15 * id))) for id in range(1, 36)]
    adopts("hops.book", empty.but(ways=lines[:34]))
    refuses(room, "long.plan", work_out.raw(empty.but(ways=lines)), 20, UNTOLD)


def in_slot(room):
    """20: a hop without its other end, over no link, or heard beside another."""
    book = line(P2)
    tables, every = work_out.raw(book), range(6, 400, 8)

    def turned(*entries):
        return put(tables, book, *((node, slot, *rest) for slot in every for node, *rest in entries))
    no = "no such book: %s is sent by %s and received by %s in this slot"
    refuses(room, "line.plan", put(tables, book, (0, 6, 1, 9)), 20, no % ("stream 9", "1 node", "0 nodes"), (0, 1, 2))
    refuses(room, "line.plan", put(tables, book, (3, 394, 0, 0)), 20, no % ("stream 1", "0 nodes", "1 node"), (2, 98, 2))
    refuses(room, "line.plan", put(tables, book, (0, 2, 2, 1)), 20, no % ("stream 1", "1 node", "2 nodes"), (0, 0, 2))
    refuses(room, "line.plan", put(tables, book, (1, 2, 3, 1)), 20, no % ("stream 1", "2 nodes", "1 node"), (1, 0, 2))
    refuses(room, "line.plan", put(tables, book, (2, 6, 17, 9), (1, 6, 4, 9)), 20, no % ("stream 9", "0 nodes", "1 node"), (1, 1, 2))
    refuses(room, "line.plan", put(tables, book, (2, 6, 17, 9)), 20, no % ("the second route of stream 9", "1 node", "0 nodes"), (2, 1, 2))
    # Two entries of a node exchanged, and two nodes of a slot.
    refuses(room, "line.plan", put(tables, book, (1, 10, 0, 0), (1, 11, 0, 0), (1, 14, 2, 1)), 20, no % ("stream 1", "0 nodes", "1 node"), (1, 3, 2))
    refuses(room, "line.plan", turned((0, 1, 9), (2, 4, 9)), 20, "no such book: node 0 has no link to node 2", (0, 1, 2))
    words = "no such book: node 1 receives, and hears node 2 send stream 8"
    refuses(room, "line.plan", turned((0, 1, 9), (1, 4, 9), (2, 1, 8), (3, 4, 8)), 20, words, (1, 1, 2))
    # By P8 these do not clash, but where 3 hears 1 they do.
    apart = turned((0, 1, 9), (1, 4, 9), (3, 1, 8), (2, 4, 8))
    room.put("apart.tables", apart)
    check(room.run("adopt", "line.plan", "apart.tables", "apart.book").status == 0, "hops that are apart")
    room.put("heard.plan", (LINE + "hear 1 3\n").encode())
    words = "no such book: node 1 receives, and hears node 3 send stream 8"
    refuses(room, "heard.plan", apart, 20, words, (1, 1, 2))


def in_time(room):
    """20: what does not repeat, or is no route; and what no entry shows."""
    book = line(P2)
    tables = work_out.raw(book)
    missing = put(tables, book, (3, 162, 0, 0), (2, 162, 0, 0))
    refuses(room, "line.plan", missing, 20, "no such book: missing, as 2 tiles before the node receives stream 1 to buffer", (2, 40, 2))
    refuses(room, "line.plan", put(tables, book, (3, 2, 0, 0), (2, 2, 0, 0)), 20, "no such book: missing, as 2 tiles before the node receives stream 1 to buffer", (2, 0, 2))
    more = put(tables, book, (3, 6, 1, 1), (2, 6, 2, 1))
    refuses(room, "line.plan", more, 20, "no such book: the node receives stream 1 to buffer, and not 2 tiles before or after", (2, 1, 2))
    thrice = [(node, slot, *rest) for slot in (6, 22, 38) for node, *rest in [(0, 1, 9), (1, 4, 9)]]
    refuses(room, "line.plan", put(tables, book, *thrice), 20, "no such book: the node sends stream 9 from above, and not 50 tiles before or after", (0, 1, 2))
    every = range(0, 400, 8)
    buffered = put(tables, book, *((0, slot + 5, 2, 1) for slot in every))
    refuses(room, "line.plan", buffered, 20, "no such book: on hop 3 of 3 a node receives stream 1 for above", (0, 1, 1))
    gap = put(tables, book, *((node, slot + 3, 0, 0) for slot in every for node in (2, 1)))
    refuses(room, "line.plan", gap, 20, "no such book: stream 1 is at node 2 by now", (1, 1, 1))
    second = work_out.raw(line(work_out.Way(1, 2, P2.nodes, P2.offsets, 2)))
    refuses(room, "line.plan", second, 20, "no such book: stream 1 has a second route, and no first", (3, 0, 2))
    back = work_out.raw(line(work_out.Way(1, 10, [3, 2, 3], [2, 3])))
    refuses(room, "line.plan", back, 20, "no such book: stream 1 was at node 3 before", (3, 0, 3))
    same = line(work_out.Way(1, 10, [3, 2, 1, 0], [2, 3, 5]), work_out.Way(1, 10, [3, 2, 1, 0], [10, 11, 13], 2))
    refuses(room, "line.plan", work_out.raw(same), 20, UNTOLD)
    room.put("long.plan", (LONG.replace("nodes 16", "nodes 17") + "link 15 16\n").replace("slots 13", "slots 8").encode())
    far = in_a_row(8, 17).but(ways=[work_out.Way(5, 10, list(range(17)), list(range(16)))])
    refuses(room, "long.plan", work_out.raw(far), 20, "no such book: a route has at most 15 hops", (15, 1, 7))


def mixed(room):
    """Tables of two books of one plan, some nodes of each: wherever they are cut, they are of one book only where the parts are the same."""
    kiln, other = work_out.sample("kiln"), work_out.sample("kiln").without(3)
    tables = [work_out.raw(book) for book in (kiln, other)]
    size = len(tables[0]) // kiln.n
    for cut in range(kiln.n + 1):
        raw = tables[0][:size * cut] + tables[1][size * cut:]
        room.put("mixed.tables", raw)
        said = room.run("adopt", "kiln.plan", "mixed.tables", "mixed%d.book" % cut)
        whole = {tables[0]: kiln, tables[1]: other}.get(raw)
        if whole:
            check(said.status == 0 and room.get("mixed%d.book" % cut) == whole.image(), "tables cut at node %d: %s" % (cut, said.all))
        else:
            check(said.status == 1 and said.all.startswith("refused 20: no such book: stream 3 is sent by ") and "mixed%d.book" % cut not in room.names(), "tables cut at node %d: %s" % (cut, said.all))
    nodes = [tables[0][size * node:size * (node + 1)] for node in range(kiln.n)]
    nodes[2], nodes[3] = nodes[3], nodes[2]
    room.put("mixed.tables", b"".join(nodes))
    said = room.run("adopt", "kiln.plan", "mixed.tables", "mixed.book")
    check(said.status == 1 and said.all.startswith("refused 20: no such book: ") and "mixed.book" not in room.names(), "tables of two nodes exchanged: " + said.all)


def by_chance(turn):
    """A book made by chance comes back from its tables, and with one entry changed or two exchanged it does not."""
    dice = random.Random(chance.SEED * 1000 + turn)
    with tool.Room() as room:
        text, book = chance.plan(dice)
        while book.s * book.n > MOST:
            text, book = chance.plan(dice)
        room.put("a.plan", "\n".join(row for row in text.split("\n") if not row.startswith("account")).encode())
        book = book.but(accounts=work_out.ENDLESS)
        for id in dice.sample(range(1, 65536), 12):
            got = book.opened(id, *dice.sample(range(book.n), 2), dice.choice(work_out.PERIODS[:7]), dice.random() < 0.4)
            book = book if isinstance(got, int) else book.with_ways(got)
        room.put("a.book", book.image())
        tables = raw_of(room, "a.book")
        check(tables == work_out.raw(book), "the tables of a book by chance")
        room.put("a.tables", tables)
        said = room.run("adopt", "a.plan", "a.tables", "back.book")
        # A node without a link is warned of.
        check(said.status == 0 and said.out == work_out.adopted(book) and room.get("back.book") == book.image(), "a book by chance: " + said.all)
        numbers = {spoilt(room, dice, tables) for _ in range(CHANGES // SITES)}
    return numbers


def spoilt(room, dice, tables):
    """One entry changed, or two exchanged: the number that refuses them. What is accepted all the same has these very tables."""
    entries = [tables[at:at + 3] for at in range(0, len(tables), 3)]
    one, two = dice.sample(range(len(entries)), 2)
    if dice.random() < 0.5 and entries[one] != entries[two]:
        entries[one], entries[two] = entries[two], entries[one]
    else:
        entries[one] = dice.choice([entry for entry in {*entries, b"\1\0\1", b"\6\0\0", b"\x11\0\7"} if entry != entries[one]])
    room.put("b.tables", b"".join(entries))
    said = room.run("adopt", "a.plan", "b.tables", "b.book")
    if said.status == 0:
        check(work_out.raw(work_out.Book.read(room.get("b.book"))) == b"".join(entries), "a book with other tables")
        os.remove(room.at("b.book"))
        return 0
    told = said.all.startswith(("refused 19: ", "refused 20: no such book: ")) and "(b.tables, node " in said.all or said.all.startswith("refused 20: " + UNTOLD)
    check(said.status == 1 and told and "b.book" not in room.names(), "an entry changed: %s" % said.all)
    return int(said.all.split(":")[0].split()[1])


def files(room):
    """What is no plain file, a name that is taken, and names with tricks."""
    os.mkfifo(room.at("fifo"))
    os.mkdir(room.at("folder"))
    for name, said in [("fifo", "is no plain file: nothing is read from it"), ("/dev/zero", "is no plain file: nothing is read from it"), ("/dev/null", "is no plain file: nothing is read from it"),
                       ("folder", "is a folder: nothing is read from it"), ("none.tables", "No such file or directory"), ("-", "No such file or directory"), ("p2.tables/x", "Not a directory")]:
        room.says(2, "lindurask: %s: %s\n" % (name, said), "adopt", "line.plan", name, "f.book", data=work_out.raw(line(P2)))
        if name != "-":
            room.says(2, "lindurask: %s: %s\n" % (name, said), "adopt", name, "p2.tables", "f.book")
    room.says(2, "lindurask: the name of a file is empty\n", "adopt", "line.plan", "", "f.book")
    check("f.book" not in room.names(), "what is no file made a book")
    before = room.get("kiln.book")
    room.says(2, "lindurask: kiln.book: File exists; it is never replaced\n", "adopt", "line.plan", "p2.tables", "kiln.book")
    room.says(2, "lindurask: fifo: File exists; it is never replaced\n", "adopt", "line.plan", "p2.tables", "fifo")
    room.says(2, "lindurask: folder/: is no name for a file\n", "adopt", "line.plan", "p2.tables", "folder/")
    check(room.get("kiln.book") == before, "adopt replaced a book")
    for name, shown in [(b"\x1b[31mred", "\\x1b[31mred"), (b"a\nb", "a\\x0ab"), (b"\xff\xfe", "\\xff\\xfe"), ("\u202egnp".encode(), "\\xe2\\x80\\xaegnp"), (b"$(id)", "$(id)"), (b"-t", "-t")]:
        room.put(name, room.get("p2.tables"))
        check(room.run("adopt", b"line.plan", name, name + b".book").status == 0 and room.get(name + b".book") == line(P2).image(), "tables with the name %s" % shown)
        room.put(name, b"")
        told = room.run("adopt", b"line.plan", name, b"f.book")
        check(told.status == 1 and told.all.endswith("and these 0 (%s)\n" % shown), "tables with the name %s: %s" % (shown, told.all))
    for words in [[], ["line.plan"], ["line.plan", "p2.tables"], ["line.plan", "p2.tables", "f.book", "more"], ["line.plan", "p2.tables", "f.book", "--json"], ["line.plan", "p2.tables", "f.book", "--raw"]]:
        room.says(2, "usage: lindurask adopt PLAN TABLES NEW\n", "adopt", *words)


def raw(room):
    """Bytes go to no terminal, and say nothing of a book with a slow stream."""
    usage = "usage: lindurask table BOOK [NODE [TILE [COUNT]]] [--raw] [--json]\n"
    for words in [["kiln.book", "1", "0"], ["kiln.book", "1", "0", "100"], ["kiln.book", "--json"], []]:
        room.says(2, usage, "table", "--raw", *words)
    slow = "lindurask: stream 3 has period 200, so the book does not repeat after 100 tiles, and has no such tables\n"
    room.says(1, slow, "table", "pins.book", "--raw")
    room.says(1, slow, "table", "pins.book", "11", "--raw")
    room.says(1, "refused %s (node 12)\n" % refusal(4), "table", "pins.book", "12", "--raw")
    room.says(1, "refused %s (node 8)\n" % refusal(4), "table", "kiln.book", "8", "--raw")
    room.says(2, "lindurask: a node is a number, from 0 on\n", "table", "kiln.book", "x", "--raw")
    room.says(2, "lindurask: none.book: No such file or directory\n", "table", "none.book", "--raw")
    controller, terminal = pty.openpty()
    done = subprocess.run([tool.TOOL, "table", "kiln.book", "0", "--raw"], stdout=terminal, stderr=subprocess.PIPE, cwd=room.path, timeout=45)
    os.close(terminal)
    want = b"lindurask: standard output is a terminal; bytes go to a file or a program, as in: > kiln.tables\n"
    check(done.returncode == 2 and done.stderr == want, "tables to a terminal: %s" % done.stderr)
    os.close(controller)


def test(room):
    by_hand(room)
    samples(room)
    unsound(room)
    lengths(room)
    plans(room)
    full(room)
    in_slot(room)
    in_time(room)
    mixed(room)
    files(room)
    raw(room)
    numbers = set().union(*tool.all_of(by_chance, range(SITES)))
    check(numbers >= {19, 20}, "tables by chance got only %s" % sorted(numbers))
