"""Words and refusals: each is said in full, by its number, with the node, id or period that is meant."""
import os

from tool import ROOT, check, refusal, work_out

USAGE = {
    "new": "BOOK PLAN",
    "check": "BOOK [--mains NODES] [--json]",
    "show": "BOOK [TILE] [--stream ID] [--node NODE] [--no-lists] [--json]",
    "open": "BOOK ID SOURCE DESTINATION PERIOD [second] [account N] [--mains NODES]",
    "close": "BOOK ID",
    "post": "BOOK FILE [--dry-run] [--mains NODES] [--json]",
    "buy": "BOOK ACCOUNT AMOUNT",
    "quote": "BOOK SOURCE DESTINATION [account N] [--mains NODES] [--json]",
    "routes": "BOOK SOURCE DESTINATION [--mains NODES] [--json]",
    "table": "BOOK [NODE [TILE [COUNT]]] [--raw] [--json]",
    "balance": "BOOK [NODE] [--json]",
    "accounts": "BOOK [--json]",
    "diff": "BOOK BOOK [--json]",
    "statement": "LAST THIS [LAST THIS ..] [--raw]",
    "replan": "BOOK PLAN NEW",
    "adopt": "PLAN TABLES NEW",
    "salvage": "BAD NEW [--raw] [--json]",
    "page": "BOOK [FILE]",
    "help": "[COMMAND]",
}
NO_ID = "lindurask: an id is a number from 1 to 65535\n"
NO_NODE = "lindurask: a node is a number, from 0 on\n"
NO_PERIOD = "lindurask: a period is a number of tiles: 1, 2, 5, 10, 20, 50, 100, 200, 500 or 1000\n"
NO_TILE = "lindurask: a tile is a number from 0 to 999\n"


def refusals(room):
    one = room.get("kiln.book")

    def refused(text, *words):
        room.says(1, "refused %s\n" % text, *words)
    refused("1: a stream's id is never 0 (id 0)", "open", "kiln.book", "0", "1", "2", "5")
    refused("1: a stream's id is never 0 (id 0)", "close", "kiln.book", "0")
    refused("1: a stream's id is never 0 (id 0)", "show", "kiln.book", "--stream", "0")
    refused("2: a stream of this id is in the book already (id 5)", "open", "kiln.book", "5", "1", "2", "5")
    refused("3: no stream of this id is in the book (id 8)", "close", "kiln.book", "8")
    refused("3: no stream of this id is in the book (id 65535)", "show", "kiln.book", "--stream", "65535")
    for words, node in [(["open", "kiln.book", "8", "8", "2", "5"], "8"), (["open", "kiln.book", "8", "1", "64", "5"], "64"),
                        (["open", "kiln.book", "8", "99999999999", "1", "5"], "99999999999"), (["open", "kiln.book", "8", "9", "10", "5"], "9"),
                        (["quote", "kiln.book", "1", "256"], "256"), (["routes", "kiln.book", "1", "8"], "8"), (["routes", "kiln.book", "300", "9"], "300"), (["table", "kiln.book", "255"], "255"), (["balance", "kiln.book", "8"], "8"),
                        (["balance", "kiln.book", "257"], "257"), (["show", "kiln.book", "--node", "8"], "8")]:
        refused("4: the site has no node of this number (node %s)" % node, *words)
    refused("5: source and destination are the same node (node 1)", "open", "kiln.book", "8", "1", "1", "5")
    refused("5: source and destination are the same node (node 1)", "quote", "kiln.book", "1", "1")
    refused("5: source and destination are the same node (node 1)", "routes", "kiln.book", "1", "1")
    refused("6: a period is 1, 2, 5, 10, 20, 50, 100, 200, 500 or 1000 tiles (period 3)", "open", "kiln.book", "8", "1", "2", "3")
    refused("6: a period is 1, 2, 5, 10, 20, 50, 100, 200, 500 or 1000 tiles (period 65537)", "open", "kiln.book", "8", "1", "2", "65537")
    # Tiles outside the cycle, or none; the node comes first.
    for words, about in [(["1", "1000"], "tile 1000"), (["1", "65536"], "tile 65536"), (["1", "99999999999999999999999"], "tile 18446744073709551615"), (["1", "0", "0"], "0 tiles from tile 0 on"),
                         (["1", "999", "2"], "2 tiles from tile 999 on"), (["1", "0", "1001"], "1001 tiles from tile 0 on"), (["1", "1000", "1"], "1 tile from tile 1000 on"),
                         (["1", "0", "65636"], "65636 tiles from tile 0 on"), (["1", "65535", "65535"], "65535 tiles from tile 65535 on"), (["1", "0", "65536"], "65536 tiles from tile 0 on")]:
        refused("21: the tiles are not in the cycle of 1000, or are none, or over 100 at once (%s)" % about, "table", "kiln.book", *words)
    refused("4: the site has no node of this number (node 8)", "table", "kiln.book", "8", "1000")
    room.says(1, work_out.in_json({"refused": 21, "words": work_out.WORDS[21], "about": "tile 1000"}), "table", "--json", "kiln.book", "1", "1000")
    room.put("apart.plan", b"slots 4\ntiles up\ncontrol 0 4\nnodes 3\nlink 0 1\n")
    room.says(0, "made: 3 nodes, 0 streams of at most 64, 0 hops of at most 512\nlindurask: warning: node 2 has no link\n", "new", "apart.book", "apart.plan")
    refused("7: no route exists between these nodes (from node 0 to node 2, period 100)", "open", "apart.book", "1", "0", "2", "100")
    refused("7: no route exists between these nodes (from node 0 to node 2)", "quote", "apart.book", "0", "2")
    links = "".join("link %d %d\n" % (a, a + 1) for a in range(16))
    room.put("long.plan", ("slots 4\ntiles up\ncontrol 0 0\nnodes 17\n" + links).encode())
    room.says(0, "made: 17 nodes, 0 streams of at most 64, 0 hops of at most 512\n", "new", "long.book", "long.plan")
    refused("17: every route has over 15 hops (from node 16 to node 0, period 100)", "open", "long.book", "1", "16", "0", "100")
    refused("17: every route has over 15 hops (from node 16 to node 0)", "quote", "long.book", "16", "0")
    refused("9: no free slots for this stream (from node 0 to node 1, period 100)", "open", "apart.book", "1", "0", "1", "100")
    refused("8: the book is full: 64 routes or 512 hops (from node 1 to node 2, period 100)", "open", "site.book", "100", "1", "2", "100")
    refused("8: the book is full: 64 routes or 512 hops (from node 1 to node 2)", "quote", "site.book", "1", "2")
    # 18 where no other route exists, all over 6 hops, or by a relay of the first; then 8 of both routes.
    for book, source, destination in [("kiln.book", "1", "2"), ("pond.book", "3", "1"), ("pond.book", "10", "0")]:
        said = "18: no second route of at most 6 hops by other relays (from node %s to node %s, period 100)" % (source, destination)
        refused(said, "open", book, "8", source, destination, "100", "second")
    one_left = work_out.Book.read(room.get("site.book")).without(64)
    room.put("left.book", one_left.image())
    refused("8: the book is full: 64 routes or 512 hops (from node 0 to node 1, period 100)", "open", "left.book", "100", "0", "1", "100", "second")
    room.says(0, work_out.quote(one_left, 0, 1), "quote", "left.book", "0", "1")
    check("     second route: refused 8: the book is full: 64 routes or 512 hops\n" in work_out.quote(one_left, 0, 1), "a book with room for one route")
    # One slot a tile on a ring of four: the first route leaves no slots for the second.
    room.put("square.plan", b"slots 1\ntiles up\ncontrol 0 0\nnodes 4\nlink 0 1\nlink 0 2\nlink 1 3\nlink 2 3\n")
    room.says(0, "made: 4 nodes, 0 streams of at most 64, 0 hops of at most 512\n", "new", "square.book", "square.plan")
    refused("9: no free slots for this stream (from node 0 to node 3, period 2)", "open", "square.book", "1", "0", "3", "2", "second")
    square = work_out.Book.read(room.get("square.book"))
    room.says(0, work_out.quote(square, 0, 3), "quote", "square.book", "0", "3")
    check("     second route: refused 9: no free slots for this stream\n" in work_out.quote(square, 0, 3), "a second route without slots")
    none = "".join("period %4d: refused 9: no free slots for this stream\n" % k for k in [1, 2, 5, 10, 20, 50, 100, 200, 500, 1000])
    room.says(1, "from node 1 to node 0\n" + none, "quote", "apart.book", "1", "0")
    room.says(1, '{"refused":4,"words":"the site has no node of this number","about":"node 8"}\n', "balance", "kiln.book", "8", "--json")
    check(room.get("kiln.book") == one, "a refusal changed the book")


def lists(room):
    """On 8 nodes all linked to each other more routes exist than are listed; two nodes alone have one."""
    for nodes, foot in [(8, "the first 32 routes of at most 6 hops; more exist\n"), (2, "1 route of at most 6 hops\n")]:
        links = "".join("link %d %d\n" % (a, b) for b in range(nodes) for a in range(b))
        room.put("knot.plan", ("slots 4\ntiles up\ncontrol 0 0\nnodes %d\n" % nodes + links).encode())
        name = "knot%d.book" % nodes
        room.says(0, "made: %d nodes, 0 streams of at most 64, 0 hops of at most 512\n" % nodes, "new", name, "knot.plan")
        book = work_out.Book.read(room.get(name))
        said = work_out.list_of_routes(book, 0, nodes - 1)
        check(said.endswith(foot), said)
        room.says(0, said, "routes", name, "0", str(nodes - 1))
        room.says(0, work_out.routes_json(book, nodes - 1, 0), "routes", name, str(nodes - 1), "0", "--json")


def with_rows(image, start, rows):
    """The image with these rows of nodes in the place of its own."""
    for node, row in rows:
        at = start + 8 * node
        image = image[:at] + row.to_bytes(8, "big") + image[at + 8:]
    return image


def images(room):
    """A book that is none, by every number that a book has."""
    good = room.get("kiln.book")
    row = good.index(bytes([0, 1, 1, 0, 10, 7]))
    second = good.index(bytes([0, 2, 1, 0, 20, 7]))
    # Stream 5 goes 6 to 7 in slot 4, and its account stands behind; in slot 2 node 7 sends for stream 1.
    clash = good[:-3] + b"\x02" + good[-2:]
    cases = [(b"", 14), (good[:15], 14), (good[:-1], 14), (good + b"x", 14), (good + bytes(100000), 14), (b"X" + good[1:], 13), (good[:4] + b"\x09" + good[5:], 13),
             (good[:4] + b"\x06" + good[5:], 13), (good[:5] + b"\x21" + good[6:], 10), (good[:23] + bytes(7) + b"\x03" + good[31:], 11),
             (good[:row + 4] + b"\x03" + good[row + 5:], 15), (good[:row + 3] + b"\x01" + good[row + 4:], 15), (good[:row + 2] + b"\x02" + good[row + 3:], 15), (good[:second + 1] + b"\x01" + good[second + 2:], 15)]
    # The hearing of 8 nodes stands behind their links: node 0 hears itself, hears 2 alone, hears node 8, and it and 1 do not hear each other.
    heard = [[(0, 3)], [(0, 6)], [(0, 0x102)], [(0, 0), (1, 4)]]
    cases += [(with_rows(good, 23 + 8 * 8, rows), 11) for rows in heard]
    # The accounts: none, over 32, and the list cut short, which comes before a number out of its range in it, and behind one in the head.
    cases += [(good[:16] + b"\0" + good[17:], 10), (good[:16] + b"\x21" + good[17:], 10), (good[:16], 14), (good[:22], 14), (good[:16] + b"\x32" + good[17:], 14), (good[:5] + b"\x21" + good[6:20], 10)]
    # The last account of the last row is none, or that of one row of a pair alone; the account has bought one hop use too few.
    cases += [(good[:-2] + b"\0\1", 15), (good[:19] + (2849).to_bytes(4, "big") + good[23:], 15)]
    # In older versions a period of 200 is none, though a byte holds it.
    for version in [1, 2, 3]:
        older = work_out.Book.read(good).in_version(version).image()
        own = older.index(bytes([0, 1, 10, 7] if version == 1 else [0, 1, 1, 10, 7])) + (2 if version == 1 else 3)
        cases.append((older[:own] + b"\xc8" + older[own + 1:], 15))
    cases.append((clash, 16))
    room.put("a.list", b"close 1\nopen 8 1 2 5\n")
    for place, (data, number) in enumerate(cases):
        room.put("bad.book", data)
        line = "refused %s (bad.book)\n" % refusal(number)
        room.says(1, line, "check", "bad.book")
        command = [["open", "bad.book", "8", "1", "2", "5"], ["close", "bad.book", "1"], ["show", "bad.book"], ["table", "bad.book"],
                   ["post", "bad.book", "a.list"], ["balance", "bad.book", "1"], ["quote", "bad.book", "1", "2"], ["routes", "bad.book", "1", "2"], ["replan", "bad.book", "kiln.plan", "n.book"], ["page", "bad.book"]]
        for words in command if place in (2, len(cases) - 1) else command[place % 9:place % 9 + 1]:
            room.says(1, line, *words)
        check(room.get("bad.book") == data, "a book that is none was changed")
    check("n.book" not in room.names(), "replan made a book of one that is none")


def usage(room):
    for name, words in USAGE.items():
        line = "usage: lindurask %s %s\n" % (name, words)
        least = len([w for w in words.split("[")[0].split()])
        most = least + sum(1 for w in words.split() if w.startswith("[") and not w.startswith("[--"))
        # A third book stands alone; the most that a statement takes is in statements.py.
        most = least if name == "statement" else most + words.count("[account N]")
        operands = ["kiln.book", "1", "2", "5", "5", "6", "7", "8", "9"]
        if least:
            room.says(2, line, name, *operands[:least - 1])
        room.says(2, line, name, *operands[:most + 1])
        room.says(2, line, name, *operands[:least], "--frob")
        for word in ["--help", "-h"]:
            said = room.run(name, word)
            check(said.status == 0 and said.out.startswith("lindurask %s %s\n" % (name, words)) and "Example: lindurask" in said.out, "%s %s" % (name, word))
        said = room.run("help", name)
        check(said.status == 0 and (name == "help" or said.out == room.run(name, "--help").out), "help %s" % name)
    none = "usage: lindurask COMMAND BOOK ...; lindurask help lists the commands\n"
    for words in [[], [""], ["", "kiln.book"]]:
        room.says(2, none, *words)
    for word, shown in [("frob", "frob"), ("--json", "--json"), ("NEW", "NEW"), (b"\x1b[31m\n", "\\x1b[31m\\x0a")]:
        for words in [[word], [word, "kiln.book"]] + [["help", word]] * (word != "--json"):
            room.says(2, "lindurask: no command is called %s; lindurask help lists the commands\n" % shown, *words)
    room.says(2, "usage: lindurask show %s\n" % USAGE["show"], "show", "kiln.book", "--stream", "1", "--node", "1")
    room.says(2, "usage: lindurask show %s\n" % USAGE["show"], "show", "kiln.book", "--stream")
    check(room.run("help").out == room.run("--help").out == room.run("-h").out == room.run("help", "help").out == room.run("help", "").out, "the ways to ask for help differ")
    version = [line.split('"')[1] for line in open(os.path.join(ROOT, "cli/Cargo.toml")) if line.startswith("version")][0]
    room.says(0, "lindurask %s, books of version 5\n" % version, "--version")
    for word in ["Second", "2", "", "--second", "second second", "account", "Account"]:
        room.says(2, "usage: lindurask open %s\n" % USAGE["open"], "open", "pond.book", "8", "4", "9", "20", word)


def numbers(room):
    for word in ["65536", "-1", "", "1x", "0x1", "+1", " 1", "1.0", "٣", "9" * 5000]:
        room.says(2, NO_ID, "open", "kiln.book", word, "1", "2", "5")
        room.says(2, NO_ID, "close", "kiln.book", word)
    for word in ["one", "-1", "", "1x", "1.0"]:
        room.says(2, NO_NODE, "open", "kiln.book", "8", word, "2", "5")
        room.says(2, NO_NODE, "open", "kiln.book", "8", "1", word, "5")
        room.says(2, NO_NODE, "balance", "kiln.book", word)
        room.says(2, NO_NODE, "table", "kiln.book", word)
        room.says(2, NO_NODE, "quote", "kiln.book", "1", word)
        room.says(2, NO_NODE, "show", "kiln.book", "--node", word)
    for word in ["5.0", "", "x", "-5"]:
        room.says(2, NO_PERIOD, "open", "kiln.book", "8", "1", "2", word)
    for word in ["1000", "x", "", "99999999999999999999999"]:
        room.says(2, NO_TILE, "show", "kiln.book", word)
    for word in ["-1", "x", "", "1.0"]:
        room.says(2, "lindurask: a tile is a number, from 0 on\n", "table", "kiln.book", "1", word)
        room.says(2, "lindurask: a count of tiles is a number\n", "table", "kiln.book", "1", "7", word)
    said = room.run("open", "kiln.book", "00012", "0001", "2", "0100")
    check(said.status == 0 and said.out.startswith("opened stream 12: period 100 tiles"), "leading zeros: " + said.all)


def test(room):
    refusals(room)
    lists(room)
    images(room)
    usage(room)
    numbers(room)
