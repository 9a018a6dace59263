"""Who hears whom: clashes read it and routes do not, every change keeps it, and a yard that learns it later opens its streams anew."""
import json

import tool
from tool import check, refusal, work_out

# Plan A and line A of document 01; W6 of document 02 has the case in which 3 hears 1.
LINE = "slots 4\ntiles down up\ncontrol 2 1\nnodes 4\nlink 0 1\nlink 1 2\nlink 2 3\n"
FIRST = "opened stream 1: period 2 tiles, latency 4 slots\n     route   3 2 1 0\n     offsets 2 3 5\n"
SECOND = "opened stream 2: period 2 tiles, latency 6 slots\n     route   0 1 2 3\n     offsets 2 6 7\n"
NO_PLACE = "no place for stream 2: period 2 tiles, from node 0 to node 3\n     refused 9: no free slots for this stream\n"
EMPTY = "made: 4 nodes, 0 streams of at most 64, 0 hops of at most 512\n"


def clash(room):
    """In line A 0 to 1 and 3 to 2 share slot 2; where 3 hears 1, however it is said, they clash, and the second stream has no place."""
    room.says(0, EMPTY, "new", "line.book", "-", data=LINE.encode())
    room.says(0, FIRST, "open", "line.book", "1", "3", "0", "2")
    room.says(0, SECOND, "open", "line.book", "2", "0", "3", "2")
    for place, said in enumerate(["hear 3 1\n", "hear 1 3\n"]):
        name = "spoilt%d.book" % place
        room.says(0, EMPTY, "new", name, "-", data=(LINE + said).encode())
        room.says(0, FIRST, "open", name, "1", "3", "0", "2")
        room.says(1, "refused %s (from node 0 to node 3, period 2)\n" % refusal(9), "open", name, "2", "0", "3", "2")
    check(room.get("spoilt0.book") == room.get("spoilt1.book"), "a pair that hears itself has a direction")
    # 3 hears 0: no hop of these two streams is spoilt by that.
    room.says(0, EMPTY, "new", "apart.book", "-", data=(LINE + "hear 3 0\n").encode())
    room.says(0, FIRST, "open", "apart.book", "1", "3", "0", "2")
    # The rows of the one book beside the hearing of the other are no book.
    heard = work_out.Book.read(room.get("line.book")).but(heard=[(1, 3)])
    room.put("both.book", heard.image())
    room.says(1, "refused %s (both.book)\n" % refusal(16), "check", "both.book")
    room.says(0, "lawful: %s" % work_out.counts(heard), "check", "line.book")


def routes(room):
    """No route goes where nodes only hear each other: none leads to a node without a link, and the others are as they were."""
    plan = b"slots 4\ntiles up\ncontrol 0 0\nnodes 3\nlink 0 1\nhear 1 2\nhear 0 2\n"
    made = "made: 3 nodes, 0 streams of at most 64, 0 hops of at most 512\nlindurask: warning: node 2 has no link\n"
    room.says(0, made, "new", "lone.book", "-", data=plan)
    room.says(1, "refused %s (from node 0 to node 2, period 5)\n" % refusal(7), "open", "lone.book", "1", "0", "2", "5")
    room.says(0, "from node 0 to node 2\nno route of at most 6 hops\n", "routes", "lone.book", "0", "2")
    ridge = work_out.sample("ridge")
    check(any(ridge.hears(a, b) and not ridge.linked(a, b) for a, b in [(2, 4), (1, 3)]), "the ridge hears no further than it talks")
    room.says(0, work_out.list_of_routes(ridge.but(heard=[]), 1, 5), "routes", "ridge.book", "1", "5")


def shown(room):
    """Pairs that only hear are listed apart from the links, where there are any; to a program always."""
    for name in [*tool.SAMPLES, "deaf", "heard"]:
        book, said = work_out.Book.read(room.get(name + ".book")), room.run("show", name + ".book").out
        listed = json.loads(room.run("show", name + ".book", "--json").out)
        check(said.count("\nHeard without a link\n") == bool(book.heard) == (name in ("ridge", "mill", "heard")), "show %s: %s" % (name, said))
        check(listed["heard"] == [list(pair) for pair in book.heard] and listed["links"] == [list(pair) for pair in work_out.pairs(book)], "show --json of %s" % name)
        for node in range(book.n if book.n < 10 else 0):
            line = "  heard without a link %s\n" % " ".join(map(str, book.heard_by(node)))
            said = room.run("show", name + ".book", "--node", str(node)).out
            check((line in said) == bool(book.heard_by(node)) and said.count("without a link") == bool(book.heard_by(node)), "show %s --node %d: %s" % (name, node, said))


def learnt(room):
    """The same streams by a plan with new lines: those without a place are said, the book before stays, and back again all have one."""
    room.put("spoilt.plan", (LINE + "hear 3 1\n").encode())
    room.put("line.plan", LINE.encode())
    before = room.get("line.book")
    left = "1 of 2 streams have a place\nmade: 4 nodes, 1 stream of at most 64, 3 hops of at most 512\n"
    room.says(1, FIRST + NO_PLACE + left, "replan", "line.book", "spoilt.plan", "learnt.book")
    check(room.get("line.book") == before and work_out.Book.read(room.get("learnt.book")).heard == [(1, 3)], "a replan by who hears whom")
    said = "2 of 2 streams have a place\nmade: 4 nodes, 2 streams of at most 64, 6 hops of at most 512\n"
    room.says(0, FIRST + SECOND + said, "replan", "line.book", "line.plan", "again.book")
    check(room.get("again.book") == before, "a replan by the plan of the book")


def kept(room):
    """Opens, closes and lists leave the hearing as it is, and a book of version 2 gets its links for one."""
    before = room.get("ridge.book")
    rows = slice(23 + 8 * 9, 23 + 16 * 9)
    for words in [["open", "ridge.book", "9", "0", "8", "50"], ["close", "ridge.book", "9"], ["post", "ridge.book", "turns.list"]]:
        room.run(*words)
        check(room.get("ridge.book") != before or words[0] == "close", "%s does not change the book" % words)
        check(room.get("ridge.book")[rows] == before[rows] and room.get("ridge.book")[4] == work_out.NEWEST, "%s changes who hears whom" % words)
    room.put("ridge.book", before)
    deaf = room.get("deaf.book")
    check(deaf[4] == 2 and room.run("close", "deaf.book", "1").status == 0, "a close of a book of version 2")
    check(room.get("deaf.book")[23:23 + 8 * 9] == room.get("deaf.book")[rows] == deaf[16:16 + 8 * 9], "the hearing of a book of version 2")


def test(room):
    room.put_others()
    clash(room)
    routes(room)
    shown(room)
    learnt(room)
    kept(room)
