"""Many at once: no change is lost, on one book or on several in one folder."""
import subprocess

import tool
from tool import check


def at_once(room, commands):
    runs = [subprocess.Popen([tool.TOOL, *words], stdout=subprocess.DEVNULL, stderr=subprocess.PIPE, cwd=room.path) for words in commands]
    return [(run.wait(), run.stderr.read(), run.stderr.close())[:2] for run in runs]


def lists(room):
    """Fifty clerks post a list each: two opens and a close, done together or not yet at all."""
    room.put("lists.book", room.empty)
    for id in range(1, 51):
        room.put("%d.list" % id, b"open %d 1 0 100\nclose %d\nopen %d 1 0 100\n" % (100 + id, 100 + id, id))
    got = at_once(room, [["post", "lists.book", "%d.list" % id] for id in range(1, 51)])
    check(all(status == 0 for status, _ in got), "fifty lists at once: %s" % [g for g in got if g[0]])
    book = tool.work_out.Book.read(room.get("lists.book"))
    many = tool.work_out.Book.read(room.get("many.book"))
    check([way.id for way in book.ways] == list(range(1, 51)), "of fifty lists one was lost: %s" % [way.id for way in book.ways])
    check(sorted(way.offsets[0] for way in book.ways) == sorted(way.offsets[0] for way in many.ways), "fifty lists got other slots than one after the other")
    # Eight post one list: it is done once, and refused line by line for the others.
    room.put("same.list", b"open 60 1 0 100\nclose 7\nopen 61 2 1 100\n")
    got = at_once(room, [["post", "lists.book", "same.list"]] * 8)
    check(sorted(status for status, _ in got) == [0] + [1] * 7, "eight clerks with one list: %s" % got)
    last = tool.work_out.posted(book, room.get("same.list").decode())[1]
    check(room.get("lists.book") == last.image(), "eight clerks with one list left another book")
    # Lists, opens and closes at once, with ids of their own.
    words = [["open", "lists.book", "70", "1", "0", "100"], ["close", "lists.book", "9"], ["post", "lists.book", "x.list"], ["post", "lists.book", "y.list"]]
    room.put("x.list", b"close 11\nopen 11 3 2 100\nopen 71 4 3 100\n")
    room.put("y.list", b"close 12\nclose 13\n")
    got = at_once(room, words)
    ids = [way.id for way in tool.work_out.Book.read(room.get("lists.book")).ways]
    check([status for status, _ in got] == [0] * 4 and ids == [id for id in range(1, 51) if id not in (7, 9, 12, 13)] + [60, 61, 70, 71], "lists beside opens and closes: %s %s" % (got, ids))


def test(room):
    room.put("many.book", room.empty)
    got = at_once(room, [["open", "many.book", str(id), "1", "0", "100"] for id in range(1, 51)])
    check(all(status == 0 for status, _ in got), "fifty clerks at once: %s" % [g for g in got if g[0]])
    room.says(0, "lawful: 8 nodes, 50 streams of at most 64, 50 hops of at most 512\n", "check", "many.book")
    offsets = sorted(way.offsets[0] for way in tool.work_out.Book.read(room.get("many.book")).ways)
    alone = tool.work_out.Book.read(room.empty)
    for id in range(1, 51):
        alone = alone.with_ways(alone.opened(id, 1, 0, 100))
    check(offsets == sorted(way.offsets[0] for way in alone.ways), "fifty clerks got other slots than one after the other")
    lists(room)
    for name in ["a", "b", "c", "d", "e"]:
        room.put(name + ".book", room.empty)
    before = room.names()
    got = at_once(room, [["open", name + ".book", str(id), "1", "0", "100"] for id in range(1, 5) for name in "abcde"])
    check(all(status == 0 for status, _ in got), "five books in one folder: %s" % [g for g in got if g[0]])
    check(len({room.get(name + ".book")[12] for name in "abcde"}) == 1 and room.get("a.book")[12] == 4, "a change was lost")
    got = at_once(room, [["open", "many.book", "60", "1", "0", "100"]] * 8)
    check(sorted(status for status, _ in got) == [0] + [1] * 7, "eight clerks with one id: %s" % got)
    got = at_once(room, [["new", "once.book", "kiln.plan"]] * 8)
    check(sorted(status for status, _ in got) == [0] + [2] * 7 and room.get("once.book") == room.empty, "eight clerks make one book: %s" % got)
    check(room.names() == sorted(before + ["once.book"]), "clerks left %s" % room.names())
