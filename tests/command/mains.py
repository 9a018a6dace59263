"""Nodes on mains: with --mains no other node stands in the middle of a route, whatever its ends are, and check says where one does."""
import json
import random

import chance
import tool
from tool import check, refusal, work_out

# A ring of six with a node 6 beside 0: from 0 to 3 by 1 and 2, or by 5 and 4; from 6 the first relay is 0.
RING = "slots 4\ntiles up\ncontrol 0 0\nnodes 7\nlink 0 1\nlink 1 2\nlink 2 3\nlink 3 4\nlink 4 5\nlink 5 0\nlink 6 0\n"
NO_SET = "lindurask: write mains nodes with commas, as in: --mains 0,3,5 or --mains 0-3,5, or --mains none\n"
SITES = 8


def commands(book, listed):
    """Every command that takes a set."""
    return [["check", book], ["open", book, "9", "0", "3", "5"], ["post", book, listed], ["quote", book, "0", "3"], ["routes", book, "0", "3"]]


def by_hand(room):
    """On the ring: the lower route, the other one where a relay of the first is not on mains, none, and both of them as first and second."""
    room.put("ring.plan", RING.encode())
    room.says(0, "made: 7 nodes, 0 streams of at most 64, 0 hops of at most 512\n", "new", "ring.book", "ring.plan")
    empty = room.get("ring.book")

    def opened(route, *words):
        room.put("ring.book", empty)
        hops = len(route.split()) - 1
        said = "opened stream 1: period 2 tiles, latency %d slot%s\n     route   %s\n     offsets %s\n" % (hops, "s" * (hops > 1), route, " ".join(map(str, range(hops))))
        room.says(0, said, "open", "ring.book", "1", *words)
    opened("0 1 2 3", "0", "3", "2")
    opened("0 1 2 3", "0", "3", "2", "--mains", "1-2,4-5")
    # The ends need not be on mains, and no relay may be off them, be it the first or the last.
    opened("0 1 2 3", "0", "3", "2", "--mains", "1,2")
    opened("0 5 4 3", "0", "3", "2", "--mains", "4,5")
    opened("0 5 4 3", "0", "3", "2", "--mains", "5,4,1,3,0")
    opened("0 5 4 3", "0", "3", "2", "--mains", "5,4,2")
    opened("6 0 5", "6", "5", "2", "--mains", "0")
    opened("0 1", "0", "1", "2", "--mains", "none")
    room.put("ring.book", empty)
    ends = "from node %d to node %d over mains nodes"
    for words, number, source, destination in [(["--mains", "0,3"], 7, 0, 3), (["--mains", "1,4"], 7, 0, 3), (["--mains", "none"], 7, 0, 2), (["second", "--mains", "1-4"], 18, 0, 3), (["--mains", "1-5"], 7, 6, 5)]:
        line = "refused %s (%s, period 2)\n" % (refusal(number), ends % (source, destination))
        room.says(1, line, "open", "ring.book", "1", str(source), str(destination), "2", *words)
    room.says(1, "refused %s (%s)\n" % (refusal(7), ends % (0, 3)), "quote", "ring.book", "0", "3", "--mains", "0,3")
    check(room.get("ring.book") == empty, "a refusal with a set changed the book")
    both = "opened stream 1: period 2 tiles, latency 3 slots\n     route   0 1 2 3\n     offsets 0 1 2\n     second route: latency 3 slots\n     route   0 5 4 3\n"
    said = room.run("open", "ring.book", "1", "0", "3", "2", "second", "--mains", "1,2,4,5")
    check(said.status == 0 and said.all.startswith(both), "both routes over mains: %s" % said.all)
    lawful = "lawful: 7 nodes, 1 stream with 2 routes of at most 64, 6 hops of at most 512\n"
    room.says(0, lawful + "every stream keeps to the mains nodes\n", "check", "ring.book", "--mains", "1,2,4,5")
    last = "1 of 1 stream passes a node that is not on mains\n"
    room.says(1, lawful + "stream 1 passes node 2, which is not on mains\n" + last, "check", "ring.book", "--mains", "1,4,5")
    room.says(1, lawful + "the second route of stream 1 passes nodes 5 4, which are not on mains\n" + last, "check", "ring.book", "--mains", "0-3")
    room.says(0, lawful, "check", "ring.book")


def far(room):
    """Behind a short way that is not on mains there is one of 16 hops, which is too long, or of 15."""
    links = [(a, a + 1) for a in range(16)] + [(0, 17), (17, 16), (17, 15)]
    room.put("far.plan", ("slots 32\ntiles up\ncontrol 0 0\nnodes 18\n" + "".join("link %d %d\n" % link for link in links)).encode())
    room.says(0, "made: 18 nodes, 0 streams of at most 64, 0 hops of at most 512\n", "new", "far.book", "far.plan")
    room.says(1, "refused %s (from node 0 to node 16 over mains nodes, period 1)\n" % refusal(17), "open", "far.book", "1", "0", "16", "1", "--mains", "0-16")
    room.says(1, "refused %s (from node 0 to node 16 over mains nodes)\n" % refusal(17), "quote", "far.book", "0", "16", "--mains", "0-16")
    room.says(0, "from node 0 to node 16 over mains nodes\nno route of at most 6 hops\n", "routes", "far.book", "0", "16", "--mains", "0-16")
    said = room.run("open", "far.book", "1", "0", "15", "1", "--mains", "1-14")
    check(said.status == 0 and "     route   %s\n" % " ".join(map(str, range(16))) in said.out, "a route of 15 hops: %s" % said.all)


def words(room):
    """What is no set is not understood, before a file is looked at; a node that the site has not is refused by its number, after the book."""
    room.put("a.list", b"open 9 0 3 5\n")
    before = room.get("kiln.book")
    bad = ["", ",", "0,", ",0", "0,,3", "3-0", "1-2-3", "-1", "1-", "x", "0 3", "0, 3", "none,3", "None", "0x1", "+1", "1.0", "0;3", "\u0663", "--json"]
    for place, word in enumerate(bad):
        for words in commands("none.book", "a.list")[place % 5:][:1] + commands("kiln.book", "a.list")[place % 4:][:1]:
            room.says(2, NO_SET, *words, "--mains", word)
    for word, node in [("64", "64"), ("3,64", "64"), ("0-64", "64"), ("0-99999999999999999999999", "18446744073709551615"), ("255", "255")]:
        for words in commands("kiln.book", "a.list"):
            room.says(2, "lindurask: no site has a node %s; they count from 0 to 63\n" % node, *words, "--mains", word)
    for words in commands("kiln.book", "a.list"):
        room.says(2, "usage: lindurask %s\n" % room.run(words[0], "--help").out.split("\n")[0].replace("lindurask ", "", 1), *words, "--mains")
        for word, node in [("8", 8), ("0-8", 8), ("63,1,9", 9), ("63", 63), ("0-63", 8)]:
            room.says(1, "refused %s (node %d)\n" % (refusal(25), node), *words, "--mains", word)
        if words[0] != "open":
            about = {"refused": 25, "words": work_out.WORDS[25], "about": "node 9"}
            room.says(1, work_out.in_json(about), *words, "--mains", "9", "--json")
    # The last one counts, as with every option.
    room.says(0, "from node 0 to node 1 over mains nodes\nhops route\n   1 0 1\n1 route of at most 6 hops\n", "routes", "kiln.book", "0", "1", "--mains", "9", "--mains", "1")
    check(room.get("kiln.book") == before, "a set that is none changed the book")


def order(room):
    """The refusals of the book, then 25, then those of the list or of the nodes."""
    room.put("many.list", b"close 1\n" * 65)
    room.put("bad.book", room.get("kiln.book")[:-1])
    for words in commands("bad.book", "many.list"):
        room.says(1, "refused %s (bad.book)\n" % refusal(14), *words, "--mains", "9")
    for data in [b"", b"SLB", room.get("kiln.book")[:11]]:
        room.put("bad.book", data)
        for words in commands("bad.book", "many.list"):
            for more in [[], ["--mains", "0"]]:
                room.says(1, "refused %s (bad.book)\n" % refusal(14), *words, *more)
    set_first = "refused %s (node 9)\n" % refusal(25)
    for words in [["post", "kiln.book", "many.list"], ["routes", "kiln.book", "8", "8"], ["quote", "kiln.book", "1", "1"], ["open", "kiln.book", "0", "9", "9", "3"]]:
        room.says(1, set_first, *words, "--mains", "9")
    room.says(1, "refused %s (many.list, 65 requests)\n" % refusal(26), "post", "kiln.book", "many.list", "--mains", "7")
    room.says(1, "refused %s (node 8)\n" % refusal(4), "routes", "kiln.book", "8", "8", "--mains", "7")


def whole(room):
    """With all nodes in the set every answer is the plain one, but for the words that say so; the highest nodes count too."""
    for name, pairs in [("kiln", [(7, 0), (5, 6)]), ("pond", [(4, 9), (10, 0)]), ("site", [(18, 36)])]:
        every = "0-%d" % (work_out.sample(name).n - 1)
        for a, b in pairs:
            for command in ["routes", "quote"]:
                plain = room.run(command, name + ".book", str(a), str(b))
                said = room.run(command, name + ".book", str(a), str(b), "--mains", every)
                check((said.status, said.all.replace(" over mains nodes", "")) == (plain.status, plain.all), "%s %s with all nodes: %s" % (command, name, said.all))
    site = work_out.sample("site").without(64)
    for nodes in [{*range(8), 15, 23, 31, 39, 47, 55}, {*range(0, 57, 8), *range(57, 63)}]:
        room.put("rim.book", site.image())
        got = site.but(mains=nodes).opened(64, 0, 63, 100)
        room.says(0, work_out.stream("opened ", got), "open", "rim.book", "64", "0", "63", "100", "--mains", ",".join(map(str, sorted(nodes))))
        check(room.get("rim.book") == site.with_ways(got).image(), "a stream along the rim")


def site(turn):
    """Books and sets by chance: a list, and then every command that takes a set, beside what is worked out."""
    dice, numbers = random.Random(chance.SEED * 2000 + turn), set()
    with tool.Room() as room:
        book = chance.plan(dice)[1]
        nodes = set(dice.sample(range(book.n), dice.randint(0, book.n)))
        option = ["--mains", ",".join(map(str, dice.sample(sorted(nodes), len(nodes)))) or "none"]
        for _ in range(3):
            over = book.but(mains=nodes)
            lines = ["open %d %d %d %d%s" % (dice.randint(1, 30), *dice.sample(range(book.n), 2), dice.choice(work_out.PERIODS), dice.choice(["", " second"])) for _ in range(8)]
            lines += ["close %d" % dice.randint(1, 30)]
            room.put("own.book", book.image())
            text = "\n".join(lines)
            said, status, last = work_out.post(over, text)
            room.says(status, said, "post", "own.book", "-", *option, data=text.encode())
            check(room.get("own.book") == last.image(), "a list by chance over %s left another book:\n%s" % (option, text))
            check(not work_out.passes(last) or work_out.passes(over), "a book that kept to the set does so no more")
            numbers |= {got if isinstance(got, int) else 0 for got in work_out.posted(over, text)[0]}
            source, destination = dice.sample(range(book.n), 2)
            room.says(0, work_out.list_of_routes(last, source, destination), "routes", "own.book", str(source), str(destination), *option)
            other = set(dice.sample(range(book.n), dice.randint(0, book.n)))
            checked = last.but(mains=other)
            words = ["check", "own.book", "--mains", ",".join(map(str, sorted(other))) or "none"]
            room.says(int(bool(work_out.passes(checked))), work_out.checked(checked), *words)
            got = json.loads(room.run(*words, "--json").out)
            check(got == json.loads(work_out.check_json(checked)), "%s --json: %s" % (words, got))
            # Streams that were opened without the set are there too.
            plain = last.but(mains=None)
            ways = plain.opened(40, source, destination, 100)
            book = plain if isinstance(ways, int) or plain.stream(40) else plain.with_ways(ways)
    return numbers


def test(room):
    by_hand(room)
    far(room)
    words(room)
    order(room)
    whole(room)
    numbers = set().union(*tool.all_of(site, range(SITES)))
    check(numbers >= {0, 2, 3, 7, 18}, "lists by chance over a set got only %s" % sorted(numbers))
