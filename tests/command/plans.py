"""Plans as people type them: what is wrong, and in which line."""
from tool import check, work_out

GOOD = ["slots 4", "tiles up", "control 0 1", "nodes 4", "link 0 1", "link 1 2", "link 2 3"]
STARTS = "a line starts with slots, tiles, control, nodes, link, hear or account"
MADE = "made: %d nodes, 0 streams of at most 64, 0 hops of at most 512\n"


def bad(room, status, text, *lines, end="\n"):
    room.put("bad.plan", "".join(line + end for line in lines).encode())
    room.says(status, text + "\n", "new", "bad.book", "bad.plan")
    check("bad.book" not in room.names(), "a bad plan made a book: %s" % (lines,))


def judged(room):
    """A number out of its range is a refusal, with the line that it stands in."""
    def refused(number, words, line, *lines):
        bad(room, 1, "refused %d: %s (bad.plan, line %d)" % (number, words, line), *lines)
    for slots in ["0", "33", "255", "256", "999999999999999999999"]:
        refused(10, "a tile has 1 to 32 slots", 1, "slots " + slots, *GOOD[1:])
    for tiles in [0, 3, 6, 7, 8, 9, 11, 16, 17, 20, 256, 258, 266]:
        refused(10, "a plan has 1, 2, 4, 5 or 10 tiles", 3, "slots 4", "", "tiles" + " up" * tiles, *GOOD[2:])
    refused(10, "there are more control slots than slots in a tile", 3, "slots 4", "tiles up", "control 5 0", *GOOD[3:])
    refused(10, "there are more control slots than slots in a tile", 3, "slots 4", "tiles up", "control 0 5", *GOOD[3:])
    refused(10, "there are more control slots than slots in a tile", 1, "control 0 256", "slots 4", "tiles up", *GOOD[3:])
    for nodes in ["0", "1", "65", "256", "258"]:
        refused(10, "a site has 2 to 64 nodes", 4, *GOOD[:3], "nodes " + nodes)
    for node in ["4", "63", "64", "65", "256", "300", "18446744073709551616"]:
        shown = min(int(node), 2 ** 64 - 1)
        refused(11, "the site has no node %d; they count from 0 to 3" % shown, 8, *GOOD, "link 0 " + node)
        refused(11, "the site has no node %d; they count from 0 to 3" % shown, 9, *GOOD, "link 0 3", "link %s 1" % node)
        refused(11, "the site has no node %d; they count from 0 to 3" % shown, 8, *GOOD, "hear 0 " + node)
        refused(11, "the site has no node %d; they count from 0 to 3" % shown, 9, *GOOD, "hear 0 3", "hear %s 1" % node)
    refused(11, "the site has no node 64; they count from 0 to 63", 5, *GOOD[:3], "nodes 64", "link 3 64")
    refused(11, "no node links to itself (node 2)", 8, *GOOD, "link 2 2")
    refused(11, "no node links to itself (node 0)", 5, *GOOD[:4], "link 0 0")
    refused(11, "the site has no node 64; they count from 0 to 63", 5, *GOOD[:3], "nodes 64", "hear 3 64")
    refused(11, "no node hears itself (node 2)", 8, *GOOD, "hear 2 2")
    refused(10, "a book has at most 32 accounts", 37, *GOOD[:4], *("account %d 5" % number for number in range(100, 133)))
    refused(10, "a book has at most 32 accounts", 33, *("account %d 5" % (7000 - turn) for turn in range(4000)), *GOOD)
    refused(10, "a site has 2 to 64 nodes", 4, *GOOD[:3], "nodes 65", *("account %d 5" % number for number in range(33)))
    # Of two lines that are wrong the first is named, be it a link or not.
    refused(11, "no node hears itself (node 1)", 8, *GOOD, "hear 1 1", "link 2 2")
    refused(11, "no node links to itself (node 2)", 8, *GOOD, "link 2 2", "hear 1 1")


def not_understood(room):
    def wrong(words, line, *lines):
        bad(room, 2, "bad.plan, line %d: %s" % (line, words), *lines)
    wrong(STARTS, 1, "slot 4")
    wrong(STARTS, 8, *GOOD, "\x00")
    wrong("write slots and one number, as in: slots 4", 3, "# a comment", "", "slots four")
    wrong("write slots and one number, as in: slots 4", 1, "slots 4 5")
    wrong("write slots and one number, as in: slots 4", 1, "slots -4")
    wrong("write down or up for each tile, as in: tiles down up", 1, "tiles down left")
    wrong("write control and two numbers, for downlink and uplink tiles, as in: control 2 1", 1, "control 1")
    wrong("write nodes and one number, as in: nodes 4", 1, "nodes")
    wrong("write link and two nodes, as in: link 0 1", 1, "link 0")
    wrong("write link and two nodes, as in: link 0 1", 1, "link 0 1 2")
    for line in ["hear", "hear 0", "hear 0 1 2", "hear 0 -2", "hear 0 two"]:
        wrong("write hear and two nodes, as in: hear 0 2", 8, *GOOD, line)
    wrong(STARTS, 8, *GOOD, "hears 0 2")
    for line in ["account", "account 3", "account 3 1000 5", "account 3 -1", "account x 5", "account 3 five", "account 3 1e3", "account +3 5", "account 0x3 5", "account 3 \u0663"]:
        wrong("write account, its number and the hop uses that it has bought, as in: account 3 1000", 8, *GOOD, line)
    for number in ["65536", "99999999999999999999999"]:
        wrong("an account is a number from 0 to 65535", 8, *GOOD, "account %s 5" % number)
    for bought in ["4294967296", "99999999999999999999999"]:
        wrong("an amount of hop uses is a number from 0 to 4294967295", 8, *GOOD, "account 5 " + bought)
    wrong("account 5 was said in line 8 before", 10, *GOOD, "account 5 1", "account 6 1", "account 05 1")
    wrong(STARTS, 8, *GOOD, "accounts 3 1000")
    for line in GOOD[:4]:
        wrong("this was said in line %d before" % (GOOD.index(line) + 1), 8, *GOOD, line)
    for place, name in enumerate(["slots", "tiles", "control", "nodes"]):
        bad(room, 2, "bad.plan: there is no line %s" % name, *(line for at, line in enumerate(GOOD) if at != place))
    bad(room, 2, "bad.plan: there is no line slots")
    room.put("huge.plan", b"#" * 70000)
    room.says(2, "lindurask: huge.plan: the plan is too long: it has at most 65535 bytes\n", "new", "bad.book", "huge.plan")
    said = room.run("new", "bad.book", "-", data=b"slots x\n")
    check(said.status == 2 and said.all == "standard input, line 1: write slots and one number, as in: slots 4\n", said.all)
    room.says(2, "lindurask: standard input: the plan is too long: it has at most 65535 bytes\n", "new", "bad.book", "-", data=b"#" * 70000)
    said = room.run("new", "bad.book", "-", data=b"slots 4\ntiles up\ncontrol 0 1\nnodes 65\n")
    check(said.status == 1 and said.all == "refused 10: a site has 2 to 64 nodes (standard input, line 4)\n", said.all)


def understood(room):
    """Every way to write the same plan makes the same book."""
    plan = room.get("kiln.plan")
    ways = {"as it is": plan, "a byte-order mark": b"\xef\xbb\xbf" + plan, "CRLF": plan.replace(b"\n", b"\r\n"),
            "tabs": plan.replace(b" ", b"\t \t"), "no last newline": plan.rstrip(b"\n"), "blanks": b"  \n" + plan.replace(b"\n", b"  \n\n"),
            "all three": b"\xef\xbb\xbf" + plan.replace(b" ", b"\t").replace(b"\n", b"\r\n"),
            "links first": b"".join(sorted(plan.splitlines(True))), "a link twice": plan + b"link 1 0\n", "a link that is heard": plan + b"hear 1 0\nhear 6 7\n",
            "long words": plan.replace(b"down", b"downlink").replace(b" up", b" uplink"), "filled up": plan + b"#" * (65535 - len(plan))}
    for place, (what, data) in enumerate(ways.items()):
        room.put("way.plan", data)
        room.says(0, MADE % 8, "new", "way%d.book" % place, "way.plan")
        check(room.get("way%d.book" % place) == room.empty, "a plan with %s" % what)
        said = room.run("new", "piped%d.book" % place, "-", data=data)
        check(said.status == 0 and room.get("piped%d.book" % place) == room.empty, "a plan from standard input with %s" % what)
    heard(room, plan)
    room.put("lone.plan", b"slots 4\ntiles up\ncontrol 0 1\nnodes 4\nlink 1 2\n")
    warning = "lindurask: warning: node %d has no link\n"
    room.says(0, MADE % 4 + warning % 0 + warning % 3, "new", "lone.book", "lone.plan")
    said = room.run("show", "lone.book")
    check("\nLinks\n  1-2\n\nStreams\n  none\n" in said.out, "a book without streams: " + said.out)
    room.put("bare.plan", b"slots 1\ntiles down\ncontrol 1 1\nnodes 2\n")
    room.says(0, MADE % 2 + warning % 0 + warning % 1, "new", "bare.book", "bare.plan")
    check("\nLinks\n  none\n" in room.run("show", "bare.book").out, "a book without links")


def heard(room, plan):
    """However two nodes are said to hear each other, and how often, the book says it both ways, and links stay as they are."""
    want = work_out.plan_book("kiln").but(heard=[(0, 2), (3, 7)])
    check(want.image() != room.empty and want.rows == work_out.plan_book("kiln").rows, "a hearing beside the links")
    ways = [b"hear 0 2\nhear 3 7\n", b"hear 2 0\nhear 7 3\n", b"hear 3 7\nhear 0 2\nhear 2 0\nhear 3 7\n", b"hear 0 2\nhear 0 1\nhear 7 3 # a comment\n"]
    for place, lines in enumerate(ways):
        for text in [plan + lines, lines + plan]:
            name = "heard%d%d.book" % (place, text == plan + lines)
            room.says(0, MADE % 8, "new", name, "-", data=text)
            check(room.get(name) == want.image(), "a plan with %r" % lines)


def accounts(room, plan):
    """In whatever order accounts are said, the book has them by their numbers; 32 are the most, and without one it has account 0."""
    kiln = work_out.plan_book("kiln")
    cases = {b"account 3 1000\n": [(3, 1000)], b"account 7 0\naccount 3 4294967295 # all\naccount 65535 1\n": [(3, 2 ** 32 - 1), (7, 0), (65535, 1)],
             b"account 0 4294967295\n": work_out.ENDLESS, b"account 0 4294967294\n": [(0, 2 ** 32 - 2)], b"": work_out.ENDLESS,
             b"".join(b"account %d %d\n" % (900 - number, number) for number in range(32)): [(900 - number, number) for number in range(32)]}
    for place, (lines, said) in enumerate(cases.items()):
        want = kiln.but(accounts=said)
        for at, text in enumerate([plan + lines, lines + plan]):
            name = "paid%d%d.book" % (place, at)
            room.says(0, "made: " + work_out.counts(want), "new", name, "-", data=text)
            check(room.get(name) == want.image(), "a plan with %r" % lines)


def test(room):
    judged(room)
    not_understood(room)
    understood(room)
    accounts(room, room.get("kiln.plan"))
