"""An engine that is missing, ends early or says nonsense: the tool says so, exit status 2, and nothing is changed."""
import os
import shutil
import subprocess
import sys

import tool
from tool import check

# Answers each call with what the mode says; a call's room stands in bytes 16 and 17, its bytes in 14 and 15, those of its
# hearing in 38 and 39, those of its records, which have 11 each, of the accounts of a new book or of tables in 40 and 41, and the words
# of its index, or the 65,536s of tables, in 42 and 43. The index is that of the book which a call leaves, out of a file beside new.image or beside the engine.
FAKE = "#!%s -IS\n" % sys.executable + r'''import os, sys
INDEXES = ("indexnone", "indexkept", "indexturned", "indexbefore", "indexonce", "indexbit", "indexwithout", "indexrefused", "indexagain")
mode = sys.argv[0].rsplit("-", 1)[1]
read, write = sys.stdin.buffer.read, sys.stdout.buffer
while True:
    head = read(44)
    if len(head) < 44 or head[0] == 255:
        break
    data = read(int.from_bytes(head[14:16], "big"))
    hearing = read(int.from_bytes(head[38:40], "big"))
    more = int.from_bytes(head[42:44], "big") if head[0] == 12 else 0
    further = read(65536 * more + int.from_bytes(head[40:42], "big"))
    records = further if head[0] == 8 else b""
    room, words = int.from_bytes(head[16:18], "big"), int.from_bytes(head[42:44], "big")
    number, counts, out = 0, [0, 0, 0], bytes([head[18]]) * room
    sent = records
    def marked(answer): return b"".join(records[at:at + 10] + bytes([answer]) for at in range(0, len(records), 11))
    if mode == "number": number = 99
    if mode == "length": counts[0] = room + 1
    if mode == "both": number, counts[0] = 14, 1
    if mode == "second": counts[1] = 1
    if mode == "spilt" and room: out = b"x" * room
    if mode == "touched" and room: number, out = 9, b"x" + out[1:]
    if mode == "junk" and room: counts[0], out = room, os.urandom(room)
    if mode == "short" and room: counts[0], out = 3, b"SLB" + out[3:]
    if mode in ("more", "badly", "single", "good", "unmarked", "field", "missing", "odd", "written") + INDEXES and room:
        image = open(os.path.join(os.path.dirname(sys.argv[0]), "new.image"), "rb").read()
        counts[0], out = len(image), image + out[len(image):]
    if mode not in ("unmarked", "number", "both"): records = marked({"odd": 99, "written": 9}.get(mode, 0))
    if mode == "field": records = records[:2] + bytes([records[2] ^ 1]) + records[3:]
    if mode == "missing": records = records[:-1]
    if mode == "marks": number = 26
    if mode == "fickle" and head[0] == 8:
        if len(records) == 11: records = marked(9)
        else: counts[0], out = len(data), data + out[len(data):]
    first, part = (3 * data[5] * int.from_bytes(head[at:at + 2], "big") if len(data) > 5 else 0 for at in (22, 24))
    if (mode == "sleepy" or mode.startswith("links")) and head[0] == 5: counts[0], out = part, bytes(part) + out[part:]
    if mode == "tableshort" and head[0] == 5: counts[0], out = part - 3, bytes(part - 3) + out[part - 3:]
    if mode == "unlike" and head[0] == 5:
        table = open(os.path.join(os.path.dirname(sys.argv[0]), "tables"), "rb").read()[3000 * data[5] * head[3] + first:][:part]
        forwards = bytes(3 if place % 3 == 0 and byte == 1 else byte for place, byte in enumerate(table))
        counts[0], out = part, (forwards if data[4] == 1 else table) + out[part:]
    if mode.startswith("adopt") and head[0] == 12:
        number = {"adoptunsound": 19, "adoptfull": 8, "adoptnone": 20, "adoptbeside": 20, "adoptwritten": 20}.get(mode, 0)
        image = open(os.path.join(os.path.dirname(sys.argv[0]), "new.image"), "rb").read()
        if number == 0 or mode == "adoptwritten": out = image + out[len(image):]
        counts[0] = len(image) if number == 0 else int(mode == "adoptbeside")
        if mode == "adoptempty": counts[0], out = 0, bytes([head[18]]) * room
    if mode.startswith("adopt") and head[0] == 5:
        table = open(os.path.join(os.path.dirname(sys.argv[0]), "lent"), "rb").read()[300 * data[5] * head[3]:][:part]
        counts[0], out = part, table + out[part:]
    if mode.startswith("list") and head[0] == 7:
        said = {"listnode": b"\2\3\x0c\0", "listhops": b"\7\3\2\1\4\5\6\7\0", "listnone": b"\0\3", "listcut": b"\3\3\2\1", "listends": b"\3\3\2\1\4", "listfar": b"\3\3\2\1\0"}.get(mode, b"")
        counts, out = [len(said), 2 if mode == "listmark" else 0, 0], said + out[len(said):]
    if mode.startswith("links") and head[0] == 13:
        number, counts = {"linksnodes": (0, [data[11], 0, 0]), "linksmost": (0, [64, 0, 0]), "linkshuge": (0, [256, 0, 0]), "linksmore": (0, [1, 1, 0]),
                          "linksbeside": (4, [1, 0, 0]), "linksrefused": (4, [0, 0, 0])}.get(mode, (0, [data[11] - 1, 0, 0]))
    if mode.startswith("keeps") and head[0] == 9:
        number, counts = {"keepsyes": (0, [1, 0, 0]), "keepsno": (0, [0, 0, 0]), "keepsodd": (0, [2, 0, 0]), "keepsmore": (0, [1, 1, 0]), "keepslast": (0, [0, 0, 1]),
                          "keepsbeside": (25, [1, 0, 0])}.get(mode, (25, [0, 0, 0]))
    if mode == "stranger" and head[0] in (3, 7, 8): number, counts, out, records = 25, [0, 0, 0], bytes([head[18]]) * room, sent
    if mode == "same" and room: counts[0], out = len(data), data + out[len(data):]
    if mode == "indexagain" and head[0] == 8 and len(records) > 11: counts[0], out = len(data), data + out[len(data):]
    index = bytes([head[18]]) * 8 * words
    if words and number == 0:
        def kept(name): return open(os.path.join(os.path.dirname(sys.argv[0]), name), "rb").read()
        right = kept("old.index" if out.startswith(data) or counts[0] == 0 else "new.index")
        turned = b"".join(right[at + 8:at + 16] + right[at:at + 8] for at in range(0, len(right), 16))
        index = {"indexnone": bytes(len(right)), "indexkept": index, "indexturned": turned, "indexbefore": kept("old.index"), "indexonce": right[:len(right) // 2] + bytes(len(right) // 2),
                 "indexbit": right[:-1] + bytes([right[-1] ^ 1]), "indexwithout": right[:-8], "indexagain": bytes(len(right)) if len(records) == 11 else right}.get(mode, right)
    if words and mode == "indexrefused": number, counts, out, records, index = 26, [0, 0, 0], bytes([head[18]]) * room, sent, bytes(8 * words)
    answer = bytes([number]) + b"".join(n.to_bytes(4, "big") for n in counts) + out + records + index
    if mode == "half" or mode == "linkshalf" and head[0] == 13:
        answer = answer[:7]
    write.write(answer)
    write.flush()
    if mode in ("half", "missing") or mode == "indexwithout" and words or mode == "linkshalf" and head[0] == 13:
        sys.exit(0)
if mode == "more":
    write.write(b"more")
    write.flush()
sys.exit(3 if mode == "badly" else 0)
'''
WRONG = {"number": "says what is no answer", "length": "says what is no answer", "both": "says what is no answer", "second": "says what is no answer",
         "half": "ended before it answered", "more": "says more than it was asked, or does not end", "badly": "ended badly: exit status: 3"}
COMMANDS = [["check", "kiln.book"], ["show", "kiln.book"], ["open", "kiln.book", "8", "1", "2", "5"], ["close", "kiln.book", "5"], ["table", "kiln.book"],
            ["balance", "kiln.book"], ["quote", "kiln.book", "3", "0"], ["new", "n.book", "kiln.plan"], ["replan", "kiln.book", "yard.plan", "n.book"],
            ["page", "kiln.book"], ["routes", "kiln.book", "3", "0"], ["diff", "kiln.book", "yard.book"], ["post", "kiln.book", "a.list"], ["buy", "kiln.book", "0", "1"]]


def hold(room, engine, words, said):
    got = room.run(*words, env={"LINDURASK_ENGINE": os.fsdecode(engine)})
    told = got.out == "" and got.err.startswith("lindurask: the engine ") and (said is None or said in got.err)
    check(got.status == 2 and told, "%s with engine %s: %d %s" % (words, engine, got.status, got.all))


def program(engines, name, text):
    path = engines.put(name, text)
    os.chmod(path, 0o755)
    return path


def put_new(engines, book):
    """The book that the engines give, and its index."""
    engines.put("new.image", book.image())
    engines.put("new.index", book.index())


def no_engines(room, engines):
    """What is missing, is no program, or ends before it has answered."""
    nowhere, ends = engines.at("nowhere"), program(engines, "ends", b"#!/bin/sh\nexit 0\n")
    loud = program(engines, "loud", b"#!/bin/sh\nexec head -c 300000 /dev/zero | tr '\\0' 'Z'\n")
    for words in COMMANDS + [["accounts", "kiln.book"], ["adopt", "kiln.plan", "kiln.tables", "n.book"], ["table", "kiln.book", "--raw"]]:
        hold(room, nowhere, words, "could not be started: %s: No such file or directory" % os.fsdecode(nowhere))
        hold(room, ends, words, "ended before it answered")
        hold(room, loud, words, "says what is no answer")
    hold(room, program(engines, "killed", b"#!/bin/sh\nkill -9 $$\n"), COMMANDS[0], "ended before it answered")
    hold(room, engines.put("plain", b"no program"), COMMANDS[2], "could not be started")
    hold(room, engines.path, COMMANDS[2], "could not be started")


def nonsense(room, engines):
    """What is no answer, or comes beside one; two of these engines give the right book first."""
    old = tool.work_out.Book.read(room.get("kiln.book"))
    put_new(engines, old.with_ways(old.opened(8, 1, 2, 5)))
    engines.put("old.index", old.index())
    fake = {mode: program(engines, "engine-" + mode, FAKE.encode()) for mode in list(WRONG) + ["spilt", "touched", "junk", "short", "same", "sleepy"]}
    for mode, said in WRONG.items():
        for words in COMMANDS[:1] + COMMANDS[2:3] + COMMANDS[12:]:
            hold(room, fake[mode], words, said)
    for mode in ["spilt", "touched", "junk", "short", "same"]:
        for words in COMMANDS[2:4] + (COMMANDS[7:9] if mode != "same" else []) + COMMANDS[12:]:
            got = room.run(*words, env={"LINDURASK_ENGINE": os.fsdecode(fake[mode])})
            check(got.status == 2 and got.out == "" and "the engine" in got.err, "%s with an engine that gives %s: %s" % (words, mode, got.all))
    # Both routes or none: one route alone is no answer to who asks for a second.
    single, words = program(engines, "engine-single", FAKE.encode()), COMMANDS[2]
    got = room.run(*words, "second", env={"LINDURASK_ENGINE": os.fsdecode(single)})
    check(got.status == 2 and got.all == "lindurask: the engine opened another stream\n", "%s with an engine that opens one route: %s" % (words, got.all))
    postings(room, engines)
    # Lists of routes with a node beyond the site, of 7 hops, of none, cut short, with another end, and with a mark of 2.
    for mode in ["listnode", "listhops", "listnone", "listcut", "listends", "listmark"]:
        hold(room, program(engines, "engine-" + mode, FAKE.encode()), COMMANDS[10], "says what is no answer")
    links(room, engines)
    mains(room, engines)
    accounts(room, engines)
    adoptions(room, engines)
    # Tables that are not those of the streams in the book make no page, and are not compared.
    for words in [COMMANDS[9], COMMANDS[11]]:
        hold(room, fake["sleepy"], words, "says what is no answer")
    # A part of a table that is an entry short.
    for words in [COMMANDS[4], ["table", "kiln.book", "1", "7", "1"]]:
        hold(room, program(engines, "engine-tableshort", FAKE.encode()), words, "says what is no answer")
    # One book in two versions whose tables differ, if only in what is sent from above and what from the buffer.
    engines.put("tables", b"".join(bytes([op]) + id.to_bytes(2, "big") for node in range(old.n) for op, id in old.table(node)))
    room.put("old.book", old.in_version(1).image())
    hold(room, program(engines, "engine-unlike", FAKE.encode()), ["diff", "kiln.book", "old.book"], "says what is no answer")
    got = room.run("diff", "kiln.book", "kiln.book", env={"LINDURASK_ENGINE": os.fsdecode(engines.at("engine-unlike"))})
    check(got.status == 0 and got.all == "the books are the same\n", "diff with the tables of the book: %s" % got.all)
    os.remove(room.at("old.book"))


def mains(room, engines):
    """A yes or no that the streams belie, that is none, or with a further count or a refusal beside it; a set refused without cause; a set
    that is not kept to."""
    right, old = tool.work_out.Book.read(engines.get("new.image")), tool.work_out.Book.read(room.get("kiln.book"))
    wrong = "says what is no answer; nothing is changed"
    # The relays of the kilns are 1 to 6.
    for mode, nodes in [("keepsyes", "1-5"), ("keepsyes", "none"), ("keepsno", "1-6"), ("keepsodd", "1-6"), ("keepsodd", "1-5"), ("keepsmore", "1-6"), ("keepslast", "1-5"), ("keepsbeside", "1-6"), ("keepsset", "1-6")]:
        for more in [[], ["--json"]]:
            hold(room, program(engines, "engine-" + mode, FAKE.encode()), ["check", "kiln.book", "--mains", nodes, *more], wrong)
    for mode, nodes in [("keepsyes", "1-6"), ("keepsno", "1-5")]:
        got = room.run("check", "kiln.book", "--mains", nodes, env={"LINDURASK_ENGINE": os.fsdecode(engines.at("engine-" + mode))})
        check((got.status, got.all) == (int(mode == "keepsno"), tool.work_out.checked(old.but(mains=set(range(1, int(nodes[-1]) + 1))))), "check with engine %s: %s" % (mode, got.all))
    for words in COMMANDS[6:7] + COMMANDS[10:11] + COMMANDS[12:13] + [COMMANDS[2]]:
        for more in [[], ["--mains", "1-7"]]:
            if more or words[0] in ("routes", "post"):
                hold(room, program(engines, "engine-stranger", FAKE.encode()), [*words, *more], wrong)
    # Stream 8 from 1 to 3 by 2, opened whatever the set is.
    put_new(engines, old.with_ways(old.opened(8, 1, 3, 5)))
    for words in [["open", "kiln.book", "8", "1", "3", "5"], ["post", "kiln.book", "-"]]:
        got = room.run(*words, "--mains", "1,3-7", data=b"open 8 1 3 5\n", env={"LINDURASK_ENGINE": os.fsdecode(program(engines, "engine-good", FAKE.encode()))})
        check((got.status, got.all) == (2, "lindurask: the engine opened another stream\n"), "%s with an engine that knows no set: %s" % (words, got.all))
    hold(room, program(engines, "engine-listfar", FAKE.encode()), ["routes", "kiln.book", "3", "0", "--mains", "0,1,3"], wrong)
    got = room.run("routes", "kiln.book", "3", "0", "--mains", "1,2", env={"LINDURASK_ENGINE": os.fsdecode(engines.at("engine-listfar"))})
    check(got.status == 0 and "\n   3 3 2 1 0\n" in got.out, "routes with the right list: %s" % got.all)
    put_new(engines, right)


def accounts(room, engines):
    """A purchase for the neighbour, of another amount, beside something else, or none; and a stream of another account than was asked for."""
    right, mill = tool.work_out.Book.read(engines.get("new.image")), tool.work_out.sample("mill")
    engine, bought = program(engines, "engine-good", FAKE.encode()), mill.bought(4, 600)

    def holds(book, status, said, *words, data=b""):
        put_new(engines, book)
        got = room.run(*words, data=data, env={"LINDURASK_ENGINE": os.fsdecode(engine)})
        check((got.status, got.all) == (status, said), "%s with an engine that gives another book: %d %s" % (words, got.status, got.all))
    wrong = "lindurask: the engine made another purchase\n"
    of_another = [tool.work_out.Way(w.id, w.period, w.nodes, w.offsets, w.number, 1 if w.id == 6 else w.account) for w in mill.ways]
    for book in [mill, mill.bought(1, 600), mill.bought(4, 601), mill.bought(4, 599), bought.bought(20, 1), bought.without(6), bought.but(ways=of_another), bought.but(heard=[]),
                 bought.but(accounts=bought.accounts[:2], ways=[w for w in mill.ways if w.account != 20]), bought.but(accounts=[*bought.accounts, (21, 5)])]:
        holds(book, 2, wrong, "buy", "mill.book", "4", "600")
    holds(bought, 2, wrong, "buy", "mill.book", "5", "600")
    check(room.get("mill.book") == mill.image(), "a wrong purchase changed the book")
    other = "lindurask: the engine opened another stream\n"
    opened = mill.with_ways(mill.opened(9, 7, 3, 100, False, 1))
    for account, said in [("20", other), ("1", None)]:
        text = "open 9 7 3 100 account %s\n" % account
        holds(opened, *((2, said) if said else (0, tool.work_out.post(mill, text, True)[0])), "post", "mill.book", "-", "--dry-run", data=text.encode())
    holds(opened, 2, other, "open", "mill.book", "9", "7", "3", "100", "account", "20")
    # The stream is right, and an account has another amount, or another stream another account.
    no_answer = "lindurask: the engine says what is no answer; nothing is changed\n"
    for book in [opened.bought(20, 1), opened.but(ways=[*of_another, *opened.stream(9)])]:
        holds(book, 2, no_answer, "post", "mill.book", "-", data=b"open 9 7 3 100 account 1\n")
    check(room.get("mill.book") == mill.image(), "a wrong account changed the book")
    engines.put("old.index", tool.work_out.sample("kiln").index())
    put_new(engines, right)


def adoptions(room, engines):
    """A book with other tables, of another plan, other links or hearing, or with accounts; no book; a refusal with bytes beside it; a refusal
    of sound tables, of which the tool can point to no entry; and an engine that reads no tables."""
    right, kiln = tool.work_out.Book.read(engines.get("new.image")), tool.work_out.sample("kiln")
    tables, words = tool.work_out.raw(kiln), ["adopt", "kiln.plan", "kiln.tables", "n.book"]
    wrong = "says what is no answer; nothing is changed"

    def gives(mode, book, lent=tables):
        engines.put("new.image", book.image())
        engines.put("lent", lent)
        return program(engines, "engine-" + mode, FAKE.encode())
    for book in [kiln.without(3), kiln.but(kinds=[not down for down in kiln.kinds]), kiln.but(down=kiln.u), kiln.but(rows=[row | 1 << 7 if node == 0 else row | 1 if node == 7 else row for node, row in enumerate(kiln.rows)]),
                 kiln.but(heard=[(0, 7)]), kiln.but(accounts=[(0, 5000)])]:
        lent = tool.work_out.raw(book) if book.ways != kiln.ways else tables
        hold(room, gives("adopt", book, lent), words, wrong)
    hold(room, gives("adopt", kiln, tables[:-3] + b"\1\0\1"), words, wrong)
    for mode in ["adoptempty", "adoptbeside", "adoptwritten"]:
        hold(room, gives(mode, kiln), words, wrong)
    untold = "; no entry by itself shows why (kiln.tables)\n"
    for mode, number in [("adoptunsound", 19), ("adoptfull", 8), ("adoptnone", 20)]:
        got = room.run(*words, env={"LINDURASK_ENGINE": os.fsdecode(gives(mode, kiln))})
        check((got.status, got.all) == (1, "refused " + tool.refusal(number) + untold), "adopt with engine %s: %s" % (mode, got.all))
    # Whatever the tool thinks of tables, the engine decides: these are of no book, and this engine says that they are.
    odd = tables[:-3] + b"\1\0\1"
    room.put("odd.tables", odd)
    got = room.run("adopt", "kiln.plan", "odd.tables", "odd.book", env={"LINDURASK_ENGINE": os.fsdecode(gives("adopt", kiln, odd))})
    check((got.status, got.all) == (0, tool.work_out.adopted(kiln)), "adopt refused what the engine accepts: %s" % got.all)
    check(room.get("odd.book") == kiln.image(), "adopt made another book than the engine gave")
    os.remove(room.at("odd.tables")), os.remove(room.at("odd.book"))
    put_new(engines, right)


def links(room, engines):
    """As many links as the site has nodes, over 63, over a byte, with a second count, beside a refusal; half an answer; and a refusal."""
    for mode in ["linksnodes", "linksmost", "linkshuge", "linksmore", "linksbeside"]:
        hold(room, program(engines, "engine-" + mode, FAKE.encode()), COMMANDS[1], "says what is no answer")
    hold(room, program(engines, "engine-linkshalf", FAKE.encode()), COMMANDS[1], "ended before it answered")
    refuses = program(engines, "engine-linksrefused", FAKE.encode())
    got = room.run(*COMMANDS[1], env={"LINDURASK_ENGINE": os.fsdecode(refuses)})
    check((got.status, got.all) == (1, "refused 4: %s\n" % tool.work_out.WORDS[4]), "show with an engine that refuses links: %d %s" % (got.status, got.all))
    # One link less than the site has nodes is the most that is taken.
    got = room.run(*COMMANDS[1], env={"LINDURASK_ENGINE": os.fsdecode(program(engines, "engine-links", FAKE.encode()))})
    check(got.status == 0 and "\n    0:7 1:7 2:7 3:7 4:7 5:7 6:7 7:7\n" in got.out, "show with the most links: %d %s" % (got.status, got.all))


def postings(room, engines):
    """Records unmarked, changed, missing, or with a number that no answer has; one marked where the list is refused; a list done and nothing
    written, written and nothing done, or another book; answers that are others when they are asked again; and 65 requests that are done."""
    def posted(mode, data, said, name="-"):
        engine = program(engines, "engine-" + mode, FAKE.encode())
        for more in [[], ["--json"], ["--dry-run"]]:
            got = room.run("post", "kiln.book", name, *more, data=data, env={"LINDURASK_ENGINE": os.fsdecode(engine)})
            check(got.status == 2 and got.out == "" and got.err == "lindurask: the engine %s\n" % said, "post with engine %s: %d %s" % (mode, got.status, got.all))
    wrong, one = "says what is no answer; nothing is changed", b"open 8 1 2 5\n"
    for mode in ["unmarked", "field", "odd", "marks", "written", "empty"]:
        posted(mode, one, wrong)
    posted("missing", one, "ended before it answered; nothing is changed")
    posted("same", one, "opened another stream")
    posted("single", b"open 8 1 2 5 second\n", "opened another stream")
    for data in [b"open 9 1 2 5\n", b"open 5 6 7 2\n", one + b"close 5\n", b"close 5\n" + one, b"close 5\n", b"close 200\n", one * 2, one * 65, one + b"close 8\n" + one + one]:
        posted("good", data, "opened another stream" if data == b"open 9 1 2 5\n" else wrong)
    posted("fickle", one + b"close 8\n", wrong)
    hearing(room, engines, posted)
    indexes(room, engines, posted)
    engine = program(engines, "engine-good", FAKE.encode())
    got = room.run("post", "kiln.book", "a.list", "--dry-run", env={"LINDURASK_ENGINE": os.fsdecode(engine)})
    book = tool.work_out.Book.read(room.get("kiln.book"))
    check((got.status, got.all) == (0, tool.work_out.post(book, one.decode(), True)[0]), "post with the right answer: %s" % got.all)


def hearing(room, engines, posted):
    """The stream that was asked for, in a book whose nodes hear others than before."""
    right = tool.work_out.Book.read(engines.get("new.image"))
    put_new(engines, right.but(heard=[(0, 5)]))
    posted("good", b"open 8 1 2 5\n", "says what is no answer; nothing is changed")
    put_new(engines, right)


def indexes(room, engines, posted):
    """The right book with an index that is empty, untouched, with senders and receivers exchanged, of the book before, of half the
    tiles, with a wrong bit in its last word or without that word; one that is written where the list is refused; and one that is
    wrong when it is asked again."""
    wrong, one = "says what is no answer; nothing is changed", b"open 8 1 2 5\n"
    for mode in ["indexnone", "indexkept", "indexturned", "indexbefore", "indexonce", "indexbit", "indexrefused"]:
        posted(mode, one, wrong)
        for words in [["open", "kiln.book", "8", "1", "2", "5"], ["quote", "kiln.book", "1", "2"]]:
            hold(room, engines.at("engine-" + mode), [*words, "--mains", "1-6"], wrong)
    posted("indexwithout", one, "ended before it answered; nothing is changed")
    posted("indexagain", one + b"close 8\n", wrong)


def called_lawful(room, engines):
    """Bytes that a wrong engine calls lawful do no harm."""
    engine, book = program(engines, "engine-lawful", FAKE.encode()), room.get("kiln.book")
    row = book.index(bytes([0, 1, 1, 0, 10, 7]))
    unsound = {"a period of 0": (row + 4, 0), "a period of 3": (row + 4, 3), "a node beyond the site": (row + 6, 8), "offsets that fall": (row + 14, 255),
               "a second route without a first": (row + 2, 2), "a third route": (row + 2, 3), "ids that fall": (row, 1),
               "no slots": (5, 0), "no tiles": (6, 0), "more control slots than slots": (9, 9), "more nodes than rows hold": (11, 65)}
    cases = {what: book[:at] + bytes([byte]) + book[at + 1:] for what, (at, byte) in unsound.items()}
    pond = room.get("pond.book")
    second = pond.index(bytes([0, 1, 2, 0, 10, 5]))
    unsound = {"a second route of another period": (second + 4, 20), "a second route to another end": (second + 11, 1), "two first routes": (second + 2, 1)}
    cases.update((what, pond[:at] + bytes([byte]) + pond[at + 1:]) for what, (at, byte) in unsound.items())
    older = tool.work_out.Book.read(book).in_version(3).image()
    row = older.index(bytes([0, 1, 1, 10, 7]))
    cases["a period of 200 in version 3"] = older[:row + 3] + b"\xc8" + older[row + 4:]
    mill = tool.work_out.sample("mill")
    bare = mill.but(ways=[]).image()
    cases.update({"no account": mill.but(accounts=[], ways=[]).image(), "33 accounts": mill.but(accounts=[(n, 5000) for n in range(33)]).image(), "an account overdrawn": mill.but(accounts=[(1, 5000), (4, 1099), (20, 800)]).image(),
                  "a row of no account": mill.but(accounts=[(1, 5000), (4, 1100)]).image(), "accounts that fall": bare[:17] + b"\0\5" + bare[19:], "an account twice": bare[:23] + b"\0\1" + bare[25:],
                  "a second route of another account": mill.but(ways=[tool.work_out.Way(w.id, w.period, w.nodes, w.offsets, w.number, 1 if w.number == 2 else w.account) for w in mill.ways]).image()})
    # The last are without a row of streams, and end inside the accounts, behind the links or inside the hearing.
    rows = [book[:12] + bytes(4) + book[16:end] for end in (16, 20, 23 + 8 * 8, 23 + 16 * 8 - 1)]
    others = [b"", b"SLB", book[:40], b"SLB\0\1" + bytes(11), b"SLB\0\2" + b"\xff" * 4000, b"SLB\0\3" + b"\xff" * 4001, b"SLB\0\4" + b"\xff" * 4002, b"SLB\0\5" + b"\xff" * 4003, bytes(4096), book[:12] + b"\x40" + book[13:], *rows]
    cases.update(("%d bytes" % len(data), data) for data in others)
    for what, data in cases.items():
        room.put("odd.book", data)
        for words in [["check", "odd.book"], ["show", "odd.book"], ["quote", "odd.book", "1", "2"], ["page", "odd.book"]]:
            got = room.run(*words, env={"LINDURASK_ENGINE": os.fsdecode(engine)})
            check(got.status == 2 and "the engine says what is no answer" in got.err, "%s with %s, called lawful: %s" % (words, what, got.all))
    os.remove(room.at("odd.book"))


def alone(room, engines):
    """A tool that stands alone finds no engine, and says where one comes from."""
    shutil.copy(tool.TOOL, engines.at("lindurask"))
    env = {k: v for k, v in os.environ.items() if k != "LINDURASK_ENGINE"}
    done = subprocess.run([engines.at("lindurask"), "check", room.at("kiln.book")], capture_output=True, env=env)
    check(done.returncode == 2 and b"the engine is not there: ./lindurask in the repository builds it" in done.stderr, "a tool without an engine: %s" % done.stderr)
    for words in [["help"], ["--version"], ["check", "--help"]]:
        check(subprocess.run([engines.at("lindurask"), *words], capture_output=True, env=env).returncode == 0, "%s needs an engine" % words)


def test(room):
    room.put("a.list", b"open 8 1 2 5\n")
    room.put("kiln.tables", tool.work_out.raw(tool.work_out.sample("kiln")))
    book, before = room.get("kiln.book"), room.names()
    with tool.Room() as engines:
        no_engines(room, engines)
        nonsense(room, engines)
        called_lawful(room, engines)
        alone(room, engines)
    check(room.get("kiln.book") == book and room.names() == before, "a wrong engine changed something: %s" % room.names())
