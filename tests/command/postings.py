"""Lists of requests: how they are read, what each line gets, and that a book is changed once or not at all."""
import fcntl
import os
import random
import subprocess

import chance
import tool
from tool import check, refusal, work_out

STARTS = "a line starts with open or close"
OPEN = "write open, an id, two nodes and a period, as in: open 7 3 0 10, or open 7 3 0 10 second, or open 7 3 0 10 account 3"
CLOSE = "write close and one id, as in: close 12"
NO_ID = "an id is a number from 1 to 65535"
NO_ACCOUNT = "an account is a number from 0 to 65535"
UNREADABLE = {
    STARTS: [b"Open 7 1 5 50", b"opened 7 1 5 50", b"shut 3", b"7 1 5 50", b"\0", b"second", b"-", b"open\xc2\xa07 1 5 50", b"\xef\xbb\xbfclose 2", b"\xff\xfeo\0p\0", b"close: 2", b"open7 1 5 50"],
    OPEN: [b"open", b"open 7", b"open 7 1 5", b"open 7 1 5 50 60", b"open 7 1 5 50 Second", b"open 7 1 5 50 second second", b"open second", b"open 7 1 5 second", b"open 7 1 5 second 50",
           b"open x 1 5 50", b"open -7 1 5 50", b"open 7 one 5 50", b"open 7 1 5 5.0", b"open +7 1 5 50", b"open 0x7 1 5 50", b"open 7, 1, 5, 50", b"open 7 1 5 50\rclose 2", b"open 7 1 5 50 second\0",
           b"open 7 1 5 50 account", b"open 7 1 5 50 Account 3", b"open 7 1 5 50 account 3 3", b"open 7 1 5 50 account 3 account 3", b"open 7 1 5 50 second account 3 second", b"open 7 1 5 account 3 50",
           b"open account 3 7 1 5 50", b"open 7 1 5 50 account 3 second second", b"open 7 1 5 50 3"],
    NO_ACCOUNT: [b"open 7 1 5 50 account 65536", b"open 7 1 5 50 account x", b"open 7 1 5 50 account -1", b"open 7 1 5 50 account second", b"open 7 1 5 50 account second second", b"open 7 1 5 50 second account +3",
                 b"open 7 1 5 50 account 3\0", b"open 7 1 5 50 account 99999999999999999999999"],
    CLOSE: [b"close", b"close 2 3", b"close two", b"close -1", b"close 2 second", b"close 2 account 3", b"close +2", b"close 2\0"],
    NO_ID: [b"open 65536 1 5 50", b"open 65543 1 5 50 second", b"close 65536", b"close 99999999999999999999999"],
}
SITES, REQUESTS, SPOILT = 10, 14, 80


def look(room, name):
    """A book's bytes, and which file it is."""
    stat = os.stat(room.at(name))
    return room.get(name), stat.st_ino, stat.st_mtime_ns


def holds(room, book, text, want):
    """Posts a list on a copy of a book: what is said, and what the file then holds."""
    room.put("own.book", book.image())
    room.put("own.list", text.encode())
    said, status, last = want
    room.says(status, said, "post", "own.book", "own.list")
    check(room.get("own.book") == last.image(), "what is left by %r" % text[:200])


def understood(room):
    """Every way to write the same list does the same."""
    text, book = work_out.lists()["month.list"], work_out.sample("kiln")
    want, plain = work_out.post(book, text), text.encode()
    ways = {"as it is": plain, "a byte-order mark": b"\xef\xbb\xbf" + plain, "CRLF": plain.replace(b"\n", b"\r\n"), "tabs": plain.replace(b" ", b"\t \t"),
            "no last newline": plain.rstrip(b"\n"), "blanks": b"  " + plain.replace(b"\n", b" \t \n  "), "all three": b"\xef\xbb\xbf" + plain.replace(b" ", b"\t").replace(b"\n", b"\r\n"),
            "zeros": plain.replace(b" 7 ", b" 0007 "), "comments": plain.replace(b"\n", b"# open 1 2 3\n"), "filled up": plain + b"#" * (65535 - len(plain))}
    for what, data in ways.items():
        for name in ["way.list", "-"]:
            room.put("own.book", book.image())
            room.put("way.list", data)
            said = room.run("post", "own.book", name, data=data if name == "-" else b"")
            check((said.status, said.all) == (want[1], want[0]) and room.get("own.book") == want[2].image(), "a list with %s by %s: %s" % (what, name, said.all))
    spread = text.replace("\n", "\n\n# and\n")
    holds(room, book, spread, work_out.post(book, spread))
    # A number that is too large for its field is refused as it was typed.
    for line, words in [("open 9 1 99999999999 5", "4: %s (node 99999999999)" % work_out.WORDS[4]), ("open 9 256 2 5", "4: %s (node 256)" % work_out.WORDS[4]),
                        ("open 9 1 2 65541", "6: %s (period 65541)" % work_out.WORDS[6])]:
        said = "line 1: refused %s\n0 of 1 request done, 1 refused\nnot changed: %s" % (words, work_out.counts(book))
        holds(room, book, line, (said, 1, book))


def unreadable(room):
    """A line that cannot be read is said with its number, wherever it stands, and nothing is posted."""
    room.put("own.book", room.get("kiln.book"))
    before = look(room, "own.book")
    for words, lines in UNREADABLE.items():
        for place, line in enumerate(lines):
            data = b"close 2\n# a comment\n\n" + line + b"\nopen 7 1 5 50\nfrob\n"
            room.put("bad.list", data)
            room.says(2, "bad.list, line 4: %s\n" % words, "post", "own.book", "bad.list")
            more = [["--json"], ["--dry-run"], ["--json", "--dry-run"]][place % 3]
            room.says(2, "standard input, line 4: %s\n" % words, "post", "own.book", "-", *more, data=data)
    # The first line, the last one, one behind 64 requests, and before a book that is none, or is not there.
    room.put("first.list", b"\xef\xbb\xbffrob\r\nclose 2\r\n")
    room.says(2, "first.list, line 1: %s\n" % STARTS, "post", "own.book", "first.list")
    many = b"".join(b"close %d\n" % id for id in range(1, 64))
    room.put("last.list", many + b"close")
    room.says(2, "last.list, line 64: %s\n" % CLOSE, "post", "own.book", "last.list")
    room.put("late.list", many * 2 + b"open 1 2")
    room.says(2, "late.list, line 127: %s\n" % OPEN, "post", "own.book", "late.list")
    room.put("bad.book", b"SLB")
    for book in ["bad.book", "none.book"]:
        room.says(2, "first.list, line 1: %s\n" % STARTS, "post", book, "first.list")
    room.says(2, "own.book, line 1: %s\n" % STARTS, "post", "own.book", "own.book")
    check(look(room, "own.book") == before, "a list that cannot be read was posted")


def too_many(room):
    """Over 64 requests are refused as a whole, after the refusals of the book."""
    room.put("own.book", room.get("site.book"))
    before = look(room, "own.book")
    room.put("bad.book", before[0][:-1])
    for count in [65, 66, 100, 101, 129, 1000, 7000]:
        room.put("many.list", b"# all\n" + b"".join(b"close %d\n" % (1 + turn % 64) for turn in range(count)))
        line = "refused 26: a list has at most 64 requests (many.list, %d requests)\n" % count
        room.says(1, line, "post", "own.book", "many.list")
        room.says(1, line, "post", "own.book", "many.list", "--dry-run")
        room.says(1, "refused 14: the book is cut short, or not as long as its head says (bad.book)\n", "post", "bad.book", "many.list")
    data = b"open 1 2 3 5 second\n" * 65
    room.says(1, "refused 26: a list has at most 64 requests (standard input, 65 requests)\n", "post", "own.book", "-", data=data)
    room.says(1, work_out.in_json({"refused": 26, "words": work_out.WORDS[26], "about": "standard input, 65 requests"}), "post", "own.book", "-", "--json", data=data)
    check(look(room, "own.book") == before and room.get("bad.book") == before[0][:-1], "a list that is too long was posted")
    room.put("long.list", b"close 1\n" + b"#" * 65528)
    room.says(2, "lindurask: long.list: the list is too long: it has at most 65535 bytes\n", "post", "own.book", "long.list")
    room.says(2, "lindurask: standard input: the list is too long: it has at most 65535 bytes\n", "post", "own.book", "-", data=b"close 1\n" * 10000)
    check(look(room, "own.book") == before, "a list that is too long was posted in part")


def files(room):
    """Lists that are no plain files, and standard input that is closed, endless or no text."""
    room.put("own.book", room.get("kiln.book"))
    before, names = look(room, "own.book"), room.names()
    os.mkfifo(room.at("fifo"))
    os.mkdir(room.at("folder"))
    os.symlink("nowhere", room.at("to-nothing"))
    kinds = [("fifo", "is no plain file: nothing is read from it"), ("folder", "is a folder: nothing is read from it"), ("/dev/zero", "is no plain file: nothing is read from it"),
             ("/dev/null", "is no plain file: nothing is read from it"), ("none.list", "No such file or directory"), ("to-nothing", "No such file or directory"), ("own.book/x", "Not a directory")]
    for name, words in kinds:
        room.says(2, "lindurask: %s: %s\n" % (name, words), "post", "own.book", name)
    room.says(2, "lindurask: the name of a file is empty\n", "post", "own.book", "")
    # A writer that waits at a pipe is not read from either.
    writer = os.open(room.at("fifo"), os.O_RDWR | os.O_NONBLOCK)
    os.write(writer, b"close 2\n")
    room.says(2, "lindurask: fifo: is no plain file: nothing is read from it\n", "post", "own.book", "fifo")
    os.close(writer)
    shut = "lindurask: standard input: is closed: nothing is read from it\n"
    for how, words in [("<&-", shut), ("0>%s/out" % room.path, shut), ("</", "lindurask: standard input: Is a directory\n"),
                       ("</dev/zero", "lindurask: standard input: the list is too long: it has at most 65535 bytes\n")]:
        done = subprocess.run(["sh", "-c", 'exec "$0" "$@" ' + how, tool.TOOL, "post", "own.book", "-"], cwd=room.path, capture_output=True, text=True, timeout=20)
        check((done.returncode, done.stdout, done.stderr) == (2, "", words), "a list from standard input %s: %s" % (how, done.stderr))
    check(look(room, "own.book") == before, "what is no list was posted")
    os.symlink("quiet.list", room.at("to-list"))
    room.put("quiet.list", b"# nothing\n")
    for name, data in [("to-list", b""), ("-", b""), ("-", b"\n\n"), ("-", b"\xef\xbb\xbf"), ("-", b"#")]:
        room.says(0, "the list has no request\nnot changed: %s" % work_out.counts(work_out.sample("kiln")), "post", "own.book", name, data=data)
    check(look(room, "own.book") == before, "a list without requests changed the book")
    # A name that starts with a dash, and one with characters that are not printed as they are.
    for name, shown in [(b"-x", "-x"), (b"\x1b[2J\n", "\\x1b[2J\\x0a"), (b"--json", "--json"), (b"\xff\\", "\\xff\\x5c")]:
        room.put(name, b"shut 1\n")
        room.says(2, "%s, line 1: %s\n" % (shown, STARTS), "post", "--", b"own.book", name)
        os.remove(room.at(name))
    for name in ["fifo", "to-nothing", "to-list", "out", "quiet.list"]:
        os.remove(room.at(name))
    os.rmdir(room.at("folder"))
    check(room.names() == names, "lists that are none left %s" % room.names())


def dry(room):
    """What would be done is said; the book is only read, whoever else uses it."""
    book, text = work_out.sample("pond"), work_out.lists()["turns.list"]
    room.put("own.book", book.image())
    room.put("turns.list", text.encode())
    said, status, last = work_out.post(book, text, True)
    before = look(room, "own.book")
    os.link(room.at("own.book"), room.at("twin.book"))
    os.chmod(room.at("own.book"), 0o444)
    with open(room.at("own.book"), "rb") as lock:
        fcntl.flock(lock, fcntl.LOCK_EX)
        room.says(status, said, "post", "own.book", "turns.list", "--dry-run")
        room.says(status, work_out.post_json(book, text, True), "post", "--dry-run", "--json", "own.book", "-", data=text.encode())
        if os.getuid() == 0:
            room.says(status, said, "post", "own.book", "turns.list", "--dry-run", user=65534, group=65534, extra_groups=[])
    check(look(room, "own.book") == before, "a dry run changed the book")
    twice = "lindurask: own.book: has 2 names (hard links); a change would part them, so nothing is changed\n"
    room.says(2, twice, "post", "own.book", "turns.list")
    os.remove(room.at("twin.book"))
    os.chmod(room.at("own.book"), 0o640)
    room.says(status, work_out.post(book, text)[0], "post", "own.book", "turns.list")
    check(room.get("own.book") == last.image() and os.stat(room.at("own.book")).st_mode & 0o777 == 0o640, "what the dry run said was not done")


def refused(room):
    """A list of which none is done leaves the file as it is, be it of an older version; so does a book that is none."""
    text = work_out.lists()["refused.list"]
    room.put("refused.list", text.encode())
    for version in [1, 2, 3, 4]:
        book = work_out.sample("kiln").in_version(version)
        room.put("own.book", book.image())
        before = look(room, "own.book")
        room.says(1, work_out.post(book, text)[0], "post", "own.book", "refused.list")
        check(look(room, "own.book") == before, "a list of which none was done changed the book")
    good = room.get("kiln.book")
    for data, number in [(b"", 14), (b"X" + good[1:], 13), (good[:5] + b"\x21" + good[6:], 10), (good[:23] + bytes(7) + b"\x03" + good[31:], 11),
                         (good[:87] + bytes(8) + good[95:], 11), (good[:-3] + b"\x02" + good[-2:], 16), (good + bytes(5000), 14)]:
        room.put("bad.book", data)
        for listed in ["refused.list", "-"]:
            room.says(1, "refused %s (bad.book)\n" % refusal(number), "post", "bad.book", listed)
            room.says(1, "refused %s (bad.book)\n" % refusal(number), "post", "bad.book", listed, "--dry-run")
        check(room.get("bad.book") == data, "a book that is none was changed")


def gone(room):
    """Standard output that fails: the status says what became of the book."""
    def run_into(path, *words):
        with open(path, "wb") as out:
            done = subprocess.run([tool.TOOL, *words], stdout=out, stderr=subprocess.PIPE, cwd=room.path, timeout=20)
            return done.returncode, done.stderr.decode()
    for name, text in work_out.lists().items():
        room.put(name, text.encode())
    book, full = work_out.sample("kiln"), "No space left on device\n"
    for listed, status, said in [("month", 1, "lindurask: it is done, but standard output failed: "), ("idle", 0, "lindurask: it is done, but standard output failed: "),
                                 ("refused", 2, "lindurask: standard output: "), ("empty", 2, "lindurask: standard output: ")]:
        for more in [[], ["--json"]]:
            room.put("own.book", book.image())
            got = run_into("/dev/full", "post", "own.book", listed + ".list", *more)
            check(got == (status, said + full) and room.get("own.book") == work_out.posted(book, work_out.lists()[listed + ".list"])[1].image(), "post of %s into a full device: %s" % (listed, got))
        got = run_into("/dev/full", "post", "own.book", listed + ".list", "--dry-run")
        check(got == (2, "lindurask: standard output: " + full), "a dry run of %s into a full device: %s" % (listed, got))


def typed(room):
    """A list that is still being typed keeps nobody from the book; it is done on the book as it then is."""
    book = work_out.sample("kiln")
    room.put("own.book", book.image())
    run = subprocess.Popen([tool.TOOL, "post", "own.book", "-"], stdin=subprocess.PIPE, stdout=subprocess.PIPE, stderr=subprocess.PIPE, cwd=room.path)
    run.stdin.write(b"close 2\nopen 7 1 5 50\n")
    run.stdin.flush()
    check(room.run("close", "own.book", "3").status == 0 and run.poll() is None, "a list that is being typed holds the book")
    out, err = run.communicate(b"open 9 1 2 ", timeout=20)
    check((run.returncode, out, err) == (2, b"", ("standard input, line 3: %s\n" % OPEN).encode()), "a list that ends in a line: %s" % err)
    run = subprocess.Popen([tool.TOOL, "post", "own.book", "-"], stdin=subprocess.PIPE, stdout=subprocess.PIPE, stderr=subprocess.PIPE, cwd=room.path)
    said, status, last = work_out.post(book.without(3), "open 7 1 5 50\nclose 3")
    out, err = run.communicate(b"open 7 1 5 50\nclose 3", timeout=20)
    check((run.returncode, out.decode(), err) == (status, said, b"") and room.get("own.book") == last.image(), "a list that was typed: %s" % out)


def some(dice, book, count):
    """A list by chance: ids come again, and some requests are wrong."""
    def line():
        id, odd = dice.choice([dice.randint(1, 6), dice.randint(0, 30)]), dice.random() < 0.1
        if dice.random() < 0.3:
            return "close %d" % id
        ends = [dice.randrange(book.n + 2) for _ in range(2)] if odd else dice.sample(range(book.n), 2)
        period = dice.randint(0, 300) if odd else dice.choice(work_out.PERIODS)
        paying = " account %d" % (dice.randint(0, 9) if odd else dice.choice(book.accounts)[0])
        return "open %d %d %d %d%s" % (id, *ends, period, dice.choice(["", " second"]) + dice.choice(["", paying]))
    lines = [line() for _ in range(count)]
    for _ in range(dice.randint(0, 4)):
        lines.insert(dice.randint(0, len(lines)), dice.choice(["", "# a comment", "   "]))
    return "\n".join(lines)


def one_by_one(room, text):
    """What the single commands say to the requests of a list, one after the other, each behind the number of its line."""
    said = ""
    for number, line in enumerate(text.split("\n"), 1):
        words = line.split("#")[0].split()
        if words:
            said += "line %d: %s" % (number, room.run(words[0], "single.book", *words[1:]).all)
    return said


def site(turn):
    """A list on a book, by chance: beside what is worked out, and beside single opens and closes one after the other."""
    dice, numbers = random.Random(chance.SEED * 1000 + turn), set()
    with tool.Room() as room:
        book = chance.plan(dice)[1]
        for count in [0, 1, REQUESTS, 64]:
            if turn % 2:
                book = book.but(heard=[]).older(1 + turn // 2 % 4)
            text = some(dice, book, count)
            for name in ["own.book", "single.book"]:
                room.put(name, book.image())
            said, status, last = work_out.post(book, text)
            room.put("some.list", text.encode())
            room.says(status, work_out.post(book, text, True)[0], "post", "own.book", "some.list", "--dry-run")
            check(room.get("own.book") == book.image(), "a dry run by chance")
            room.says(status, said, "post", "own.book", "-", data=text.encode())
            check(room.get("own.book") == last.image(), "a list by chance left another book:\n%s" % text)
            if count < 64:
                singles = one_by_one(room, text)
                check(said.startswith(singles) and said[len(singles):].count("\n") == 2 + last.keeps_accounts(), "a list says\n%s\nand its requests alone\n%s" % (said, singles))
                check(room.get("single.book") == room.get("own.book"), "a list and its requests alone left two books:\n%s" % text)
            numbers |= {got if isinstance(got, int) else 0 for got in work_out.posted(book, text)[0]}
            book = last
    return numbers


def spoilt(room):
    """Lists with bytes by chance: no crash, and either all of it is done or the book is as it was."""
    dice, text = random.Random(chance.SEED), work_out.lists()["month.list"].encode()
    for turn in range(SPOILT):
        data = bytearray(text if turn % 4 else dice.randbytes(dice.randrange(2000)))
        for _ in range(dice.randint(1, 3)):
            place = dice.randrange(len(data) + 1)
            data[place:place + dice.randint(0, 1)] = bytes([dice.choice(b"\0\n\r #0123456789openclosed\xff")])
        room.put("own.book", room.get("kiln.book"))
        said = room.run("post", "own.book", "-", data=bytes(data))
        changed = room.get("own.book") != room.get("kiln.book")
        told = said.status in (0, 1) and said.err == "" and said.out.count("line ") >= changed if said.status != 2 else said.out == "" and said.err.startswith("standard input, line ")
        check(told and changed <= ("\nchanged: " in said.out), "a list with bytes by chance, %r: %s" % (bytes(data), said.all))


def test(room):
    understood(room)
    unreadable(room)
    too_many(room)
    files(room)
    dry(room)
    refused(room)
    gone(room)
    typed(room)
    spoilt(room)
    numbers = set().union(*tool.all_of(site, range(SITES)))
    check(numbers >= {0, 1, 2, 3, 4, 5, 6, 9, 18}, "lists by chance got only %s" % sorted(numbers))
