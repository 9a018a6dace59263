"""Damaged books: what is kept, dropped and lost of each, whole and in bytes; files that are none, and programs that are wrong."""
import os
import random
import shutil
import subprocess

import chance
import tool
from tool import check, refusal, work_out

VARIABLE = "LINDURASK_SALVAGE"
USAGE = "usage: lindurask salvage BAD NEW [--raw] [--json]\n"
SITES, IMAGES = 10, 12
# The ways to say what is salvaged: for a person, line by line, and for programs.
WAYS = [(work_out.salvage, []), (work_out.salvage_raw, ["--raw"]), (work_out.salvage_json, ["--json"])]


def hold(room, what, image, ways=WAYS):
    """Salvages an image: what is said in each of these ways, what is made, and that the engine calls it lawful. Gives the reasons."""
    room.put("bad.book", image)
    got = work_out.salvaged(image)
    if isinstance(got, int):
        told = {"": "refused %s (bad.book)\n" % refusal(got), "--raw": "refused %d\n" % got, "--json": work_out.in_json({"refused": got, "words": work_out.WORDS[got], "about": "bad.book"})}
        for _, more in ways:
            room.says(1, told["".join(more)], "salvage", "bad.book", "new.book", *more)
        check("new.book" not in room.names() and room.get("bad.book") == image, "%s: something was made of a book that is refused" % what)
        return {"refused": got}
    told, lost, book = got
    status = int(not work_out.is_whole(image))
    for in_words, more in ways:
        said = room.says(status, in_words(image), "salvage", "bad.book", "new.book", *more)
        check(room.get("new.book") == book.image(), "%s: another book was made" % what)
        check(more != [] or max(map(len, said.out.split("\n"))) <= 80, "%s is wider than 80 columns" % what)
        os.rename(room.at("new.book"), room.at("made.book"))
    room.says(0, "lawful: " + work_out.counts(book), "check", "made.book")
    os.remove(room.at("made.book"))
    check(room.get("bad.book") == image, "%s: the damaged book was changed" % what)
    return {reason for _, reason in told} | ({"lost"} if lost else set())


def grown(dice):
    """A book by chance, in any version."""
    book = chance.plan(dice)[1]
    book = dice.choice([book, book.but(accounts=work_out.ENDLESS)])
    slow = dice.random() < 0.5
    for id in sorted(dice.sample(range(1, 400), 12)):
        got = book.opened(id, *dice.sample(range(book.n), 2), dice.choice(work_out.PERIODS[:10 if slow else 7]), dice.random() < 0.4)
        book = book if isinstance(got, int) else book.with_ways(got)
    return book.but(heard=dice.choice([[], book.heard])).older(dice.choice([1, 2, 3, 4, 5]))


def damaged(dice, one, other):
    """An image of the first book with some damage, maybe with rows of the second."""
    image, start = one.image(), work_out.before_rows(one.image())
    rows, strange = work_out.cut(image)[0], work_out.cut(other.image())[0]

    def overwritten(data, first):
        data = bytearray(data)
        for _ in range(dice.randint(1, 4)):
            if len(data) > first:
                data[dice.randrange(first, len(data))] = dice.choice([0, 1, 2, 255, dice.randrange(256)])
        return bytes(data)

    def mixed():
        many = rows + dice.sample(rows, min(len(rows), 3)) + (strange if other.version == one.version else [])
        dice.shuffle(many) if dice.random() < 0.5 else many.sort()
        return image[:start] + b"".join(many[:dice.randint(0, len(many))])
    kinds = [lambda: image[:dice.randrange(len(image) + 1)], lambda: image[:dice.randrange(start, len(image) + 1)], lambda: overwritten(image, start), lambda: overwritten(image, start),
             lambda: overwritten(image, 0), lambda: image + dice.randbytes(dice.randint(1, 300)), lambda: image + image, mixed, mixed, lambda: overwritten(mixed(), start),
             lambda: image[:start] + dice.randbytes(dice.randint(0, 400)), lambda: image[:12] + bytes([dice.randint(0, 64), dice.randint(0, 2), 0]) + image[15:]]
    return dice.choice(kinds)()


def site(turn):
    """Images by chance, each said in one way; gives what became of their rows."""
    dice, seen = random.Random(chance.SEED * 1000 + turn), set()
    with tool.Room() as room:
        for place in range(IMAGES):
            image = damaged(dice, grown(dice), grown(dice))
            way = WAYS[place % len(WAYS)]
            seen |= {str(one) for one in hold(room, "image %d of site %d" % (place, turn), image, [way])}
    return seen


def everywhere(room):
    """Cut at every place, and each byte of a row overwritten."""
    image = work_out.sample("pins").image()
    start = work_out.before_rows(image)
    damaged = [image[:end] for end in [0, 1, 15, 16, 17, start - 1, *range(start, len(image), 7)]]
    damaged += [image[:at] + bytes([image[at] ^ 1 << at % 8]) + image[at + 1:] for at in range(0, len(image), 5)]

    def raw(place):
        with tool.Room() as own:
            own.put("bad.book", damaged[place])
            said = own.run("salvage", "bad.book", "new.book", "--raw")
            got = work_out.salvaged(damaged[place])
            made = own.get("new.book") if "new.book" in own.names() else None
            return said.all == work_out.salvage_raw(damaged[place]) and made == (None if isinstance(got, int) else got[2].image()), said.all
    for right, said in tool.all_of(raw, range(len(damaged))):
        check(right, "pins.book with some damage: %s" % said)


def full(room):
    """More rows than a book holds, more hops than a book holds, and images of any length up to what two bytes say."""
    site = work_out.sample("site")
    rows, head = work_out.cut(site.image())[0], site.image()[:work_out.before_rows(site.image())]
    higher = [(int.from_bytes(row[:2], "big") + 500).to_bytes(2, "big") + row[2:] for row in rows]
    seen = hold(room, "two full books in one", head + b"".join(rows + higher))
    check(seen == {0, 8}, "two full books in one: %s" % seen)
    # 35 rows of 15 hops on a line: the last has no room for its hops.
    line = work_out.Book(32, [True], 0, 0, [(1 << a - 1 if a else 0) | (1 << a + 1 if a < 15 else 0) for a in range(16)], [])
    long = [work_out.Way(id, 1000, list(range(16)), list(range(20 * id, 20 * id + 15))) for id in range(1, 36)]
    short = work_out.Way(40, 1000, [0, 1], [30000])
    image = line.but(ways=long[:34] + [short]).image()
    more = work_out.cut(line.but(ways=long[34:]).image())[0][0]
    seen = hold(room, "more hops than a book holds", image[:-len(work_out.cut(image)[0][-1])] + more + work_out.cut(image)[0][-1])
    check(seen == {0, 8}, "more hops than a book holds: %s" % seen)
    # A row of 16 hops, one more than a route has, cannot be cut out.
    over = (36).to_bytes(2, "big") + b"\1" + (1000).to_bytes(2, "big") + bytes([16, *range(17)]) + b"".join(offset.to_bytes(2, "big") for offset in range(16)) + bytes(2)
    seen = hold(room, "a row of 16 hops", line.but(ways=long[:1]).image() + over)
    check(seen == {0, "lost"}, "a row of 16 hops: %s" % seen)
    tiny = b"\0\1\1\0\1\1\0\1\0\0"
    for length in [4096, 4097, 16384, 65535]:
        image = head + tiny * ((length - len(head)) // len(tiny))
        hold(room, "%d bytes" % length, image + bytes(length - len(image)))
    for length in [65536, 1000000]:
        room.put("bad.book", bytes(length))
        room.says(2, "lindurask: bad.book: is too long for a salvage: over 65535 bytes\n", "salvage", "bad.book", "new.book")
    check("new.book" not in room.names(), "a book was made of an image that is too long")


def files(room):
    """What is no plain file, and a new book that has no place: nothing is made, and nothing is replaced."""
    os.mkfifo(room.at("fifo"))
    os.mkdir(room.at("folder"))
    os.symlink("nowhere", room.at("dangling"))
    os.symlink("kiln.book", room.at("link.book"))
    before = {name: room.get(name) for name in room.names() if name.endswith((".book", ".bad"))}
    names = room.names()
    cases = [("none.book", "none.book: No such file or directory"), ("fifo", "fifo: is no plain file: nothing is read from it"), ("folder", "folder: is a folder: nothing is read from it"),
             ("/dev/zero", "/dev/zero: is no plain file: nothing is read from it"), ("", "the name of a file is empty"), ("-", "-: No such file or directory"),
             (b"\x1b[31m", "\\x1b[31m: No such file or directory")]
    for name, said in cases:
        for more in [[], ["--raw"], ["--json"]]:
            room.says(2, "lindurask: %s\n" % said, "salvage", name, "new.book", *more)
    for bad in ["clash.bad", "kiln.book"]:
        for new in [bad, "pond.book", "dangling", "folder", "fifo", "link.book", "./" + bad]:
            room.says(2, "lindurask: %s: File exists; it is never replaced\n" % new, "salvage", bad, new)
        room.says(2, "lindurask: nowhere/new.book: No such file or directory\n", "salvage", bad, "nowhere/new.book")
    # A book that is refused says so first, whatever the new one's name is.
    room.says(1, "refused %s (plan.bad)\n" % refusal(13), "salvage", "plan.bad", "kiln.book")
    check(room.names() == names and {name: room.get(name) for name in before} == before, "a salvage that failed left %s" % room.names())
    with open("/dev/full", "wb") as out:
        done = subprocess.run([tool.TOOL, "salvage", "clash.bad", "new.book"], stdout=out, stderr=subprocess.PIPE, cwd=room.path)
    check((done.returncode, done.stderr) == (1, b"lindurask: it is done, but standard output failed: No space left on device\n"), "a salvage into a full device: %s" % done.stderr)
    check(room.get("new.book") == work_out.salvaged(before["clash.bad"])[2].image(), "a salvage into a full device made another book")
    os.remove(room.at("new.book"))
    check(room.run("salvage", "clash.bad", "new.book", umask=0o027).status == 1 and os.stat(room.at("new.book")).st_mode & 0o777 == 0o640, "the mode of a salvaged book")
    os.remove(room.at("new.book"))


def words(room):
    for operands in [[], ["kiln.book"], ["kiln.book", "a", "b"], ["kiln.book", "a", "--frob"], ["kiln.book", "a", "--raw", "--json"]]:
        room.says(2, USAGE, "salvage", *operands)
    check("a" not in room.names(), "words that were not understood made a book")


def program(programs, name, text):
    path = programs.put(name, b"#!/bin/sh\n" + text)
    os.chmod(path, 0o755)
    return path


def wrong(room, path, said, variable=VARIABLE, bad="clash.bad", whose="program salvage"):
    for more in [[], ["--raw"], ["--json"]]:
        got = room.run("salvage", bad, "new.book", *more, env={variable: os.fsdecode(path)})
        want = "lindurask: the %s %s; nothing is changed\n" % (whose, said)
        check((got.status, got.out, got.err) == (2, "", want) and "new.book" not in room.names(), "salvage with %s: %d %s" % (path, got.status, got.all))


def wrong_programs(room, programs):
    """A program that is missing, ends early or badly, says what is no answer, keeps what is not lawful, or drops what it must not."""
    right = room.run("salvage", "clash.bad", "new.book", "--raw").out
    os.remove(room.at("new.book"))
    nowhere = programs.at("nowhere")
    wrong(room, nowhere, "could not be started: %s: No such file or directory" % os.fsdecode(nowhere))
    wrong(room, program(programs, "killed", b"kill -9 $$\n"), "ended badly: signal: 9 (SIGKILL)")

    def says(name, text, end=b""):
        programs.put(name + ".said", text.encode())
        return program(programs, name, b"cat >/dev/null; cat '%s'\n%s" % (programs.at(name + ".said"), end))
    wrong(room, says("badly", right, b"exit 3\n"), "ended badly: exit status: 3")
    lines = right.splitlines(keepends=True)
    for place, text in enumerate(["", lines[0], "".join(lines[:-1]), right[:-1]]):
        wrong(room, says("early%d" % place, text), "ended before it had said all")
    # The last two keep a row that clashes, and say so of a row beyond.
    nonsense = ["nonsense\n", right + "\n", right + "lost 0\n", "kept 1\n" + right, right.replace("kept 2", "kept 3"), right.replace("dropped 5 16", "dropped 5 9"), right.replace("dropped 5 16", "dropped 5"),
                right.replace("lost 0", "lost 1"), right.replace("lost 0", "lost 00"), right.replace("kept 1", "kept  1"), "refused 9\n", "refused 12\n", "refused 15\n", "refused 14\n" + right, "refused 14\nx\n",
                "\x1b[2J" + right, right.replace("dropped 5 16", "kept 5"), "lost 0\n"]
    for place, text in enumerate(nonsense):
        wrong(room, says("nonsense%d" % place, text), "says what is no answer")
    wrong(room, program(programs, "loud", b"exec tr '\\0' '\\n' </dev/zero\n"), "says what is no answer")
    # All rows of two full books kept: more than a book holds.
    site = work_out.sample("site").image()
    rows = work_out.cut(site)[0]
    room.put("full.bad", site + b"".join(rows))
    every = "".join("kept %d\n" % int.from_bytes(row[:2], "big") for row in rows * 2) + "lost 0\n"
    wrong(room, says("every", every), "says what is no answer", bad="full.bad")
    # Nothing can be cut out of what is no book, whatever is said of it.
    for bad in ["plan.bad", "empty.bad", "topless.bad"]:
        wrong(room, says("good", "lost 0\n"), "says what is no answer", bad=bad)
    got = room.run("salvage", "clash.bad", "new.book", "--raw", env={VARIABLE: os.fsdecode(says("right", right))})
    check((got.status, got.all) == (1, right), "a program that says the right lines: %s" % got.all)
    os.remove(room.at("new.book"))


def wrong_engines(room, programs):
    """The engine says whether what was put together is lawful: one that is missing, silent, or says no."""
    nowhere = programs.at("nowhere")
    wrong(room, nowhere, "could not be started: %s: No such file or directory" % os.fsdecode(nowhere), "LINDURASK_ENGINE", whose="engine")
    wrong(room, program(programs, "ends", b"exit 0\n"), "ended before it answered", "LINDURASK_ENGINE", whose="engine")
    refuses = b"""printf '\\020\\0\\0\\0\\0\\0\\0\\0\\0\\0\\0\\0\\0'; exec cat >/dev/null\n"""
    wrong(room, program(programs, "refuses", refuses), "says what is no answer", "LINDURASK_ENGINE")


def alone(room, programs):
    """A tool that stands alone finds no program, and says where one comes from."""
    shutil.copy(tool.TOOL, programs.at("lindurask"))
    env = {k: v for k, v in os.environ.items() if k != VARIABLE}
    done = subprocess.run([programs.at("lindurask"), "salvage", "clash.bad", "new.book"], cwd=room.path, capture_output=True, env=env, text=True)
    want = "lindurask: the program salvage is not there: ./lindurask in the repository builds it, or set %s; nothing is changed\n" % VARIABLE
    check((done.returncode, done.stdout, done.stderr) == (2, "", want), "a tool without the program: %s" % done.stderr)


def test(room):
    room.put_others()
    everywhere(room)
    full(room)
    os.remove(room.at("bad.book"))
    files(room)
    words(room)
    with tool.Room() as programs:
        wrong_programs(room, programs)
        wrong_engines(room, programs)
        alone(room, programs)
    seen = set().union(*tool.all_of(site, range(SITES)))
    check(seen >= {"0", "15", "16", "lost", "refused"}, "images by chance got only %s" % sorted(seen))
