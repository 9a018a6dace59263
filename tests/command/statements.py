"""The month's statement of many sites: pairs of books, refused ones, files that fail, and a program that is missing, ends early or says nonsense."""
import itertools
import os
import pty
import select
import shutil
import subprocess

import tool
from tool import check, work_out

USAGE = "usage: lindurask statement LAST THIS [LAST THIS ..] [--raw]\n"
PAIR = ["kiln.book", "later.book"]
VARIABLE = "LINDURASK_STATEMENT"


def every_pair(room):
    """Every two of the books, both ways round, in one statement; of those that are one book on the air, one."""
    books = dict(work_out.others(), **{name + ".book": work_out.sample(name) for name in ["kiln", "pond", "ridge", "pins", "mill"]})
    books = {name: book for name, book in books.items() if name not in ("older.book", "elder.book", "former.book", "only.book", "raised.book")}
    pairs = list(itertools.product(books, books))
    words = [name for pair in pairs for name in pair]
    sites = [(this.removesuffix(".book"), books[last], books[this]) for last, this in pairs]
    said = room.says(0, work_out.statement(sites), "statement", *words)
    check(max(map(len, said.out.split("\n"))) <= 80, "a statement is wider than 80 columns")
    room.says(0, work_out.statement_raw(sites), "statement", *words, "--raw")


def refused(room):
    """A book that is refused, by every number that a book has, in either month or both; the sites behind it are read."""
    good, kiln, pond = room.get("kiln.book"), work_out.sample("kiln"), work_out.sample("pond")
    row = good.index(bytes([0, 1, 1, 0, 10, 7]))
    cases = [(b"", 14), (good[:-1], 14), (good + b"x", 14), (good + bytes(65535 - len(good)), 14), (b"X" + good[1:], 13), (good[:5] + b"\x21" + good[6:], 10),
             (good[:23] + bytes(7) + b"\x03" + good[31:], 11), (good[:87] + bytes(8) + good[95:], 11), (good[:row + 4] + b"\x03" + good[row + 5:], 15), (good[:-3] + b"\x02" + good[-2:], 16)]
    for data, number in cases:
        room.put("bad.book", data)
        for names, books in [(["bad.book", "kiln.book"], (number, kiln)), (["kiln.book", "bad.book"], (kiln, number)), (["bad.book", "bad.book"], (number, number))]:
            sites = [(names[1].removesuffix(".book"), *books), ("pond", kiln, pond)]
            said = room.says(1, work_out.statement(sites), "statement", *names, "kiln.book", "pond.book")
            check(max(map(len, said.out.split("\n"))) <= 80, "a refusal is wider than 80 columns")
            room.says(1, work_out.statement_raw(sites), "statement", "--raw", *names, "kiln.book", "pond.book")


def words(room):
    """An odd number of books, none, too many, and words that are no options; 1,000 sites are read."""
    for books in [[], ["kiln.book"], ["kiln.book"] * 3, ["none.book"] * 5, ["kiln.book"] * 2002, ["kiln.book", "kiln.book", "--json"], ["kiln.book", "--raw"]]:
        room.says(2, USAGE, "statement", *books)
    kiln = work_out.sample("kiln")
    room.says(0, work_out.statement([("kiln", kiln, kiln)] * 1000), "statement", *["kiln.book"] * 2000)


def failing(room):
    """What is no plain file, or longer than a length says, in either month; nothing else is printed."""
    os.mkfifo(room.at("fifo"))
    os.mkdir(room.at("folder"))
    room.put("long.book", bytes(65536))
    room.put("longer.book", bytes(1000000))
    long = "is too long for a statement: over 65535 bytes"
    cases = [("none.book", "none.book: No such file or directory"), ("fifo", "fifo: is no plain file: nothing is read from it"), ("folder", "folder: is a folder: nothing is read from it"),
             ("/dev/zero", "/dev/zero: is no plain file: nothing is read from it"), ("", "the name of a file is empty"), ("-", "-: No such file or directory"),
             ("long.book", "long.book: " + long), ("longer.book", "longer.book: " + long), (b"\x1b[31m", "\\x1b[31m: No such file or directory")]
    for name, said in cases:
        for pairs in [[name, "kiln.book"], ["kiln.book", name], ["kiln.book", "pond.book", "kiln.book", name]]:
            for more in [[], ["--raw"]]:
                room.says(2, "lindurask: %s\n" % said, "statement", *pairs, *more)


def named(room):
    """A site has the name of this month's file, as it may be printed; a long one has a line of its own."""
    kiln, late = work_out.sample("kiln"), work_out.others()["late.book"]
    os.mkdir(room.at("july"))
    for name, shown in [(b"\x1b[2J\n.book", "\\x1b[2J\\x0a"), (b"--raw", "--raw"), ("\u202eü.book".encode(), "\\xe2\\x80\\xaeü"), (b".book", ".book"), (b"july/kiln.book", "kiln"),
                        (b"a" * 23 + b".book", "a" * 23), (b"b" * 24 + b".book", "b" * 24), (b"a.book.book", "a.book"), (b"yard.old", "yard.old")]:
        room.put(name, late.image())
        room.says(0, work_out.statement([(shown, kiln, late)]), "statement", "--", b"kiln.book", name)
        room.says(0, work_out.statement([("kiln", late, kiln)]), "statement", "--", name, b"kiln.book")


def program(programs, name, text):
    path = programs.put(name, b"#!/bin/sh\n" + text)
    os.chmod(path, 0o755)
    return path


def hold(room, path, said):
    for more in [[], ["--raw"]]:
        got = room.run("statement", *PAIR, *more, env={VARIABLE: os.fsdecode(path)})
        want = "lindurask: the program statement %s; nothing is changed\n" % said
        check((got.status, got.out, got.err) == (2, "", want), "statement with %s: %d %s" % (path, got.status, got.all))


def wrong_programs(room, programs):
    """A program that is missing, ends early or badly, or says what is no answer."""
    right = room.run("statement", *PAIR, "--raw").out
    nowhere = programs.at("nowhere")
    hold(room, nowhere, "could not be started: %s: No such file or directory" % os.fsdecode(nowhere))
    hold(room, programs.put("plain", b"no program"), "could not be started: %s: Permission denied" % os.fsdecode(programs.at("plain")))
    hold(room, program(programs, "killed", b"kill -9 $$\n"), "ended badly: signal: 9 (SIGKILL)")

    def says(name, text, end=b""):
        programs.put(name + ".said", text.encode())
        return program(programs, name, b"cat >/dev/null; cat '%s'\n%s" % (programs.at(name + ".said"), end))
    hold(room, says("badly", right, b"exit 3\n"), "ended badly: exit status: 3")
    lines = right.splitlines(keepends=True)
    early = ["", lines[0], "".join(lines[:2]), "".join(lines[:-1]), right[:-1], lines[0] + "refused 14\n"]
    for place, text in enumerate(early):
        hold(room, says("early%d" % place, text), "ended before it had said all")
    last, this, moved, total = lines
    nonsense = ["nonsense\n", right + "\n", right + total, last + this + total, this + last + moved + "0 0 0\n", last + this + moved.replace("+", "") + total, last + this + "0 0\n" + total,
                " " + right, right.replace(" ", "  "), "0" + right, "-1 0 0\n" + right, last + "refused 9\n" + total, last + "refused 300\n" + total, last + "refused\n" + total, "\x1b[2J" + right]
    for place, text in enumerate(nonsense):
        hold(room, says("nonsense%d" % place, text), "says what is no answer")
    hold(room, program(programs, "loud", b"exec tr '\\0' '\\n' </dev/zero\n"), "says what is no answer")
    hold(room, program(programs, "bytes", b"cat >/dev/null; printf '\\377\\n'\n"), "says what is no answer")
    got = room.run("statement", *PAIR, "--raw", env={VARIABLE: os.fsdecode(says("right", right))})
    check((got.status, got.all) == (0, right), "a program that says the right lines: %s" % got.all)


def alone(room, programs):
    """A tool that stands alone finds no program, and says where one comes from."""
    shutil.copy(tool.TOOL, programs.at("lindurask"))
    env = {k: v for k, v in os.environ.items() if k != VARIABLE}
    done = subprocess.run([programs.at("lindurask"), "statement", *PAIR], cwd=room.path, capture_output=True, env=env, text=True)
    want = "lindurask: the program statement is not there: ./lindurask in the repository builds it, or set %s; nothing is changed\n" % VARIABLE
    check((done.returncode, done.stdout, done.stderr) == (2, "", want), "a tool without the program: %s" % done.stderr)


def slow(room, programs):
    """On a terminal a line says how far it is where it takes over a second, and goes again; elsewhere nothing is said."""
    right = room.run("statement", *PAIR, "--raw").out
    programs.put("slow.said", right.encode())
    path = program(programs, "slow", b"cat >/dev/null; sleep 2; cat '%s'\n" % programs.at("slow.said"))
    env = dict(os.environ, **{VARIABLE: os.fsdecode(path)})
    got = room.run("statement", *PAIR, "--raw", env=env)
    check((got.status, got.out, got.err) == (0, right, ""), "a slow program in a pipe: %s" % got.all)
    controller, terminal = pty.openpty()
    run = subprocess.Popen([tool.TOOL, "statement", *PAIR, "--raw"], stdout=subprocess.PIPE, stderr=terminal, cwd=room.path, env=env)
    out, status = run.stdout.read().decode(), run.wait(20)
    run.stdout.close()
    said = ""
    while select.select([controller], [], [], 1)[0]:
        said += os.read(controller, 65536).decode()
    os.close(terminal), os.close(controller)
    check(status == 0 and out == right and "\r\x1b[Klindurask: 1 of 1 site" in said and said.endswith("\r\x1b[K"), "a slow program on a terminal: %r" % said)


def test(room):
    room.put_others()
    every_pair(room)
    refused(room)
    words(room)
    failing(room)
    named(room)
    before = {name: room.get(name) for name in room.names() if name.endswith(".book")}
    with tool.Room() as programs:
        wrong_programs(room, programs)
        alone(room, programs)
        slow(room, programs)
    check({name: room.get(name) for name in before} == before, "a statement changed a book")
