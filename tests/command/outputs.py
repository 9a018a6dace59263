"""Every command on the sample books prints, whole, what was worked out from the book."""
import hashlib
import os
import pty
import re
import subprocess

import tool
from tool import check

# What these print for a person has at most 80 columns.
DRAWN = ("show", "balance", "table", "diff")


def hold(room, file):
    """Runs the command of a stored case in a folder of its own."""
    stored = open(os.path.join(tool.STORED, file)).read()
    words = stored.split("\n", 1)[0].split()[2:]
    there = room.names()
    with tool.Room() as own:
        own.put_others(words)
        said = own.run(*words)
        out = said.out
        if len(out) > tool.work_out.MOST_STORED:
            out = "sha256 %s of %d bytes\n" % (hashlib.sha256(out.encode()).hexdigest(), len(out))
        left = [name for name in own.names() if name == "made.book" or name in there]
        changed = [name for name in left if name == "made.book" or own.get(name) != room.get(name)]
        leaves = "".join("leaves %s: %s\n" % (name, hashlib.sha256(own.get(name)).hexdigest()) for name in changed)
        got = "$ lindurask %s\n%s%sexit status %d\n" % (" ".join(words), out, leaves, said.status)
        others = [name for name in own.names() if name not in there + ["made.book"]]
        narrow = words[0] not in DRAWN or {"--json", "--raw"} & set(words) or max(map(len, said.out.split("\n"))) <= 80
        return file, got == stored and said.err == "" and others == [] and narrow, got, said.err


def colours(room):
    """On a terminal there is colour, and without it the same text as in a pipe."""
    def on_terminal(env, book="kiln.book"):
        controller, terminal = pty.openpty()
        run = subprocess.Popen([tool.TOOL, "show", book], stdout=terminal, cwd=room.path, env=env)
        os.close(terminal)
        got = b""
        while True:
            try:
                part = os.read(controller, 65536)
            except OSError:
                break
            if not part:
                break
            got += part
        os.close(controller)
        run.wait()
        return got.decode().replace("\r\n", "\n")
    env = {k: v for k, v in os.environ.items() if k != "NO_COLOR"}
    plain = room.run("show", "kiln.book").out
    coloured = on_terminal(dict(env, TERM="xterm"))
    check("\x1b[" in coloured, "no colour on a terminal")
    check(re.sub(r"\x1b\[[0-9]+m", "", coloured) == plain, "colour changes the text")
    streams = re.findall(r"\x1b\[(\d+)m[A-E]  \x1b", coloured)
    check(len(set(streams)) == 5, "streams share a colour: %s" % streams)
    coloured = on_terminal(dict(env, TERM="xterm"), "pond.book")
    routes = [set(re.findall(r"\x1b\[(\d+)m%s *\x1b" % letter, coloured, re.I)) for letter in "ABCDEFGH"]
    check([len(codes) for codes in routes] == [1] * 8, "a route has no colour, or two: %s" % routes)
    check([routes[place] == routes[place + 1] for place in range(7)] == [True, False] * 3 + [False], "the two routes of a stream share their colour alone: %s" % routes)
    check("\x1b" not in plain, "colour in a pipe")
    check(on_terminal(dict(env, TERM="xterm", NO_COLOR="1")) == plain, "colour where NO_COLOR is set")
    check(on_terminal(dict(env, TERM="dumb")) == plain, "colour on a dumb terminal")


def test(room):
    room.put_others()
    files = sorted(file for file in os.listdir(tool.STORED) if file.endswith(".said"))
    check(len(files) > 60, "stored cases are missing")
    for file, held, got, err in tool.all_of(lambda file: hold(room, file), files):
        check(held, "%s: got\n%s%s" % (file, got[:3000], err))
    worked_out = {case[0] + ".said": tool.work_out.stored(case) for case in tool.work_out.cases()}
    check(sorted(worked_out) == files, "the stored cases are not those that are worked out")
    for file in files:
        check(open(os.path.join(tool.STORED, file)).read() == worked_out.get(file), "%s is not what is worked out" % file)
    colours(room)
