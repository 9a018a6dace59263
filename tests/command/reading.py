"""What is read: plain files and nothing else, and no run waits for what never comes; what is printed, and where it cannot be."""
import os
import socket
import subprocess

import tool
from tool import check

READERS = [["check"], ["show"], ["table"], ["balance"], ["quote", "1", "2"], ["page"], ["routes", "1", "2"], ["diff", "kiln.book"], ["statement", "kiln.book"], ["accounts"]]
CHANGERS = [["open", "8", "1", "2", "5"], ["close", "1"], ["post", "a.list"], ["buy", "0", "0"]]


def asked(words, file):
    return [words[0], file, *words[1:]]


def kinds(room):
    os.mkfifo(room.at("fifo"))
    os.symlink("fifo", room.at("to-fifo"))
    os.symlink("nowhere", room.at("to-nothing"))
    os.symlink("loop", room.at("loop"))
    os.mkdir(room.at("folder"))
    server = socket.socket(socket.AF_UNIX)
    server.bind(room.at("socket"))
    cases = [("none.book", "No such file or directory"), ("to-nothing", "No such file or directory"), ("kiln.book/x", "Not a directory"),
             ("loop", "Too many levels of symbolic links"), ("folder", "is a folder: nothing is read from it"), (".", "is a folder: nothing is read from it")]
    cases += [(name, "is no plain file: nothing is read from it") for name in ["fifo", "to-fifo", "socket", "/dev/zero", "/dev/null", "/dev/full", "/dev/stdin"]]
    for name, words in cases:
        if name == "/dev/stdin" and not os.path.exists(name):
            continue
        for command in READERS[:2] + CHANGERS if name != "fifo" else READERS + CHANGERS:
            more = {"data": None, "stdin": subprocess.PIPE} if name == "/dev/stdin" else {}
            if more:
                run = subprocess.Popen([tool.TOOL, *asked(command, name)], stdin=subprocess.PIPE, stdout=subprocess.PIPE, stderr=subprocess.PIPE, cwd=room.path)
                err, status = run.stderr.read().decode(), run.wait(10)
                run.stdin.close(), run.stdout.close(), run.stderr.close()
                check(status == 2 and err == "lindurask: %s: %s\n" % (name, words), "%s %s: %s" % (command, name, err))
            else:
                room.says(2, "lindurask: %s: %s\n" % (name, words), *asked(command, name))
        if name not in ("none.book", "kiln.book/x", "."):
            room.says(2, "lindurask: %s: %s\n" % (name, words), "new", "n.book", name)
            room.says(2, "lindurask: %s: %s\n" % (name, words), "replan", "kiln.book", name, "n.book")
            room.says(2, "lindurask: %s: %s\n" % (name, words), "post", "kiln.book", name)
    for command in READERS + CHANGERS:
        room.says(2, "lindurask: the name of a file is empty\n", *asked(command, ""))
    server.close()
    check(room.run("check", "a" * 5000).status == 2, "a name that is too long")
    check("n.book" not in room.names(), "a plan that is none made a book")
    target = os.symlink("kiln.book", room.at("link.book"))
    check(target is None and room.run("check", "link.book").out == room.run("check", "kiln.book").out, "a book through a link")


def closed(room):
    """Standard streams that are closed."""
    def shut(words):
        return subprocess.run(["sh", "-c", 'exec "$0" "$@" <&-', tool.TOOL, *words], cwd=room.path, capture_output=True, timeout=20)
    done = shut(["new", "n.book", "-"])
    check(done.returncode == 2 and done.stderr == b"lindurask: standard input: is closed: nothing is read from it\n", "a plan from a closed standard input: %s" % done.stderr)
    check(shut(["check", "kiln.book"]).returncode == 0, "a check with standard input closed")
    done = subprocess.run(["sh", "-c", 'exec "$0" "$@" <&- 2>&-', tool.TOOL, "open", "kiln.book", "77", "1", "2", "100"], cwd=room.path, stdout=subprocess.DEVNULL, timeout=20)
    check(done.returncode == 0 and room.run("close", "kiln.book", "77").status == 0, "an open with standard input and standard error closed")


def mute(room):
    """Standard output that is closed, or open for reading alone: nothing is done."""
    before, books = room.names(), [room.get("kiln.book"), room.get("yard.book")]
    words = READERS + CHANGERS + [["page", "m.html"], ["replan", "yard.plan", "m.book"], ["salvage", "m.book"], ["table", "--raw"]]
    commands = [asked(command, "kiln.book") for command in words] + [["new", "m.book", "kiln.plan"], ["adopt", "kiln.plan", "kiln.tables", "m.book"], ["help"], ["--version"], ["frob"]]
    for closing in [">&-", "1</dev/null", "<&- >&-"]:
        for command in commands if closing == ">&-" else commands[len(READERS):][:5]:
            done = subprocess.run(["sh", "-c", 'exec "$0" "$@" ' + closing, tool.TOOL, *command], cwd=room.path, stderr=subprocess.PIPE, timeout=20)
            said = b"lindurask: standard output is closed; nothing is changed\n"
            check(done.returncode == 2 and done.stderr == said, "%s with %s: %d %s" % (command, closing, done.returncode, done.stderr))
    done = subprocess.run(["sh", "-c", 'exec "$0" "$@" <&- >&- 2>&-', tool.TOOL, *commands[len(READERS)]], cwd=room.path, timeout=20)
    check(done.returncode == 2, "an open with all streams closed")
    check(room.names() == before and [room.get("kiln.book"), room.get("yard.book")] == books, "a tool that cannot speak changed something")


def gone(room):
    """A reader of a pipe that has gone, and a full device: the status says what became of the book."""
    def run_into(out, *words):
        run = subprocess.run([tool.TOOL, *words], stdout=out, stderr=subprocess.PIPE, cwd=room.path, timeout=20)
        return run.returncode, run.stderr.decode()

    def into_nothing(*words):
        reader, writer = os.pipe()
        os.close(reader)
        try:
            return run_into(writer, *words)
        finally:
            os.close(writer)
    before = room.get("kiln.book")
    for words in READERS + [["show", "--json"], ["check", "--json"], ["table", "--raw"]]:
        got = into_nothing(*asked(words, "kiln.book"))
        check(got == (2, "lindurask: standard output: Broken pipe\n"), "%s into nothing: %s" % (words, got))
    check(into_nothing("help")[0] == 2 and into_nothing("--version")[0] == 2, "help into nothing")
    check(into_nothing("balance", "kiln.book", "9", "--json")[0] == 2, "a refusal in JSON into nothing")
    check(into_nothing("open", "kiln.book", "5", "1", "2", "5")[0] == 1 and room.get("kiln.book") == before, "a refused open into nothing")
    done = "lindurask: it is done, but standard output failed: %s\n"
    check(into_nothing("open", "kiln.book", "90", "1", "2", "100") == (0, done % "Broken pipe"), "an open into nothing")
    check(room.get("kiln.book") != before, "an open into nothing said that it was done")
    with open("/dev/full", "wb") as full:
        check(run_into(full, "close", "kiln.book", "90") == (0, done % "No space left on device") and room.get("kiln.book") == before, "a close into a full device")
        check(run_into(full, "new", "full.book", "kiln.plan") == (0, done % "No space left on device") and room.get("full.book") == room.empty, "new into a full device")
        check(run_into(full, "replan", "site.book", "yard.plan", "part.book") == (1, done % "No space left on device") and "part.book" in room.names(), "replan in part into a full device")
        check(run_into(full, "show", "kiln.book") == (2, "lindurask: standard output: No space left on device\n"), "show into a full device")


def rights(room):
    if os.getuid() != 0:
        tool.skip("a book without right to read: only the superuser can make one for another")
        return
    room.put("shut.book", room.get("kiln.book"))
    os.chmod(room.at("shut.book"), 0)
    said = room.run("check", "shut.book", user=65534, group=65534, extra_groups=[], cwd=room.path)
    check(said.status == 2 and said.all.endswith("shut.book: Permission denied\n"), "a book without right to read: " + said.all)


def test(room):
    room.put("a.list", b"close 1\nopen 8 1 2 5\n")
    room.put("kiln.tables", tool.work_out.raw(tool.work_out.sample("kiln")))
    kinds(room)
    closed(room)
    mute(room)
    gone(room)
    with tool.Room() as other:
        rights(other)
