"""Cut off or failed at every system call: the old book or the new one, and the status says which."""
import errno
import os
import shutil
import subprocess
import time

import tool
from tool import check

KILLED, NOT_REACHED = 125, 126


class Case:
    """A command that changes a folder, the folder before, and what the file is before and after."""

    def __init__(self, room, name, file, before, *words):
        self.room, self.name, self.file, self.before, self.words = room, name, file, before, words
        # The engine's answers are kept, and given again at once: where it is emulated it takes long to start.
        kept = os.path.join(room.path, name + ".answers")
        built = '. "%s/scripts/runner.sh"; runner "%s/target/bin/engine"' % (tool.ROOT, tool.ROOT)
        named = os.environ.get("LINDURASK_ENGINE")
        self.engine = self.program("engine", '%s; "${run[@]}" | tee "%s"' % ('run=("%s")' % named if named else built, kept))
        with self.folder("whole") as folder:
            self.status = self.run(folder).returncode
            self.after = self.held(folder)
        self.engine = self.program("again", 'exec cat "%s"' % kept)

    def program(self, what, line):
        path = os.path.join(self.room.path, "%s.%s" % (self.name, what))
        with open(path, "w") as file:
            file.write("#!/bin/bash\n%s\n" % line)
        os.chmod(path, 0o755)
        return path

    def folder(self, name):
        return Folder(self, os.path.join(self.room.path, "%s-%s" % (self.name, name)))

    def run(self, folder, *trace):
        return subprocess.run([*trace, tool.TOOL, *self.words], cwd=folder, stdin=subprocess.DEVNULL, stdout=subprocess.DEVNULL, stderr=subprocess.PIPE, timeout=60,
                              env=dict(os.environ, LINDURASK_ENGINE=self.engine))

    def held(self, folder):
        try:
            with open(os.path.join(folder, self.file), "rb") as file:
                return file.read()
        except FileNotFoundError:
            return None


class Folder:
    def __init__(self, case, path):
        self.case, self.path = case, path

    def __enter__(self):
        os.mkdir(self.path)
        for name in ["kiln.plan", "yard.plan", "kiln.book", "site.book", "month.list"]:
            shutil.copy(os.path.join(self.case.room.path, name), self.path)
        if self.case.before is not None:
            with open(os.path.join(self.path, self.case.file), "wb") as file:
                file.write(self.case.before)
        return self.path

    def __exit__(self, *_):
        shutil.rmtree(self.path)


def killed(case, trace):
    """Killed at the start of each of its system calls, in turn."""
    def one(moment):
        with case.folder("kill%d" % moment) as folder:
            status = case.run(folder, trace, "kill", str(moment)).returncode
            held, left = case.held(folder), [name for name in os.listdir(folder) if name.startswith(".lindurask-")]
            # The next change finds its way, and clears what was left; where nothing was left, a few stand for all.
            tried = held == case.before is not None and (left or moment % 16 == 0)
            again = case.run(folder).returncode if tried else None
            after = [name for name in os.listdir(folder) if name.startswith(".lindurask-")]
            return status, held, left, again is None or (again == 0 and case.held(folder) == case.after), after if again is not None else []
    got, moment = [], 0
    while True:
        batch = list(tool.all_of(one, range(moment, moment + 32)))
        got += [part for part in batch if part[0] == KILLED]
        moment += 32
        if any(part[0] != KILLED for part in batch):
            check(all(part[0] in (KILLED, NOT_REACHED) for part in batch), "%s: the tracer failed: %s" % (case.name, [part[0] for part in batch]))
            break
    states = [{case.before: "old", case.after: "new"}.get(part[1], "other") for part in got]
    check("other" not in states, "%s: a cut-off left neither the old book nor the new one" % case.name)
    check({"old", "new"} == set(states), "%s: the cut-offs are not on both sides of the change" % case.name)
    check(all(part[3] for part in got), "%s: a change after a cut-off failed" % case.name)
    check(not any(part[4] for part in got), "%s: a change after a cut-off left something" % case.name)
    print("%s: killed at each of %d system calls: %d times old, then %d times new, %d times with a file beside it" % (
        case.name, len(got), states.count("old"), states.count("new"), sum(1 for part in got if part[2])))


def left(case, trace):
    """Killed between the naming of the new file and the rename: the next change clears what is beside the book."""
    with case.folder("left") as folder:
        status = case.run(folder, trace, "kill", "rename:0").returncode
        beside = [name for name in os.listdir(folder) if name.startswith(".lindurask-")]
        check(status == KILLED and len(beside) == 1 and case.held(folder) == case.before, "%s: a cut-off before the rename left %s" % (case.name, beside))
        check(case.run(folder).returncode == 0 and case.held(folder) == case.after, "%s after a cut-off before the rename" % case.name)
        check(not [name for name in os.listdir(folder) if name.startswith(".lindurask-")], "%s: what a cut-off left is still there" % case.name)


def failed(case, trace):
    """Each of its system calls fails, in turn: done means the new book, and not done the old one."""
    def one(moment):
        with case.folder("fail%d" % moment) as folder:
            done = case.run(folder, trace, "fail", str(moment), str(errno.EIO))
            beside = [name for name in os.listdir(folder) if name.startswith(".lindurask-")]
            return done.returncode, case.held(folder), done.stderr.decode(), beside
    got, moment = [], 0
    while not got or NOT_REACHED not in [part[0] for part in got[-32:]]:
        got += tool.all_of(one, range(moment, moment + 32))
        moment += 32
    lost = 0
    for place, (status, held, said, beside) in enumerate(got):
        if status == NOT_REACHED:
            continue
        what = "%s: call %d failed, status %d: %s" % (case.name, place, status, said)
        if "could not be synced, so a power cut may undo it" in said:
            check(status == 2 and held == case.after, what)
        elif status == 0:
            check(held == case.after, what)
        else:
            lost += status == 2
            check(held == case.before, what)
            check(status != 2 or said.startswith("lindurask: "), what)
        check(not beside or status not in (0, 1, 2), what + " left %s" % beside)
    check(lost >= 8, "%s: only %d failed calls were told" % (case.name, lost))


def unsynced(case, trace):
    """A sync that fails is never taken for done: of the file, nothing is changed; of the folder, it says so."""
    changed = "made" if case.before is None else "changed"
    wants = [("fsync:0", case.before, "lindurask: %s: Input/output error\n"),
             ("fsync:1", case.after, "lindurask: %s: " + changed + ", but its folder could not be synced, so a power cut may undo it: Input/output error\n"),
             ("linkat:0", case.before, "lindurask: %s: Input/output error\n")] + [("rename:0", case.before, "lindurask: %s: Input/output error\n")] * (case.before is not None)
    for call, held, said in wants:
        with case.folder("unsynced") as folder:
            done = case.run(folder, trace, "fail", call, str(errno.EIO))
            check(done.returncode == 2 and done.stderr.decode() == said % case.file and case.held(folder) == held, "%s: %s failed: %s" % (case.name, call, done.stderr))
            check(not [name for name in os.listdir(folder) if name.startswith(".lindurask-")], "%s: %s failed and left a file" % (case.name, call))


def seen(case, trace):
    """The calls that bring a book to the disk are there, and in this order."""
    with case.folder("seen") as folder:
        log = os.path.join(case.room.path, "calls")
        check(case.run(folder, trace, "list", log).returncode == 0, "%s under a tracer" % case.name)
        lines = [line.split(" ") for line in open(log).read().splitlines() if not line.startswith("flock ")]
        names = ["unnamed", "fsync", "linkat"] + ["rename"] * (case.before is not None) + ["fsync"]
        check([line[0] for line in lines] == names, "%s: the calls are %s" % (case.name, lines))
        if len(lines) != len(names):
            return
        real, named = os.path.realpath(folder), lines[-2][-1]
        check(named == case.file or named.endswith("/" + case.file), "%s names %s" % (case.name, named))
        check(case.before is None or lines[2][1] == lines[3][1], "%s: %s is named, and %s renamed" % (case.name, lines[2][1], lines[3][1]))
        check(lines[1][1] != real and lines[-1][1] == real, "%s syncs %s and %s" % (case.name, lines[1], lines[-1]))


def named(case, trace):
    """Where the file system has no files without a name, the change goes by a file with one."""
    with case.folder("named") as folder:
        before = sorted(os.listdir(folder))
        done = case.run(folder, trace, "fail", "unnamed:0", str(errno.EOPNOTSUPP))
        check(done.returncode == 0 and case.held(folder) == case.after, "%s by a named file: %s" % (case.name, done.stderr))
        check(sorted(os.listdir(folder)) == sorted(set(before + [case.file])), "%s by a named file left %s" % (case.name, os.listdir(folder)))


def replaced(case, trace, changed):
    """A book that another change replaces after it was opened and before it was locked is opened anew; what the case makes of a book is given."""
    with case.folder("replaced") as folder:
        at, held, other = (os.path.join(folder, name) for name in ["at-lock", case.file, "other"])
        old = tool.work_out.Book.read(case.before)
        new = old.without(old.ways[0].id)
        run = subprocess.Popen([trace, "hold", "flock:0", at, tool.TOOL, *case.words], cwd=folder, stdout=subprocess.DEVNULL)
        while not os.path.exists(at) and run.poll() is None:
            time.sleep(0.001)
        with open(other, "wb") as file:
            file.write(new.image())
        os.rename(other, held)
        os.remove(at)
        check(run.wait(60) == 0 and case.held(folder) == changed(new).image(), "%s: a book that was replaced meanwhile" % case.name)


def test(room):
    trace = tool.compiled(room, "trace.c")
    if trace is None or subprocess.run([trace, "kill", "0", "/bin/true"]).returncode != KILLED:
        tool.skip("cut-offs: no C compiler, or no right to trace a program")
        return
    old = tool.work_out.Book.read(room.get("site.book")).without(64).image()
    # One stream is there for the time of the list alone.
    month = "open 200 0 63 100\nclose 64\nclose 40\nopen 201 1 2 100 second\nclose 201\nopen 40 2 1 50\n"
    room.put("month.list", month.encode())
    cases = [Case(room, "open", "a.book", old, "open", "a.book", "200", "0", "63", "100"),
             Case(room, "close", "a.book", room.get("site.book"), "close", "a.book", "64"),
             Case(room, "post", "a.book", tool.work_out.Book.read(room.get("site.book")).without(63).image(), "post", "a.book", "month.list"),
             Case(room, "buy", "a.book", tool.work_out.Book.read(room.get("site.book")).but(accounts=[(0, 10000), (3, 5)]).image(), "buy", "a.book", "3", "500"),
             Case(room, "new", "n.book", None, "new", "n.book", "kiln.plan"),
             Case(room, "replan", "n.book", None, "replan", "kiln.book", "yard.plan", "n.book"),
             Case(room, "salvage", "n.book", None, "salvage", "kiln.book", "n.book"),
             Case(room, "page", "p.html", None, "page", "kiln.book", "p.html")]
    for case in cases:
        check(case.status == 0 and case.after not in (None, case.before), "%s is not done" % case.name)
        seen(case, trace)
        unsynced(case, trace)
        named(case, trace)
    replaced(cases[1], trace, lambda book: book.without(64))
    replaced(cases[2], trace, lambda book: tool.work_out.posted(book, month)[1])
    replaced(cases[3], trace, lambda book: book.bought(3, 500))
    for case in cases[:4]:
        left(case, trace)
    for case in cases:
        killed(case, trace)
        failed(case, trace)
