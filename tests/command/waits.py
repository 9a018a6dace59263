"""Changes wait for each other, say for what, and give up; and for no engine that keeps silent. These tests only wait."""
import fcntl
import os
import subprocess
import time

import tool
from tool import check

WAITING = "lindurask: held.book: waiting for another change of this book\n"
GIVEN_UP = "lindurask: held.book: another change of this book is under way, and did not end in half a minute; nothing is changed\n"
SILENT = "lindurask: the engine gives no answer; nothing is changed\n"


class Wait:
    """A run, when it started, and what it will be held to."""

    def __init__(self, hold, room, *words, env=None):
        self.hold, self.room, self.start = hold, room, time.time()
        self.run = subprocess.Popen([tool.TOOL, *words], stdout=subprocess.PIPE, stderr=subprocess.PIPE, cwd=room.path, env=dict(os.environ, **(env or {})))

    def collect(self):
        try:
            out, err = self.run.communicate(timeout=60)
        except subprocess.TimeoutExpired:
            self.run.kill()
            out, err = self.run.communicate()
            check(False, "a run that waits did not give up: %s" % err.decode())
        self.hold(self.room, self.run.returncode, out.decode(), err.decode())


def gives_up(room, status, out, err):
    check((status, out, err) == (2, "", WAITING + GIVEN_UP), "a book that stays locked: %d %s" % (status, err))
    check(room.get("held.book") == room.empty, "a book that stays locked was changed")
    room.lock.close()
    check(room.run("open", "held.book", "7", "3", "0", "2").status == 0, "a book that is free again")


def keeps_silent(room, status, out, err):
    check((status, out, err) == (2, "", SILENT) and room.get("held.book") == room.empty, "an engine that keeps silent: %d %s" % (status, err))
    pid = room.get("engine.pid").decode().strip()
    check(not os.path.exists("/proc/%s" % pid), "a silent engine was left running")


def start():
    """Starts the long waits; in the first second nothing is said, and readers do not wait."""
    room = tool.Room().__enter__()
    room.put("held.book", room.empty)
    room.lock = open(room.at("held.book"), "rb")
    fcntl.flock(room.lock, fcntl.LOCK_EX)
    silent = tool.Room().__enter__()
    silent.put("held.book", silent.empty)
    engine = silent.put("silent", b"#!/bin/sh\necho $$ >%s/engine.pid\nexec sleep 300\n" % os.fsencode(silent.path))
    os.chmod(engine, 0o755)
    check(room.run("check", "held.book").status == 0, "a check waits for a change")
    return [Wait(gives_up, room, "open", "held.book", "7", "3", "0", "2"),
            Wait(keeps_silent, silent, "open", "held.book", "7", "3", "0", "2", env={"LINDURASK_ENGINE": os.fsdecode(engine)})]


def short():
    """A change that ends in time is waited for: without a word in the first second, with one after it."""
    for seconds, said, words in [(0.3, "", ["open", "held.book", "7", "3", "0", "2"]), (1.6, WAITING, ["post", "held.book", "a.list"])]:
        with tool.Room() as room:
            room.put("held.book", room.empty)
            room.put("a.list", b"open 7 3 0 2\n")
            with open(room.at("held.book"), "rb") as lock:
                fcntl.flock(lock, fcntl.LOCK_EX)
                run = subprocess.Popen([tool.TOOL, *words], stdout=subprocess.PIPE, stderr=subprocess.PIPE, cwd=room.path)
                time.sleep(seconds)
                check(room.get("held.book") == room.empty and run.poll() is None, "a locked book was changed")
            out, err = run.communicate(timeout=20)
            check(run.returncode == 0 and err.decode() == said and room.get("held.book") != room.empty, "a wait of %s s: %s" % (seconds, err))


def test(_):
    waiting = start()
    short()
    for wait in waiting:
        wait.collect()
        seconds = time.time() - wait.start
        check(seconds >= 29, "gave up after %.1f s" % seconds)
        wait.room.__exit__()
