"""The tool under test: runs it in a folder of its own, and counts what held."""
import functools
import importlib.machinery
import importlib.util
import os
import shutil
import subprocess
import tempfile
from concurrent.futures import ThreadPoolExecutor

ROOT = os.path.dirname(os.path.dirname(os.path.dirname(os.path.abspath(__file__))))
TOOL = os.environ.get("LINDURASK_TOOL", os.path.join(ROOT, "cli/target/release/lindurask"))
BOOKS = os.path.join(ROOT, "books")
STORED = os.path.join(ROOT, "tests/stored/command_line")
passed = failed = 0


def loaded(name, path):
    loader = importlib.machinery.SourceFileLoader(name, path)
    module = importlib.util.module_from_spec(importlib.util.spec_from_loader(name, loader))
    loader.exec_module(module)
    return module


# Documents 01 and 02 worked out by themselves.
work_out = loaded("work_out", os.path.join(STORED, "work_out"))
# The sample books.
SAMPLES = work_out.SAMPLES


def refusal(number):
    """The number of a refusal and its words."""
    return "%d: %s" % (number, work_out.WORDS[number])


def check(holds, what):
    """Counts a test; a failed one is said."""
    global passed, failed
    if holds:
        passed += 1
    else:
        failed += 1
        print("FAILED: %s" % what, flush=True)
        if "STOP_AT_FIRST" in os.environ:
            os._exit(1)


def skip(what):
    print("skipped: %s" % what)


class Said:
    """What a run printed and how it ended."""

    def __init__(self, status, out, err):
        self.status, self.out, self.err = status, out, err
        self.all = out + err


def memory():
    """A folder in memory, where a sync takes no time; none where programs do not run from it."""
    folder = os.environ.get("TMPDIR", "/dev/shm")
    usable = os.access(folder, os.W_OK) and not os.statvfs(folder).f_flag & os.ST_NOEXEC
    return folder if usable else None


@functools.cache
def others():
    """The further books that diff is tried on, the lists that post is, the damaged books that salvage is, and the tables that adopt is, by name."""
    books = {name: book.image() for name, book in work_out.others().items()}
    lists = {name: text.encode() for name, text in work_out.lists().items()}
    return {**books, **lists, **work_out.spoilt(), **work_out.lent()}


class Room:
    """A folder with the sample books and plans; it goes when the tests are done."""

    def __enter__(self):
        self.path = tempfile.mkdtemp(dir=memory())
        os.chmod(self.path, 0o755)
        for name in SAMPLES:
            for end in [".book", ".plan"]:
                self.put(name + end, open(os.path.join(BOOKS, name + end), "rb").read())
        self.empty = work_out.plan_book("kiln").image()
        return self

    def __exit__(self, *_):
        shutil.rmtree(self.path, ignore_errors=True)

    def at(self, name):
        return os.path.join(os.fsencode(self.path), os.fsencode(name))

    def put(self, name, data):
        with open(self.at(name), "wb") as file:
            file.write(data)
        return self.at(name)

    def get(self, name):
        with open(self.at(name), "rb") as file:
            return file.read()

    def put_others(self, words=None):
        """Adds the other files that commands are tried on; where words are given, those that they name."""
        for name, data in others().items():
            if words is None or name in words:
                self.put(name, data)

    def names(self, folder="."):
        return sorted(os.listdir(os.path.join(self.path, folder)))

    def run(self, *words, before=(), data=b"", env=None, cwd=None, **more):
        """Runs the tool; no run may take longer than the waits that the tool allows itself."""
        environment = dict(os.environ, **(env or {}))
        done = subprocess.run([*before, TOOL, *words], input=data, cwd=cwd or self.path, env=environment,
                              stdout=subprocess.PIPE, stderr=subprocess.PIPE, timeout=45, **more)
        return Said(done.returncode, done.stdout.decode(), done.stderr.decode())

    def says(self, status, text, *words, **more):
        """Holds a run to its exit status and to all that it says."""
        said = self.run(*words, **more)
        told = said.status == status and said.all == text
        check(told, "lindurask %s: exit status %d, not %d, or said\n%s\nand not\n%s" % (
            words, said.status, status, said.all, text))
        return said


def all_of(work, items):
    """Does the work for all items, a few at a time, and gives what comes of each in turn."""
    with ThreadPoolExecutor(4) as pool:
        yield from pool.map(work, items)


def compiled(room, source):
    """A C program of the tests; none where there is no compiler."""
    program = os.path.join(room.path, os.path.splitext(source)[0])
    words = [os.environ.get("CC", "cc"), "-std=gnu11", "-O2", os.path.join(ROOT, "tests", source), "-o", program]
    try:
        return program if subprocess.run(words).returncode == 0 else None
    except FileNotFoundError:
        return None
