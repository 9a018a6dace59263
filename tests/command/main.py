"""Runs every test of the command line, a few subjects at a time, or those subjects that are named."""
import importlib
import os
import subprocess
import sys
import time
from concurrent.futures import ThreadPoolExecutor

import tool

# The longest first; waits does little else than wait.
SUBJECTS = ["waits", "engines", "statements", "outputs", "salvages", "cuts", "postings", "accounts", "chance", "answers", "adoptions", "documents", "names", "mains", "differences", "pages", "plans", "versions", "clerks", "reading", "hearing", "changes"]
AT_ONCE = 4


def test(name):
    """Tests one subject, in this program."""
    start = time.time()
    with tool.Room() as room:
        importlib.import_module(name).test(room)
    print("%s: %d passed in %.1f s" % (name, tool.passed, time.time() - start))
    print("%d passed, %d failed" % (tool.passed, tool.failed))
    return tool.failed == 0


def run(name):
    """Tests one subject in a program of its own; gives what it said and its counts."""
    done = subprocess.run([sys.executable, "-B", os.path.abspath(__file__), name], stdout=subprocess.PIPE, stderr=subprocess.STDOUT, text=True)
    said, _, last = done.stdout.rstrip("\n").rpartition("\n")
    words = last.split()
    if len(words) == 4 and words[1::2] == ["passed,", "failed"]:
        return said, int(words[0]), int(words[2])
    return done.stdout + "\nFAILED: %s did not end" % name, 0, 1


if __name__ == "__main__":
    if len(sys.argv) == 2:
        sys.exit(not test(sys.argv[1]))
    passed = failed = 0
    with ThreadPoolExecutor(AT_ONCE) as pool:
        for said, good, bad in pool.map(run, sys.argv[1:] or SUBJECTS):
            print(said, flush=True)
            passed, failed = passed + good, failed + bad
    print("%d passed, %d failed" % (passed, failed))
    sys.exit(failed != 0)
