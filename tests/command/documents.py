"""Help, man page, completion and documents agree; the README shows what is printed; what is installed runs by itself."""
import json
import os
import re
import shutil
import subprocess

import tool
from tool import check


def text(*path):
    with open(os.path.join(tool.ROOT, *path)) as file:
        return file.read()


def man_page(room, usages, refusals):
    page = text("cli/lindurask.1").replace("\\-", "-").replace("\\e", "\\")
    for name, usage in usages.items():
        check("\nlindurask %s\n" % usage in page, "the man page's synopsis has not: %s" % usage)
        explained = room.run(name, "--help").out.split("\n", 1)[1].split("\n\nExample: ")[0] if name != "help" else "Explains a command"
        check(explained in page, "the man page explains %s otherwise" % name)
    for number, words in refusals:
        check("\n.B %s\n%s\n" % (number, words) in page, "the man page has other words for %s" % number)
    if shutil.which("groff"):
        done = subprocess.run(["groff", "-man", "-Tutf8", "-ww", os.path.join(tool.ROOT, "cli/lindurask.1")], capture_output=True)
        check(done.returncode == 0 and done.stderr == b"", "groff on the man page: %s" % done.stderr)


def completion(usages):
    script = text("cli/lindurask.bash")
    commands = re.search(r"commands='([^']*)'", script).group(1).split()
    check(commands == list(usages), "the completion's commands: %s" % commands)
    for name, usage in usages.items():
        want = [option.split()[0] for option in re.findall(r"\[(--[^\]]*)\]", usage)] + ["--help"]
        words = "source '%s'; COMP_WORDS=(lindurask %s --); COMP_CWORD=2; _lindurask; echo \"${COMPREPLY[*]}\"" % (
            os.path.join(tool.ROOT, "cli/lindurask.bash"), name)
        got = subprocess.run(["bash", "-c", words], capture_output=True, text=True).stdout.split()
        check(name == "help" or got == want, "the completion of %s: %s" % (name, got))
    for typed, want in [("open a 1 2 3 5 s", "second"), ("open a 1 2 3 5 a", "account"), ("open a 1 2 3 5 ''", "second account --mains --help"), ("open a 1 2 3 5 second ''", "account --mains --help"),
                        ("open a 1 2 3 5 account ''", ""), ("open a 1 2 3 5 account 4 ''", "second --mains --help"), ("open a 1 2 3 5 second account ''", ""), ("open a 1 2 3 1", "1 10 100 1000"),
                        ("quote a 1 2 ''", "account --mains --json --help"), ("quote a 1 2 account ''", ""), ("ch", "check"), ("b", "buy balance"), ("ac", "accounts"), ("ad", "adopt")]:
        words = "source '%s'; COMP_WORDS=(lindurask %s); COMP_CWORD=$((${#COMP_WORDS[@]} - 1)); _lindurask; echo \"${COMPREPLY[*]}\"" % (os.path.join(tool.ROOT, "cli/lindurask.bash"), typed)
        check(subprocess.run(["bash", "-c", words], capture_output=True, text=True).stdout == want + "\n", "the completion of %s" % typed)


def fields(value):
    """All names of fields in a JSON value."""
    if isinstance(value, dict):
        return set(value) | {name for part in value.values() for name in fields(part)}
    return {name for part in value for name in fields(part)} if isinstance(value, list) else set()


def json_fields(room):
    document = text("docs/json.md").split("| Field |")[1]
    room.put("a.list", b"open 9 6 4 50\nclose 9\nclose 9\n")
    used = set()
    kept = [["show"], ["check"], ["accounts"], ["quote", "7", "3", "account", "1"], ["diff", "kiln.book"], ["post", "a.list"], ["salvage", "kept.book"]]
    for words in kept:
        used |= fields(json.loads(room.run(words[0], "mill.book", *words[1:], "--json").out))
    for words in [["check"], ["show"], ["table"], ["balance"], ["quote", "3", "0"], ["quote", "3", "9"], ["routes", "3", "0"], ["diff", "pond.book"], ["balance", "99"], ["post", "a.list"], ["check", "--mains", "0"], ["salvage", "new.book"]]:
        out = room.run(words[0], "kiln.book", *words[1:], "--json").out
        check(out.count("\n") == 1 and out.endswith("\n"), "%s --json is not one line" % words)
        used |= fields(json.loads(out))
    told = set(re.findall(r"^\| `([a-z]+)`", document, re.M))
    check(used == told, "docs/json.md and --json differ in %s" % (used ^ told))


def documents(room, usages, refusals):
    readme, answers = text("README.md"), text("docs/answers.md")
    for name, usage in usages.items():
        check("`lindurask %s`" % re.sub(r" \[--.*", "", usage) in readme, "README.md has not: lindurask %s" % usage)
    for number, words in refusals:
        check("\n| %s | %s |" % (number, words) in answers, "docs/answers.md has other words for %s" % number)
    check(room.run("show", "kiln.book").out in readme, "README.md shows another picture of books/kiln.book")
    room.put("line.plan", re.search(r"```\n(slots 4 .*?)```", readme, re.S).group(1).encode())
    more = re.search(r"```\n(hear .*?)```", readme, re.S).group(1).encode()
    room.put("heard.plan", room.get("line.plan") + more)
    room.put("month.list", re.search(r"```\n(close 1\n.*?)```", readme, re.S).group(1).encode())
    room.put("my.book", room.get("pond.book"))
    room.put("shed.book", room.get("pins.book"))
    room.put("firm.book", room.get("mill.book"))
    pins = room.get("pins.book")
    second = pins.index(bytes([0, 2, 1, 0, 20, 3]))
    room.put("laptop.book", pins[:second + 6] + b"\x01" + pins[second + 7:-22])
    os.symlink(".", room.at("books"))
    dialogues = re.findall(r"```\n(\$ ./lindurask .*?)```", readme, re.S)
    check(len(dialogues) == 10, "README.md has %d dialogues" % len(dialogues))
    for part in "".join(dialogues).split("$ ./lindurask ")[1:]:
        words, said = part.split("\n", 1)
        got = room.run(*words.split()).all
        check(got == said, "README.md: lindurask %s says\n%s" % (words, got))
    for variable in ["LINDURASK_ENGINE", "LINDURASK_STATEMENT", "LINDURASK_SALVAGE", "NO_COLOR"]:
        check(variable in text("cli/lindurask.1"), "the man page has no %s" % variable)


def links():
    """Every link of the documents to a file of this repository leads to one."""
    files = ["README.md", "books/README.md"] + [os.path.join("docs", name) for name in os.listdir(os.path.join(tool.ROOT, "docs")) if name.endswith(".md")]
    for file in files:
        for target in re.findall(r"\]\(([^)#]+)\)", text(file)):
            check("://" in target or os.path.exists(os.path.join(tool.ROOT, os.path.dirname(file), target)), "%s: no file %s" % (file, target))
    for sample in ["docs/sample/kiln.html", "docs/sample/kiln.png"]:
        check("(%s)" % sample in text("README.md"), "README.md has no link to %s" % sample)


def samples(room):
    os.mkdir(room.at("made"))
    check(subprocess.run([os.path.join(tool.BOOKS, "make"), room.at("made")]).returncode == 0, "books/make failed")
    for name in tool.SAMPLES:
        check(room.get("made/%s.book" % name) == room.get(name + ".book"), "books/%s.book is not what books/make makes" % name)


def installed(room):
    done = subprocess.run([os.path.join(tool.ROOT, "install"), room.at("prefix")], capture_output=True, text=True)
    check(done.returncode == 0, "./install: %s" % done.stderr)
    for file in ["bin/lindurask", "libexec/lindurask/engine", "libexec/lindurask/statement", "libexec/lindurask/salvage", "share/man/man1/lindurask.1", "share/bash-completion/completions/lindurask",
                 "include/lindurask.h", "lib/libplanner.a"]:
        check(os.path.isfile(room.at("prefix/" + file)), "./install did not put %s" % file)
    # Without the kit and without the repository: neither is on the path.
    run = [room.at("prefix/bin/lindurask"), "balance", "kiln.book"]
    done = subprocess.run(run, cwd=room.path, env={"PATH": "/usr/bin:/bin"}, capture_output=True, text=True)
    check(done.returncode == 0 and done.stdout == room.run("balance", "kiln.book").out, "what is installed: %s" % done.stderr)
    stated = [run[0], "statement", "kiln.book", "pond.book"]
    done = subprocess.run(stated, cwd=room.path, env={"PATH": "/usr/bin:/bin"}, capture_output=True, text=True)
    check(done.returncode == 0 and done.stdout == room.run(*stated[1:]).out, "a statement by what is installed: %s" % done.stderr)
    done = subprocess.run([run[0], "salvage", "kiln.book", "whole.book"], cwd=room.path, env={"PATH": "/usr/bin:/bin"}, capture_output=True, text=True)
    check(done.returncode == 0 and room.get("whole.book") == room.get("kiln.book"), "a salvage by what is installed: %s" % done.stderr)
    os.remove(room.at("prefix/libexec/lindurask/engine"))
    done = subprocess.run(run, cwd=room.path, env={"PATH": "/usr/bin:/bin"}, capture_output=True, text=True)
    check(done.returncode == 2 and "the engine is not there" in done.stderr, "an installed tool without its engine: %s" % done.stderr)


def test(room):
    everything = room.run("help").out
    names = [words.split()[1] for words in everything.split("\n") if words.startswith("  lindurask ")]
    usages = {name: room.run(name, "--help").out.split("\n")[0].replace("lindurask ", "", 1) for name in names}
    refusals = re.findall(r"^ +(\d+)  (.*)$", everything, re.M)
    check(len(usages) == 19 and len(refusals) == 26, "help lists %d commands and %d refusals" % (len(usages), len(refusals)))
    check(all(len(line) <= 80 for line in everything.split("\n")), "help is wider than 80 columns")
    man_page(room, usages, refusals)
    completion(usages)
    json_fields(room)
    documents(room, usages, refusals)
    links()
    samples(room)
    installed(room)
