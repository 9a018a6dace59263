"""Names of files: whatever they hold, they are found, and never printed raw."""
import os

from tool import check

NAMES = {
    b"a\nb.book": "a\\x0ab.book", b"\x1b[31mred\x1b[0m": "\\x1b[31mred\\x1b[0m", b"\x07\x08\t\r": "\\x07\\x08\\x09\\x0d",
    b"-k.book": "-k.book", b"-": "-", b"-1": "-1", b"\xff\xfe.book": "\\xff\\xfe.book", b"back\\slash": "back\\x5cslash",
    "kiln ü.book".encode(): "kiln ü.book", "\u202egnp.book".encode(): "\\xe2\\x80\\xaegnp.book", "\u009b2J".encode(): "\\xc2\\x9b2J",
    b"x" * 255: "x" * 255, b"n" * 250 + b".book": "n" * 250 + ".book", b" ": " ", b"$(id)": "$(id)", b"'\"": "'\"", b"%s%n": "%s%n", b"*": "*",
}
DASHED = {b"--json": "--json", b"--": "--", b"--help": "--help"}


def hold(room, name, shown, words):
    """Makes, changes, reads and refuses a book of that name."""
    check(room.run("new", *words, name, b"kiln.plan").status == 0 and room.get(name) == room.empty, "new %s" % shown)
    said = room.run("new", *words, name, b"kiln.plan")
    check(said.status == 2 and said.all == "lindurask: %s: File exists; it is never replaced\n" % shown, "new %s again: %s" % (shown, said.all))
    check(room.run("open", *words, name, b"7", b"3", b"0", b"2").status == 0, "open %s" % shown)
    check(room.run("check", *words, name).out.startswith("lawful: 8 nodes, 1 stream of"), "check %s" % shown)
    check(room.run("close", *words, name, b"7").status == 0 and room.get(name) == room.empty, "close %s" % shown)
    check(room.run("replan", *words, b"kiln.book", b"kiln.plan", name).all.endswith("lindurask: %s: File exists; it is never replaced\n" % shown), "replan to %s" % shown)
    os.truncate(room.at(name), 20)
    said = room.run("check", *words, name)
    check(said.status == 1 and said.all == "refused 14: the book is cut short, or not as long as its head says (%s)\n" % shown, "check %s: %s" % (shown, said.all))
    check(room.run("salvage", *words, name, b"saved.book").all == said.all, "salvage %s" % shown)
    os.rename(room.at(name), room.at("away"))
    for command in [[b"check"], [b"open", b"7", b"3", b"0", b"2"], [b"close", b"7"], [b"buy", b"0", b"5"], [b"accounts"]]:
        said = room.run(command[0], *words, name, *command[1:])
        check(said.status == 2 and said.all == "lindurask: %s: No such file or directory\n" % shown, "%s %s: %s" % (command[0], shown, said.all))


def test(room):
    for name, shown in NAMES.items():
        hold(room, name, shown, [])
    for name, shown in DASHED.items():
        hold(room, name, shown, [b"--"])
    said = room.run("new", b"a\nb.book", b"\x1b[2Jplan")
    check(said.status == 2 and said.all == "lindurask: \\x1b[2Jplan: No such file or directory\n", "a plan's name: " + said.all)
    room.put(b"\x1bplan", b"slots x\n")
    check(room.run("new", "n.book", b"\x1bplan").all.startswith("\\x1bplan, line 1: "), "a plan's name with its line")
    check(room.run("new", b"y" * 256, "kiln.plan").all == "lindurask: %s: File name too long\n" % ("y" * 256), "a name of 256 bytes")
    for name in ["folder/", "..", "/", "kiln.book/"]:
        said = room.run("new", name, "kiln.plan")
        check(said.status == 2 and said.out == "", "new %s: %s" % (name, said.all))
    check(room.run(b"\x1b[31m").all.startswith("lindurask: no command is called \\x1b[31m;"), "a command that is none is printed raw")
