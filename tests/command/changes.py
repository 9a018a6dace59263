"""Changes of a book's file: what they keep, what they leave, and what makes them refuse."""
import os
import struct
import subprocess

import tool
from tool import check

OPEN = ["open", "8", "1", "2", "5"]
NOT_KEPT = "lindurask: %s: its owner, mode or attributes cannot be kept, so nothing is changed: %s\n"


def opened(room, file, **more):
    return room.run(OPEN[0], file, *OPEN[1:], **more)


def access_list(user):
    """An access list that lets this user read and write, as the system stores it."""
    entries = [(1, 6, 2 ** 32 - 1), (2, 6, user), (4, 4, 2 ** 32 - 1), (16, 6, 2 ** 32 - 1), (32, 0, 2 ** 32 - 1)]
    return struct.pack("<I", 2) + b"".join(struct.pack("<HHI", *entry) for entry in entries)


def look(path):
    stat = os.stat(path)
    return stat.st_mode, stat.st_uid, stat.st_gid, {name: os.getxattr(path, name) for name in os.listxattr(path)}


def kept(room):
    """Owner, group, mode, access list and attributes stay."""
    book, new = room.get("kiln.book"), None
    for mode in [0o600, 0o640, 0o664, 0o777, 0o2770, 0o4755, 0o606]:
        path = room.put("mode.book", book)
        os.chmod(path, mode)
        if os.getuid() == 0:
            os.chown(path, 1234, 4321)
            os.chmod(path, mode)
        before = look(path)
        said = opened(room, "mode.book", umask=0o077)
        check(said.status == 0 and look(path) == before, "mode %o: %s" % (mode, said.all))
        new = room.get("mode.book")
        check(new != book, "an open did not change the book")
    path = room.put("marked.book", book)
    try:
        os.setxattr(path, "user.yard", b"north\0\xff")
        os.setxattr(path, "user.empty", b"")
        os.setxattr(path, "system.posix_acl_access", access_list(4711))
    except OSError as e:
        tool.skip("extended attributes: %s" % e)
        return new
    before = look(path)
    check(len(before[3]) >= 3, "the attributes were not set")
    said = opened(room, "marked.book")
    check(said.status == 0 and look(path) == before and room.get("marked.book") == new, "attributes and access list: " + said.all)
    # A folder that gives every new file an access list: the book had none, and has none.
    os.mkdir(room.at("given"))
    os.setxattr(room.at("given"), "system.posix_acl_default", access_list(4712))
    path = room.put("given/a.book", book)
    os.removexattr(path, "system.posix_acl_access")
    os.chmod(path, 0o640)
    before = look(path)
    check(opened(room, "given/a.book").status == 0 and look(path) == before, "a folder's access list came to the book: %s" % (look(path),))
    return new


def linked(room, new):
    book = room.get("kiln.book")
    room.put("one.book", book)
    os.link(room.at("one.book"), room.at("two.book"))
    said = "lindurask: %s: has 2 names (hard links); a change would part them, so nothing is changed\n"
    room.says(2, said % "one.book", "open", "one.book", *OPEN[1:])
    room.says(2, said % "two.book", "close", "two.book", "1")
    check(room.get("one.book") == book and os.stat(room.at("one.book")).st_nlink == 2, "a hard-linked book was changed")
    os.mkdir(room.at("far"))
    room.put("far/target.book", book)
    os.symlink("far/target.book", room.at("link.book"))
    check(opened(room, "link.book").status == 0, "an open through a link")
    check(os.path.islink(room.at("link.book")) and room.get("far/target.book") == new and room.names("far") == ["target.book"], "a link did not stay one")


def others(room, new):
    """Only what the tool itself made is ever removed."""
    os.mkdir(room.at("own"))
    book = room.get("kiln.book")
    files = ["k.book.new.2024", "k.book.new.abcd", ".lindurask-", ".lindurask-notes", ".lindurask-0123456789abcdef-0123456789abcdef",
             "k.book~", ".k.book.swp", ".lindurask-%016x-%s" % (mark(book), "short")]
    for name in files:
        room.put("own/" + name, book)
    os.symlink("k.book", room.at("own/.lindurask-%016x-%016x" % (mark(book), 1)))
    os.mkfifo(room.at("own/.lindurask-%016x-%016x" % (mark(book), 2)))
    room.put("own/k.book", book)
    before = room.names("own")
    check(opened(room, "own/k.book").status == 0 and room.get("own/k.book") == new, "an open among other files")
    check(room.names("own") == before and all(room.get("own/" + name) == book for name in files), "a user's file was removed: %s" % room.names("own"))
    # What a cut-off left has the mark of its bytes for a name, and goes with the next change.
    left = "own/.lindurask-%016x-%016x" % (mark(book), 3)
    room.put(left, book)
    check(room.run("close", "own/k.book", "8").status == 0 and room.names("own") == before, "what a cut-off left is still there")


def mark(data):
    hash = 0xcbf29ce484222325
    for byte in data:
        hash = (hash ^ byte) * 0x100000001b3 % 2 ** 64
    return hash


def refused(room):
    """Nothing is changed where the book cannot stay what it was."""
    book = room.get("kiln.book")
    if os.getuid() != 0:
        tool.skip("books of another owner: only the superuser can make them")
        return
    nobody = {"user": 65534, "group": 65534, "extra_groups": []}
    os.mkdir(room.at("rights"))
    os.chmod(room.at("rights"), 0o777)
    for name, mode, owner in [("fixed.book", 0o444, 0), ("other.book", 0o666, 0), ("own.book", 0o600, 65534)]:
        os.chown(room.put("rights/" + name, book), owner, owner)
        os.chmod(room.at("rights/" + name), mode)
    said = opened(room, "rights/fixed.book", **nobody)
    check(said.status == 2 and said.all == "lindurask: rights/fixed.book: Permission denied\n", "a book without right to write: " + said.all)
    said = opened(room, "rights/other.book", **nobody)
    check(said.status == 2 and said.all == NOT_KEPT % ("rights/other.book", "Operation not permitted"), "a book of another owner: " + said.all)
    os.chmod(room.at("rights"), 0o555)
    said = opened(room, "rights/own.book", **nobody)
    check(said.status == 2 and said.all == "lindurask: rights/own.book: Permission denied\n", "a folder without right to write: " + said.all)
    os.chmod(room.at("rights"), 0o733)
    said = opened(room, "rights/own.book", **nobody)
    check(said.status == 2 and said.all == "lindurask: rights/own.book: its folder cannot be read: Permission denied\n", "a folder without right to read: " + said.all)
    os.chmod(room.at("rights"), 0o777)
    for name in ["fixed.book", "other.book", "own.book"]:
        check(room.get("rights/" + name) == book, "%s was changed without right" % name)
    check(opened(room, "rights/own.book", **nobody).status == 0, "a user's own book")
    check(room.names("rights") == ["fixed.book", "other.book", "own.book"], "a change without right left %s" % room.names("rights"))


def full(room):
    book = room.get("kiln.book")
    os.mkdir(room.at("full"))
    room.put("full/a.book", book)
    limited = ["sh", "-c", 'trap "" XFSZ; ulimit -f 0; exec "$0" "$@"']
    room.says(2, "lindurask: full/a.book: File too large\n", "open", "full/a.book", *OPEN[1:], before=limited)
    room.says(2, "lindurask: full/b.book: File too large\n", "new", "full/b.book", "kiln.plan", before=limited)
    check(room.get("full/a.book") == book and room.names("full") == ["a.book"], "a write that failed left %s" % room.names("full"))
    os.mkdir(room.at("disk"))
    if os.getuid() != 0 or subprocess.run(["mount", "-t", "tmpfs", "-o", "size=16k", "none", room.at("disk")], stderr=subprocess.DEVNULL).returncode != 0:
        tool.skip("a full disk: no right to mount one here")
        return
    try:
        room.put("disk/a.book", book)
        with open(room.at("disk/filler"), "wb", buffering=0) as filler:
            try:
                while filler.write(b"x" * 512):
                    pass
            except OSError:
                pass
        room.says(2, "lindurask: disk/a.book: No space left on device\n", "open", "disk/a.book", *OPEN[1:])
        room.says(2, "lindurask: disk/b.book: No space left on device\n", "new", "disk/b.book", "kiln.plan")
        check(room.get("disk/a.book") == book and room.names("disk") == ["a.book", "filler"], "a full disk: %s" % room.names("disk"))
    finally:
        subprocess.run(["umount", room.at("disk")])


def made(room):
    """A new file has the mode that the user's mask leaves, and never takes another's place."""
    check(room.run("new", "mask.book", "kiln.plan", umask=0o027).status == 0 and os.stat(room.at("mask.book")).st_mode & 0o777 == 0o640, "the mode of a new book")
    os.symlink("nowhere", room.at("dangling.book"))
    room.says(2, "lindurask: dangling.book: File exists; it is never replaced\n", "new", "dangling.book", "kiln.plan")
    room.says(2, "lindurask: nowhere/a.book: No such file or directory\n", "new", "nowhere/a.book", "kiln.plan")
    room.says(2, "lindurask: kiln.book: File exists; it is never replaced\n", "replan", "yard.book", "yard.plan", "kiln.book")


def test(room):
    before = room.get("kiln.book")
    new = kept(room)
    linked(room, new)
    others(room, new)
    refused(room)
    full(room)
    made(room)
    check(room.get("kiln.book") == before, "a book that nobody changed is another")
