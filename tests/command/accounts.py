"""Prepaid accounts: what a stream draws and a close gives back, which account pays, purchases, and books that keep none."""
import fcntl
import json
import os
import random
import subprocess
import time

import chance
import clerks
import tool
from tool import check, refusal, work_out

# Plan A and line A of document 01, with two accounts: from 3 to 0 there are three hops, with period 2 used 500 times in a cycle.
LINE = "slots 4\ntiles down up\ncontrol 2 1\nnodes 4\nlink 0 1\nlink 1 2\nlink 2 3\n"
PAID = LINE + "account 9 1500\naccount 3 1499\n"
EMPTY = "4 nodes, 0 streams of at most 64, 0 hops of at most 512\n"
ROUTE = "stream 1: period 2 tiles, latency 4 slots\n     route   3 2 1 0\n     offsets 2 3 5\n"
OPENED = "opened " + ROUTE
BACK = "closed " + ROUTE + "     gives back 500 slots in a cycle for each of 3 hops\n"
HEAD = "account      bought   drawn        left\n"
NO_ACCOUNT = "lindurask: an account is a number from 0 to 65535\n"
NO_AMOUNT = "lindurask: an amount of hop uses is a number from 0 to 4294967295\n"
SITES, STEPS = 8, 14


def by_hand(room):
    """What is opened, bought, closed and printed on the line of document 01."""
    room.says(0, "made: %s2 accounts: 2999 hop uses bought, 0 drawn, 2999 left\n" % EMPTY, "new", "line.book", "-", data=PAID.encode())
    room.says(0, HEAD + "      3        1499       0        1499\n      9        1500       0        1500\n", "accounts", "line.book")
    empty = room.get("line.book")
    check(empty[:29] == b"SLB\0\5\4\2\0\1\2\1\4\0\0\0\0\2\0\3\0\0\5\xdb\0\x09\0\0\5\xdc" and len(empty) == 29 + 64, "the bytes of a book with two accounts: %s" % empty.hex())
    room.says(1, "refused 23: not enough left on the account (account 3, 1499 left)\n", "open", "line.book", "1", "3", "0", "2", "account", "3")
    check(room.get("line.book") == empty, "an open that cannot be paid changed the book")
    room.says(0, OPENED + "     draws 1500 hop uses in a cycle from account 9, 0 left\n", "open", "line.book", "1", "3", "0", "2", "account", "9")
    check(room.get("line.book")[len(empty):] == b"\0\1\1\0\2\3\3\2\1\0\0\2\0\3\0\5\0\x09", "the row of a stream of account 9")
    room.says(1, "refused 23: not enough left on the account (account 9, 0 left)\n", "open", "line.book", "2", "0", "1", "1000", "account", "9")
    room.says(0, "account 9: bought 1501, drawn 1500, left 1\n", "buy", "line.book", "9", "1")
    opened = "opened stream 2: period 1000 tiles, latency 1 slot\n     route   0 1\n     offsets 2\n     draws 1 hop use in a cycle from account 9, 0 left\n"
    room.says(0, opened, "open", "line.book", "2", "0", "1", "1000", "account", "9")
    room.says(0, HEAD + "      3        1499       0        1499\n      9        1501    1501           0\n", "accounts", "line.book")
    room.says(0, '{"accounts":[{"account":3,"bought":1499,"drawn":0,"left":1499},{"account":9,"bought":1501,"drawn":1501,"left":0}]}\n', "accounts", "--json", "line.book")
    room.says(0, BACK + "     gives back 1500 hop uses in a cycle to account 9, 1500 left\n", "close", "line.book", "1")
    room.says(0, HEAD + "      3        1499       0        1499\n      9        1501       1        1500\n", "accounts", "line.book")
    said = room.run("show", "line.book").out
    check("\n\nAccounts: hop uses in a cycle\n  account      bought   drawn        left\n        3        1499       0        1499\n        9        1501       1        1500\n\nStreams\n" in said, "show: " + said)
    check("     has no relay that could be lost\n     account 9, draws 1 hop use in a cycle\n" in said, "show: " + said)
    for option in [["--stream", "2"], ["--node", "1"]]:
        said = room.run("show", "line.book", *option).out
        check("Accounts" not in said and said.count("account 9, draws 1 hop use") == 1, "show %s: %s" % (option, said))


def both_routes(room):
    """A second route is paid too: 3 and 4 hops of period 10 draw 700, from the account of the stream, or nothing at all is opened."""
    mill = work_out.sample("mill")
    for has, status in [(699, 1), (700, 0)]:
        room.put("both.book", mill.but(accounts=[(1, 5000), (4, 1100), (20, 800), (30, has)]).image())
        told = room.run("quote", "both.book", "8", "0", "account", "30").out.split("period   20:")[0].split("period   10:")[1]
        want = "     second route: refused %s\n" % refusal(23) if status else "     both routes draw 700 hop uses in a cycle\n"
        check("     draws 300 hop uses in a cycle\n" in told and told.endswith(want), "a quote of a second route for %d: %s" % (has, told))
        said = room.run("open", "both.book", "9", "8", "0", "10", "second", "account", "30")
        check(said.status == status and ("draws 700 hop uses in a cycle from account 30, 0 left\n" in said.out) == (status == 0), "a second route for %d: %s" % (has, said.all))
    ways = work_out.Book.read(room.get("both.book")).stream(9)
    check([way.account for way in ways] == [30, 30], "the accounts of two routes")
    room.says(0, work_out.closed(ways, after=mill.but(accounts=[*mill.accounts, (30, 700)])), "close", "both.book", "9")


def which(room):
    """Without a word account 0 pays, or the only one; where there are several without 0, one must be named, after the refusals that come first."""
    kiln = work_out.plan_book("kiln")
    must = "an account must be named, as in: account %d"
    for accounts, paying in [([(0, 5000), (7, 5000)], 0), ([(7, 5000)], 7), ([(0, 5000)], 0), ([(6, 5000), (7, 5000)], None), ([(number, 9) for number in range(1, 33)], None)]:
        book = kiln.but(accounts=accounts)
        name, has = accounts[0][0], work_out.many(len(accounts), "account")
        room.put("which.book", book.image())
        if paying is None:
            line = "refused 22: %s (the book has %s)\n" % (must % name, has)
            room.says(1, line, "open", "which.book", "1", "3", "0", "50")
            room.says(1, line, "open", "which.book", "1", "3", "0", "50", "second", "--mains", "1,2")
            room.says(1, line, "quote", "which.book", "3", "0")
            said = {"refused": 22, "words": must % name, "about": "the book has " + has}
            room.says(1, work_out.in_json(said), "quote", "which.book", "3", "0", "--json")
            got = json.loads(room.run("post", "which.book", "-", "--json", data=b"open 1 3 0 50\n").out)["requests"]
            check(got == [dict({"line": 1, "request": "open", "id": 1}, **said)], "post without an account: %s" % got)
            room.says(1, "refused %s (period 3)\n" % refusal(6), "open", "which.book", "1", "3", "0", "3")
            check(room.get("which.book") == book.image(), "an open without an account changed the book")
        else:
            after = book.with_ways(book.opened(1, 3, 0, 50, False, paying))
            room.says(0, work_out.stream("opened ", after.ways, after), "open", "which.book", "1", "3", "0", "50")
            check(room.get("which.book") == after.image() and after.ways[0].account == paying, "the account of a stream that names none")
            room.says(0, work_out.quote(after, 3, 0, paying), "quote", "which.book", "3", "0")


def order(room):
    """Open: 1, 4, 5, 6, 22, 2, 7, 17, 18, 8, 9, 23. Buy: the book's, 22, 24."""
    room.put("cut.plan", b"slots 4\ntiles up\ncontrol 0 3\nnodes 4\nlink 0 1\nlink 1 2\naccount 5 1000\n")
    check(room.run("new", "cut.book", "cut.plan").status == 0 and room.run("open", "cut.book", "7", "0", "1", "1").status == 0, "a book for the order of refusals")
    for words, number, about in [(["0", "9", "9", "3"], 1, "id 0"), (["7", "9", "9", "3"], 4, "node 9"), (["7", "1", "1", "3"], 5, "node 1"), (["7", "1", "2", "3"], 6, "period 3"),
                                 (["7", "1", "3", "2"], 22, "account 6"), (["8", "1", "3", "2"], 22, "account 6")]:
        room.says(1, "refused %s (%s)\n" % (refusal(number), about), "open", "cut.book", *words, "account", "6")
    for words, number, about in [(["7", "1", "3", "2"], 2, "id 7"), (["8", "1", "3", "2"], 7, "from node 1 to node 3, period 2"), (["8", "1", "2", "2", "second"], 18, "from node 1 to node 2, period 2"),
                                 (["8", "1", "2", "2"], 9, "from node 1 to node 2, period 2")]:
        room.says(1, "refused %s (%s)\n" % (refusal(number), about), "open", "cut.book", *words, "account", "5")
    room.says(0, "account 5: bought 1000, drawn 1000, left 0\n", "buy", "cut.book", "5", "0")
    room.put("bad.book", room.get("cut.book")[:-1])
    for account in ["5", "6"]:
        room.says(1, "refused %s (bad.book)\n" % refusal(14), "buy", "bad.book", account, "4294967295")
    room.says(1, "refused %s (account 6)\n" % refusal(22), "buy", "cut.book", "6", "4294967295")
    room.says(1, "refused %s (account 5, 1000 bought)\n" % refusal(24), "buy", "cut.book", "5", "4294966296")
    room.says(0, "account 5: bought 4294967295, drawn 1000, left 4294966295\n", "buy", "cut.book", "5", "4294966295")
    room.says(1, "refused %s (account 5, 4294967295 bought)\n" % refusal(24), "buy", "cut.book", "5", "1")


def words(room):
    """What is no account or no amount is not understood, before a file is looked at, and is never printed."""
    before = room.get("mill.book")
    bad = ["65536", "-1", "", "x", "1x", "0x1", "+1", " 1", "1.0", "\u0663", "\x1b[31m", "9" * 5000, "account"]
    for word in bad:
        room.says(2, NO_ACCOUNT, "buy", "none.book", word, "5")
        room.says(2, NO_ACCOUNT, "open", "none.book", "9", "7", "3", "100", "account", word)
        room.says(2, NO_ACCOUNT, "quote", "mill.book", "7", "3", "account", word)
    for word in ["4294967296", *bad[1:]]:
        room.says(2, NO_AMOUNT, "buy", "mill.book", "4", word)
    usages = {name: "usage: %s\n" % room.run(name, "--help").out.split("\n")[0] for name in ["open", "quote", "accounts", "buy"]}
    for more in [["account"], ["account", "4", "account", "4"], ["Account", "4"], ["4"], ["account 4"], ["second", "account"], ["\x1b[31m", "4"]]:
        room.says(2, usages["open"], "open", "mill.book", "9", "7", "3", "100", *more)
        room.says(2, usages["quote"], "quote", "mill.book", "7", "3", *more)
    room.says(2, usages["quote"], "quote", "mill.book", "7", "3", "second")
    room.says(2, usages["accounts"], "accounts", "mill.book", "4")
    room.says(2, usages["buy"], "buy", "mill.book", "4", "5", "--json")
    check(room.get("mill.book") == before, "words that are none changed the book")
    # In either order, and with noughts before.
    for place, more in enumerate([["second", "account", "001"], ["account", "1", "second"]]):
        room.put("way%d.book" % place, before)
        room.run("open", "way%d.book" % place, "9", "7", "0", "100", *more)
    check(room.get("way0.book") == room.get("way1.book") != before, "the order of second and account")


def quiet(room):
    """A book with the endless account alone, be it named in its plan or not, says nothing of accounts, and is the same book."""
    for name in ["kiln", "pond", "pins"]:
        plan = room.get(name + ".plan")
        for place, text in enumerate([plan, plan + b"account 0 4294967295\n"]):
            room.run("new", "quiet%s%d.book" % (name, place), "-", data=text)
        check(room.get("quiet%s0.book" % name) == room.get("quiet%s1.book" % name), "the endless account named in a plan")
        for words in [["check"], ["show"], ["show", "--json"], ["check", "--json"], ["quote", "3", "0"], ["quote", "3", "0", "--json"], ["quote", "3", "0", "account", "0"], ["page"], ["diff", "yard.book"], ["diff", "yard.book", "--json"],
                      ["post", "idle.list"], ["post", "idle.list", "--json"], ["replan", "yard.plan", name + ".again"], ["open", "800", "3", "0", "100", "account", "0"], ["close", "800"]]:
            said = room.run(words[0], name + ".book", *words[1:])
            named = said.all.replace("--accounts", "").replace(".accounts", "").lower()
            check(said.status in (0, 1) and "account" not in named and "draws" not in named and "hop use" not in named, "%s of %s mentions accounts: %s" % (words, name, said.all))
    room.says(0, HEAD + "      0  4294967295    2850  4294964445\n", "accounts", "kiln.book")
    room.says(1, "refused %s (account 5)\n" % refusal(22), "open", "kiln.book", "800", "3", "0", "100", "account", "5")
    room.says(1, "refused %s (account 0, 4294967295 bought)\n" % refusal(24), "buy", "kiln.book", "0", "1")
    before = room.get("kiln.book")
    room.says(0, "account 0: bought 4294967295, drawn 2850, left 4294964445\n", "buy", "kiln.book", "0", "0")
    check(room.get("kiln.book") == before, "a purchase of nothing")


def many(room):
    """Clerks at once: no purchase is lost, beside opens and closes that draw and give back."""
    room.put("many.book", work_out.plan_book("kiln").but(accounts=[(0, 0), (5, 40)]).image())
    got = clerks.at_once(room, [["buy", "many.book", str(5 * (turn % 2)), str(turn)] for turn in range(1, 41)])
    check(all(status == 0 for status, _ in got), "forty purchases at once: %s" % [one for one in got if one[0]])
    room.says(0, HEAD + "      0         420       0         420\n      5         440       0         440\n", "accounts", "many.book")
    opens = [["open", "many.book", str(id), "1", "0", "100", "account", "5"] for id in range(1, 21)]
    got = clerks.at_once(room, opens + [["buy", "many.book", "0", "7"] for _ in range(20)])
    check(all(status == 0 for status, _ in got), "opens beside purchases: %s" % [one for one in got if one[0]])
    # 240 are left: twenty-four more opens of ten hop uses can be paid, and the others are refused, whoever comes first.
    got = clerks.at_once(room, [["open", "many.book", str(id), "1", "0", "100", "account", "5"] for id in range(21, 51)])
    check(sorted(status for status, _ in got) == [0] * 24 + [1] * 6, "more opens than are paid: %s" % got)
    room.says(0, HEAD + "      0         560       0         560\n      5         440     440           0\n", "accounts", "many.book")
    check(not [name for name in room.names() if name.startswith(".lindurask-")], "clerks left something: %s" % room.names())


def locked(room):
    """A purchase waits for another change of the book, and readers do not."""
    room.put("held.book", room.get("mill.book"))
    with open(room.at("held.book"), "rb") as held:
        fcntl.flock(held, fcntl.LOCK_EX)
        run = subprocess.Popen([tool.TOOL, "buy", "held.book", "4", "7"], stdout=subprocess.PIPE, stderr=subprocess.PIPE, cwd=room.path)
        check(room.run("accounts", "held.book").out == work_out.account_lines(work_out.sample("mill")), "accounts of a book that is locked")
        time.sleep(0.2)
        check(run.poll() is None and room.get("held.book") == room.get("mill.book"), "a purchase did not wait")
    out, err = run.communicate(timeout=20)
    check((run.returncode, out, err) == (0, b"account 4: bought 1107, drawn 1100, left 7\n", b""), "a purchase that waited: %s" % err)


def kept(room):
    """A purchase is a change as any other: mode, links, a closed output and a full device."""
    room.put("own.book", room.get("mill.book"))
    os.chmod(room.at("own.book"), 0o640)
    os.symlink("own.book", room.at("to-own.book"))
    room.says(0, "account 4: bought 1107, drawn 1100, left 7\n", "buy", "to-own.book", "4", "7")
    check(os.path.islink(room.at("to-own.book")) and os.stat(room.at("own.book")).st_mode & 0o777 == 0o640, "a purchase through a link")
    before = room.get("own.book")
    os.link(room.at("own.book"), room.at("hard.book"))
    room.says(2, "lindurask: own.book: has 2 names (hard links); a change would part them, so nothing is changed\n", "buy", "own.book", "4", "7")
    os.remove(room.at("hard.book"))
    done = subprocess.run(["sh", "-c", 'exec "$0" "$@" >&-', tool.TOOL, "buy", "own.book", "4", "7"], cwd=room.path, stderr=subprocess.PIPE)
    check(done.returncode == 2 and room.get("own.book") == before, "a purchase that cannot speak")
    with open("/dev/full", "wb") as full:
        done = subprocess.run([tool.TOOL, "buy", "own.book", "4", "7"], cwd=room.path, stdout=full, stderr=subprocess.PIPE)
    check(done.returncode == 0 and done.stderr == b"lindurask: it is done, but standard output failed: No space left on device\n", "a purchase into a full device: %s" % done.stderr)
    check(room.get("own.book") == work_out.Book.read(before).bought(4, 7).image(), "a purchase into a full device")


def step(room, book, dice):
    """A purchase, a close, or an open of some account by chance; gives the book after it, and the number of its answer."""
    account = dice.choice([*(number for number, _ in book.accounts), dice.randint(0, 65535), None])
    id, amount = dice.randint(1, 12), dice.choice([0, dice.randint(1, 900), work_out.MOST_BOUGHT])
    if dice.random() < 0.3:
        account = account or 0
        got = book.bought(account, amount)
        has = ", %d bought" % dict(book.accounts).get(account, 0) if got == 24 else ""
        said = "refused %s (account %d%s)\n" % (refusal(got), account, has) if isinstance(got, int) else work_out.bought(got, account)
        room.says(int(isinstance(got, int)), said, "buy", "a.book", str(account), str(amount))
        return (book, got) if isinstance(got, int) else (got, 0)
    if book.stream(id):
        after = book.without(id)
        room.says(0, work_out.closed(book.stream(id), after=after), "close", "a.book", str(id))
        return after, 0
    (source, destination), period, second = dice.sample(range(book.n), 2), dice.choice(work_out.PERIODS), dice.random() < 0.4
    got = book.opened(id, source, destination, period, second, account)
    words = ["open", "a.book", *map(str, (id, source, destination, period)), *["second"] * second, *([] if account is None else ["account", str(account)])]
    if isinstance(got, int):
        room.says(1, work_out.refused_open(book, (id, source, destination, period), got, account), *words)
        return book, got
    after = book.with_ways(got)
    room.says(0, work_out.stream("opened ", got, after), *words)
    return after, 0


def site(turn):
    """Accounts by chance: whole answers, and never more drawn than bought."""
    dice, numbers = random.Random(chance.SEED * 3000 + turn), set()
    with tool.Room() as room:
        accounts = [(number, dice.choice([0, 100, 1500, work_out.MOST_BOUGHT])) for number in sorted(dice.sample([0, 1, 2, 300, 65535], dice.randint(2, 4)))]
        book = chance.plan(dice)[1].but(accounts=accounts)
        room.put("a.book", book.image())
        for _ in range(STEPS):
            book, number = step(room, book, dice)
            numbers.add(number)
            check(room.get("a.book") == book.image() and all(left >= 0 for *_, left in work_out.standings(book)), "the file holds another book")
        room.says(0, work_out.account_lines(book), "accounts", "a.book")
        room.says(0, work_out.show_json(book, book.streams()), "show", "a.book", "--json")
        room.says(0, work_out.show(book), "show", "a.book")
        source, destination = dice.sample(range(book.n), 2)
        paying = dice.choice(book.accounts)[0]
        offers = [got for _, got, _ in work_out.offers(book, source, destination, paying)]
        if not set(got for got in offers if isinstance(got, int)) - {9, 23}:
            status = int(all(isinstance(got, int) for got in offers))
            room.says(status, work_out.quote(book, source, destination, paying), "quote", "a.book", str(source), str(destination), "account", str(paying))
    return numbers


def test(room):
    room.put_others()
    by_hand(room)
    both_routes(room)
    which(room)
    order(room)
    words(room)
    quiet(room)
    many(room)
    locked(room)
    kept(room)
    numbers = set().union(*tool.all_of(site, range(SITES)))
    check(numbers >= {0, 22, 23, 24}, "accounts by chance got only %s" % sorted(numbers))
