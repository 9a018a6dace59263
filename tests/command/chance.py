"""Books and plans made by chance: whole answers beside documents 01 and 02 worked out, and bytes that are no book at all."""
import os
import random

import tool
from tool import check, work_out

SEED = int(os.environ.get("SEED", "1"))
SITES, STEPS, HOSTILE = 10, 8, 120


def plan(dice):
    slots = dice.choice([1, 2, 3, 4, 8, 16, 32])
    kinds = [dice.random() < 0.5 for _ in range(dice.choice([1, 2, 4, 5, 10]))]
    down, up = dice.randint(0, min(slots, 3)), dice.randint(0, min(slots, 2))
    nodes = dice.choice([2, 3, 5, 9, 20, 40])
    links = {tuple(sorted(dice.sample(range(nodes), 2))) for _ in range(dice.randint(1, 2 * nodes))}
    links |= {(a, a + 1) for a in range(nodes - 1) if dice.random() < 0.9}
    lines = ["slots %d" % slots, "tiles " + " ".join("down" if k else "up" for k in kinds), "control %d %d" % (down, up), "nodes %d" % nodes]
    lines += ["link %d %d" % dice.choice([(a, b), (b, a)]) for a, b in links]
    # Some pairs that hear each other, be they linked or not.
    heard = {tuple(sorted(dice.sample(range(nodes), 2))) for _ in range(dice.choice([0, 1, nodes]))}
    lines += ["hear %d %d" % dice.choice([(a, b), (b, a)]) for a, b in heard]
    # Some clerks keep accounts, one of them number 0, or one alone; not all have bought enough.
    accounts = dice.choice([[], [], [(0, dice.randint(0, 4000)), (9, dice.randint(0, 400))], [(dice.randint(0, 65535), dice.choice([0, 700, 9000]))]])
    lines += ["account %d %d" % account for account in accounts]
    dice.shuffle(lines)
    rows = [0] * nodes
    for a, b in links:
        rows[a] |= 1 << b
        rows[b] |= 1 << a
    return "\n".join(lines), work_out.Book(slots, kinds, down, up, rows, [], heard=heard, accounts=accounts or work_out.ENDLESS)


def changed(room, name, book, dice):
    """Opens, some with a second route, and closes by chance; what is said and what the file then holds are worked out."""
    for _ in range(STEPS):
        id, period = dice.choice([dice.randint(1, 12), dice.randint(1, 65535)]), dice.choice(work_out.PERIODS)
        own, second = book.stream(id), dice.random() < 0.5
        source, destination = dice.sample(range(book.n), 2)
        if own:
            said = room.run("close", name, str(id))
            book = book.without(id)
            check(said.status == 0 and said.all == work_out.closed(own, after=book), said.all)
        else:
            said = room.run("open", name, str(id), str(source), str(destination), str(period), *["second"] * second)
            got = book.opened(id, source, destination, period, second)
            if isinstance(got, int):
                line = work_out.refused_open(book, (id, source, destination, period), got)
                check(said.status == 1 and said.all == line, said.all + line)
            else:
                book = book.with_ways(got)
                check(said.status == 0 and said.all == work_out.stream("opened ", got, book), said.all)
        check(room.get(name) == book.image(), "the file holds another book")
    return book


def read(room, name, book, dice):
    """Every reading command on that book."""
    node, start = dice.randrange(book.n), dice.randrange(work_out.CYCLE)
    every = range(book.n)
    source, destination = dice.sample(range(book.n), 2)
    wants = [(["check", name], "lawful: " + work_out.counts(book)), (["accounts", name], work_out.account_lines(book)), (["balance", name], work_out.balances(book, every)),
             (["balance", name, "--json"], work_out.balance_json(book, every)), (["table", name, str(node)], work_out.tables(book, [node])),
             (["table", name, str(node), str(start)], work_out.tables(book, [node], start)), (["table", name, str(node), str(start), "1"], work_out.tables(book, [node], start, 1)),
             (["table", name, "--json"], work_out.table_json(book, every)), (["show", name, "--json"], work_out.show_json(book, book.streams())),
             (["routes", name, str(source), str(destination)], work_out.list_of_routes(book, source, destination)),
             (["routes", name, str(source), str(destination), "--json"], work_out.routes_json(book, source, destination)),
             (["show", name, str(start)], work_out.show(book, start)), (["show", name, "--node", str(node)], work_out.show(book, node=node))]
    for words, want in wants:
        said = room.run(*words)
        check(said.status == 0 and said.all == want, "%s says\n%s\nand not\n%s" % (words, said.all[:2000], want[:2000]))
        check(words[-1] == "--json" or max(map(len, said.out.split("\n"))) <= 80, "%s is wider than 80 columns" % words)
    said = room.run("quote", name, str(source), str(destination))
    offers = [got for _, got, _ in work_out.offers(book, source, destination)]
    if offers[0] in (7, 8, 17):
        check(said.status == 1 and said.all.startswith("refused %d: " % offers[0]), said.all)
    else:
        none = all(isinstance(got, int) for got in offers)
        check(said.status == int(none) and said.all == work_out.quote(book, source, destination), said.all)


def site(turn):
    dice = random.Random(SEED * 1000 + turn)
    with tool.Room() as room:
        text, book = plan(dice)
        room.put("a.plan", text.encode())
        said = room.run("new", "a.book", "a.plan")
        check(said.status == 0 and said.out == "made: " + work_out.counts(book) and room.get("a.book") == book.image(), "new: %s\n%s" % (said.all, text))
        if turn % 2:
            # A book of an older version, which knows no hearing beside the links, is changed into the newest.
            book = book.but(heard=[], accounts=work_out.ENDLESS, version=1 + turn // 2 % 4)
            room.put("a.book", book.image())
        book = changed(room, "a.book", book, dice)
        read(room, "a.book", book, dice)
        other, target = plan(dice)
        room.put("b.plan", other.encode())
        said = room.run("replan", "a.book", "b.plan", "b.book")
        want, status, new = work_out.replanned(book, target)
        check(said.status == status and said.out == want and room.get("b.book") == new.image(), "replan says\n%s\nand not\n%s" % (said.all, want))


def hostile(room):
    """Bytes by chance as books, plans and words: no crash, no hang, and no file changes."""
    dice = random.Random(SEED)
    room.put("a.list", b"close 1\nopen 9 2 0 1\nclose 9\n")
    books = [room.get(name + ".book") for name in tool.SAMPLES]

    def spoilt(data):
        data = bytearray(data)
        for _ in range(dice.randint(1, 4)):
            data[dice.randrange(len(data))] = dice.choice([0, 1, 255, dice.randrange(256)])
        return bytes(data[:dice.choice([len(data), len(data), dice.randrange(len(data))])])

    def one(turn):
        name = "h%d" % turn
        data = [spoilt(dice.choice(books)), dice.randbytes(dice.randrange(3000)), spoilt(room.get("kiln.plan"))][turn % 3]
        room.put(name, data)
        command = dice.choice([["check"], ["show"], ["table"], ["balance", "3"], ["quote", "0", "3"], ["open", "9", "2", "0", "1"], ["close", "9"], ["post", "a.list"], ["buy", "0", "5"], ["accounts"], ["page"], ["diff", "kiln.book"], ["salvage", name + ".new"], ["new"]])
        words = ["new", name + ".book", name] if turn % 3 == 2 or command == ["new"] else [command[0], name, *command[1:]]
        said = room.run(*words)
        right = said.status in (0, 1, 2) and (said.status == 0 or (said.err != "" and said.out == "") or words[0] in ("quote", "diff", "post", "salvage"))
        changed = words[0] in ("open", "close", "buy") and said.status == 0 or "\nchanged: " in said.out
        return right and "panicked" not in said.err and (changed or room.get(name) == data), words, said.all
    for right, words, said in tool.all_of(one, range(HOSTILE)):
        check(right, "%s: %s" % (words, said))


def test(room):
    list(tool.all_of(site, range(SITES)))
    hostile(room)
