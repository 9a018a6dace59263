"""The page: whole for one book; for every book each stream, node, hop and tile as worked out; made safely, under any name."""
import math
import os
import random
import re
from html.parser import HTMLParser

import chance
import tool
from tool import check, work_out

SITES = 6
# Elements that have no end, and what a page that fetches and runs nothing never has.
ENDLESS = {"meta"}
FETCHING = {"script", "link", "img", "iframe", "object", "embed", "base", "form"}
# Names of books, and how each stands in its page's heading.
TITLES = {b"<b>&\"'.book": "<b>&\"'.book", b"a\nb": "a\\x0ab", b"\x1b[31m": "\\x1b[31m", b"<script>alert(1)<": "<script>alert(1)<", b"x" * 255: "x" * 255,
          "\u202ekoob".encode(): "\\xe2\\x80\\xaekoob", b"\xff": "\\xff", "kiln ü".encode(): "kiln ü"}


class Page(HTMLParser):
    """A page read back: its rows by table, its titles, labels and heading."""

    def __init__(self, text):
        super().__init__()
        self.open, self.rows, self.titles, self.labels, self.heading, self.wrong = [], {}, [], [], "", []
        self.table = self.cell = None
        self.feed(text)
        self.close()
        self.wrong += ["left open: %s" % self.open] * bool(self.open)

    def handle_starttag(self, tag, attributes):
        attributes = dict(attributes)
        self.wrong += [tag] * (tag in FETCHING) + [name for name in attributes if name.startswith("on") or name == "src"]
        self.wrong += [value for name, value in attributes.items() if name == "href" and not value.startswith("#")]
        self.labels += [value for name, value in attributes.items() if name == "aria-label"]
        if tag == "table":
            self.table = self.rows.setdefault(attributes["class"], [])
        if tag == "tr":
            self.table.append([])
        if tag in ("td", "th"):
            self.table[-1].append("")
        if tag == "title":
            self.titles.append("")
        if tag not in ENDLESS:
            self.open.append(tag)

    def handle_startendtag(self, tag, attributes):
        self.handle_starttag(tag, attributes)
        self.handle_endtag(tag)

    def handle_endtag(self, tag):
        if not self.open or self.open.pop() != tag:
            self.wrong.append("</%s> closes another" % tag)

    def handle_data(self, data):
        if "title" in self.open:
            self.titles[-1] += data
        elif "td" in self.open or "th" in self.open:
            self.table[-1][-1] += data
        elif "h1" in self.open:
            self.heading += data


def name(way):
    """A stream's id, marked on a second route."""
    return "%d%s" % (way.id, "′" * (way.number == 2))


def called(way):
    """A route in words."""
    return "stream %d%s" % (way.id, ", second route" * (way.number == 2))


def ranges(ways):
    """Names in a row, three and more first routes whose ids follow each other as a range."""
    runs = []
    for way in ways:
        if runs and way.number == 1 == runs[-1][-1].number and runs[-1][-1].id + 1 == way.id:
            runs[-1].append(way)
        else:
            runs.append([way])
    return ", ".join("%d–%d" % (run[0].id, run[-1].id) if len(run) > 2 else ", ".join(map(name, run)) for run in runs)


def at_work(book, tile):
    """The routes with a hop in a tile."""
    own = range(tile * book.s, (tile + 1) * book.s)
    return [way for way in book.ways if any(t in own for o in way.offsets for t in book.takes(way.period, o))]


def drawn_tiles(book):
    """How many tiles are drawn: a repeat, and of a long one the first 100."""
    return min(100, book.repeats())


def extent(book):
    """What is said of the tiles that are drawn, and of hops that are not."""
    repeat, shown = book.repeats(), drawn_tiles(book)
    what = "one repeat is shown" if shown == repeat else "the first 100 of them are shown"
    later = [way for way in book.ways if max(way.offsets) >= shown * book.s]
    hops = " Hops in later tiles, not shown: streams %s." % ranges(later) if later else ""
    return "<p>The picture repeats after %s: %s, and a cycle of 1000 tiles has %s.%s" % (work_out.many(repeat, "tile"), what, work_out.many(1000 // repeat, "repeat"), hops)


def tiles(book):
    """The label of every tile that is drawn: all of a repeat, but no long run without a stream."""
    shown = [(tile, at_work(book, tile)) for tile in range(drawn_tiles(book))]
    for place, (tile, ways) in enumerate(shown):
        start = next((p for p in range(place, -1, -1) if shown[p][1]), -1) + 1
        end = next((p for p in range(place, len(shown)) if shown[p][1]), len(shown))
        if ways or end - start <= 10:
            yield "Tile %d, %s, slots %d to %d: %s" % (tile, "downlink" if book.is_down(tile) else "uplink", tile * book.s,
                                                       (tile + 1) * book.s - 1, "streams " + ranges(ways) if ways else "no stream")


def hops(book):
    """What every hop in a tile that is drawn does, in words."""
    for way in book.ways:
        for place, ((a, b), offset) in enumerate(zip(way.hops, way.offsets)):
            if offset >= drawn_tiles(book) * book.s:
                continue
            sends = "sends from above" if place == 0 else "forwards from buffer"
            receives = "receives for above" if place == len(way.hops) - 1 else "receives to buffer"
            yield "%s, offset %d: node %d %s, node %d %s" % (called(way), offset, a, sends, b, receives)


def arrows(book):
    """What the arrows beside the links say: one for each route, or one for more than three."""
    traffic = {}
    for way in book.ways:
        for hop, offset in zip(way.hops, way.offsets):
            traffic.setdefault(hop, []).append((way, offset))
    for (a, b), there in traffic.items():
        if len(there) > 3:
            slots = work_out.many(sum(work_out.CYCLE // way.period for way, _ in there), "slot")
            yield "Node %d to node %d: streams %s; %s" % (a, b, ranges(way for way, _ in there), slots)
        else:
            yield from ("Node %d to node %d: %s, offset %d" % (a, b, called(way), offset) for way, offset in there)


def nodes(book):
    """What the nodes of the graph say: their links, and whom they hear without one."""
    for a in range(book.n):
        linked, heard = ([str(b) for b in found] for found in [[b for b in range(book.n) if book.linked(a, b)], book.heard_by(a)])
        yield "Node %d, linked to %s" % (a, ", ".join(linked) or "no node") + ("; hears %s without a link" % ", ".join(heard) if heard else "")


def arcs(book):
    """What the arcs of the graph say: one for each pair that hears itself without a link."""
    return ["Nodes %d and %d hear each other without a link" % pair for pair in book.heard]


def joined(what, text, book):
    """By their places the straight lines join exactly the linked nodes, and the arcs those that hear each other without a link."""
    graph = text.split('<svg class="graph"', 1)[1].split("</svg>", 1)[0]
    spots = re.findall(r'<g class="node"><title>Node (\d+),[^<]*</title><circle cx="([^"]+)" cy="([^"]+)"', graph)
    node = {(x, y): int(number) for number, x, y in spots}
    check(len(node) == book.n, "%s: nodes in one place" % what)
    place = r"(-?[\d.]+) (-?[\d.]+)"
    lines = re.findall("M%sL%s" % (place, place), re.search(r'<path class="link" d="([^"]*)"', graph).group(1))
    curves = [re.fullmatch("M%sQ%s %s" % (place, place, place), path).groups() for path in re.findall(r'<path class="heard" d="([^"]*)"', graph)]
    found = [sorted(tuple(sorted([node.get((x, y)), node.get((u, v))])) for x, y, *_, u, v in drawn) for drawn in [lines, curves]]
    check(found == [work_out.pairs(book), book.heard], "%s: the lines and arcs of the graph: %s" % (what, found))
    # An arc bows off the straight line between its nodes, and the whole graph has room for it.
    width, height = map(float, re.search(r'viewBox="0 0 (\S+) (\S+)"', graph).groups())
    for curve in curves:
        x, y, p, q, u, v = map(float, curve)
        off = abs((u - x) * (q - y) - (v - y) * (p - x)) / math.hypot(u - x, v - y)
        middle = (x + 2 * p + u) / 4, (y + 2 * q + v) / 4
        check(off > 10 and 0 <= middle[0] <= width and 0 <= middle[1] <= height, "%s: the arc %s" % (what, curve))
    said = ["%s heard without a link" % work_out.many(len(book.heard), "pair"), "A thin dashed arc joins two nodes that hear each other without a link",
            "Heard without a link: %s." % ", ".join("%d–%d" % pair for pair in book.heard)]
    check([text.count(words) for words in said] == ([2, 1, 1] if book.heard else [0] * 3), "%s: what is said of hearing" % what)


def dashed(what, text, book):
    """Second routes are dashed, and no other; of a stream with one it is said that it survives."""
    second = [way for way in book.ways if way.number == 2]
    check(text.count('class="way second"') == len(second) and text.count('class="way"') == len(book.ways) - len(second), "%s: the dashed routes" % what)
    arrows = re.findall(r'<g class="arrow k\d+( second)?" [^>]*><title>[^<]*?(, second route)?, offset', text)
    check(all(bool(dashes) == bool(said) for dashes, said in arrows), "%s: the dashed arrows: %s" % (what, arrows))
    groups = re.findall(r'<g id="r\d+t\d+" class="k\d+( second)?"><g><title>stream \d+(, second route)?,', text)
    check(all(bool(dashes) == bool(said) for dashes, said in groups) and len(groups) >= sum(min(way.offsets) < drawn_tiles(book) * book.s for way in book.ways), "%s: the dashed cells: %s" % (what, groups))
    legends = ["A second route is dashed.", "the id of a second route is marked ′", "receiving on a second route"]
    check(all((legend in text) == bool(second) for legend in legends), "%s: what is said of second routes" % what)
    surviving = sum(len(ways) == 2 and work_out.survives(ways) for ways in book.streams())
    check(text.count("; survives the loss of any one relay</p>") == surviving == len(second), "%s: the streams that survive" % what)


def hold(what, text, book, title):
    """Holds a page to its book: nothing is missing, and nothing is there besides."""
    page = Page(text)
    check(page.wrong == [], "%s: the page is not well made: %s" % (what, page.wrong[:5]))
    check(page.heading == title and page.titles[0] == title + " – Lindurask", "%s is headed %s" % (what, page.heading))
    streams = [[name(way), str(way.period), "\u00a0→ ".join(map(str, way.nodes)), " ".join(map(str, way.offsets)), str(way.latency), *([str(way.account), str(work_out.draws([way]))] if book.keeps_accounts() else [])] for way in book.ways]
    check(page.rows.get("streams", [None])[1:] == streams, "%s: the table of streams: %s" % (what, page.rows.get("streams")))
    balances = [[str(node), *map(str, book.balance(node)), ""] for node in range(book.n)]
    check(page.rows["balances"][1:] == balances, "%s: the balances: %s" % (what, page.rows["balances"]))
    kept = [list(map(str, one)) for one in work_out.standings(book)] if book.keeps_accounts() else []
    check(page.rows.get("accounts", [None])[1:] == kept and ("Account" in text) == ("#accounts" in text) == book.keeps_accounts(), "%s: the accounts: %s" % (what, page.rows.get("accounts")))
    bars = ["%s used, %d free" % (work_out.many(used, "slot"), free) for _, used, free in map(book.balance, range(book.n))]
    check([label for label in page.labels if label.endswith(" free")] == bars, "%s: the bars" % what)
    want = sorted(list(nodes(book)) + list(arcs(book)) + list(arrows(book)) + list(hops(book)))
    check(sorted(page.titles[1:]) == want, "%s: nodes, arrows and hops: %s" % (what, set(page.titles[1:]) ^ set(want)))
    routes = ["Route of " + "; ".join("%s: nodes %s" % (called(way), ", ".join(map(str, way.nodes))) for way in ways) for ways in book.streams()]
    check([label for label in page.labels if label.startswith("Route of ")] == routes, "%s: the routes" % what)
    drawn = [label for label in page.labels if label.startswith("Tile ")]
    check(drawn == list(tiles(book)), "%s: the tiles: %s" % (what, set(drawn) ^ set(tiles(book))))
    check([part.startswith((" ", "\n")) for part in text.split(extent(book))[1:]] == [True], "%s: what is said of the tiles, and not %s" % (what, extent(book)))
    dashed(what, text, book)
    joined(what, text, book)


def samples(room):
    with open(os.path.join(tool.ROOT, "docs/sample/kiln.html")) as sample:
        room.says(0, sample.read(), "page", "kiln.book")
    for book in tool.SAMPLES:
        said = room.run("page", book + ".book")
        check(said.status == 0 and said.err == "", "page %s: %s" % (book, said.err))
        hold(book, said.out, work_out.Book.read(room.get(book + ".book")), book + ".book")
    # Streams that send late in a long cycle.
    for name in ["seldom.book", "oftener.book"]:
        book = work_out.others()[name]
        room.put(name, book.image())
        hold(name, room.run("page", name).out, book, name)


def by_chance(room):
    """Sites by chance, some with isolated nodes, and with as many streams as they happen to hold."""
    for turn in range(SITES):
        dice = random.Random(chance.SEED * 1000 + turn)
        _, book = chance.plan(dice)
        for id in sorted(dice.sample(range(1, 65536), 12)):
            got = book.opened(id, *dice.sample(range(book.n), 2), dice.choice(work_out.PERIODS), dice.random() < 0.5)
            book = book if isinstance(got, int) else book.with_ways(got)
        room.put("chance.book", book.image())
        hold("site %d" % turn, room.run("page", "chance.book").out, book, "chance.book")


def made(room):
    """In a file: the same page, with the mode that the user's mask leaves, and never in the place of another file."""
    page, book = room.run("page", "kiln.book").out.encode(), room.get("kiln.book")
    before = room.names()
    room.says(0, "made: kiln.html\n", "page", "kiln.book", "kiln.html")
    check(room.get("kiln.html") == page and room.names() == sorted(before + ["kiln.html"]), "the page in a file is another")
    os.symlink("nowhere", room.at("dangling.html"))
    for name in ["kiln.html", "kiln.book", "dangling.html"]:
        room.says(2, "lindurask: %s: File exists; it is never replaced\n" % name, "page", "site.book", name)
    check(room.get("kiln.html") == page and room.get("kiln.book") == book and "nowhere" not in room.names(), "a page took another file's place")
    room.says(2, "lindurask: nowhere/a.html: No such file or directory\n", "page", "kiln.book", "nowhere/a.html")
    check(room.run("page", "kiln.book", "mask.html", umask=0o027).status == 0 and os.stat(room.at("mask.html")).st_mode & 0o777 == 0o640, "the mode of a page")
    room.says(0, "made: \\x1b[31m.html\n", "page", "kiln.book", b"\x1b[31m.html")


def titles(room):
    book = work_out.Book.read(room.get("kiln.book"))
    for name, title in TITLES.items():
        room.put(name, room.get("kiln.book"))
        said = room.run("page", name)
        hold("a book named %s" % title, said.out, book, title)
        check(not re.search("[\x00-\x09\x0b-\x1f\x7f-\x9f\u202a-\u202e]", said.out), "a page of %s has raw signs" % title)


def test(room):
    samples(room)
    by_chance(room)
    made(room)
    titles(room)
