//! Draws a book for a person.

use super::{Command, Report};
use crate::book::{Balance, Book, Stream};
use crate::colour::Colour;
use crate::describe::{self, HEARD, INDENT};
use crate::frame;
use crate::json;
use crate::loaded::{accepted, Loaded};
use crate::picture::{label, shown, Picture, Row};
use crate::table::Entry;
use crate::text::{count, row};
use crate::tiles::Tiles;
use crate::trouble::Trouble;
use crate::words::{Words, JSON, NODE, NO_LISTS, STREAM};

pub const SHOW: Command = Command {
    name: "show",
    operands: "BOOK [TILE]",
    takes: [1, 2],
    choices: &[STREAM, NODE, NO_LISTS, JSON],
    summary: "draw a book: plan, links, streams, slots",
    explains: "\
Draws the book: its plan, its links, the pairs of nodes that hear each other
without a link, its streams with period, routes, offsets and latency, and for
each node that carries a stream a row of slots. Beside each node stands its
number of links. Of each stream it says whether it survives the loss of any one
relay, a node in the middle of a route. Where the book has accounts it says what
each has bought, drawn and left, and what each stream draws from which. The
picture starts at tile 0, or at TILE, and stops where it repeats or is full;
each route has a letter of its own. With --stream only that stream and the nodes
of its routes are shown, with --node only that node and the streams through it,
with --no-lists only the picture.",
    example: "lindurask show kiln.book --stream 7",
    run,
};

/// What is to be shown of a book.
enum Part {
    All,
    Stream(u16),
    Node(u8),
}

/// The part that was asked for, which the engine says is there.
fn part(words: &Words, loaded: &mut Loaded) -> Result<Part, Trouble> {
    if let Some(id) = words.chosen_stream()? {
        let answer = loaded.engine.ask(frame::close(&loaded.bytes, id))?;
        accepted(answer, format!("id {id}"))?;
        return Ok(Part::Stream(id));
    }
    if let Some(node) = words.chosen_node()? {
        loaded.nodes(Some(node))?;
        return Ok(Part::Node(node.node()));
    }
    Ok(Part::All)
}

impl Part {
    /// The streams that are part of it, each with its place among all.
    fn streams<'a>(&'a self, book: &'a Book) -> impl Iterator<Item = (usize, Stream<'a>)> {
        book.streams().enumerate().filter(move |(_, stream)| match self {
            Part::All => true,
            Part::Stream(id) => stream.first().id == *id,
            Part::Node(node) => stream.passes(*node),
        })
    }

    /// The node has a row in the picture.
    fn has_row(&self, book: &Book, node: u8, balance: &Balance) -> bool {
        match self {
            Part::All => balance.used != 0,
            Part::Stream(id) => book.stream(*id).is_some_and(|stream| stream.passes(node)),
            Part::Node(own) => node == *own,
        }
    }
}

fn plan(book: &Book, colour: Colour) -> String {
    let title = format!(
        "Plan: {} a tile, {}; # is a control slot, . a data slot",
        count(book.slots, "slot"),
        count(book.tiles, "tile")
    );
    let tile = |tile: u16| {
        let kind = book.kind(tile);
        let control = usize::from(book.control(tile));
        let data = usize::from(book.slots) - control;
        format!("  tile {tile}  {kind:<8}  {}{}\n", "#".repeat(control), ".".repeat(data))
    };
    let tiles: String = (0..book.tiles.into()).map(tile).collect();
    format!("\n{}\n{tiles}", colour.title(&title))
}

/// Words in lines, or that there is nothing.
fn or_none(lines: String) -> String {
    if lines.trim().is_empty() {
        return "  none\n".into();
    }
    lines
}

fn links(book: &Book, colour: Colour) -> String {
    format!("\n{}\n{}", colour.title("Links"), or_none(describe::pairs(&book.pairs())))
}

/// The pairs that hear each other without a link, where there are any.
fn heard(book: &Book, colour: Colour) -> String {
    match book.heard_pairs().as_slice() {
        [] => String::new(),
        heard => format!("\n{}\n{}", colour.title(HEARD), describe::pairs(heard)),
    }
}

/// What each account has bought, drawn and left, where the clerk keeps accounts.
fn accounts(book: &Book, colour: Colour) -> String {
    if !book.keeps_accounts() {
        return String::new();
    }
    let title = colour.title("Accounts: hop uses in a cycle");
    format!("\n{title}\n{}", describe::accounts("  ", &book.standings()))
}

/// The routes of a stream under their letters, what the loss of a relay is to it, and its account.
fn stream(book: &Book, order: usize, stream: Stream, colour: Colour) -> String {
    let before = |place: usize| {
        let letters = format!("{:<3}", label(book, place));
        format!("  {}", colour.stream(Some(order), &letters))
    };
    let routes = stream.ways.iter().zip(stream.place..);
    let routes: String = routes.map(|(way, place)| describe::route(&before(place), way)).collect();
    format!("{routes}{INDENT}{}\n{}", describe::loss(stream), describe::account(book, stream))
}

fn streams(book: &Book, part: &Part, colour: Colour) -> String {
    let stream = |(order, one)| stream(book, order, one, colour);
    format!("\n{}\n{}", colour.title("Streams"), or_none(part.streams(book).map(stream).collect()))
}

/// What the engine says of each node, from node 0 on.
struct Nodes {
    balances: Vec<Balance>,
    /// How many links it has.
    links: Vec<u8>,
    /// What it does in the tiles of the picture.
    tables: Vec<Vec<Entry>>,
}

impl Nodes {
    fn ask(loaded: &mut Loaded, tiles: Tiles) -> Result<Nodes, Trouble> {
        let nodes = loaded.nodes(None)?;
        let (balances, links) = (loaded.balances(&nodes)?, loaded.links(&nodes)?);
        Ok(Nodes { balances, links, tables: loaded.tables(&nodes, tiles, "")? })
    }

    /// The rows of the picture.
    fn rows(&self, book: &Book, part: &Part) -> Vec<Row<'_>> {
        let shown = |node: &u8| part.has_row(book, *node, &self.balances[usize::from(*node)]);
        let row = |node: u8| {
            let at = usize::from(node);
            Row { node, links: self.links[at], table: &self.tables[at] }
        };
        (0..book.nodes()).filter(shown).map(row).collect()
    }
}

/// A node's links, what it hears without one, and its balance.
fn node(book: &Book, node: u8, nodes: &Nodes, colour: Colour) -> String {
    let at = usize::from(node);
    let Balance { data, used, free } = nodes.balances[at];
    let title = colour.title(&format!("Node {node}: {}", count(nodes.links[at], "link")));
    let links = or_none(row("  linked to", book.neighbours(node)));
    let heard: Vec<u8> = book.heard_by(node).collect();
    let heard = if heard.is_empty() { String::new() } else { row("  heard without a link", heard) };
    format!("\n{title}\n{links}{heard}  data {data}, used {used}, free {free}\n")
}

/// The lists above the picture.
fn lists(book: &Book, part: &Part, nodes: &Nodes, colour: Colour) -> String {
    let head = match part {
        Part::All => {
            let site = plan(book, colour) + &links(book, colour) + &heard(book, colour);
            site + &accounts(book, colour)
        }
        Part::Stream(_) => String::new(),
        Part::Node(own) => node(book, *own, nodes, colour),
    };
    head + &streams(book, part, colour)
}

/// The nodes that have no row because they carry no stream, each with its number of links.
fn idle(part: &Part, nodes: &Nodes) -> String {
    let all = nodes.balances.iter().zip(&nodes.links).enumerate();
    let idle = all.filter(|(_, (balance, _))| balance.used == 0);
    let idle: Vec<String> = idle.map(|(node, (_, links))| format!("{node}:{links}")).collect();
    match part {
        Part::All if !idle.is_empty() => {
            let left_out = count(idle.len(), "node");
            format!("  Left out: {left_out} without a stream; node:links\n{}", row("   ", idle))
        }
        _ => String::new(),
    }
}

fn in_json(book: &Book, part: &Part, nodes: &Nodes) -> String {
    let streams = part.streams(book).map(|(_, stream)| json::stream(book, stream));
    let accounts = book.keeps_accounts().then(|| ("accounts", json::accounts(&book.standings())));
    let fields = [
        ("version", book.version.to_string()),
        ("plan", json::plan(book)),
        ("nodes", book.nodes().to_string()),
        ("links", json::pairs(&book.pairs())),
        ("heard", json::pairs(&book.heard_pairs())),
        ("linked", json::array(&nodes.links)),
        ("streams", json::array(streams)),
    ];
    json::answer(fields.into_iter().chain(accounts))
}

fn run(words: &Words) -> Result<Report, Trouble> {
    let from = words.tile_of_cycle(1)?.unwrap_or(0);
    if words.has(&STREAM) && words.has(&NODE) {
        return Err(SHOW.misused());
    }
    let mut loaded = Loaded::read(words.path(0))?;
    let part = part(words, &mut loaded)?;
    let tiles = shown(&loaded.book, from);
    let nodes = Nodes::ask(&mut loaded, tiles)?;
    loaded.engine.finish()?;
    let book = &loaded.book;
    if words.has(&JSON) {
        return Ok(in_json(book, &part, &nodes).into());
    }
    let colour = Colour::for_output();
    let picture = Picture { book, rows: nodes.rows(book, &part), tiles, colour };
    let mut text = describe::counts(book);
    if !words.has(&NO_LISTS) {
        text += &lists(book, &part, &nodes, colour);
    }
    text += &picture.draw();
    text += &idle(&part, &nodes);
    text += &picture.rest();
    Ok(text.into())
}
