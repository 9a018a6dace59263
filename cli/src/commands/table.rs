//! Prints what nodes do in each slot of a cycle.

use super::{Command, Report};
use crate::book::{Book, CYCLE};
use crate::json;
use crate::loaded::Loaded;
use crate::table::Entry;
use crate::tables::TILES;
use crate::text::{self, count};
use crate::tiles::Tiles;
use crate::trouble::Trouble;
use crate::words::{Number, Words, JSON, RAW};
use std::io::{self, IsTerminal};

pub const TABLE: Command = Command {
    name: "table",
    operands: "BOOK [NODE [TILE [COUNT]]]",
    takes: [1, 4],
    choices: &[RAW, JSON],
    summary: "print the slot table of a node, or of all",
    explains: "\
Prints what a node, or every node, does in each slot of the 1000 tiles of a
cycle, or of those from TILE on, or of COUNT tiles from TILE on.
With --raw it writes the first 100 tiles as bytes, to a file or a program, node
0 first: 3 for each slot, the operation and the stream's id, as adopt reads
them. These say all of a book in which no period is over 100; of another nothing
is written, and the exit status is 1.",
    example: "lindurask table kiln.book 2 0 20",
    run,
};

/// What the letters of a table mean.
const LETTERS: &str = "\
. sleep, # control, S send from above, R receive to buffer,
F forward from buffer, A receive for above; then the stream's id.
On a second route the letters are small: s, r, f, a.
";

/// The digits of the highest id.
fn digits(book: &Book) -> usize {
    book.ways.iter().map(|way| way.id.to_string().len()).max().unwrap_or(1)
}

fn entry(entry: Entry, width: usize) -> String {
    let id = if entry.id == 0 { String::new() } else { entry.id.to_string() };
    format!("{:>width$}", format!("{}{id}", entry.letter()))
}

/// Tiles of a node's table, from the first on, a line for each.
fn table(book: &Book, node: u8, first: u16, entries: &[Entry]) -> String {
    let width = 1 + digits(book);
    let tile = |(tile, slots): (u16, &[Entry])| {
        text::row(&format!("tile {tile:>3}"), slots.iter().map(|&slot| entry(slot, width)))
    };
    let tiles = (first..).zip(entries.chunks(book.slots.into()));
    format!("node {node}\n{}", tiles.map(tile).collect::<String>())
}

fn in_json(node: u8, first: u16, entries: &[Entry]) -> String {
    let entry = |entry: &Entry| json::array([entry.operation.into(), entry.id]);
    json::object([
        ("node", node.to_string()),
        ("tile", first.to_string()),
        ("entries", json::array(entries.iter().map(entry))),
    ])
}

/// The tiles that the words name: all, those from one on, or so many from one on. The engine says whether the cycle has them.
fn tiles(words: &Words) -> Result<(Tiles, String), Trouble> {
    let (first, number) = (words.tile_if(2)?.unwrap_or(Number(0)), words.count_if(3)?);
    let rest = u64::from(CYCLE).saturating_sub(first.0).max(1);
    let most = u64::from(CYCLE) + 1;
    let wanted = number.map_or(rest, |Number(number)| number).min(most);
    let about = match number {
        None => format!("tile {}", first.0),
        Some(Number(number)) => format!("{} from tile {} on", count(number, "tile"), first.0),
    };
    Ok((Tiles { first: first.tiles(), count: wanted as u16 }, about))
}

/// Why a book's first 100 tiles do not say all of it.
fn slow(book: &Book) -> Option<Trouble> {
    let way = book.ways.iter().find(|way| TILES < way.period)?;
    let period = format!("stream {} has period {}", way.id, way.period);
    let said = format!("{period}, so the book does not repeat after {TILES} tiles");
    Some(Trouble::Unfit(format!("{said}, and has no such tables")))
}

/// The first 100 tiles of a node, or of all, in bytes.
fn raw(words: &Words) -> Result<Report, Trouble> {
    if words.has(&JSON) || 2 < words.operands.len() {
        return Err(TABLE.misused());
    }
    let one = words.node_if(1)?;
    if io::stdout().is_terminal() {
        let said = "standard output is a terminal; bytes go to a file or a program";
        return Err(Trouble::Failed(format!("{said}, as in: > kiln.tables")));
    }
    let mut loaded = Loaded::read(words.path(0))?;
    let nodes = loaded.nodes(one)?;
    if let Some(trouble) = slow(&loaded.book) {
        return Err(trouble);
    }
    let tables = loaded.tables(&nodes, Tiles { first: 0, count: TILES }, "")?;
    loaded.engine.finish()?;
    let raw = tables.iter().flatten().flat_map(|entry| entry.bytes()).collect();
    Ok(Report { raw, ..Report::default() })
}

fn run(words: &Words) -> Result<Report, Trouble> {
    if words.has(&RAW) {
        return raw(words);
    }
    let (one, (tiles, about)) = (words.node_if(1)?, tiles(words)?);
    let mut loaded = Loaded::read(words.path(0))?;
    let nodes = loaded.nodes(one)?;
    let tables = loaded.tables(&nodes, tiles, &about)?;
    loaded.engine.finish()?;
    let all = nodes.iter().zip(&tables);
    if words.has(&JSON) {
        let list = json::array(all.map(|(&node, entries)| in_json(node, tiles.first, entries)));
        return Ok(json::answer([("tables", list)]).into());
    }
    let text = all.map(|(&node, entries)| table(&loaded.book, node, tiles.first, entries));
    Ok((LETTERS.to_string() + &text.collect::<String>()).into())
}
