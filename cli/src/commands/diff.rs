//! Says where two books differ, and where the air would show it.

use super::{Command, Report};
use crate::book::{Book, Stream};
use crate::colour::Colour;
use crate::describe::{self, HEARD};
use crate::difference::{in_stream, Difference, Differs, Pair, Seen};
use crate::json;
use crate::loaded::{unreadable, Loaded};
use crate::page::agrees;
use crate::table::Entry;
use crate::text::{count, plain, row};
use crate::tiles::Tiles;
use crate::trouble::Trouble;
use crate::words::{Words, JSON};
use std::path::Path;

pub const DIFF: Command = Command {
    name: "diff",
    operands: "BOOK BOOK",
    takes: [2, 2],
    choices: &[JSON],
    summary: "say where two books differ",
    explains: "\
Says what differs between two books: version, plan, nodes, links, pairs that
hear each other without a link, what accounts have bought, and streams, and the
first slot and node where the air would show it, with what the node does there
by each book. What the first book has stands behind <, what the second has
behind >; tiles, slots and nodes are counted from 0. The nodes that both books
have are compared, slot by slot in each tile. Two books that differ in nothing
but their version are the same. The exit status is 0 where the books are the
same, 1 where they differ, and 2 where one is no lawful book or cannot be read.",
    example: "lindurask diff sold.book kiln.book",
    run,
};

/// What stands before what each book has.
const MARKS: Pair<&str> = ["<", ">"];

/// What stands above the accounts that differ.
const BOUGHT: &str = "Accounts that have not bought the same";

/// Lines under a title; nothing where there are none.
fn section(title: &str, lines: &str) -> String {
    if lines.is_empty() {
        return String::new();
    }
    format!("\n{}\n{lines}", Colour::for_output().title(title))
}

/// What each book has of a part, a line each.
fn both((name, words): &Differs) -> String {
    let name = if name.is_empty() { String::new() } else { format!(" {name}") };
    let line = |mark: &str, words: &[String]| match words {
        [] => row(&format!("  {mark}{name}"), ["none"]),
        words => row(&format!("  {mark}{name}"), words),
    };
    line(MARKS[0], &words[0]) + &line(MARKS[1], &words[1])
}

/// A number that is not the same, in its section.
fn number(title: &str, numbers: Option<Pair<u16>>) -> String {
    let words = numbers.map(|pair| pair.map(|number| vec![number.to_string()]));
    words.map_or(String::new(), |words| section(title, &both(&("", words))))
}

/// The pairs of nodes that each book has alone.
fn pairs(title: &str, pairs: &Pair<Vec<(usize, usize)>>) -> String {
    let list = |(mark, own): (&str, &Vec<(usize, usize)>)| {
        let lines = if own.is_empty() { String::new() } else { describe::pairs(own) };
        section(&format!("{title} in {mark} alone"), &lines)
    };
    MARKS.into_iter().zip(pairs).map(list).collect()
}

/// The streams that one book has alone, then those of both that differ.
fn streams(difference: &Difference) -> String {
    let streams = &difference.streams;
    let alone = |own: usize| {
        let own_pairs = streams.iter().filter(|pair| pair[1 - own].is_none());
        let said = |stream| {
            describe::stream("  ", stream) + &describe::account(difference.books[own], stream)
        };
        let lines: String = own_pairs.filter_map(|pair| pair[own]).map(said).collect();
        section(&format!("Streams in {} alone", MARKS[own]), &lines)
    };
    let shared = streams.iter().map(|pair| match *pair {
        [Some(one), Some(other)] => {
            let parts: String = in_stream([one, other]).iter().map(both).collect();
            format!("  stream {}\n{parts}", one.first().id)
        }
        _ => String::new(),
    });
    let shared = section("Streams in both that differ", &shared.collect::<String>());
    alone(0) + &alone(1) + &shared
}

/// What a node does by a book in a slot.
fn does(mark: &str, entry: Option<Entry>, book: &Book) -> String {
    let said = entry
        .map(Entry::words)
        .unwrap_or_else(|| format!("no such slot: a tile has {}", count(book.slots, "slot")));
    format!("  {mark} {said}\n")
}

/// Where the air would show it.
fn air(difference: &Difference) -> String {
    let books = difference.books;
    let shared = books[0].nodes().min(books[1].nodes());
    let (compared, who) = match difference.unequal(Book::nodes) {
        None => (String::new(), "every node does"),
        Some(_) => {
            (format!("  nodes 0 to {}, which both have, are compared\n", shared - 1), "these do")
        }
    };
    let said = match &difference.seen {
        None => format!("  the same: {who} the same in every slot\n"),
        Some(Seen { tile, slot, node, entries }) => {
            let place = usize::from(*tile) * usize::from(books[0].slots) + usize::from(*slot);
            let first = format!("  first in tile {tile}, slot {slot}, at node {node}");
            format!("{first} (slot {place} of the cycle)\n")
                + &does(MARKS[0], entries[0], books[0])
                + &does(MARKS[1], entries[1], books[1])
        }
    };
    section("On the air", &(compared + &said))
}

fn text(difference: &Difference, paths: Pair<&Path>) -> String {
    let version = difference.unequal(|book| book.version);
    if difference.is_none() {
        return match version {
            None => "the books are the same\n".into(),
            Some([one, other]) => {
                format!("the same book in versions {one} and {other}: the air is the same\n")
            }
        };
    }
    let name = |(mark, path): (&str, &Path)| format!("{mark} {}\n", plain(path));
    let names: String = MARKS.into_iter().zip(paths).map(name).collect();
    format!("the books differ\n{names}")
        + &number("Version", version)
        + &section("Plan", &difference.plan.iter().map(both).collect::<String>())
        + &number("Nodes", difference.unequal(|book| book.nodes().into()))
        + &pairs("Links", &difference.links)
        + &pairs(HEARD, &difference.heard)
        + &section(BOUGHT, &difference.accounts.iter().map(both).collect::<String>())
        + &streams(difference)
        + &air(difference)
}

/// A value of each book, or null where they have the same.
fn pair<T>(values: Option<Pair<T>>, said: fn(T) -> String) -> String {
    values.map_or("null".into(), |values| json::array(values.map(said)))
}

/// The pairs of nodes that each book has alone, or null where they have the same.
fn pairs_in_json(pairs: &Pair<Vec<(usize, usize)>>) -> String {
    let alone = Some(pairs.each_ref()).filter(|pairs| pairs.iter().any(|own| !own.is_empty()));
    pair(alone, |own| json::pairs(own))
}

/// A stream that is not the same in both, in JSON.
fn stream_in_json(books: Pair<&Book>, streams: &Pair<Option<Stream>>) -> String {
    let differs = match *streams {
        [Some(one), Some(other)] => in_stream([one, other]),
        _ => vec![],
    };
    let differs = differs.iter().map(|(name, _)| json::string(name));
    let id = streams.iter().flatten().next().map_or(0, |stream| stream.first().id);
    let own = |at: usize| streams[at].map_or("null".into(), |own| json::stream(books[at], own));
    json::object([
        ("id", id.to_string()),
        ("differs", json::array(differs)),
        ("books", json::array([0, 1].map(own))),
    ])
}

fn air_in_json(seen: &Seen) -> String {
    let entry = |entry: Entry| json::array([entry.operation.into(), entry.id]);
    let entries = seen.entries.map(|own| own.map_or("null".into(), entry));
    json::object([
        ("tile", seen.tile.to_string()),
        ("slot", seen.slot.to_string()),
        ("node", seen.node.to_string()),
        ("entries", json::array(entries)),
    ])
}

fn in_json(difference: &Difference) -> String {
    let books = difference.books;
    let plan = Some(books).filter(|_| !difference.plan.is_empty());
    let accounts = Some(books).filter(|_| !difference.accounts.is_empty());
    let accounts = books
        .iter()
        .any(|book| book.keeps_accounts())
        .then(|| ("accounts", pair(accounts, |book| json::accounts(&book.standings()))));
    let streams = difference.streams.iter().map(|pair| stream_in_json(books, pair));
    let fields = [
        ("same", difference.is_none().to_string()),
        ("version", pair(difference.unequal(|book| book.version), |version| version.to_string())),
        ("plan", pair(plan, json::plan)),
        ("nodes", pair(difference.unequal(Book::nodes), |nodes| nodes.to_string())),
        ("links", pairs_in_json(&difference.links)),
        ("heard", pairs_in_json(&difference.heard)),
        ("streams", json::array(streams)),
        ("air", difference.seen.as_ref().map_or("null".into(), air_in_json)),
    ];
    json::answer(fields.into_iter().chain(accounts))
}

/// These tiles of the tables of a book, which the engine says and the rows of the book bear out.
fn tables(mut loaded: Loaded, tiles: Tiles) -> Result<(Book, Vec<Vec<Entry>>), Trouble> {
    let nodes = loaded.nodes(None)?;
    let tables = loaded.tables(&nodes, tiles, "")?;
    loaded.engine.finish()?;
    if !agrees(&loaded.book, tiles, &tables) {
        return Err(unreadable());
    }
    Ok((loaded.book, tables))
}

fn run(words: &Words) -> Result<Report, Trouble> {
    let paths = [words.path(0), words.path(1)];
    let read = |path: &Path| Loaded::read(path).map_err(Trouble::of_file);
    let [first, second] = [read(paths[0])?, read(paths[1])?];
    let tiles = Tiles::repeat(&[&first.book, &second.book]);
    let [first, second] = [tables(first, tiles)?, tables(second, tiles)?];
    let difference = Difference::of([&first.0, &second.0], tiles, [&first.1, &second.1]);
    let is_same = difference.is_none();
    if is_same && difference.seen.is_some() {
        return Err(unreadable());
    }
    let json = words.has(&JSON);
    let text = if json { in_json(&difference) } else { text(&difference, paths) };
    Ok(Report { text, refused: !is_same, ..Report::default() })
}
