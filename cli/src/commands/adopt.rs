//! Makes the book that expands to tables made elsewhere.

use super::new::{read_plan, refused, warnings};
use super::{Command, Report};
use crate::book::Book;
use crate::describe;
use crate::engine::Engine;
use crate::files;
use crate::frame::{self, Site, MOST_TABLES};
use crate::loaded::{decode, unreadable, Loaded};
use crate::tables::{self, Tables, FULL, LONGEST, NO_BOOK, TILES, UNSOUND};
use crate::text::{count, plain};
use crate::tiles::Tiles;
use crate::trouble::{meaning, Refusal, Trouble};
use crate::words::Words;
use std::path::Path;

pub const ADOPT: Command = Command {
    name: "adopt",
    operands: "PLAN TABLES NEW",
    takes: [3, 3],
    choices: &[],
    summary: "make the book of tables made elsewhere",
    explains: "\
Makes the book NEW that expands to exactly the tables in TABLES, where a lawful
book with periods up to 100 does, and prints its streams. PLAN is the plan of
the site as new reads it, a file, or - for standard input, without an account:
such a book has the one account 0. TABLES has the tables of the first 100 tiles
of all nodes, node 0 first, as table --raw writes them: 3 bytes for each slot,
the operation and the stream's id, so 300 for each slot of a tile and node.
Where they are refused, NEW is not made, and the node, tile and slot where they
first fail are named, counted from 0; where no entry by itself shows why there
is no such book, that is said. A file that is there already is never replaced.",
    example: "lindurask adopt kiln.plan kiln.tables kiln.book",
    run,
};

/// What is wrong with tables of the wrong length.
fn wrong_length(site: &Site, length: usize) -> String {
    let (nodes, slots) = (count(site.nodes, "node"), count(site.slots, "slot"));
    let these = if LONGEST < length { "more".into() } else { length.to_string() };
    let right = tables::length(site);
    format!("the tables of {nodes} with {slots} in a tile have {right} bytes, and these {these}")
}

/// A refusal of tables, with the place of the first entry that it is about.
fn refused_tables(path: &Path, site: &Site, bytes: &[u8], number: u8) -> Trouble {
    let is_long_as = bytes.len() == tables::length(site);
    let fault = Tables::read(site, bytes).and_then(|tables| tables.explain(number));
    let (words, place) = match fault {
        Some(fault) => (fault.words, format!(", {}", fault.place)),
        None if !is_long_as && number == UNSOUND => {
            (wrong_length(site, bytes.len()), String::new())
        }
        None => (format!("{}; no entry by itself shows why", meaning(number)), String::new()),
    };
    let words = match number {
        NO_BOOK if !place.is_empty() => format!("no such book: {words}"),
        _ => words,
    };
    Trouble::Refused(Refusal { number, about: plain(path) + &place, words: Some(words) })
}

/// What the engine found, and of what.
struct Found {
    site: Site,
    tables: Vec<u8>,
    /// The bytes of the book.
    bytes: Vec<u8>,
}

/// Has the engine find the book. Of tables that are too long it gets so many bytes that they are too long still.
fn found(engine: &mut Engine, words: &Words) -> Result<Found, Trouble> {
    let [plan_path, path] = [words.path(0), words.path(1)];
    let plan = read_plan(plan_path)?.without_accounts();
    let plan = plan.map_err(|fault| Trouble::Misused(fault.said_of(plan_path)))?;
    let (site, tables) = (plan.site(), files::read_tables(path)?);
    let right = tables::length(&site);
    let sent = tables.len().min(right + 1).min(MOST_TABLES);
    let answer = engine.ask(frame::book_of(&site, &tables[..sent]))?;
    match answer.number {
        0 => Ok(Found { site, tables, bytes: answer.bytes }),
        number @ (UNSOUND | FULL | NO_BOOK) => Err(refused_tables(path, &site, &tables, number)),
        number => Err(refused(plan_path, &plan, number)),
    }
}

/// The book has the plan, the links and the hearing of the site, and keeps no accounts.
fn is_of(book: &Book, site: &Site) -> bool {
    let is = (book.slots, book.tiles, book.kinds, book.down, book.up);
    let bytes = |rows: &[u64]| rows.iter().flat_map(|row| row.to_be_bytes()).collect::<Vec<u8>>();
    is == (site.slots, site.tiles, site.kinds, site.down, site.up)
        && [bytes(&book.links), bytes(&book.hearing)] == [&site.links[..], &site.hearing]
        && !book.keeps_accounts()
}

/// The book that was found, which is one of the site, and by the engine's own word expands to the tables.
fn checked(engine: Engine, found: &Found) -> Result<Book, Trouble> {
    let (bytes, book) = (found.bytes.clone(), decode(&found.bytes)?);
    let mut loaded = Loaded { bytes, book, engine };
    let nodes = loaded.nodes(None)?;
    let own = loaded.tables(&nodes, Tiles { first: 0, count: TILES }, "")?;
    loaded.engine.finish()?;
    let own = own.iter().flatten().flat_map(|entry| entry.bytes());
    if !own.eq(found.tables.iter().copied()) || !is_of(&loaded.book, &found.site) {
        return Err(unreadable());
    }
    Ok(loaded.book)
}

fn run(words: &Words) -> Result<Report, Trouble> {
    let mut engine = Engine::start()?;
    let found = found(&mut engine, words)?;
    let book = checked(engine, &found)?;
    files::make(words.path(2), &found.bytes)?;
    let streams: String = book.streams().map(|own| describe::stream("found ", own)).collect();
    let text = format!("{streams}made: {}", describe::counts(&book));
    Ok(Report { text, warnings: warnings(&book), changed: true, ..Report::default() })
}
