//! Draws a book as a page for a browser.

use super::{Command, Report};
use crate::files;
use crate::loaded::{unreadable, Loaded};
use crate::page::{agrees, page};
use crate::text::plain;
use crate::tiles::Tiles;
use crate::trouble::Trouble;
use crate::words::Words;

pub const PAGE: Command = Command {
    name: "page",
    operands: "BOOK [FILE]",
    takes: [1, 2],
    choices: &[],
    summary: "draw a book as a page for a browser",
    explains: "\
Draws the book as one HTML page: the site and its routes, the slots of the
cycle, the streams, what each node has left, and the accounts where the book has
any. Of the slots it draws the tiles up to where they repeat, at most 100, and
names the streams with later hops. The page goes to FILE, or to standard output.
A file that is there already is never replaced.",
    example: "lindurask page kiln.book kiln.html",
    run,
};

fn run(words: &Words) -> Result<Report, Trouble> {
    let path = words.path(0);
    let mut loaded = Loaded::read(path)?;
    let nodes = loaded.nodes(None)?;
    let balances = loaded.balances(&nodes)?;
    let tiles = Tiles::repeat(&[&loaded.book]);
    let tables = loaded.tables(&nodes, tiles, "")?;
    loaded.engine.finish()?;
    if !agrees(&loaded.book, tiles, &tables) {
        return Err(unreadable());
    }
    let title = plain(path.file_name().unwrap_or(path.as_os_str()));
    let drawn = page(&title, &loaded.book, &balances);
    if words.operands.len() < 2 {
        return Ok(drawn.into());
    }
    let file = words.path(1);
    files::make(file, drawn.as_bytes())?;
    let text = format!("made: {}\n", plain(file));
    Ok(Report { text, changed: true, ..Report::default() })
}
