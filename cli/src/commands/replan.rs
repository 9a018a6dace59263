//! Makes a new book from another plan, with the streams of a book opened anew.

use super::new::{planned, warnings};
use super::{Command, Report};
use crate::book::{Book, Stream};
use crate::describe::{self, INDENT};
use crate::engine::Engine;
use crate::files;
use crate::frame::{self, Wish};
use crate::loaded::{decode, opened, Loaded};
use crate::mains::Mains;
use crate::request::about_account;
use crate::text::count;
use crate::trouble::{meaning, Trouble};
use crate::words::Words;

pub const REPLAN: Command = Command {
    name: "replan",
    operands: "BOOK PLAN NEW",
    takes: [3, 3],
    choices: &[],
    summary: "open the streams anew in another plan",
    explains: "\
Makes the book NEW from another plan, with the streams of BOOK opened anew in
the order of their ids, those with a second route with one again. Prints what
each got, and which no longer has a place. The exit status is 0 where all have a
place, and 1 where one has none; NEW is made all the same. BOOK is not changed.
PLAN is a file, or - for standard input. A yard that learns later who hears whom
adds the hear lines to its plan, and opens its streams anew by it. The accounts
are those of the plan, and each stream stays with the number of its account.",
    example: "lindurask replan kiln.book wider.plan wider.book",
    run,
};

/// What a stream of the old book asks of the new one.
fn wish(stream: Stream) -> Wish {
    let first = stream.first();
    let ends = (first.nodes.first(), first.nodes.last());
    let (Some(&source), Some(&destination)) = ends else { unreachable!("a route has nodes") };
    let second = stream.second().is_some();
    let (id, period, account) = (first.id, first.period, stream.account());
    Wish { id, source, destination, period, second, account }
}

/// A stream of the old book that the new one has no place for.
fn placeless(wish: Wish, number: u8, book: &Book) -> String {
    let Wish { id, source, destination, period, second, account } = wish;
    let period = count(period, "tile");
    let with = if second { ", two routes" } else { "" };
    let about = match number {
        22 | 23 => format!(" ({})", about_account(account, book)),
        _ => String::new(),
    };
    format!(
        "no place for stream {id}: period {period}, from node {source} to node {destination}{with}\n{INDENT}refused {number}: {}{about}\n",
        meaning(number),
    )
}

/// Opens the streams in the new book; gives its bytes and what each got.
fn reopen(
    engine: &mut Engine,
    old: &Book,
    mut bytes: Vec<u8>,
) -> Result<(Vec<u8>, String), Trouble> {
    let mut said = String::new();
    for stream in old.streams() {
        let wish = wish(stream);
        let answer = engine.ask(frame::open(&bytes, wish))?;
        if answer.number != 0 {
            said += &placeless(wish, answer.number, &decode(&bytes)?);
            continue;
        }
        bytes = answer.bytes;
        let book = decode(&bytes)?;
        let stream = opened(&book, Mains::All, wish)?;
        said += &describe::stream("opened ", stream);
        said += &describe::draws(book.kept(wish.account), stream);
    }
    Ok((bytes, said))
}

fn run(words: &Words) -> Result<Report, Trouble> {
    let Loaded { book: old, mut engine, .. } = Loaded::read(words.path(0))?;
    let empty = planned(&mut engine, words.path(1))?;
    let (bytes, said) = reopen(&mut engine, &old, empty)?;
    let book = decode(&bytes)?;
    engine.finish()?;
    files::make(words.path(2), &bytes)?;
    let (placed, all) = (book.streams().count(), old.streams().count());
    let kept = format!("{placed} of {} have a place\n", count(all, "stream"));
    let text = format!("{said}{kept}made: {}", describe::counts(&book));
    let refused = placed < all;
    let warnings = warnings(&book);
    Ok(Report { text, warnings, changed: true, refused, ..Report::default() })
}
