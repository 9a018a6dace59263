//! Closes a stream.

use super::{Command, Report};
use crate::account::Standing;
use crate::book::{Stream, Way};
use crate::describe::{self, INDENT};
use crate::engine::Engine;
use crate::files::Held;
use crate::frame;
use crate::loaded::{accepted, decode, is_of_book};
use crate::request::about_id;
use crate::text::{count, plain};
use crate::trouble::Trouble;
use crate::words::Words;

pub const CLOSE: Command = Command {
    name: "close",
    operands: "BOOK ID",
    takes: [2, 2],
    choices: &[],
    summary: "close a stream",
    explains: "\
Closes the stream with both its routes, and says what each gives back, and what
its account gets back where the book has accounts. No other stream changes.",
    example: "lindurask close kiln.book 7",
    run,
};

/// A route that was closed, and what it gives back.
fn closed_route(before: &str, way: &Way) -> String {
    let slots = count(way.repeats(), "slot");
    let hops = count(way.hops(), "hop");
    let before = if way.is_second() { INDENT } else { before };
    describe::route(before, way)
        + &format!("{INDENT}gives back {slots} in a cycle for each of {hops}\n")
}

/// A stream that was closed, in its line, with what its routes give back, and what its account gets, which is kept.
pub fn closed(before: &str, stream: Stream, account: Option<Standing>) -> String {
    let routes: String = stream.ways.iter().map(|way| closed_route(before, way)).collect();
    routes + &describe::gives_back(account, stream)
}

fn run(words: &Words) -> Result<Report, Trouble> {
    let id = words.id(1)?;
    let mut engine = Engine::start()?;
    let held = Held::open(&words.operands[0])?;
    let answer = engine.ask(frame::close(&held.bytes, id))?;
    let about = if is_of_book(answer.number) { plain(words.path(0)) } else { about_id(id) };
    let bytes = accepted(answer, about)?.bytes;
    let (before, after) = (decode(&held.bytes)?, decode(&bytes)?);
    engine.finish()?;
    let stream = before.stream(id).filter(|_| after.stream(id).is_none());
    let text = stream
        .map(|stream| closed("closed ", stream, after.kept(stream.account())))
        .ok_or_else(|| Trouble::Failed("the engine closed another stream".into()))?;
    held.replace(&bytes)?;
    Ok(Report { text, changed: true, ..Report::default() })
}
