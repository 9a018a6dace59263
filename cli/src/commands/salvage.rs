//! Makes a lawful book of what can be kept of a damaged one.

use super::{Command, Report};
use crate::book::Book;
use crate::describe;
use crate::engine::Engine;
use crate::files;
use crate::frame;
use crate::json;
use crate::loaded::decode;
use crate::program::SALVAGE as PROGRAM;
use crate::salvage::{refusal, said_of, Cut, Salvage, CLASHES, FULL};
use crate::text::{count, plain, row};
use crate::trouble::{meaning, Trouble};
use crate::words::{Words, JSON, RAW};

pub const SALVAGE: Command = Command {
    name: "salvage",
    operands: "BAD NEW",
    takes: [2, 2],
    choices: &[RAW, JSON],
    summary: "keep what can be kept of a damaged book",
    explains: "\
Makes the book NEW, in the same version, of what can be kept of a book that is
damaged: cut short, overwritten, or put together from others. Rows are taken in
their stored order, as long as one can be cut out by its hop count; each that is
lawful beside those kept is kept, and every other one is dropped. Says which
streams are kept, which rows are dropped and why, and how many bytes behind the
last row are lost. A lawful book comes through as it is. A file that is there
already is never replaced, and BAD is not changed. BAD has at most 65535 bytes.
--raw prints the lines of the proved program as they are. The exit status is 0
where BAD comes through as it is, and 1 where something is dropped or lost, or
is not what the head states; and 1 too where the head or the links are damaged:
then the book is refused, and NEW is not made.",
    example: "lindurask salvage laptop.book kiln.book",
    run,
};

/// Why a row is dropped, in words.
fn why(reason: u8) -> &'static str {
    match reason {
        FULL => meaning(FULL),
        CLASHES => "a hop clashes and meets with one that is kept",
        _ => "no lawful row behind those that are kept",
    }
}

/// A row that is dropped; rows are counted from 1 on.
fn dropped((place, cut): (usize, &Cut)) -> String {
    cut.reason.map_or(String::new(), |reason| {
        format!("dropped row {}, stream {}: {reason}: {}\n", place + 1, cut.id, why(reason))
    })
}

/// The streams that are kept.
fn kept(book: &Book) -> String {
    let ids: Vec<u16> = book.streams().map(|stream| stream.first().id).collect();
    if ids.is_empty() {
        return "kept no stream\n".into();
    }
    let streams = format!("{}{}", count(ids.len(), "stream"), describe::with_routes(book));
    row(&format!("kept {streams}:"), ids)
}

/// What is lost behind the last row.
fn lost(salvage: &Salvage) -> String {
    match salvage.lost {
        0 => "no bytes are lost behind the last row\n".into(),
        lost => format!("lost {} behind the last row\n", count(lost, "byte")),
    }
}

/// What the head stated, where that is not what is kept.
fn stated(salvage: &Salvage, book: &Book) -> String {
    let [routes, hops] = salvage.stated();
    if [routes, hops] == [book.ways.len(), book.hops()] {
        return String::new();
    }
    format!("its head stated {} and {}\n", count(routes, "route"), count(hops, "hop"))
}

fn text(salvage: &Salvage, book: &Book, is_whole: bool) -> String {
    let dropped: String = salvage.cuts.iter().enumerate().map(dropped).collect();
    let less = match is_whole {
        true => "nothing is dropped, nothing is lost\n".into(),
        false => dropped + &lost(salvage) + &stated(salvage, book),
    };
    format!("{}{less}made: {}", kept(book), describe::counts(book))
}

fn cut_in_json(cut: &Cut) -> String {
    let refusal = cut.reason.map_or(vec![], |reason| json::refusal(reason, why(reason)));
    let head = [("id", cut.id.to_string()), ("kept", cut.reason.is_none().to_string())];
    json::object(head.into_iter().chain(refusal))
}

fn in_json(salvage: &Salvage, book: &Book) -> String {
    let [routes, hops] = salvage.stated();
    let stated = json::object([("routes", routes.to_string()), ("hops", hops.to_string())]);
    let head = [
        ("rows", json::array(salvage.cuts.iter().map(cut_in_json))),
        ("lost", salvage.lost.to_string()),
        ("stated", stated),
    ];
    json::answer(head.into_iter().chain(json::counts(book)))
}

/// The book of what is kept, which the engine calls lawful.
fn checked(salvage: &Salvage) -> Result<(Vec<u8>, Book), Trouble> {
    let bytes = salvage.book();
    let mut engine = Engine::start()?;
    let answer = engine.ask(frame::check(&bytes))?;
    engine.finish()?;
    if answer.number != 0 {
        return Err(PROGRAM.no_answer());
    }
    let book = decode(&bytes)?;
    Ok((bytes, book))
}

fn run(words: &Words) -> Result<Report, Trouble> {
    let (raw, in_words) = (words.has(&RAW), !words.has(&JSON));
    if raw && !in_words {
        return Err(SALVAGE.misused());
    }
    let image = files::read_image(words.path(0), "a salvage")?;
    let said = said_of(&image)?;
    match refusal(&said) {
        Some(_) if raw => return Ok(Report { text: said, refused: true, ..Report::default() }),
        Some(number) => return Err(Trouble::refused(number, plain(words.path(0)))),
        None => {}
    }
    let salvage = Salvage::read(&said, &image)?;
    let (bytes, book) = checked(&salvage)?;
    files::make(words.path(1), &bytes)?;
    let is_whole = bytes == image;
    let text = match in_words {
        true if raw => said,
        true => text(&salvage, &book, is_whole),
        false => in_json(&salvage, &book),
    };
    Ok(Report { text, changed: true, refused: !is_whole, ..Report::default() })
}
