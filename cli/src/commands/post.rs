//! Does a list of requests in one change of the book.

use super::close::closed;
use super::{Command, Report};
use crate::account::Standing;
use crate::book::{Book, Stream, Way};
use crate::describe;
use crate::engine::Engine;
use crate::files::{self, Held};
use crate::frame::{self, Record, Wish};
use crate::json;
use crate::list::{self, Line};
use crate::loaded::{accepted, decode, is_of_book, opened, unreadable, usual_account};
use crate::mains::Mains;
use crate::request::Request;
use crate::text::{count, plain};
use crate::trouble::{Refusal, Trouble};
use crate::words::{Words, DRY_RUN, JSON, MAINS};
use std::mem;

pub const POST: Command = Command {
    name: "post",
    operands: "BOOK FILE",
    takes: [2, 2],
    choices: &[DRY_RUN, MAINS, JSON],
    summary: "do a list of opens and closes at once",
    explains: "\
Does a list of at most 64 requests in one change of the book. FILE has a line
for each, or is - for standard input; # starts a comment:

  open 7 3 0 10              as open does: id, source, destination, period
  open 8 3 0 10 second       the same with a second route
  open 9 3 0 10 account 3    the same of an account
  close 12                   as close does: id

They are done in turn, each on the book as those above it left it; one that is
refused leaves the book as it was, and the others are done all the same. Prints
what each line got, or why it was refused, and how many were done. Where a line
cannot be read, nothing is done. With --dry-run the book is not changed, and
what is printed is what would be done. With --mains only NODES may stand in the
middle of a route that is opened, be its ends among them or not: numbers with
commas, as in 0,3,5 or 0-3,5, or none. The exit status is 0 where all are done,
and 1 where one is refused.",
    example: "lindurask post kiln.book month.list",
    run,
};

/// What a request that was done changed.
struct Done {
    /// The routes that it opened or closed.
    ways: Vec<Way>,
    /// Their account after it, where the clerk keeps accounts.
    account: Option<Standing>,
}

/// What a request got, or why it was refused.
type Got = Result<Done, Refusal>;

/// A list that the engine worked through.
struct Posting<'a> {
    engine: &'a mut Engine,
    /// The book before.
    image: &'a [u8],
    mains: Mains,
    lines: &'a [Line],
    records: &'a [Record],
    /// The answer to each.
    answers: Vec<u8>,
}

/// The list as it is put to the engine, with the set of nodes on mains.
fn posting(image: &[u8], mains: Mains, records: &[Record]) -> frame::Request {
    frame::post(image, mains.set(image), records)
}

impl Posting<'_> {
    /// A request behind this one closes the stream of this id.
    fn closes_later(&self, place: usize, id: u16) -> bool {
        let mut behind = self.records.iter().zip(&self.answers).skip(place + 1);
        behind.any(|(record, &answer)| {
            answer == 0 && matches!(record, Record::Close(own) if *own == id)
        })
    }

    /// The routes that an open got. Where the book after the list has them no more, the list up to it says which.
    fn opened(&mut self, place: usize, wish: Wish, after: &Book) -> Result<Vec<Way>, Trouble> {
        if !self.closes_later(place, wish.id) {
            return Ok(opened(after, self.mains, wish)?.ways.to_vec());
        }
        let records = &self.records[..=place];
        let answer = self.engine.ask(posting(self.image, self.mains, records))?;
        if answer.answers != self.answers[..=place] {
            return Err(unreadable());
        }
        Ok(opened(&decode(&answer.bytes)?, self.mains, wish)?.ways.to_vec())
    }

    /// What each request got: the book after the list is the one before with this, and with nothing else.
    fn got(&mut self, before: &Book, after: &Book) -> Result<Vec<Got>, Trouble> {
        let mut book = Book { version: after.version, ..before.clone() };
        let mut all = Vec::new();
        for (place, &record) in self.records.iter().enumerate() {
            let ways = match (self.answers[place], record) {
                (0, Record::Open(wish)) => {
                    let ways = self.opened(place, wish, after)?;
                    book.ways.extend_from_slice(&ways);
                    ways
                }
                (0, Record::Close(id)) => {
                    let ways = mem::take(&mut book.ways).into_iter();
                    let (closed, kept) = ways.partition(|way| way.id == id);
                    book.ways = kept;
                    closed
                }
                (number, _) => {
                    all.push(Err(self.lines[place].request.refusal(number, &book, self.mains)));
                    continue;
                }
            };
            let account = ways.first().ok_or_else(unreadable)?.account;
            all.push(Ok(Done { ways, account: book.kept(account) }));
        }
        book.ways.sort_by_key(|way| (way.id, way.number));
        (book == *after).then_some(all).ok_or_else(unreadable)
    }
}

/// What is said of a posting.
struct Told<'a> {
    lines: &'a [Line],
    got: Vec<Got>,
    /// The book after it.
    book: Book,
    /// The book's file is left as it is.
    dry: bool,
}

impl Told<'_> {
    fn done(&self) -> usize {
        self.got.iter().filter(|got| got.is_ok()).count()
    }

    fn changed(&self) -> bool {
        self.done() != 0 && !self.dry
    }

    /// What a line got.
    fn line(&self, line: &Line, got: &Got) -> String {
        let head = format!("line {}: ", line.number);
        let before = |done, tried| format!("{head}{}", if self.dry { tried } else { done });
        match (got, &line.request) {
            (Ok(Done { ways, account }), Request::Open(_)) => {
                let stream = Stream { place: 0, ways };
                let draws = describe::draws(*account, stream);
                describe::stream(&before("opened ", "would open "), stream) + &draws
            }
            (Ok(Done { ways, account }), Request::Close(_)) => {
                closed(&before("closed ", "would close "), Stream { place: 0, ways }, *account)
            }
            (Err(refusal), _) => format!("{head}{}\n", refusal.line()),
        }
    }

    /// How many were done, and what the book is then.
    fn summary(&self) -> String {
        let (done, all) = (self.done(), self.got.len());
        let is_done = if self.dry { "would be done" } else { "done" };
        let mut said = format!("{done} of {} {is_done}", count(all, "request"));
        if all == 0 {
            said = "the list has no request".into();
        } else if done < all {
            said += &format!(", {} refused", all - done);
        }
        let book = match (done, self.dry) {
            (0, _) => "not changed",
            (_, true) => "would be",
            (_, false) => "changed",
        };
        format!("{said}\n{book}: {}", describe::counts(&self.book))
    }

    fn text(&self) -> String {
        let lines = self.lines.iter().zip(&self.got).map(|(line, got)| self.line(line, got));
        lines.collect::<String>() + &self.summary()
    }

    fn line_in_json(&self, line: &Line, got: &Got) -> String {
        let word = match line.request {
            Request::Open(_) => "open",
            Request::Close(_) => "close",
        };
        let head = [
            ("line", line.number.to_string()),
            ("request", json::string(word)),
            ("id", line.request.id().to_string()),
        ];
        let rest = match got {
            Ok(Done { ways, .. }) => {
                vec![("stream", json::stream(&self.book, Stream { place: 0, ways }))]
            }
            Err(refusal) => json::refused(refusal),
        };
        json::object(head.into_iter().chain(rest))
    }

    fn in_json(&self) -> String {
        let lines = self.lines.iter().zip(&self.got);
        let lines = lines.map(|(line, got)| self.line_in_json(line, got));
        let head = [
            ("requests", json::array(lines)),
            ("done", self.done().to_string()),
            ("changed", self.changed().to_string()),
        ];
        json::answer(head.into_iter().chain(json::counts(&self.book)))
    }
}

/// What of a list that is refused as a whole is meant.
fn about(number: u8, words: &Words, requests: usize) -> String {
    if is_of_book(number) {
        return plain(words.path(0));
    }
    format!("{}, {}", files::called(words.path(1)), count(requests, "request"))
}

fn run(words: &Words) -> Result<Report, Trouble> {
    let list = list::read(&files::read_text(words.path(1), "list")?);
    let lines = list.map_err(|fault| Trouble::Misused(fault.said_of(words.path(1))))?;
    let (dry, mains) = (words.has(&DRY_RUN), words.mains()?);
    let mut engine = Engine::start()?;
    let held = if dry { None } else { Some(Held::open(&words.operands[0])?) };
    let image = match &held {
        Some(held) => held.bytes.clone(),
        None => files::read_book(words.path(0))?,
    };
    let usual = usual_account(&image);
    let records: Vec<_> = lines.iter().map(|line| line.request.record(usual)).collect();
    let answer = mains.taken(engine.ask(posting(&image, mains, &records))?, &image)?;
    let about = about(answer.number, words, lines.len());
    let answer = accepted(answer, about)?;
    let before = decode(&image)?;
    let book = if answer.bytes.is_empty() { before.clone() } else { decode(&answer.bytes)? };
    let answers = answer.answers;
    let (image, lines, records) = (&image, &lines, &records);
    let mut posting = Posting { engine: &mut engine, image, mains, lines, records, answers };
    let got = posting.got(&before, &book)?;
    engine.finish()?;
    let told = Told { lines, got, book, dry };
    let text = if words.has(&JSON) { told.in_json() } else { told.text() };
    if let Some(held) = held.filter(|_| told.changed()) {
        held.replace(&answer.bytes)?;
    }
    let refused = told.done() < lines.len();
    Ok(Report { text, changed: told.changed(), refused, ..Report::default() })
}
