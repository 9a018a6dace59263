//! A list of requests as a person types it, a line for each.

use crate::account::WHAT_ACCOUNT;
use crate::lines::{fault, lines, number, numbers, Fault};
use crate::request::{account, Asked, Extras, Request};
use crate::words::{Number, WHAT_ID};

/// How a line is written, for one who wrote it otherwise.
const STARTS: &str = "a line starts with open or close";
const AS_OPEN: &str =
    "write open, an id, two nodes and a period, as in: open 7 3 0 10, or open 7 3 0 10 second, \
                       or open 7 3 0 10 account 3";
/// The numbers of an open.
const NUMBERS: usize = 4;
const AS_CLOSE: &str = "write close and one id, as in: close 12";

/// A request, and the line that it stands in.
pub struct Line {
    pub number: usize,
    pub request: Request,
}

/// Reads a list, whole or not at all.
pub fn read(text: &[u8]) -> Result<Vec<Line>, Fault> {
    let lines = lines(text).filter(|(_, words)| !words.is_empty());
    lines.map(|(number, words)| Ok(Line { number, request: request(number, &words)? })).collect()
}

/// What one line asks for.
fn request(line: usize, words: &[&[u8]]) -> Result<Request, Fault> {
    match words {
        [b"open", rest @ ..] => open(line, rest),
        [b"close", id] => match number(id) {
            Some(id) => Ok(Request::Close(as_id(line, id)?)),
            None => fault(line, AS_CLOSE),
        },
        [b"close", ..] => fault(line, AS_CLOSE),
        _ => fault(line, STARTS),
    }
}

/// The open that the words behind that word ask for.
fn open(line: usize, words: &[&[u8]]) -> Result<Request, Fault> {
    let (words, behind) = words.split_at(words.len().min(NUMBERS));
    let (Some([id, source, destination, period]), Some(extras)) =
        (numbers(words), Extras::read(behind))
    else {
        return fault(line, AS_OPEN);
    };
    let id = as_id(line, id)?;
    let [source, destination, period] = [source, destination, period].map(Number);
    let account = extras.account.map(|word| as_account(line, word)).transpose()?;
    Ok(Request::Open(Asked { id, source, destination, period, second: extras.second, account }))
}

fn as_id(line: usize, id: u64) -> Result<u16, Fault> {
    u16::try_from(id).or_else(|_| fault(line, WHAT_ID))
}

fn as_account(line: usize, word: &[u8]) -> Result<u16, Fault> {
    account(word).map_or_else(|| fault(line, WHAT_ACCOUNT), Ok)
}
