//! What a clerk asks of a book, as it was typed: to open a stream, or to close one.

use crate::account::ENDLESS;
use crate::book::Book;
use crate::frame::{Record, Wish};
use crate::lines;
use crate::mains::Mains;
use crate::text::count;
use crate::trouble::Refusal;
use crate::words::Number;

/// The word that asks for a second route, and the one before the number of an account.
const SECOND: &[u8] = b"second";
pub const ACCOUNT: &[u8] = b"account";
/// The numbers by which the engine refuses an account: it is unknown, or has not enough left.
const NO_ACCOUNT: u8 = 22;
const NOT_ENOUGH: u8 = 23;

/// An open, as it was typed.
pub struct Asked {
    pub id: u16,
    pub source: Number,
    pub destination: Number,
    pub period: Number,
    pub second: bool,
    /// The account that is named, where one is.
    pub account: Option<u16>,
}

/// An open or a close of an id.
pub enum Request {
    Open(Asked),
    Close(u16),
}

/// The words behind the numbers of an open, in either order.
#[derive(Default)]
pub struct Extras<'a> {
    pub second: bool,
    /// What stands for the number of an account.
    pub account: Option<&'a [u8]>,
}

impl<'a> Extras<'a> {
    /// Reads them; none where there is another word, or one again.
    pub fn read(mut words: &[&'a [u8]]) -> Option<Extras<'a>> {
        let mut extras = Extras::default();
        loop {
            words = match words {
                [] => return Some(extras),
                [SECOND, rest @ ..] if !extras.second => {
                    extras.second = true;
                    rest
                }
                [ACCOUNT, number, rest @ ..] if extras.account.is_none() => {
                    extras.account = Some(number);
                    rest
                }
                _ => return None,
            }
        }
    }
}

/// The number of an account; none where the word is no such number.
pub fn account(word: &[u8]) -> Option<u16> {
    lines::number(word).and_then(|number| u16::try_from(number).ok())
}

impl Asked {
    /// What it asks of a book whose streams are of this account where they name none.
    pub fn wish(&self, usual: u16) -> Wish {
        Wish {
            id: self.id,
            source: self.source.node(),
            destination: self.destination.node(),
            period: self.period.tiles(),
            second: self.second,
            account: self.account.unwrap_or(usual),
        }
    }

    /// Why it was refused on this book.
    pub fn refusal(&self, number: u8, book: &Book, mains: Mains) -> Refusal {
        if number == NO_ACCOUNT && self.account.is_none() {
            return unnamed(book);
        }
        let (from, to) = (self.source.0, self.destination.0);
        let missing = if u64::from(book.nodes()) <= from { from } else { to };
        let about = match number {
            1 | 2 => about_id(self.id),
            4 => format!("node {missing}"),
            5 => format!("node {from}"),
            6 => format!("period {}", self.period.0),
            NO_ACCOUNT | NOT_ENOUGH => about_account(self.wish(book.usual_account()).account, book),
            _ => format!("{}, period {}", about_ends(from, to, mains), self.period.0),
        };
        Refusal { number, about, words: None }
    }
}

/// Says that one of several accounts must be named.
fn unnamed(book: &Book) -> Refusal {
    let first = book.accounts.first().unwrap_or(&ENDLESS).number;
    let words = format!("an account must be named, as in: account {first}");
    let about = format!("the book has {}", count(book.accounts.len(), "account"));
    Refusal { number: NO_ACCOUNT, about, words: Some(words) }
}

/// The ends that a refusal is about.
pub fn about_ends(from: u64, to: u64, mains: Mains) -> String {
    format!("from node {from} to node {to}{}", mains.between())
}

/// An id that a refusal is about.
pub fn about_id(id: u16) -> String {
    format!("id {id}")
}

/// An account that a refusal is about, and what is left on it where the book has it.
pub fn about_account(number: u16, book: &Book) -> String {
    let left = book.standing(number).map_or(String::new(), |own| format!(", {} left", own.left()));
    format!("account {number}{left}")
}

impl Request {
    pub fn id(&self) -> u16 {
        match self {
            Request::Open(asked) => asked.id,
            Request::Close(id) => *id,
        }
    }

    /// The request as the engine takes it, for a book whose streams are of this account where they name none.
    pub fn record(&self, usual: u16) -> Record {
        match self {
            Request::Open(asked) => Record::Open(asked.wish(usual)),
            Request::Close(id) => Record::Close(*id),
        }
    }

    /// Why it was refused on this book.
    pub fn refusal(&self, number: u8, book: &Book, mains: Mains) -> Refusal {
        match self {
            Request::Open(asked) => asked.refusal(number, book, mains),
            Request::Close(id) => Refusal { number, about: about_id(*id), words: None },
        }
    }
}
