//! Frames: what is put to the engine and what it answers, as bytes. All numbers are big-endian.

use crate::book::{stated_slots, Book};
use crate::index;
use crate::tiles::Tiles;

/// Bytes of a request before its book or links; what no call here uses is 0.
const REQUEST_HEAD: usize = 44;
/// Bytes of an answer before its output buffer.
pub const ANSWER_HEAD: usize = 13;
/// The longest run of bytes that a request carries beside tables.
pub const MOST_BYTES: usize = 4096;
/// The most bytes of tables that a request carries: their length is a number of two bytes.
pub const MOST_TABLES: usize = 620_000;
/// What every byte of an output buffer is before the call.
const FILL: u8 = 0xA5;
/// Room for any book: more than the longest has, which a change asks for whatever it writes.
const BOOK_ROOM: u16 = 4096;
/// The most requests that a list has.
const MOST_REQUESTS: usize = 64;
/// Bytes of a request in a list; the last is its answer.
const RECORD: usize = 11;
/// Bytes of a word of an index.
const WORD: usize = 8;
/// Bytes of a table's entry: an operation and a stream's id.
pub const ENTRY: usize = 3;
/// Room for 32 routes of a hop byte and 7 nodes.
const LIST_ROOM: u16 = 256;

/// The calls that are put, by their number.
#[derive(Clone, Copy, PartialEq, Eq)]
#[repr(u8)]
enum Call {
    New = 0,
    Check = 1,
    Open = 3,
    Close = 4,
    Expand = 5,
    Balance = 6,
    Routes = 7,
    Post = 8,
    KeepsTo = 9,
    Purchase = 10,
    BookOf = 12,
    Links = 13,
    End = 255,
}

/// What a new book is made from.
pub struct Site {
    pub slots: u8,
    pub tiles: u8,
    pub kinds: u16,
    pub down: u8,
    pub up: u8,
    pub nodes: u8,
    /// A row of neighbours for each node, as in a book.
    pub links: Vec<u8>,
    /// A row of the nodes that it hears for each node, as in a book.
    pub hearing: Vec<u8>,
    /// The accounts, as in a book, without their count.
    pub accounts: Vec<u8>,
}

/// What an open asks for.
#[derive(Clone, Copy)]
pub struct Wish {
    pub id: u16,
    pub source: u8,
    pub destination: u8,
    pub period: u16,
    /// A second route is asked for.
    pub second: bool,
    /// The number of the account that it draws from.
    pub account: u16,
}

/// A request of a list.
#[derive(Clone, Copy)]
pub enum Record {
    Open(Wish),
    /// Closes the stream of this id.
    Close(u16),
}

/// A call in bytes, and what it lends: room for the answer, records, and an index.
pub struct Request {
    pub bytes: Vec<u8>,
    room: usize,
    /// How many of its bytes, the last, are records.
    lent: usize,
    /// Bytes of the index.
    index: usize,
}

/// What a call gave back.
pub struct Answer {
    /// 0, or why it was refused.
    pub number: u8,
    /// A length and two zeros, a list's length, 1 where more exist and a zero, data, used and free, links and two zeros,
    /// or 1 where a book keeps to a set and two zeros.
    pub counts: [u32; 3],
    /// What was written.
    pub bytes: Vec<u8>,
    /// The answer to each request of a list.
    pub answers: Vec<u8>,
}

impl Answer {
    /// The answer to the only request of a list, or to a call that is none.
    pub fn of_one(self) -> Answer {
        match self.answers[..] {
            [number] => Answer { number, ..self },
            _ => self,
        }
    }
}

/// A call with all its fields 0 and these bytes behind them.
fn blank(call: Call, bytes: &[u8], room: u16) -> Request {
    let mut head = vec![0; REQUEST_HEAD];
    head[0] = call as u8;
    head[14..16].copy_from_slice(&(bytes.len() as u16).to_be_bytes());
    head[16..18].copy_from_slice(&room.to_be_bytes());
    head[18] = FILL;
    head.extend(bytes);
    Request { bytes: head, room: room.into(), lent: 0, index: 0 }
}

impl Record {
    /// The request in bytes, with an answer that is none.
    fn bytes(self) -> [u8; RECORD] {
        let (opens, wish) = match self {
            Record::Open(wish) => (true, wish),
            Record::Close(id) => (
                false,
                Wish { id, source: 0, destination: 0, period: 0, second: false, account: 0 },
            ),
        };
        let mut bytes = [0; RECORD];
        bytes[..2].copy_from_slice(&[opens, wish.second].map(u8::from));
        bytes[2..4].copy_from_slice(&[wish.source, wish.destination]);
        bytes[4..6].copy_from_slice(&wish.id.to_be_bytes());
        bytes[6..8].copy_from_slice(&wish.period.to_be_bytes());
        bytes[8..10].copy_from_slice(&wish.account.to_be_bytes());
        bytes[RECORD - 1] = FILL;
        bytes
    }
}

pub fn new(site: &Site) -> Request {
    of_site(Call::New, site, &site.accounts)
}

/// Asks for the book that expands to these tables, node 0 first, which are not more than a request carries.
pub fn book_of(site: &Site, tables: &[u8]) -> Request {
    of_site(Call::BookOf, site, tables)
}

/// A call with a site, and these bytes behind its topologies.
fn of_site(call: Call, site: &Site, further: &[u8]) -> Request {
    let mut request = blank(call, &site.links, BOOK_ROOM);
    let head = &mut request.bytes;
    head[7..9].copy_from_slice(&[site.slots, site.tiles]);
    head[9..11].copy_from_slice(&site.kinds.to_be_bytes());
    head[11..14].copy_from_slice(&[site.down, site.up, site.nodes]);
    head[38..40].copy_from_slice(&(site.hearing.len() as u16).to_be_bytes());
    head[40..42].copy_from_slice(&(further.len() as u16).to_be_bytes());
    head[42..44].copy_from_slice(&((further.len() >> 16) as u16).to_be_bytes());
    head.extend(site.hearing.iter().chain(further));
    request
}

pub fn check(book: &[u8]) -> Request {
    blank(Call::Check, book, 0)
}

pub fn open(book: &[u8], wish: Wish) -> Request {
    let mut request = blank(Call::Open, book, BOOK_ROOM);
    let head = &mut request.bytes;
    head[1..3].copy_from_slice(&wish.id.to_be_bytes());
    head[3..5].copy_from_slice(&[wish.source, wish.destination]);
    head[5..7].copy_from_slice(&wish.period.to_be_bytes());
    head[19] = u8::from(wish.second);
    head[20..22].copy_from_slice(&wish.account.to_be_bytes());
    request
}

pub fn close(book: &[u8], id: u16) -> Request {
    let mut request = blank(Call::Close, book, BOOK_ROOM);
    request.bytes[1..3].copy_from_slice(&id.to_be_bytes());
    request
}

/// Buys so many hop uses in a cycle for an account.
pub fn purchase(book: &[u8], account: u16, amount: u32) -> Request {
    let mut request = blank(Call::Purchase, book, BOOK_ROOM);
    request.bytes[20..22].copy_from_slice(&account.to_be_bytes());
    request.bytes[34..38].copy_from_slice(&amount.to_be_bytes());
    request
}

/// Asks for these tiles of a node's table, which are not more than it is asked for at once.
pub fn expand(book: &[u8], node: u8, tiles: Tiles) -> Request {
    let room = ENTRY * usize::from(tiles.count) * usize::from(stated_slots(book));
    let mut request = blank(Call::Expand, book, room as u16);
    request.bytes[3] = node;
    request.bytes[22..24].copy_from_slice(&tiles.first.to_be_bytes());
    request.bytes[24..26].copy_from_slice(&tiles.count.to_be_bytes());
    request
}

pub fn balance(book: &[u8], node: u8) -> Request {
    let mut request = blank(Call::Balance, book, 0);
    request.bytes[3] = node;
    request
}

pub fn links(book: &[u8], node: u8) -> Request {
    let mut request = blank(Call::Links, book, 0);
    request.bytes[3] = node;
    request
}

/// A call with the set of nodes that may stand in the middle of a route.
fn with_set(call: Call, book: &[u8], mains: u64, room: u16) -> Request {
    let mut request = blank(call, book, room);
    request.bytes[26..34].copy_from_slice(&mains.to_be_bytes());
    request
}

pub fn routes(book: &[u8], mains: u64, source: u8, destination: u8) -> Request {
    let mut request = with_set(Call::Routes, book, mains, LIST_ROOM);
    request.bytes[3..5].copy_from_slice(&[source, destination]);
    request
}

/// Asks whether every route of the book keeps to the set.
pub fn keeps_to(book: &[u8], mains: u64) -> Request {
    with_set(Call::KeepsTo, book, mains, 0)
}

/// Posts a list. One that is too long is cut behind the first request too many, and refused for that one.
pub fn post(book: &[u8], mains: u64, list: &[Record]) -> Request {
    let mut request = with_set(Call::Post, book, mains, BOOK_ROOM);
    let list = &list[..list.len().min(MOST_REQUESTS + 1)];
    let words = index::words(stated_slots(book));
    (request.lent, request.index) = (RECORD * list.len(), WORD * words);
    request.bytes[40..42].copy_from_slice(&(request.lent as u16).to_be_bytes());
    request.bytes[42..44].copy_from_slice(&(words as u16).to_be_bytes());
    request.bytes.extend(list.iter().flat_map(|record| record.bytes()));
    request
}

/// The frame that ends the stream.
pub fn end() -> Request {
    let mut bytes = vec![0; REQUEST_HEAD];
    bytes[0] = Call::End as u8;
    Request { bytes, room: 0, lent: 0, index: 0 }
}

impl Request {
    fn is(&self, call: Call) -> bool {
        self.bytes[0] == call as u8
    }

    /// The bytes of its answer behind the head: what it was lent.
    pub fn answered(&self) -> usize {
        self.room + self.lent + self.index
    }

    /// Reads the answer to this request; none where the bytes cannot be one.
    pub fn read(&self, head: &[u8; ANSWER_HEAD], lent: &[u8]) -> Option<Answer> {
        let count = |at: usize| u32::from_be_bytes(head[at..at + 4].try_into().expect("four"));
        let counts = [count(1), count(5), count(9)];
        let (out, lent) = lent.split_at_checked(self.room)?;
        let (records, index) = lent.split_at_checked(self.lent)?;
        let answers = self.read_records(head[0], records)?;
        let answer = Answer { number: head[0], counts, bytes: vec![], answers };
        let judged = self.is(Call::KeepsTo);
        let counted = self.is(Call::Balance) || self.is(Call::Links) || judged;
        let length = if counted { 0 } else { answer.counts[0] as usize };
        let told = answer.number == 0 || answer.counts == [0; 3];
        let marked = self.is(Call::Routes) && answer.counts[1..] == [1, 0];
        let others = self.is(Call::Balance) || marked || answer.counts[1..] == [0; 2];
        let known = crate::refusals::words(answer.number).is_some();
        let changed = answer.answers.contains(&0);
        let written = !self.is(Call::Post) || changed == (length != 0);
        if !told
            || !others
            || !known
            || !written
            || judged && 1 < answer.counts[0]
            || out.len() < length
            || out[length..].iter().any(|&b| b != FILL)
        {
            return None;
        }
        let answer = Answer { bytes: out[..length].into(), ..answer };
        self.bears_out(index, &answer).then_some(answer)
    }

    /// The index is what the rows say of the book that a list leaves; a list that is refused leaves it alone.
    fn bears_out(&self, index: &[u8], answer: &Answer) -> bool {
        if answer.number != 0 || !self.is(Call::Post) {
            return index.iter().all(|&b| b == FILL);
        }
        let sent = &self.bytes[REQUEST_HEAD..self.bytes.len() - self.lent];
        let left = if answer.bytes.is_empty() { sent } else { &answer.bytes };
        let words = |book: Book| index::of(&book).into_iter().flat_map(u64::to_be_bytes);
        Book::decode(left).is_some_and(|book| words(book).eq(index.iter().copied()))
    }

    /// The answers in the records of a list, which otherwise are as they were; a list that is refused has none.
    fn read_records(&self, number: u8, records: &[u8]) -> Option<Vec<u8>> {
        let sent = &self.bytes[self.bytes.len() - self.lent..];
        if number != 0 {
            return (records == sent).then(Vec::new);
        }
        let answer = |(sent, got): (&[u8], &[u8])| {
            let (&answer, rest) = got.split_last()?;
            let is_answer = sent.starts_with(rest) && crate::refusals::words(answer).is_some();
            is_answer.then_some(answer)
        };
        let answers = sent.chunks(RECORD).zip(records.chunks(RECORD)).map(answer);
        answers.collect::<Option<Vec<_>>>().filter(|all| all.len() <= MOST_REQUESTS)
    }
}
