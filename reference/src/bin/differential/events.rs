//! What must have happened in a run, beside every number of every call.

use reference::book::Book;
use reference::calls::{MAX_LISTED, MAX_RECORDS};
use reference::frame::{Answer, Call, Request};
use reference::image;
use reference::plan::LONGEST_QUICK_PERIOD;
use reference::record::{RECORD_BYTES, Record};
use reference::refusal::{DONE, Refusal};
use reference::version::Version;

const NO_ROUTE: &str = "route lists without a route";
const FEW_ROUTES: &str = "route lists of 1 to 31";
const ALL_LISTED: &str = "route lists of just 32";
const MORE_EXIST: &str = "route lists where more exist";
const OLDER_READ: &str = "calls done on a book of an older version";
const OLDER_KEPT: &str = "older versions kept by a rewrite";
const OLDER_CHANGED: &str = "older versions written in the newest by a change";
const SECOND_OPENED: &str = "second routes opened";
const BOTH_CLOSED: &str = "streams closed with both their routes";
const HEARD_FURTHER: &str = "calls done on a book that hears further than its links";
const KEPT: &str = "books that keep to a mains set";
const NOT_KEPT: &str = "books that do not keep to a mains set";
const SHORT_INDEX: &str = "postings refused for a short index";
const SLOW_READ: &str = "calls done on a book with a period over 100";
const LATE_TILES: &str = "tables of tiles from 100 on";
const ALL_KEPT: &str = "salvages that kept every row";
const DROPPED_15: &str = "salvages that dropped a row for 15";
const DROPPED_8: &str = "salvages that dropped a row for 8";
const DROPPED_16: &str = "salvages that dropped a row for 16";
const BYTES_LOST: &str = "salvages that lost bytes";
const EMPTY_LIST: &str = "postings of an empty list";
const NONE_DONE: &str = "postings of which no record was done";
const ALL_DONE: &str = "postings of which every record was done";
const SOME_DONE: &str = "postings of which some records were done";
const LONGEST_LIST: &str = "postings of 64 records";
const NO_LINKS: &str = "nodes without a link";
const MOST_LINKS: &str = "nodes with 63 links";

pub const EVENTS: [&str; 27] = [
    NO_ROUTE,
    FEW_ROUTES,
    ALL_LISTED,
    MORE_EXIST,
    OLDER_READ,
    OLDER_KEPT,
    OLDER_CHANGED,
    SECOND_OPENED,
    BOTH_CLOSED,
    HEARD_FURTHER,
    KEPT,
    NOT_KEPT,
    SHORT_INDEX,
    SLOW_READ,
    LATE_TILES,
    ALL_KEPT,
    DROPPED_15,
    DROPPED_8,
    DROPPED_16,
    BYTES_LOST,
    EMPTY_LIST,
    NONE_DONE,
    ALL_DONE,
    SOME_DONE,
    LONGEST_LIST,
    NO_LINKS,
    MOST_LINKS,
];

/// The events of one call.
pub fn events(request: &Request, answer: &Answer) -> Vec<&'static str> {
    let full_size = usize::from(request.room) >= Version::NEWEST.longest_image();
    match answer.number {
        DONE => {}
        12 if request.call == Call::Post && full_size => return vec![SHORT_INDEX],
        _ => return Vec::new(),
    }
    if request.call == Call::Salvage {
        return salvage_events(answer);
    }
    // The bytes of a new book are its links.
    let Ok((version, book)) = image::read(&request.bytes) else { return Vec::new() };
    let older = version < Version::NEWEST;
    let mut events = match request.call {
        Call::Routes => vec![routes_event(answer)],
        Call::Rewrite if older => vec![OLDER_KEPT],
        Call::Open | Call::Close if older => vec![OLDER_CHANGED],
        Call::Post => post_events(answer),
        Call::KeepsTo => vec![if answer.counts[0] == 1 { KEPT } else { NOT_KEPT }],
        Call::Links => links_event(answer),
        _ => Vec::new(),
    };
    events.extend(book_events(request, older, &book));
    events
}

/// What the book of a call that was done is like.
fn book_events(request: &Request, older: bool, book: &Book) -> Vec<&'static str> {
    let slow = book.rows.iter().any(|row| row.period > LONGEST_QUICK_PERIOD);
    let closes = request.call == Call::Close;
    let happened = [
        (older, OLDER_READ),
        (book.topology.hearing != book.topology.links, HEARD_FURTHER),
        (slow, SLOW_READ),
        (request.call == Call::Expand && request.first >= 100, LATE_TILES),
        (request.call == Call::Open && request.second, SECOND_OPENED),
        (closes && rows_of(book, request.id) == 2, BOTH_CLOSED),
    ];
    happened.into_iter().filter(|(so, _)| *so).map(|(_, event)| event).collect()
}

fn routes_event(answer: &Answer) -> &'static str {
    let [_, more, _] = answer.counts;
    let mut rest = answer.written();
    let mut listed = 0;
    while let Some(&hops) = rest.first() {
        rest = &rest[usize::from(hops) + 2..];
        listed += 1;
    }
    match (listed, more) {
        (_, 1) => MORE_EXIST,
        (0, _) => NO_ROUTE,
        (MAX_LISTED, _) => ALL_LISTED,
        _ => FEW_ROUTES,
    }
}

fn salvage_events(answer: &Answer) -> Vec<&'static str> {
    let [_, rows, lost] = answer.counts;
    let reasons: Vec<u8> =
        answer.beside.chunks(3).take(rows as usize).map(|line| line[0]).collect();
    let dropped = |reason: Refusal| reasons.contains(&(reason as u8));
    let happened = [
        (reasons.iter().all(|&reason| reason == DONE), ALL_KEPT),
        (dropped(Refusal::UnlawfulRows), DROPPED_15),
        (dropped(Refusal::BookIsFull), DROPPED_8),
        (dropped(Refusal::ClashingHopsMeet), DROPPED_16),
        (lost > 0, BYTES_LOST),
    ];
    happened.into_iter().filter(|(so, _)| *so).map(|(_, event)| event).collect()
}

fn post_events(answer: &Answer) -> Vec<&'static str> {
    let records: Vec<Record> =
        answer.records.chunks_exact(RECORD_BYTES).map(Record::read).collect();
    let done = records.iter().filter(|record| record.answer == DONE).count();
    let mut events = vec![match done {
        _ if records.is_empty() => EMPTY_LIST,
        0 => NONE_DONE,
        _ if done == records.len() => ALL_DONE,
        _ => SOME_DONE,
    }];
    if records.len() == MAX_RECORDS {
        events.push(LONGEST_LIST);
    }
    events
}

fn links_event(answer: &Answer) -> Vec<&'static str> {
    match answer.counts[0] {
        0 => vec![NO_LINKS],
        63 => vec![MOST_LINKS],
        _ => Vec::new(),
    }
}

/// The rows of a stream.
fn rows_of(book: &Book, id: u16) -> usize {
    book.rows.iter().filter(|row| row.id == id).count()
}
