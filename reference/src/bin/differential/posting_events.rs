//! What must have happened in a run with postings.

use reference::book::Book;
use reference::calls::MAX_RECORDS;
use reference::frame::{Answer, Call, Request};
use reference::image;
use reference::node_set::NodeSet;
use reference::record::{RECORD_BYTES, Record};
use reference::refusal::DONE;
use reference::version::Version;

const REFUSED_BETWEEN: &str = "postings with a refused record between two that were done";
const OLDER_CHANGED: &str = "older versions written in the newest by a posting";
const OLDER_LEFT: &str = "postings to an older version of which no record was done";
const SECOND_OPENED: &str = "second routes opened by a posting";
const BOTH_CLOSED: &str = "streams closed with both their routes by a posting";
const OPENED_AND_CLOSED: &str = "streams opened and closed by one posting";
const CLOSED_AND_OPENED: &str = "streams closed and opened again by one posting";
const SHORTER_LAST: &str = "postings whose last change is a close";
const AS_IT_WAS: &str = "postings that write the book as it was";
const SPOILT_2: &str = "records refused with 2 for one before them";
const SPOILT_3: &str = "records refused with 3 for one before them";
const SPOILT_8: &str = "records refused with 8 for one before them";
const SPOILT_9: &str = "records refused with 9 for one before them";
const SPOILT_23: &str = "records refused with 23 for one before them";
const HELPED_2: &str = "records done that are refused alone with 2";
const HELPED_3: &str = "records done that are refused alone with 3";
const HELPED_8: &str = "records done that are refused alone with 8";
const HELPED_9: &str = "records done that are refused alone with 9";
const HELPED_23: &str = "records done that are refused alone with 23";
const IMAGE_FIRST: &str = "images refused where the list is too long as well";
const LIST_FIRST: &str = "26 where the buffer is too short as well";
const NOTHING_TO_DO: &str = "12 of a posting of which no record could be done";
const REFUSED_ANYWAY: &str = "12 of an open or a close that is refused anyway";
const LONG_ENOUGH: &str = "12 of an open or a close whose book would have had room";

pub const POSTING_EVENTS: [&str; 24] = [
    REFUSED_BETWEEN,
    OLDER_CHANGED,
    OLDER_LEFT,
    SECOND_OPENED,
    BOTH_CLOSED,
    OPENED_AND_CLOSED,
    CLOSED_AND_OPENED,
    SHORTER_LAST,
    AS_IT_WAS,
    SPOILT_2,
    SPOILT_3,
    SPOILT_8,
    SPOILT_9,
    SPOILT_23,
    HELPED_2,
    HELPED_3,
    HELPED_8,
    HELPED_9,
    HELPED_23,
    IMAGE_FIRST,
    LIST_FIRST,
    NOTHING_TO_DO,
    REFUSED_ANYWAY,
    LONG_ENOUGH,
];

/// The events of one call.
pub fn posting_events(request: &Request, answer: &Answer) -> Vec<&'static str> {
    match (request.call, answer.number) {
        (Call::Post, DONE) => done_events(request, answer),
        (Call::Post, number) => refused_events(request, number),
        (Call::Open | Call::Close, 12) => single_events(request),
        _ => Vec::new(),
    }
}

/// A list that was worked through.
fn done_events(request: &Request, answer: &Answer) -> Vec<&'static str> {
    let (version, book) = image::read(&request.bytes).expect("a book that was posted to is lawful");
    let records = records_of(answer);
    let done: Vec<usize> = (0..records.len()).filter(|&at| records[at].answer == DONE).collect();
    let last = done.last().map(|&at| records[at]);
    let mains = NodeSet(request.mains);
    let older = version < Version::NEWEST;
    let between = |pair: &[usize]| pair[0] + 1 < pair[1];
    let mut events = which([
        (done.windows(2).any(between), REFUSED_BETWEEN),
        (older && last.is_some(), OLDER_CHANGED),
        (older && last.is_none() && !records.is_empty(), OLDER_LEFT),
        (last.is_some_and(|record| !record.opens), SHORTER_LAST),
        (last.is_some() && answer.written() == image::write(Version::NEWEST, &book), AS_IT_WAS),
    ]);
    events.extend(done.iter().flat_map(|&at| change_events(&book, &records, at)));
    events.extend(records.iter().flat_map(|record| beside_alone(&book, mains, record)));
    events
}

fn records_of(answer: &Answer) -> Vec<Record> {
    answer.records.chunks_exact(RECORD_BYTES).map(Record::read).collect()
}

/// The record at a place of the list, which was done, beside those before it.
fn change_events(book: &Book, records: &[Record], at: usize) -> Vec<&'static str> {
    let record = records[at];
    let of_id = |other: &&Record| other.id == record.id && other.answer == DONE;
    let before = records[..at].iter().rfind(of_id);
    let rows = book.rows.iter().filter(|row| row.id == record.id).count();
    which([
        (record.opens && record.second, SECOND_OPENED),
        (!record.opens && before.is_none() && rows == 2, BOTH_CLOSED),
        (!record.opens && before.is_some(), OPENED_AND_CLOSED),
        (record.opens && before.is_some(), CLOSED_AND_OPENED),
    ])
}

/// A record whose answer is another than alone on the first book.
fn beside_alone(book: &Book, mains: NodeSet, record: &Record) -> Option<&'static str> {
    let alone = record.change(book, mains).map_or_else(|refusal| refusal as u8, |_| DONE);
    match (alone, record.answer) {
        (DONE, 2) => Some(SPOILT_2),
        (DONE, 3) => Some(SPOILT_3),
        (DONE, 8) => Some(SPOILT_8),
        (DONE, 9) => Some(SPOILT_9),
        (DONE, 23) => Some(SPOILT_23),
        (2, DONE) => Some(HELPED_2),
        (3, DONE) => Some(HELPED_3),
        (8, DONE) => Some(HELPED_8),
        (9, DONE) => Some(HELPED_9),
        (23, DONE) => Some(HELPED_23),
        _ => None,
    }
}

/// A posting refused as a whole.
fn refused_events(request: &Request, number: u8) -> Vec<&'static str> {
    let short = usize::from(request.room) < Version::NEWEST.longest_image();
    let roomy = with_room(request);
    let is_image = ![12, 25, 26].contains(&number);
    which([
        (is_image && records_of(&roomy).len() > MAX_RECORDS, IMAGE_FIRST),
        (number == 26 && short, LIST_FIRST),
        (number == 12 && roomy.number == DONE && roomy.written().is_empty(), NOTHING_TO_DO),
    ])
}

/// An open or a close that is refused for its buffer.
fn single_events(request: &Request) -> Vec<&'static str> {
    let roomy = with_room(request);
    let fits = roomy.written().len() <= usize::from(request.room);
    which([(roomy.number != DONE, REFUSED_ANYWAY), (roomy.number == DONE && fits, LONG_ENOUGH)])
}

/// What the call says with the longest buffer.
fn with_room(request: &Request) -> Answer {
    Request { room: 16384, ..request.clone() }.answer()
}

fn which<const N: usize>(happened: [(bool, &'static str); N]) -> Vec<&'static str> {
    happened.into_iter().filter(|(so, _)| *so).map(|(_, event)| event).collect()
}
