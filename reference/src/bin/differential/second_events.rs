//! What must have happened in a run with second routes.

use reference::book::{Book, MAX_ROWS, MAX_SHORT_HOPS};
use reference::frame::{Answer, Call, Request};
use reference::image;
use reference::node_set::NodeSet;
use reference::placing::first_placing;
use reference::refusal::{DONE, Refusal};
use reference::route::planners_route;
use reference::row::{Row, SECOND_ROUTE};
use reference::version::Version;

const OLDER: &str = "second routes opened in a book of an older version";
const BESIDE_A_LINK: &str = "second routes beside a first of one link";
const SIX_HOPS: &str = "second routes of 6 hops";
const GAVE_WAY: &str = "second routes placed later because of their first";
const TOO_LONG: &str = "18 where every other route has over 6 hops";
const NO_OTHER: &str = "18 where no other route keeps off the middle nodes";
const NO_ROW_LEFT: &str = "8 where one row more had been possible";
const NO_HOPS_LEFT: &str = "8 where the first route's hops had been possible";
const NO_SLOTS_LEFT: &str = "9 where the first route had a placing";
const TABLE_17: &str = "tables with operation 17";
const TABLE_18: &str = "tables with operation 18";
const TABLE_19: &str = "tables with operation 19";
const TABLE_20: &str = "tables with operation 20";
const BALANCED: &str = "balances of a node of a second route";

pub const SECOND_EVENTS: [&str; 14] = [
    OLDER,
    BESIDE_A_LINK,
    SIX_HOPS,
    GAVE_WAY,
    TOO_LONG,
    NO_OTHER,
    NO_ROW_LEFT,
    NO_HOPS_LEFT,
    NO_SLOTS_LEFT,
    TABLE_17,
    TABLE_18,
    TABLE_19,
    TABLE_20,
    BALANCED,
];

/// The events of one call.
pub fn second_events(request: &Request, answer: &Answer) -> Vec<&'static str> {
    // The bytes of a new book are its links.
    let Ok((version, book)) = image::read(&request.bytes) else { return Vec::new() };
    match (request.call, answer.number) {
        (Call::Open, DONE) if request.second => opened_events(request, answer, version),
        (Call::Open, number) if request.second => refused_event(request, number, &book),
        (Call::Expand, DONE) => table_events(answer),
        (Call::Balance, DONE) => balance_event(request, &book),
        _ => Vec::new(),
    }
}

/// A stream opened with both its routes.
fn opened_events(request: &Request, answer: &Answer, version: Version) -> Vec<&'static str> {
    let (_, mut book) = image::read(answer.written()).expect("an opened book is lawful");
    let rows: Vec<Row> = book.rows.iter().filter(|row| row.id == request.id).cloned().collect();
    let [first, second] = &rows[..] else { panic!("a stream with both its routes has two rows") };
    book.remove(request.id);
    let alone = first_placing(&book, &second.nodes, second.period);
    which([
        (version < Version::NEWEST, OLDER),
        (first.offsets.len() == 1, BESIDE_A_LINK),
        (second.offsets.len() == MAX_SHORT_HOPS, SIX_HOPS),
        (alone.is_some_and(|offsets| offsets != second.offsets), GAVE_WAY),
    ])
}

/// An open refused for the sake of its second route.
fn refused_event(request: &Request, number: u8, book: &Book) -> Vec<&'static str> {
    let single = Request { second: false, room: 16384, ..request.clone() };
    let long = || other_route(book, request.node, request.destination);
    match number {
        18 => vec![if long() { TOO_LONG } else { NO_OTHER }],
        8 | 9 if single.answer().number != DONE => Vec::new(),
        8 => vec![if book.rows.len() + 1 == MAX_ROWS { NO_ROW_LEFT } else { NO_HOPS_LEFT }],
        9 => vec![NO_SLOTS_LEFT],
        _ => Vec::new(),
    }
}

/// Another route keeps off the middle nodes of the first, whatever its length.
fn other_route(book: &Book, source: u8, destination: u8) -> bool {
    let mut topology = book.topology.clone();
    let all = NodeSet::all(topology.nodes());
    let Ok(first) = planners_route(&topology, all, source, destination) else {
        return false;
    };
    // The first route's own links go too, or one of one link were found again.
    for pair in first.windows(2) {
        let (a, b) = (usize::from(pair[0]), usize::from(pair[1]));
        topology.links[a] &= !(1 << b);
        topology.links[b] &= !(1 << a);
    }
    for &node in &first[1..first.len() - 1] {
        topology.links.iter_mut().for_each(|row| *row &= !(1 << node));
        topology.links[usize::from(node)] = 0;
    }
    planners_route(&topology, all, source, destination) != Err(Refusal::NoRoute)
}

fn table_events(answer: &Answer) -> Vec<&'static str> {
    let has = |operation: u8| answer.written().chunks(3).any(|entry| entry[0] == operation);
    which([(has(17), TABLE_17), (has(18), TABLE_18), (has(19), TABLE_19), (has(20), TABLE_20)])
}

fn balance_event(request: &Request, book: &Book) -> Vec<&'static str> {
    let counts = |row: &Row| row.route == SECOND_ROUTE && row.nodes.contains(&request.node);
    which([(book.rows.iter().any(counts), BALANCED)])
}

fn which<const N: usize>(happened: [(bool, &'static str); N]) -> Vec<&'static str> {
    happened.into_iter().filter(|(so, _)| *so).map(|(_, event)| event).collect()
}
