//! Books and calls that the tests share.
#![allow(dead_code)]

use reference::book::Book;
use reference::calls::{self, Site};
use reference::change::Open;
use reference::image;
use reference::node_set::NodeSet;
use reference::plan::Plan;
use reference::row::{FIRST_ROUTE, Row, SECOND_ROUTE};
use reference::version::Version;

/// Longer than any answer.
pub const ROOM: usize = 16384;

/// What the output buffer holds before a call.
pub const FILL: u8 = 0xA5;

/// Plan A of document 01, as S, C, kinds, D, U.
pub const PLAN_A: (u8, u8, u16, u8, u8) = (4, 2, 0b01, 2, 1);

/// Topology rows of 8 bytes for these links.
pub fn topology(nodes: usize, links: &[(usize, usize)]) -> Vec<u8> {
    let mut rows = vec![0u64; nodes];
    for &(a, b) in links {
        rows[a] |= 1 << b;
        rows[b] |= 1 << a;
    }
    rows.iter().flat_map(|row| row.to_be_bytes()).collect()
}

/// Links 0-1, 1-2 and so on.
pub fn line(nodes: usize) -> Vec<u8> {
    let links: Vec<_> = (1..nodes).map(|node| (node - 1, node)).collect();
    topology(nodes, &links)
}

/// The account list of a book that knows of none: number 0, the largest number.
pub const ONLY: [u8; 6] = [0, 0, 0xFF, 0xFF, 0xFF, 0xFF];

/// A site that hears exactly its links.
pub fn site((s, c, kinds, d, u): (u8, u8, u16, u8, u8), nodes: u8, links: &[u8]) -> Site<'_> {
    Site { plan: Plan { s, c, kinds, d, u }, nodes, links, hearing: links }
}

/// All nodes of a site with so many.
pub fn all(nodes: u8) -> NodeSet {
    NodeSet::all(nodes)
}

/// All nodes of a book, as a set for a call.
pub fn all_of(book: &[u8]) -> u64 {
    all(book.get(11).copied().unwrap_or(0)).0
}

/// An index long enough for any plan.
pub fn any_index() -> Vec<u64> {
    vec![0; 2 * 100 * 32]
}

/// An empty book that hears exactly its links.
pub fn new_book(plan: (u8, u8, u16, u8, u8), links: &[u8]) -> Vec<u8> {
    new_book_hearing(plan, links, links)
}

/// An empty book with this hearing.
pub fn new_book_hearing(plan: (u8, u8, u16, u8, u8), links: &[u8], hearing: &[u8]) -> Vec<u8> {
    let nodes = (links.len() / 8) as u8;
    written(|out| calls::new(&Site { hearing, ..site(plan, nodes, links) }, &ONLY, out))
}

/// Plan A on a line of nodes, no streams.
pub fn line_a(nodes: usize) -> Vec<u8> {
    new_book(PLAN_A, &line(nodes))
}

/// The book of P2.
pub fn p2() -> Vec<u8> {
    opened(&line_a(4), 1, 3, 0, 2)
}

/// The book of P3.
pub fn p3() -> Vec<u8> {
    opened(&p2(), 2, 0, 3, 2)
}

/// Runs a call that must be done, and gives the bytes it wrote.
pub fn written(call: impl FnOnce(&mut [u8]) -> (u8, usize)) -> Vec<u8> {
    let mut out = vec![FILL; ROOM];
    let (number, length) = call(&mut out);
    assert_eq!(number, 0);
    assert!(out[length..].iter().all(|&byte| byte == FILL));
    out.truncate(length);
    out
}

/// Runs a call that must be refused, and gives the number.
pub fn refused(room: usize, call: impl FnOnce(&mut [u8]) -> (u8, usize)) -> u8 {
    let mut out = vec![FILL; room];
    let (number, length) = call(&mut out);
    assert_ne!(number, 0);
    assert_eq!(length, 0);
    assert!(out.iter().all(|&byte| byte == FILL));
    number
}

/// A stream with one route.
pub fn plain(id: u16, source: u8, destination: u8, period: u16) -> Open {
    Open { id, source, destination, period, second: false, account: 0 }
}

/// A stream with a second route.
pub fn doubled(id: u16, source: u8, destination: u8, period: u16) -> Open {
    Open { second: true, ..plain(id, source, destination, period) }
}

pub fn opened(book: &[u8], id: u16, source: u8, destination: u8, period: u16) -> Vec<u8> {
    written(|out| calls::open(book, plain(id, source, destination, period), out))
}

pub fn open_refused(book: &[u8], id: u16, source: u8, destination: u8, period: u16) -> u8 {
    refused(ROOM, |out| calls::open(book, plain(id, source, destination, period), out))
}

pub fn closed(book: &[u8], id: u16) -> Vec<u8> {
    written(|out| calls::close(book, id, out))
}

/// The first route of this stream, as the book has it.
pub fn stream(book: &[u8], id: u16) -> Row {
    route_of(book, id, FIRST_ROUTE)
}

/// The second route of this stream, as the book has it.
pub fn second(book: &[u8], id: u16) -> Row {
    route_of(book, id, SECOND_ROUTE)
}

fn route_of(book: &[u8], id: u16, route: u8) -> Row {
    let mut rows = read(book).rows.into_iter();
    rows.find(|row| row.key() == (id, route)).expect("the row is in the book")
}

pub fn read(book: &[u8]) -> Book {
    image::read(book).expect("the book is lawful").1
}

/// The book's image in this version.
pub fn stored(version: Version, book: &[u8]) -> Vec<u8> {
    image::write(version, &read(book))
}

/// The image of this book with more rows, whether lawful or not.
pub fn with_rows(book: &[u8], rows: Vec<Row>) -> Vec<u8> {
    let mut book = read(book);
    book.rows.extend(rows);
    image::write(Version::NEWEST, &book)
}

/// A first route.
pub fn row(id: u16, period: u16, nodes: &[u8], offsets: &[u16]) -> Row {
    let (nodes, offsets) = (nodes.to_vec(), offsets.to_vec());
    Row { id, route: FIRST_ROUTE, period, nodes, offsets, account: 0 }
}

/// A second route.
pub fn row_2(id: u16, period: u16, nodes: &[u8], offsets: &[u16]) -> Row {
    Row { route: SECOND_ROUTE, ..row(id, period, nodes, offsets) }
}
