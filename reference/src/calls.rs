//! The calls, on bytes.
//!
//! Each gives back a number and a length. A refusal gives length 0 and leaves
//! the output buffer as it was; success writes only the answer's own bytes.
//! A new or changed book is written in the newest version.

use crate::account::{ONLY_ACCOUNT, read_accounts, write_accounts};
use crate::book::Book;
use crate::change::{self, Open};
use crate::image;
use crate::index::{index_of, index_words};
use crate::node_set::NodeSet;
use crate::plan::{CYCLE_TILES, Plan};
use crate::record::Record;
use crate::refusal::{DONE, Refusal, refuse_if};
use crate::route::{self, short_routes};
use crate::row::Row;
use crate::salvage;
use crate::table;
use crate::tables;
use crate::topology::{NODES, Topology};
use crate::version::Version;

/// The most records in a posting.
pub const MAX_RECORDS: usize = 64;

/// The most tiles expanded in one call.
pub const MAX_EXPANDED: usize = 100;

/// The most routes listed.
pub const MAX_LISTED: usize = 32;

/// The plan and the topology given for a new book.
#[derive(Clone, Debug)]
pub struct Site<'a> {
    pub plan: Plan,
    /// N.
    pub nodes: u8,
    pub links: &'a [u8],
    pub hearing: &'a [u8],
}

/// Makes an empty book with these accounts, 6 bytes each.
pub fn new(site: &Site, accounts: &[u8], out: &mut [u8]) -> (u8, usize) {
    deliver(new_book(site, accounts).map(in_newest_version), out)
}

/// Says whether a book is lawful.
pub fn check(book: &[u8]) -> (u8, usize) {
    match image::read(book) {
        Ok(_) => (DONE, 0),
        Err(refusal) => (refusal as u8, 0),
    }
}

/// Reads a book and writes it again.
pub fn rewrite(book: &[u8], out: &mut [u8]) -> (u8, usize) {
    deliver(image::read(book).map(|(version, book)| image::write(version, &book)), out)
}

/// Works through a list of opens and closes in its order. Each record receives
/// its answer, the index is that of the last book, and the book is written at
/// the end if one was done.
pub fn post(
    book: &[u8],
    mains: u64,
    records: &mut [Record],
    index: &mut [u64],
    out: &mut [u8],
) -> (u8, usize) {
    match read_with_mains(book, mains) {
        Ok(book) => post_on(book, NodeSet(mains), records, index, out),
        Err(refusal) => (refusal as u8, 0),
    }
}

fn post_on(
    book: Book,
    mains: NodeSet,
    records: &mut [Record],
    index: &mut [u64],
    out: &mut [u8],
) -> (u8, usize) {
    if let Err(refusal) = is_ready_for(records.len(), &book.plan, index.len(), out.len()) {
        return (refusal as u8, 0);
    }
    let mut book = book;
    for record in records.iter_mut() {
        record.answer = match record.change(&book, mains) {
            Ok(changed) => {
                book = changed;
                DONE
            }
            Err(refusal) => refusal as u8,
        };
    }
    index[..index_words(&book.plan)].copy_from_slice(&index_of(&book));
    if records.iter().all(|record| record.answer != DONE) {
        return (DONE, 0);
    }
    deliver(Ok(in_newest_version(book)), out)
}

/// Opens a stream.
pub fn open(book: &[u8], asked: Open, out: &mut [u8]) -> (u8, usize) {
    post_one(book, Record::open(asked), out)
}

/// Closes a stream.
pub fn close(book: &[u8], id: u16, out: &mut [u8]) -> (u8, usize) {
    post_one(book, Record::close(id), out)
}

/// Writes the book that expands to these tables, one for each node.
pub fn book_of(site: &Site, tables: &[u8], out: &mut [u8]) -> (u8, usize) {
    let empty = new_book(site, &write_accounts(&[ONLY_ACCOUNT]));
    let book = empty.and_then(|empty| tables::book_of(empty, tables));
    deliver(book.map(in_newest_version), out)
}

/// Raises what an account has bought.
pub fn purchase(book: &[u8], account: u16, amount: u32, out: &mut [u8]) -> (u8, usize) {
    let bought = read(book).and_then(|book| change::purchase(&book, account, amount));
    deliver(bought.map(in_newest_version), out)
}

/// Expands so many tiles of one node's slot table, from the first one given.
pub fn expand(book: &[u8], node: u8, first: u16, tiles: u16, out: &mut [u8]) -> (u8, usize) {
    deliver(part_of_table(book, node, usize::from(first), usize::from(tiles)), out)
}

/// Gives one node's balance: number, data, used, free.
pub fn balance(book: &[u8], node: u8) -> (u8, u32, u32, u32) {
    match read_with_node(book, node).map(|book| table::balance(&book, node)) {
        Ok(balance) => (DONE, balance.data, balance.used, balance.free),
        Err(refusal) => (refusal as u8, 0, 0, 0),
    }
}

/// Gives one node's links: number, and how many they are.
pub fn links(book: &[u8], node: u8) -> (u8, u8) {
    match read_with_node(book, node).map(|book| book.topology.links(node)) {
        Ok(links) => (DONE, links),
        Err(refusal) => (refusal as u8, 0),
    }
}

/// Lists the routes of at most 6 hops: number, length, and whether more exist
/// than are listed.
pub fn routes(
    book: &[u8],
    mains: u64,
    source: u8,
    destination: u8,
    out: &mut [u8],
) -> (u8, usize, bool) {
    let found = routes_found(book, mains, source, destination);
    let more = found.as_ref().is_ok_and(|routes| routes.len() > MAX_LISTED);
    let listed = |routes: Vec<Vec<u8>>| routes.into_iter().take(MAX_LISTED).flat_map(listed_route);
    let (number, length) = deliver(found.map(|routes| listed(routes).collect()), out);
    (number, length, more && number == DONE)
}

/// What a salvage gives back.
#[derive(Clone, Copy, Debug, Default, PartialEq, Eq)]
pub struct SalvageSaid {
    pub number: u8,
    pub length: usize,
    /// The rows cut.
    pub rows: usize,
    /// The bytes after the last row cut.
    pub lost: usize,
}

/// Writes what can be saved of a damaged book, in its own version, and a report
/// of 3 bytes for each row cut: 0 for kept or the reason, then the id.
pub fn salvage(book: &[u8], out: &mut [u8], report: &mut [u8]) -> SalvageSaid {
    let refused = |refusal| SalvageSaid { number: refusal as u8, ..SalvageSaid::default() };
    let salvaged = match salvage::salvage(book) {
        Ok(salvaged) => salvaged,
        Err(refusal) => return refused(refusal),
    };
    let image = image::write(salvaged.version, &salvaged.book);
    let lines: Vec<u8> =
        salvaged.cuts.iter().flat_map(|&(reason, id)| report_line(reason, id)).collect();
    if out.len() < image.len() || report.len() < lines.len() {
        return refused(Refusal::BufferTooShort);
    }
    out[..image.len()].copy_from_slice(&image);
    report[..lines.len()].copy_from_slice(&lines);
    let rows = salvaged.cuts.len();
    SalvageSaid { number: DONE, length: image.len(), rows, lost: salvaged.lost }
}

/// Three bytes of a salvage's report.
fn report_line(reason: u8, id: u16) -> [u8; 3] {
    let [high, low] = id.to_be_bytes();
    [reason, high, low]
}

/// Says whether every row of a book keeps to the set: number, yes or no.
pub fn keeps_to(book: &[u8], mains: u64) -> (u8, bool) {
    match read_with_mains(book, mains) {
        Ok(book) => {
            let keeps = |row: &Row| route::keeps_to(&row.nodes, NodeSet(mains));
            (DONE, book.rows.iter().all(keeps))
        }
        Err(refusal) => (refusal as u8, false),
    }
}

/// A list of one, all nodes on mains, with an index of its own: the whole
/// call's refusal, or the record's answer.
fn post_one(book: &[u8], record: Record, out: &mut [u8]) -> (u8, usize) {
    let book = match read(book) {
        Ok(book) => book,
        Err(refusal) => return (refusal as u8, 0),
    };
    let mains = NodeSet::all(book.topology.nodes());
    let mut index = vec![0; index_words(&book.plan)];
    let mut list = [record];
    let (number, length) = post_on(book, mains, &mut list, &mut index, out);
    if number == DONE { (list[0].answer, length) } else { (number, length) }
}

/// Puts an answer's bytes into the output buffer, if they fit.
fn deliver(answer: Result<Vec<u8>, Refusal>, out: &mut [u8]) -> (u8, usize) {
    match answer {
        Err(refusal) => (refusal as u8, 0),
        Ok(bytes) if out.len() < bytes.len() => (Refusal::BufferTooShort as u8, 0),
        Ok(bytes) => {
            out[..bytes.len()].copy_from_slice(&bytes);
            (DONE, bytes.len())
        }
    }
}

/// The image of a new or changed book.
fn in_newest_version(book: Book) -> Vec<u8> {
    image::write(Version::NEWEST, &book)
}

fn new_book(site: &Site, accounts: &[u8]) -> Result<Book, Refusal> {
    let in_range = site.plan.is_in_range() && NODES.contains(&site.nodes);
    refuse_if(!in_range, Refusal::OutOfRange)?;
    let accounts = read_accounts(accounts).ok_or(Refusal::OutOfRange)?;
    let topology = Topology::read(site.nodes, site.links, site.hearing);
    let topology = topology.ok_or(Refusal::UnsoundTopology)?;
    Ok(Book { plan: site.plan.clone(), topology, accounts, rows: Vec::new() })
}

/// Reads a book of any version.
fn read(book: &[u8]) -> Result<Book, Refusal> {
    image::read(book).map(|(_, book)| book)
}

/// A posting may have so many records, so many words and so long a buffer.
fn is_ready_for(records: usize, plan: &Plan, words: usize, room: usize) -> Result<(), Refusal> {
    refuse_if(records > MAX_RECORDS, Refusal::TooManyRecords)?;
    refuse_if(room < Version::NEWEST.longest_image(), Refusal::BufferTooShort)?;
    refuse_if(words < index_words(plan), Refusal::BufferTooShort)
}

/// Reads a book for a call with a set of its nodes.
fn read_with_mains(book: &[u8], mains: u64) -> Result<Book, Refusal> {
    let book = read(book)?;
    refuse_if(NodeSet(mains).passes(book.topology.nodes()), Refusal::MainsOutOfRange)?;
    Ok(book)
}

/// Reads a book for a call about one of its nodes.
fn read_with_node(book: &[u8], node: u8) -> Result<Book, Refusal> {
    let book = read(book)?;
    refuse_if(node >= book.topology.nodes(), Refusal::NoSuchNode)?;
    Ok(book)
}

/// The bytes of these tiles of a node's table.
fn part_of_table(book: &[u8], node: u8, first: usize, tiles: usize) -> Result<Vec<u8>, Refusal> {
    let book = read_with_node(book, node)?;
    let in_range = (1..=MAX_EXPANDED).contains(&tiles) && first + tiles <= CYCLE_TILES;
    refuse_if(!in_range, Refusal::TilesOutOfRange)?;
    let slots = book.plan.tile_slots();
    Ok(table::write(&table::table(&book, node)[first * slots..(first + tiles) * slots]))
}

/// The routes to list, and one more if there are more.
fn routes_found(
    book: &[u8],
    mains: u64,
    source: u8,
    destination: u8,
) -> Result<Vec<Vec<u8>>, Refusal> {
    let book = read_with_mains(book, mains)?;
    refuse_if(source.max(destination) >= book.topology.nodes(), Refusal::NoSuchNode)?;
    refuse_if(source == destination, Refusal::SourceIsDestination)?;
    Ok(short_routes(&book.topology, NodeSet(mains), source, destination, MAX_LISTED + 1))
}

/// A route as a hop byte and the nodes.
fn listed_route(route: Vec<u8>) -> Vec<u8> {
    let hops = (route.len() - 1) as u8;
    [vec![hops], route].concat()
}
