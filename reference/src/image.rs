//! The image: a book as stored bytes, big-endian throughout.

use crate::account::{Account, ONLY_ACCOUNT, read_accounts, write_accounts};
use crate::book::{Book, MAX_HOPS, MAX_ROWS};
use crate::law::{clashing_hops_meet, rows_are_lawful};
use crate::plan::Plan;
use crate::refusal::{Refusal, refuse_if};
use crate::row::{FIRST_ROUTE, Row};
use crate::topology::{NODES, Topology, write_rows};
use crate::version::{HEADER_LENGTH, Version, links_bytes};

/// The mark S, L, B.
const MARK: [u8; 3] = [0x53, 0x4C, 0x42];

/// An image up to its topology.
pub struct Head {
    pub version: Version,
    pub plan: Plan,
    /// N.
    pub nodes: u8,
    /// n, the rows stated.
    rows: usize,
    /// The hops stated.
    hops: usize,
    pub accounts: Vec<Account>,
}

impl Head {
    /// Where the topology begins.
    pub fn before_topology(&self) -> usize {
        HEADER_LENGTH + self.version.accounts_bytes(self.accounts.len())
    }

    /// Where the rows begin.
    pub fn before_rows(&self) -> usize {
        self.before_topology() + self.version.topology_bytes(self.nodes)
    }

    /// The length the header and the count of accounts give.
    fn image_length(&self) -> usize {
        self.version.image_length(self.accounts.len(), self.nodes, self.rows, self.hops)
    }
}

/// Reads an image; the refusals come in document 01's order.
pub fn read(image: &[u8]) -> Result<(Version, Book), Refusal> {
    let head = read_head(image)?;
    refuse_if(image.len() != head.image_length(), Refusal::WrongLength)?;
    let version = head.version;
    let (before, rows) = image.split_at(head.before_rows());
    let topology = read_topology(version, head.nodes, &before[head.before_topology()..])?;
    let rows = read_rows(version, rows, head.rows).ok_or(Refusal::UnlawfulRows)?;
    let book = Book { plan: head.plan, topology, accounts: head.accounts, rows };
    refuse_if(book.hops() != head.hops, Refusal::UnlawfulRows)?;
    let lawful = version.fits(&book) && rows_are_lawful(&book);
    refuse_if(!lawful, Refusal::UnlawfulRows)?;
    refuse_if(clashing_hops_meet(&book), Refusal::ClashingHopsMeet)?;
    Ok((version, book))
}

/// Reads what stands before the topology.
pub fn read_head(image: &[u8]) -> Result<Head, Refusal> {
    refuse_if(image.len() < HEADER_LENGTH, Refusal::WrongLength)?;
    refuse_if(image[..3] != MARK, Refusal::WrongMark)?;
    let version = Version::of_number(two_bytes(&image[3..5])).ok_or(Refusal::WrongMark)?;
    let kinds = two_bytes(&image[7..9]);
    let plan = Plan { s: image[5], c: image[6], kinds, d: image[9], u: image[10] };
    let (nodes, rows) = (image[11], usize::from(image[12]));
    let hops = usize::from(two_bytes(&image[13..15]));
    let in_range = plan.is_in_range()
        && NODES.contains(&nodes)
        && rows <= MAX_ROWS
        && hops <= MAX_HOPS
        && image[15] == 0;
    refuse_if(!in_range, Refusal::OutOfRange)?;
    let accounts = read_account_list(version, &image[HEADER_LENGTH..])?;
    Ok(Head { version, plan, nodes, rows, hops, accounts })
}

/// Reads the accounts after the header; an older version has the only one.
fn read_account_list(version: Version, rest: &[u8]) -> Result<Vec<Account>, Refusal> {
    if !version.stores_accounts() {
        return Ok(vec![ONLY_ACCOUNT]);
    }
    let count = rest.first().copied().map(usize::from).ok_or(Refusal::WrongLength)?;
    let list = rest.get(1..version.accounts_bytes(count)).ok_or(Refusal::WrongLength)?;
    read_accounts(list).ok_or(Refusal::OutOfRange)
}

/// Reads links and hearing; an older version hears exactly its links.
pub fn read_topology(version: Version, nodes: u8, bytes: &[u8]) -> Result<Topology, Refusal> {
    let (links, rest) = bytes.split_at(links_bytes(nodes));
    let hearing = if version.stores_hearing() { rest } else { links };
    Topology::read(nodes, links, hearing).ok_or(Refusal::UnsoundTopology)
}

/// Exactly `count` rows that fill the bytes; none otherwise.
fn read_rows(version: Version, bytes: &[u8], count: usize) -> Option<Vec<Row>> {
    let mut rest = bytes;
    let mut rows = Vec::new();
    for _ in 0..count {
        rows.push(read_row(version, &mut rest)?);
    }
    rest.is_empty().then_some(rows)
}

/// Takes one row off the front; none if the bytes end within it.
pub fn read_row(version: Version, rest: &mut &[u8]) -> Option<Row> {
    let id = two_bytes(take(rest, 2)?);
    let route = if version.stores_route() { take(rest, 1)?[0] } else { FIRST_ROUTE };
    let period = number(take(rest, version.period_bytes())?);
    let hops = usize::from(take(rest, 1)?[0]);
    let nodes = take(rest, hops + 1)?.to_vec();
    let offsets = take(rest, 2 * hops)?.chunks(2).map(two_bytes).collect();
    let account =
        if version.stores_accounts() { two_bytes(take(rest, 2)?) } else { ONLY_ACCOUNT.number };
    Some(Row { id, route, period, nodes, offsets, account })
}

/// Takes `count` bytes off the front; none if there are fewer.
fn take<'a>(rest: &mut &'a [u8], count: usize) -> Option<&'a [u8]> {
    let (taken, left) = rest.split_at_checked(count)?;
    *rest = left;
    Some(taken)
}

fn two_bytes(bytes: &[u8]) -> u16 {
    u16::from_be_bytes([bytes[0], bytes[1]])
}

/// A number of one byte or two.
fn number(bytes: &[u8]) -> u16 {
    bytes.iter().fold(0, |number, &byte| 256 * number + u16::from(byte))
}

/// Writes a book as its image, in a version that fits it.
pub fn write(version: Version, book: &Book) -> Vec<u8> {
    let mut image = Vec::new();
    image.extend(MARK);
    image.extend((version as u16).to_be_bytes());
    image.extend([book.plan.s, book.plan.c]);
    image.extend(book.plan.kinds.to_be_bytes());
    image.extend([book.plan.d, book.plan.u, book.topology.nodes()]);
    image.push(book.rows.len() as u8);
    image.extend((book.hops() as u16).to_be_bytes());
    image.push(0);
    if version.stores_accounts() {
        image.push(book.accounts.len() as u8);
        image.extend(write_accounts(&book.accounts));
    }
    image.extend(write_rows(&book.topology.links));
    if version.stores_hearing() {
        image.extend(write_rows(&book.topology.hearing));
    }
    for row in &book.rows {
        write_row(version, row, &mut image);
    }
    image
}

/// The bytes of a row.
pub fn row_bytes(version: Version, row: &Row) -> Vec<u8> {
    let mut bytes = Vec::new();
    write_row(version, row, &mut bytes);
    bytes
}

fn write_row(version: Version, row: &Row, image: &mut Vec<u8>) {
    image.extend(row.id.to_be_bytes());
    if version.stores_route() {
        image.push(row.route);
    }
    image.extend(&row.period.to_be_bytes()[2 - version.period_bytes()..]);
    image.push(row.offsets.len() as u8);
    image.extend(&row.nodes);
    image.extend(row.offsets.iter().flat_map(|offset| offset.to_be_bytes()));
    if version.stores_accounts() {
        image.extend(row.account.to_be_bytes());
    }
}
