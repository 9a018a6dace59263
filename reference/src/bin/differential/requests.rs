//! Requests, plain and thrown.

use crate::dice::Dice;
use crate::site::open_plan;
use reference::account::{ACCOUNT_BYTES, ONLY_ACCOUNT, write_accounts};
use reference::book::Book;
use reference::frame::{Call, Request};
use reference::index::index_words;
use reference::node_set::NodeSet;
use reference::plan::{PERIODS, Plan, TILE_SLOTS};
use reference::record::Record;
use reference::topology::{NODES, write_rows};
use reference::version::{HEADER_LENGTH, Version};

/// A new book whose hearing is its links.
pub fn new(plan: &Plan, nodes: u8, links: &[u8]) -> Request {
    new_with_hearing(plan, nodes, links, links)
}

pub fn new_with_hearing(plan: &Plan, nodes: u8, links: &[u8], hearing: &[u8]) -> Request {
    Request {
        s: plan.s,
        c: plan.c,
        kinds: plan.kinds,
        d: plan.d,
        u: plan.u,
        n: nodes,
        bytes: links.to_vec(),
        hearing: hearing.to_vec(),
        further: write_accounts(&[ONLY_ACCOUNT]),
        ..Request::blank(Call::New)
    }
}

fn on(call: Call, book: &[u8]) -> Request {
    Request { bytes: book.to_vec(), ..Request::blank(call) }
}

pub fn check(book: &[u8]) -> Request {
    on(Call::Check, book)
}

pub fn rewrite(book: &[u8]) -> Request {
    on(Call::Rewrite, book)
}

pub fn open(book: &[u8], id: u16, source: u8, destination: u8, period: u16) -> Request {
    Request { id, node: source, destination, period, ..on(Call::Open, book) }
}

/// An open that also asks for a second route.
pub fn open_with_second(book: &[u8], id: u16, source: u8, destination: u8, period: u16) -> Request {
    Request { second: true, ..open(book, id, source, destination, period) }
}

/// The book of these tables.
pub fn book_of(book: &Book, tables: Vec<u8>) -> Request {
    let (links, hearing) = (write_rows(&book.topology.links), write_rows(&book.topology.hearing));
    let new = new_with_hearing(&book.plan, book.topology.nodes(), &links, &hearing);
    Request { call: Call::BookOf, further: tables, ..new }
}

/// A salvage with a report of so many bytes.
pub fn salvage(book: &[u8], report: u16) -> Request {
    Request { beside: report, ..on(Call::Salvage, book) }
}

pub fn purchase(book: &[u8], account: u16, amount: u32) -> Request {
    Request { account, amount, ..on(Call::Purchase, book) }
}

pub fn close(book: &[u8], id: u16) -> Request {
    Request { id, ..on(Call::Close, book) }
}

/// The first 100 tiles of a node's table.
pub fn expand(book: &[u8], node: u8) -> Request {
    expand_tiles(book, node, 0, 100)
}

pub fn expand_tiles(book: &[u8], node: u8, first: u16, tiles: u16) -> Request {
    Request { node, first, tiles, ..on(Call::Expand, book) }
}

pub fn balance(book: &[u8], node: u8) -> Request {
    Request { node, ..on(Call::Balance, book) }
}

pub fn links(book: &[u8], node: u8) -> Request {
    Request { node, ..on(Call::Links, book) }
}

/// All nodes of a book that has, or claims, the N of its header.
fn all_nodes(book: &[u8]) -> u64 {
    NodeSet::all(nodes_of(book).min(*NODES.end())).0
}

/// The list of routes, all nodes on mains.
pub fn routes(book: &[u8], source: u8, destination: u8) -> Request {
    routes_within(book, all_nodes(book), source, destination)
}

pub fn routes_within(book: &[u8], mains: u64, source: u8, destination: u8) -> Request {
    Request { mains, node: source, destination, ..on(Call::Routes, book) }
}

/// A posting of these records, all nodes on mains.
pub fn post(book: &[u8], records: &[Record]) -> Request {
    post_within(book, all_nodes(book), records)
}

pub fn post_within(book: &[u8], mains: u64, records: &[Record]) -> Request {
    let further = records.iter().flat_map(Record::write).collect();
    Request { mains, further, beside: words_of(book), ..on(Call::Post, book) }
}

/// Words of the index of a book that has, or claims, the S of its header.
fn words_of(book: &[u8]) -> u16 {
    let s = book.get(5).copied().unwrap_or(4).min(*TILE_SLOTS.end());
    index_words(&open_plan(s)) as u16
}

/// Mostly just the words needed, or some more; now and then fewer.
pub fn any_words(dice: &mut Dice, needed: u16) -> u16 {
    match dice.below(20) {
        0 => needed.saturating_sub(1),
        1 => dice.below(usize::from(needed) + 1) as u16,
        2..=6 => needed + dice.between(1, 5) as u16,
        _ => needed,
    }
}

pub fn keeps_to(book: &[u8], mains: u64) -> Request {
    Request { mains, ..on(Call::KeepsTo, book) }
}

/// The calls on a book.
pub const BOOK_CALLS: [Call; 12] = [
    Call::Check,
    Call::Rewrite,
    Call::Open,
    Call::Close,
    Call::Expand,
    Call::Balance,
    Call::Routes,
    Call::Post,
    Call::KeepsTo,
    Call::Purchase,
    Call::Links,
    Call::Salvage,
];

/// N as the header has it, or claims it.
fn nodes_of(book: &[u8]) -> u8 {
    book.get(11).copied().unwrap_or(4)
}

/// This call on a book; the other arguments are thrown.
pub fn any(dice: &mut Dice, call: Call, book: &[u8], ids: &[u16]) -> Request {
    let nodes = nodes_of(book);
    match call {
        Call::New | Call::BookOf => unreachable!("it is not asked of a book"),
        Call::Check => check(book),
        Call::Rewrite => rewrite(book),
        Call::Open => any_open(dice, book, nodes, ids),
        Call::Close => close(book, any_id(dice, ids, 80)),
        Call::Expand => {
            let (first, tiles) = any_tiles(dice);
            expand_tiles(book, any_node(dice, nodes), first, tiles)
        }
        Call::Balance => balance(book, any_node(dice, nodes)),
        Call::Links => links(book, any_node(dice, nodes)),
        Call::Routes => {
            let (source, destination) = any_ends(dice, nodes);
            routes_within(book, any_mains(dice, nodes), source, destination)
        }
        Call::Post => {
            let length = dice.below(6);
            let records: Vec<Record> = (0..length).map(|_| any_record(dice, book, ids)).collect();
            let request = post_within(book, any_mains(dice, nodes), &records);
            Request { beside: any_words(dice, request.beside), ..request }
        }
        Call::KeepsTo => keeps_to(book, any_mains(dice, nodes)),
        Call::Purchase => {
            let amount = dice.pick(&[0, 1, 500, 1 << 31, u32::MAX]);
            purchase(book, any_payer(dice, book), amount)
        }
        Call::Salvage => salvage(book, dice.pick(&[0, 3, 9, 30, 200, 200, 600])),
    }
}

/// Mostly all nodes or nearly all, sometimes any of them, now and then one from
/// N up.
pub fn any_mains(dice: &mut Dice, nodes: u8) -> u64 {
    let nodes = nodes.min(*NODES.end());
    let all = NodeSet::all(nodes).0;
    match dice.below(16) {
        0 => dice.bits(),
        1 => all | 1 << dice.below(64),
        2..=6 => all & dice.bits(),
        7..=10 => all & (dice.bits() | dice.bits() | dice.bits()),
        _ => all,
    }
}

/// An open or a close; its other fields, and the answer before the call, are
/// thrown.
pub fn any_record(dice: &mut Dice, book: &[u8], ids: &[u16]) -> Record {
    let opens = dice.chance(70);
    let (source, destination) = any_ends(dice, nodes_of(book));
    Record {
        opens,
        second: dice.chance(35),
        source,
        destination,
        id: any_id(dice, ids, if opens { 6 } else { 80 }),
        period: any_period(dice),
        account: any_payer(dice, book),
        answer: dice.pick(&[0, 0, 1, 12, 26, 255]),
    }
}

fn any_open(dice: &mut Dice, book: &[u8], nodes: u8, ids: &[u16]) -> Request {
    let id = any_id(dice, ids, 6);
    let (source, destination) = any_ends(dice, nodes);
    let second = dice.chance(35);
    let account = any_payer(dice, book);
    Request { second, account, ..open(book, id, source, destination, any_period(dice)) }
}

/// Mostly one of the book's accounts, as far as it has any.
fn any_payer(dice: &mut Dice, book: &[u8]) -> u16 {
    let stores = book.get(4).is_some_and(|&version| u16::from(version) == Version::Five as u16);
    let list = if stores { book.get(HEADER_LENGTH + 1..).unwrap_or_default() } else { &[] };
    let count = if stores { book.get(HEADER_LENGTH).copied().unwrap_or(0) } else { 0 };
    let accounts = list.chunks_exact(ACCOUNT_BYTES).take(usize::from(count));
    let numbers: Vec<u16> =
        accounts.map(|account| u16::from_be_bytes([account[0], account[1]])).collect();
    match dice.below(30) {
        0 => dice.bits() as u16,
        _ if numbers.is_empty() => ONLY_ACCOUNT.number,
        _ => dice.pick(&numbers),
    }
}

/// A source and a destination, now and then the same node.
fn any_ends(dice: &mut Dice, nodes: u8) -> (u8, u8) {
    let source = any_node(dice, nodes);
    let same = dice.chance(3);
    (source, if same { source } else { any_node(dice, nodes) })
}

/// A first tile and a count, mostly in the cycle and few.
fn any_tiles(dice: &mut Dice) -> (u16, u16) {
    match dice.below(12) {
        0 => (dice.bits() as u16, dice.bits() as u16),
        1 => (dice.between(900, 1010) as u16, dice.between(0, 101) as u16),
        2 => (0, 100),
        _ => (dice.below(1000) as u16, dice.between(1, 12) as u16),
    }
}

/// Mostly one of the ten.
fn any_period(dice: &mut Dice) -> u16 {
    match dice.below(24) {
        0 => dice.bits() as u16,
        1 => dice.pick(&[0, 3, 4, 25, 99, 101, 199, 232, 244, 257, 258, 456, 999, 1001, 25600]),
        _ => dice.pick(&PERIODS),
    }
}

/// Mostly below N, sometimes N or more.
fn any_node(dice: &mut Dice, nodes: u8) -> u8 {
    match dice.below(40) {
        0 => nodes,
        1 => dice.byte(),
        _ => dice.below(usize::from(nodes.max(1))) as u8,
    }
}

/// In `percent` of a hundred throws an id of the list, otherwise mostly new.
fn any_id(dice: &mut Dice, ids: &[u16], percent: usize) -> u16 {
    if !ids.is_empty() && dice.chance(percent) {
        return dice.pick(ids);
    }
    match dice.below(30) {
        0 => 0,
        1 => 65535,
        2..=15 => dice.between(1, 99) as u16,
        _ => dice.bits() as u16,
    }
}
