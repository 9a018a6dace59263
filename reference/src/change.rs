//! Changes of a book: a stream opened, a stream closed, hop uses bought.

use crate::account::draw;
use crate::book::{Book, MAX_HOPS, MAX_ROWS};
use crate::node_set::NodeSet;
use crate::placing::first_placing;
use crate::plan::PERIODS;
use crate::refusal::{Refusal, refuse_if};
use crate::route::{planners_route, second_route};
use crate::row::{FIRST_ROUTE, Row, SECOND_ROUTE};

/// A stream asked for.
#[derive(Clone, Copy, Debug, PartialEq, Eq)]
pub struct Open {
    pub id: u16,
    pub source: u8,
    pub destination: u8,
    pub period: u16,
    /// The stream shall have a second route.
    pub second: bool,
    /// The account that pays.
    pub account: u16,
}

/// The book with the stream; only nodes on mains stand in the middle of its
/// routes.
pub fn open(book: &Book, mains: NodeSet, asked: Open) -> Result<Book, Refusal> {
    let Open { id, source, destination, period, second, account } = asked;
    refuse_if(id == 0, Refusal::IdIsZero)?;
    refuse_if(source.max(destination) >= book.topology.nodes(), Refusal::NoSuchNode)?;
    refuse_if(source == destination, Refusal::SourceIsDestination)?;
    refuse_if(!PERIODS.contains(&period), Refusal::NoSuchPeriod)?;
    let payer = book.account(account).ok_or(Refusal::UnknownAccount)?;
    refuse_if(book.holds(id), Refusal::IdInBook)?;
    let first = planners_route(&book.topology, mains, source, destination)?;
    let mut routes = vec![(FIRST_ROUTE, first.clone())];
    if second {
        let second = second_route(&book.topology, mains, &first).ok_or(Refusal::NoSecondRoute)?;
        routes.push((SECOND_ROUTE, second));
    }
    refuse_if(is_full_for(book, &routes), Refusal::BookIsFull)?;
    let cost = draw(new_hops(&routes), period);
    let left = u64::from(payer.bought) - book.drawn(account);
    // Each route is placed beside the book with those before it.
    let mut book = book.clone();
    for (route, nodes) in routes {
        let offsets = first_placing(&book, &nodes, period).ok_or(Refusal::NoPlacing)?;
        book.add(Row { id, route, period, nodes, offsets, account });
    }
    refuse_if(cost > left, Refusal::NotEnoughLeft)?;
    Ok(book)
}

/// With these routes the rows would pass 64, or the hops 512.
fn is_full_for(book: &Book, routes: &[(u8, Vec<u8>)]) -> bool {
    book.rows.len() + routes.len() > MAX_ROWS || book.hops() + new_hops(routes) > MAX_HOPS
}

/// The hops of all these routes.
fn new_hops(routes: &[(u8, Vec<u8>)]) -> usize {
    routes.iter().map(|(_, nodes)| nodes.len() - 1).sum()
}

/// The book without the stream.
pub fn close(book: &Book, id: u16) -> Result<Book, Refusal> {
    refuse_if(id == 0, Refusal::IdIsZero)?;
    refuse_if(!book.holds(id), Refusal::IdNotInBook)?;
    let mut book = book.clone();
    book.remove(id);
    Ok(book)
}

/// The book where the account has bought so much more.
pub fn purchase(book: &Book, account: u16, amount: u32) -> Result<Book, Refusal> {
    let mut book = book.clone();
    let buyer = book.accounts.iter_mut().find(|buyer| buyer.number == account);
    let buyer = buyer.ok_or(Refusal::UnknownAccount)?;
    buyer.bought = buyer.bought.checked_add(amount).ok_or(Refusal::PastLargestNumber)?;
    Ok(book)
}
