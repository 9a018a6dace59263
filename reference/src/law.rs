//! What makes the rows of a book lawful.

use crate::book::{Book, MAX_ROUTE_HOPS, MAX_SHORT_HOPS};
use crate::hop::{PlacedHop, clash, hops_of, meet};
use crate::plan::{PERIODS, Plan};
use crate::route::have_common_middle;
use crate::row::{FIRST_ROUTE, Row, SECOND_ROUTE};
use crate::topology::Topology;

/// The rows are lawful one by one, rise strictly by id and then route, and
/// every second route is lawful beside its first; every row is of a known
/// account, and none is overdrawn.
pub fn rows_are_lawful(book: &Book) -> bool {
    let lawful = |row| row_is_lawful(row, &book.plan, &book.topology);
    rises_strictly(book.rows.iter().map(Row::key))
        && book.rows.iter().all(lawful)
        && second_routes_are_lawful(&book.rows)
        && accounts_pay(book)
}

/// One row by itself is lawful.
fn row_is_lawful(row: &Row, plan: &Plan, topology: &Topology) -> bool {
    row.id != 0
        && [FIRST_ROUTE, SECOND_ROUTE].contains(&row.route)
        && PERIODS.contains(&row.period)
        && (1..=MAX_ROUTE_HOPS).contains(&row.offsets.len())
        && nodes_are_lawful(&row.nodes, topology)
        && offsets_are_lawful(row, plan)
}

/// Nodes distinct, below N and each linked to the next.
fn nodes_are_lawful(nodes: &[u8], topology: &Topology) -> bool {
    nodes.iter().all(|&node| node < topology.nodes())
        && (1..nodes.len()).all(|place| !nodes[..place].contains(&nodes[place]))
        && hops_of(nodes).all(|hop| topology.linked(hop.sender, hop.receiver))
}

/// Offsets rise, stay below K×S and take only data slots in all repeats.
fn offsets_are_lawful(row: &Row, plan: &Plan) -> bool {
    let lawful = |&offset: &u16| {
        let offset = usize::from(offset);
        offset < plan.period_slots(row.period)
            && plan.slots_of(offset, row.period).iter().all(|slot| plan.is_data(slot))
    };
    rises_strictly(row.offsets.iter()) && row.offsets.iter().all(lawful)
}

/// Each is above the one before.
fn rises_strictly<T: PartialOrd>(list: impl Iterator<Item = T>) -> bool {
    let list: Vec<T> = list.collect();
    list.windows(2).all(|pair| pair[0] < pair[1])
}

/// Every row 2 stands right after a row 1 that it may stand beside.
fn second_routes_are_lawful(rows: &[Row]) -> bool {
    (0..rows.len()).filter(|&place| rows[place].route == SECOND_ROUTE).all(|place| {
        let before = place.checked_sub(1).map(|before| &rows[before]);
        before.is_some_and(|first| second_is_lawful(first, &rows[place]))
    })
}

/// The row 2 has the id, period, account and ends of the row 1, at most 6 hops,
/// another route and no common middle.
fn second_is_lawful(first: &Row, second: &Row) -> bool {
    (first.id, first.route) == (second.id, FIRST_ROUTE)
        && first.period == second.period
        && first.account == second.account
        && first.nodes.first() == second.nodes.first()
        && first.nodes.last() == second.nodes.last()
        && second.offsets.len() <= MAX_SHORT_HOPS
        && first.nodes != second.nodes
        && !have_common_middle(&first.nodes, &second.nodes)
}

/// A row may stand behind the rows of a book: it is lawful by itself, rises
/// above the last of them, as a row 2 is lawful beside it, and its account pays
/// for it beside them.
pub fn row_may_follow(book: &Book, row: &Row) -> bool {
    let last = book.rows.last();
    last.is_none_or(|last| last.key() < row.key())
        && row_is_lawful(row, &book.plan, &book.topology)
        && (row.route == FIRST_ROUTE || last.is_some_and(|first| second_is_lawful(first, row)))
        && accounts_pay(&with_row(book, row))
}

/// The book with this row behind its own.
fn with_row(book: &Book, row: &Row) -> Book {
    let mut book = book.clone();
    book.rows.push(row.clone());
    book
}

/// Two hops clash and meet.
fn at_odds(topology: &Topology, one: &PlacedHop, two: &PlacedHop) -> bool {
    clash(topology, one.hop, two.hop) && meet(one, two)
}

/// A hop of the row meets a clashing hop of the book.
pub fn meets_another(book: &Book, row: &Row) -> bool {
    let hops = row.placed_hops(&book.plan);
    let others = book.rows.iter().flat_map(|row| row.placed_hops(&book.plan));
    others.into_iter().any(|one| hops.iter().any(|two| at_odds(&book.topology, &one, two)))
}

/// Every row is of a known account, and none has drawn more than it bought.
fn accounts_pay(book: &Book) -> bool {
    book.rows.iter().all(|row| book.account(row.account).is_some())
        && book
            .accounts
            .iter()
            .all(|account| book.drawn(account.number) <= u64::from(account.bought))
}

/// Two clashing hops of different rows meet.
pub fn clashing_hops_meet(book: &Book) -> bool {
    let rows: Vec<Vec<PlacedHop>> =
        book.rows.iter().map(|row| row.placed_hops(&book.plan)).collect();
    let at_odds = |one: &PlacedHop, two: &PlacedHop| at_odds(&book.topology, one, two);
    (0..rows.len()).any(|later| {
        rows[..later].iter().flatten().any(|one| rows[later].iter().any(|two| at_odds(one, two)))
    })
}
