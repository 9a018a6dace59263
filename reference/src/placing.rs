//! Placing: the lexicographically first rising list of offsets that keeps the
//! rules beside the rows already there.

use crate::book::Book;
use crate::hop::{Hop, clash, hops_of};

/// The first placing of a route with this period; none if there is no placing.
///
/// Whether an offset serves a hop hangs on the book alone, not on the route's
/// other offsets: those must only rise. So taking for each hop in turn the
/// lowest serving offset above the one before gives the first list. And if any
/// list exists, hop by hop its offsets are at or above these, so none is
/// missed.
pub fn first_placing(book: &Book, route: &[u8], period: u16) -> Option<Vec<u16>> {
    let mut offsets = Vec::new();
    let mut lowest = 0;
    for hop in hops_of(route) {
        let offset = serving_offsets(book, hop, period).find(|&offset| offset >= lowest)?;
        offsets.push(offset as u16);
        lowest = offset + 1;
    }
    Some(offsets)
}

/// The offsets below K×S whose slots, in all repeats, are free for the hop.
pub fn serving_offsets(book: &Book, hop: Hop, period: u16) -> impl Iterator<Item = usize> + '_ {
    let free = free_slots(book, hop);
    (0..book.plan.period_slots(period))
        .filter(move |&offset| book.plan.slots_of(offset, period).iter().all(|slot| free[slot]))
}

/// For each slot of the cycle, whether it is a data slot that no clashing hop of
/// the book takes.
fn free_slots(book: &Book, hop: Hop) -> Vec<bool> {
    let mut free: Vec<bool> =
        (0..book.plan.cycle_slots()).map(|slot| book.plan.is_data(slot)).collect();
    for placed in book.rows.iter().flat_map(|row| row.placed_hops(&book.plan)) {
        if clash(&book.topology, hop, placed.hop) {
            placed.slots.iter().for_each(|slot| free[slot] = false);
        }
    }
    free
}
