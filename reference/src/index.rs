//! The index by slot: who sends and who receives there.

use crate::book::Book;
use crate::plan::{LONGEST_QUICK_PERIOD, Plan};

/// The tiles that the index covers.
pub const INDEX_TILES: usize = 100;

/// Words of the index under this plan: two for each slot, the set of nodes
/// sending, then of nodes receiving.
pub fn index_words(plan: &Plan) -> usize {
    2 * INDEX_TILES * plan.tile_slots()
}

/// What the rows of the book say.
pub fn index_of(book: &Book) -> Vec<u64> {
    let mut words = vec![0; index_words(&book.plan)];
    for row in book.rows.iter().filter(|row| row.period <= LONGEST_QUICK_PERIOD) {
        for placed in row.placed_hops(&book.plan) {
            let covered = |slot: &usize| *slot < INDEX_TILES * book.plan.tile_slots();
            for slot in placed.slots.iter().filter(covered) {
                words[2 * slot] |= 1 << placed.hop.sender;
                words[2 * slot + 1] |= 1 << placed.hop.receiver;
            }
        }
    }
    words
}
