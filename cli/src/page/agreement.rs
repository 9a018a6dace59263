//! Whether the engine's tables say what the page draws from the rows of the book.

use super::hops::hops;
use crate::book::Book;
use crate::table::{Entry, Work};
use crate::tiles::Tiles;

/// In these tiles, which are one repeat of the book or several, every node's table has each hop in all its slots, control
/// where the plan has it, and sleep elsewhere.
pub fn agrees(book: &Book, tiles: Tiles, tables: &[Vec<Entry>]) -> bool {
    let said = |entry: &Entry| (entry.work(), entry.id, entry.is_second());
    let said = tables.iter().map(|table| table.iter().map(said).collect::<Vec<_>>());
    said.eq(drawn(book, tiles.count))
}

/// What each node does in every slot of the first tiles, for which stream and route, as it is drawn.
fn drawn(book: &Book, tiles: u16) -> Vec<Vec<(Work, u16, bool)>> {
    let slots = usize::from(book.slots);
    let in_tile = |tile| {
        let work = |slot| if slot < book.control(tile) { Work::Control } else { Work::Sleep };
        (0..book.slots).map(move |slot| (work(slot), 0, false)).collect::<Vec<_>>()
    };
    let mut rows = vec![(0..tiles).flat_map(in_tile).collect::<Vec<_>>(); book.links.len()];
    for way in &book.ways {
        for hop in hops(way) {
            let turns = usize::from(hop.offset)..usize::from(tiles) * slots;
            for slot in turns.step_by(usize::from(way.period) * slots) {
                rows[usize::from(hop.from)][slot] = (Work::Sends, way.id, way.is_second());
                rows[usize::from(hop.to)][slot] = (Work::Receives, way.id, way.is_second());
            }
        }
    }
    rows
}

#[cfg(test)]
mod tests {
    use super::super::samples::ring;
    use super::*;

    /// The tables of the book, with operations of the first hop and the last alike.
    fn tables(book: &Book) -> Vec<Vec<Entry>> {
        let entry = |&(work, id, second): &(Work, u16, bool)| {
            let operation = match work {
                Work::Sleep => 0,
                Work::Control => 5,
                Work::Sends => 1,
                Work::Receives => 2,
            };
            Entry { operation: operation + if second { 16 } else { 0 }, id }
        };
        drawn(book, book.repeats_after())
            .iter()
            .map(|row| row.iter().map(entry).collect())
            .collect()
    }

    #[test]
    fn a_second_route_in_the_place_of_the_first_does_not_agree() {
        let book = ring();
        let (tiles, mut tables) = (Tiles::repeat(&[&book]), tables(&book));
        assert!(agrees(&book, tiles, &tables));
        // Slot 2: node 0 sends on the first route of stream 7.
        tables[0][2].operation += 16;
        assert!(!agrees(&book, tiles, &tables));
    }
}
