//! The index by slot that a posting keeps beside the rows of a book: which nodes send there, and which receive.

use crate::book::Book;

/// The tiles that it has, from the first on; a stream of a longer period is not in it.
const TILES: u16 = 100;
/// The sets of a slot: the nodes that send, then the nodes that receive.
const SETS: usize = 2;

/// How many words it has for tiles of so many slots.
pub fn words(slots: u8) -> usize {
    SETS * usize::from(TILES) * usize::from(slots)
}

/// What the rows of a book say.
pub fn of(book: &Book) -> Vec<u64> {
    let mut index = vec![0; words(book.slots)];
    for way in book.ways.iter().filter(|way| way.period <= TILES) {
        let turn = SETS * usize::from(way.period) * usize::from(book.slots);
        for (&offset, ends) in way.offsets.iter().zip(way.nodes.windows(2)) {
            for (set, node) in ends.iter().enumerate() {
                let first = SETS * usize::from(offset) + set;
                index.iter_mut().skip(first).step_by(turn).for_each(|word| *word |= 1 << node);
            }
        }
    }
    index
}

#[cfg(test)]
mod tests {
    use super::*;
    use crate::account::ENDLESS;
    use crate::book::Way;

    #[test]
    fn every_repeat_of_a_hop_has_its_sender_and_its_receiver() {
        let way = |id, period, nodes: &[u8], offsets: &[u16]| Way {
            id,
            number: 1,
            period,
            nodes: nodes.into(),
            offsets: offsets.into(),
            account: ENDLESS.number,
        };
        let ways = vec![way(1, 50, &[3, 2, 1], &[2, 199]), way(2, 50, &[63, 0], &[2])];
        let plan = Book {
            version: 3,
            slots: 4,
            tiles: 1,
            kinds: 0,
            down: 0,
            up: 0,
            accounts: vec![ENDLESS],
            links: vec![],
            hearing: vec![],
            ways,
        };
        let mut expected = vec![0; 800];
        for slot in [2, 202] {
            expected[2 * slot..2 * slot + 2].copy_from_slice(&[1 << 3 | 1 << 63, 1 << 2 | 1]);
        }
        for slot in [199, 399] {
            expected[2 * slot..2 * slot + 2].copy_from_slice(&[1 << 2, 1 << 1]);
        }
        assert_eq!(of(&plan), expected);
    }
}
