//! The index by slot (W12).

mod common;

use common::*;
use reference::calls;
use reference::record::Record;

/// A word that no call writes.
const UNTOUCHED: u64 = 0xA5A5_A5A5_A5A5_A5A5;

/// The words of 100 tiles of S=4.
const WORDS: usize = 2 * 100 * 4;

/// Posts a list; the index after it.
fn index_after(book: &[u8], list: &[Record]) -> Vec<u64> {
    let (mut list, mut index) = (list.to_vec(), vec![UNTOUCHED; WORDS + 3]);
    written(|out| calls::post(book, all_of(book), &mut list, &mut index, out));
    assert_eq!(index[WORDS..], [UNTOUCHED; 3]);
    index.truncate(WORDS);
    index
}

/// The index whose two tiles, of which all hundred are made, have these pairs
/// of senders and receivers.
fn two_tiles(slots: [(u64, u64); 8]) -> Vec<u64> {
    let words: Vec<u64> = slots.into_iter().flat_map(|(send, receive)| [send, receive]).collect();
    words.repeat(50)
}

/// P2 has 3→2 in slot 2, 2→1 in slot 3 and 1→0 in slot 5 of every two tiles.
fn index_of_p2() -> Vec<u64> {
    let mut slots = [(0, 0); 8];
    slots[2] = (0b1000, 0b0100);
    slots[3] = (0b0100, 0b0010);
    slots[5] = (0b0010, 0b0001);
    two_tiles(slots)
}

#[test]
fn the_index_is_what_the_rows_say() {
    assert_eq!(index_after(&line_a(4), &[]), [0; WORDS]);
    assert_eq!(index_after(&p2(), &[]), index_of_p2());
    // P3 adds 0→1 in slot 2, 1→2 in slot 6 and 2→3 in slot 7.
    let mut slots = [(0, 0); 8];
    slots[2] = (0b1001, 0b0110);
    slots[3] = (0b0100, 0b0010);
    slots[5] = (0b0010, 0b0001);
    slots[6] = (0b0010, 0b0100);
    slots[7] = (0b0100, 0b1000);
    let list = [Record::open(plain(1, 3, 0, 2)), Record::open(plain(2, 0, 3, 2))];
    assert_eq!(index_after(&line_a(4), &list), two_tiles(slots));
    assert_eq!(index_after(&p3(), &[]), two_tiles(slots));
}

#[test]
fn a_close_takes_out_exactly_its_own_bits() {
    assert_eq!(index_after(&p3(), &[Record::close(2)]), index_of_p2());
    assert_eq!(index_after(&p3(), &[Record::close(2), Record::close(1)]), [0; WORDS]);
}

#[test]
fn a_posting_of_which_nothing_was_done_fills_it_too() {
    let refused = [Record::close(9), Record::open(plain(1, 0, 3, 2))];
    assert_eq!(index_after(&p2(), &refused), index_of_p2());
}

#[test]
fn too_short_an_index_is_12() {
    let book = p2();
    let post = |words: usize| {
        let mut index = vec![UNTOUCHED; words];
        let number =
            refused(ROOM, |out| calls::post(&book, all_of(&book), &mut [], &mut index, out));
        assert!(index.iter().all(|&word| word == UNTOUCHED));
        number
    };
    assert_eq!((post(0), post(WORDS - 1)), (12, 12));
    assert_eq!(index_after(&book, &[]).len(), WORDS);
    // 26 before it.
    let mut list = vec![Record::close(1); 65];
    assert_eq!(refused(ROOM, |out| calls::post(&book, 1, &mut list, &mut [], out)), 26);
}
