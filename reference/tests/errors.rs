//! Document 01's errors that look reasonable, each shown not to be made.

mod common;

use common::*;
use reference::calls;

/// S=4, every slot data.
const OPEN_PLAN: (u8, u8, u16, u8, u8) = (4, 1, 0, 0, 0);

#[test]
fn offsets_are_not_compared_modulo_the_smaller_period() {
    // P6 as a book: 3 and 7 mod 2×4 differ, but slot 27 is common.
    let book = new_book(OPEN_PLAN, &line(2));
    let rows = vec![row(1, 2, &[0, 1], &[3]), row(2, 5, &[0, 1], &[7])];
    assert_eq!(calls::check(&with_rows(&book, rows)), (16, 0));
    // The same on opening: with one data slot a tile, whatever tile of five
    // the stream takes, it takes an even one of the cycle in some repeat.
    let book = new_book((4, 1, 0, 0, 3), &line(2));
    let book = with_rows(&book, vec![row(1, 2, &[0, 1], &[3])]);
    assert_eq!(open_refused(&book, 2, 0, 1, 5), 9);
}

#[test]
fn a_receiver_that_hears_the_other_sender_clashes() {
    // In a line of four, 0→1 and 2→3 share no node, but 1 hears 2.
    let book = new_book(OPEN_PLAN, &line(4));
    let rows = |second: &[u8]| vec![row(1, 1, &[0, 1], &[0]), row(2, 1, second, &[0])];
    assert_eq!(calls::check(&with_rows(&book, rows(&[2, 3]))), (16, 0));
    assert_eq!(calls::check(&with_rows(&book, rows(&[3, 2]))), (0, 0));
    // The other way about: 3→2 against 1→0, where 2 hears 1.
    let rows = vec![row(1, 1, &[3, 2], &[0]), row(2, 1, &[1, 0], &[0])];
    assert_eq!(calls::check(&with_rows(&book, rows)), (16, 0));
    let book = with_rows(&book, vec![row(1, 1, &[0, 1], &[0])]);
    assert_eq!(stream(&opened(&book, 2, 2, 3, 1), 2).offsets, [1]);
    assert_eq!(stream(&opened(&book, 2, 3, 2, 1), 2).offsets, [0]);
}

#[test]
fn control_slots_count_in_all_repeats() {
    // Plan A with its tiles the other way round: slot 1 is data in tile 0 only.
    let book = new_book((4, 2, 0b10, 2, 1), &line(4));
    assert_eq!(open_refused(&book, 1, 3, 0, 1), 9);
    let rows = vec![row(1, 1, &[3, 2, 1, 0], &[1, 2, 3])];
    assert_eq!(calls::check(&with_rows(&book, rows)), (15, 0));
}

#[test]
fn hops_are_placed_first_to_last_each_after_the_one_before() {
    // Slots 0 and 4 are taken for every hop near node 0, but not for 3→4. It
    // comes last, so it takes 4; sought from the start or first, it took 0.
    let book = new_book(OPEN_PLAN, &line(8));
    let book = with_rows(&book, vec![row(1, 1, &[0, 1], &[0])]);
    assert_eq!(stream(&opened(&book, 2, 0, 4, 2), 2).offsets, [1, 2, 3, 4]);
    assert_eq!(stream(&opened(&book, 2, 3, 4, 2), 2).offsets, [0]);
}

#[test]
fn two_opens_judged_against_one_book_may_not_be_joined() {
    let book = line_a(4);
    let first = stream(&opened(&book, 1, 3, 0, 2), 1);
    let second = stream(&opened(&book, 2, 3, 2, 2), 2);
    assert_eq!((first.offsets[0], second.offsets[0]), (2, 2));
    assert_eq!(calls::check(&with_rows(&book, vec![first, second])), (16, 0));
}
