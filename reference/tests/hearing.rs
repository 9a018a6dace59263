//! Hearing (W6): who hears whom, beside the links.

mod common;

use common::*;
use reference::calls::{self, Site};
use reference::version::Version;

/// S=4, every slot data.
const OPEN_PLAN: (u8, u8, u16, u8, u8) = (4, 1, 0, 0, 0);

/// Line A, where 1 and 3 hear each other.
fn heard() -> Vec<u8> {
    topology(4, &[(0, 1), (1, 2), (2, 3), (1, 3)])
}

#[test]
fn clashes_read_the_hearing() {
    // P3: without it 0→1 shares slot 2 with 3→2; with it, slots 2, 3 and 5 are
    // taken for 0→1 (3→2, 2→1, 1→0), so it takes 6, and nothing follows but 7.
    let book = opened(&new_book_hearing(PLAN_A, &line(4), &heard()), 1, 3, 0, 2);
    assert_eq!(stream(&book, 1).offsets, [2, 3, 5]);
    assert_eq!(open_refused(&book, 2, 0, 3, 2), 9);
    assert_eq!(stream(&opened(&book, 2, 0, 1, 2), 2).offsets, [6]);
    assert_eq!(stream(&opened(&p2(), 2, 0, 1, 2), 2).offsets, [2]);
}

#[test]
fn clashing_rows_are_16() {
    let rows = || vec![row(1, 1, &[0, 1], &[0]), row(2, 1, &[3, 2], &[0])];
    assert_eq!(calls::check(&with_rows(&new_book(OPEN_PLAN, &line(4)), rows())), (0, 0));
    let book = new_book_hearing(OPEN_PLAN, &line(4), &heard());
    assert_eq!(calls::check(&with_rows(&book, rows())), (16, 0));
}

#[test]
fn routes_keep_to_the_links() {
    let book = new_book_hearing(OPEN_PLAN, &line(4), &heard());
    assert_eq!(stream(&opened(&book, 1, 1, 3, 100), 1).nodes, [1, 2, 3]);
    assert_eq!(
        open_refused(&new_book_hearing(OPEN_PLAN, &topology(4, &[]), &heard()), 1, 1, 3, 5),
        7
    );
    let rows = vec![row(1, 1, &[1, 3], &[0])];
    assert_eq!(calls::check(&with_rows(&book, rows)), (15, 0));
}

#[test]
fn version_3_stores_it_after_the_links() {
    let book = new_book_hearing(PLAN_A, &line(4), &heard());
    let book = stored(Version::Three, &book);
    assert_eq!(book[16..48], line(4));
    assert_eq!(book[48..80], heard());
    assert_eq!(written(|out| calls::rewrite(&book, out)), book);
    assert_eq!(Version::Three.image_length(1, 4, 0, 0), 80);
}

#[test]
fn older_versions_hear_exactly_their_links() {
    for version in [Version::One, Version::Two] {
        let book = read(&stored(version, &p3()));
        assert_eq!(book.topology.hearing, book.topology.links);
        assert_eq!(opened(&stored(version, &p2()), 2, 0, 3, 2), p3());
    }
}

#[test]
fn a_new_book_gives_11_for_its_hearing_too() {
    let new = |hearing: &[u8]| {
        let links = line(4);
        refused(ROOM, |out| calls::new(&Site { hearing, ..site(PLAN_A, 4, &links) }, &ONLY, out))
    };
    let with = |more: (usize, usize)| topology(4, &[(0, 1), (1, 2), (2, 3), more]);
    assert_eq!(new(&[]), 11);
    assert_eq!(new(&heard()[..31]), 11);
    assert_eq!(new(&[heard(), vec![0; 8]].concat()), 11);
    // A node that hears itself, one way only, a bit from N up, a missing link.
    assert_eq!(new(&with((2, 2))), 11);
    let mut one_way = heard();
    one_way[31] &= !0b10;
    assert_eq!(new(&one_way), 11);
    let mut past = heard();
    past[7] |= 1 << 4;
    assert_eq!(new(&past), 11);
    assert_eq!(new(&topology(4, &[(0, 1), (1, 2), (1, 3)])), 11);
}

#[test]
fn an_image_gives_11_for_its_hearing_too() {
    let book = new_book_hearing(PLAN_A, &line(4), &heard());
    let book = stored(Version::Three, &book);
    let turned = |place: usize, bits: u8| {
        let mut image = book.clone();
        image[place] ^= bits;
        calls::check(&image).0
    };
    // The low byte of row 0 of the hearing is byte 55.
    assert_eq!(turned(55, 0b0001), 11);
    assert_eq!(turned(55, 0b0100), 11);
    assert_eq!(turned(55, 0b0001_0000), 11);
    assert_eq!(turned(55, 0), 0);
    let mut missing = book.clone();
    (missing[55], missing[63]) = (0, missing[63] & !1);
    assert_eq!(calls::check(&missing), (11, 0));
}
