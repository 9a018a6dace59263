//! Each answer number of each call, and the order of the numbers.

mod common;

use common::*;
use reference::account::{Account, ONLY_ACCOUNT};
use reference::book::Book;
use reference::version::Version;
use reference::{calls, image};

/// S=32, every slot data.
const WIDE_PLAN: (u8, u8, u16, u8, u8) = (32, 1, 0, 0, 0);

/// A version 1 book with one fault for each image number, number first.
fn damaged_books() -> Vec<(u8, Vec<u8>)> {
    let book = stored(Version::One, &p3());
    let changed = |place: usize, value: u8| {
        let mut bytes = book.clone();
        bytes[place] = value;
        bytes
    };
    let longer = [book.clone(), vec![0]].concat();
    let meeting = vec![row(1, 2, &[0, 1], &[2]), row(2, 2, &[2, 3], &[2])];
    vec![
        (14, Vec::new()),
        (14, book[..15].to_vec()),
        (13, changed(0, 0x73)),
        (13, changed(1, 0x4D)),
        (13, changed(2, 0x41)),
        (13, changed(3, 1)),
        (13, changed(4, 0)),
        (13, changed(4, Version::NEWEST as u8 + 1)),
        (14, changed(4, 2)),
        (10, changed(5, 0)),
        (10, changed(5, 33)),
        (10, changed(6, 3)),
        (10, changed(7, 0x80)),
        (10, changed(8, 0b100)),
        (10, changed(9, 5)),
        (10, changed(10, 5)),
        (10, changed(11, 1)),
        (10, changed(11, 65)),
        (10, changed(12, 65)),
        (10, changed(13, 3)),
        (10, changed(15, 1)),
        (14, book[..book.len() - 1].to_vec()),
        (14, longer),
        (14, changed(12, 1)),
        (11, changed(16, 0x80)),
        (11, changed(23, 0b011)),
        (11, changed(23, 0b110)),
        (15, changed(48, 1)),
        (15, changed(49, 0)),
        (15, changed(49, 2)),
        (15, changed(50, 3)),
        (15, changed(51, 2)),
        (15, changed(51, 4)),
        (15, changed(52, 4)),
        (15, changed(52, 1)),
        (15, changed(52, 0)),
        (15, changed(57, 1)),
        (15, changed(57, 3)),
        (15, changed(61, 8)),
        (16, with_rows(&line_a(4), meeting)),
    ]
}

#[test]
fn new_gives_0_10_11_12() {
    let rows = line(4);
    let new = |s, c, kinds, d, u, n, rows: &[u8]| {
        refused(ROOM, |out| calls::new(&site((s, c, kinds, d, u), n, rows), &ONLY, out))
    };
    let length = new_book(PLAN_A, &rows).len();
    assert_eq!(new(0, 2, 1, 0, 0, 4, &rows), 10);
    assert_eq!(new(33, 2, 1, 2, 1, 4, &rows), 10);
    assert_eq!(new(4, 3, 1, 2, 1, 4, &rows), 10);
    assert_eq!(new(4, 2, 4, 2, 1, 4, &rows), 10);
    assert_eq!(new(4, 2, 1, 5, 1, 4, &rows), 10);
    assert_eq!(new(4, 2, 1, 2, 5, 4, &rows), 10);
    assert_eq!(new(4, 2, 1, 2, 1, 1, &rows[..8]), 10);
    assert_eq!(new(4, 2, 1, 2, 1, 65, &[0; 520]), 10);
    assert_eq!(new(4, 2, 1, 2, 1, 5, &rows), 11);
    assert_eq!(new(4, 2, 1, 2, 1, 4, &rows[..31]), 11);
    assert_eq!(new(4, 2, 1, 2, 1, 4, &[]), 11);
    assert_eq!(new(4, 2, 1, 2, 1, 2, &topology(2, &[(0, 0)])), 11);
    assert_eq!(new(4, 2, 1, 2, 1, 2, &topology(3, &[(0, 2)])[..16]), 11);
    let mut one_way = line(4);
    one_way[7] = 0;
    assert_eq!(new(4, 2, 1, 2, 1, 4, &one_way), 11);
    let short = |room| refused(room, |out| calls::new(&site(PLAN_A, 4, &rows), &ONLY, out));
    assert_eq!((short(0), short(length - 1)), (12, 12));
    // 10 before 11 before 12.
    assert_eq!(refused(0, |out| calls::new(&site((0, 2, 1, 2, 1), 4, &[]), &ONLY, out)), 10);
    assert_eq!(refused(0, |out| calls::new(&site(PLAN_A, 4, &[]), &ONLY, out)), 11);
}

#[test]
fn every_call_gives_the_image_numbers_first() {
    for (number, book) in damaged_books() {
        assert_eq!(calls::check(&book), (number, 0));
        assert_eq!(refused(0, |out| calls::rewrite(&book, out)), number);
        assert_eq!(refused(0, |out| calls::open(&book, plain(0, 255, 255, 3), out)), number);
        assert_eq!(refused(0, |out| calls::close(&book, 0, out)), number);
        assert_eq!(refused(0, |out| calls::expand(&book, 255, 1000, 0, out)), number);
        assert_eq!(calls::balance(&book, 255), (number, 0, 0, 0));
        assert_eq!(calls::links(&book, 255), (number, 0));
        let list = |out: &mut [u8]| {
            let (number, length, more) = calls::routes(&book, all_of(&book), 255, 255, out);
            assert!(!more);
            (number, length)
        };
        assert_eq!(refused(0, list), number);
    }
}

#[test]
fn image_numbers_come_in_order() {
    // Faults from the last looked at to the first, added one after another.
    let meeting = vec![row(1, 2, &[0, 1], &[2]), row(2, 2, &[2, 3], &[2])];
    let book = Book { rows: meeting, ..read(&line_a(4)) };
    let mut book = image::write(Version::One, &book);
    assert_eq!(calls::check(&book), (16, 0));
    *book.last_mut().unwrap() = 4;
    assert_eq!(calls::check(&book), (15, 0));
    book[23] = 0;
    assert_eq!(calls::check(&book), (11, 0));
    book.push(0);
    assert_eq!(calls::check(&book), (14, 0));
    book[15] = 1;
    assert_eq!(calls::check(&book), (10, 0));
    book[4] = 0;
    assert_eq!(calls::check(&book), (13, 0));
    book.truncate(15);
    assert_eq!(calls::check(&book), (14, 0));
}

#[test]
fn stated_hops_and_rows_must_fill_the_image() {
    // Three rows fewer and five hops more give the same length.
    let book = with_rows(&line_a(4), vec![row(1, 2, &[0, 1], &[2])]);
    let mut few_rows = stored(Version::One, &book);
    few_rows[12] = 0;
    few_rows.extend([0; 1]);
    few_rows[14] = 3;
    assert_eq!(few_rows.len(), 16 + 32 + 9);
    assert_eq!(calls::check(&few_rows), (15, 0));
    let rows = (1..=4).map(|id| row(id, 5, &[0, 1], &[4 * id + 3])).collect();
    let book = with_rows(&new_book((4, 1, 0, 0, 0), &line(4)), rows);
    for version in Version::ALL {
        let mut book = stored(version, &book);
        assert_eq!(calls::check(&book), (0, 0));
        // Three rows fewer have the bytes of as many hops as a row has others.
        (book[12], book[14]) = (1, 4 + version.row_bytes() as u8);
        assert_eq!(calls::check(&book), (15, 0));
    }
}

#[test]
fn check_gives_0() {
    for version in Version::ALL {
        assert_eq!(calls::check(&stored(version, &p3())), (0, 0));
    }
}

#[test]
fn rewrite_gives_0_and_12() {
    for version in Version::ALL {
        let book = stored(version, &p3());
        assert_eq!(written(|out| calls::rewrite(&book, out)), book);
        assert_eq!(refused(book.len() - 1, |out| calls::rewrite(&book, out)), 12);
    }
}

#[test]
fn open_gives_1_2_4_5_6() {
    let book = p2();
    assert_eq!(open_refused(&book, 0, 4, 4, 3), 1);
    assert_eq!(open_refused(&book, 1, 4, 4, 3), 4);
    assert_eq!(open_refused(&book, 1, 0, 4, 3), 4);
    assert_eq!(open_refused(&book, 1, 255, 255, 3), 4);
    assert_eq!(open_refused(&book, 1, 3, 3, 3), 5);
    for period in [0, 3, 4, 25, 99, 101, 199, 257, 258, 456, 512, 999, 1001, 65535] {
        assert_eq!(open_refused(&book, 1, 3, 0, period), 6);
    }
    assert_eq!(open_refused(&book, 1, 3, 0, 1), 2);
}

#[test]
fn open_gives_7_where_no_route_exists() {
    let islands = new_book(PLAN_A, &topology(4, &[(0, 1), (2, 3)]));
    assert_eq!(open_refused(&islands, 1, 0, 3, 2), 7);
    // Two islands, each with nodes over 15 hops away.
    let links: Vec<_> = (1..64).filter(|&node| node != 32).map(|node| (node - 1, node)).collect();
    let islands = new_book(WIDE_PLAN, &topology(64, &links));
    assert_eq!(open_refused(&islands, 1, 31, 32, 100), 7);
    assert_eq!(open_refused(&islands, 1, 0, 63, 100), 7);
    assert_eq!(open_refused(&islands, 1, 0, 31, 100), 17);
}

#[test]
fn open_gives_17_where_every_route_is_over_15_hops() {
    assert_eq!(open_refused(&new_book(WIDE_PLAN, &line(17)), 1, 0, 16, 100), 17);
    let far = new_book(WIDE_PLAN, &line(64));
    assert_eq!(open_refused(&far, 1, 0, 63, 100), 17);
    assert_eq!(open_refused(&far, 1, 63, 47, 100), 17);
    assert_eq!(stream(&opened(&far, 1, 63, 48, 100), 1).nodes, (48..=63).rev().collect::<Vec<_>>());
    // In a ring of 31 the way round to node 16 has 16 hops one way, 15 the other.
    let links: Vec<_> = (0..31).map(|node| (node, (node + 1) % 31)).collect();
    let ring = new_book(WIDE_PLAN, &topology(31, &links));
    assert_eq!(stream(&opened(&ring, 1, 0, 16, 100), 1).nodes[1], 30);
}

/// `streams` streams of `hops` hops each, on a line of 64.
fn loaded(streams: u16, hops: u8) -> Vec<u8> {
    let empty = new_book(WIDE_PLAN, &line(64));
    (1..=streams).fold(empty, |book, id| opened(&book, id, 0, hops, 100))
}

#[test]
fn open_gives_8() {
    // 64 rows, few hops.
    let book = loaded(64, 1);
    assert_eq!(open_refused(&book, 65, 0, 1, 100), 8);
    assert_eq!(open_refused(&book, 64, 0, 1, 100), 2);
    // 17 before 8, and 2 before 17.
    assert_eq!(open_refused(&book, 65, 0, 63, 100), 17);
    assert_eq!(open_refused(&book, 64, 0, 63, 100), 2);
    // 510 hops, few rows: two more fit, three do not.
    let book = loaded(34, 15);
    assert_eq!(open_refused(&book, 65, 0, 3, 1), 8);
    let full = opened(&book, 65, 40, 42, 1);
    assert_eq!(open_refused(&full, 66, 40, 41, 1), 8);
    // 12 before 8 before 9.
    assert_eq!(refused(0, |out| calls::open(&full, plain(66, 0, 1, 1), out)), 12);
    assert_eq!(open_refused(&full, 66, 0, 1, 1), 8);
    assert_eq!(open_refused(&book, 66, 0, 1, 1), 9);
}

#[test]
fn open_gives_9_and_12() {
    assert_eq!(open_refused(&p3(), 3, 3, 2, 2), 9);
    let longest = Version::NEWEST.longest_image();
    let open = |room| refused(room, |out| calls::open(&p2(), plain(2, 0, 3, 2), out));
    assert_eq!((open(0), open(longest - 1)), (12, 12));
    let mut out = vec![FILL; longest];
    assert_eq!(calls::open(&p2(), plain(2, 0, 3, 2), &mut out), (0, p3().len()));
    assert_eq!(out[..p3().len()], p3());
}

#[test]
fn close_gives_0_1_3_12() {
    let book = p3();
    assert_eq!(closed(&book, 2), p2());
    assert_eq!(refused(ROOM, |out| calls::close(&book, 0, out)), 1);
    assert_eq!(refused(ROOM, |out| calls::close(&book, 3, out)), 3);
    // The buffer is measured against the longest book, and before the record.
    let longest = Version::NEWEST.longest_image();
    for id in [0, 2, 3] {
        assert_eq!(refused(longest - 1, |out| calls::close(&book, id, out)), 12);
    }
    let mut out = vec![FILL; longest];
    assert_eq!(calls::close(&book, 2, &mut out), (0, p2().len()));
}

#[test]
fn expand_gives_0_4_12_and_21_between() {
    assert_eq!(written(|out| calls::expand(&p2(), 3, 0, 100, out)).len(), 1200);
    assert_eq!(refused(0, |out| calls::expand(&p2(), 4, 0, 0, out)), 4);
    assert_eq!(refused(1199, |out| calls::expand(&p2(), 3, 0, 100, out)), 12);
}

#[test]
fn balance_gives_0_and_4() {
    assert_eq!(calls::balance(&p2(), 3), (0, 2500, 500, 2000));
    assert_eq!(calls::balance(&p2(), 4), (4, 0, 0, 0));
}

#[test]
fn links_gives_0_and_4() {
    assert_eq!(calls::links(&p2(), 3), (0, 1));
    for node in [4, 63, 64, 255] {
        assert_eq!(calls::links(&p2(), node), (4, 0));
    }
}

#[test]
fn the_longest_book_stands() {
    let book = loaded(64, 8);
    let accounts: Vec<Account> = (0..32).map(|number| Account { number, ..ONLY_ACCOUNT }).collect();
    let with_accounts = Book { accounts, ..read(&book) };
    for (version, longest) in Version::ALL.into_iter().zip([2384, 2448, 2960, 3024, 3345]) {
        let fitting =
            if version.fits(&with_accounts) { with_accounts.clone() } else { read(&book) };
        let book = image::write(version, &fitting);
        assert_eq!((book.len(), version.longest_image()), (longest, longest));
        assert_eq!(calls::check(&book), (0, 0));
        assert_eq!(open_refused(&book, 65, 40, 41, 100), 8);
        assert_eq!(refused(longest - 1, |out| calls::rewrite(&book, out)), 12);
    }
}
