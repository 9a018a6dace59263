//! Books damaged on laptops (W7).

mod common;

use common::*;
use reference::account::Account;
use reference::book::Book;
use reference::calls::{self, SalvageSaid};
use reference::image;
use reference::row::Row;
use reference::salvage::lines;
use reference::version::Version;

/// A salvage that is done: what it says, the book and the report.
fn salvaged(book: &[u8]) -> (SalvageSaid, Vec<u8>, Vec<u8>) {
    let (mut out, mut report) = (vec![FILL; ROOM], vec![FILL; ROOM]);
    let said = calls::salvage(book, &mut out, &mut report);
    assert_eq!(said.number, 0);
    assert!(out[said.length..].iter().all(|&byte| byte == FILL));
    assert!(report[3 * said.rows..].iter().all(|&byte| byte == FILL));
    out.truncate(said.length);
    report.truncate(3 * said.rows);
    (said, out, report)
}

/// A salvage that is refused, its number.
fn salvage_refused(book: &[u8], room: usize, report_room: usize) -> u8 {
    let (mut out, mut report) = (vec![FILL; room], vec![FILL; report_room]);
    let said = calls::salvage(book, &mut out, &mut report);
    assert_eq!(said, SalvageSaid { number: said.number, ..SalvageSaid::default() });
    assert!(out.iter().chain(&report).all(|&byte| byte == FILL));
    said.number
}

#[test]
fn a_lawful_book_comes_through_byte_for_byte() {
    for version in Version::ALL {
        let book = stored(version, &p3());
        let (said, out, report) = salvaged(&book);
        assert_eq!((out, said.rows, said.lost), (book, 2, 0));
        assert_eq!(report, [0, 0, 1, 0, 0, 2]);
    }
}

/// The image of line A with these rows, in the newest version.
fn line_with(rows: Vec<Row>) -> Vec<u8> {
    image::write(Version::NEWEST, &Book { rows, ..read(&line_a(4)) })
}

#[test]
fn each_row_is_judged_beside_those_kept() {
    // The second meets the first; the third has node 9; the fourth would meet
    // the second, which is gone; the fifth's id does not rise.
    let rows = vec![
        row(1, 2, &[0, 1], &[2]),
        row(2, 2, &[2, 3], &[2]),
        row(3, 2, &[2, 9], &[3]),
        row(4, 2, &[3, 2], &[2]),
        row(4, 2, &[0, 1], &[3]),
    ];
    let (said, out, report) = salvaged(&line_with(rows.clone()));
    assert_eq!(report, [0, 0, 1, 16, 0, 2, 15, 0, 3, 0, 0, 4, 15, 0, 4]);
    assert_eq!((said.rows, said.lost), (5, 0));
    assert_eq!(out, line_with(vec![rows[0].clone(), rows[3].clone()]));
    assert_eq!(calls::check(&out), (0, 0));
}

#[test]
fn a_second_route_falls_with_its_first() {
    let ring = topology(4, &[(0, 1), (1, 2), (2, 3), (3, 0)]);
    let empty = new_book((4, 1, 0, 0, 0), &ring);
    let rows =
        |first: u16| vec![row(5, 5, &[0, 1, 2], &[first, 1]), row_2(5, 5, &[0, 3, 2], &[2, 3])];
    assert_eq!(salvaged(&with_rows(&empty, rows(0))).2, [0, 0, 5, 0, 0, 5]);
    assert_eq!(salvaged(&with_rows(&empty, rows(1))).2, [15, 0, 5, 15, 0, 5]);
}

#[test]
fn cutting_stops_at_a_hop_count_or_at_the_end() {
    let book = stored(Version::One, &p3());
    // The second row is 5 + 3×3 bytes; 13 of them are left.
    let (said, out, _) = salvaged(&book[..book.len() - 1]);
    assert_eq!((said.rows, said.lost), (1, 13));
    assert_eq!(out, stored(Version::One, &p2()));
    // Its hop count stands at 48 + 14 + 3.
    for hops in [0, 16, 255] {
        let mut broken = book.clone();
        broken[65] = hops;
        let (said, _, _) = salvaged(&broken);
        assert_eq!((said.rows, said.lost), (1, 14));
    }
    // Counts and length are not held against it.
    let mut recounted = [book.clone(), vec![7, 7]].concat();
    (recounted[12], recounted[14]) = (60, 200);
    let (said, out, _) = salvaged(&recounted);
    assert_eq!((said.rows, said.lost, out), (2, 2, book));
}

#[test]
fn past_64_rows_or_512_hops_is_8() {
    let mut book = read(&new_book((32, 1, 0, 0, 0), &line(64)));
    book.rows = (1..=66).map(|id| row(id, 100, &[0, 1], &[id])).collect();
    let mut image = image::write(Version::NEWEST, &book);
    (image[12], image[14]) = (64, 64);
    let (said, _, report) = salvaged(&image);
    assert_eq!(said.rows, 66);
    assert_eq!(report[63 * 3..], [0, 0, 64, 8, 0, 65, 8, 0, 66]);
}

#[test]
fn refusals_are_the_checks_for_header_and_topologies_then_12() {
    let book = stored(Version::One, &p3());
    let changed = |place: usize, value: u8| {
        let mut bytes = book.clone();
        bytes[place] = value;
        salvage_refused(&bytes, 0, 0)
    };
    assert_eq!(salvage_refused(&book[..15], 0, 0), 14);
    assert_eq!((changed(0, 0), changed(4, 9)), (13, 13));
    assert_eq!((changed(5, 0), changed(12, 65), changed(15, 1)), (10, 10, 10));
    assert_eq!(changed(23, 0), 11);
    // The topology ends at 48; what follows may be missing.
    assert_eq!(salvage_refused(&book[..47], 0, 0), 14);
    assert_eq!(salvaged(&book[..48]).0.rows, 0);
    assert_eq!(salvage_refused(&book, book.len() - 1, 6), 12);
    assert_eq!(salvage_refused(&book, book.len(), 5), 12);
}

#[test]
fn a_slow_row_of_an_older_version_is_15() {
    let rows = vec![row(1, 200, &[0, 1], &[2]), row(2, 2, &[2, 3], &[2])];
    let book = Book { rows, ..read(&line_a(4)) };
    for version in Version::ALL {
        let first = if version < Version::Four { 15 } else { 0 };
        let second = if version < Version::Four { 0 } else { 16 };
        let report = salvaged(&image::write(version, &book)).2;
        assert_eq!(report, [first, 0, 1, second, 0, 2]);
    }
}

#[test]
fn the_lines_of_the_tool() {
    let rows = vec![row(1, 2, &[0, 1], &[2]), row(2, 2, &[2, 3], &[2]), row(3, 2, &[2, 9], &[3])];
    let image = [line_with(rows), vec![7, 7]].concat();
    assert_eq!(lines(&image), "kept 1\ndropped 2 16\ndropped 3 15\nlost 2\n");
    assert_eq!(lines(&line_a(4)), "lost 0\n");
    assert_eq!(lines(&[]), "refused 14\n");
    assert_eq!(lines(&image[..40]), "refused 14\n");
}

/// Line A of two accounts: 5 has bought 40, 9 nothing.
fn two_accounts(rows: Vec<Row>) -> Vec<u8> {
    let accounts = vec![Account { number: 5, bought: 40 }, Account { number: 9, bought: 0 }];
    image::write(Version::Five, &Book { accounts, rows, ..read(&line_a(4)) })
}

#[test]
fn a_row_that_its_account_does_not_pay_for_is_15() {
    // A hop of period 100 draws 10, one of period 50 draws 20.
    let of = |account: u16, row: Row| Row { account, ..row };
    let rows = vec![
        of(5, row(1, 50, &[0, 1], &[2])),
        of(6, row(2, 100, &[0, 1], &[10])),
        of(9, row(3, 100, &[0, 1], &[10])),
        of(5, row(4, 100, &[0, 1, 2, 3], &[10, 11, 18])),
        of(5, row(5, 100, &[0, 1, 2], &[10, 11])),
        of(5, row(6, 1000, &[0, 1], &[18])),
    ];
    let (said, out, report) = salvaged(&two_accounts(rows.clone()));
    // Unknown; nothing bought; 20 + 30 of 40; 20 + 20 of 40; 41 of 40.
    assert_eq!(report, [0, 0, 1, 15, 0, 2, 15, 0, 3, 15, 0, 4, 0, 0, 5, 15, 0, 6]);
    assert_eq!((said.rows, said.lost), (6, 0));
    assert_eq!(out, two_accounts(vec![rows[0].clone(), rows[4].clone()]));
    assert_eq!(calls::check(&out), (0, 0));
}

#[test]
fn a_second_route_of_another_account_is_15() {
    let ring = topology(4, &[(0, 1), (1, 2), (2, 3), (3, 0)]);
    let empty = new_book((4, 1, 0, 0, 0), &ring);
    let accounts = [5, 9].map(|number| Account { number, bought: 4000 }).to_vec();
    let second = |account| Row { account, ..row_2(7, 5, &[0, 3, 2], &[2, 3]) };
    let rows =
        |account| vec![Row { account: 5, ..row(7, 5, &[0, 1, 2], &[0, 1]) }, second(account)];
    let book = |account| Book { accounts: accounts.clone(), rows: rows(account), ..read(&empty) };
    let report = |account| salvaged(&image::write(Version::Five, &book(account))).2;
    assert_eq!(report(5), [0, 0, 7, 0, 0, 7]);
    assert_eq!(report(9), [0, 0, 7, 15, 0, 7]);
}

#[test]
fn a_salvage_refuses_an_account_list_as_check_does() {
    // The header, a count and two accounts of 6 bytes, then 2 × 32 bytes of topologies.
    let book = two_accounts(Vec::new());
    assert_eq!(book.len(), 16 + 13 + 64);
    for length in [16, 17, 28, 29, 92] {
        assert_eq!(salvage_refused(&book[..length], ROOM, ROOM), 14);
    }
    let changed = |place: usize, value: u8| {
        let mut bytes = book.clone();
        bytes[place] = value;
        salvage_refused(&bytes, ROOM, ROOM)
    };
    // 12 accounts end inside the topologies, and do not rise; 13 end past the image.
    assert_eq!((changed(16, 0), changed(16, 12), changed(18, 9)), (10, 10, 10));
    assert_eq!(changed(16, 13), 14);
}
