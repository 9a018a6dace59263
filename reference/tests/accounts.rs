//! Prepaid accounts (W11).

mod common;

use common::*;
use reference::account::{Account, write_accounts};
use reference::book::Book;
use reference::change::Open;
use reference::version::Version;
use reference::{calls, image};

/// S=4, every slot data.
const OPEN_PLAN: (u8, u8, u16, u8, u8) = (4, 1, 0, 0, 0);

/// Account 5 has bought 40 hop uses, account 9 none.
fn list() -> Vec<u8> {
    write_accounts(&[Account { number: 5, bought: 40 }, Account { number: 9, bought: 0 }])
}

/// A square with these accounts.
fn square() -> Vec<u8> {
    let links = topology(4, &[(0, 1), (0, 2), (1, 3), (2, 3)]);
    written(|out| calls::new(&site(OPEN_PLAN, 4, &links), &list(), out))
}

fn paid(id: u16, destination: u8, period: u16, second: bool, account: u16) -> Open {
    Open { id, source: 0, destination, period, second, account }
}

fn open(book: &[u8], asked: Open) -> Vec<u8> {
    written(|out| calls::open(book, asked, out))
}

fn refused_open(book: &[u8], asked: Open) -> u8 {
    refused(ROOM, |out| calls::open(book, asked, out))
}

#[test]
fn version_5_stores_accounts_after_the_header_and_in_rows() {
    let book = open(&square(), paid(7, 1, 100, false, 5));
    assert_eq!(book[16..29], [2, 0, 5, 0, 0, 0, 40, 0, 9, 0, 0, 0, 0]);
    assert_eq!(book[29 + 64..], [0, 7, 1, 0, 100, 1, 0, 1, 0, 0, 0, 5]);
    assert_eq!(written(|out| calls::rewrite(&book, out)), book);
    assert_eq!(read(&book).drawn(5), 10);
}

#[test]
fn opening_draws_and_closing_gives_back() {
    // Two routes of two hops draw 4 × 1000/K: 20 of 40 with K=200.
    let book = open(&square(), paid(1, 3, 200, true, 5));
    assert_eq!(read(&book).drawn(5), 20);
    // Twice 20 is 40, the last use.
    let full = open(&book, paid(2, 3, 200, true, 5));
    assert_eq!(read(&full).drawn(5), 40);
    assert_eq!(refused_open(&full, paid(3, 1, 1000, false, 5)), 23);
    assert_eq!(read(&closed(&full, 1)).drawn(5), 20);
    assert_eq!(open(&closed(&full, 2), paid(2, 3, 200, true, 5)), full);
    assert_eq!(read(&full).accounts, read(&square()).accounts);
}

#[test]
fn one_use_too_many_is_23() {
    // 1000/50 is 20 a hop: two hops are 40, three routes' worth are not.
    assert_eq!(read(&open(&square(), paid(1, 3, 50, false, 5))).drawn(5), 40);
    let book = open(&square(), paid(1, 1, 1000, false, 5));
    assert_eq!(refused_open(&book, paid(2, 3, 50, false, 5)), 23);
    assert_eq!(refused_open(&square(), paid(1, 1, 1000, false, 9)), 23);
}

#[test]
fn the_order_of_22_and_23() {
    let book = open(&square(), paid(1, 1, 100, false, 5));
    // 6, 22, 2.
    assert_eq!(refused_open(&book, paid(1, 1, 3, false, 6)), 6);
    assert_eq!(refused_open(&book, paid(1, 1, 1, false, 6)), 22);
    assert_eq!(refused_open(&book, paid(1, 1, 1, false, 5)), 2);
    // 9 before 23: one slot a tile, taken by a stream of period 1.
    let links = line(2);
    let rich = write_accounts(&[Account { number: 5, bought: 1000 }]);
    let narrow = written(|out| calls::new(&site((1, 1, 0, 0, 0), 2, &links), &rich, out));
    let taken = open(&narrow, paid(1, 1, 1, false, 5));
    assert_eq!(refused_open(&taken, paid(2, 1, 1000, false, 5)), 9);
}

#[test]
fn older_books_have_one_account() {
    for version in [Version::One, Version::Two, Version::Three, Version::Four] {
        let older = stored(version, &p2());
        assert_eq!(read(&older).accounts, [Account { number: 0, bought: 4_294_967_295 }]);
        assert_eq!(refused_open(&older, paid(2, 3, 2, false, 1)), 22);
        assert_eq!(opened(&older, 2, 0, 3, 2), p3());
    }
}

#[test]
fn a_new_book_gives_10_for_its_accounts() {
    let new = |accounts: &[u8]| {
        let links = line(4);
        refused(0, |out| calls::new(&site(PLAN_A, 4, &links), accounts, out))
    };
    let numbered = |numbers: &[u16]| {
        let account = |&number: &u16| Account { number, bought: 1 };
        write_accounts(&numbers.iter().map(account).collect::<Vec<_>>())
    };
    assert_eq!(new(&[]), 10);
    assert_eq!(new(&list()[..11]), 10);
    assert_eq!(new(&numbered(&[3, 3])), 10);
    assert_eq!(new(&numbered(&[4, 3])), 10);
    assert_eq!(new(&numbered(&(0..33).collect::<Vec<u16>>())), 10);
    // 32 are in range, and then the buffer is too short.
    assert_eq!(new(&numbered(&(0..32).collect::<Vec<u16>>())), 12);
    // 10 before 11.
    assert_eq!(refused(0, |out| calls::new(&site(PLAN_A, 4, &[]), &[], out)), 10);
}

#[test]
fn an_image_gives_14_10_14_around_its_accounts() {
    let book = square();
    assert_eq!(calls::check(&book[..16]), (14, 0));
    assert_eq!(calls::check(&book[..28]), (14, 0));
    let changed = |place: usize, value: u8| {
        let mut bytes = book.clone();
        bytes[place] = value;
        calls::check(&bytes).0
    };
    // A count of 0; one that ends past the image; one account that rises no more.
    assert_eq!((changed(16, 0), changed(16, 255), changed(18, 9)), (10, 14, 10));
    // One account fewer: the list is good, the length is not.
    assert_eq!(changed(16, 1), 14);
    // Bytes 5 to 15 come first.
    let mut both = book[..20].to_vec();
    both[15] = 1;
    assert_eq!(calls::check(&both), (10, 0));
}

/// The check's number of the square after a change of its book.
fn check_changed(change: impl Fn(&mut Book)) -> u8 {
    let mut book = read(&open(&square(), paid(1, 3, 200, true, 5)));
    change(&mut book);
    calls::check(&image::write(Version::NEWEST, &book)).0
}

#[test]
fn rows_of_unknown_or_overdrawn_accounts_are_15() {
    assert_eq!(check_changed(|_| ()), 0);
    assert_eq!(check_changed(|book| book.accounts[0].bought = 20), 0);
    assert_eq!(check_changed(|book| book.accounts[0].bought = 19), 15);
    assert_eq!(check_changed(|book| book.rows.iter_mut().for_each(|row| row.account = 6)), 15);
    // Equal in both rows of an id.
    let shared = |book: &mut Book| {
        book.accounts[1].bought = 100;
        book.rows[1].account = 9;
    };
    assert_eq!(check_changed(shared), 15);
}

#[test]
fn a_purchase_raises_bought_by_its_amount() {
    let book = open(&square(), paid(1, 3, 200, true, 5));
    let after = written(|out| calls::purchase(&book, 9, 300, out));
    assert_eq!(read(&after).accounts[1], Account { number: 9, bought: 300 });
    assert_eq!(read(&after).accounts[0], read(&book).accounts[0]);
    assert_eq!(read(&after).rows, read(&book).rows);
}

#[test]
fn a_purchase_gives_22_24_12() {
    let book = square();
    let buy =
        |account, amount, room| refused(room, |out| calls::purchase(&book, account, amount, out));
    assert_eq!(buy(6, u32::MAX, 0), 22);
    assert_eq!(buy(5, u32::MAX - 39, 0), 24);
    assert_eq!(buy(5, u32::MAX - 40, 0), 12);
    assert_eq!(buy(5, 1, book.len() - 1), 12);
    let most = written(|out| calls::purchase(&book, 5, u32::MAX - 40, out));
    assert_eq!(read(&most).accounts[0].bought, u32::MAX);
    // An older book has bought the largest number already.
    let older = stored(Version::One, &p2());
    assert_eq!(refused(ROOM, |out| calls::purchase(&older, 0, 1, out)), 24);
    assert_eq!(written(|out| calls::purchase(&older, 0, 0, out)), p2());
}
