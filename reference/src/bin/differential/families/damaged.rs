//! Books damaged on laptops: rows dropped for every reason, images cut, overwritten
//! and spliced, counts that do not agree, buffers and reports around what is
//! needed.

use super::unusual::unusual_book;
use crate::damage::{damaged, of_rows};
use crate::dice::Dice;
use crate::driver::{Driver, Room};
use crate::requests::{check, salvage};
use crate::site::{
    add_stream, add_with_second, any_accounts, empty_book, line, load, open_plan, ring, tighten,
    versions,
};
use reference::account::Account;
use reference::book::Book;
use reference::image;
use reference::row::Row;
use reference::version::Version;

/// Bytes of the report for each row cut.
const LINE: u16 = 3;

/// A report longer than any: a row has 8 bytes at least, and an image 4,096 at most.
const LONG_REPORT: u16 = LINE * 512;

/// The longest image of a frame.
const MOST: usize = 4096;

pub fn ask(driver: &mut Driver, dice: &mut Dice) {
    for version in Version::ALL {
        let image = image::write(version, &small_book(version));
        cut_everywhere(driver, &image);
        overwritten_everywhere(driver, &image);
        rows_shuffled(driver, dice, version);
    }
    past_the_limits(driver);
    for _ in 0..150 {
        thrown(driver, dice);
    }
}

/// Three streams on a ring, one with two routes where the version has them, and
/// of two accounts that have bought just what they draw.
fn small_book(version: Version) -> Book {
    let mut book = empty_book(open_plan(4), ring(6));
    if version.stores_accounts() {
        book.accounts = [1, 256].map(|number| Account { number, bought: u32::MAX }).to_vec();
    }
    add_stream(&mut book, 300, 0, 2, 10);
    add_stream(&mut book, 7, 5, 3, 100);
    if version > Version::One {
        add_with_second(&mut book, 9, 1, 2, 20);
    }
    if version.stores_accounts() {
        spare(&mut book, 0);
    }
    book
}

/// Leaves each account so many hop uses.
fn spare(book: &mut Book, uses: u32) {
    let drawn: Vec<u64> = book.accounts.iter().map(|account| book.drawn(account.number)).collect();
    for (account, drawn) in book.accounts.iter_mut().zip(drawn) {
        account.bought = drawn as u32 + uses;
    }
}

/// Every length from the header on, and bytes put on at the end.
fn cut_everywhere(driver: &mut Driver, image: &[u8]) {
    for length in 0..=image.len() {
        driver.ask(salvage(&image[..length], LONG_REPORT), Room::Exact);
    }
    for more in [1, 5, 20, 300] {
        let grown = [image, &vec![1; more]].concat();
        driver.ask(salvage(&grown, LONG_REPORT), Room::Exact);
    }
    for lines in 0..5 {
        for report in [LINE * lines, LINE * lines + 1, LINE * lines + 2] {
            for room in [Room::Nothing, Room::OneShort, Room::Exact, Room::Spare(9)] {
                driver.ask(salvage(image, report), room);
            }
        }
    }
}

/// Every byte with other values in its place.
fn overwritten_everywhere(driver: &mut Driver, image: &[u8]) {
    for place in 0..image.len() {
        for value in [0, 1, 15, 16, 200, 255] {
            let mut changed = image.to_vec();
            changed[place] = value;
            driver.ask(salvage(&changed, LONG_REPORT), Room::Exact);
        }
    }
}

/// Rows in another order, twice, meeting others, and counts of any value.
fn rows_shuffled(driver: &mut Driver, dice: &mut Dice, version: Version) {
    for _ in 0..60 {
        let mut book = small_book(version);
        if version.stores_accounts() {
            spare(&mut book, dice.pick(&[0, 19, 20, 49, 50, 99, 100, 5000]));
        }
        let extra = dice.below(book.rows.len());
        book.rows.push(book.rows[extra].clone());
        let id = dice.pick(&[1, 8, 10, 301, 65535]);
        book.rows[extra].id = id;
        dice.shuffle(&mut book.rows);
        let mut image = image::write(version, &book);
        image[12] = dice.below(66) as u8;
        image[14] = dice.byte();
        driver.ask(salvage(&image, LONG_REPORT), Room::any(dice));
    }
}

/// 70 rows of one hop, and 36 of 15, under counts that are in range; then as many rows as a frame takes.
fn past_the_limits(driver: &mut Driver) {
    for (streams, hops) in [(64, 8), (70, 1), (36, 15), (69, 8)] {
        let mut book = empty_book(open_plan(32), line(64));
        for id in 1..=streams {
            add_stream(&mut book, id, 0, hops, 100);
        }
        add_stream(&mut book, 900, 40, 41, 100);
        for version in versions(&book) {
            let rows = [&book.rows[..], &faulty_rows(&book.rows[0])].concat();
            let image = of_rows(version, &book, rows);
            let cut = streams + 1 + 3;
            driver.ask(salvage(&image, LONG_REPORT), Room::Exact);
            driver.ask(salvage(&image, LINE * cut - 1), Room::Exact);
            driver.ask(salvage(&image, LINE * cut), Room::OneShort);
        }
    }
    let mut book = empty_book(open_plan(1), line(2));
    add_stream(&mut book, 1, 0, 1, 100);
    let mut image = of_rows(Version::One, &book, vec![book.rows[0].clone(); 500]);
    image.resize(MOST, 0);
    driver.ask(salvage(&image, LONG_REPORT), Room::Exact);
}

/// Rows for the end of a book: one that meets a row of it, one of no period, and one whose id does not rise.
fn faulty_rows(row: &Row) -> [Row; 3] {
    let of = |id: u16, period: u16| Row { id, period, ..row.clone() };
    [of(1000, row.period), of(1001, 3), of(1, row.period)]
}

/// Two thrown books, damaged in all ways; what was saved is a lawful book.
fn thrown(driver: &mut Driver, dice: &mut Dice) {
    let one = if dice.chance(50) { unusual_book(dice) } else { loaded_book(dice) };
    let mut two = Book { rows: Vec::new(), ..one.clone() };
    spare(&mut two, 1_000_000);
    load(dice, &mut two, 8);
    for _ in 0..8 {
        let mut image = damaged(dice, &one, &two);
        image.truncate(MOST);
        let report = if dice.chance(90) { LONG_REPORT } else { LINE * dice.below(12) as u16 };
        let answer = driver.ask(salvage(&image, report), Room::any(dice));
        if dice.chance(20) && !answer.written().is_empty() {
            driver.ask(check(answer.written()), Room::Nothing);
            driver.ask(salvage(answer.written(), report), Room::Exact);
        }
    }
}

fn loaded_book(dice: &mut Dice) -> Book {
    let mut book = empty_book(open_plan(dice.pick(&[1, 4, 32])), ring(dice.between(3, 12)));
    book.accounts = any_accounts(dice);
    load(dice, &mut book, 20);
    if dice.chance(30) {
        tighten(dice, &mut book);
    }
    book
}
