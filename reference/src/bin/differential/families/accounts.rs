//! Prepaid accounts: lists in and out of their range, opens up to the last hop
//! use and past it, purchases up to 32 bits and past them.

use super::new_request;
use crate::dice::Dice;
use crate::driver::{Driver, Room};
use crate::requests::{self, BOOK_CALLS, check, close, open, post, purchase, rewrite, salvage};
use crate::site::{
    add_stream, add_with_second, empty_book, images, line, of_links, open_plan, plan_a, ring,
};
use reference::account::{Account, MAX_ACCOUNTS, write_accounts};
use reference::book::Book;
use reference::change::Open;
use reference::frame::Request;
use reference::image;
use reference::record::Record;
use reference::version::{HEADER_LENGTH, Version};

pub fn ask(driver: &mut Driver, dice: &mut Dice) {
    lists_of_new_books(driver);
    lists_in_images(driver);
    for (drawn, spare) in [(0, 0), (0, 49), (0, 50), (0, 100), (1, 0), (1, 149), (1, 150)] {
        around_the_last_use(driver, dice, drawn, spare);
    }
    unlawful_rows(driver, dice);
    for faults in 0..1 << 7 {
        several_faults(driver, faults);
    }
    opens_with_faults(driver);
    purchases(driver);
}

fn account(number: u16, bought: u32) -> Account {
    Account { number, bought }
}

/// So many accounts, numbered from 1.
fn accounts(count: usize) -> Vec<Account> {
    (1..=count).map(|number| account(number as u16, 10 * number as u32)).collect()
}

/// Lists that are and are not rising, of every length around a limit.
fn lists() -> Vec<Vec<u8>> {
    let mut lists: Vec<Vec<u8>> =
        [0, 1, 2, 31, MAX_ACCOUNTS, 33, 34].map(|count| write_accounts(&accounts(count))).into();
    lists.push(write_accounts(&[account(0, 0)]));
    lists.push(write_accounts(&[account(65535, u32::MAX)]));
    lists.push(write_accounts(&[account(255, 1), account(256, 1)]));
    lists.push(write_accounts(&[account(256, 1), account(255, 1)]));
    lists.push(write_accounts(&[account(7, 1), account(7, 2)]));
    let two = write_accounts(&accounts(2));
    lists.extend((1..two.len()).map(|length| two[..length].to_vec()));
    lists
}

fn lists_of_new_books(driver: &mut Driver) {
    let request = new_request(&plan_a(), &line(3));
    for further in lists() {
        for room in [Room::Nothing, Room::OneShort, Room::Exact] {
            driver.ask(Request { further: further.clone(), ..request.clone() }, room);
        }
        driver.ask(Request { further: further.clone(), s: 0, ..request.clone() }, Room::Exact);
        driver.ask(Request { further, bytes: Vec::new(), ..request.clone() }, Room::Exact);
    }
}

/// Images with each list, cut everywhere in it, and with every count.
fn lists_in_images(driver: &mut Driver) {
    for count in [1, 2, MAX_ACCOUNTS, 33] {
        let book = Book { accounts: accounts(count), ..empty_book(plan_a(), line(2)) };
        let image = image::write(Version::NEWEST, &book);
        for length in 16..=image.len() {
            driver.ask(check(&image[..length]), Room::Nothing);
        }
        for other in 0..=255 {
            let mut recounted = image.clone();
            recounted[16] = other;
            driver.ask(check(&recounted), Room::Nothing);
        }
    }
    for list in [[account(5, 1), account(5, 1)], [account(6, 1), account(5, 1)]] {
        let book = Book { accounts: list.to_vec(), ..empty_book(plan_a(), line(2)) };
        driver.ask(rewrite(&image::write(Version::NEWEST, &book)), Room::Exact);
    }
}

/// A ring whose account 5 has so much left beside `streams` streams of 100.
fn ring_book(streams: u16, spare: u32) -> Book {
    let accounts = vec![account(5, u32::MAX), account(9, 0)];
    let mut book = Book { accounts, ..empty_book(open_plan(8), ring(6)) };
    for id in 1..=streams {
        add_with_second(&mut book, 2 * id, 0, 1, 50);
    }
    book.accounts[0].bought = book.drawn(5) as u32 + spare;
    book
}

/// Opens that cost a little less and a little more than what is left.
fn around_the_last_use(driver: &mut Driver, dice: &mut Dice, streams: u16, spare: u32) {
    let book = ring_book(streams, spare);
    let image = image::write(Version::NEWEST, &book);
    let asked = |id, destination, period, second, account| {
        Record::open(Open { id, source: 0, destination, period, second, account })
    };
    for (destination, second) in [(1, false), (2, false), (3, false), (3, true)] {
        for period in [1, 10, 20, 50, 1000] {
            for payer in [0, 5, 9, 261] {
                let one = asked(301, destination, period, second, payer);
                let list = [one, Record::close(2), asked(302, destination, period, second, payer)];
                driver.ask(post(&image, &list), Room::Exact);
            }
            let request = open(&image, 301, 0, destination, period);
            driver.ask(Request { second, account: 5, ..request }, Room::Exact);
        }
    }
    driver.ask(close(&image, 2), Room::Exact);
    for call in BOOK_CALLS {
        driver.ask(requests::any(dice, call, &image, &[2]), Room::any(dice));
    }
}

/// Rows of an unknown account, of two accounts in one stream, and accounts
/// overdrawn by one.
fn unlawful_rows(driver: &mut Driver, dice: &mut Dice) {
    let lawful = ring_book(1, 0);
    let mut overdrawn = lawful.clone();
    overdrawn.accounts[0].bought -= 1;
    let mut unknown = lawful.clone();
    unknown.rows.iter_mut().for_each(|row| row.account = 6);
    let mut unpaid = lawful.clone();
    unpaid.rows.iter_mut().for_each(|row| row.account = 9);
    let mut shared = lawful.clone();
    shared.accounts[1].bought = 1000;
    shared.rows[1].account = 9;
    for book in [lawful, overdrawn, unknown, unpaid, shared] {
        let image = image::write(Version::NEWEST, &book);
        driver.ask(check(&image), Room::Nothing);
        for call in BOOK_CALLS {
            driver.ask(requests::any(dice, call, &image, &[2]), Room::any(dice));
        }
    }
}

/// Purchases around 32 bits, for known and unknown accounts.
fn purchases(driver: &mut Driver) {
    let mut older = empty_book(open_plan(4), ring(6));
    add_stream(&mut older, 1, 0, 2, 10);
    let newer = ring_book(1, 10);
    for image in images(&older).into_iter().chain(images(&newer)) {
        for number in [0, 4, 5, 9, 65535] {
            for amount in [0, 1, 1000, u32::MAX - 351, u32::MAX - 1, u32::MAX] {
                for room in [Room::Nothing, Room::OneShort, Room::Exact, Room::Spare(3)] {
                    driver.ask(purchase(&image, number, amount), room);
                }
            }
        }
        driver.ask(purchase(&image[1..], 5, 1), Room::Exact);
    }
}

/// An image with one fault for each bit of `faults`, the first in an image's order last.
fn several_faults(driver: &mut Driver, faults: u8) {
    let fault = |bit: u8| faults >> bit & 1 == 1;
    let mut book = ring_book(1, 0);
    if fault(0) {
        book.accounts[0].bought -= 1;
    }
    if fault(1) {
        book.accounts[1].number = 5;
    }
    let mut image = image::write(Version::NEWEST, &book);
    if fault(2) {
        // Node 0 is linked to itself.
        image[HEADER_LENGTH + Version::NEWEST.accounts_bytes(2) + 7] |= 1;
    }
    if fault(3) {
        image.push(0);
    }
    if fault(4) {
        image.truncate(HEADER_LENGTH + Version::NEWEST.accounts_bytes(2) - 1);
    }
    if fault(5) {
        image[15] = 1;
    }
    if fault(6) {
        // Version 6.
        image[4] = 6;
    }
    driver.ask(check(&image), Room::Nothing);
    driver.ask(salvage(&image, 600), Room::Exact);
    for (number, amount) in [(5, 1), (6, u32::MAX)] {
        driver.ask(purchase(&image, number, amount), Room::Exact);
        driver.ask(purchase(&image, number, amount), Room::Nothing);
    }
}

/// Opens that can meet 1, 4, 5, 6, 22, 2, 7, 9 and 23 in every mixture.
fn opens_with_faults(driver: &mut Driver) {
    let site = of_links(4, [(0, 1), (1, 2)]);
    for (slots, spare) in [(1, 0), (2, 0), (2, 9), (2, 10), (2, 2000)] {
        let accounts = vec![account(5, u32::MAX)];
        let mut book = Book { accounts, ..empty_book(open_plan(slots), site.clone()) };
        add_stream(&mut book, 5, 0, 1, 1);
        book.accounts[0].bought = book.drawn(5) as u32 + spare;
        let image = image::write(Version::NEWEST, &book);
        for id in [0, 5, 300] {
            for (source, destination) in [(0, 1), (0, 2), (0, 3), (1, 1), (4, 0), (255, 255)] {
                for period in [1, 3, 100, 200, 1000] {
                    for payer in [5, 6] {
                        let request = open(&image, id, source, destination, period);
                        driver.ask(Request { account: payer, ..request }, Room::Exact);
                    }
                }
            }
        }
    }
}
