//! Slow probes: periods over 100 beside quick ones, tables in parts, and K of
//! older versions.

use crate::dice::Dice;
use crate::driver::{Driver, Room};
use crate::requests::{balance, check, expand_tiles, open, post, rewrite};
use crate::site::{add_stream, add_with_second, empty_book, line, open_plan, ring};
use reference::book::Book;
use reference::change::Open;
use reference::image;
use reference::plan::PERIODS;
use reference::record::Record;
use reference::version::Version;

pub fn ask(driver: &mut Driver, dice: &mut Dice) {
    for s in [1, 4, 32] {
        let image = image::write(Version::NEWEST, &mixed_book(s));
        tiles(driver, &image);
        every_period(driver, &image);
        balance_of_all(driver, &image);
    }
    parts(driver, dice);
    in_older_versions(driver);
}

/// A ring with streams of quick and slow periods.
fn mixed_book(s: u8) -> Book {
    let mut book = empty_book(open_plan(s), ring(6));
    add_stream(&mut book, 1, 0, 2, 50);
    add_with_second(&mut book, 2, 3, 5, 200);
    add_stream(&mut book, 3, 5, 0, 1000);
    add_stream(&mut book, 4, 1, 0, 500);
    book
}

/// First tiles and counts around every limit, with and without room.
fn tiles(driver: &mut Driver, image: &[u8]) {
    for first in [0, 1, 99, 100, 899, 900, 901, 999, 1000, 1001, 65535] {
        for count in [0, 1, 2, 99, 100, 101, 257, 356, 65535] {
            for node in [5, 6] {
                driver.ask(expand_tiles(image, node, first, count), Room::Exact);
            }
            driver.ask(expand_tiles(image, 5, first, count), Room::OneShort);
        }
    }
}

/// Opens of every period, one by one and in a list, and numbers near them.
fn every_period(driver: &mut Driver, image: &[u8]) {
    let near = PERIODS.iter().flat_map(|&period| [period - 1, period, period + 1, period + 256]);
    for period in near {
        driver.ask(open(image, 9, 0, 2, period), Room::Exact);
        driver.ask(open(image, 9, 5, 3, period), Room::Exact);
    }
    let record = |(id, &period): (u16, &u16)| {
        Record::open(Open {
            id,
            source: 4,
            destination: 1,
            period,
            second: id % 2 == 0,
            account: 0,
        })
    };
    let list: Vec<Record> = (10..).zip(PERIODS.iter().rev()).map(record).collect();
    driver.ask(post(image, &list), Room::Exact);
}

fn balance_of_all(driver: &mut Driver, image: &[u8]) {
    for node in 0..7 {
        driver.ask(balance(image, node), Room::Nothing);
    }
}

/// One table as ten parts, and as parts of any size.
fn parts(driver: &mut Driver, dice: &mut Dice) {
    let image = image::write(Version::NEWEST, &mixed_book(2));
    for part in 0..10 {
        driver.ask(expand_tiles(&image, 5, 100 * part, 100), Room::Exact);
    }
    let mut first = 0;
    while first < 1000 {
        let tiles = dice.between(1, 100).min(1000 - first);
        driver.ask(expand_tiles(&image, 4, first as u16, tiles as u16), Room::Exact);
        first += tiles;
    }
}

/// A row of each slow period, and of what is left of it in one byte.
fn in_older_versions(driver: &mut Driver) {
    for period in [100, 200, 500, 1000] {
        let mut book = empty_book(open_plan(4), line(3));
        add_stream(&mut book, 1, 0, 2, period);
        for version in Version::ALL {
            let image = image::write(version, &book);
            driver.ask(check(&image), Room::Nothing);
            driver.ask(rewrite(&image), Room::Exact);
            driver.ask(open(&image, 2, 2, 0, period), Room::Exact);
        }
    }
}
