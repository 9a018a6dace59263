//! A few books, cut short everywhere, grown, and changed at every byte.

use crate::dice::Dice;
use crate::driver::{Driver, Room};
use crate::requests::{self, BOOK_CALLS};
use crate::site::{
    add_stream, add_with_second, before_rows, empty_book, grid, hearing_also, ids, line, load,
    of_links, open_plan, plan_a, versions,
};
use reference::book::Book;
use reference::image;
use reference::plan::Plan;
use reference::version::Version;

pub fn ask(driver: &mut Driver, dice: &mut Dice, seed: u64) {
    for (version, book) in small_books() {
        cut_and_grown(driver, dice, version, &book);
        every_value(driver, dice, seed, version, &book);
    }
    for (version, book) in larger_books(dice) {
        cut_and_grown(driver, dice, version, &book);
        every_bit(driver, dice, version, &book);
    }
}

/// Books short enough to try every value at every byte.
fn small_books() -> Vec<(Version, Book)> {
    // P11.
    let mut pair = empty_book(plan_a(), line(2));
    add_stream(&mut pair, 7, 1, 0, 2);
    // P3.
    let mut two_ways = empty_book(plan_a(), line(4));
    add_stream(&mut two_ways, 1, 3, 0, 2);
    add_stream(&mut two_ways, 2, 0, 3, 2);
    // One slot a tile, three periods, ids of two bytes, a node nobody hears.
    let narrow = Plan { s: 1, c: 5, kinds: 0b00100, d: 1, u: 0 };
    let mut triangle = empty_book(narrow, of_links(4, [(0, 1), (1, 2), (0, 2)]));
    add_stream(&mut triangle, 0x0102, 0, 1, 5);
    add_stream(&mut triangle, 0x0201, 2, 1, 10);
    add_stream(&mut triangle, 0xFFFF, 1, 0, 20);
    // A stream with both its routes beside one without.
    let square = of_links(4, [(0, 1), (0, 2), (1, 3), (2, 3)]);
    let mut both_ways = empty_book(open_plan(2), square);
    add_with_second(&mut both_ways, 3, 0, 3, 5);
    add_stream(&mut both_ways, 4, 1, 2, 10);
    vec![
        (Version::One, pair.clone()),
        (Version::NEWEST, pair),
        (Version::One, two_ways),
        (Version::One, triangle),
        (Version::NEWEST, both_ways),
    ]
}

/// Books that are changed bit by bit.
fn larger_books(dice: &mut Dice) -> Vec<(Version, Book)> {
    let mut crowded = empty_book(open_plan(2), grid(3, 9));
    load(dice, &mut crowded, 14);
    let wide = Plan { s: 8, c: 4, kinds: 0b0110, d: 1, u: 2 };
    let mut long = empty_book(wide, line(16));
    add_stream(&mut long, 300, 0, 15, 100);
    add_stream(&mut long, 200, 15, 0, 50);
    add_stream(&mut long, 400, 4, 11, 20);
    // Nodes 0 and 3 hear each other without a link.
    let mut heard = empty_book(open_plan(2), hearing_also(line(4), [(0, 3)]));
    add_stream(&mut heard, 1, 0, 3, 10);
    let mut books = vec![(Version::NEWEST, crowded), (Version::NEWEST, heard)];
    books.extend(versions(&long).into_iter().map(|version| (version, long.clone())));
    books
}

/// Every call in turn, mostly with a buffer that holds the answer.
fn ask_next(driver: &mut Driver, dice: &mut Dice, turn: usize, image: &[u8], ids: &[u16]) {
    let call = BOOK_CALLS[turn % BOOK_CALLS.len()];
    let room = if dice.chance(90) { Room::Spare(16) } else { Room::any(dice) };
    driver.ask(requests::any(dice, call, image, ids), room);
}

fn cut_and_grown(driver: &mut Driver, dice: &mut Dice, version: Version, book: &Book) {
    let (image, ids) = (image::write(version, book), ids(book));
    for length in 0..image.len() {
        driver.ask(requests::check(&image[..length]), Room::Nothing);
        ask_next(driver, dice, length, &image[..length], &ids);
    }
    for more in [1, 2, 3, 5, 8, 100, 4096 - image.len()] {
        let mut grown = image.clone();
        grown.resize(image.len() + more, 0);
        ask_next(driver, dice, more, &grown, &ids);
        driver.ask(requests::check(&grown), Room::Nothing);
    }
}

/// Every value at every byte, by an even seed and an odd one together; in the
/// topology every bit, which is a link or none.
fn every_value(driver: &mut Driver, dice: &mut Dice, seed: u64, version: Version, book: &Book) {
    let (mut image, ids) = (image::write(version, book), ids(book));
    let rows = before_rows(version, &image);
    let topology = rows - version.topology_bytes(book.topology.nodes())..rows;
    for place in 0..image.len() {
        let kept = image[place];
        let in_topology = topology.contains(&place);
        let half = |change: &u8| (place as u64 + u64::from(*change) + seed) % 2 == 0;
        let tried = |change: &u8| if in_topology { change.is_power_of_two() } else { half(change) };
        for change in (1..=255u8).filter(tried) {
            image[place] = kept ^ change;
            ask_next(driver, dice, place + usize::from(change), &image, &ids);
        }
        image[place] = kept;
    }
}

fn every_bit(driver: &mut Driver, dice: &mut Dice, version: Version, book: &Book) {
    let (mut image, ids) = (image::write(version, book), ids(book));
    for place in 0..image.len() {
        for bit in 0..8 {
            image[place] ^= 1 << bit;
            ask_next(driver, dice, place + bit, &image, &ids);
            image[place] ^= 1 << bit;
        }
    }
}
