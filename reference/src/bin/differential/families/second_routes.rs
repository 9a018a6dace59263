//! Second routes: found and not found, up to 6 hops and past them, with and
//! without room and slots, and rows 2 that are not lawful.

use crate::dice::Dice;
use crate::driver::{Driver, Room};
use crate::requests::{self, BOOK_CALLS, balance, check, close, expand, open, open_with_second};
use crate::site::{
    add_stream, add_with_second, any_image, complete, empty_book, fan, grid, images, line,
    of_links, open_plan, ring,
};
use reference::book::Book;
use reference::image;
use reference::row::Row;
use reference::topology::Topology;
use reference::version::Version;

pub fn ask(driver: &mut Driver, dice: &mut Dice) {
    for topology in sites() {
        every_pair(driver, dice, topology);
    }
    around_full_books(driver);
    short_of_slots(driver);
    for rows in lawful_rows().into_iter().chain(unlawful_rows()) {
        let book = Book { rows, ..knot() };
        let image = image::write(Version::NEWEST, &book);
        driver.ask(check(&image), Room::Nothing);
        for call in BOOK_CALLS {
            driver.ask(requests::any(dice, call, &image, &[5, 6]), Room::any(dice));
        }
    }
}

fn sites() -> Vec<Topology> {
    let mut sites: Vec<Topology> = (2..16).map(ring_or_link).collect();
    sites.extend([line(5), complete(5), fan(3), grid(2, 10), grid(3, 9)]);
    // Two ways, both through node 2; and a link beside a way of 6 hops, of 7.
    sites.push(of_links(5, [(0, 1), (0, 2), (1, 2), (2, 3), (2, 4), (3, 4)]));
    sites.push(of_links(8, [(0, 1), (1, 2), (2, 3), (3, 4), (4, 5), (5, 6), (6, 0)]));
    sites
}

/// A ring; of two nodes, one link.
fn ring_or_link(nodes: usize) -> Topology {
    if nodes == 2 { line(2) } else { ring(nodes) }
}

/// Opens with a second route between every two nodes; some are expanded and
/// closed again.
fn every_pair(driver: &mut Driver, dice: &mut Dice, topology: Topology) {
    let nodes = topology.nodes();
    let empty = empty_book(open_plan(2), topology);
    for (source, destination) in (0..nodes).flat_map(|a| (0..nodes).map(move |b| (a, b))) {
        let image = any_image(dice, &empty);
        let request = open_with_second(&image, 9, source, destination, 20);
        let answer = driver.ask(request, Room::Exact);
        if answer.number == 0 && dice.chance(30) {
            driver.ask(expand(answer.written(), source), Room::Exact);
            driver.ask(expand(answer.written(), dice.below(usize::from(nodes)) as u8), Room::Exact);
            driver.ask(balance(answer.written(), destination), Room::Nothing);
            driver.ask(close(answer.written(), 9), Room::any(dice));
        }
    }
}

/// A ring of 12, where a second route has up to 6 hops, and a line of 52.
fn ring_and_line() -> Topology {
    let ring = (0..12).map(|node| (node, (node + 1) % 12));
    of_links(64, ring.chain((13..64).map(|node| (node - 1, node))))
}

/// Books with room for two rows or 12 hops, and with a little less.
fn around_full_books(driver: &mut Driver) {
    for rows in 61..=64 {
        let mut book = empty_book(open_plan(32), ring_and_line());
        for id in 1..=rows {
            add_stream(&mut book, id, 12, 13, 100);
        }
        ask_both(driver, &book);
    }
    for hops in 3..=8 {
        // 33 rows of 15 hops and one more leave 512 - 495 - hops.
        let mut book = empty_book(open_plan(32), ring_and_line());
        for id in 1..=33 {
            add_stream(&mut book, id, 12, 27, 100);
        }
        add_stream(&mut book, 34, 28, 28 + hops, 100);
        ask_both(driver, &book);
    }
}

/// Opens around the ring with and without a second route.
fn ask_both(driver: &mut Driver, book: &Book) {
    for image in images(book) {
        for destination in [1, 5, 6] {
            driver.ask(open(&image, 900, 0, destination, 50), Room::Exact);
            driver.ask(open_with_second(&image, 900, 0, destination, 50), Room::Exact);
            driver.ask(open_with_second(&image, 900, 0, destination, 50), Room::OneShort);
        }
    }
}

/// A square with few slots: for both routes, for the first only, for none.
fn short_of_slots(driver: &mut Driver) {
    let square = || of_links(4, [(0, 1), (0, 2), (1, 3), (2, 3)]);
    for s in 1..=4 {
        for period in [1, 2, 5] {
            let mut book = empty_book(open_plan(s), square());
            ask_square(driver, &book, period);
            add_stream(&mut book, 5, 0, 1, 1);
            ask_square(driver, &book, period);
            add_with_second(&mut book, 6, 3, 0, 5);
            ask_square(driver, &book, period);
        }
    }
}

fn ask_square(driver: &mut Driver, book: &Book, period: u16) {
    for image in images(book) {
        for (source, destination) in [(0, 3), (3, 0), (1, 2)] {
            driver.ask(open(&image, 7, source, destination, period), Room::Exact);
            driver.ask(open_with_second(&image, 7, source, destination, period), Room::Exact);
        }
    }
}

/// Nine nodes, every two linked, and many slots.
fn knot() -> Book {
    empty_book(open_plan(4), complete(9))
}

/// Row 1 of stream 5, or what is given in its stead; no two rows of different
/// routes have an offset in common.
fn row(id: u16, route: u8, period: u16, nodes: &[u8]) -> Row {
    let first = 10 * u16::from(route);
    let offsets = (first..).take(nodes.len() - 1).collect();
    Row { id, route, period, nodes: nodes.to_vec(), offsets, account: 0 }
}

fn first() -> Row {
    row(5, 1, 10, &[0, 1, 8])
}

fn beside(second: Row) -> Vec<Row> {
    vec![first(), second]
}

/// Rows 2 at their limits, and one that meets its row 1.
fn lawful_rows() -> Vec<Vec<Row>> {
    let meeting = Row { offsets: first().offsets, ..row(5, 2, 10, &[0, 2, 8]) };
    vec![
        beside(row(5, 2, 10, &[0, 2, 8])),
        beside(row(5, 2, 10, &[0, 8])),
        beside(row(5, 2, 10, &[0, 2, 3, 4, 5, 6, 8])),
        vec![row(5, 1, 10, &[0, 8]), row(5, 2, 10, &[0, 2, 8])],
        beside(meeting),
    ]
}

/// Every way in which a row 2 is not lawful.
fn unlawful_rows() -> Vec<Vec<Row>> {
    vec![
        // 7 hops.
        beside(row(5, 2, 10, &[0, 2, 3, 4, 5, 6, 7, 8])),
        // Without a row 1, or not right after it.
        vec![row(5, 2, 10, &[0, 2, 8])],
        beside(row(6, 2, 10, &[0, 2, 8])),
        vec![row(5, 2, 10, &[0, 2, 8]), first()],
        vec![first(), row(6, 3, 10, &[3, 4]), row(5, 2, 10, &[0, 2, 8])],
        vec![row(5, 2, 10, &[0, 2, 8]), row(6, 1, 10, &[0, 1, 8])],
        // Another period, other ends.
        beside(row(5, 2, 20, &[0, 2, 8])),
        beside(row(5, 2, 5, &[0, 2, 8])),
        beside(row(5, 2, 10, &[3, 2, 8])),
        beside(row(5, 2, 10, &[0, 2, 7])),
        beside(row(5, 2, 10, &[8, 2, 0])),
        // The same route.
        beside(row(5, 2, 10, &[0, 1, 8])),
        vec![row(5, 1, 10, &[0, 8]), row(5, 2, 10, &[0, 8])],
        // A common middle.
        beside(row(5, 2, 10, &[0, 1, 2, 8])),
        beside(row(5, 2, 10, &[0, 2, 1, 8])),
        vec![row(5, 1, 10, &[0, 1, 2, 3, 8]), row(5, 2, 10, &[0, 4, 3, 8])],
        // No such route, the same row twice.
        beside(row(5, 0, 10, &[0, 2, 8])),
        beside(row(5, 3, 10, &[0, 2, 8])),
        vec![row(5, 0, 10, &[0, 1, 8])],
        vec![row(5, 3, 10, &[0, 1, 8])],
        beside(first()),
        vec![first(), row(5, 2, 10, &[0, 2, 8]), row(5, 2, 10, &[0, 3, 8])],
    ]
}
