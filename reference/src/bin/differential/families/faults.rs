//! Several faults at once, so that the order of the numbers decides.

use crate::driver::{Driver, Room};
use crate::requests::{
    balance, check, close, expand, keeps_to, links, open, open_with_second, rewrite, routes,
};
use crate::site::{
    add_stream, before_rows, empty_book, line, of_links, open_plan, plan_a, versions,
};
use reference::book::{Book, MAX_ROWS};
use reference::image;
use reference::row::{FIRST_ROUTE, Row};
use reference::version::{HEADER_LENGTH, HOP_BYTES, Version};

pub fn ask(driver: &mut Driver) {
    for faults in 0..128 {
        for version in Version::ALL {
            let image = faulty_image(version, faults);
            for room in [Room::Nothing, Room::Spare(5)] {
                ask_all(driver, &image, room);
            }
        }
    }
    for book in request_books() {
        requests_with_faults(driver, &image::write(Version::NEWEST, &book));
        for version in versions(&book) {
            recounted(driver, version, image::write(version, &book));
        }
    }
}

/// Every two counts of rows and hops that give the same length.
fn recounted(driver: &mut Driver, version: Version, mut image: Vec<u8>) {
    let rows_length = image.len() - before_rows(version, &image);
    for rows in 0..=MAX_ROWS {
        let Some(hops_length) = rows_length.checked_sub(version.row_bytes() * rows) else { break };
        if hops_length % HOP_BYTES == 0 {
            let hops = (hops_length / HOP_BYTES) as u16;
            image[12] = rows as u8;
            image[13..15].copy_from_slice(&hops.to_be_bytes());
            driver.ask(check(&image), Room::Nothing);
            driver.ask(rewrite(&image), Room::Spare(5));
        }
    }
}

/// An image with one fault for each bit of `faults`.
fn faulty_image(version: Version, faults: u8) -> Vec<u8> {
    let fault = |bit: u8| faults >> bit & 1 == 1;
    let mut book = empty_book(plan_a(), line(4));
    let offset = if fault(0) { 2 } else { 3 };
    book.add(one_hop(1, [0, 1], 2));
    let second_row = image::write(version, &book).len();
    book.add(one_hop(2, [2, 3], offset));
    let mut image = image::write(version, &book);
    if fault(1) {
        // The second row's id is the first's.
        image[second_row + 1] = 1;
    }
    if fault(2) {
        // Node 0 is linked to itself.
        image[HEADER_LENGTH + version.accounts_bytes(1) + 7] |= 1;
    }
    if fault(3) {
        image.push(0);
    }
    if fault(4) {
        image[15] = 1;
    }
    if fault(5) {
        // Version 0.
        image[4] = 0;
    }
    if fault(6) {
        image.truncate(15);
    }
    image
}

/// A row of one hop, period 2.
fn one_hop(id: u16, nodes: [u8; 2], offset: u16) -> Row {
    let (nodes, offsets) = (nodes.to_vec(), vec![offset]);
    Row { id, route: FIRST_ROUTE, period: 2, nodes, offsets, account: 0 }
}

/// Every call, with its arguments in order and with all of them wrong.
fn ask_all(driver: &mut Driver, image: &[u8], room: Room) {
    driver.ask(check(image), room);
    driver.ask(rewrite(image), room);
    for (id, source, destination, period) in [(3, 0, 3, 100), (0, 255, 255, 3)] {
        driver.ask(open(image, id, source, destination, period), room);
        driver.ask(open_with_second(image, id, source, destination, period), room);
        driver.ask(routes(image, source, destination), room);
        driver.ask(close(image, id), room);
        driver.ask(keeps_to(image, u64::from(source) << 32), room);
        driver.ask(expand(image, source), room);
        driver.ask(balance(image, source), room);
        driver.ask(links(image, source), room);
    }
    driver.ask(close(image, 1), room);
}

/// Books on which an open can meet 2, 7, 8, 9 and 12 in every mixture.
fn request_books() -> Vec<Book> {
    // Nodes 0, 1 and 2 in a line, node 3 alone; slot 0 of every tile is taken
    // around node 0.
    let site = || of_links(4, [(0, 1), (1, 2)]);
    let mut quiet = empty_book(open_plan(2), site());
    add_stream(&mut quiet, 5, 0, 1, 1);
    // As full of streams as a book can be, and one stream short of it.
    let mut full = empty_book(open_plan(2), site());
    for id in 1..=64 {
        add_stream(&mut full, id, 0, 1, 100);
    }
    let mut nearly_full = full.clone();
    nearly_full.remove(64);
    // No slot is left near node 0.
    let mut taken = empty_book(open_plan(1), site());
    add_stream(&mut taken, 5, 0, 1, 1);
    let mut taken_and_full = empty_book(open_plan(1), site());
    for id in 1..=50 {
        add_stream(&mut taken_and_full, id, 0, 1, 50);
    }
    for id in 51..=64 {
        add_stream(&mut taken_and_full, id, 1, 0, 100);
    }
    vec![quiet, full, nearly_full, taken, taken_and_full]
}

/// Every mixture of good and bad arguments and buffers.
fn requests_with_faults(driver: &mut Driver, image: &[u8]) {
    let rooms = [Room::Nothing, Room::OneShort, Room::Exact, Room::Spare(7)];
    for id in [0, 5, 64, 300] {
        for (source, destination) in nodes_in_and_out() {
            for period in [0, 1, 3, 20, 100, 101, 257, 356] {
                for room in rooms {
                    driver.ask(open(image, id, source, destination, period), room);
                }
                let request = open_with_second(image, id, source, destination, period);
                driver.ask(request, Room::Exact);
            }
        }
        for room in rooms {
            driver.ask(close(image, id), room);
        }
    }
    for (source, destination) in nodes_in_and_out() {
        for room in rooms {
            driver.ask(routes(image, source, destination), room);
        }
    }
    for node in [0, 3, 4, 63, 64, 255] {
        for room in rooms {
            driver.ask(expand(image, node), room);
        }
        driver.ask(balance(image, node), Room::Nothing);
        driver.ask(links(image, node), Room::Nothing);
    }
}

/// Source and destination: linked, two hops away, unlinked, equal, N or more.
fn nodes_in_and_out() -> [(u8, u8); 10] {
    [(0, 1), (2, 0), (0, 3), (3, 0), (1, 1), (4, 0), (0, 4), (4, 4), (255, 3), (2, 255)]
}
