//! Books at each limit: 64 rows, 512 hops, the longest image, 64 nodes,
//! 15-hop routes, one slot a tile, no data slots at all.

use crate::dice::Dice;
use crate::driver::{Driver, Room};
use crate::requests::{
    self, BOOK_CALLS, balance, check, close, expand, links, open, open_with_second, rewrite, routes,
};
use crate::site::{
    add_stream, any_image, before_rows, complete, empty_book, grid, ids, images, line, load,
    of_links, open_plan, plan_a,
};
use reference::account::{Account, MAX_ACCOUNTS};
use reference::book::Book;
use reference::image;
use reference::plan::{PERIODS, PLAN_TILES, Plan};
use reference::version::Version;

pub fn ask(driver: &mut Driver, dice: &mut Dice, seed: u64) {
    for (place, book) in (seed % 2..).zip(full_books()) {
        for image in images(&book).into_iter().skip(place as usize % 2).step_by(2) {
            around(driver, dice, &book, image);
        }
    }
    changed_longest_book(driver, dice);
    too_many(driver);
    for book in edge_books(dice) {
        let image = any_image(dice, &book);
        around(driver, dice, &book, image);
    }
    distances(driver);
    every_plan(driver, dice);
}

/// `streams` streams of `hops` hops each, on a line of 64 nodes.
fn loaded(streams: u16, hops: u8) -> Book {
    let mut book = empty_book(open_plan(32), line(64));
    for id in 1..=streams {
        add_stream(&mut book, 1000 * id, 0, hops, 100);
    }
    book
}

/// As many accounts as a book can have.
fn most_accounts() -> Vec<Account> {
    (0..MAX_ACCOUNTS as u16).map(|number| Account { number, bought: 1_000_000 }).collect()
}

/// Books with no row or no hop to spare, and with one or two.
fn full_books() -> Vec<Book> {
    vec![
        Book { accounts: most_accounts(), ..loaded(64, 8) },
        loaded(64, 8),
        loaded(64, 1),
        loaded(63, 8),
        loaded(63, 1),
        loaded(34, 15),
        loaded(36, 14),
        loaded(51, 10),
        loaded(56, 9),
    ]
}

/// Every call, with buffers around the answer's length, and opens of a length
/// around what is left.
fn around(driver: &mut Driver, dice: &mut Dice, book: &Book, image: Vec<u8>) {
    let nodes = book.topology.nodes();
    for room in [Room::OneShort, Room::Exact, Room::Spare(1), Room::Full, Room::Most] {
        driver.ask(rewrite(&image), room);
        driver.ask(expand(&image, nodes - 1), room);
        driver.ask(close(&image, ids(book).first().copied().unwrap_or(1)), room);
        driver.ask(close(&image, ids(book).last().copied().unwrap_or(1)), room);
        driver.ask(open(&image, 65535, nodes - 2, nodes - 1, 100), room);
    }
    driver.ask(check(&image), Room::Nothing);
    for hops in 1..nodes.min(17) {
        driver.ask(open(&image, 7, nodes - 1 - hops, nodes - 1, 100), Room::Full);
        driver.ask(open(&image, 7, hops, 0, 50), Room::Full);
    }
    for node in [0, 1, nodes / 2, nodes - 1, nodes] {
        driver.ask(expand(&image, node), Room::Exact);
        driver.ask(balance(&image, node), Room::Nothing);
        driver.ask(links(&image, node), Room::Nothing);
    }
    for call in BOOK_CALLS {
        driver.ask(requests::any(dice, call, &image, &ids(book)), Room::any(dice));
    }
}

/// The longest image, changed at thrown bytes of each of its parts.
fn changed_longest_book(driver: &mut Driver, dice: &mut Dice) {
    let image = image::write(Version::NEWEST, &loaded(64, 8));
    let rows = before_rows(Version::NEWEST, &image);
    let parts = [(0, 16), (16, rows), (rows, rows + 30), (rows, image.len())];
    for (start, end) in parts {
        for _ in 0..60 {
            let mut changed = image.clone();
            changed[dice.between(start, end - 1)] ^= 1 << dice.below(8);
            driver.ask(check(&changed), Room::Nothing);
        }
    }
    for length in [16, rows - 1, rows, image.len() - 1] {
        driver.ask(check(&image[..length]), Room::Nothing);
    }
}

/// 65 rows, 513 hops, a route of 16 hops and 65 nodes, each in an image of the
/// length its header gives.
fn too_many(driver: &mut Driver) {
    let mut rows = loaded(64, 1);
    add_stream(&mut rows, 7, 40, 41, 100);
    let mut hops = loaded(34, 15);
    add_stream(&mut hops, 7, 40, 43, 100);
    let mut long_route = empty_book(open_plan(4), line(20));
    let mut far = long_route.clone();
    add_stream(&mut far, 7, 0, 15, 100);
    let mut row = far.rows[0].clone();
    row.nodes.push(16);
    row.offsets.push(15);
    long_route.add(row);
    let nodes = Book { topology: of_links(65, []), ..loaded(1, 1) };
    for image in [rows, hops, long_route, nodes].iter().flat_map(images) {
        driver.ask(check(&image), Room::Nothing);
        driver.ask(rewrite(&image), Room::Full);
    }
}

/// Books with an extreme plan or topology.
fn edge_books(dice: &mut Dice) -> Vec<Book> {
    let plans = [
        // One slot a tile, all data.
        open_plan(1),
        // One slot a tile, half of them data.
        Plan { s: 1, c: 2, kinds: 2, d: 1, u: 0 },
        // Downlink tiles all control.
        Plan { s: 4, c: 5, kinds: 0b10101, d: 4, u: 1 },
        // Only the last tile of ten has data slots.
        Plan { s: 3, c: 10, kinds: 0b01_1111_1111, d: 3, u: 0 },
        // No data slot at all.
        Plan { s: 32, c: 10, kinds: 0b10_1010_1010, d: 32, u: 32 },
        // The widest tile.
        Plan { s: 32, c: 4, kinds: 0b0011, d: 31, u: 0 },
        plan_a(),
    ];
    let mut books = Vec::new();
    for plan in plans {
        for topology in [line(2), line(5), complete(64), grid(8, 64), of_links(64, [(0, 63)])] {
            let mut book = empty_book(plan.clone(), topology);
            load(dice, &mut book, 12);
            books.push(book);
        }
    }
    books
}

/// Routes of every length up to and past 15 hops, in lines and in grids.
fn distances(driver: &mut Driver) {
    for topology in [line(64), grid(2, 64), grid(4, 64), grid(8, 64)] {
        let image = image::write(Version::NEWEST, &empty_book(open_plan(4), topology));
        for node in 1..64 {
            driver.ask(open(&image, 1, 0, node, 100), Room::Exact);
            driver.ask(open_with_second(&image, 1, 63, 63 - node, 20), Room::Exact);
            driver.ask(routes(&image, 0, node), Room::Exact);
        }
    }
}

/// Every S and every C, with each period: an open, its table and its balance.
fn every_plan(driver: &mut Driver, dice: &mut Dice) {
    for s in 1..=32 {
        for c in PLAN_TILES {
            let kinds = (dice.bits() & ((1 << c) - 1)) as u16;
            let plan = Plan { s, c, kinds, d: s / 2, u: s / 3 };
            let image = any_image(dice, &empty_book(plan, line(3)));
            for period in PERIODS {
                let request = open(&image, 9, 0, 2, period);
                let answer = driver.ask(request, Room::Exact);
                if dice.chance(50) && answer.number == 0 {
                    driver.ask(expand(answer.written(), 1), Room::Exact);
                    driver.ask(balance(answer.written(), 1), Room::Nothing);
                }
            }
        }
    }
}
