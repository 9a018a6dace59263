//! Tables made elsewhere: of lawful books, of books that are not, with an entry
//! or two changed, and of no book at all.

use super::unusual::unusual_book;
use crate::dice::Dice;
use crate::driver::{Driver, Room};
use crate::requests::book_of;
use crate::site::{
    add_stream, add_with_second, empty_book, hearing_also, line, open_plan, plan_a, ring,
};
use reference::book::Book;
use reference::row::Row;
use reference::table::{ENTRY_BYTES, table, write};
use reference::topology::Topology;

/// Bytes of tables that are thrown; longer ones take the reference long.
const MOST_BYTES: usize = 65535;

/// Tiles of a table.
const TILES: usize = 100;

pub fn ask(driver: &mut Driver, dice: &mut Dice) {
    for book in small_books() {
        let tables = tables_of(&book);
        for room in [Room::Nothing, Room::OneShort, Room::Exact, Room::Spare(3)] {
            driver.ask(book_of(&book, tables.clone()), room);
        }
        lengths(driver, &book, &tables);
        for _ in 0..150 {
            driver.ask(book_of(&book, changed(dice, &book, tables.clone())), Room::Exact);
        }
    }
    for book in unlawful_books() {
        driver.ask(book_of(&book, tables_of(&book)), Room::Exact);
    }
    for book in full_books() {
        driver.ask(book_of(&book, tables_of(&book)), Room::Exact);
    }
    driver.ask(book_of(&largest(), tables_of(&largest())), Room::Exact);
    for pairs in [1, 63, 64, 65, 66, 130] {
        strays(driver, pairs);
    }
    for _ in 0..60 {
        thrown(driver, dice);
    }
}

/// Tables with so many pairs of id and route that belong to no book, a send
/// each: 8 comes before 20 and 12, and 19, 11 and 10 before 8.
fn strays(driver: &mut Driver, pairs: usize) {
    let book = empty_book(plan_a(), line(3));
    let mut tables = tables_of(&book);
    let idle = |entry: &&mut [u8]| entry[0] == 0;
    for (pair, entry) in tables.chunks_mut(ENTRY_BYTES).filter(idle).take(pairs).enumerate() {
        entry.copy_from_slice(&[[1, 17][pair % 2], 1, (pair / 2) as u8]);
    }
    for room in [Room::Nothing, Room::Full] {
        driver.ask(book_of(&book, tables.clone()), room);
    }
    lengths(driver, &book, &tables);
    let last = tables.len() - ENTRY_BYTES;
    for operation in [0, 6, 16, 21] {
        tables[last..].copy_from_slice(&[operation, 0, 9]);
        driver.ask(book_of(&book, tables.clone()), Room::Exact);
    }
}

/// The first 100 tiles of every node's table.
fn tables_of(book: &Book) -> Vec<u8> {
    let entries = TILES * book.plan.tile_slots();
    (0..book.topology.nodes()).flat_map(|node| write(&table(book, node)[..entries])).collect()
}

fn small_books() -> Vec<Book> {
    let mut p3 = empty_book(plan_a(), line(4));
    add_stream(&mut p3, 1, 3, 0, 2);
    add_stream(&mut p3, 2, 0, 3, 2);
    let mut both = empty_book(open_plan(2), ring(5));
    add_with_second(&mut both, 9, 0, 2, 10);
    add_stream(&mut both, 300, 4, 1, 100);
    vec![empty_book(plan_a(), line(2)), p3, both]
}

/// Books that are at odds with one law each, and whose tables show every hop.
fn unlawful_books() -> Vec<Book> {
    let row = |id: u16, route: u8, period: u16, nodes: &[u8], offsets: &[u16]| Row {
        id,
        route,
        period,
        nodes: nodes.to_vec(),
        offsets: offsets.to_vec(),
        account: 0,
    };
    let of = |topology: &Topology, rows: &[Row]| Book {
        rows: rows.to_vec(),
        ..empty_book(open_plan(4), topology.clone())
    };
    let (line_a, circle, long) = (line(4), ring(6), line(17));
    let heard = hearing_also(line(4), [(1, 3)]);
    let across = |nodes: &[u8]| [row(7, 1, 10, nodes, &[0, 1, 2])];
    let all: Vec<u8> = (0..17).collect();
    let rising: Vec<u16> = (0..16).collect();
    vec![
        // Clashing hops that meet: by a link, by hearing alone, in one repeat alone.
        of(&line_a, &[row(1, 1, 2, &[0, 1], &[2]), row(2, 1, 2, &[2, 3], &[2])]),
        of(&heard, &[row(1, 1, 2, &[0, 1], &[2]), row(2, 1, 2, &[3, 2], &[2])]),
        of(&line_a, &[row(1, 1, 2, &[0, 1], &[3]), row(2, 1, 5, &[2, 3], &[7])]),
        // Hops over no link, a node twice, 16 hops.
        of(&line_a, &across(&[0, 2, 1, 3])),
        of(&line_a, &across(&[0, 1, 2, 1])),
        of(&long, &[row(7, 1, 10, &all, &rising)]),
        // A row 2 alone, with another period, with a common middle, with other ends.
        of(&circle, &[row(7, 2, 10, &[0, 1, 2], &[0, 1])]),
        of(
            &circle,
            &[row(7, 1, 10, &[0, 1], &[0]), row(7, 2, 20, &[0, 5, 4, 3, 2, 1], &[1, 2, 3, 4, 5])],
        ),
        of(&circle, &[row(7, 1, 10, &[0, 1, 2], &[0, 1]), row(7, 2, 10, &[0, 1, 2], &[2, 3])]),
        of(&circle, &[row(7, 1, 10, &[0, 1], &[0]), row(7, 2, 10, &[1, 0], &[2])]),
    ]
}

/// Books at and past 64 rows and 512 hops, and with a period over 100.
fn full_books() -> Vec<Book> {
    let loaded = |streams: u16, hops: u8| {
        let mut book = empty_book(open_plan(12), line(16));
        for id in 1..=streams {
            add_stream(&mut book, id, 0, hops, 100);
        }
        book
    };
    let mut slow = loaded(3, 4);
    add_stream(&mut slow, 900, 5, 7, 200);
    vec![loaded(64, 1), loaded(65, 1), loaded(64, 8), loaded(34, 15), loaded(35, 15), slow]
}

/// A book whose tables are as long as any: 64 nodes, 32 slots a tile.
fn largest() -> Book {
    let mut book = empty_book(open_plan(32), line(64));
    for id in 1..=4 {
        add_stream(&mut book, id, 15 * id as u8, 15 * (id as u8 - 1), 20);
    }
    book
}

/// A byte, an entry, a row or a table too many or too few, and nothing at all.
fn lengths(driver: &mut Driver, book: &Book, tables: &[u8]) {
    for less in [1, ENTRY_BYTES, tables.len() / 2, tables.len()] {
        driver.ask(book_of(book, tables[..tables.len() - less].to_vec()), Room::Exact);
    }
    driver.ask(book_of(book, [tables, &[0]].concat()), Room::Exact);
    driver.ask(book_of(book, [tables, &[0; ENTRY_BYTES]].concat()), Room::Exact);
    let mut no_plan = book.clone();
    no_plan.plan.c = 3;
    driver.ask(book_of(&no_plan, tables.to_vec()), Room::Exact);
    let mut no_links = book.clone();
    no_links.topology.links[0] ^= 2;
    driver.ask(book_of(&no_links, tables.to_vec()), Room::Exact);
}

/// The tables with one thing changed: a byte, an entry copied to another place,
/// two nodes changed about, or an id changed throughout.
fn changed(dice: &mut Dice, book: &Book, mut tables: Vec<u8>) -> Vec<u8> {
    let entries = tables.len() / ENTRY_BYTES;
    let (a, b) = (ENTRY_BYTES * dice.below(entries), ENTRY_BYTES * dice.below(entries));
    match dice.below(6) {
        0 => tables[a] = dice.pick(&[0, 1, 2, 3, 4, 5, 6, 16, 17, 18, 19, 20, 21, 255]),
        1 => tables[a + 2] ^= 1 << dice.below(8),
        2 => tables.copy_within(a..a + ENTRY_BYTES, b),
        3 => {
            let one = tables.len() / usize::from(book.topology.nodes());
            tables.rotate_left(one);
        }
        4 => {
            let from = dice.pick(&[1, 2, 9]);
            let busy = |entry: &&mut [u8]| entry[2] == from && entry[0] != 0 && entry[0] != 5;
            tables.chunks_mut(ENTRY_BYTES).filter(busy).for_each(|entry| entry[2] = 2);
        }
        _ => {
            // One use in a later repeat is gone, at both its ends.
            let id = tables[a + 2];
            let slot = a % (tables.len() / usize::from(book.topology.nodes()));
            for table in tables.chunks_mut(ENTRY_BYTES * TILES * book.plan.tile_slots()) {
                if table[slot + 2] == id && table[slot] != 5 {
                    table[slot..slot + ENTRY_BYTES].fill(0);
                }
            }
        }
    }
    tables
}

/// The tables of a thrown book, and with one thing changed.
fn thrown(driver: &mut Driver, dice: &mut Dice) {
    let book = unusual_book(dice);
    let bytes = ENTRY_BYTES * TILES * book.plan.tile_slots();
    if bytes * usize::from(book.topology.nodes()) > MOST_BYTES {
        return;
    }
    let tables = tables_of(&book);
    driver.ask(book_of(&book, tables.clone()), Room::any(dice));
    for _ in 0..4 {
        driver.ask(book_of(&book, changed(dice, &book, tables.clone())), Room::Exact);
    }
}
