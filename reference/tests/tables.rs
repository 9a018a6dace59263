//! Checking another planner's tables (W9).

mod common;

use common::*;
use reference::calls;
use reference::table::{table, write};

/// The first 100 tiles of every node's table.
fn tables_of(book: &[u8]) -> Vec<u8> {
    let book = read(book);
    let entries = 100 * book.plan.tile_slots();
    (0..book.topology.nodes()).flat_map(|node| write(&table(&book, node)[..entries])).collect()
}

/// The number for these tables on line A.
fn refused_tables(tables: &[u8]) -> u8 {
    let links = line(4);
    refused(ROOM, |out| calls::book_of(&site(PLAN_A, 4, &links), tables, out))
}

/// The tables of P3 with one entry changed: node, slot, operation and id.
fn changed(node: usize, slot: usize, operation: u8, id: u16) -> Vec<u8> {
    let mut tables = tables_of(&p3());
    let place = 3 * (400 * node + slot);
    tables[place] = operation;
    tables[place + 1..place + 3].copy_from_slice(&id.to_be_bytes());
    tables
}

#[test]
fn the_book_comes_back_from_its_tables() {
    let links = line(4);
    for book in [line_a(4), p2(), p3()] {
        let tables = tables_of(&book);
        let found = written(|out| calls::book_of(&site(PLAN_A, 4, &links), &tables, out));
        assert_eq!(found, book);
    }
}

#[test]
fn second_routes_come_back_too() {
    let square = topology(4, &[(0, 1), (0, 2), (1, 3), (2, 3)]);
    let plan = (4, 1, 0, 0, 0);
    let book = written(|out| calls::open(&new_book(plan, &square), doubled(9, 0, 3, 5), out));
    let tables = tables_of(&book);
    assert_eq!(written(|out| calls::book_of(&site(plan, 4, &square), &tables, out)), book);
}

#[test]
fn a_slow_stream_looks_like_one_of_100() {
    let plan = (4, 1, 0, 0, 0);
    let links = line(2);
    let slow = opened(&new_book(plan, &links), 1, 0, 1, 1000);
    let quick = opened(&new_book(plan, &links), 1, 0, 1, 100);
    let tables = tables_of(&slow);
    assert_eq!(written(|out| calls::book_of(&site(plan, 2, &links), &tables, out)), quick);
}

#[test]
fn unsound_tables_are_19() {
    let tables = tables_of(&p3());
    assert_eq!(refused_tables(&[]), 19);
    assert_eq!(refused_tables(&tables[1..]), 19);
    assert_eq!(refused_tables(&[tables, vec![0]].concat()), 19);
    // Slot 0 is control; slot 6 of node 3 sleeps in P3.
    for operation in [6, 16, 21, 22, 255] {
        assert_eq!(refused_tables(&changed(3, 6, operation, 7)), 19);
    }
    assert_eq!(refused_tables(&changed(3, 6, 0, 7)), 19);
    assert_eq!(refused_tables(&changed(3, 6, 1, 0)), 19);
    assert_eq!(refused_tables(&changed(3, 6, 5, 0)), 19);
    assert_eq!(refused_tables(&changed(3, 0, 0, 0)), 19);
    assert_eq!(refused_tables(&changed(3, 0, 5, 1)), 19);
}

#[test]
fn tables_of_no_lawful_book_are_20() {
    // A send without a receiver, a use gone in one repeat, another operation.
    assert_eq!(refused_tables(&changed(3, 6, 1, 7)), 20);
    assert_eq!(refused_tables(&changed(3, 10, 0, 0)), 20);
    assert_eq!(refused_tables(&changed(3, 2, 3, 1)), 20);
    // Two rows that meet: 0→1 and 2→3 in slot 2.
    let meeting = vec![row(1, 2, &[0, 1], &[2]), row(2, 2, &[2, 3], &[2])];
    let mut book = read(&line_a(4));
    book.rows = meeting;
    let tables: Vec<u8> = (0..4).flat_map(|node| write(&table(&book, node)[..400])).collect();
    assert_eq!(refused_tables(&tables), 20);
}

#[test]
fn the_order_of_10_11_19_8_20_12() {
    let links = line(4);
    let refused_with = |plan, links: &[u8], tables: &[u8], room| {
        refused(room, |out| calls::book_of(&site(plan, 4, links), tables, out))
    };
    assert_eq!(refused_with((0, 2, 1, 2, 1), &[], &[], 0), 10);
    assert_eq!(refused_with(PLAN_A, &[], &[], 0), 11);
    assert_eq!(refused_with(PLAN_A, &links, &[], 0), 19);
    // 65 ids in node 0's table, which belong to no book: 8 before 20.
    let mut tables = tables_of(&line_a(4));
    for (id, entry) in (1..=65).zip(tables.chunks_mut(3).filter(|entry| entry[0] == 0)) {
        entry.copy_from_slice(&[1, 0, id]);
    }
    assert_eq!(refused_with(PLAN_A, &links, &tables, 0), 8);
    assert_eq!(refused_with(PLAN_A, &links, &tables_of(&p3()), p3().len() - 1), 12);
}

#[test]
fn over_512_hops_is_20() {
    // 35 streams of 15 hops have 525, in 35 pairs of id and route.
    let plan = (12, 1, 0, 0, 0);
    let links = line(16);
    let full = (1..=34).fold(new_book(plan, &links), |book, id| opened(&book, id, 0, 15, 100));
    let tables = tables_of(&full);
    assert_eq!(written(|out| calls::book_of(&site(plan, 16, &links), &tables, out)), full);
    // The 35th takes the slots after the last of the 34th.
    let mut book = read(&full);
    let last = book.rows.iter().flat_map(|row| &row.offsets).max().copied().unwrap_or(0);
    let offsets: Vec<u16> = (last + 1..last + 16).collect();
    book.rows.push(row(35, 100, &(0..16).collect::<Vec<u8>>(), &offsets));
    let tables: Vec<u8> = (0..16).flat_map(|node| write(&table(&book, node)[..1200])).collect();
    assert_eq!(refused(ROOM, |out| calls::book_of(&site(plan, 16, &links), &tables, out)), 20);
}
