//! Slow probes (W10): periods over 100, a cycle of 1000 tiles, tables in parts.

mod common;

use common::*;
use reference::calls;
use reference::record::Record;
use reference::version::Version;

/// S=4, every slot data.
const OPEN_PLAN: (u8, u8, u16, u8, u8) = (4, 1, 0, 0, 0);

/// Two nodes, and streams of periods 100, 1000 and 200 between them.
fn slow_book() -> Vec<u8> {
    let book = opened(&new_book(OPEN_PLAN, &line(2)), 1, 0, 1, 100);
    let book = opened(&book, 2, 0, 1, 1000);
    opened(&book, 3, 1, 0, 200)
}

#[test]
fn slow_periods_are_placed_beside_quick_ones() {
    // Period 100 takes slot 0 of every 400. The next takes slot 1 of 4000, and
    // so the third, which would meet it there, takes slot 2 of every 800.
    let book = slow_book();
    assert_eq!(stream(&book, 1).offsets, [0]);
    assert_eq!(stream(&book, 2).offsets, [1]);
    assert_eq!(stream(&book, 3).offsets, [2]);
    // With one slot a tile, period 1 leaves nothing for period 1000.
    let full = opened(&new_book((1, 1, 0, 0, 0), &line(2)), 1, 0, 1, 1);
    assert_eq!(open_refused(&full, 2, 0, 1, 1000), 9);
}

#[test]
fn periods_of_500_and_200_meet_in_slot_2001() {
    // It is 1 + 4×500, and 401 + 2×4×200.
    let rows = vec![row(1, 500, &[0, 1], &[1]), row(2, 200, &[0, 1], &[401])];
    let book = with_rows(&new_book(OPEN_PLAN, &line(2)), rows);
    assert_eq!(calls::check(&book), (16, 0));
}

#[test]
fn version_4_stores_k_in_two_bytes() {
    let book = stored(Version::Four, &slow_book());
    let rows = &book[16 + 2 * 16..];
    assert_eq!(rows[..10], [0, 1, 1, 0, 100, 1, 0, 1, 0, 0]);
    assert_eq!(rows[10..20], [0, 2, 1, 0x03, 0xE8, 1, 0, 1, 0, 1]);
    assert_eq!(rows[20..], [0, 3, 1, 0, 200, 1, 1, 0, 0, 2]);
    assert_eq!(written(|out| calls::rewrite(&book, out)), book);
}

#[test]
fn in_older_versions_such_a_k_is_15() {
    let book = opened(&new_book(OPEN_PLAN, &line(2)), 3, 1, 0, 200);
    for version in Version::ALL {
        let expected = if version >= Version::Four { 0 } else { 15 };
        assert_eq!(calls::check(&stored(version, &book)), (expected, 0));
    }
    // A book of an older version may be opened a slow stream; it is written in
    // the newest.
    let older = stored(Version::One, &new_book(OPEN_PLAN, &line(2)));
    assert_eq!(opened(&older, 3, 1, 0, 200), book);
}

#[test]
fn any_other_number_of_tiles_is_6() {
    for period in [101, 199, 201, 250, 400, 999, 1001, 2000] {
        assert_eq!(open_refused(&line_a(4), 1, 0, 1, period), 6);
    }
}

#[test]
fn repeats_and_balances_are_per_1000_tiles() {
    // 10 + 1 + 5 uses of 4000 data slots.
    let book = slow_book();
    assert_eq!(calls::balance(&book, 0), (0, 4000, 16, 3984));
    assert_eq!(calls::balance(&book, 1), (0, 4000, 16, 3984));
}

/// The operations of node 0 in these tiles.
fn operations(book: &[u8], first: u16, tiles: u16) -> Vec<u8> {
    let table = written(|out| calls::expand(book, 0, first, tiles, out));
    table.chunks(3).map(|entry| entry[0]).collect()
}

#[test]
fn a_part_of_the_table() {
    let book = slow_book();
    assert_eq!(operations(&book, 0, 2), [1, 1, 4, 0, 0, 0, 0, 0]);
    assert_eq!(operations(&book, 100, 1), [1, 0, 0, 0]);
    assert_eq!(operations(&book, 200, 1), [1, 0, 4, 0]);
    assert_eq!(operations(&book, 999, 1), [0, 0, 0, 0]);
}

#[test]
fn joined_parts_are_the_whole() {
    let book = slow_book();
    let hundreds: Vec<u8> = (0..10).flat_map(|part| operations(&book, 100 * part, 100)).collect();
    let others: Vec<u8> = (0..40).flat_map(|part| operations(&book, 25 * part, 25)).collect();
    assert_eq!(hundreds, others);
    assert_eq!(hundreds.len(), 4000);
    assert_eq!(hundreds.iter().filter(|&&operation| operation != 0).count(), 16);
}

#[test]
fn tiles_outside_the_cycle_are_21() {
    let book = slow_book();
    let expand = |node, first, tiles, room| {
        refused(room, |out| calls::expand(&book, node, first, tiles, out))
    };
    assert_eq!(expand(0, 0, 0, ROOM), 21);
    assert_eq!(expand(0, 0, 101, ROOM), 21);
    assert_eq!(expand(0, 901, 100, ROOM), 21);
    assert_eq!(expand(0, 1000, 1, ROOM), 21);
    assert_eq!(expand(0, 65535, 1, ROOM), 21);
    assert_eq!(operations(&book, 900, 100).len(), 400);
    // 4, 21, 12.
    assert_eq!(expand(2, 1000, 0, 0), 4);
    assert_eq!(expand(0, 1000, 0, 0), 21);
    assert_eq!(expand(0, 0, 1, 11), 12);
}

#[test]
fn the_index_leaves_slow_streams_out() {
    let book = slow_book();
    let mut index = vec![0; 2 * 100 * 4];
    written(|out| calls::post(&book, 0b11, &mut [Record::close(1)], &mut index, out));
    assert!(index.iter().all(|&word| word == 0));
    written(|out| calls::post(&book, 0b11, &mut [], &mut index, out));
    assert_eq!(index[..4], [0b01, 0b10, 0, 0]);
    assert!(index[4..].iter().all(|&word| word == 0));
}
