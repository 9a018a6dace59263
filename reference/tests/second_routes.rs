//! Second routes (W5): found, placed, stored, expanded, closed.

mod common;

use common::*;
use reference::calls;
use reference::version::Version;

/// S=4, every slot data.
const OPEN_PLAN: (u8, u8, u16, u8, u8) = (4, 1, 0, 0, 0);

/// Links 0-1, 0-2, 1-3, 2-3, as in P7.
fn square() -> Vec<u8> {
    topology(4, &[(0, 1), (0, 2), (1, 3), (2, 3)])
}

/// Links 0-1, 1-2 and so on, and the last to 0.
fn ring(nodes: usize) -> Vec<u8> {
    let links: Vec<_> = (0..nodes).map(|node| (node, (node + 1) % nodes)).collect();
    topology(nodes, &links)
}

fn open_both(book: &[u8], id: u16, source: u8, destination: u8, period: u16) -> Vec<u8> {
    written(|out| calls::open(book, doubled(id, source, destination, period), out))
}

fn both_refused(book: &[u8], id: u16, source: u8, destination: u8, period: u16) -> u8 {
    refused(ROOM, |out| calls::open(book, doubled(id, source, destination, period), out))
}

#[test]
fn the_other_side_of_the_square() {
    // 0→1 takes 0 and 1→3 takes 1. 0→2 shares node 0 with 0→1, so not 0; with
    // 1→3 it shares no node, 0 does not hear 3 and 1 does not hear 2: it takes
    // 1. Then 2→3 shares node 3 with 1→3, and 2 is above 1 in any case.
    let book = open_both(&new_book(OPEN_PLAN, &square()), 9, 0, 3, 5);
    assert_eq!((stream(&book, 9).nodes, stream(&book, 9).offsets), (vec![0, 1, 3], vec![0, 1]));
    assert_eq!((second(&book, 9).nodes, second(&book, 9).offsets), (vec![0, 2, 3], vec![1, 2]));
    assert_eq!(second(&book, 9).period, 5);
}

#[test]
fn both_rows_are_stored_the_second_right_after_the_first() {
    let book = open_both(&new_book(OPEN_PLAN, &square()), 9, 0, 3, 5);
    let book = stored(Version::Two, &book);
    assert_eq!((book[4], book[12], book[14]), (2, 2, 4));
    let rows = [[0, 9, 1, 5, 2, 0, 1, 3, 0, 0, 0, 1], [0, 9, 2, 5, 2, 0, 2, 3, 0, 1, 0, 2]];
    assert_eq!(book[16 + 32..], rows.concat());
    assert_eq!(calls::check(&book), (0, 0));
    assert_eq!(written(|out| calls::rewrite(&book, out)), book);
}

#[test]
fn a_close_removes_both() {
    let empty = new_book(OPEN_PLAN, &square());
    let book = open_both(&empty, 9, 0, 3, 5);
    assert_eq!(closed(&book, 9), empty);
    let three = opened(&book, 8, 1, 2, 5);
    assert_eq!(closed(&three, 8), book);
    assert_eq!(read(&closed(&three, 9)).rows.len(), 1);
}

#[test]
fn operations_gain_16_and_count_as_used() {
    let book = open_both(&new_book(OPEN_PLAN, &square()), 9, 0, 3, 5);
    let operations = |node| -> Vec<u8> {
        let table = written(|out| calls::expand(&book, node, 0, 100, out));
        table.chunks(3).map(|entry| entry[0]).take(4).collect()
    };
    assert_eq!(operations(0), [1, 17, 0, 0]);
    assert_eq!(operations(1), [2, 3, 0, 0]);
    assert_eq!(operations(2), [0, 18, 19, 0]);
    assert_eq!(operations(3), [0, 4, 20, 0]);
    for node in 0..4 {
        assert_eq!(calls::balance(&book, node), (0, 4000, 400, 3600));
    }
}

#[test]
fn beside_a_direct_link_the_second_has_a_middle() {
    let triangle = new_book(OPEN_PLAN, &ring(3));
    let book = open_both(&triangle, 1, 0, 1, 10);
    assert_eq!(stream(&book, 1).nodes, [0, 1]);
    assert_eq!(second(&book, 1).nodes, [0, 2, 1]);
    assert_eq!(both_refused(&line_a(2), 1, 0, 1, 2), 18);
}

#[test]
fn six_hops_are_the_most() {
    // Round a ring of n nodes, from 0 to 1, the other way has n - 1 hops.
    let book = open_both(&new_book(OPEN_PLAN, &ring(7)), 1, 0, 1, 10);
    assert_eq!(second(&book, 1).nodes, [0, 6, 5, 4, 3, 2, 1]);
    assert_eq!(both_refused(&new_book(OPEN_PLAN, &ring(8)), 1, 0, 1, 10), 18);
    // A first route of 7 hops: any other is at least as long.
    assert_eq!(both_refused(&new_book(OPEN_PLAN, &ring(14)), 1, 0, 7, 100), 18);
    assert_eq!(read(&open_both(&new_book(OPEN_PLAN, &ring(12)), 1, 0, 6, 100)).hops(), 12);
}

#[test]
fn a_common_middle_is_no_second_route() {
    // Both ways from 0 to 4 pass node 2.
    let links = [(0, 1), (0, 2), (1, 2), (2, 3), (2, 4), (3, 4)];
    assert_eq!(both_refused(&new_book(OPEN_PLAN, &topology(5, &links)), 1, 0, 4, 10), 18);
}

#[test]
fn the_shortest_and_then_the_lowest() {
    // By 3, by 4 and by 5 it is two hops, by 1 and 2 it is three.
    let links = [(0, 5), (5, 6), (0, 4), (4, 6), (0, 3), (3, 6), (0, 1), (1, 2), (2, 6)];
    let book = open_both(&new_book(OPEN_PLAN, &topology(7, &links)), 1, 0, 6, 20);
    assert_eq!(stream(&book, 1).nodes, [0, 3, 6]);
    assert_eq!(second(&book, 1).nodes, [0, 4, 6]);
}

#[test]
fn no_slots_for_the_second_is_9_and_opens_nothing() {
    // One slot a tile, K=2: the first takes 0 and 1; 0→2 could take 1, and
    // then nothing is left for 2→3.
    let book = new_book((1, 1, 0, 0, 0), &square());
    assert_eq!(stream(&opened(&book, 1, 0, 3, 2), 1).offsets, [0, 1]);
    assert_eq!(both_refused(&book, 1, 0, 3, 2), 9);
}

#[test]
fn the_rows_or_the_hops_of_both_may_not_pass_the_limit() {
    // A ring of 12 and a line of 16 beside it.
    let ring = (0..12).map(|node| (node, (node + 1) % 12));
    let links: Vec<_> = ring.chain((13..28).map(|node| (node - 1, node))).collect();
    let empty = new_book((32, 1, 0, 0, 0), &topology(28, &links));
    let rows = |count| (1..=count).fold(empty.clone(), |book, id| opened(&book, id, 12, 13, 100));
    assert_eq!(read(&open_both(&rows(62), 99, 0, 6, 100)).rows.len(), 64);
    assert_eq!(both_refused(&rows(63), 99, 0, 6, 100), 8);
    assert_eq!(read(&opened(&rows(63), 99, 0, 6, 100)).rows.len(), 64);
    // 33 rows of 15 hops are 495, and 512 - 495 = 17: 5 more leave 12.
    let long = (1..=33).fold(empty.clone(), |book, id| opened(&book, id, 12, 27, 100));
    assert_eq!(read(&open_both(&opened(&long, 50, 12, 17, 100), 99, 0, 6, 100)).hops(), 512);
    assert_eq!(both_refused(&opened(&long, 50, 12, 18, 100), 99, 0, 6, 100), 8);
}

#[test]
fn the_order_of_7_17_18_8_9() {
    let islands = new_book(OPEN_PLAN, &topology(4, &[(0, 1), (2, 3)]));
    assert_eq!(both_refused(&islands, 1, 0, 3, 5), 7);
    assert_eq!(both_refused(&new_book(OPEN_PLAN, &line(17)), 1, 0, 16, 100), 17);
    // 18 before 8 and 9: a full book, a period of one slot for two hops.
    let full = (1..=64)
        .fold(new_book((32, 1, 0, 0, 0), &square()), |book, id| opened(&book, id, 0, 1, 100));
    assert_eq!(both_refused(&full, 99, 0, 3, 100), 8);
    let line = new_book((1, 1, 0, 0, 0), &line(3));
    assert_eq!(both_refused(&line, 1, 0, 2, 1), 18);
}

#[test]
fn an_older_book_is_changed_into_the_newest_version() {
    let older = stored(Version::One, &opened(&new_book(OPEN_PLAN, &square()), 3, 0, 1, 5));
    let book = open_both(&older, 9, 0, 3, 5);
    assert_eq!((older[4], book[4]), (1, Version::NEWEST as u8));
    assert_eq!(stream(&book, 3), stream(&older, 3));
    // A buffer for the longest book of the older version is too short.
    let room = Version::One.longest_image();
    assert_eq!(refused(room, |out| calls::open(&older, plain(4, 0, 1, 5), out)), 12);
    assert_eq!(refused(room, |out| calls::close(&older, 3, out)), 12);
    assert_eq!(closed(&older, 3), new_book(OPEN_PLAN, &square()));
}

/// The check's number of a book of nine nodes, every two linked, with these
/// rows. Every two of its hops clash.
fn check_rows(rows: Vec<reference::row::Row>) -> u8 {
    let links: Vec<_> = (0..9).flat_map(|a| (0..a).map(move |b| (a, b))).collect();
    calls::check(&with_rows(&new_book((32, 1, 0, 0, 0), &topology(9, &links)), rows)).0
}

#[test]
fn rows_2_that_are_lawful() {
    let first = row(5, 1, &[0, 1, 8], &[0, 1]);
    assert_eq!(check_rows(vec![first.clone(), row_2(5, 1, &[0, 2, 8], &[2, 3])]), 0);
    assert_eq!(check_rows(vec![first.clone(), row_2(5, 1, &[0, 8], &[2])]), 0);
    let six = row_2(5, 1, &[0, 2, 3, 4, 5, 6, 8], &[2, 3, 4, 5, 6, 7]);
    assert_eq!(check_rows(vec![first, six]), 0);
    // A first route of over 6 hops may have been the only one when it opened.
    let long = row(5, 1, &[0, 1, 2, 3, 4, 5, 6, 8], &[0, 1, 2, 3, 4, 5, 6]);
    assert_eq!(check_rows(vec![long, row_2(5, 1, &[0, 7, 8], &[7, 8])]), 0);
}

#[test]
fn rows_2_that_are_not_lawful() {
    let first = row(5, 1, &[0, 1, 8], &[0, 1]);
    let beside = |second| check_rows(vec![first.clone(), second]);
    // 7 hops.
    assert_eq!(beside(row_2(5, 1, &[0, 2, 3, 4, 5, 6, 7, 8], &[2, 3, 4, 5, 6, 7, 8])), 15);
    // No row 1, or not right before.
    let second = row_2(5, 1, &[0, 2, 8], &[2, 3]);
    assert_eq!(check_rows(vec![second.clone()]), 15);
    assert_eq!(check_rows(vec![second.clone(), first.clone()]), 15);
    assert_eq!(beside(row_2(6, 1, &[0, 2, 8], &[2, 3])), 15);
    assert_eq!(check_rows(vec![row(4, 1, &[0, 1, 8], &[0, 1]), second]), 15);
    // Another period, other ends.
    assert_eq!(beside(row_2(5, 2, &[0, 2, 8], &[2, 3])), 15);
    assert_eq!(beside(row_2(5, 1, &[3, 2, 8], &[2, 3])), 15);
    assert_eq!(beside(row_2(5, 1, &[0, 2, 7], &[2, 3])), 15);
    assert_eq!(beside(row_2(5, 1, &[8, 2, 0], &[2, 3])), 15);
    // The same route, a common middle.
    assert_eq!(beside(row_2(5, 1, &[0, 1, 8], &[2, 3])), 15);
    assert_eq!(beside(row_2(5, 1, &[0, 2, 1, 8], &[2, 3, 4])), 15);
    let link = row(5, 1, &[0, 8], &[0]);
    assert_eq!(check_rows(vec![link, row_2(5, 1, &[0, 8], &[2])]), 15);
    // No such route number.
    for route in [0, 3, 255] {
        let third = reference::row::Row { route, ..row_2(5, 1, &[0, 2, 8], &[2, 3]) };
        assert_eq!(beside(third), 15);
    }
}

#[test]
fn the_two_routes_of_a_stream_may_not_meet_where_they_clash() {
    let rows = vec![row(5, 1, &[0, 1, 8], &[0, 1]), row_2(5, 1, &[0, 2, 8], &[1, 2])];
    assert_eq!(check_rows(rows), 16);
}
