//! The list of routes (W5).

mod common;

use common::*;
use reference::calls;

/// S=4, every slot data.
const OPEN_PLAN: (u8, u8, u16, u8, u8) = (4, 1, 0, 0, 0);

/// The list and its mark.
fn listed(book: &[u8], source: u8, destination: u8) -> (Vec<u8>, bool) {
    let mut marked = false;
    let list = written(|out| {
        let (number, length, more) = calls::routes(book, all_of(book), source, destination, out);
        marked = more;
        (number, length)
    });
    (list, marked)
}

fn list_refused(room: usize, book: &[u8], source: u8, destination: u8) -> u8 {
    refused(room, |out| {
        let (number, length, more) = calls::routes(book, all_of(book), source, destination, out);
        assert!(!more);
        (number, length)
    })
}

/// Nodes 0 and 1, and so many between them, each linked to both.
fn fan(middles: usize) -> Vec<u8> {
    let links: Vec<_> = (2..middles + 2).flat_map(|middle| [(0, middle), (middle, 1)]).collect();
    new_book(OPEN_PLAN, &topology(middles + 2, &links))
}

#[test]
fn a_square_with_a_diagonal() {
    // 0,1,2,3 comes before 0,1,3 and 0,2,1,3 before 0,2,3.
    let links = [(0, 1), (0, 2), (1, 3), (2, 3), (1, 2)];
    let book = new_book(OPEN_PLAN, &topology(4, &links));
    let expected = [&[3, 0, 1, 2, 3][..], &[2, 0, 1, 3], &[3, 0, 2, 1, 3], &[2, 0, 2, 3]].concat();
    assert_eq!(listed(&book, 0, 3), (expected, false));
}

#[test]
fn no_routes_is_0() {
    assert_eq!(listed(&fan(0), 0, 1), (Vec::new(), false));
    assert_eq!(listed(&new_book(OPEN_PLAN, &line(8)), 0, 7), (Vec::new(), false));
    // An empty list has room in an empty buffer.
    assert_eq!(calls::routes(&fan(0), 0b11, 0, 1, &mut []), (0, 0, false));
}

#[test]
fn at_most_6_hops() {
    let book = new_book(OPEN_PLAN, &line(8));
    assert_eq!(listed(&book, 0, 6), (vec![6, 0, 1, 2, 3, 4, 5, 6], false));
}

#[test]
fn after_32_the_mark_says_that_more_exist() {
    let (list, more) = listed(&fan(31), 0, 1);
    assert_eq!((list.len(), more), (31 * 4, false));
    let (list, more) = listed(&fan(32), 0, 1);
    assert_eq!((list.len(), more), (32 * 4, false));
    let (list, more) = listed(&fan(33), 0, 1);
    assert_eq!((list.len(), more), (32 * 4, true));
    // The last one listed goes by the 32nd of the nodes from 2 up.
    assert_eq!(list[31 * 4..], [2, 0, 33, 1]);
}

#[test]
fn a_site_where_every_two_nodes_are_linked() {
    let links: Vec<_> = (0..64).flat_map(|a| (0..a).map(move |b| (a, b))).collect();
    let (list, more) = listed(&new_book(OPEN_PLAN, &topology(64, &links)), 0, 63);
    assert_eq!((list.len(), more), (32 * 8, true));
    assert_eq!(list[..16], [6, 0, 1, 2, 3, 4, 5, 63, 6, 0, 1, 2, 3, 4, 6, 63]);
}

#[test]
fn the_list_gives_4_5_12() {
    let book = fan(33);
    assert_eq!(list_refused(ROOM, &book, 0, 35), 4);
    assert_eq!(list_refused(ROOM, &book, 35, 35), 4);
    assert_eq!(list_refused(0, &book, 0, 0), 5);
    // 12 goes by the 32 routes listed.
    assert_eq!(list_refused(127, &book, 0, 1), 12);
    assert_eq!(calls::routes(&book, all_of(&book), 0, 1, &mut [0; 128]), (0, 128, true));
}
