//! Relays on mains only (W13).

mod common;

use common::*;
use reference::calls;
use reference::change::Open;
use reference::record::Record;

/// S=4, every slot data.
const OPEN_PLAN: (u8, u8, u16, u8, u8) = (4, 1, 0, 0, 0);

/// Links 0-1, 0-2, 1-3, 2-3, as in P7.
fn square() -> Vec<u8> {
    new_book(OPEN_PLAN, &topology(4, &[(0, 1), (0, 2), (1, 3), (2, 3)]))
}

/// The answer to an open under a set, and the book after it.
fn opened_within(book: &[u8], mains: u64, asked: Open) -> (u8, Vec<u8>) {
    let mut list = [Record::open(asked)];
    let after = written(|out| calls::post(book, mains, &mut list, &mut any_index(), out));
    (list[0].answer, after)
}

fn listed(book: &[u8], mains: u64, source: u8, destination: u8) -> Vec<u8> {
    written(|out| {
        let (number, length, _) = calls::routes(book, mains, source, destination, out);
        (number, length)
    })
}

#[test]
fn only_mains_nodes_stand_in_the_middle() {
    // By 1 where it may, otherwise by 2; the ends need not be on mains.
    let (_, book) = opened_within(&square(), 0b1111, plain(1, 0, 3, 5));
    assert_eq!(stream(&book, 1).nodes, [0, 1, 3]);
    let (_, book) = opened_within(&square(), 0b0100, plain(1, 0, 3, 5));
    assert_eq!(stream(&book, 1).nodes, [0, 2, 3]);
    assert_eq!(opened_within(&square(), 0b1001, plain(1, 0, 3, 5)).0, 7);
    // A single hop has no middle.
    assert_eq!(opened_within(&square(), 0, plain(1, 0, 1, 5)).0, 0);
}

#[test]
fn a_longer_way_by_mains_nodes() {
    // 0-4-3 is short, but 4 runs on a battery: by 1 and 2 it is.
    let links = topology(5, &[(0, 1), (1, 2), (2, 3), (0, 4), (3, 4)]);
    let book = new_book(OPEN_PLAN, &links);
    let (_, book) = opened_within(&book, 0b00110, plain(1, 0, 3, 5));
    assert_eq!(stream(&book, 1).nodes, [0, 1, 2, 3]);
}

#[test]
fn the_second_route_keeps_to_the_set_too() {
    let (answer, book) = opened_within(&square(), 0b0110, doubled(1, 0, 3, 5));
    assert_eq!((answer, second(&book, 1).nodes), (0, vec![0, 2, 3]));
    assert_eq!(opened_within(&square(), 0b0010, doubled(1, 0, 3, 5)).0, 18);
}

#[test]
fn allowed_routes_may_all_be_too_far() {
    // A line of 17, and node 17 linked to both its ends.
    let mut links: Vec<_> = (1..17).map(|node| (node - 1, node)).collect();
    links.extend([(0, 17), (16, 17)]);
    let book = new_book(OPEN_PLAN, &topology(18, &links));
    let everything = (1 << 18) - 1;
    assert_eq!(opened_within(&book, everything, plain(1, 0, 16, 100)).0, 0);
    assert_eq!(opened_within(&book, everything >> 1, plain(1, 0, 16, 100)).0, 17);
    assert_eq!(opened_within(&book, (everything >> 1) - 2, plain(1, 0, 16, 100)).0, 7);
}

#[test]
fn the_list_keeps_to_the_set() {
    assert_eq!(listed(&square(), 0b1111, 0, 3), [2, 0, 1, 3, 2, 0, 2, 3]);
    assert_eq!(listed(&square(), 0b0100, 0, 3), [2, 0, 2, 3]);
    assert_eq!(listed(&square(), 0, 0, 3), []);
    assert_eq!(listed(&square(), 0, 0, 1), [1, 0, 1]);
}

#[test]
fn a_book_keeps_to_a_set_or_not() {
    let (_, book) = opened_within(&square(), 0b1111, doubled(1, 0, 3, 5));
    assert_eq!(calls::keeps_to(&book, 0b0110), (0, true));
    assert_eq!(calls::keeps_to(&book, 0b1011), (0, false));
    assert_eq!(calls::keeps_to(&book, 0b1101), (0, false));
    assert_eq!(calls::keeps_to(&square(), 0), (0, true));
    assert_eq!(calls::keeps_to(&opened(&square(), 1, 0, 1, 5), 0), (0, true));
}

#[test]
fn a_bit_from_n_up_is_25_right_after_the_images() {
    let bad = 0b1_0000;
    let book = square();
    assert_eq!(calls::keeps_to(&book, bad), (25, false));
    assert_eq!(calls::keeps_to(&book[..15], bad), (14, false));
    assert_eq!(calls::keeps_to(&new_book(OPEN_PLAN, &line(64)), u64::MAX), (0, true));
    // Before 26 and 12, before 4 and 5.
    let post = |list: &mut [Record]| refused(0, |out| calls::post(&book, bad, list, &mut [], out));
    assert_eq!(post(&mut vec![Record::close(1); 65]), 25);
    assert_eq!(post(&mut []), 25);
    let list = |out: &mut [u8]| {
        let (number, length, more) = calls::routes(&book, bad, 9, 9, out);
        assert!(!more);
        (number, length)
    };
    assert_eq!(refused(0, list), 25);
}

#[test]
fn all_nodes_on_mains_is_the_plain_planner() {
    let (_, posted) = opened_within(&square(), 0b1111, plain(1, 0, 3, 5));
    assert_eq!(posted, opened(&square(), 1, 0, 3, 5));
}
