//! Document 01's worked examples.

mod common;

use common::*;
use reference::calls;
use reference::hop::{Hop, clash};
use reference::listing::listing;
use reference::plan::Plan;
use reference::route::planners_route;
use reference::topology::Topology;
use reference::version::Version;

#[test]
fn p1_only_two_slots_serve_three_hops() {
    for version in Version::ALL {
        assert_eq!(open_refused(&stored(version, &line_a(4)), 1, 3, 0, 1), 9);
    }
}

#[test]
fn p2_first_stream() {
    let stream = stream(&p2(), 1);
    assert_eq!(stream.nodes, [3, 2, 1, 0]);
    assert_eq!(stream.offsets, [2, 3, 5]);
}

#[test]
fn p3_second_stream_shares_slot_2() {
    assert_eq!(stream(&p3(), 1), stream(&p2(), 1));
    assert_eq!(stream(&p3(), 2).nodes, [0, 1, 2, 3]);
    assert_eq!(stream(&p3(), 2).offsets, [2, 6, 7]);
}

#[test]
fn p2_and_p3_on_books_of_every_version() {
    for version in Version::ALL {
        assert_eq!(opened(&stored(version, &line_a(4)), 1, 3, 0, 2), p2());
        assert_eq!(opened(&stored(version, &p2()), 2, 0, 3, 2), p3());
    }
}

#[test]
fn p4_no_slot_is_left() {
    for version in Version::ALL {
        assert_eq!(open_refused(&stored(version, &p3()), 3, 3, 2, 2), 9);
    }
}

#[test]
fn p5_a_close_makes_room() {
    for version in Version::ALL {
        let book = opened(&closed(&stored(version, &p3()), 1), 3, 3, 2, 2);
        assert_eq!(stream(&book, 3).offsets, [2]);
    }
}

#[test]
fn p6_meet_first_in_slot_27() {
    let plan = Plan { s: 4, c: 1, kinds: 0, d: 0, u: 0 };
    let (two, five) = (plan.slots_of(3, 2), plan.slots_of(7, 5));
    assert!(two.has_common_slot(five));
    assert_eq!(two.iter().find(|&slot| five.contains(slot)), Some(27));
}

#[test]
fn p7_lowest_node_list() {
    let links = topology(4, &[(0, 1), (0, 2), (1, 3), (2, 3)]);
    let topology = Topology::read(4, &links, &links).unwrap();
    assert_eq!(planners_route(&topology, all(4), 0, 3), Ok(vec![0, 1, 3]));
}

#[test]
fn p8_clashes_in_line_a() {
    let line_a = Topology::read(4, &line(4), &line(4)).unwrap();
    let hop = |sender, receiver| Hop { sender, receiver };
    assert!(clash(&line_a, hop(0, 1), hop(2, 3)));
    assert!(!clash(&line_a, hop(0, 1), hop(3, 2)));
    // Where 3 and 1 hear each other, 1 receives while 3 sends.
    let heard = topology(4, &[(0, 1), (1, 2), (2, 3), (1, 3)]);
    let heard = Topology::read(4, &line(4), &heard).unwrap();
    assert!(clash(&heard, hop(0, 1), hop(3, 2)));
    assert!(clash(&heard, hop(3, 2), hop(0, 1)));
}

#[test]
fn p9_operations_of_node_2() {
    let table = written(|out| calls::expand(&p2(), 2, 0, 100, out));
    for version in Version::ALL {
        assert_eq!(written(|out| calls::expand(&stored(version, &p2()), 2, 0, 100, out)), table);
    }
    assert_eq!(table.len(), 3 * 400);
    let operations: Vec<u8> = table.chunks(3).map(|entry| entry[0]).collect();
    assert_eq!(operations[..8], [5, 5, 2, 3, 5, 0, 0, 0]);
    // The plan repeats every 8 slots and so does the stream: all tiles agree.
    assert!(operations.chunks(8).all(|tiles| *tiles == operations[..8]));
    let ids: Vec<u16> =
        table.chunks(3).map(|entry| u16::from_be_bytes([entry[1], entry[2]])).collect();
    assert_eq!(ids[..8], [0, 0, 1, 1, 0, 0, 0, 0]);
}

/// The bytes of P10, in version 1.
const P10: [u8; 32] = [
    0x53, 0x4C, 0x42, 0x00, 0x01, 0x04, 0x02, 0x00, 0x01, 0x02, 0x01, 0x02, 0x00, 0x00, 0x00, 0x00,
    0, 0, 0, 0, 0, 0, 0, 0x02, 0, 0, 0, 0, 0, 0, 0, 0x01,
];

/// P10 in every version. From version 3 on it has the hearing, which is the
/// links, and version 5 has the only account after the header.
fn p10s() -> [Vec<u8>; 5] {
    let (header, links) = P10.split_at(16);
    let with_hearing = [header, links, links].concat();
    let with_account = [header, &[1], &ONLY, links, links].concat();
    let mut books = [P10.to_vec(), P10.to_vec(), with_hearing.clone(), with_hearing, with_account];
    for (book, version) in books.iter_mut().zip(1..) {
        book[4] = version;
    }
    books
}

/// P11 in every version: P10 with one row more, of one hop.
fn p11s() -> [Vec<u8>; 5] {
    let version_1 = vec![0x00, 0x07, 0x02, 0x01, 0x01, 0x00, 0x00, 0x02];
    let version_2 = vec![0x00, 0x07, 0x01, 0x02, 0x01, 0x01, 0x00, 0x00, 0x02];
    let version_4 = vec![0x00, 0x07, 0x01, 0x00, 0x02, 0x01, 0x01, 0x00, 0x00, 0x02];
    let version_5 = [version_4.clone(), vec![0x00, 0x00]].concat();
    let rows = [version_1, version_2.clone(), version_2, version_4, version_5];
    let mut books = p10s();
    for (book, row) in books.iter_mut().zip(rows) {
        (book[12], book[14]) = (0x01, 0x01);
        book.extend(row);
    }
    books
}

#[test]
fn p10_empty_book_of_two_nodes() {
    for (version, book) in Version::ALL.into_iter().zip(p10s()) {
        assert_eq!(stored(version, &line_a(2)), book);
        assert_eq!(written(|out| calls::rewrite(&book, out)), book);
    }
    assert_eq!(Some(&line_a(2)), p10s().last());
}

#[test]
fn p11_one_row_added() {
    let newest = p11s().last().unwrap().clone();
    for empty in p10s() {
        assert_eq!(opened(&empty, 7, 1, 0, 2), newest);
    }
    for (version, book) in Version::ALL.into_iter().zip(p11s()) {
        assert_eq!(stored(version, &newest), book);
        assert_eq!(calls::check(&book), (0, 0));
        assert_eq!(written(|out| calls::rewrite(&book, out)), book);
        assert_eq!(closed(&book, 7), line_a(2));
    }
}

#[test]
fn run_no_input() {
    assert_eq!(listing(&[]), "refused 14\n");
}

/// All slots of the cycle are data.
const OPEN_PLAN: (u8, u8, u16, u8, u8) = (4, 1, 0, 0, 0);

#[test]
fn run_15_hops_are_accepted_and_16_are_too_far() {
    let book = opened(&new_book(OPEN_PLAN, &line(16)), 1, 0, 15, 100);
    assert_eq!(stream(&book, 1).nodes, (0..=15).collect::<Vec<u8>>());
    assert_eq!(stream(&book, 1).offsets, (0..15).collect::<Vec<u16>>());
    assert_eq!(open_refused(&new_book(OPEN_PLAN, &line(17)), 1, 0, 16, 100), 17);
}

#[test]
fn run_64_nodes_stand_and_65_do_not() {
    assert_eq!(calls::check(&new_book(OPEN_PLAN, &line(64))), (0, 0));
    let rows = vec![0; 8 * 65];
    assert_eq!(refused(ROOM, |out| calls::new(&site(OPEN_PLAN, 65, &rows), &ONLY, out)), 10);
    let mut image = new_book(OPEN_PLAN, &line(64));
    image[11] = 65;
    assert_eq!(calls::check(&image), (10, 0));
}

#[test]
fn balance_listing_of_p2() {
    // Ten times document 01's numbers, as the cycle has 1000 tiles.
    let expected = "node data used free\n\
                    0 2500 500 2000\n\
                    1 2500 1000 1500\n\
                    2 2500 1000 1500\n\
                    3 2500 500 2000\n";
    for version in Version::ALL {
        assert_eq!(listing(&stored(version, &p2())), expected);
    }
}

#[test]
fn rewrite_gives_the_same_bytes() {
    assert_eq!(written(|out| calls::rewrite(&p3(), out)), p3());
}
