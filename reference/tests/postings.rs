//! Postings (W2): lists of opens and closes, and single calls as lists of one.

mod common;

use common::*;
use reference::calls::{self, MAX_RECORDS};
use reference::record::Record;
use reference::version::Version;

/// An answer that no record gets.
const UNMARKED: u8 = 99;

/// S=32, every slot data.
const WIDE_PLAN: (u8, u8, u16, u8, u8) = (32, 1, 0, 0, 0);

/// A buffer of full size, and not a byte more.
fn full_size() -> usize {
    Version::NEWEST.longest_image()
}

fn open(id: u16, source: u8, destination: u8, period: u16) -> Record {
    unmarked(Record::open(plain(id, source, destination, period)))
}

fn close(id: u16) -> Record {
    unmarked(Record::close(id))
}

fn unmarked(record: Record) -> Record {
    Record { answer: UNMARKED, ..record }
}

/// Posts a list with a full-size buffer: the answers, and what was written.
/// Nothing else of a record or the buffer changes.
fn posted(book: &[u8], list: &[Record]) -> (Vec<u8>, Vec<u8>) {
    let mut records = list.to_vec();
    let mut out = vec![FILL; full_size()];
    let (number, length) =
        calls::post(book, all_of(book), &mut records, &mut any_index(), &mut out);
    assert_eq!(number, 0);
    assert!(out[length..].iter().all(|&byte| byte == FILL));
    for (before, after) in list.iter().zip(&records) {
        assert_eq!(Record { answer: before.answer, ..*after }, *before);
    }
    (records.iter().map(|record| record.answer).collect(), out[..length].to_vec())
}

/// Posts a list that is refused as a whole; no record is marked.
fn post_refused(book: &[u8], list: &[Record], room: usize) -> u8 {
    let mut records = list.to_vec();
    let number =
        refused(room, |out| calls::post(book, all_of(book), &mut records, &mut any_index(), out));
    assert_eq!(records, list);
    number
}

#[test]
fn p2_to_p5_in_one_list() {
    let list = [open(1, 3, 0, 2), open(2, 0, 3, 2), open(3, 3, 2, 2), close(1), open(3, 3, 2, 2)];
    for version in Version::ALL {
        let (answers, book) = posted(&stored(version, &line_a(4)), &list);
        assert_eq!(answers, [0, 0, 9, 0, 0]);
        assert_eq!(book, opened(&closed(&p3(), 1), 3, 3, 2, 2));
    }
}

#[test]
fn two_opens_for_the_last_free_slot() {
    // One slot a tile and K=2: slots 0 and 1, and stream 9 has the one.
    let book = opened(&new_book((1, 1, 0, 0, 0), &line(2)), 9, 1, 0, 2);
    let (one, two) = (open(1, 0, 1, 2), open(2, 0, 1, 2));
    for record in [one, two] {
        assert_eq!(posted(&book, &[record]).0, [0]);
    }
    assert_eq!(posted(&book, &[one, two]), (vec![0, 9], opened(&book, 1, 0, 1, 2)));
    assert_eq!(posted(&book, &[two, one]), (vec![0, 9], opened(&book, 2, 0, 1, 2)));
    assert_eq!(posted(&book, &[one, two, close(9), two]).0, [0, 9, 0, 0]);
}

#[test]
fn a_refused_record_leaves_the_book_as_it_found_it() {
    let list = [close(7), open(0, 3, 0, 2), open(1, 3, 0, 2), open(1, 3, 0, 2), open(4, 3, 3, 2)];
    let (answers, book) = posted(&line_a(4), &list);
    assert_eq!(answers, [3, 1, 0, 2, 5]);
    assert_eq!(book, p2());
}

#[test]
fn where_no_record_was_done_nothing_is_written() {
    assert_eq!(posted(&p3(), &[]), (vec![], vec![]));
    assert_eq!(posted(&p3(), &[close(3), open(4, 0, 9, 2)]), (vec![3, 4], vec![]));
}

#[test]
fn what_is_done_and_undone_is_written() {
    let list = [open(1, 3, 0, 2), close(1)];
    assert_eq!(posted(&line_a(4), &list), (vec![0, 0], line_a(4)));
    // An older book is written in the newest version.
    let older = stored(Version::One, &line_a(4));
    assert_eq!(posted(&older, &list), (vec![0, 0], line_a(4)));
}

#[test]
fn up_to_64_records() {
    let book = new_book(WIDE_PLAN, &line(2));
    let list: Vec<Record> = (1..=65).map(|id| open(id, 0, 1, 100)).collect();
    let (answers, full) = posted(&book, &list[..MAX_RECORDS]);
    assert_eq!(answers, [0; 64]);
    assert_eq!(read(&full).rows.len(), 64);
    assert_eq!(post_refused(&book, &list, ROOM), 26);
    assert_eq!(posted(&full, &[list[64], close(1), list[64]]).0, [8, 0, 0]);
}

#[test]
fn the_whole_call_gives_the_images_then_26_then_12() {
    let list = vec![close(1); 65];
    assert_eq!(post_refused(&p3()[..47], &list, 0), 14);
    assert_eq!(post_refused(&p3(), &list, 0), 26);
    assert_eq!(post_refused(&p3(), &list[..64], 0), 12);
    assert_eq!(post_refused(&p3(), &list[..1], full_size() - 1), 12);
    assert_eq!(post_refused(&p3(), &[], full_size() - 1), 12);
    assert_eq!(posted(&p3(), &list[..1]).0, [0]);
}

#[test]
fn single_calls_are_lists_of_one() {
    // 12 stands before the record's own answer.
    let book = p3();
    let short = full_size() - 1;
    assert_eq!(refused(short, |out| calls::open(&book, plain(0, 9, 9, 3), out)), 12);
    assert_eq!(refused(short, |out| calls::close(&book, 0, out)), 12);
    assert_eq!(refused(short + 1, |out| calls::open(&book, plain(0, 9, 9, 3), out)), 1);
    assert_eq!(refused(short + 1, |out| calls::close(&book, 0, out)), 1);
    assert_eq!(refused(0, |out| calls::close(&book[..15], 0, out)), 14);
    let mut out = vec![FILL; short + 1];
    assert_eq!(calls::close(&book, 2, &mut out), (0, p2().len()));
    assert_eq!(posted(&book, &[close(2)]), (vec![0], out[..p2().len()].to_vec()));
}

#[test]
fn a_second_route_in_a_list() {
    let square = topology(4, &[(0, 1), (0, 2), (1, 3), (2, 3)]);
    let book = new_book(WIDE_PLAN, &square);
    let both = unmarked(Record::open(doubled(1, 0, 3, 5)));
    let (answers, after) = posted(&book, &[both, close(1), both, open(2, 1, 0, 5)]);
    assert_eq!(answers, [0; 4]);
    assert_eq!(read(&after).rows.len(), 3);
    assert_eq!(second(&after, 1).nodes, [0, 2, 3]);
}

#[test]
fn apart_requests_give_the_same_in_every_order() {
    // Two lines of five. 0→2 and 5→9 are far apart, 4→5 has no route, 7 is not
    // in the book.
    let links: Vec<_> = (1..10).filter(|&node| node != 5).map(|node| (node - 1, node)).collect();
    let book = opened(&new_book(PLAN_A, &topology(10, &links)), 3, 9, 8, 2);
    let list = [open(1, 0, 2, 2), close(7), open(2, 5, 7, 5), open(4, 4, 5, 1)];
    let alone: Vec<u8> = list.iter().map(|&record| posted(&book, &[record]).0[0]).collect();
    assert_eq!(alone, [0, 3, 0, 7]);
    let (_, last) = posted(&book, &list);
    for turn in 0..4 {
        let mut turned = list;
        turned.rotate_left(turn);
        let (mut answers, book) = posted(&book, &turned);
        answers.rotate_right(turn);
        assert_eq!((answers, book), (alone.clone(), last.clone()));
    }
}
