//! Frames, byte by byte.

mod common;

use common::*;
use reference::frame::{Answer, Call, Request, serve, write_end};
use reference::version::Version;

fn bytes_of(request: &Request) -> Vec<u8> {
    let mut bytes = Vec::new();
    request.write(&mut bytes).unwrap();
    bytes
}

#[test]
fn a_request_has_every_field_in_its_place() {
    let request = Request {
        id: 0x0102,
        node: 0x03,
        destination: 0x04,
        period: 0x0506,
        s: 0x07,
        c: 0x08,
        kinds: 0x090A,
        d: 0x0B,
        u: 0x0C,
        n: 0x0D,
        bytes: vec![0xEE; 3],
        hearing: vec![0xCC],
        further: vec![0xDD; 2],
        room: 0x1011,
        fill: 0x12,
        second: true,
        account: 0x1415,
        amount: 0x2A2B2C2D,
        first: 0x1617,
        tiles: 0x1819,
        mains: 0x2021222324252627,
        beside: 0x2829,
        ..Request::blank(Call::Open)
    };
    let fields = [3, 1, 2, 3, 4, 5, 6, 7, 8, 9, 10, 11, 12, 13, 0, 3, 0x10, 0x11, 0x12, 1];
    let lengths = [0, 1, 0, 2, 0x28, 0x29];
    let bytes = [0xEE, 0xEE, 0xEE, 0xCC, 0xDD, 0xDD];
    let mains = [0x20, 0x21, 0x22, 0x23, 0x24, 0x25, 0x26, 0x27];
    let tiles = [0x14, 0x15, 0x16, 0x17, 0x18, 0x19];
    let amount = [0x2A, 0x2B, 0x2C, 0x2D];
    let expected = [&fields[..], &tiles, &mains, &amount, &lengths, &bytes].concat();
    assert_eq!(bytes_of(&request), expected);
    assert_eq!(Request::read(&mut &expected[..]).unwrap(), Some(request));
}

/// The stream of answers to these requests.
fn served(requests: &[Request]) -> Vec<u8> {
    let mut input: Vec<u8> = requests.iter().flat_map(bytes_of).collect();
    write_end(&mut input).unwrap();
    input.extend([0xFF; 4]);
    let mut output = Vec::new();
    serve(&mut &input[..], &mut output).unwrap();
    output
}

#[test]
fn a_new_book_is_answered_with_its_whole_buffer() {
    let request = Request {
        s: 4,
        c: 2,
        kinds: 1,
        d: 2,
        u: 1,
        n: 2,
        bytes: line(2),
        hearing: line(2),
        further: ONLY.to_vec(),
        room: 57,
        fill: FILL,
        ..Request::blank(Call::New)
    };
    let image = [line_a(2), vec![FILL, FILL]].concat();
    let expected = [&[0, 0, 0, 0, 55, 0, 0, 0, 0, 0, 0, 0, 0], &image[..]].concat();
    assert_eq!(served(&[request]), expected);
}

#[test]
fn check_balance_and_links_are_answered_without_a_buffer() {
    let check = Request { bytes: vec![0; 15], ..Request::blank(Call::Check) };
    let balance = Request { node: 1, bytes: p2(), ..Request::blank(Call::Balance) };
    let links = Request { node: 1, bytes: p2(), ..Request::blank(Call::Links) };
    assert_eq!(bytes_of(&links)[..4], [13, 0, 0, 1]);
    let output = served(&[check, balance, links]);
    let expected = [
        [14, 0, 0, 0, 0, 0, 0, 0, 0, 0, 0, 0, 0],
        [0, 0, 0, 0x09, 0xC4, 0, 0, 0x03, 0xE8, 0, 0, 0x05, 0xDC],
        [0, 0, 0, 0, 2, 0, 0, 0, 0, 0, 0, 0, 0],
    ];
    assert_eq!(output, expected.concat());
}

#[test]
fn calls_have_their_numbers() {
    for number in [14, 254] {
        assert!(Call::of_number(number).is_err());
    }
    assert_eq!(Call::of_number(9).unwrap(), Call::KeepsTo);
    assert_eq!(Call::of_number(10).unwrap(), Call::Purchase);
    assert_eq!(Call::of_number(12).unwrap(), Call::BookOf);
    assert_eq!(Call::of_number(13).unwrap(), Call::Links);
}

#[test]
fn an_answer_reads_as_it_was_written() {
    let request = Request { bytes: p2(), room: 199, fill: 7, ..Request::blank(Call::Rewrite) };
    let answer = request.answer();
    let mut bytes = Vec::new();
    answer.write(&mut bytes).unwrap();
    assert_eq!(Answer::read(&mut &bytes[..], &request).unwrap(), answer);
    assert_eq!(answer.written(), p2());
}

#[test]
fn a_list_of_routes_is_answered_with_its_mark() {
    // 33 nodes between 0 and 1: 32 routes of 4 bytes, and one more.
    let links: Vec<_> = (2..35).flat_map(|middle| [(0, middle), (middle, 1)]).collect();
    let book = new_book(PLAN_A, &topology(35, &links));
    let list = |room| Request {
        destination: 1,
        mains: all_of(&book),
        bytes: book.clone(),
        room,
        ..Request::blank(Call::Routes)
    };
    assert_eq!(list(128).answer().counts, [128, 1, 0]);
    assert_eq!(served(&[list(127)])[..13], [12, 0, 0, 0, 0, 0, 0, 0, 0, 0, 0, 0, 0]);
}

#[test]
fn a_posting_is_answered_with_its_records() {
    let records = [
        [1, 0, 3, 0, 0, 1, 0, 2, 0, 0, 99],
        [0, 1, 200, 201, 0, 9, 0, 3, 0, 0, 98],
        [1, 1, 0, 3, 0, 2, 0, 2, 0, 0, 97],
    ];
    let room = Version::NEWEST.longest_image() as u16;
    let further = records.concat();
    let bytes = line_a(4);
    let beside = 2 * 100 * 4 + 1;
    let blank = Request::blank(Call::Post);
    let post = Request { mains: 0b1111, bytes, further, room, beside, fill: FILL, ..blank };
    let bytes = served(std::slice::from_ref(&post));
    let answer = Answer::read(&mut &bytes[..], &post).unwrap();
    assert_eq!((answer.number, answer.written()), (0, &p2()[..]));
    // Done, not in the book, no second route on a line.
    let mut expected = records;
    (expected[0][10], expected[1][10], expected[2][10]) = (0, 3, 18);
    assert_eq!(answer.records, expected.concat());
    // In slot 2 node 3 sends and node 2 receives; the last word is not written.
    assert_eq!(answer.beside[32..48], [0, 0, 0, 0, 0, 0, 0, 8, 0, 0, 0, 0, 0, 0, 0, 4]);
    assert_eq!(answer.beside[6400..], [FILL; 8]);
    // Refused as a whole, it leaves the records alone.
    let short = Request { room: room - 1, ..post };
    assert_eq!((short.answer().number, short.answer().records), (12, records.concat()));
}
