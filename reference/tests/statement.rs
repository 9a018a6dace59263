//! The statement over many sites (W3).

mod common;

use common::*;
use reference::statement::statement;
use reference::version::Version;

/// An image after its length.
fn framed(image: &[u8]) -> Vec<u8> {
    [&(image.len() as u16).to_be_bytes(), image].concat()
}

fn pair(last: &[u8], this: &[u8]) -> Vec<u8> {
    [framed(last), framed(this)].concat()
}

#[test]
fn no_input_gives_the_last_line_alone() {
    assert_eq!(statement(&[]), "0 0 0\n");
}

#[test]
fn a_pair_and_its_movement() {
    // P2 uses 500, 1000, 1000 and 500 of 2500; its offsets are 2, 3, 5. P3 adds
    // as much again, with offsets 2, 6, 7.
    let expected = "1500 3000 4\n500 6000 6\n-500 -1000 -1000 -500\n2000 9000 6\n";
    assert_eq!(statement(&pair(&p2(), &p3())), expected);
    let back = "500 6000 6\n1500 3000 4\n+500 +1000 +1000 +500\n2000 9000 6\n";
    assert_eq!(statement(&pair(&stored(Version::One, &p3()), &p2())), back);
    let same = "1500 3000 4\n1500 3000 4\n0 0 0 0\n3000 6000 4\n";
    assert_eq!(statement(&pair(&p2(), &p2())), same);
}

#[test]
fn an_empty_book_has_no_latency() {
    let line = "2500 0 0\n";
    assert_eq!(
        statement(&pair(&line_a(2), &line_a(2))),
        [line, line, "0 0\n", "5000 0 0\n"].concat()
    );
}

#[test]
fn no_movement_where_the_nodes_are_not_as_many() {
    assert_eq!(statement(&pair(&line_a(2), &line_a(3))), "2500 0 0\n2500 0 0\n5000 0 0\n");
}

#[test]
fn a_bad_image_costs_one_line() {
    let expected = "refused 14\n1500 3000 4\n1500 3000 4\nrefused 13\n3000 6000 4\n";
    let input = [pair(&[], &p2()), pair(&p2(), &[0; 20])].concat();
    assert_eq!(statement(&input), expected);
    assert_eq!(statement(&pair(&p2()[1..], &[7; 60000])), "refused 13\nrefused 13\n0 0 0\n");
}

#[test]
fn the_input_may_not_end_inside_a_pair() {
    let input = pair(&p2(), &p2());
    let line = "1500 3000 4\n";
    let first = framed(&p2()).len();
    assert_eq!(statement(&input[..1]), "refused 14\n");
    assert_eq!(statement(&input[..first - 1]), "refused 14\n");
    assert_eq!(statement(&input[..first]), [line, "refused 14\n"].concat());
    assert_eq!(statement(&input[..first + 1]), [line, "refused 14\n"].concat());
    assert_eq!(statement(&input[..input.len() - 1]), [line, "refused 14\n"].concat());
    let more = [&input[..], &[0]].concat();
    assert_eq!(statement(&more), [line, line, "0 0 0 0\n", "refused 14\n"].concat());
}

#[test]
fn at_most_1000_pairs_are_read() {
    // A pair of nothing is two refusals, and what follows is not read.
    let input = [[0; 4].repeat(1000), vec![9]].concat();
    assert_eq!(statement(&input), "refused 14\n".repeat(2000) + "0 0 0\n");
    assert!(statement(&[0; 4].repeat(999)).ends_with("refused 14\n0 0 0\n"));
}

#[test]
fn a_second_route_is_measured_by_itself() {
    // First 0 and 1, second 1 and 2: each takes two slots.
    let square = topology(4, &[(0, 1), (0, 2), (1, 3), (2, 3)]);
    let empty = new_book((4, 1, 0, 0, 0), &square);
    let book = written(|out| reference::calls::open(&empty, doubled(9, 0, 3, 5), out));
    assert!(statement(&pair(&book, &book)).starts_with("3600 1600 2\n"));
}
