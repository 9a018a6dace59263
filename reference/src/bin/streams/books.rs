//! Damaged books, for a program that says what can be saved of one.

use crate::Kind;
use crate::damage::{damaged, of_rows, scratched};
use crate::dice::Dice;
use crate::site::{
    add_stream, any_accounts, any_plan, any_topology, empty_book, images, line, load, open_plan,
    tighten,
};
use reference::book::Book;
use reference::row::Row;
use reference::salvage::lines;
use reference::version::Version;

pub const KIND: Kind = Kind {
    name: "salvage",
    streams: "damaged books",
    fixed,
    thrown,
    printed: lines,
    all: &[
        "a row kept",
        "a row dropped for 15",
        "a row dropped for 8",
        "a row dropped for 16",
        "a row kept behind one dropped",
        "bytes lost",
        "nothing lost",
        "no row at all",
        "refused 10",
        "refused 11",
        "refused 13",
        "refused 14",
        "over 64 rows",
        "an input of 65,535 bytes",
    ],
    met,
};

/// The longest input that is tried.
const LONGEST: usize = 65_535;

/// A book cut at every byte, no input, a book with one bit of any byte changed, full books and longer ones, and inputs of
/// many bytes.
fn fixed(dice: &mut Dice) -> Vec<Vec<u8>> {
    let mut book = empty_book(open_plan(4), line(4));
    add_stream(&mut book, 300, 0, 2, 10);
    add_stream(&mut book, 7, 3, 1, 100);
    let mut streams = Vec::new();
    for image in images(&book) {
        streams.extend((0..=image.len()).map(|end| image[..end].to_vec()));
        streams.extend((0..image.len()).map(|place| flipped(&image, place)));
    }
    for (rows, hops) in [(64, 8), (70, 1), (36, 15), (200, 3)] {
        let mut full = empty_book(open_plan(32), line(64));
        for id in 1..=rows {
            add_stream(&mut full, 300 * id, 0, hops, 100);
        }
        streams.extend(Version::ALL.map(|version| of_rows(version, &full, full.rows.clone())));
    }
    for rows in [2000, 6000] {
        let image = of_rows(Version::NEWEST, &book, many_rows(dice, &book, rows));
        streams.extend([image.clone(), scratched(dice, image)]);
    }
    streams.iter_mut().for_each(|stream| stream.truncate(LONGEST));
    streams
}

/// The image with the lowest bit of a byte changed.
fn flipped(image: &[u8], place: usize) -> Vec<u8> {
    let mut bad = image.to_vec();
    bad[place] ^= 1;
    bad
}

/// So many rows, all but a few of them with the ids of those before.
fn many_rows(dice: &mut Dice, book: &Book, count: usize) -> Vec<Row> {
    let row = |at: usize| Row { id: 1 + (at / 40) as u16, ..book.rows[dice.below(2)].clone() };
    (0..count).map(row).collect()
}

/// A book of some streams, damaged.
fn thrown(dice: &mut Dice) -> Vec<u8> {
    let mut one = empty_book(any_plan(dice), any_topology(dice));
    one.accounts = any_accounts(dice);
    let mut two = one.clone();
    for book in [&mut one, &mut two] {
        let tries = dice.pick(&[0, 3, 8, 20, 120]);
        load(dice, book, tries);
    }
    if dice.chance(30) {
        tighten(dice, &mut one);
    }
    damaged(dice, &one, &two)
}

/// What a stream and its lines meet, in the order of `KIND`.
fn met(stream: &[u8], printed: &str) -> Vec<bool> {
    let lines: Vec<&str> = printed.lines().collect();
    let (last, rest) = lines.split_last().expect("a line is always printed");
    let dropped = |line: &&str, reason: &str| line.starts_with("dropped") && line.ends_with(reason);
    let kept = |line: &&str| line.starts_with("kept");
    vec![
        rest.iter().any(kept),
        rest.iter().any(|line| dropped(line, " 15")),
        rest.iter().any(|line| dropped(line, " 8")),
        rest.iter().any(|line| dropped(line, " 16")),
        rest.windows(2).any(|pair| dropped(&pair[0], "") && kept(&pair[1])),
        last.starts_with("lost") && *last != "lost 0",
        *last == "lost 0",
        rest.is_empty() && last.starts_with("lost"),
        *last == "refused 10",
        *last == "refused 11",
        *last == "refused 13",
        *last == "refused 14",
        rest.len() > 64,
        stream.len() == LONGEST,
    ]
}
