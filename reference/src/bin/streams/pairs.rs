//! Streams of pairs of images, for a program that prints statements.

use crate::Kind;
use crate::dice::Dice;
use crate::site::{
    any_accounts, any_image, any_plan, any_topology, empty_book, line, load, plan_a,
};
use reference::book::Book;
use reference::statement::statement;

pub const KIND: Kind = Kind {
    name: "statement",
    streams: "streams of pairs",
    fixed,
    thrown,
    printed: statement,
    all: &[
        "more slots free",
        "fewer slots free",
        "as many slots free",
        "refused 10",
        "refused 14",
        "refused 15",
        "a stream that ends too soon",
        "no streams in any book",
        "input behind 1,000 pairs",
    ],
    met,
};

/// The most pairs that are read.
const MOST: usize = 1000;

/// Nothing at all, a stream cut at every byte, unequal sites, and streams about as long as may be read.
fn fixed(dice: &mut Dice) -> Vec<Vec<u8>> {
    let mut streams = vec![Vec::new()];
    let short: Vec<u8> = [framed(&[1, 2]), framed(&[])].concat();
    streams.extend((0..=short.len()).map(|end| short[..end].to_vec()));
    let [two, three] = [2, 3].map(|nodes| any_image(dice, &empty_book(plan_a(), line(nodes))));
    streams.push([framed(&two), framed(&three), framed(&three), framed(&two)].concat());
    let book = any_book(dice);
    let pair = [framed(&any_image(dice, &book)), framed(&any_image(dice, &book))].concat();
    for pairs in [MOST - 1, MOST, MOST + 1] {
        for behind in [&[][..], &[0], &pair] {
            streams.push([short.repeat(pairs - 1), pair.clone(), behind.to_vec()].concat());
        }
    }
    streams
}

/// Up to 6 pairs, one stream in three cut somewhere.
fn thrown(dice: &mut Dice) -> Vec<u8> {
    let pairs = dice.below(7);
    let mut stream: Vec<u8> = (0..pairs).flat_map(|_| any_pair(dice)).collect();
    if dice.chance(33) {
        stream.truncate(dice.below(stream.len() + 1));
    }
    stream
}

/// An image after its length.
fn framed(image: &[u8]) -> Vec<u8> {
    let length = u16::try_from(image.len()).expect("an image is cut to fit");
    [&length.to_be_bytes(), image].concat()
}

/// Last month's and this month's image: of one site, or of two, each damaged now and then.
fn any_pair(dice: &mut Dice) -> Vec<u8> {
    let last = any_book(dice);
    let mut this = if dice.chance(85) { last.clone() } else { any_book(dice) };
    for _ in 0..dice.below(1 + this.rows.len()) {
        let id = this.rows.get(dice.below(1 + this.rows.len())).map_or(0, |row| row.id);
        this.rows.retain(|row| row.id != id);
    }
    let tries = dice.below(12);
    load(dice, &mut this, tries);
    [last, this].iter().flat_map(|book| framed(&month(dice, book))).collect()
}

/// The book's image, or one time in six something else.
fn month(dice: &mut Dice, book: &Book) -> Vec<u8> {
    let mut image = any_image(dice, book);
    match dice.below(24) {
        0 => image.truncate(dice.below(image.len() + 1)),
        1 => image.push(dice.byte()),
        2 => {
            let place = dice.below(image.len());
            image[place] ^= 1 << dice.below(8);
        }
        3 => {
            let length = dice.pick(&[0, 15, 16, 2960, 2961, 3024, 3025, 65_534, 65_535]);
            image.resize(length, dice.byte());
        }
        _ => {}
    }
    image
}

/// A book with some streams.
fn any_book(dice: &mut Dice) -> Book {
    let mut book = empty_book(any_plan(dice), any_topology(dice));
    book.accounts = any_accounts(dice);
    let tries = dice.pick(&[0, 3, 8, 20]);
    load(dice, &mut book, tries);
    book
}

/// What a stream and its lines meet, in the order of `KIND`.
fn met(stream: &[u8], printed: &str) -> Vec<bool> {
    let lines: Vec<&str> = printed.lines().collect();
    let (last, rest) = lines.split_last().expect("a line is always printed");
    let moved = |line: &&str| !line.starts_with("refused") && line.contains(['+', '-']);
    vec![
        lines.iter().any(|line| line.contains('+')),
        lines.iter().any(|line| line.contains('-')),
        lines.iter().any(|line| moved(line) && line.split(' ').any(|part| part == "0")),
        rest.contains(&"refused 10"),
        rest.contains(&"refused 14"),
        rest.contains(&"refused 15"),
        *last == "refused 14",
        *last == "0 0 0" && !stream.is_empty(),
        rest.iter().filter(|line| line.starts_with("refused")).count() == 1998,
    ]
}
