//! Where two books differ, and where the nodes' tables first show it.

use crate::account::Account;
use crate::book::{Book, Stream, Way};
use crate::table::Entry;
use crate::tiles::Tiles;
use std::collections::{BTreeMap, BTreeSet};

/// What the first book has, and what the second has.
pub type Pair<T> = [T; 2];

/// A part of a book under its name, as words.
type Part = (&'static str, Vec<String>);

/// A part that differs, with the words of each book.
pub type Differs = (&'static str, Pair<Vec<String>>);

/// The first slot in which a node does not do the same, and what it does by each book.
pub struct Seen {
    pub tile: u16,
    /// The slot of the tile.
    pub slot: u8,
    pub node: u8,
    /// None by a book whose tiles have no such slot.
    pub entries: Pair<Option<Entry>>,
}

/// What differs between two books.
pub struct Difference<'a> {
    pub books: Pair<&'a Book>,
    /// The parts of the plan that differ.
    pub plan: Vec<Differs>,
    /// The accounts that have not bought the same, by their numbers.
    pub accounts: Vec<Differs>,
    /// The links that each book has alone.
    pub links: Pair<Vec<(usize, usize)>>,
    /// The pairs that hear each other without a link by each book alone.
    pub heard: Pair<Vec<(usize, usize)>>,
    /// The streams that are not the same in both, in order of id; none in a book without it.
    pub streams: Vec<Pair<Option<Stream<'a>>>>,
    /// None where every node that both have does the same in every slot.
    pub seen: Option<Seen>,
}

/// Words for what is counted.
fn words(numbers: impl IntoIterator<Item = impl ToString>) -> Vec<String> {
    numbers.into_iter().map(|number| number.to_string()).collect()
}

/// The parts of a plan, in the words of a plan's file.
fn plan(book: &Book) -> Vec<Part> {
    let kind = |tile| if book.is_down(tile) { "down" } else { "up" };
    vec![
        ("slots", words([book.slots])),
        ("tiles", words((0..book.tiles.into()).map(kind))),
        ("control", words([book.down, book.up])),
    ]
}

/// The parts of a stream; those of a second route are empty where it has none.
fn stream(stream: Stream) -> Vec<Part> {
    let (first, second) = (stream.first(), stream.second());
    let nodes = |way: &Way| words(&way.nodes);
    let offsets = |way: &Way| words(&way.offsets);
    vec![
        ("period", words([first.period])),
        ("route", nodes(first)),
        ("offsets", offsets(first)),
        ("second route", second.map(nodes).unwrap_or_default()),
        ("second offsets", second.map(offsets).unwrap_or_default()),
        ("account", words([first.account])),
    ]
}

/// The accounts that have not bought the same: the number of each, and what it has bought by each book.
fn accounts(books: Pair<&Book>) -> Vec<Differs> {
    let bought = books.map(|book| {
        let pair = |own: &Account| (own.number, own.bought);
        book.accounts.iter().map(pair).collect::<BTreeMap<_, _>>()
    });
    let numbers: BTreeSet<u16> = bought.iter().flat_map(|own| own.keys().copied()).collect();
    let both = numbers.into_iter().map(|number| (number, [0, 1].map(|at| bought[at].get(&number))));
    let said = |number: u16, bought: Option<&u32>| {
        vec![number.to_string(), bought.map_or("none".into(), u32::to_string)]
    };
    both.filter(|(_, [one, other])| one != other)
        .map(|(number, pair)| ("account", pair.map(|bought| said(number, bought))))
        .collect()
}

/// The parts that differ.
fn differing([first, second]: Pair<Vec<Part>>) -> Vec<Differs> {
    let both = first.into_iter().zip(second);
    both.filter(|(one, other)| one != other)
        .map(|((name, one), (_, other))| (name, [one, other]))
        .collect()
}

/// The parts that differ of a stream that both books have.
pub fn in_stream(streams: Pair<Stream>) -> Vec<Differs> {
    differing(streams.map(stream))
}

/// The pairs of nodes that each book has alone.
fn alone([one, other]: Pair<Vec<(usize, usize)>>) -> Pair<Vec<(usize, usize)>> {
    let less = |own: &[(usize, usize)], others: &[(usize, usize)]| {
        own.iter().filter(|pair| !others.contains(pair)).copied().collect()
    };
    [less(&one, &other), less(&other, &one)]
}

/// The streams that are not the same in both books.
fn streams<'a>(books: Pair<&'a Book>) -> Vec<Pair<Option<Stream<'a>>>> {
    let ids: BTreeSet<u16> =
        books.iter().flat_map(|book| book.ways.iter().map(|way| way.id)).collect();
    let pairs = ids.into_iter().map(|id| books.map(|book| book.stream(id)));
    pairs.filter(|[one, other]| one.map(|s| s.ways) != other.map(|s| s.ways)).collect()
}

/// The first slot of these tiles, and in it the first node that does not do the same by both books.
fn seen(books: Pair<&Book>, tiles: Tiles, tables: Pair<&[Vec<Entry>]>) -> Option<Seen> {
    let slots = books.map(|book| book.slots);
    let entry = |book: usize, tile: u16, slot: u8, node: usize| {
        let place = usize::from(tile) * usize::from(slots[book]) + usize::from(slot);
        (slot < slots[book]).then(|| tables[book][node][place])
    };
    let nodes = tables[0].len().min(tables[1].len());
    let in_tile = |tile| (0..slots[0].max(slots[1])).map(move |slot| (tile, slot));
    let in_slot = |(tile, slot)| (0..nodes).map(move |node| (tile, slot, node));
    (0..tiles.count).flat_map(in_tile).flat_map(in_slot).find_map(|(tile, slot, node)| {
        let entries = [0, 1].map(|book| entry(book, tile, slot, node));
        (entries[0] != entries[1]).then_some(Seen { tile, slot, node: node as u8, entries })
    })
}

impl<'a> Difference<'a> {
    /// Compares two books, with the tables of each for every node of its own, of the first tiles in which both repeat.
    pub fn of(books: Pair<&'a Book>, tiles: Tiles, tables: Pair<&[Vec<Entry>]>) -> Difference<'a> {
        Difference {
            books,
            plan: differing(books.map(plan)),
            accounts: accounts(books),
            links: alone(books.map(Book::pairs)),
            heard: alone(books.map(Book::heard_pairs)),
            streams: streams(books),
            seen: seen(books, tiles, tables),
        }
    }

    /// What the books have at this place, where that is not the same.
    pub fn unequal<T: PartialEq>(&self, part: fn(&Book) -> T) -> Option<Pair<T>> {
        Some(self.books.map(part)).filter(|[one, other]| one != other)
    }

    /// Nothing differs but the version in which the books are written.
    pub fn is_none(&self) -> bool {
        self.plan.is_empty()
            && self.accounts.is_empty()
            && self.unequal(Book::nodes).is_none()
            && self.links.iter().chain(&self.heard).all(Vec::is_empty)
            && self.streams.is_empty()
    }
}
