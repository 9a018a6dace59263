//! Books for the tests of the page.

use crate::account::ENDLESS;
use crate::book::{Balance, Book, Way, NEWEST};

/// Links from pairs of nodes.
pub fn links_of(nodes: usize, pairs: &[(usize, usize)]) -> Vec<u64> {
    let mut links = vec![0; nodes];
    for &(a, b) in pairs {
        links[a] |= 1 << b;
        links[b] |= 1 << a;
    }
    links
}

/// Nodes in a line.
pub fn line_links(nodes: usize) -> Vec<u64> {
    links_of(nodes, &(1..nodes).map(|node| (node - 1, node)).collect::<Vec<_>>())
}

/// Nodes in rows of equal length, each linked to those beside, above and below it.
pub fn square_links(side: usize) -> Vec<u64> {
    let across = (0..side * side).filter(|node| node % side > 0).map(|node| (node - 1, node));
    let down = (side..side * side).map(|node| (node - side, node));
    links_of(side * side, &across.chain(down).collect::<Vec<_>>())
}

pub fn stream(id: u16, period: u16, nodes: &[u8], offsets: &[u16]) -> Way {
    Way { id, number: 1, period, nodes: nodes.to_vec(), offsets: offsets.to_vec(), account: 0 }
}

/// A line under plan A of document 01, with eight slots a tile.
pub fn line_book(nodes: usize, streams: Vec<Way>) -> Book {
    Book {
        version: NEWEST,
        slots: 8,
        tiles: 2,
        kinds: 1,
        down: 2,
        up: 1,
        accounts: vec![ENDLESS],
        links: line_links(nodes),
        hearing: line_links(nodes),
        ways: streams,
    }
}

/// The line of kilns that README shows.
pub fn kiln() -> Book {
    let streams = vec![
        stream(1, 10, &[7, 6, 5, 4, 3, 2, 1, 0], &[2, 3, 4, 5, 6, 7, 9]),
        stream(2, 20, &[0, 1, 2, 3, 4, 5, 6, 7], &[2, 3, 4, 7, 9, 10, 11]),
        stream(3, 5, &[4, 3, 2, 1, 0], &[2, 10, 11, 12]),
        stream(4, 2, &[2, 1], &[13]),
        stream(5, 2, &[6, 7], &[4]),
    ];
    line_book(8, streams)
}

/// A ring of six nodes and two streams: one goes round both ways, the last of all ids by a chord too.
pub fn ring() -> Book {
    let ring = [(0, 1), (1, 2), (2, 3), (3, 4), (4, 5), (5, 0), (1, 4)];
    let second = |way: Way| Way { number: 2, ..way };
    let ways = vec![
        stream(7, 5, &[0, 1, 2, 3], &[2, 3, 4]),
        second(stream(7, 5, &[0, 5, 4, 3], &[3, 4, 5])),
        stream(65535, 10, &[1, 4], &[9]),
        second(stream(65535, 10, &[1, 2, 3, 4], &[10, 11, 12])),
    ];
    let links = links_of(6, &ring);
    Book { hearing: links.clone(), links, ..line_book(6, ways) }
}

/// The balances of the line of kilns: each hop counts at both its nodes, as often as its period.
pub fn kiln_balances() -> Vec<Balance> {
    let used = [350, 1200, 1200, 700, 500, 300, 800, 650];
    used.map(|used| Balance { data: 6500, used, free: 6500 - used }).into()
}

/// A site of 64 nodes with 64 streams of long ids and every period, each along a row of nodes.
pub fn full_site() -> Book {
    let periods = [1, 2, 5, 10, 20, 50, 100, 100];
    let row_of = |number: u8| (0..8).map(|column| number % 8 * 8 + column).collect::<Vec<u8>>();
    let offsets = |number: u16| (0..7).map(|hop| 3 + number / 8 + 3 * hop).collect::<Vec<u16>>();
    let one = |number: u8| {
        stream(
            60_000 + u16::from(number),
            periods[usize::from(number) % 8],
            &row_of(number),
            &offsets(number.into()),
        )
    };
    let streams = (0..64).map(one).collect();
    Book {
        version: NEWEST,
        slots: 32,
        tiles: 10,
        kinds: 0x21,
        down: 3,
        up: 1,
        accounts: vec![ENDLESS],
        links: square_links(8),
        hearing: square_links(8),
        ways: streams,
    }
}

/// A book without streams and without data slots, whose nodes no link joins.
pub fn bare() -> Book {
    Book {
        version: NEWEST,
        slots: 1,
        tiles: 1,
        kinds: 1,
        down: 1,
        up: 0,
        accounts: vec![ENDLESS],
        links: vec![0; 2],
        hearing: vec![0; 2],
        ways: Vec::new(),
    }
}

/// Balances that no two nodes share.
pub fn balances(book: &Book) -> Vec<Balance> {
    (0..book.links.len() as u32)
        .map(|node| Balance { data: 1000, used: 100 + node, free: 900 - node })
        .collect()
}
