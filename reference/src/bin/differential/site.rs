//! Sites: tile plans, topologies and the books made of them.

use crate::dice::Dice;
use reference::account::{Account, MAX_ACCOUNTS, ONLY_ACCOUNT};
use reference::book::{Book, MAX_HOPS, MAX_ROUTE_HOPS, MAX_ROWS};
use reference::change::{self, Open};
use reference::image;
use reference::node_set::NodeSet;
use reference::placing::first_placing;
use reference::plan::{PERIODS, PLAN_TILES, Plan};
use reference::route::planners_route;
use reference::row::{FIRST_ROUTE, Row};
use reference::topology::Topology;
use reference::version::{HEADER_LENGTH, Version};

/// Plan A of document 01.
pub fn plan_a() -> Plan {
    Plan { s: 4, c: 2, kinds: 1, d: 2, u: 1 }
}

/// Every slot is data.
pub fn open_plan(s: u8) -> Plan {
    Plan { s, c: 1, kinds: 0, d: 0, u: 0 }
}

/// Any plan, mostly with data slots.
pub fn any_plan(dice: &mut Dice) -> Plan {
    let s = dice.pick(&[1, 1, 2, 3, 4, 4, 5, 7, 8, 16, 31, 32]);
    let c = dice.pick(&PLAN_TILES);
    let kinds = (dice.bits() & ((1 << c) - 1)) as u16;
    Plan { s, c, kinds, d: any_control(dice, s), u: any_control(dice, s) }
}

/// D or U: mostly few, sometimes none, sometimes all of the tile.
fn any_control(dice: &mut Dice, s: u8) -> u8 {
    match dice.below(8) {
        0 => s,
        1 => dice.between(0, usize::from(s)) as u8,
        2..=4 => 0,
        _ => s / 4,
    }
}

/// A site that hears exactly its links.
pub fn of_links(nodes: usize, links: impl IntoIterator<Item = (usize, usize)>) -> Topology {
    let mut rows = vec![0; nodes];
    for (a, b) in links {
        rows[a] |= 1 << b;
        rows[b] |= 1 << a;
    }
    Topology { hearing: rows.clone(), links: rows }
}

/// Links 0-1, 1-2 and so on.
pub fn line(nodes: usize) -> Topology {
    of_links(nodes, (1..nodes).map(|node| (node - 1, node)))
}

pub fn ring(nodes: usize) -> Topology {
    of_links(nodes, (1..nodes).map(|node| (node - 1, node)).chain([(nodes - 1, 0)]))
}

fn star(nodes: usize) -> Topology {
    of_links(nodes, (1..nodes).map(|node| (0, node)))
}

/// Nodes 0 and 1, and so many nodes between them, each linked to both.
pub fn fan(middles: usize) -> Topology {
    of_links(middles + 2, (2..middles + 2).flat_map(|middle| [(0, middle), (middle, 1)]))
}

/// Every two nodes are linked.
pub fn complete(nodes: usize) -> Topology {
    of_links(nodes, (0..nodes).flat_map(|a| (0..a).map(move |b| (a, b))))
}

/// Two lines with no link between them.
fn two_lines(nodes: usize) -> Topology {
    let all = (1..nodes).map(|node| (node - 1, node));
    of_links(nodes, all.filter(|&(_, node)| node != nodes / 2))
}

/// Rows of `width` nodes, each linked to the next and to the one below.
pub fn grid(width: usize, nodes: usize) -> Topology {
    let across = (0..nodes).filter(|a| a % width > 0).map(|a| (a - 1, a));
    let down = (width..nodes).map(|a| (a - width, a));
    of_links(nodes, across.chain(down))
}

/// Each two nodes are linked with this chance.
fn scattered(dice: &mut Dice, nodes: usize, percent: usize) -> Topology {
    let pairs = (0..nodes).flat_map(|a| (0..a).map(move |b| (a, b)));
    of_links(nodes, pairs.filter(|_| dice.chance(percent)).collect::<Vec<_>>())
}

/// The same links, and these nodes hear each other too.
pub fn hearing_also(
    topology: Topology,
    pairs: impl IntoIterator<Item = (usize, usize)>,
) -> Topology {
    let mut further = topology;
    for (a, b) in pairs {
        further.hearing[a] |= 1 << b;
        further.hearing[b] |= 1 << a;
    }
    further
}

/// The same links, and each two nodes hear each other with this chance.
pub fn hearing_further(dice: &mut Dice, topology: Topology, percent: usize) -> Topology {
    let nodes = topology.links.len();
    let pairs = (0..nodes).flat_map(|a| (0..a).map(move |b| (a, b)));
    let heard: Vec<_> = pairs.filter(|_| dice.chance(percent)).collect();
    hearing_also(topology, heard)
}

/// The same links between nodes numbered anew.
fn renumbered(dice: &mut Dice, topology: &Topology) -> Topology {
    let nodes = topology.nodes();
    let mut names: Vec<usize> = (0..usize::from(nodes)).collect();
    dice.shuffle(&mut names);
    let pairs = (0..nodes).flat_map(|a| (0..a).map(move |b| (a, b)));
    let links = pairs.filter(|&(a, b)| topology.linked(a, b));
    let renamed = links.map(|(a, b)| (names[usize::from(a)], names[usize::from(b)]));
    of_links(usize::from(nodes), renamed.collect::<Vec<_>>())
}

/// Any topology of two nodes or more; a third of them hear further than their
/// links.
pub fn any_topology(dice: &mut Dice) -> Topology {
    let nodes = match dice.below(12) {
        0 => 2,
        1 => 3,
        2..=6 => dice.between(4, 8),
        7..=9 => dice.between(9, 20),
        10 => dice.between(21, 64),
        _ => 64,
    };
    let topology = match dice.below(9) {
        0 | 1 => line(nodes),
        2 => ring(nodes),
        3 => star(nodes),
        4 => complete(nodes),
        5 => two_lines(nodes),
        6 => grid(dice.between(2, 8), nodes),
        _ => {
            let percent = 100 * dice.between(1, 4) / nodes;
            scattered(dice, nodes, percent)
        }
    };
    let topology = if dice.chance(60) { renumbered(dice, &topology) } else { topology };
    match dice.below(6) {
        0 => hearing_further(dice, topology, 5),
        1 => hearing_further(dice, topology, 40),
        _ => topology,
    }
}

/// Mostly the only account of older books, otherwise up to 32 that can pay.
pub fn any_accounts(dice: &mut Dice) -> Vec<Account> {
    if dice.chance(60) {
        return vec![ONLY_ACCOUNT];
    }
    let count = dice.pick(&[1, 2, 3, 4, MAX_ACCOUNTS]);
    let mut numbers: Vec<u16> = (0..count).map(|_| dice.bits() as u16).collect();
    numbers.sort();
    numbers.dedup();
    numbers.into_iter().map(|number| Account { number, bought: 10_000_000 }).collect()
}

/// Leaves an account no more than a few uses.
pub fn tighten(dice: &mut Dice, book: &mut Book) {
    let account = dice.below(book.accounts.len());
    let drawn = book.drawn(book.accounts[account].number) as u32;
    book.accounts[account].bought = drawn + dice.pick(&[0, 1, 10, 100, 500, 3000]);
}

/// The account that pays for a stream: a different one from id to id.
pub fn payer(book: &Book, id: u16) -> u16 {
    book.accounts[usize::from(id) % book.accounts.len()].number
}

/// The bytes before the rows of this image.
pub fn before_rows(version: Version, image: &[u8]) -> usize {
    let accounts = if version.stores_accounts() { image[HEADER_LENGTH] } else { 0 };
    version.image_length(usize::from(accounts), image[11], 0, 0)
}

pub fn empty_book(plan: Plan, topology: Topology) -> Book {
    Book { plan, topology, accounts: vec![ONLY_ACCOUNT], rows: Vec::new() }
}

/// The versions that can hold the book.
pub fn versions(book: &Book) -> Vec<Version> {
    Version::ALL.into_iter().filter(|version| version.fits(book)).collect()
}

/// The image in every version that can hold the book.
pub fn images(book: &Book) -> Vec<Vec<u8>> {
    versions(book).into_iter().map(|version| image::write(version, book)).collect()
}

/// The image in one of the versions that can hold the book.
pub fn any_image(dice: &mut Dice, book: &Book) -> Vec<u8> {
    image::write(dice.pick(&versions(book)), book)
}

/// The ids of the rows.
pub fn ids(book: &Book) -> Vec<u16> {
    book.rows.iter().map(|row| row.id).collect()
}

/// Opens a stream as the planner does, past the limits of a book if need be;
/// false where it has no route or placing.
pub fn add_stream(book: &mut Book, id: u16, source: u8, destination: u8, period: u16) -> bool {
    let mains = NodeSet::all(book.topology.nodes());
    let Ok(nodes) = planners_route(&book.topology, mains, source, destination) else {
        return false;
    };
    let Some(offsets) = first_placing(book, &nodes, period) else { return false };
    let account = payer(book, id);
    book.add(Row { id, route: FIRST_ROUTE, period, nodes, offsets, account });
    true
}

/// Opens a stream with a second route; false where it is refused.
pub fn add_with_second(book: &mut Book, id: u16, source: u8, destination: u8, period: u16) -> bool {
    let account = payer(book, id);
    let asked = Open { id, source, destination, period, second: true, account };
    let opened = change::open(book, NodeSet::all(book.topology.nodes()), asked);
    let done = opened.is_ok();
    *book = opened.unwrap_or_else(|_| book.clone());
    done
}

/// Opens up to `tries` streams between thrown nodes, some with a second route.
pub fn load(dice: &mut Dice, book: &mut Book, tries: usize) {
    for _ in 0..tries {
        let nodes = usize::from(book.topology.nodes());
        let (source, destination) = (dice.below(nodes) as u8, dice.below(nodes) as u8);
        let id = dice.between(1, 999) as u16;
        let period = dice.pick(&PERIODS);
        let room = book.rows.len() < MAX_ROWS && book.hops() + MAX_ROUTE_HOPS <= MAX_HOPS;
        if dice.chance(25) {
            add_with_second(book, id, source, destination, period);
        } else if source != destination && room && !book.holds(id) {
            add_stream(book, id, source, destination, period);
        }
    }
}
