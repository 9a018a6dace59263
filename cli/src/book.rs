//! A book's bytes as a person thinks of them. Only bytes that the engine called lawful are read.

use crate::account::{Account, ENDLESS};

/// Tiles of the cycle.
pub const CYCLE: u16 = 1000;
/// The periods that a stream may have, in tiles.
pub const PERIODS: [u16; 10] = [1, 2, 5, 10, 20, 50, 100, 200, 500, 1000];
/// The most routes of a book, second ones counted.
pub const MOST_ROUTES: usize = 64;
/// The most hops of a book.
pub const MOST_HOPS: usize = 512;
/// The most nodes of a site.
pub const MOST_NODES: usize = 64;
/// The most slots of a tile.
const MOST_SLOTS: u8 = 32;
/// Bytes of the head, and the places of those that state the version, how many slots a tile has, and how many nodes there are.
pub const HEAD: usize = 16;
const VERSION_AT: usize = 3;
const SLOTS_AT: usize = 5;
const NODES_AT: usize = 11;

/// How a version writes what follows the head.
pub struct Layout {
    version: u16,
    /// The rows of who hears whom stand behind the links; where they do not, hearing is the links.
    hearing: bool,
    /// Bytes of a row that say which of a stream's routes it is.
    way_bytes: usize,
    /// Bytes of a row that say its period.
    period_bytes: usize,
    /// The longest period.
    longest: u16,
    /// A list of accounts stands behind the head, and the account of a row at its end; where they do not, the one account
    /// is endless.
    accounts: bool,
}

/// Every version that is read, the newest last.
const LAYOUTS: [Layout; 5] = [
    Layout { version: 1, way_bytes: 0, ..EARLY },
    Layout { version: 2, ..EARLY },
    Layout { version: 3, hearing: true, ..EARLY },
    Layout { version: 4, ..SLOW },
    Layout { version: 5, accounts: true, ..SLOW },
];
/// What early versions share, and those that have long periods.
const EARLY: Layout = Layout {
    version: 0,
    hearing: false,
    way_bytes: 1,
    period_bytes: 1,
    longest: 100,
    accounts: false,
};
const SLOW: Layout = Layout { hearing: true, period_bytes: 2, longest: CYCLE, ..EARLY };
/// Bytes of a row that say the id, the hops, a node and an offset; and of a node's row of a topology.
const ID: usize = 2;
const HOP_COUNT: usize = 1;
const NODE: usize = 1;
const OFFSET: usize = 2;
const NODE_ROW: usize = 8;
/// Bytes that say how many accounts there are, and of an account its number and what it has bought.
const ACCOUNT_COUNT: usize = 1;
const ACCOUNT: usize = 2;
const BOUGHT: usize = 4;
/// The numbers of a stream's routes.
const FIRST: u8 = 1;
const SECOND: u8 = 2;

/// The version in which books are written.
pub const NEWEST: u16 = LAYOUTS[LAYOUTS.len() - 1].version;

impl Layout {
    /// The layout of the version that an image states, be it lawful or not; none where that is not known.
    pub fn of(image: &[u8]) -> Option<&'static Layout> {
        let version = Bytes(image.get(VERSION_AT..)?).word()?;
        LAYOUTS.iter().find(|layout| layout.version == version)
    }

    /// The bytes of an image before its rows.
    pub fn before_rows(&self, image: &[u8]) -> usize {
        let topologies = if self.hearing { 2 } else { 1 };
        HEAD + self.account_list(image) + topologies * NODE_ROW * usize::from(stated_nodes(image))
    }

    /// The bytes of the list of accounts, with its count.
    fn account_list(&self, image: &[u8]) -> usize {
        if !self.accounts {
            return 0;
        }
        let stated = image.get(HEAD).copied().unwrap_or(0);
        ACCOUNT_COUNT + (ACCOUNT + BOUGHT) * usize::from(stated)
    }

    /// The bytes of a row before its hop count.
    pub fn before_hops(&self) -> usize {
        ID + self.way_bytes + self.period_bytes
    }

    /// The bytes of a row of so many hops.
    pub fn row(&self, hops: u8) -> usize {
        let behind = if self.accounts { ACCOUNT } else { 0 };
        self.before_hops() + HOP_COUNT + NODE + usize::from(hops) * (NODE + OFFSET) + behind
    }
}

/// A site's plan, its accounts, its links, who hears whom, and its streams.
#[derive(Clone, Debug, PartialEq, Eq)]
pub struct Book {
    pub version: u16,
    /// Slots of a tile.
    pub slots: u8,
    /// Tiles of the plan.
    pub tiles: u8,
    /// Bit b is set if tile b is downlink.
    pub kinds: u16,
    /// Control slots of a downlink tile.
    pub down: u8,
    /// Control slots of an uplink tile.
    pub up: u8,
    /// The accounts by their numbers.
    pub accounts: Vec<Account>,
    /// For each node the set of its neighbours.
    pub links: Vec<u64>,
    /// For each node the set of the nodes that it hears, its neighbours among them.
    pub hearing: Vec<u64>,
    /// The routes of all streams in order of id, a second one right behind its first.
    pub ways: Vec<Way>,
}

/// A route of a stream, and when each of its hops takes place.
#[derive(Clone, Debug, PartialEq, Eq)]
pub struct Way {
    pub id: u16,
    /// Which of its stream's routes this is: 1 or 2.
    pub number: u8,
    /// Tiles from one turn to the next.
    pub period: u16,
    pub nodes: Vec<u8>,
    pub offsets: Vec<u16>,
    /// The number of the account that it draws from.
    pub account: u16,
}

/// A stream of a book: its route, and its second one where it has one.
#[derive(Clone, Copy)]
pub struct Stream<'a> {
    /// The place of its first route among all routes of the book.
    pub place: usize,
    pub ways: &'a [Way],
}

/// What the loss of one relay, a node in the middle of a route, is to a stream.
#[derive(Clone, Copy, Debug, PartialEq, Eq)]
pub enum Loss {
    /// There is no relay on any of its routes.
    NoRelay,
    /// Whichever it is, a route without it is left.
    Survived,
    /// A relay is on every route.
    Ends,
}

/// A node's slots in a cycle.
#[derive(Clone, Copy, Debug, PartialEq, Eq)]
pub struct Balance {
    pub data: u32,
    pub used: u32,
    pub free: u32,
}

/// The bytes that are still to be read.
struct Bytes<'a>(&'a [u8]);

impl Bytes<'_> {
    /// The next `count` bytes as one number.
    fn number(&mut self, count: usize) -> Option<u64> {
        let (front, rest) = self.0.split_at_checked(count)?;
        self.0 = rest;
        Some(front.iter().fold(0, |n, &byte| n << 8 | u64::from(byte)))
    }

    fn byte(&mut self) -> Option<u8> {
        self.number(1).map(|n| n as u8)
    }

    fn word(&mut self) -> Option<u16> {
        self.number(2).map(|n| n as u16)
    }

    /// The list of accounts, behind its count.
    fn accounts(&mut self, layout: &Layout) -> Option<Vec<Account>> {
        if !layout.accounts {
            return Some(vec![ENDLESS]);
        }
        let account = |bytes: &mut Self| {
            let number = bytes.number(ACCOUNT)? as u16;
            Some(Account { number, bought: bytes.number(BOUGHT)? as u32 })
        };
        (0..self.number(ACCOUNT_COUNT)?).map(|_| account(self)).collect()
    }

    /// A row of a site for each node: its neighbours, or the nodes that it hears.
    fn nodes(&mut self, nodes: u8) -> Option<Vec<u64>> {
        (0..nodes).map(|_| self.number(NODE_ROW)).collect()
    }

    /// A row: one route of a stream.
    fn way(&mut self, layout: &Layout) -> Option<Way> {
        let id = self.word()?;
        let number =
            if layout.way_bytes == 0 { FIRST } else { self.number(layout.way_bytes)? as u8 };
        let period = self.number(layout.period_bytes)? as u16;
        let hops = self.byte()?;
        let nodes = (0..=hops).map(|_| self.byte()).collect::<Option<_>>()?;
        let offsets = (0..hops).map(|_| self.word()).collect::<Option<_>>()?;
        let account = if layout.accounts { self.number(ACCOUNT)? as u16 } else { ENDLESS.number };
        Some(Way { id, number, period, nodes, offsets, account })
    }
}

/// How many nodes an image states, be it lawful or not; none where it ends before.
pub fn stated_nodes(image: &[u8]) -> u8 {
    image.get(NODES_AT).copied().unwrap_or(0)
}

/// How many slots of a tile an image states, be it lawful or not: at most as many as a lawful one; none where it ends before.
pub fn stated_slots(image: &[u8]) -> u8 {
    image.get(SLOTS_AT).copied().unwrap_or(0).min(MOST_SLOTS)
}

/// Every pair of nodes that these rows join once, the lower node first.
pub fn pairs(rows: &[u64]) -> Vec<(usize, usize)> {
    let is_joined = |a: usize, b: usize| rows[a] >> b & 1 == 1;
    let upper = |a| (a + 1..rows.len()).filter(move |&b| is_joined(a, b)).map(move |b| (a, b));
    (0..rows.len()).flat_map(upper).collect()
}

impl Book {
    /// Reads a lawful book; none where the bytes are no book of a version that is known here.
    pub fn decode(image: &[u8]) -> Option<Book> {
        let layout = Layout::of(image)?;
        let mut head = Bytes(image.get(VERSION_AT..HEAD)?);
        let version = head.word()?;
        let (slots, tiles, kinds) = (head.byte()?, head.byte()?, head.word()?);
        let (down, up, nodes, ways) = (head.byte()?, head.byte()?, head.byte()?, head.byte()?);
        let mut rest = Bytes(&image[HEAD..]);
        let accounts = rest.accounts(layout)?;
        let links = rest.nodes(nodes)?;
        let hearing = if layout.hearing { rest.nodes(nodes)? } else { links.clone() };
        let ways = (0..ways).map(|_| rest.way(layout)).collect::<Option<_>>()?;
        let book = Book { version, slots, tiles, kinds, down, up, accounts, links, hearing, ways };
        (rest.0.is_empty() && book.is_sound(layout)).then_some(book)
    }

    /// What is relied on here holds, whoever called the bytes lawful; the engine asks for more.
    fn is_sound(&self, layout: &Layout) -> bool {
        let is_sound = |way: &Way| {
            PERIODS.contains(&way.period)
                && way.period <= layout.longest
                && way.hops() > 0
                && way.nodes.iter().all(|&node| node < self.nodes())
                && way.offsets.is_sorted()
        };
        self.slots > 0
            && self.tiles > 0
            && self.down.max(self.up) <= self.slots
            && self.links.len() <= MOST_NODES
            && self.ways.iter().all(is_sound)
            && self.ways.windows(2).all(|two| two[0].id <= two[1].id)
            && self.streams().all(|stream| stream.is_sound())
            && self.has_sound_accounts()
    }

    pub fn nodes(&self) -> u8 {
        self.links.len() as u8
    }

    /// The hops of all routes.
    pub fn hops(&self) -> usize {
        self.ways.iter().map(Way::hops).sum()
    }

    /// The streams in order of id.
    pub fn streams(&self) -> impl Iterator<Item = Stream<'_>> {
        let mut place = 0;
        self.ways.chunk_by(|a, b| a.id == b.id).map(move |ways| {
            place += ways.len();
            Stream { place: place - ways.len(), ways }
        })
    }

    /// A stream has a second route.
    pub fn has_second(&self) -> bool {
        self.ways.iter().any(Way::is_second)
    }

    /// The tile of the cycle is downlink.
    pub fn is_down(&self, tile: u16) -> bool {
        self.kinds >> (tile % u16::from(self.tiles)) & 1 == 1
    }

    /// The word for the tile's kind.
    pub fn kind(&self, tile: u16) -> &'static str {
        if self.is_down(tile) {
            "downlink"
        } else {
            "uplink"
        }
    }

    /// How many slots at the start of the tile are control.
    pub fn control(&self, tile: u16) -> u8 {
        if self.is_down(tile) {
            self.down
        } else {
            self.up
        }
    }

    pub fn is_linked(&self, a: u8, b: u8) -> bool {
        self.links[usize::from(a)] >> b & 1 == 1
    }

    /// The neighbours of a node, from the lowest on.
    pub fn neighbours(&self, node: u8) -> impl Iterator<Item = u8> + '_ {
        (0..self.nodes()).filter(move |&other| self.is_linked(node, other))
    }

    /// Every link once, the lower node first.
    pub fn pairs(&self) -> Vec<(usize, usize)> {
        pairs(&self.links)
    }

    /// For each node the set of the nodes that it hears without a link.
    fn unlinked(&self) -> Vec<u64> {
        self.hearing.iter().zip(&self.links).map(|(heard, linked)| heard & !linked).collect()
    }

    /// Every pair of nodes that hear each other without a link once, the lower node first.
    pub fn heard_pairs(&self) -> Vec<(usize, usize)> {
        pairs(&self.unlinked())
    }

    /// The nodes that a node hears without a link, from the lowest on.
    pub fn heard_by(&self, node: u8) -> impl Iterator<Item = u8> {
        let heard = self.unlinked()[usize::from(node)];
        (0..self.nodes()).filter(move |other| heard >> other & 1 == 1)
    }

    /// The nodes that no link reaches.
    pub fn cut_off(&self) -> impl Iterator<Item = u8> + '_ {
        (0..self.nodes()).filter(|&node| self.links[usize::from(node)] == 0)
    }

    /// The stream of this id.
    pub fn stream(&self, id: u16) -> Option<Stream<'_>> {
        self.streams().find(|stream| stream.first().id == id)
    }

    /// The lowest id that no stream has.
    pub fn free_id(&self) -> u16 {
        (1..).find(|&id| self.stream(id).is_none()).expect("a book has few streams")
    }

    /// After how many tiles the plan and all streams repeat.
    pub fn repeats_after(&self) -> u16 {
        let repeats = |n: u16| {
            n % u16::from(self.tiles) == 0 && self.ways.iter().all(|way| n % way.period == 0)
        };
        (1..CYCLE).find(|&n| repeats(n)).unwrap_or(CYCLE)
    }
}

impl<'a> Stream<'a> {
    pub fn first(&self) -> &'a Way {
        &self.ways[0]
    }

    pub fn second(&self) -> Option<&'a Way> {
        self.ways.get(1)
    }

    /// It has one route, or a second one too, of the same period, ends and account.
    fn is_sound(&self) -> bool {
        let shared = |way: &'a Way| (way.period, way.nodes.first(), way.nodes.last(), way.account);
        match self.ways {
            [first] => first.number == FIRST,
            [first, second] => {
                (first.number, second.number) == (FIRST, SECOND) && shared(first) == shared(second)
            }
            _ => false,
        }
    }

    pub fn passes(&self, node: u8) -> bool {
        self.ways.iter().any(|way| way.nodes.contains(&node))
    }

    pub fn loss(&self) -> Loss {
        let on_all = |node: &u8| self.ways.iter().all(|way| way.relays().contains(node));
        if self.ways.iter().all(|way| way.relays().is_empty()) {
            Loss::NoRelay
        } else if self.first().relays().iter().any(on_all) {
            Loss::Ends
        } else {
            Loss::Survived
        }
    }
}

impl Way {
    pub fn hops(&self) -> usize {
        self.offsets.len()
    }

    pub fn is_second(&self) -> bool {
        self.number == SECOND
    }

    /// The nodes between the source and the destination.
    pub fn relays(&self) -> &[u8] {
        &self.nodes[1..self.hops()]
    }

    /// Slots from the first hop to the last, both counted.
    pub fn latency(&self) -> u16 {
        match (self.offsets.first(), self.offsets.last()) {
            (Some(first), Some(last)) => last - first + 1,
            _ => 0,
        }
    }

    /// How often the stream comes in a cycle.
    pub fn repeats(&self) -> u16 {
        CYCLE / self.period
    }
}

#[cfg(test)]
mod tests {
    use super::*;

    fn way(number: u8, nodes: &[u8]) -> Way {
        let offsets = (1..nodes.len() as u16).collect();
        Way { id: 7, number, period: 5, nodes: nodes.to_vec(), offsets, account: 0 }
    }

    #[test]
    fn a_stream_survives_where_no_relay_is_on_all_its_routes() {
        let loss = |ways: &[Way]| Stream { place: 0, ways }.loss();
        assert_eq!(loss(&[way(1, &[0, 3])]), Loss::NoRelay);
        assert_eq!(loss(&[way(1, &[0, 1, 3])]), Loss::Ends);
        assert_eq!(loss(&[way(1, &[0, 1, 3]), way(2, &[0, 2, 3])]), Loss::Survived);
        assert_eq!(loss(&[way(1, &[0, 3]), way(2, &[0, 2, 3])]), Loss::Survived);
        assert_eq!(loss(&[way(1, &[0, 1, 3]), way(2, &[0, 3])]), Loss::Survived);
        assert_eq!(loss(&[way(1, &[0, 1, 3]), way(2, &[0, 2, 1, 3])]), Loss::Ends);
    }
}
