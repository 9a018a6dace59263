//! The planner's short ways against the definitions, tried out in full on
//! small books, and the theorems of document 01 on the same books.

mod common;

use common::*;
use reference::account::ONLY_ACCOUNT;
use reference::book::{Book, MAX_ROUTE_HOPS, MAX_SHORT_HOPS};
use reference::calls;
use reference::change::Open;
use reference::hop::{Hop, clash, hops_of};
use reference::image;
use reference::node_set::NodeSet;
use reference::placing::{first_placing, serving_offsets};
use reference::plan::{PERIODS, PLAN_TILES, Plan};
use reference::refusal::Refusal;
use reference::route::{have_common_middle, keeps_to, planners_route, second_route, short_routes};
use reference::table::{Operation, balance, table};
use reference::topology::Topology;
use reference::version::Version;

/// A small number generator.
struct Dice(u64);

impl Dice {
    fn below(&mut self, limit: u64) -> u64 {
        self.0 = self.0.wrapping_mul(6364136223846793005).wrapping_add(1442695040888963407);
        (self.0 >> 33) % limit
    }
}

/// A topology that hears exactly its links.
fn hearing_links(nodes: usize, links: &[(usize, usize)]) -> Topology {
    let rows = topology(nodes, links);
    Topology::read(nodes as u8, &rows, &rows).unwrap()
}

/// A book of six nodes, which may hear further, and some streams, opened one
/// after another.
fn small_book(dice: &mut Dice) -> Book {
    let s = 1 + dice.below(4) as u8;
    let c = PLAN_TILES[dice.below(5) as usize];
    let plan = Plan {
        s,
        c,
        kinds: dice.below(1 << c) as u16,
        d: dice.below(u64::from(s)) as u8,
        u: dice.below(u64::from(s)) as u8,
    };
    let mut links = Vec::new();
    for a in 0..6 {
        for b in 0..a {
            if dice.below(5) < 2 {
                links.push((a, b));
            }
        }
    }
    let mut heard = links.clone();
    if dice.below(2) == 0 {
        heard.push((dice.below(5) as usize, 5));
    }
    let topology = Topology::read(6, &topology(6, &links), &topology(6, &heard)).unwrap();
    let mut book = Book { plan, topology, accounts: vec![ONLY_ACCOUNT], rows: Vec::new() };
    for id in 1..=dice.below(5) as u16 {
        try_to_open(dice, &mut book, id);
    }
    book
}

fn try_to_open(dice: &mut Dice, book: &mut Book, id: u16) {
    let (source, destination) = (dice.below(6) as u8, dice.below(6) as u8);
    let period = PERIODS[dice.below(4) as usize];
    let mut out = vec![0; ROOM];
    let before = image::write(Version::NEWEST, book);
    let second = dice.below(3) == 0;
    let asked = Open { id, source, destination, period, second, account: 0 };
    let (number, length) = calls::open(&before, asked, &mut out);
    if number == 0 {
        *book = read(&out[..length]);
    }
}

/// Every route from the last node of `route` on to `destination`.
fn all_routes(topology: &Topology, route: &mut Vec<u8>, destination: u8, found: &mut Vec<Vec<u8>>) {
    let node = *route.last().unwrap();
    if node == destination {
        found.push(route.clone());
        return;
    }
    for next in 0..topology.nodes() {
        if topology.linked(node, next) && !route.contains(&next) {
            route.push(next);
            all_routes(topology, route, destination, found);
            route.pop();
        }
    }
}

#[test]
fn the_route_is_the_first_of_the_shortest() {
    let mut dice = Dice(1);
    for _ in 0..100 {
        let book = small_book(&mut dice);
        let mut found = Vec::new();
        all_routes(&book.topology, &mut vec![0], 5, &mut found);
        let first = found.into_iter().min_by_key(|route| (route.len(), route.clone()));
        assert_eq!(planners_route(&book.topology, all(6), 0, 5), first.ok_or(Refusal::NoRoute));
    }
}

#[test]
fn a_route_is_too_far_exactly_if_all_have_over_15_hops() {
    let mut dice = Dice(6);
    let mut too_far = 0;
    for _ in 0..60 {
        // A line of 19 nodes with a link across it; sometimes it is cut.
        let mut links: Vec<(usize, usize)> = (1..19).map(|node| (node - 1, node)).collect();
        if dice.below(3) == 0 {
            links.remove(dice.below(18) as usize);
        }
        let start = dice.below(13) as usize;
        links.push((start, start + 2 + dice.below(4) as usize));
        let topology = hearing_links(19, &links);
        let mut found = Vec::new();
        all_routes(&topology, &mut vec![0], 18, &mut found);
        let short = found.iter().any(|route| route.len() - 1 <= MAX_ROUTE_HOPS);
        let answer = planners_route(&topology, all(19), 0, 18);
        assert_eq!(answer == Err(Refusal::NoRoute), found.is_empty());
        assert_eq!(answer == Err(Refusal::TooFar), !found.is_empty() && !short);
        too_far += usize::from(answer == Err(Refusal::TooFar));
    }
    assert!((10..50).contains(&too_far));
}

/// The routes of at most 6 hops from node 0 to node 5 with only nodes of the
/// set in the middle, in order of node lists.
fn short_by_search(topology: &Topology, mains: NodeSet) -> Vec<Vec<u8>> {
    let mut found = Vec::new();
    all_routes(topology, &mut vec![0], 5, &mut found);
    found.retain(|route| route.len() - 1 <= MAX_SHORT_HOPS && keeps_to(route, mains));
    found.sort();
    found
}

/// Ten nodes, linked at random.
fn ten_nodes(dice: &mut Dice) -> Topology {
    let pairs = (0..10).flat_map(|a| (0..a).map(move |b| (a, b)));
    let links: Vec<_> = pairs.filter(|_| dice.below(3) == 0).collect();
    hearing_links(10, &links)
}

/// Some of ten nodes, or all.
fn any_set(dice: &mut Dice) -> NodeSet {
    if dice.below(2) == 0 { all(10) } else { NodeSet(dice.below(1 << 10)) }
}

#[test]
fn a_route_under_a_set_is_the_first_of_the_shortest_that_keep_to_it() {
    let mut dice = Dice(9);
    for _ in 0..60 {
        let (topology, mains) = (ten_nodes(&mut dice), any_set(&mut dice));
        let mut found = Vec::new();
        all_routes(&topology, &mut vec![0], 5, &mut found);
        found.retain(|route| keeps_to(route, mains));
        let first = found.into_iter().min_by_key(|route| (route.len(), route.clone()));
        assert_eq!(planners_route(&topology, mains, 0, 5), first.ok_or(Refusal::NoRoute));
    }
}

#[test]
fn the_list_has_the_first_of_all_short_routes() {
    let mut dice = Dice(7);
    for _ in 0..60 {
        let (topology, mains) = (ten_nodes(&mut dice), any_set(&mut dice));
        let mut found = short_by_search(&topology, mains);
        found.truncate(33);
        assert_eq!(short_routes(&topology, mains, 0, 5, 33), found);
    }
}

#[test]
fn the_second_route_is_the_first_of_the_shortest_beside_the_first() {
    let mut dice = Dice(8);
    let (mut found, mut missed) = (0, 0);
    while found < 60 || missed < 20 {
        let (topology, mains) = (ten_nodes(&mut dice), any_set(&mut dice));
        let Ok(first) = planners_route(&topology, mains, 0, 5) else { continue };
        let mut others = short_by_search(&topology, mains);
        others.retain(|route| *route != first && !have_common_middle(route, &first));
        let second = others.into_iter().min_by_key(|route| (route.len(), route.clone()));
        if second.is_some() {
            found += 1
        } else {
            missed += 1
        }
        assert_eq!(second_route(&topology, mains, &first), second);
    }
}

/// The first rising list with one number from each set, by trying all in
/// lexicographic order.
fn first_by_search(sets: &[Vec<usize>], chosen: &mut Vec<u16>) -> bool {
    let Some(set) = sets.get(chosen.len()) else { return true };
    for &offset in set {
        if chosen.last().is_none_or(|&last| usize::from(last) < offset) {
            chosen.push(offset as u16);
            if first_by_search(sets, chosen) {
                return true;
            }
            chosen.pop();
        }
    }
    false
}

#[test]
fn the_placing_is_the_first_of_all() {
    let mut dice = Dice(2);
    let (mut placed, mut unplaced) = (0, 0);
    while placed < 150 || unplaced < 30 {
        let book = small_book(&mut dice);
        let Ok(route) = planners_route(&book.topology, all(6), 0, 5) else { continue };
        let period = PERIODS[dice.below(4) as usize];
        let serving =
            hops_of(&route).map(|hop| serving_offsets(&book, hop, period).collect()).collect();
        let sets: Vec<Vec<usize>> = serving;
        let mut chosen = Vec::new();
        let found = first_by_search(&sets, &mut chosen).then_some(chosen);
        if found.is_some() {
            placed += 1
        } else {
            unplaced += 1
        }
        assert_eq!(first_placing(&book, &route, period), found);
    }
}

#[test]
fn an_offset_serves_exactly_if_the_row_would_be_lawful() {
    let mut dice = Dice(3);
    for _ in 0..20 {
        let book = small_book(&mut dice);
        for hop in (0..6).flat_map(|a| (0..6).map(move |b| Hop { sender: a, receiver: b })) {
            if !book.topology.linked(hop.sender, hop.receiver) {
                continue;
            }
            let serving: Vec<usize> = serving_offsets(&book, hop, 5).collect();
            for offset in 0..book.plan.period_slots(5) {
                let mut with_row = book.clone();
                with_row.add(row(999, 5, &[hop.sender, hop.receiver], &[offset as u16]));
                let lawful = image::read(&image::write(Version::NEWEST, &with_row)).is_ok();
                assert_eq!(serving.contains(&offset), lawful);
            }
        }
    }
}

#[test]
fn used_and_free_make_up_data() {
    let mut dice = Dice(4);
    for _ in 0..50 {
        let book = small_book(&mut dice);
        for node in 0..6 {
            let busy = |operation| !matches!(operation, Operation::Sleep | Operation::ControlSlot);
            let entries = table(&book, node);
            let working = entries.iter().filter(|entry| busy(entry.operation)).count();
            let balance = balance(&book, node);
            assert_eq!(balance.used as usize, working);
            assert_eq!(balance.used + balance.free, balance.data);
        }
    }
}

#[test]
fn a_nodes_links_are_the_ones_of_its_row() {
    let mut dice = Dice(11);
    for _ in 0..50 {
        let book = small_book(&mut dice);
        let bytes = image::write(Version::NEWEST, &book);
        for node in 0..6 {
            // The links follow the header and one account with its count.
            let row = &bytes[16 + 7 + 8 * node..][..8];
            let ones: u32 = row.iter().map(|byte| byte.count_ones()).sum();
            assert_eq!(calls::links(&bytes, node as u8), (0, ones as u8));
        }
    }
}

#[test]
fn no_node_has_over_63_links() {
    let all: Vec<_> = (0..64).flat_map(|a| (0..a).map(move |b| (a, b))).collect();
    for (links, expected) in [(&all[..], [63, 63, 63]), (&[], [0, 0, 0]), (&[(0, 63)], [1, 0, 1])] {
        let book = new_book(PLAN_A, &topology(64, links));
        assert_eq!([0, 31, 63].map(|node| calls::links(&book, node)), expected.map(|n| (0, n)));
    }
}

#[test]
fn two_hops_meet_exactly_if_offsets_agree_modulo_the_common_divisor() {
    // The rule stands in document 01 as a theorem; here it is only tried out.
    let plan = Plan { s: 1, c: 1, kinds: 0, d: 0, u: 0 };
    for (k, l) in PERIODS.iter().flat_map(|&k| PERIODS.iter().map(move |&l| (k, l))) {
        let divisor = (1..=k.min(l)).rfind(|g| k % g == 0 && l % g == 0).unwrap();
        // Of the longer periods some offsets are enough.
        let some = |k: u16| (0..k).filter(move |&o| k <= 100 || o % 37 == 0 || o % 50 == 0);
        for (o, p) in some(k).flat_map(|o| some(l).map(move |p| (o, p))) {
            let one = plan.slots_of(usize::from(o), k);
            let two = plan.slots_of(usize::from(p), l);
            assert_eq!(one.has_common_slot(two), o % divisor == p % divisor);
            assert_eq!(one.has_common_slot(two), one.iter().any(|slot| two.contains(slot)));
        }
    }
}

/// The number, and the book that comes next.
fn asked(book: &[u8], open: Open) -> (u8, Vec<u8>) {
    let mut out = vec![0; ROOM];
    let (number, length) = calls::open(book, open, &mut out);
    let next = if number == 0 { out[..length].to_vec() } else { book.to_vec() };
    (number, next)
}

#[test]
fn opens_that_are_apart_give_the_same_in_either_order() {
    let mut dice = Dice(5);
    let mut tried = 0;
    while tried < 60 {
        let book = small_book(&mut dice);
        let mut any = |id| {
            let period = PERIODS[dice.below(4) as usize];
            let (source, destination) = (dice.below(6) as u8, dice.below(6) as u8);
            Open { id, source, destination, period, second: dice.below(2) == 0, account: 0 }
        };
        let (one, two) = (any(100), any(200));
        if !are_apart(&book.topology, one, two) {
            continue;
        }
        tried += 1;
        let start = image::write(Version::NEWEST, &book);
        let (first, between) = asked(&start, one);
        let (second, end) = asked(&between, two);
        let (second_alone, other) = asked(&start, two);
        let (first_after, other_end) = asked(&other, one);
        assert_eq!((first, second), (first_after, second_alone));
        assert_eq!(end, other_end);
    }
}

/// No hop of one clashes with a hop of the other.
fn are_apart(topology: &Topology, one: Open, two: Open) -> bool {
    let (ours, theirs) = (hops_asked(topology, one), hops_asked(topology, two));
    ours.iter().all(|&a| theirs.iter().all(|&b| !clash(topology, a, b)))
}

/// The hops of all routes that an open asks for; none if it is refused one.
fn hops_asked(topology: &Topology, open: Open) -> Vec<Hop> {
    if open.source == open.destination {
        return Vec::new();
    }
    let Ok(first) = planners_route(topology, all(6), open.source, open.destination) else {
        return Vec::new();
    };
    let second = if open.second { second_route(topology, all(6), &first) } else { None };
    hops_of(&first).chain(hops_of(&second.unwrap_or_default())).collect()
}
