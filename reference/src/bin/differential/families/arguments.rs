//! The arguments of a new book: each in and out of its range, and the
//! topology sound and unsound.

use super::new_request;
use crate::dice::Dice;
use crate::driver::{Driver, Room};
use crate::requests::{new, new_with_hearing};
use crate::site::{any_plan, any_topology, line, plan_a};
use reference::plan::Plan;
use reference::topology::write_rows;

pub fn ask(driver: &mut Driver, dice: &mut Dice) {
    each_byte(driver);
    tile_kinds(driver);
    node_counts(driver);
    topology_bits(driver);
    topology_lengths(driver);
    order(driver);
    for _ in 0..1000 {
        thrown(driver, dice);
    }
}

/// S, C, D, U and N at every value, the others as in plan A.
fn each_byte(driver: &mut Driver) {
    let rows = write_rows(&line(4).links);
    for value in 0..=255 {
        let plans = [
            Plan { s: value, ..plan_a() },
            Plan { c: value, ..plan_a() },
            Plan { d: value, ..plan_a() },
            Plan { u: value, ..plan_a() },
            Plan { s: value, c: 1, d: value, u: value, ..plan_a() },
        ];
        for plan in plans {
            driver.ask(new(&plan, 4, &rows), Room::Exact);
        }
        driver.ask(new(&plan_a(), value, &rows), Room::Exact);
    }
}

/// For every C each single bit of the tile kinds, and all bits below C.
fn tile_kinds(driver: &mut Driver) {
    let rows = write_rows(&line(3).links);
    for c in [1, 2, 4, 5, 10] {
        for bit in 0..16 {
            driver.ask(new(&Plan { c, kinds: 1 << bit, ..plan_a() }, 3, &rows), Room::Exact);
        }
        let all = (1 << c) - 1;
        driver.ask(new(&Plan { c, kinds: all, ..plan_a() }, 3, &rows), Room::Exact);
        driver.ask(new(&Plan { c, kinds: all + 1, ..plan_a() }, 3, &rows), Room::Exact);
    }
}

/// Every N with a topology of its length.
fn node_counts(driver: &mut Driver) {
    for nodes in 0..=128 {
        let rows: Vec<u64> =
            line(nodes.min(64)).links.into_iter().chain([0; 64]).take(nodes).collect();
        let rows = write_rows(&rows);
        for room in [Room::Exact, Room::OneShort, Room::Spare(9)] {
            driver.ask(new(&plan_a(), nodes as u8, &rows), room);
        }
    }
}

/// Every bit of a topology turned over by itself, and with its counterpart.
fn topology_bits(driver: &mut Driver) {
    for nodes in [2, 5, 63, 64] {
        let sound = line(nodes);
        for (a, b) in (0..nodes.min(5)).flat_map(|a| (0..64).map(move |b| (a, b))) {
            let mut turned = sound.links.clone();
            turned[a] ^= 1 << b;
            links_and_hearing(driver, &sound.links, &turned);
            if b < nodes && b != a {
                turned[b] ^= 1 << a;
                links_and_hearing(driver, &sound.links, &turned);
            }
        }
    }
}

/// Changed rows as the links, as the hearing and as both.
fn links_and_hearing(driver: &mut Driver, sound: &[u64], turned: &[u64]) {
    let (nodes, sound, turned) = (sound.len() as u8, write_rows(sound), write_rows(turned));
    for (links, hearing) in [(&turned, &turned), (&sound, &turned), (&turned, &sound)] {
        driver.ask(new_with_hearing(&plan_a(), nodes, links, hearing), Room::Exact);
    }
}

/// Topologies of the wrong length, of links, of hearing and of both.
fn topology_lengths(driver: &mut Driver) {
    let rows = vec![0; 1024];
    for nodes in [2, 3, 31, 32, 33, 63, 64] {
        let right = 8 * nodes;
        for length in [0, 1, 8, right - 8, right - 1, right, right + 1, right + 8, 512, 1024] {
            let (right, wrong) = (&rows[..right], &rows[..length]);
            for (links, hearing) in [(wrong, wrong), (right, wrong), (wrong, right)] {
                driver.ask(new_with_hearing(&plan_a(), nodes as u8, links, hearing), Room::Exact);
            }
        }
    }
}

/// 10, 11 and 12, every subset of them at once.
fn order(driver: &mut Driver) {
    for faults in 0..8 {
        let s = if faults & 1 == 0 { 4 } else { 33 };
        let rows = if faults & 2 == 0 { line(4).links } else { vec![1; 4] };
        let room = if faults & 4 == 0 { Room::Full } else { Room::Nothing };
        driver.ask(new(&Plan { s, ..plan_a() }, 4, &write_rows(&rows)), room);
    }
}

fn thrown(driver: &mut Driver, dice: &mut Dice) {
    let mut plan = any_plan(dice);
    let mut topology = any_topology(dice);
    let nodes = topology.nodes();
    match dice.below(8) {
        0 => plan.kinds ^= 1 << dice.below(16),
        1 => plan.d = plan.s + 1,
        2 => plan.c = dice.byte(),
        3 => topology.links[dice.below(usize::from(nodes))] ^= 1 << dice.below(64),
        4 => topology.hearing[dice.below(usize::from(nodes))] ^= 1 << dice.below(64),
        _ => {}
    }
    driver.ask(new_request(&plan, &topology), Room::any(dice));
}
