//! The first entry that can belong to no book beside the others, as far as entries show it.

use super::{Fault, Tables, TILES};
use crate::book::PERIODS;
use crate::table::{Entry, Work};
use crate::text::count;
use std::collections::{BTreeMap, BTreeSet};

/// The most hops of a route.
const LONGEST_ROUTE: usize = 15;

/// A route of a stream: its id, and whether it is the second.
type Key = (u16, bool);

/// The nodes that send and that receive on a route in one slot.
#[derive(Default)]
struct Turn {
    senders: Vec<u8>,
    receivers: Vec<u8>,
}

/// What all nodes do in each slot, by route.
type Turns = Vec<BTreeMap<Key, Turn>>;

/// The first entry at fault: of those without their other end, else over no link or overheard, else that do not repeat, else
/// that make no route.
pub fn first(tables: &Tables) -> Option<Fault> {
    let turns = turns(tables);
    let periods = periods(tables);
    let entries = || tables.entries.iter().enumerate().filter(|(_, entry)| entry.id != 0);
    let in_slot = |(at, &entry)| unpaired(tables, &turns, at, entry);
    let on_air = |(at, &entry)| spoilt(tables, &turns, at, entry);
    let in_time = |(at, &entry)| unrepeated(tables, &periods, at, entry);
    let found = entries().find_map(in_slot).or_else(|| entries().find_map(on_air));
    found.or_else(|| entries().find_map(in_time)).or_else(|| unrouted(tables, &turns, &periods))
}

fn key(entry: Entry) -> Key {
    (entry.id, entry.is_second())
}

/// A route as it is called.
fn called((id, second): Key) -> String {
    format!("{}stream {id}", if second { "the second route of " } else { "" })
}

fn turns(tables: &Tables) -> Turns {
    let mut turns: Turns = (0..tables.slots()).map(|_| BTreeMap::new()).collect();
    for (at, &entry) in tables.entries.iter().enumerate().filter(|(_, entry)| entry.id != 0) {
        let (node, slot) = tables.node_and_slot(at);
        let turn: &mut Turn = turns[slot].entry(key(entry)).or_default();
        match entry.work() {
            Work::Sends => turn.senders.push(node),
            _ => turn.receivers.push(node),
        }
    }
    turns
}

/// The period of each route: the one whose repeats come nearest to how often it is sent from above.
fn periods(tables: &Tables) -> BTreeMap<Key, u16> {
    let mut sent: BTreeMap<Key, u16> = BTreeMap::new();
    for &entry in tables.entries.iter().filter(|entry| entry.id != 0) {
        *sent.entry(key(entry)).or_default() += u16::from(entry.starts());
    }
    let nearest = |sent: u16| {
        let quick = PERIODS.into_iter().filter(|&period| period <= TILES);
        quick.min_by_key(|&period| sent.abs_diff(TILES / period)).unwrap_or(TILES)
    };
    sent.into_iter().map(|(key, sent)| (key, nearest(sent))).collect()
}

/// An entry whose route has not one sender and one receiver in its slot.
fn unpaired(tables: &Tables, turns: &Turns, at: usize, entry: Entry) -> Option<Fault> {
    let turn = &turns[tables.node_and_slot(at).1][&key(entry)];
    let (sent, received) = (turn.senders.len(), turn.receivers.len());
    let (by, to) = (count(sent, "node"), count(received, "node"));
    let words = format!("{} is sent by {by} and received by {to} in this slot", called(key(entry)));
    ([sent, received] != [1, 1]).then(|| tables.fault(at, words))
}

/// The rows of a site join two nodes.
fn is_joined(rows: &[u8], a: u8, b: u8) -> bool {
    let row = rows.chunks_exact(8).nth(a.into()).and_then(|row| row.try_into().ok());
    row.is_some_and(|row| u64::from_be_bytes(row) >> (b % 64) & 1 == 1)
}

/// An entry whose other end has no link to it, or that hears the sender of another route in its slot.
fn spoilt(tables: &Tables, turns: &Turns, at: usize, entry: Entry) -> Option<Fault> {
    let (node, slot) = tables.node_and_slot(at);
    let turn = turns[slot].get(&key(entry))?;
    let (&sender, &receiver) = (turn.senders.first()?, turn.receivers.first()?);
    if !is_joined(&tables.site.links, sender, receiver) {
        let words = format!("node {sender} has no link to node {receiver}");
        return Some(tables.fault(at, words));
    }
    let others = turns[slot].iter().filter(|(&other, _)| other != key(entry));
    let mut senders =
        others.flat_map(|(&other, turn)| turn.senders.iter().map(move |&s| (s, other)));
    let heard = |&(other, _): &(u8, Key)| is_joined(&tables.site.hearing, node, other);
    let (other, of) = senders.find(heard).filter(|_| entry.work() == Work::Receives)?;
    let words = format!("node {node} receives, and hears node {other} send {}", called(of));
    Some(tables.fault(at, words))
}

/// An entry that the node does not do again after the period of its route, or the place where it does not.
fn unrepeated(
    tables: &Tables,
    periods: &BTreeMap<Key, u16>,
    at: usize,
    entry: Entry,
) -> Option<Fault> {
    let period = *periods.get(&key(entry))?;
    let (node, slot) = tables.node_and_slot(at);
    let (step, all) = (usize::from(period) * usize::from(tables.site.slots), tables.slots());
    let [after, before] = [slot + step, slot + all - step].map(|slot| tables.at(node, slot % all));
    let does = entry.words();
    let period = count(period, "tile");
    match [after, before].map(|at| tables.entries[at] == entry) {
        [true, _] => None,
        [false, true] => {
            Some(tables.fault(after, format!("missing, as {period} before the node {does}")))
        }
        [false, false] => {
            Some(tables.fault(at, format!("the node {does}, and not {period} before or after")))
        }
    }
}

/// The first entry by which a route is none: its hops in the first period, in turn.
fn unrouted(tables: &Tables, turns: &Turns, periods: &BTreeMap<Key, u16>) -> Option<Fault> {
    let mut hops: BTreeMap<Key, Vec<(usize, u8, u8)>> = BTreeMap::new();
    for (slot, in_slot) in turns.iter().enumerate() {
        for (&key, turn) in in_slot {
            let first = usize::from(periods[&key]) * usize::from(tables.site.slots);
            let ends = turn.senders.first().zip(turn.receivers.first());
            if let Some((&sender, &receiver)) = ends.filter(|_| slot < first) {
                hops.entry(key).or_default().push((slot, sender, receiver));
            }
        }
    }
    hops.iter().find_map(|(&key, own)| {
        let lonely = key.1 && !hops.contains_key(&(key.0, false));
        let (slot, sender, _) = own[0];
        let alone = || format!("stream {} has a second route, and no first", key.0);
        let none = || tables.fault(tables.at(sender, slot), alone());
        lonely.then(none).or_else(|| broken(tables, key, own))
    })
}

/// The first hop that does not go on from the one before it, comes back, has another operation than its place asks for, or is
/// one too many.
fn broken(tables: &Tables, key: Key, hops: &[(usize, u8, u8)]) -> Option<Fault> {
    let mut passed = BTreeSet::from([hops[0].1]);
    let mut here = hops[0].1;
    for (place, &(slot, sender, receiver)) in hops.iter().enumerate() {
        let at = |node: u8| tables.at(node, slot);
        let says = |node: u8, words: String| Some(tables.fault(at(node), words));
        if sender != here {
            return says(sender, format!("{} is at node {here} by now", called(key)));
        }
        let ends = [(sender, true, place == 0), (receiver, false, place + 1 == hops.len())];
        for (node, sends, at_end) in ends {
            let right = Entry::of_hop(key.0, key.1, sends, at_end);
            if tables.entries[at(node)] != right {
                let hop = format!("on hop {} of {} a node", place + 1, hops.len());
                return says(node, format!("{hop} {}", right.words()));
            }
        }
        if !passed.insert(receiver) {
            return says(receiver, format!("{} was at node {receiver} before", called(key)));
        }
        if LONGEST_ROUTE <= place {
            return says(sender, format!("a route has at most {LONGEST_ROUTE} hops"));
        }
        here = receiver;
    }
    None
}
