//! Lawful rows that no planner would choose: roundabout routes and offsets
//! that are not the first. Then calls on the books they make.

use super::sequences::stroll;
use crate::dice::Dice;
use crate::driver::{Driver, Room};
use crate::requests::{check, rewrite};
use crate::site::{any_accounts, any_image, any_plan, any_topology, empty_book, payer, tighten};
use reference::book::{Book, MAX_HOPS, MAX_SHORT_HOPS};
use reference::hop::hops_of;
use reference::node_set::NodeSet;
use reference::placing::serving_offsets;
use reference::plan::PERIODS;
use reference::route::{have_common_middle, short_routes};
use reference::row::{FIRST_ROUTE, Row, SECOND_ROUTE};

pub fn ask(driver: &mut Driver, dice: &mut Dice) {
    let book = unusual_book(dice);
    let image = any_image(dice, &book);
    driver.ask(check(&image), Room::Nothing);
    driver.ask(rewrite(&image), Room::any(dice));
    stroll(driver, dice, image);
}

/// A book with a few unusual rows.
pub fn unusual_book(dice: &mut Dice) -> Book {
    let mut book = empty_book(any_plan(dice), any_topology(dice));
    book.accounts = any_accounts(dice);
    for _ in 0..dice.between(1, 12) {
        add_unusual_row(dice, &mut book);
        if dice.chance(30) {
            add_unusual_second(dice, &mut book);
        }
    }
    if dice.chance(20) {
        tighten(dice, &mut book);
    }
    book
}

/// Adds a row, unless the throw leads nowhere.
fn add_unusual_row(dice: &mut Dice, book: &mut Book) {
    let any_id = dice.between(1, 65535) as u16;
    let id = dice.pick(&[any_id, any_id, 1, 2, 255, 256, 65535]);
    let nodes = roundabout_route(dice, book);
    let period = dice.pick(&PERIODS);
    if book.holds(id) || nodes.len() < 2 || book.hops() + nodes.len() > MAX_HOPS {
        return;
    }
    if let Some(offsets) = late_offsets(dice, book, &nodes, period) {
        let account = payer(book, id);
        book.add(Row { id, route: FIRST_ROUTE, period, nodes, offsets, account });
    }
}

/// Adds a second route to a row that has none, unless the throw leads nowhere.
fn add_unusual_second(dice: &mut Dice, book: &mut Book) {
    let single = |row: &&Row| book.rows.iter().filter(|other| other.id == row.id).count() == 1;
    let firsts: Vec<Row> = book.rows.iter().filter(single).cloned().collect();
    if firsts.is_empty() || book.hops() + MAX_SHORT_HOPS > MAX_HOPS {
        return;
    }
    let Row { id, period, nodes: first, account, .. } = firsts[dice.below(firsts.len())].clone();
    let (source, destination) = (first[0], first[first.len() - 1]);
    let all = NodeSet::all(book.topology.nodes());
    let mut others = short_routes(&book.topology, all, source, destination, 200);
    others.retain(|nodes| *nodes != first && !have_common_middle(nodes, &first));
    if others.is_empty() {
        return;
    }
    let nodes = others.swap_remove(dice.below(others.len()));
    if let Some(offsets) = late_offsets(dice, book, &nodes, period) {
        book.add(Row { id, route: SECOND_ROUTE, period, nodes, offsets, account });
    }
}

/// A walk over distinct nodes, up to 15 hops, that goes wherever it can.
fn roundabout_route(dice: &mut Dice, book: &Book) -> Vec<u8> {
    let mut route = vec![dice.below(usize::from(book.topology.nodes())) as u8];
    let wanted = dice.between(2, 16);
    while route.len() < wanted {
        let last = route[route.len() - 1];
        let ways: Vec<u8> =
            book.topology.neighbours(last).filter(|node| !route.contains(node)).collect();
        if ways.is_empty() {
            break;
        }
        route.push(dice.pick(&ways));
    }
    route
}

/// Rising offsets, each thrown from those that serve and still leave room.
fn late_offsets(dice: &mut Dice, book: &Book, route: &[u8], period: u16) -> Option<Vec<u16>> {
    let mut offsets: Vec<u16> = Vec::new();
    for (place, hop) in hops_of(route).enumerate() {
        let after = |&offset: &usize| offsets.last().is_none_or(|&last| offset > usize::from(last));
        let serving: Vec<usize> = serving_offsets(book, hop, period).filter(after).collect();
        let hops_left = route.len() - 1 - place;
        let choices = serving.len().div_ceil(hops_left);
        if choices == 0 {
            return None;
        }
        offsets.push(serving[dice.below(choices)] as u16);
    }
    Some(offsets)
}
