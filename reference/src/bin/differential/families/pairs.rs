//! Two rows of one hop each: every two hops of a line of six, which may hear
//! further, every two periods, offsets that meet and offsets that just do not.

use crate::dice::Dice;
use crate::driver::{Driver, Room};
use crate::requests::{self, BOOK_CALLS, check, open};
use crate::site::{any_image, empty_book, hearing_further, line, open_plan};
use reference::book::Book;
use reference::plan::{PERIODS, Plan};
use reference::row::{FIRST_ROUTE, Row};

const NODES: u8 = 6;

pub fn ask(driver: &mut Driver, dice: &mut Dice) {
    for one in hops() {
        for two in hops() {
            for (k, l) in PERIODS.iter().flat_map(|&k| PERIODS.iter().map(move |&l| (k, l))) {
                ask_pair(driver, dice, (one, k), (two, l));
            }
        }
    }
}

/// The ten hops of the line, as routes.
fn hops() -> Vec<[u8; 2]> {
    (1..NODES).flat_map(|node| [[node - 1, node], [node, node - 1]]).collect()
}

fn ask_pair(driver: &mut Driver, dice: &mut Dice, one: ([u8; 2], u16), two: ([u8; 2], u16)) {
    let plan = open_plan(dice.pick(&[1, 2, 3, 32]));
    let mut topology = line(usize::from(NODES));
    if dice.chance(30) {
        topology = hearing_further(dice, topology, 20);
    }
    let mut book = empty_book(plan, topology);
    if dice.chance(30) {
        // Offset 0 would be the first for the second hop, if the two do not meet.
        let offset = other_offset(dice, &book.plan, (0, two.1), one.1);
        add_row(&mut book, 1, one, offset);
        let ([source, destination], period) = two;
        let image = any_image(dice, &book);
        let request = open(&image, 2, source, destination, period);
        driver.ask(request, Room::Exact);
    } else {
        let offset = dice.below(book.plan.period_slots(one.1));
        let other = other_offset(dice, &book.plan, (offset, one.1), two.1);
        add_row(&mut book, 1, one, offset);
        add_row(&mut book, 2, two, other);
        let image = any_image(dice, &book);
        driver.ask(check(&image), Room::Nothing);
        if dice.chance(15) {
            let call = dice.pick(&BOOK_CALLS);
            driver.ask(requests::any(dice, call, &image, &[1, 2]), Room::any(dice));
        }
    }
}

fn add_row(book: &mut Book, id: u16, (nodes, period): ([u8; 2], u16), offset: usize) {
    let (nodes, offsets) = (nodes.to_vec(), vec![offset as u16]);
    book.rows.push(Row { id, route: FIRST_ROUTE, period, nodes, offsets, account: 0 });
}

/// For a given offset and period, an offset of another period: mostly one that
/// meets it, or one a slot or a tile beside that, or any.
fn other_offset(dice: &mut Dice, plan: &Plan, given: (usize, u16), period: u16) -> usize {
    let taken: Vec<usize> = plan.slots_of(given.0, given.1).iter().collect();
    let length = plan.period_slots(period);
    match dice.below(6) {
        0 => dice.below(length),
        1 => (dice.pick(&taken) + 1) % length,
        2 => (dice.pick(&taken) + plan.tile_slots()) % length,
        _ => dice.pick(&taken) % length,
    }
}
