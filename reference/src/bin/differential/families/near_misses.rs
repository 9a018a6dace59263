//! Books one step from lawful: a lawful book with one thing put wrong, in an
//! image that is otherwise as it should be.

use super::unusual::unusual_book;
use crate::dice::Dice;
use crate::driver::{Driver, Room};
use crate::requests::{self, BOOK_CALLS, check};
use crate::site::{
    any_accounts, any_image, any_plan, any_topology, before_rows, empty_book, ids, load, tighten,
    versions,
};
use reference::book::Book;
use reference::image;
use reference::plan::PERIODS;
use reference::row::Row;
use reference::version::{HOP_BYTES, Version};

pub fn ask(driver: &mut Driver, dice: &mut Dice) {
    let book = busy_book(dice);
    for _ in 0..20 {
        let image = step_away(dice, &book);
        driver.ask(check(&image), Room::Nothing);
        if dice.chance(30) {
            let call = dice.pick(&BOOK_CALLS);
            driver.ask(requests::any(dice, call, &image, &ids(&book)), Room::any(dice));
        }
    }
}

/// A lawful book with two rows at least.
fn busy_book(dice: &mut Dice) -> Book {
    loop {
        let book = if dice.chance(50) {
            unusual_book(dice)
        } else {
            let mut book = empty_book(any_plan(dice), any_topology(dice));
            book.accounts = any_accounts(dice);
            load(dice, &mut book, 12);
            if dice.chance(20) {
                tighten(dice, &mut book);
            }
            book
        };
        if book.rows.len() >= 2 {
            return book;
        }
    }
}

/// The image of the book with one thing changed.
fn step_away(dice: &mut Dice, book: &Book) -> Vec<u8> {
    let mut book = book.clone();
    match dice.below(11) {
        10 => change_account(dice, &mut book),
        0 => change_plan(dice, &mut book),
        1 => change_link(dice, &mut book),
        2 => change_rows(dice, &mut book),
        3..=7 => {
            let place = dice.below(book.rows.len());
            let other = dice.pick(&ids(&book));
            let longest = book.plan.period_slots(book.rows[place].period);
            change_row(dice, &mut book.rows[place], other, longest as u16);
        }
        _ => {
            let version = dice.pick(&versions(&book));
            return recounted(dice, version, image::write(version, &book));
        }
    }
    any_image(dice, &book)
}

/// Another plan in range: rows may now take control slots or be too late.
fn change_plan(dice: &mut Dice, book: &mut Book) {
    let other = any_plan(dice);
    let plan = &mut book.plan;
    match dice.below(4) {
        0 => (plan.s, plan.d, plan.u) = (other.s, plan.d.min(other.s), plan.u.min(other.s)),
        1 => (plan.c, plan.kinds) = (other.c, other.kinds),
        2 => plan.d = dice.between(0, usize::from(plan.s)) as u8,
        _ => plan.u = dice.between(0, usize::from(plan.s)) as u8,
    }
}

/// One link or one hearing made or cut: hops may now clash or have no link, or
/// a link may not be heard.
fn change_link(dice: &mut Dice, book: &mut Book) {
    let topology = &mut book.topology;
    let nodes = topology.links.len();
    let (a, b) = (dice.below(nodes), dice.below(nodes));
    let turn = |rows: &mut Vec<u64>| {
        if a != b {
            rows[a] ^= 1 << b;
            rows[b] ^= 1 << a;
        }
    };
    match dice.below(4) {
        0 => turn(&mut topology.links),
        1 => turn(&mut topology.hearing),
        _ => {
            turn(&mut topology.links);
            topology.hearing.clone_from(&topology.links);
        }
    }
}

/// One account with less or under another number, or one row of another's.
fn change_account(dice: &mut Dice, book: &mut Book) {
    let account = dice.below(book.accounts.len());
    let drawn = book.drawn(book.accounts[account].number) as u32;
    match dice.below(4) {
        0 => book.accounts[account].number ^= 1,
        1 => book.accounts[account].bought = drawn,
        2 => book.accounts[account].bought = drawn.saturating_sub(1),
        _ => {
            let row = dice.below(book.rows.len());
            book.rows[row].account = book.accounts[account].number ^ dice.below(2) as u16;
        }
    }
}

/// Two rows changed about, one twice, one left out, or one again under another
/// id.
fn change_rows(dice: &mut Dice, book: &mut Book) {
    let (a, b) = (dice.below(book.rows.len()), dice.below(book.rows.len()));
    match dice.below(4) {
        0 => book.rows.swap(a, b),
        1 => book.rows.insert(a, book.rows[a].clone()),
        2 => drop(book.rows.remove(a)),
        _ => {
            // The same stream under a second id meets the first everywhere.
            let id = book.rows[a].id;
            if id < 65535 && !book.holds(id + 1) {
                book.add(Row { id: id + 1, ..book.rows[a].clone() });
            }
        }
    }
}

/// One field of one row changed; `longest` is the row's K×S.
fn change_row(dice: &mut Dice, row: &mut Row, other_id: u16, longest: u16) {
    let hop = dice.below(row.offsets.len());
    let node = dice.below(row.nodes.len());
    match dice.below(13) {
        0 => row.id = dice.pick(&[0, 1, 65535, other_id, row.id ^ 1, row.id ^ 256]),
        1 => row.period = dice.pick(&PERIODS),
        2 => row.period = dice.pick(&[0, 3, 4, 25, 99, 101, 199, 244, 255, 256, 456, 999, 1001]),
        3 => row.nodes.reverse(),
        4 => row.nodes[node] = [dice.below(64) as u8, 63, 64, 255][dice.below(4)],
        5 => row.nodes[node] = row.nodes[dice.below(row.nodes.len())],
        6 => row.offsets[hop] = row.offsets[hop].wrapping_add(1),
        7 => row.offsets[hop] = row.offsets[hop].wrapping_sub(1),
        8 => row.offsets[hop] = dice.pick(&[longest - 1, longest, longest + 1, 65535]),
        9 => row.offsets[hop] = row.offsets[dice.below(row.offsets.len())],
        10 => row.offsets[hop] = dice.below(usize::from(longest)) as u16,
        11 => row.route = dice.pick(&[0, 1, 2, 2, 3, 255]),
        _ => shorten(dice, row),
    }
}

/// The first or the last hop cut off, which may leave none.
fn shorten(dice: &mut Dice, row: &mut Row) {
    if dice.chance(50) {
        row.nodes.remove(0);
        row.offsets.remove(0);
    } else {
        row.nodes.pop();
        row.offsets.pop();
    }
}

/// Counts changed so that the length stays right: three rows more or fewer
/// for as many hops fewer or more, or a hop count of one row.
fn recounted(dice: &mut Dice, version: Version, mut image: Vec<u8>) -> Vec<u8> {
    let rows = image[12];
    let hops = u16::from_be_bytes([image[13], image[14]]);
    // A row without its hops has the bytes of a third as many hops.
    let three_rows = version.row_bytes() as u16;
    let (rows, hops) = match dice.below(4) {
        0 if hops >= three_rows => (rows + 3, hops - three_rows),
        1 if rows >= 3 => (rows - 3, hops + three_rows),
        2 => {
            let hop_count = before_rows(version, &image) + version.bytes_before_hop_count();
            image[hop_count] = dice.pick(&[0, 1, 2, 3, 14, 15, 16, 17, 255]);
            (rows, hops)
        }
        _ => {
            // One hop more than there is, and bytes to make up for it.
            image.extend([0; HOP_BYTES]);
            (rows, hops + 1)
        }
    };
    image[12] = rows;
    image[13..15].copy_from_slice(&hops.to_be_bytes());
    image
}
