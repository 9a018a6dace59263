//! Sequences of calls on one site: what an open or a close wrote is the book
//! of the next call, and a refusal leaves the book that went in.

use super::new_request;
use crate::dice::Dice;
use crate::driver::{Driver, Room};
use crate::requests;
use crate::site::{any_accounts, any_image, any_plan, any_topology, empty_book, ids, tighten};
use reference::account::write_accounts;
use reference::book::Book;
use reference::frame::{Call, Request};
use reference::image;
use reference::plan::Plan;
use reference::topology::Topology;

/// What a sequence is like.
struct Habit {
    /// Calls of the sequence.
    steps: usize,
    /// Opens of a hundred calls.
    opens: usize,
    /// The periods are long, so that a book fills up with streams and hops.
    slow: bool,
}

/// A short sequence on any site.
pub fn quiet(driver: &mut Driver, dice: &mut Dice) {
    let (plan, topology) = (any_plan(dice), any_topology(dice));
    let book = first_image(driver, dice, &plan, &topology);
    let habit = Habit { steps: dice.between(10, 40), opens: 50, slow: false };
    walk(driver, dice, book, habit);
}

/// A long sequence, nearly all opens, on a small site with data slots.
pub fn crowded(driver: &mut Driver, dice: &mut Dice) {
    let (mut plan, mut topology) = (any_plan(dice), any_topology(dice));
    while topology.nodes() > 20 {
        topology = any_topology(dice);
    }
    plan.d = plan.d.min(plan.s / 2);
    plan.u = plan.u.min(plan.s / 2);
    let book = first_image(driver, dice, &plan, &topology);
    let slow = dice.chance(40);
    let steps = if slow { dice.between(100, 200) } else { dice.between(40, 120) };
    walk(driver, dice, book, Habit { steps, opens: 85, slow });
}

/// A new book, or an empty one of any version.
fn first_image(driver: &mut Driver, dice: &mut Dice, plan: &Plan, topology: &Topology) -> Vec<u8> {
    let accounts = any_accounts(dice);
    let further = write_accounts(&accounts);
    let request = Request { further, ..new_request(plan, topology) };
    let new = driver.ask(request, Room::Exact).written().to_vec();
    let mut book = Book { accounts, ..empty_book(plan.clone(), topology.clone()) };
    if dice.chance(10) {
        tighten(dice, &mut book);
    }
    if dice.chance(50) { new } else { any_image(dice, &book) }
}

/// A few calls of all kinds on this book.
pub fn stroll(driver: &mut Driver, dice: &mut Dice, book: Vec<u8>) {
    let habit = Habit { steps: dice.between(4, 12), opens: 40, slow: false };
    walk(driver, dice, book, habit);
}

fn walk(driver: &mut Driver, dice: &mut Dice, book: Vec<u8>, habit: Habit) {
    let mut book = book;
    for _ in 0..habit.steps {
        let open = dice.chance(habit.opens);
        let call = if open { Call::Open } else { dice.pick(&requests::BOOK_CALLS) };
        let mut request = requests::any(dice, call, &book, &ids_in(&book));
        if habit.slow && request.period != 0 {
            request.period = dice.pick(&[20, 50, 100]);
        }
        let answer = driver.ask(request, Room::any(dice));
        let changes = matches!(call, Call::Open | Call::Close | Call::Post | Call::Purchase);
        if changes && !answer.written().is_empty() {
            book = answer.written().to_vec();
        }
    }
}

/// The ids of the book's streams.
fn ids_in(book: &[u8]) -> Vec<u16> {
    image::read(book).map(|(_, book)| ids(&book)).unwrap_or_default()
}
