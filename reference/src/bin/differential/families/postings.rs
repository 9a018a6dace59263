//! Postings: lists of every length, done, refused and mixed, in every order.

use crate::dice::Dice;
use crate::driver::{Driver, Room};
use crate::requests::{any_mains, any_record, any_words, post, post_within};
use crate::site::{
    add_stream, add_with_second, any_accounts, any_image, any_plan, any_topology, empty_book, grid,
    ids, images, line, load, of_links, open_plan, plan_a, ring, tighten,
};
use reference::book::Book;
use reference::change::Open;
use reference::frame::Request;
use reference::index::index_words;
use reference::record::Record;

/// The postings whose number is fixed.
pub fn fixed(driver: &mut Driver, dice: &mut Dice) {
    lengths(driver);
    examples(driver);
    last_slot(driver);
    around_full_books(driver);
    around_full_routes(driver);
    refused_images(driver);
    index_lengths(driver);
    for _ in 0..40 {
        two_orders(driver, dice);
    }
    for length in 0..=65 {
        let book = thrown_book(dice);
        let image = any_image(dice, &book);
        let list = thrown_list(dice, &image, &mut ids(&book), length);
        driver.ask(post(&image, &list), Room::Exact);
    }
}

fn open(id: u16, source: u8, destination: u8, period: u16) -> Record {
    Record::open(Open { id, source, destination, period, second: false, account: 0 })
}

fn open_with_second(id: u16, source: u8, destination: u8, period: u16) -> Record {
    Record { second: true, ..open(id, source, destination, period) }
}

const ROOMS: [Room; 5] =
    [Room::Nothing, Room::OneShort, Room::Exact, Room::Spare(1), Room::Spare(99)];

/// Lists of 0 to 2 records and around 64, all done, all refused, half of each.
fn lengths(driver: &mut Driver) {
    for image in images(&empty_book(open_plan(32), line(4))) {
        for length in [0, 1, 2, 63, 64, 65, 66, 100] {
            let done: Vec<Record> = (1..=length).map(|id| open(id, 0, 1, 100)).collect();
            let refused = vec![open(9, 0, 0, 100); usize::from(length)];
            let mut mixed = done.clone();
            mixed.iter_mut().step_by(2).for_each(|record| record.opens = false);
            for (records, room) in [&done, &refused, &mixed]
                .into_iter()
                .flat_map(|records| ROOMS.map(|room| (records, room)))
            {
                driver.ask(post(&image, records), room);
            }
            driver.ask(post(&[], &done), Room::Exact);
        }
    }
}

/// P2 to P5 as one list, and lists in which a record undoes another.
fn examples(driver: &mut Driver) {
    let p2_to_p5 =
        [open(1, 3, 0, 2), open(2, 0, 3, 2), open(3, 3, 2, 2), Record::close(1), open(3, 3, 2, 2)];
    for image in images(&empty_book(plan_a(), line(4))) {
        driver.ask(post(&image, &p2_to_p5), Room::Exact);
        driver.ask(post(&image, &[open(1, 3, 0, 2), Record::close(1)]), Room::Exact);
        driver.ask(post(&image, &[Record::close(1), open(1, 3, 0, 2)]), Room::Exact);
        driver.ask(post(&image, &[open(1, 3, 0, 2), open(1, 3, 0, 2)]), Room::Exact);
    }
    for image in images(&empty_book(open_plan(4), ring(6))) {
        let both = open_with_second(1, 0, 3, 20);
        driver.ask(post(&image, &[both, Record::close(1), both]), Room::Exact);
        driver.ask(
            post(&image, &[both, open(1, 1, 2, 5), open_with_second(2, 3, 0, 20)]),
            Room::Exact,
        );
    }
}

/// Two opens for the last free slot, with and without a close between them.
fn last_slot(driver: &mut Driver) {
    let mut book = empty_book(open_plan(1), line(2));
    add_stream(&mut book, 9, 1, 0, 2);
    let (one, two) = (open(1, 0, 1, 2), open(2, 0, 1, 2));
    let lists = [
        vec![one, two],
        vec![two, one],
        vec![one, two, Record::close(9), two],
        vec![one, Record::close(1), two, one],
        vec![two, open(3, 0, 1, 1), Record::close(9), Record::close(2), open(3, 0, 1, 1), one],
    ];
    for image in images(&book) {
        for list in &lists {
            driver.ask(post(&image, list), Room::Exact);
        }
    }
}

/// Books with room for one row or two more: a close in the list makes room.
fn around_full_books(driver: &mut Driver) {
    for rows in [62, 63, 64] {
        let mut book = empty_book(open_plan(32), ring(6));
        for id in 1..=rows {
            add_stream(&mut book, id, 0, 1, 100);
        }
        let list = [
            open_with_second(900, 3, 5, 100),
            open(901, 3, 4, 100),
            Record::close(1),
            open_with_second(902, 3, 5, 100),
            Record::close(2),
            Record::close(2),
            open_with_second(903, 3, 5, 100),
            open(904, 3, 4, 100),
        ];
        for image in images(&book) {
            driver.ask(post(&image, &list), Room::Exact);
        }
    }
}

/// 34 routes of 15 hops leave 2 of 512; a close in the list gives 15 back.
fn around_full_routes(driver: &mut Driver) {
    let mut book = empty_book(open_plan(32), line(64));
    for id in 1..=34 {
        add_stream(&mut book, id, 0, 15, 100);
    }
    let list = [
        open(900, 20, 23, 100),
        open(901, 20, 22, 100),
        open(902, 40, 41, 100),
        Record::close(34),
        open(903, 40, 55, 100),
        open(903, 40, 54, 100),
        open(904, 63, 62, 100),
        open(905, 62, 63, 100),
    ];
    for image in images(&book) {
        driver.ask(post(&image, &list), Room::Exact);
    }
}

/// Each refusal of an image, with a list or a buffer that is refused as well.
fn refused_images(driver: &mut Driver) {
    let mut book = empty_book(plan_a(), line(4));
    add_stream(&mut book, 1, 3, 0, 2);
    add_stream(&mut book, 2, 0, 3, 2);
    for image in images(&book) {
        // The mark, S, a self-link, an id twice, and 0→1 where 2→1 is.
        let first_offset = image.len() - 5;
        for (place, value) in [(0, 0), (5, 33), (23, 3), (49, 2), (first_offset, 3)] {
            let mut changed = image.clone();
            changed[place] = value;
            refused_in_turn(driver, &changed);
        }
        refused_in_turn(driver, &image);
        refused_in_turn(driver, &image[..15]);
        refused_in_turn(driver, &image[..47]);
    }
}

/// Lists up to the longest and past it, with buffers that are too short or not.
fn refused_in_turn(driver: &mut Driver, image: &[u8]) {
    for length in [0, 1, 64, 65] {
        for room in [Room::Nothing, Room::OneShort, Room::Exact] {
            driver.ask(post(image, &vec![Record::close(1); length]), room);
        }
    }
}

/// Indexes of no word, just too short, just long enough and longer, beside
/// whatever else is refused.
fn index_lengths(driver: &mut Driver) {
    for s in [1, 4, 32] {
        let mut book = empty_book(open_plan(s), ring(6));
        add_with_second(&mut book, 3, 0, 2, 5);
        add_stream(&mut book, 4, 5, 3, 100);
        let needed = index_words(&book.plan) as u16;
        for image in images(&book) {
            for words in [0, 1, needed / 2, needed - 1, needed, needed + 1, needed + 60] {
                for list in [
                    vec![],
                    vec![Record::close(9)],
                    vec![Record::close(3)],
                    vec![open(1, 0, 1, 1); 65],
                ] {
                    for room in [Room::OneShort, Room::Exact] {
                        driver.ask(Request { beside: words, ..post(&image, &list) }, room);
                    }
                }
            }
        }
    }
}

/// The same opens and closes of two lines far apart, in two orders.
fn two_orders(driver: &mut Driver, dice: &mut Dice) {
    let links = (1..20).filter(|&node| node != 10).map(|node| (node - 1, node));
    let mut book = empty_book(any_plan(dice), of_links(20, links));
    add_stream(&mut book, 500, 0, 4, 20);
    add_stream(&mut book, 501, 19, 13, 20);
    let period = |dice: &mut Dice| dice.pick(&[5, 10, 20, 50]);
    let mut list = vec![
        Record::close(500),
        open(1, 6, 9, period(dice)),
        Record::close(501),
        open(2, 10, 12, period(dice)),
        open(3, 9, 10, period(dice)),
        Record::close(7),
    ];
    let image = any_image(dice, &book);
    for _ in 0..3 {
        dice.shuffle(&mut list);
        driver.ask(post(&image, &list), Room::Exact);
    }
}

/// Thrown lists on a thrown book, each on the book that the last one left.
pub fn thrown(driver: &mut Driver, dice: &mut Dice) {
    let book = thrown_book(dice);
    let mut known = ids(&book);
    let mut image = any_image(dice, &book);
    for _ in 0..dice.between(1, 6) {
        let length = match dice.below(20) {
            0 => dice.between(60, 66),
            1 => dice.between(15, 59),
            _ => dice.between(0, 14),
        };
        let list = thrown_list(dice, &image, &mut known, length);
        let room = if dice.chance(80) { Room::Exact } else { Room::any(dice) };
        let mains = any_mains(dice, book.topology.nodes());
        let request = post_within(&image, mains, &list);
        let beside = any_words(dice, request.beside);
        let answer = driver.ask(Request { beside, ..request }, room);
        if !answer.written().is_empty() {
            image = answer.written().to_vec();
        }
    }
}

/// A thrown list whose later records may name the ids of those before them.
fn thrown_list(dice: &mut Dice, image: &[u8], known: &mut Vec<u16>, length: usize) -> Vec<Record> {
    let mut list = Vec::new();
    for _ in 0..length {
        let record = any_record(dice, image, known);
        known.push(record.id);
        list.push(record);
    }
    list
}

fn thrown_book(dice: &mut Dice) -> Book {
    let topology = if dice.chance(30) { grid(3, 12) } else { any_topology(dice) };
    let mut book = empty_book(any_plan(dice), topology);
    book.accounts = any_accounts(dice);
    let tries = if dice.chance(10) { 90 } else { dice.between(0, 20) };
    load(dice, &mut book, tries);
    let nodes = book.topology.nodes();
    add_with_second(&mut book, 77, 0, nodes - 1, 50);
    if dice.chance(40) {
        tighten(dice, &mut book);
    }
    book
}
