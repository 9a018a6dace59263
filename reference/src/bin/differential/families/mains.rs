//! Mains sets: routes, second routes and lists that keep to one, books that do
//! and do not, and sets with a bit from N up.

use crate::dice::Dice;
use crate::driver::{Driver, Room};
use crate::requests::{any_mains, keeps_to, post_within, routes_within};
use crate::site::{
    add_stream, add_with_second, any_image, complete, empty_book, fan, grid, images, line,
    of_links, open_plan, ring,
};
use reference::book::Book;
use reference::change::Open;
use reference::node_set::NodeSet;
use reference::record::Record;
use reference::topology::Topology;

pub fn ask(driver: &mut Driver, dice: &mut Dice) {
    for topology in sites() {
        every_pair(driver, dice, topology);
    }
    too_far(driver);
    every_set(driver);
    for nodes in [2, 5, 63, 64] {
        bits_from_n_up(driver, nodes);
    }
}

fn sites() -> Vec<Topology> {
    let square = of_links(4, [(0, 1), (0, 2), (1, 3), (2, 3)]);
    vec![line(4), square, ring(6), ring(9), fan(4), complete(6), grid(3, 9), grid(4, 12)]
}

/// An open, one with a second route, and the list, between every two nodes,
/// each under a thrown set.
fn every_pair(driver: &mut Driver, dice: &mut Dice, topology: Topology) {
    let nodes = topology.nodes();
    let empty = empty_book(open_plan(2), topology);
    for (source, destination) in (0..nodes).flat_map(|a| (0..nodes).map(move |b| (a, b))) {
        let (image, mains) = (any_image(dice, &empty), any_mains(dice, nodes));
        let one = open(1, source, destination, false);
        let two = open(2, source, destination, true);
        let answer = driver.ask(post_within(&image, mains, &[one, two]), Room::Exact);
        driver.ask(routes_within(&image, mains, source, destination), Room::Exact);
        if !answer.written().is_empty() {
            for set in [mains, any_mains(dice, nodes), 0] {
                driver.ask(keeps_to(answer.written(), set), Room::Nothing);
            }
        }
    }
}

fn open(id: u16, source: u8, destination: u8, second: bool) -> Record {
    Record::open(Open { id, source, destination, period: 20, second, account: 0 })
}

/// A short way by node 20, which is not on mains, beside one of 16 hops and one
/// of 15: the set decides between done, 17 and 7.
fn too_far(driver: &mut Driver) {
    for nodes in [16, 17] {
        let last = nodes - 1;
        let way = (1..nodes).map(|node| (node - 1, node));
        let topology = of_links(21, way.chain([(0, 20), (20, last)]));
        for image in images(&empty_book(open_plan(4), topology)) {
            for mains in [NodeSet::all(21), NodeSet::all(20), NodeSet::all(19).without(&[7])] {
                let (one, two) = (open(1, 0, last as u8, false), open(2, 0, last as u8, true));
                driver.ask(post_within(&image, mains.0, &[one, two]), Room::Exact);
                driver.ask(routes_within(&image, mains.0, 0, last as u8), Room::Exact);
            }
        }
    }
}

/// Every set of six nodes, on a book whose rows pass some of them.
fn every_set(driver: &mut Driver) {
    let mut book: Book = empty_book(open_plan(4), ring(6));
    add_stream(&mut book, 1, 0, 1, 100);
    add_stream(&mut book, 2, 0, 2, 100);
    add_with_second(&mut book, 3, 3, 5, 100);
    for image in images(&book) {
        for set in 0..64 {
            driver.ask(keeps_to(&image, set), Room::Nothing);
            driver.ask(routes_within(&image, set, 0, 3), Room::Exact);
            let list = [open(7, 0, 3, false), open(8, 5, 2, true), Record::close(3)];
            driver.ask(post_within(&image, set, &list), Room::Exact);
        }
    }
}

/// Each single bit, with and without what else can be refused.
fn bits_from_n_up(driver: &mut Driver, nodes: usize) {
    for image in images(&empty_book(open_plan(1), line(nodes))) {
        for bit in [0, 1, nodes - 1, nodes, nodes + 1, 62, 63].into_iter().filter(|&bit| bit < 64) {
            let set = 1 << bit;
            driver.ask(keeps_to(&image, set), Room::Nothing);
            driver.ask(keeps_to(&image[1..], set), Room::Nothing);
            for room in [Room::Nothing, Room::Exact] {
                driver.ask(routes_within(&image, set, 255, 255), room);
                driver.ask(routes_within(&image, set, 0, 1), room);
                driver.ask(post_within(&image, set, &[]), room);
                driver.ask(post_within(&image, set, &[Record::close(1); 65]), room);
                driver.ask(post_within(&image, set, &[open(1, 0, 1, false)]), room);
            }
        }
    }
}
