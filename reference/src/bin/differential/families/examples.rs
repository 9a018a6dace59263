//! Document 01's worked examples, call by call.

use super::new_image;
use crate::driver::{Driver, Room};
use crate::requests::{
    balance, check, close, expand, links, open, open_with_second, rewrite, routes,
};
use crate::site::{empty_book, hearing_also, images, line, of_links, open_plan, plan_a};
use reference::plan::Plan;

pub fn ask(driver: &mut Driver) {
    new_image(driver, &plan_a(), &line(4));
    for empty in images(&empty_book(plan_a(), line(4))) {
        on_line_a(driver, empty);
    }
    // P8 where 3 hears 1: 0→1 and 3→2 clash.
    let heard = new_image(driver, &plan_a(), &hearing_also(line(4), [(1, 3)]));
    on_line_a(driver, heard);
    new_image(driver, &plan_a(), &line(2));
    for empty in images(&empty_book(plan_a(), line(2))) {
        on_two_nodes(driver, &empty);
    }
    on_a_square(driver);
    tiles_the_other_way_round(driver);
    long_lines(driver);
    driver.ask(check(&[]), Room::Nothing);
}

/// P1 to P5, P9 and the balance listing.
fn on_line_a(driver: &mut Driver, empty: Vec<u8>) {
    driver.ask(open(&empty, 1, 3, 0, 1), Room::Full);
    let p2 = driver.ask(open(&empty, 1, 3, 0, 2), Room::Full).written().to_vec();
    let p3 = driver.ask(open(&p2, 2, 0, 3, 2), Room::Full).written().to_vec();
    driver.ask(open(&p3, 3, 3, 2, 2), Room::Full);
    let closed = driver.ask(close(&p3, 1), Room::Full).written().to_vec();
    driver.ask(open(&closed, 3, 3, 2, 2), Room::Full);
    for book in [&empty, &p2, &p3, &closed] {
        driver.ask(check(book), Room::Nothing);
        driver.ask(rewrite(book), Room::Full);
        for node in 0..5 {
            driver.ask(expand(book, node), Room::Full);
            driver.ask(balance(book, node), Room::Nothing);
            driver.ask(links(book, node), Room::Nothing);
        }
    }
}

/// P10 and P11.
fn on_two_nodes(driver: &mut Driver, empty: &[u8]) {
    driver.ask(rewrite(empty), Room::Exact);
    let p11 = driver.ask(open(empty, 7, 1, 0, 2), Room::Exact).written().to_vec();
    driver.ask(rewrite(&p11), Room::Exact);
}

/// P7, and the square's other side as the second route.
fn on_a_square(driver: &mut Driver) {
    let square = of_links(4, [(0, 1), (0, 2), (1, 3), (2, 3)]);
    let empty = new_image(driver, &open_plan(4), &square);
    driver.ask(open(&empty, 1, 0, 3, 100), Room::Exact);
    driver.ask(open_with_second(&empty, 1, 0, 3, 100), Room::Exact);
    driver.ask(routes(&empty, 0, 3), Room::Exact);
}

/// P1 where only the second repeat finds the control slot.
fn tiles_the_other_way_round(driver: &mut Driver) {
    let empty = new_image(driver, &Plan { kinds: 2, ..plan_a() }, &line(4));
    driver.ask(open(&empty, 1, 3, 0, 1), Room::Full);
}

/// 15 hops are accepted, 16 are too far.
fn long_lines(driver: &mut Driver) {
    for nodes in [15, 16, 17, 18, 64] {
        let empty = new_image(driver, &open_plan(4), &line(nodes));
        for (source, destination) in [(0, nodes - 1), (nodes - 1, 0), (1, nodes - 1)] {
            let request = open(&empty, 1, source as u8, destination as u8, 100);
            driver.ask(request, Room::Full);
        }
    }
}
