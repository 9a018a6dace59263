//! Lists of routes: none, few, just 32, one more and very many, of every
//! length up to and past 6 hops, with buffers around the list's length.

use crate::driver::{Driver, Room};
use crate::requests::routes;
use crate::site::{complete, empty_book, fan, grid, images, line, of_links, open_plan, ring};
use reference::image;
use reference::topology::Topology;
use reference::version::Version;

pub fn ask(driver: &mut Driver) {
    for middles in [0, 1, 2, 30, 31, 32, 33, 34, 62] {
        for image in images(&empty_book(open_plan(1), fan(middles))) {
            around(driver, &image, 0, 1);
            around(driver, &image, 1, 0);
        }
    }
    for topology in small_sites() {
        every_pair(driver, topology);
    }
    for topology in [complete(64), grid(8, 64), two_knots()] {
        let image = image::write(Version::NEWEST, &empty_book(open_plan(1), topology));
        for node in [1, 2, 7, 8, 9, 31, 32, 62, 63] {
            around(driver, &image, 0, node);
            around(driver, &image, node, 0);
        }
    }
}

/// Buffers that hold the list and that just do not.
fn around(driver: &mut Driver, image: &[u8], source: u8, destination: u8) {
    for room in [Room::Nothing, Room::OneShort, Room::Exact, Room::Spare(3), Room::Full] {
        driver.ask(routes(image, source, destination), room);
    }
}

/// Every source and destination.
fn every_pair(driver: &mut Driver, topology: Topology) {
    let nodes = topology.nodes();
    let image = image::write(Version::NEWEST, &empty_book(open_plan(1), topology));
    for (source, destination) in (0..nodes).flat_map(|a| (0..nodes).map(move |b| (a, b))) {
        driver.ask(routes(&image, source, destination), Room::Exact);
    }
}

fn small_sites() -> Vec<Topology> {
    let mut sites: Vec<Topology> = (2..8).map(complete).collect();
    sites.extend([line(8), ring(7), ring(12), ring(13), ring(14)]);
    sites.extend([grid(2, 12), grid(3, 9), grid(3, 12), grid(4, 16)]);
    // A square with one diagonal, and a node nobody hears.
    sites.push(of_links(5, [(0, 1), (0, 2), (1, 3), (2, 3), (1, 2)]));
    sites
}

/// Two sets of eight nodes, each linked to all of its set; one link between.
fn two_knots() -> Topology {
    let knot = |start: usize| (0..8).flat_map(move |a| (0..a).map(move |b| (start + a, start + b)));
    of_links(64, knot(0).chain(knot(24)).chain([(7, 31)]))
}
