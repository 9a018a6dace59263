//! The families of calls: fixed ones, and thrown ones of any number.

mod accounts;
mod arguments;
mod changes;
mod damaged;
mod examples;
mod faults;
mod limits;
mod mains;
mod near_misses;
mod noise;
mod pairs;
mod postings;
mod route_lists;
mod second_routes;
mod sequences;
mod slow;
mod tables;
mod unusual;

use crate::dice::Dice;
use crate::driver::{Driver, Room};
use crate::requests;
use reference::frame::Request;
use reference::plan::Plan;
use reference::topology::{Topology, write_rows};

/// The image of an empty book, asked for.
fn new_image(driver: &mut Driver, plan: &Plan, topology: &Topology) -> Vec<u8> {
    driver.ask(new_request(plan, topology), Room::Exact).written().to_vec()
}

/// A new book of this site.
fn new_request(plan: &Plan, topology: &Topology) -> Request {
    let (links, hearing) = (write_rows(&topology.links), write_rows(&topology.hearing));
    requests::new_with_hearing(plan, topology.nodes(), &links, &hearing)
}

/// The families whose size is fixed; of the values of a byte, and of the full
/// books in each version, an even seed tries the one half, and an odd seed the
/// other.
pub fn fixed(driver: &mut Driver, dice: &mut Dice, seed: u64) {
    driver.family("document 01's examples");
    examples::ask(driver);
    driver.family("arguments of a new book");
    arguments::ask(driver, dice);
    driver.family("every cut and every one-byte change");
    changes::ask(driver, dice, seed);
    driver.family("several faults at once");
    faults::ask(driver);
    driver.family("books at a limit");
    limits::ask(driver, dice, seed);
    driver.family("every two hops and every two periods");
    pairs::ask(driver, dice);
    driver.family("second routes");
    second_routes::ask(driver, dice);
    driver.family("lists of routes");
    route_lists::ask(driver);
    driver.family("slow probes");
    slow::ask(driver, dice);
    driver.family("accounts");
    accounts::ask(driver, dice);
    driver.family("books damaged on laptops");
    damaged::ask(driver, dice);
    driver.family("tables made elsewhere");
    tables::ask(driver, dice);
    driver.family("mains sets");
    mains::ask(driver, dice);
    driver.family("postings around their limits");
    postings::fixed(driver, dice);
}

/// Asks a few calls of a family.
type Family = fn(&mut Driver, &mut Dice);

/// The thrown families, `calls` calls in all or a few more.
pub fn thrown(driver: &mut Driver, dice: &mut Dice, calls: u64) {
    let families: [(&str, Family, u64); 6] = [
        ("sequences on quiet sites", sequences::quiet, 25),
        ("sequences on crowded sites", sequences::crowded, 25),
        ("postings", postings::thrown, 10),
        ("lawful rows no planner would choose", unusual::ask, 20),
        ("books one step from lawful", near_misses::ask, 15),
        ("noise", noise::ask, 5),
    ];
    for (name, ask, percent) in families {
        driver.family(name);
        let end = driver.tally.total() + calls * percent / 100;
        while driver.tally.total() < end {
            ask(driver, dice);
        }
    }
}
