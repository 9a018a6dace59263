//! Noise: thrown bytes, lawful up to some part of the image.

use crate::dice::Dice;
use crate::driver::{Driver, Room};
use crate::requests::{self, BOOK_CALLS};
use crate::site::{any_accounts, any_plan, any_topology, empty_book};
use reference::account::ONLY_ACCOUNT;
use reference::book::{Book, MAX_HOPS, MAX_ROWS};
use reference::image;
use reference::version::Version;

pub fn ask(driver: &mut Driver, dice: &mut Dice) {
    let image = noisy_image(dice);
    let call = dice.pick(&BOOK_CALLS);
    driver.ask(requests::any(dice, call, &image, &[]), Room::any(dice));
}

fn noisy_image(dice: &mut Dice) -> Vec<u8> {
    let version = dice.pick(&Version::ALL);
    let accounts = if version.stores_accounts() { any_accounts(dice) } else { vec![ONLY_ACCOUNT] };
    let count = accounts.len();
    let book = Book { accounts, ..empty_book(any_plan(dice), any_topology(dice)) };
    let empty = image::write(version, &book);
    let (rows, hops) = (dice.between(0, MAX_ROWS), dice.between(0, MAX_HOPS));
    let right_length = version.image_length(count, empty[11], rows, hops);
    let (kept, length) = match dice.below(6) {
        0 => (0, dice.between(0, 4096)),
        1 => (5, dice.between(5, 4096)),
        2 => (12, dice.between(16, 100)),
        3 => (16, right_length),
        4 => (16, empty.len() + dice.between(0, 60)),
        _ => (empty.len(), right_length),
    };
    let mut image: Vec<u8> = (0..length).map(|_| dice.byte()).collect();
    image[..kept].copy_from_slice(&empty[..kept]);
    if kept >= 16 {
        image[12] = rows as u8;
        image[13..15].copy_from_slice(&(hops as u16).to_be_bytes());
    }
    image
}
