//! Damage that books take on laptops: images cut, overwritten, spliced from two
//! books, with rows repeated, moved or taken out.

use crate::dice::Dice;
use crate::site::versions;
use reference::book::{Book, MAX_HOPS, MAX_ROWS};
use reference::image;
use reference::row::Row;
use reference::version::Version;

/// Where the rows of an image begin, or its end where it has none.
fn before_rows(image: &[u8]) -> usize {
    image::read_head(image).map_or(image.len(), |head| head.before_rows().min(image.len()))
}

/// The image of any rows on a book's site, under counts that are in range.
pub fn of_rows(version: Version, book: &Book, rows: Vec<Row>) -> Vec<u8> {
    let hops: usize = rows.iter().map(|row| row.offsets.len()).sum();
    let count = rows.len();
    let empty = Book { rows: Vec::new(), ..book.clone() };
    let mut image = image::write(version, &empty);
    image[12] = count.min(MAX_ROWS) as u8;
    image[13..15].copy_from_slice(&(hops.min(MAX_HOPS) as u16).to_be_bytes());
    image.extend(rows.iter().flat_map(|row| image::row_bytes(version, row)));
    image
}

/// A book's image with its rows repeated, moved or taken out, some of them with
/// an id of another.
pub fn with_rows_moved(dice: &mut Dice, book: &Book) -> Vec<u8> {
    let version = dice.pick(&versions(book));
    let mut rows = book.rows.clone();
    for _ in 0..dice.between(1, 4) {
        if rows.is_empty() {
            break;
        }
        let (from, to) = (dice.below(rows.len()), dice.below(rows.len() + 1));
        let row = rows[from].clone();
        match dice.below(5) {
            0 | 1 => rows.insert(to, row),
            2 => drop(rows.remove(from)),
            3 => dice.shuffle(&mut rows),
            _ => {
                let id = rows[dice.below(rows.len())].id;
                let near = [id, id.wrapping_add(1), id.wrapping_sub(1)];
                rows.insert(to, Row { id: dice.pick(&near), ..row });
            }
        }
    }
    of_rows(version, book, rows)
}

/// The rows of two books under the header and the topologies of the first, the
/// cut at a row of each or anywhere.
pub fn spliced(dice: &mut Dice, one: &Book, two: &Book) -> Vec<u8> {
    let version = dice.pick(&versions(one));
    if version.fits(two) && dice.chance(50) {
        let (end, start) = (dice.below(one.rows.len() + 1), dice.below(two.rows.len() + 1));
        return of_rows(version, one, [&one.rows[..end], &two.rows[start..]].concat());
    }
    let first = image::write(version, one);
    let second = image::write(dice.pick(&versions(two)), two);
    let end = dice.between(before_rows(&first), first.len());
    let start = dice.between(before_rows(&second), second.len());
    [&first[..end], &second[start..]].concat()
}

/// Takes an image as it is, or cut, grown, or with bytes overwritten, put in or
/// taken out, mostly behind its topologies.
pub fn scratched(dice: &mut Dice, mut image: Vec<u8>) -> Vec<u8> {
    for _ in 0..dice.between(0, 3) {
        let low = if dice.chance(92) { before_rows(&image) } else { 0 };
        let place = dice.between(low.min(image.len()), image.len());
        let run = dice.between(1, 9).min(image.len() - place);
        let any = dice.byte();
        match dice.below(8) {
            0 => image.truncate(place),
            1 => image.extend(vec![any; dice.between(1, 40)]),
            2 => image[place..place + run].fill(any),
            3 => drop(image.drain(place..place + run)),
            4 => image.insert(place, any),
            _ if run > 0 => image[place] = dice.pick(&[0, 1, 2, 3, 9, 15, 16, any]),
            _ => {}
        }
    }
    image
}

/// A book of two, damaged in one way and then scratched.
pub fn damaged(dice: &mut Dice, one: &Book, two: &Book) -> Vec<u8> {
    let version = dice.pick(&versions(one));
    let image = match dice.below(4) {
        0 => image::write(version, one),
        1 => spliced(dice, one, two),
        _ => with_rows_moved(dice, one),
    };
    scratched(dice, image)
}
