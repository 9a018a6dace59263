//! Turning a picture so that links lie level or upright, and nodes come in the order of numbers.

use super::plane::Point;
use crate::book::pairs;

/// The least agreement of the links on a cross of directions for which a picture is turned.
const AGREEMENT: f64 = 0.2;
/// A picture narrower than this part of its height is laid on its side.
const NEARLY_SQUARE: f64 = 0.9;
/// How much more a node's row counts than its column in the order of reading.
const ROW_BEFORE_COLUMN: f64 = 8.0;

/// The places turned so that as many links as can be lie along the page's sides.
pub fn along_the_axes(places: Vec<Point>, rows: &[u64]) -> Vec<Point> {
    let links = pairs(rows);
    let cross = links.iter().fold(Point::ORIGIN, |sum, &(a, b)| {
        let way = places[b].less(places[a]).unit();
        let doubled = way.turned(way);
        sum.plus(doubled.turned(doubled))
    });
    if cross.length() <= AGREEMENT * links.len() as f64 {
        return places;
    }
    let quarter = cross.half_turn().half_turn();
    let back = Point::new(quarter.x, -quarter.y);
    places.into_iter().map(|place| place.turned(back)).collect()
}

/// The mirror image, lying rather than standing, whose low numbers come first in reading.
pub fn in_reading_order(places: Vec<Point>) -> Vec<Point> {
    let images = (0..8).map(|image| mirrored(&places, image)).filter(|image| lies(image));
    let best =
        images
            .map(|image| (reading(&image), image))
            .reduce(|a, b| if b.0 > a.0 + 1e-9 { b } else { a });
    best.map_or(places, |(_, image)| image)
}

/// One of the eight mirror images of a square, its corner at the origin.
fn mirrored(places: &[Point], image: u8) -> Vec<Point> {
    let sign = |bit: u8| if image >> bit & 1 == 1 { -1.0 } else { 1.0 };
    let swapped =
        |place: &Point| if image >> 2 & 1 == 1 { Point::new(place.y, place.x) } else { *place };
    let turned = places
        .iter()
        .map(swapped)
        .map(|p| Point::new(p.x * sign(0), p.y * sign(1)))
        .collect::<Vec<_>>();
    let corner = corner(&turned);
    turned.into_iter().map(|place| place.less(corner)).collect()
}

/// The left and upper end of a picture.
pub fn corner(places: &[Point]) -> Point {
    let least = |of: fn(&Point) -> f64| places.iter().map(of).fold(f64::INFINITY, f64::min);
    Point::new(least(|p| p.x), least(|p| p.y))
}

/// How far a picture reaches from the origin.
pub fn size(places: &[Point]) -> Point {
    let most = |of: fn(&Point) -> f64| places.iter().map(of).fold(0.0, f64::max);
    Point::new(most(|p| p.x), most(|p| p.y))
}

fn lies(places: &[Point]) -> bool {
    let size = size(places);
    size.x >= size.y * NEARLY_SQUARE
}

/// How well the order of reading agrees with the order of the numbers.
fn reading(places: &[Point]) -> f64 {
    let middle = (places.len() as f64 - 1.0) / 2.0;
    let weigh = |(node, place): (usize, &Point)| {
        (node as f64 - middle) * (place.y * ROW_BEFORE_COLUMN + place.x)
    };
    places.iter().enumerate().map(weigh).sum()
}
