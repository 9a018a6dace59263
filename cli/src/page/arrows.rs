//! The arrows beside the links: one for every stream that goes there, or one for many.

use super::graph::RADIUS;
use super::hops::hops;
use super::identity::{colour, dashes, name, title};
use super::layout::Point;
use super::markup::{direction, joined, length};
use super::traffic::{names, slots_in_use, Traffic};
use crate::book::Book;
use crate::text::count;

/// The room between a link and the arrows beside it, and between two arrows.
const CLEARANCE: f64 = 2.5;
/// The thickness of one stream's arrow.
const ARROW: f64 = 12.5;
/// The most arrows beside a link in one direction; more streams share one arrow.
pub const MOST_ARROWS: usize = 3;
/// The thickness of a shared arrow: the least, and what the busiest link adds to it.
const SHARED: f64 = 13.0;
const SHARED_GROWTH: f64 = 9.0;
/// How far an arrow's point stands out, and its tail is cut in.
const POINT: f64 = 7.0;
const TAIL: f64 = 3.0;
/// The length that every arrow keeps, and the width of a character on it.
const SHORTEST: f64 = 26.0;
const CHARACTER: f64 = 6.8;

/// An arrow beside its link, as it is drawn there.
struct Arrow {
    class: String,
    label: String,
    meaning: String,
    thickness: f64,
}

/// The arrows beside every link, each direction on the right hand of one who goes there.
pub fn arrows(book: &Book, traffic: &Traffic, spots: &[Point]) -> String {
    let busiest = traffic.values().map(|rows| slots_in_use(book, rows)).max().unwrap_or(1);
    let mut drawn = String::new();
    for (&(from, to), rows) in traffic {
        let mut aside = CLEARANCE;
        for arrow in arrows_of(book, (from, to), rows, busiest) {
            drawn.push_str(&arrow_drawn(&arrow, spots[from], spots[to], aside));
            aside += arrow.thickness + CLEARANCE / 2.0;
        }
    }
    drawn
}

/// One arrow for each stream, or one for all where they are many.
fn arrows_of(
    book: &Book,
    (from, to): (usize, usize),
    rows: &[usize],
    busiest: usize,
) -> Vec<Arrow> {
    let slots = slots_in_use(book, rows);
    if rows.len() > MOST_ARROWS {
        let meaning = format!(
            "Node {from} to node {to}: streams {}; {}",
            names(book, rows),
            count(slots, "slot")
        );
        let thickness = SHARED + SHARED_GROWTH * slots as f64 / busiest as f64;
        return vec![Arrow {
            class: "shared".to_string(),
            label: format!("×{}", rows.len()),
            meaning,
            thickness,
        }];
    }
    let single = |&row: &usize| {
        let way = &book.ways[row];
        let offset =
            hops(way).find(|hop| usize::from(hop.from) == from).map_or(0, |hop| hop.offset);
        let meaning = format!("Node {from} to node {to}: {}, offset {offset}", title(way));
        let class = colour(book, row) + dashes(way);
        Arrow { class, label: name(way), meaning, thickness: ARROW }
    };
    rows.iter().map(single).collect()
}

/// A block arrow with its label; the further aside, the shorter, so that crossing links keep clear.
fn arrow_drawn(arrow: &Arrow, from: Point, to: Point, aside: f64) -> String {
    let way = to.less(from);
    let ahead = way.unit();
    let right = ahead.right_hand();
    let half = arrow.thickness / 2.0;
    let start = f64::max(RADIUS + CLEARANCE, aside + arrow.thickness);
    let start = f64::min(start, (way.length() - SHORTEST) / 2.0);
    let end = way.length() - start;
    let upright =
        if ahead.x < -1e-6 || (ahead.x < 1e-6 && ahead.y > 0.0) { "rotate(180)" } else { "" };
    let (x, y) = (from.x + right.x * (aside + half), from.y + right.y * (aside + half));
    let turn = joined([ahead.x, ahead.y, right.x, right.y].map(direction), " ");
    format!(
        "<g class=\"arrow {}\" transform=\"matrix({turn} {} {})\"><title>{}</title>\
         <path d=\"{}\"/><g transform=\"translate({} 0){upright}\">\
         <text dy=\".36em\"{}>{}</text></g></g>\n",
        arrow.class,
        length(x),
        length(y),
        arrow.meaning,
        outline(start, end, half),
        length((start + end - TAIL) / 2.0),
        fitted(&arrow.label, end - start - POINT - TAIL),
        arrow.label,
    )
}

/// What narrows a label that would not fit.
fn fitted(label: &str, room: f64) -> String {
    if label.chars().count() as f64 * CHARACTER <= room {
        return String::new();
    }
    format!(" textLength=\"{}\" lengthAdjust=\"spacingAndGlyphs\"", length(room))
}

/// The outline of a block arrow along the level line.
fn outline(start: f64, end: f64, half: f64) -> String {
    let [shoulder, start, end] = [end - POINT, start, end].map(length);
    let [up, down] = [-half, half].map(length);
    format!("M{start} {up}H{shoulder}L{end} 0L{shoulder} {down}H{start}l{TAIL} {up}z")
}
