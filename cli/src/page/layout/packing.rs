//! The parts of a site that no link joins, side by side.

use super::alignment::{corner, size};
use super::plane::Point;

/// The room between two parts.
const GAP: f64 = 1.0;
/// How much wider than high the whole becomes.
const WIDE: f64 = 1.6;

/// The nodes of each connected part, the part of the lowest node first.
pub fn connected_parts(links: &[u64]) -> Vec<Vec<usize>> {
    let mut seen = 0u64;
    let mut parts = Vec::new();
    for node in 0..links.len() {
        if seen >> node & 1 == 0 {
            let part = reached(links, node);
            seen |= part;
            parts.push((0..links.len()).filter(|other| part >> other & 1 == 1).collect());
        }
    }
    parts
}

/// The set of nodes that links lead to from a node, itself included.
fn reached(links: &[u64], node: usize) -> u64 {
    let mut part = 1u64 << node;
    loop {
        let members = (0..links.len()).filter(|other| part >> other & 1 == 1);
        let wider = members.fold(part, |set, other| set | links[other]);
        if wider == part {
            return part;
        }
        part = wider;
    }
}

/// The links of a part, its nodes numbered anew from 0.
pub fn rows_within(links: &[u64], part: &[usize]) -> Vec<u64> {
    let row = |node: &usize| {
        part.iter().enumerate().fold(0, |set, (new, old)| set | (links[*node] >> old & 1) << new)
    };
    part.iter().map(row).collect()
}

/// The places of all nodes: the parts in lines from left to right.
pub fn side_by_side(nodes: usize, parts: &[Vec<usize>], drawn: &[Vec<Point>]) -> Vec<Point> {
    let width = line_width(drawn);
    let mut places = vec![Point::ORIGIN; nodes];
    let (mut at, mut below) = (Point::ORIGIN, 0.0);
    for (part, drawing) in parts.iter().zip(drawn) {
        let (start, extent) = (corner(drawing), size(drawing));
        if at.x > 0.0 && at.x + extent.x > width {
            at = Point::new(0.0, below);
        }
        for (&node, place) in part.iter().zip(drawing) {
            places[node] = place.less(start).plus(at);
        }
        below = f64::max(below, at.y + extent.y + GAP);
        at.x += extent.x + GAP;
    }
    places
}

/// The width of a line that makes the whole somewhat wider than high.
fn line_width(drawn: &[Vec<Point>]) -> f64 {
    let sizes = drawn.iter().map(|drawing| size(drawing)).collect::<Vec<_>>();
    let area = sizes.iter().map(|size| (size.x + GAP) * (size.y + GAP)).sum::<f64>();
    sizes.iter().map(|size| size.x).fold((area * WIDE).sqrt(), f64::max)
}
