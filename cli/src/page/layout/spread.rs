//! Nodes moved off each other and off links that are not theirs.

use super::plane::Point;
use crate::book::pairs;

/// Rounds in which nodes give way.
const ROUNDS: usize = 80;
/// The least distance of two nodes.
const NODE_TO_NODE: f64 = 0.62;
/// The least distance of a node from a link between two others.
const NODE_TO_LINK: f64 = 0.24;
/// The part of the missing distance that a node gives way in one round.
const YIELDING: f64 = 0.5;
/// Links by node, above which keeping nodes off every link would only tear the picture.
const DENSE: usize = 4;

/// The places after every node has given way to what is too near.
pub fn apart(mut places: Vec<Point>, rows: &[u64]) -> Vec<Point> {
    let links = pairs(rows);
    let avoided = if links.len() > DENSE * rows.len() { &[] } else { &links[..] };
    for round in 0..ROUNDS {
        for node in 0..places.len() {
            if round < ROUNDS / 2 {
                keep_off_links(node, &mut places, avoided);
            }
            keep_off_nodes(node, &mut places);
        }
    }
    places
}

fn keep_off_nodes(node: usize, places: &mut [Point]) {
    for other in 0..node {
        let way = places[node].less(places[other]);
        let missing = NODE_TO_NODE - way.length();
        if missing > 0.0 {
            let step = way.unit().times(missing * YIELDING);
            places[node] = places[node].plus(step);
            places[other] = places[other].less(step);
        }
    }
}

fn keep_off_links(node: usize, places: &mut [Point], links: &[(usize, usize)]) {
    for &(a, b) in links.iter().filter(|&&(a, b)| a != node && b != node) {
        let link = places[b].less(places[a]);
        let along = places[node].less(places[a]).dot(link) / link.dot(link).max(f64::EPSILON);
        let foot = places[a].plus(link.times(along.clamp(0.0, 1.0)));
        let way = places[node].less(foot);
        let missing = NODE_TO_LINK - way.length();
        if missing > 0.0 {
            let aside = if way.length() > 0.0 { way.unit() } else { link.unit().right_hand() };
            places[node] = places[node].plus(aside.times(missing * YIELDING));
        }
    }
}
