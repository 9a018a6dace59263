//! The site of the jobs: an 8 × 8 grid, tiles of 32 slots, 64 streams of mixed periods, or 32 with a second route.

use crate::planners::{Plan, Stream};

/// Nodes along a side of the grid.
const SIDE: u8 = 8;

pub const NODES: u8 = SIDE * SIDE;

pub const PLAN: Plan = Plan { s: 32, c: 10, kinds: 0b01_0110_1101, d: 4, u: 2, n: NODES };

/// The grid's rows: a node is linked to those above, below, left and right of it.
pub fn topology() -> Vec<u8> {
    rows(|across, down| across + down == 1)
}

/// The rows of who hears whom where nodes hear further than they talk: across the corners too.
pub fn hearing() -> Vec<u8> {
    rows(|across, down| across.max(down) == 1)
}

/// The rows of the nodes that are so far across and so far down from each other.
fn rows(near: fn(u8, u8) -> bool) -> Vec<u8> {
    (0..NODES).flat_map(|node| row(node, near).to_be_bytes()).collect()
}

fn row(node: u8, near: fn(u8, u8) -> bool) -> u64 {
    let (x, y) = (node % SIDE, node / SIDE);
    let mut row = 0;
    for other in 0..NODES {
        if near((other % SIDE).abs_diff(x), (other / SIDE).abs_diff(y)) {
            row |= 1 << other;
        }
    }
    row
}

/// The rows of as many nodes, all linked to each other.
pub fn linked_topology() -> Vec<u8> {
    (0..NODES).flat_map(|node| (!(1_u64 << node)).to_be_bytes()).collect()
}

/// The periods, in tiles, that the streams take in turn.
pub const PERIODS: [u16; 11] = [100, 20, 50, 10, 5, 2, 100, 20, 50, 10, 5];

/// The same streams, every third of them slow.
pub fn slow_streams() -> Vec<Stream> {
    let slow = |i: usize| [200, 1000, 500][i / 3 % 3];
    let period = |i: usize, stream: &Stream| if i % 3 == 0 { slow(i) } else { stream.period };
    let with = |(i, stream): (usize, Stream)| Stream { period: period(i, &stream), ..stream };
    streams().into_iter().enumerate().map(with).collect()
}

/// The streams, in order of arrival, which is not that of their ids. All find room, with 504 hops.
pub fn streams() -> Vec<Stream> {
    (0..64).map(|i| stream(i, i * 61 % 64)).collect()
}

fn stream(i: u16, source: u16) -> Stream {
    Stream {
        id: i * 37 % 64 * 5 + 1,
        source: source as u8,
        destination: ((source + 36) % 64) as u8,
        period: PERIODS[usize::from(i) % PERIODS.len()],
        second: false,
    }
}

/// Streams with a second route, in order of arrival: two across and two down, 4 hops on either route.
pub fn doubled_streams() -> Vec<Stream> {
    (0..32).map(|i| Stream { second: true, ..stream_on(i, 2, 2, &PERIODS) }).collect()
}

/// The stream from a node to the one so many across and so many down from it, at most half the grid.
pub fn stream_on(i: u16, across: u8, down: u8, periods: &[u16]) -> Stream {
    let source = (i * 61 % 64) as u8;
    let on = |place: u8, far: u8| if place + far < SIDE { place + far } else { place - far };
    let destination = on(source % SIDE, across) + SIDE * on(source / SIDE, down);
    let period = periods[usize::from(i) % periods.len()];
    Stream { id: i * 37 % 64 * 5 + 1, source, destination, period, second: false }
}

/// A small site: nodes in a line, tiles of 8 slots.
pub const SMALL_PLAN: Plan = Plan { s: 8, c: 4, kinds: 0b0101, d: 2, u: 1, n: 6 };

/// The line's rows: a node is linked to the one before it and the one behind it.
pub fn small_topology() -> Vec<u8> {
    let row = |node: u8| (1_u64 << (node + 1) | (1 << node) >> 1) & ((1 << SMALL_PLAN.n) - 1);
    (0..SMALL_PLAN.n).flat_map(|node| row(node).to_be_bytes()).collect()
}

/// The streams of the small site: along the line both ways, and on a part of it.
pub fn small_streams() -> Vec<Stream> {
    let ends = [(0, 5, 10), (5, 0, 20), (1, 4, 5), (3, 2, 50)];
    let numbered = (1..).zip(ends);
    numbered
        .map(|(id, (source, destination, period))| Stream {
            id,
            source,
            destination,
            period,
            second: false,
        })
        .collect()
}
