//! A row of the book: one route of a stream.

use crate::hop::{Hop, PlacedHop, hops_of};
use crate::plan::Plan;

/// The route of a stream that every stream has.
pub const FIRST_ROUTE: u8 = 1;

/// The route of a stream that a yard may ask for beside the first.
pub const SECOND_ROUTE: u8 = 2;

/// An accepted route of a stream, or what a row of an image claims to be one.
#[derive(Clone, Debug, PartialEq, Eq)]
pub struct Row {
    pub id: u16,
    /// Which route of the stream: 1 or 2.
    pub route: u8,
    /// K, in tiles.
    pub period: u16,
    /// The node list, from source to destination.
    pub nodes: Vec<u8>,
    /// One offset a hop, in slots.
    pub offsets: Vec<u16>,
    /// The account that pays.
    pub account: u16,
}

impl Row {
    /// Rows rise by id and then route.
    pub fn key(&self) -> (u16, u8) {
        (self.id, self.route)
    }

    pub fn hops(&self) -> impl Iterator<Item = Hop> + '_ {
        hops_of(&self.nodes)
    }

    /// The hops with the slots they take under this plan.
    pub fn placed_hops(&self, plan: &Plan) -> Vec<PlacedHop> {
        let place = |(hop, &offset)| PlacedHop {
            hop,
            slots: plan.slots_of(usize::from(offset), self.period),
        };
        self.hops().zip(&self.offsets).map(place).collect()
    }
}
