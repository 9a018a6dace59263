//! Hops: when two clash and when two meet.

use crate::slots::Slots;
use crate::topology::Topology;

/// A hop, sender → receiver.
#[derive(Clone, Copy, Debug, PartialEq, Eq)]
pub struct Hop {
    pub sender: u8,
    pub receiver: u8,
}

impl Hop {
    pub fn touches(self, node: u8) -> bool {
        self.sender == node || self.receiver == node
    }

    fn shares_a_node_with(self, other: Hop) -> bool {
        self.touches(other.sender) || self.touches(other.receiver)
    }
}

/// The hops of a route, in order.
pub fn hops_of(route: &[u8]) -> impl Iterator<Item = Hop> + '_ {
    route.windows(2).map(|pair| Hop { sender: pair[0], receiver: pair[1] })
}

/// Two hops clash if they share a node, or a receiver of one hears the sender
/// of the other.
pub fn clash(topology: &Topology, one: Hop, two: Hop) -> bool {
    one.shares_a_node_with(two)
        || topology.hear(one.sender, two.receiver)
        || topology.hear(two.sender, one.receiver)
}

/// A hop and the slots it takes.
#[derive(Clone, Copy, Debug)]
pub struct PlacedHop {
    pub hop: Hop,
    pub slots: Slots,
}

/// Two hops meet if they take a slot in common.
pub fn meet(one: &PlacedHop, two: &PlacedHop) -> bool {
    one.slots.has_common_slot(two.slots)
}
