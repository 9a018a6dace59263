//! A set of nodes, 64 bits.

/// Bit b is set if node b is in the set.
#[derive(Clone, Copy, Debug, PartialEq, Eq)]
pub struct NodeSet(pub u64);

impl NodeSet {
    pub const EMPTY: NodeSet = NodeSet(0);

    /// All nodes of a site with so many.
    pub fn all(nodes: u8) -> NodeSet {
        (0..nodes).fold(NodeSet::EMPTY, NodeSet::with)
    }

    /// Some bit from `nodes` up is set.
    pub fn passes(self, nodes: u8) -> bool {
        (nodes..64).any(|node| self.contains(node))
    }

    pub fn contains(self, node: u8) -> bool {
        self.0 >> node & 1 == 1
    }

    /// The nodes of this set that are not in the list.
    pub fn without(self, nodes: &[u8]) -> NodeSet {
        nodes.iter().fold(self, |set, &node| NodeSet(set.0 & !(1 << node)))
    }

    /// The nodes in both sets.
    pub fn common(self, other: NodeSet) -> NodeSet {
        NodeSet(self.0 & other.0)
    }

    /// This set and one node more.
    pub fn with(self, node: u8) -> NodeSet {
        NodeSet(self.0 | 1 << node)
    }
}
