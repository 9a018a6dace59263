//! The topology: which nodes are linked, and which hear each other.

use crate::node_set::NodeSet;

/// The fewest and the most nodes of a site.
pub const NODES: std::ops::RangeInclusive<u8> = 2..=64;

/// In either set of rows, row a has bit b set if nodes a and b belong together.
#[derive(Clone, Debug, PartialEq, Eq)]
pub struct Topology {
    /// Linked: a hop may go from one to the other.
    pub links: Vec<u64>,
    /// In hearing: one spoils the other's reception.
    pub hearing: Vec<u64>,
}

impl Topology {
    /// Reads `nodes` rows of 8 bytes twice; none if a length is wrong, the rows
    /// are not sound or a link is missing from the hearing.
    pub fn read(nodes: u8, links: &[u8], hearing: &[u8]) -> Option<Topology> {
        let (links, hearing) = (read_rows(nodes, links)?, read_rows(nodes, hearing)?);
        let heard = links.iter().zip(&hearing).all(|(links, hearing)| links & !hearing == 0);
        heard.then_some(Topology { links, hearing })
    }

    /// N, the number of nodes.
    pub fn nodes(&self) -> u8 {
        self.links.len() as u8
    }

    pub fn linked(&self, a: u8, b: u8) -> bool {
        has_bit(&self.links, a, b)
    }

    pub fn hear(&self, a: u8, b: u8) -> bool {
        has_bit(&self.hearing, a, b)
    }

    /// The nodes linked to `node`, in rising order.
    pub fn neighbours(&self, node: u8) -> impl Iterator<Item = u8> + '_ {
        (0..self.nodes()).filter(move |&other| self.linked(node, other))
    }

    /// A node's number of links.
    pub fn links(&self, node: u8) -> u8 {
        self.neighbours(node).count() as u8
    }

    /// The set of these nodes and all their neighbours.
    pub fn with_neighbours(&self, nodes: NodeSet) -> NodeSet {
        let members = (0..self.nodes()).filter(|&node| nodes.contains(node));
        NodeSet(members.fold(nodes.0, |all, node| all | self.links[usize::from(node)]))
    }
}

/// Bit b of row a.
fn has_bit(rows: &[u64], a: u8, b: u8) -> bool {
    rows[usize::from(a)] >> b & 1 == 1
}

/// Reads `nodes` sound rows; none if the length is wrong.
fn read_rows(nodes: u8, bytes: &[u8]) -> Option<Vec<u64>> {
    let rows = bytes.chunks(8).map(|row| row.try_into().ok());
    let rows = rows.map(|row| row.map(u64::from_be_bytes)).collect::<Option<Vec<u64>>>()?;
    (rows.len() == usize::from(nodes) && are_sound(&rows)).then_some(rows)
}

/// No bit from N up, no node with itself, both ways.
fn are_sound(rows: &[u64]) -> bool {
    let nodes = rows.len() as u8;
    (0..nodes).all(|a| {
        (nodes..64).all(|bit| !has_bit(rows, a, bit))
            && !has_bit(rows, a, a)
            && (0..nodes).all(|b| has_bit(rows, a, b) == has_bit(rows, b, a))
    })
}

/// Rows as bytes, 8 each.
pub fn write_rows(rows: &[u64]) -> Vec<u8> {
    rows.iter().flat_map(|row| row.to_be_bytes()).collect()
}
