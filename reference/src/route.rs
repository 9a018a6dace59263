//! Routes: the planner's first, the second beside it, and the list of short
//! ones.

use crate::book::{MAX_ROUTE_HOPS, MAX_SHORT_HOPS};
use crate::node_set::NodeSet;
use crate::refusal::{Refusal, refuse_if};
use crate::topology::Topology;

/// The planner's route from `source` to `destination`, two different nodes:
/// the shortest, and of several the one whose node list comes first
/// lexicographically. Only nodes on mains may stand in its middle. Refused if
/// no such route exists, or if all that exist have over 15 hops.
pub fn planners_route(
    topology: &Topology,
    mains: NodeSet,
    source: u8,
    destination: u8,
) -> Result<Vec<u8>, Refusal> {
    let hops_left = distances(topology, mains, destination);
    let hops = hops_left[usize::from(source)].ok_or(Refusal::NoRoute)?;
    refuse_if(hops > MAX_ROUTE_HOPS, Refusal::TooFar)?;
    // A shortest route is exactly one that comes one hop nearer at each step.
    // The first node list takes the lowest such neighbour each time.
    let mut route = vec![source];
    let mut node = source;
    for left in (0..hops).rev() {
        node = topology
            .neighbours(node)
            .filter(|&next| next == destination || mains.contains(next))
            .find(|&next| hops_left[usize::from(next)] == Some(left))
            .expect("a node at distance d has a neighbour at distance d - 1");
        route.push(node);
    }
    Ok(route)
}

/// For each node the fewest hops to `destination` by nodes on mains, none where
/// there is no way.
fn distances(topology: &Topology, mains: NodeSet, destination: u8) -> Vec<Option<usize>> {
    let mut found = vec![None; usize::from(topology.nodes())];
    found[usize::from(destination)] = Some(0);
    let mut ring = vec![destination];
    let mut hops = 0;
    while !ring.is_empty() {
        hops += 1;
        let mut next_ring = Vec::new();
        for node in ring {
            for neighbour in topology.neighbours(node) {
                if found[usize::from(neighbour)].is_none() {
                    found[usize::from(neighbour)] = Some(hops);
                    // A node that is not on mains leads nobody on.
                    next_ring.extend(Some(neighbour).filter(|&node| mains.contains(node)));
                }
            }
        }
        ring = next_ring;
    }
    found
}

/// The nodes of a route between its ends.
fn middle(route: &[u8]) -> &[u8] {
    &route[1..route.len() - 1]
}

/// Every node in the middle of the route is on mains.
pub fn keeps_to(route: &[u8], mains: NodeSet) -> bool {
    middle(route).iter().all(|&node| mains.contains(node))
}

/// Some node is in the middle of both routes.
pub fn have_common_middle(one: &[u8], two: &[u8]) -> bool {
    middle(one).iter().any(|node| middle(two).contains(node))
}

/// The second route beside this first one: another node list, no middle node
/// in common, only nodes on mains in the middle, at most 6 hops, the shortest
/// and then the lowest node list.
pub fn second_route(topology: &Topology, mains: NodeSet, first: &[u8]) -> Option<Vec<u8>> {
    let (source, destination) = (first[0], first[first.len() - 1]);
    let search = Search { topology, destination, middles: mains.without(middle(first)) };
    // As no fewer hops gave another route, those it gives now are the shortest.
    // Only one route is not another, so two of them are enough.
    (1..=MAX_SHORT_HOPS)
        .find_map(|hops| search.routes(source, hops, 2).into_iter().find(|route| route != first))
}

/// The first `most` routes of at most 6 hops between two different nodes, with
/// only nodes on mains in the middle, in order of node lists.
pub fn short_routes(
    topology: &Topology,
    mains: NodeSet,
    source: u8,
    destination: u8,
    most: usize,
) -> Vec<Vec<u8>> {
    Search { topology, destination, middles: mains }.routes(source, MAX_SHORT_HOPS, most)
}

/// A search for routes to one node.
struct Search<'a> {
    topology: &'a Topology,
    destination: u8,
    /// The nodes that may stand in the middle.
    middles: NodeSet,
}

impl Search<'_> {
    /// The first `most` routes of at most `hops` hops, in order of node lists.
    fn routes(&self, source: u8, hops: usize, most: usize) -> Vec<Vec<u8>> {
        let mut found = Vec::new();
        self.go_on(&mut vec![source], hops, most, &mut found);
        found
    }

    /// Adds every route that begins like this one, up to `most` of them.
    fn go_on(&self, route: &mut Vec<u8>, hops: usize, most: usize, found: &mut Vec<Vec<u8>>) {
        let node = route[route.len() - 1];
        if node == self.destination {
            found.push(route.clone());
            return;
        }
        for next in self.topology.neighbours(node) {
            // A step that leads nowhere is not taken, or the search never ended
            // on a site where every two nodes are linked.
            if found.len() < most && hops > 0 && self.leads_on(route, next, hops - 1) {
                route.push(next);
                self.go_on(route, hops - 1, most, found);
                route.pop();
            }
        }
    }

    /// Some route begins like this one, goes on to `next` and then takes at
    /// most `hops` hops.
    fn leads_on(&self, route: &[u8], next: u8, hops: usize) -> bool {
        let open = self.middles.with(self.destination).without(route);
        let mut reached = NodeSet::EMPTY.with(next).common(open);
        for _ in 0..hops {
            reached = self.topology.with_neighbours(reached).common(open);
        }
        reached.contains(self.destination)
    }
}
