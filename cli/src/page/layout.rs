//! Where the nodes of a site stand in its picture: links are about 1 long, and lines and squares
//! look like ones.

mod alignment;
mod distance;
mod folding;
mod lattice;
mod packing;
mod plane;
mod spread;
mod stress;

pub use plane::Point;

/// A place for every node, from 0 rightwards and downwards; the same links give the same places.
pub fn places(links: &[u64]) -> Vec<Point> {
    let parts = packing::connected_parts(links);
    let drawn = parts
        .iter()
        .map(|part| part_places(&packing::rows_within(links, part)))
        .collect::<Vec<_>>();
    packing::side_by_side(links.len(), &parts, &drawn)
}

/// Places of the nodes of one connected part.
fn part_places(rows: &[u64]) -> Vec<Point> {
    let settled = stress::settled(&distance::wanted(rows));
    let turned = alignment::along_the_axes(settled, rows);
    let clear = lattice::snapped(&turned, rows).unwrap_or_else(|| spread::apart(turned, rows));
    folding::folded(alignment::in_reading_order(clear))
}

#[cfg(test)]
mod tests {
    use super::super::samples::{line_links, links_of, square_links};
    use super::*;
    use crate::book::pairs;

    fn close(a: f64, b: f64) -> bool {
        (a - b).abs() < 1e-6
    }

    #[test]
    fn a_line_stands_in_a_row_from_node_0() {
        for nodes in [2, 3, 8, 12] {
            for (node, place) in places(&line_links(nodes)).iter().enumerate() {
                assert!(
                    close(place.x, node as f64) && close(place.y, 0.0),
                    "{nodes} nodes: {node} at {place:?}"
                );
            }
        }
    }

    #[test]
    fn a_long_line_turns_back_under_itself() {
        let places = places(&line_links(64));
        for (a, b) in pairs(&line_links(64)) {
            assert!(close(places[b].less(places[a]).length(), 1.0), "{a} and {b}");
        }
        assert_eq!(
            [0, 11, 12, 23, 24].map(|node| (places[node].x, places[node].y)),
            [(0.0, 0.0), (11.0, 0.0), (11.0, 1.0), (0.0, 1.0), (0.0, 2.0)]
        );
    }

    #[test]
    fn a_square_stands_in_rows_in_the_order_of_its_nodes() {
        for side in [2, 3, 4, 8] {
            for (node, place) in places(&square_links(side)).iter().enumerate() {
                let (row, column) = (node / side, node % side);
                assert!(
                    close(place.x, column as f64) && close(place.y, row as f64),
                    "side {side}: {node} at {place:?}"
                );
            }
        }
    }

    #[test]
    fn a_short_cut_leaves_the_square_a_square() {
        let mut links = square_links(4);
        links[5] |= 1 << 10;
        links[10] |= 1 << 5;
        for (node, place) in places(&links).iter().enumerate() {
            assert!(
                close(place.x, (node % 4) as f64) && close(place.y, (node / 4) as f64),
                "{node} at {place:?}"
            );
        }
    }

    #[test]
    fn nodes_keep_their_distance_whatever_the_links() {
        let full = |nodes: usize| {
            (0..nodes).map(|a| ((1u128 << nodes) - 1) as u64 & !(1 << a)).collect::<Vec<u64>>()
        };
        let star = links_of(20, &(1..20).map(|leaf| (0, leaf)).collect::<Vec<_>>());
        let tree = links_of(63, &(1..63).map(|child| ((child - 1) / 2, child)).collect::<Vec<_>>());
        let ring = links_of(12, &(0..12).map(|a| (a, (a + 1) % 12)).collect::<Vec<_>>());
        for links in [
            full(2),
            full(9),
            full(64),
            star,
            tree,
            ring,
            vec![0; 64],
            links_of(6, &[(0, 5), (2, 3)]),
        ] {
            let places = places(&links);
            for a in 0..links.len() {
                assert!(places[a].x >= 0.0 && places[a].y >= 0.0 && places[a].x.is_finite());
                for b in 0..a {
                    let apart = places[a].less(places[b]).length();
                    assert!(apart > 0.45, "{} nodes: {a} and {b} are {apart} apart", links.len());
                }
            }
        }
    }

    #[test]
    fn places_are_the_same_every_time() {
        assert_eq!(places(&square_links(8)), places(&square_links(8)));
    }
}
