//! The site's graph: nodes, links, who hears whom without one, and the arrows of the streams beside the links.

use super::arrows::{arrows, MOST_ARROWS};
use super::canvas::Canvas;
use super::heard;
use super::identity::MARKED;
use super::layout::Point;
use super::markup::{joined, scrolling};
use super::traffic::{traffic, Traffic};
use crate::book::Book;
use crate::text::count;

/// The length of a link of length 1.
const UNIT: f64 = 118.0;
/// The radius of a node.
pub const RADIUS: f64 = 16.0;
/// The room around the outermost nodes, for their own circle and the arrows beside their links.
const MARGIN: f64 = 46.0;

/// The graph with its legend.
pub fn graph(book: &Book, places: &[Point]) -> String {
    let traffic = traffic(book);
    let canvas = Canvas::new(places, UNIT, MARGIN);
    let nodes = count(places.len(), "node");
    let links = count(book.pairs().len(), "link") + &heard::counted(book);
    let figure = format!(
        "<svg class=\"graph\" style=\"--w:{}px\" {} role=\"img\" aria-label=\"Graph of the site \
         with {nodes} and {links}; the list below names the streams on each link.\">\n\
         {}<path class=\"link\" d=\"{}\"/>\n{}{}</svg>\n",
        canvas.width,
        canvas.frame(),
        heard::arcs(book, &canvas),
        canvas.links(&book.links),
        arrows(book, &traffic, &canvas.spots),
        (0..places.len()).map(|node| node_drawn(book, &canvas, node)).collect::<String>(),
    );
    format!("{}{}", scrolling("Graph of the site", "figure", &figure), legend(book, &traffic))
}

fn node_drawn(book: &Book, canvas: &Canvas, node: usize) -> String {
    let neighbours = book.neighbours(node as u8).collect::<Vec<_>>();
    let linked = match neighbours.is_empty() {
        true => "no node".to_string(),
        false => joined(neighbours, ", "),
    };
    let numbered = canvas.numbered(node, RADIUS);
    let heard = heard::of_node(book, node);
    format!(
        "<g class=\"node\"><title>Node {node}, linked to {linked}{heard}</title>{numbered}</g>\n"
    )
}

/// What the arrows and the arcs mean.
fn legend(book: &Book, traffic: &Traffic) -> String {
    let single = "An arrow beside a link is a stream that goes there, with its id; it lies to the \
                  right of its direction.";
    let shared = format!(
        " An arrow marked × with a number stands for that many streams (more than \
         {MOST_ARROWS}); the more slots they take, the thicker it is. The list below names them."
    );
    let second = match book.has_second() {
        true => format!(" A dashed arrow is on a second route; {MARKED}."),
        false => String::new(),
    };
    let is_shared = traffic.values().any(|rows| rows.len() > MOST_ARROWS);
    let text = match (traffic.is_empty(), is_shared) {
        (true, _) => "No stream is in the book.".to_string(),
        (false, true) => format!("{single}{second}{shared}"),
        (false, false) => format!("{single}{second}"),
    };
    format!("<p class=\"note\">{text}{}</p>\n", heard::legend(book))
}

#[cfg(test)]
mod tests {
    use super::super::hops::hops;
    use super::super::layout::places;
    use super::super::samples::{full_site, kiln, line_book, stream};
    use super::*;

    fn graph_of(book: &Book) -> String {
        graph(book, &places(&book.links))
    }

    #[test]
    fn an_arrow_points_where_its_stream_goes() {
        let book = line_book(2, vec![stream(1, 2, &[0, 1], &[2]), stream(2, 2, &[1, 0], &[3])]);
        let drawn = graph_of(&book);
        let rightwards = "<g class=\"arrow k0\" transform=\"matrix(1 0 0 1 46 54.8)\">";
        let leftwards = "<g class=\"arrow k1\" transform=\"matrix(-1 0 0 -1 164 37.2)\">";
        assert!(drawn.contains(&format!(
            "{rightwards}<title>Node 0 to node 1: stream 1, offset 2</title>\
             <path d=\"M18.5 -6.2H92.5L99.5 0L92.5 6.2H18.5l3 -6.2z\"/>"
        )));
        assert!(drawn
            .contains(&format!("{leftwards}<title>Node 1 to node 0: stream 2, offset 3</title>")));
    }

    #[test]
    fn every_hop_has_an_arrow_with_the_id_of_its_stream() {
        let book = kiln();
        let drawn = graph_of(&book);
        for way in &book.ways {
            let label = format!(">{}</text></g></g>", way.id);
            assert_eq!(drawn.matches(&label).count(), way.offsets.len(), "stream {}", way.id);
            for hop in hops(way) {
                let (from, to, offset) = (hop.from, hop.to, hop.offset);
                let meaning =
                    format!("Node {from} to node {to}: stream {}, offset {offset}<", way.id);
                assert!(drawn.contains(&meaning), "{meaning}");
            }
        }
    }

    #[test]
    fn many_streams_share_an_arrow_that_names_them() {
        let drawn = graph_of(&full_site());
        assert_eq!(drawn.matches("<g class=\"arrow shared\"").count(), 56);
        assert!(drawn.contains(
            "Node 0 to node 1: streams 60000, 60008, 60016, 60024, 60032, 60040, 60048, 60056; \
             8000 slots"
        ));
        assert!(drawn.contains(">×8</text>"));
    }
}
