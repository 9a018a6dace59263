//! A small picture for each stream: its own route on the whole site.

use super::canvas::{pair, Canvas};
use super::identity::{colour, dashes, journey, title};
use super::layout::Point;
use super::markup::joined;
use crate::book::{Book, Stream, Way};
use crate::describe::loss;
use crate::text::count;

/// The length of a link of length 1.
const UNIT: f64 = 26.0;
/// The room around the outermost nodes.
const MARGIN: f64 = 13.0;
/// The radius of a node on the way, and of the source and the destination, which bear their number.
const DOT: f64 = 2.2;
const END: f64 = 10.0;
/// Half the length of the small arrow in the middle of a hop.
const HEAD: f64 = 4.2;
/// The name of the site's picture that stands under every route.
const GROUND: &str = "ground";

/// The small pictures of all streams, both routes of a stream in one.
pub fn routes(book: &Book, places: &[Point]) -> String {
    let canvas = Canvas::new(places, UNIT, MARGIN);
    let cards = book.streams().map(|stream| card(&canvas, stream, &colour(book, stream.place)));
    let second = if book.has_second() { " A second route is dashed." } else { "" };
    format!(
        "{}<ul class=\"routes\">\n{}</ul>\n<p class=\"note\">The ring is the source, the disc the \
         destination; small arrows show the direction.{second}</p>\n",
        ground(book, &canvas),
        cards.collect::<String>()
    )
}

/// The site without streams, drawn once and used under every route.
fn ground(book: &Book, canvas: &Canvas) -> String {
    let links = canvas.links(&book.links);
    let dots = (0..canvas.spots.len()).map(|node| canvas.circle(node, DOT)).collect::<String>();
    format!(
        "<svg class=\"defs\" width=\"0\" height=\"0\" aria-hidden=\"true\"><defs>\
         <g id=\"{GROUND}\" class=\"ground\"><path d=\"{links}\"/>{dots}</g></defs></svg>\n"
    )
}

/// The card of one stream with all its routes; of one with two, what the loss of a relay is to it.
fn card(canvas: &Canvas, stream: Stream, colour: &str) -> String {
    let Stream { ways, .. } = stream;
    let drawn = ways.iter().map(|way| route(canvas, way)).collect::<String>();
    let in_words = |way: &Way| format!("{}: nodes {}", title(way), joined(&way.nodes, ", "));
    let first = stream.first();
    let loss = stream.second().map_or(String::new(), |_| format!("; {}", loss(stream)));
    format!(
        "<li class=\"{colour}\"><h4><span class=\"chip\">{}</span> {}</h4>\
         <p>{}, every {}, latency {}{loss}</p><svg {} role=\"img\" aria-label=\"Route of {}\">\
         <use href=\"#{GROUND}\"/>{drawn}</svg></li>\n",
        first.id,
        journey(first),
        joined(ways.iter().map(|way| count(way.hops(), "hop")), " and "),
        count(first.period, "tile"),
        joined(ways.iter().map(|way| count(way.latency(), "slot")), " and "),
        canvas.frame(),
        joined(ways.iter().map(in_words), "; "),
    )
}

/// A route with its arrows and its two ends; a second route is dashed.
fn route(canvas: &Canvas, way: &Way) -> String {
    let on_way = way.nodes.iter().map(|&node| canvas.spots[usize::from(node)]);
    let on_way = on_way.collect::<Vec<_>>();
    let line = joined(on_way.iter().map(|&spot| pair(spot)), "L");
    let heads = joined(on_way.windows(2).map(|hop| head(hop[0], hop[1])), "");
    let end = |class: &str, node: Option<&u8>| {
        let numbered = node.map(|&node| canvas.numbered(node.into(), END)).unwrap_or_default();
        format!("<g class=\"{class}\">{numbered}</g>")
    };
    format!(
        "<path class=\"way{}\" d=\"M{line}\"/><path class=\"head\" d=\"{heads}\"/>{}{}",
        dashes(way),
        end("source", way.nodes.first()),
        end("destination", way.nodes.last())
    )
}

/// A small arrow in the middle of a hop.
fn head(from: Point, to: Point) -> String {
    let ahead = to.less(from).unit().times(HEAD);
    let aside = ahead.right_hand();
    let middle = from.plus(to).times(0.5);
    let tail = middle.less(ahead);
    let corners = [middle.plus(ahead), tail.plus(aside), tail.less(aside)];
    format!("M{}z", joined(corners.map(pair), "L"))
}

#[cfg(test)]
mod tests {
    use super::super::layout::places;
    use super::super::samples::kiln;
    use super::*;

    #[test]
    fn a_route_runs_from_its_source_to_its_destination() {
        let book = kiln();
        let drawn = routes(&book, &places(&book.links));
        let cards = drawn.split("<li ").skip(1).collect::<Vec<_>>();
        assert_eq!(cards.len(), book.ways.len());
        for (card, way) in cards.iter().zip(&book.ways) {
            let (_, ends) = card.split_once("<g class=\"source\">").expect("a source");
            let (source, destination) =
                ends.split_once("<g class=\"destination\">").expect("an end");
            assert!(source.contains(&format!(">{}</text>", way.nodes[0])));
            assert!(destination.contains(&format!(">{}</text>", way.nodes[way.offsets.len()])));
            let spots = way.nodes.iter().map(|&node| format!("{} 13", 13 + 26 * u32::from(node)));
            assert!(card.contains(&format!("class=\"way\" d=\"M{}\"", joined(spots, "L"))));
        }
    }

    #[test]
    fn a_card_says_where_to_how_far_how_often_and_how_long() {
        let book = kiln();
        let drawn = routes(&book, &places(&book.links));
        for words in [
            "1</span> 7 to 0</h4><p>7 hops, every 10 tiles, latency 8 slots</p>",
            "3</span> 4 to 0</h4><p>4 hops, every 5 tiles, latency 11 slots</p>",
            "4</span> 2 to 1</h4><p>1 hop, every 2 tiles, latency 1 slot</p>",
        ] {
            assert!(drawn.contains(words), "{words}");
        }
    }

    #[test]
    fn the_small_arrow_points_onwards() {
        assert_eq!(head(Point::ORIGIN, Point::new(26.0, 0.0)), "M17.2 0L8.8 4.2L8.8 -4.2z");
    }
}
