//! The site on a canvas of its own scale: a spot for each node, and the links between them.

use super::layout::Point;
use super::markup::{joined, length};
use crate::book::pairs;

/// The spots of all nodes, and the size of the whole.
pub struct Canvas {
    pub spots: Vec<Point>,
    pub width: String,
    pub height: String,
}

impl Canvas {
    /// The places at a scale, with room around the outermost.
    pub fn new(places: &[Point], unit: f64, margin: f64) -> Canvas {
        let corner = Point::new(margin, margin);
        let spots = places.iter().map(|place| place.times(unit).plus(corner)).collect::<Vec<_>>();
        let most =
            |of: fn(&Point) -> f64| length(spots.iter().map(of).fold(0.0, f64::max) + margin);
        let (width, height) = (most(|spot| spot.x), most(|spot| spot.y));
        Canvas { spots, width, height }
    }

    /// What an SVG element needs to know of its size.
    pub fn frame(&self) -> String {
        format!("viewBox=\"0 0 {} {}\"", self.width, self.height)
    }

    /// All links as one path.
    pub fn links(&self, rows: &[u64]) -> String {
        let line =
            |(a, b): (usize, usize)| format!("M{}L{}", pair(self.spots[a]), pair(self.spots[b]));
        joined(pairs(rows).into_iter().map(line), "")
    }

    /// A node's circle.
    pub fn circle(&self, node: usize, radius: f64) -> String {
        let Point { x, y } = self.spots[node];
        format!("<circle cx=\"{}\" cy=\"{}\" r=\"{radius}\"/>", length(x), length(y))
    }

    /// A node's circle with its number in it.
    pub fn numbered(&self, node: usize, radius: f64) -> String {
        let Point { x, y } = self.spots[node];
        let (x, y) = (length(x), length(y));
        let circle = self.circle(node, radius);
        format!("{circle}<text x=\"{x}\" y=\"{y}\" dy=\".36em\">{node}</text>")
    }
}

/// A point as paths have it.
pub fn pair(point: Point) -> String {
    format!("{} {}", length(point.x), length(point.y))
}
