//! A long line is folded, so that it can be read on a sheet of paper.

use super::alignment::size;
use super::plane::Point;

/// The most nodes of a line that stand in one row.
const ROW: usize = 12;

/// A straight line of many nodes in rows, each going on below the end of the last; all else as is.
pub fn folded(places: Vec<Point>) -> Vec<Point> {
    let size = size(&places);
    if size.y > 0.0 || size.x < ROW as f64 {
        return places;
    }
    places.into_iter().map(in_rows).collect()
}

/// A place of the line in its row; every second row goes back.
fn in_rows(place: Point) -> Point {
    let along = place.x.round() as usize;
    let (row, column) = (along / ROW, along % ROW);
    let from_left = if row % 2 == 0 { column } else { ROW - 1 - column };
    Point::new(from_left as f64, row as f64)
}
