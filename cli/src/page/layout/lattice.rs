//! Nodes that nearly stand in rows and columns are put into them.

use super::plane::Point;
use crate::book::pairs;

/// The furthest that a node is moved to its row or column.
const FURTHEST: f64 = 0.4;
/// The square of the longest link in rows and columns: two across and one down.
const LONGEST: i64 = 5;
/// How finely the place of the first row and column is tried.
const TRIES: usize = 20;

/// The places in rows and columns, if every node is near one and no link would run through a node.
pub fn snapped(places: &[Point], rows: &[u64]) -> Option<Vec<Point>> {
    let links = pairs(rows);
    let unit = straight_length(places, &links);
    let columns = rounded(places.iter().map(|p| p.x / unit).collect())?;
    let lines = rounded(places.iter().map(|p| p.y / unit).collect())?;
    let cells = columns.into_iter().zip(lines).collect::<Vec<_>>();
    let fits = all_differ(&cells) && links.iter().all(|&(a, b)| is_clear(&cells, a, b));
    fits.then(|| cells.iter().map(|&(x, y)| Point::new(x as f64, y as f64)).collect())
}

/// The mean length of the links that lie level or upright, or of all where there are none.
fn straight_length(places: &[Point], links: &[(usize, usize)]) -> f64 {
    let ways = links.iter().map(|&(a, b)| places[b].less(places[a])).collect::<Vec<_>>();
    let is_straight = |way: &&Point| way.x.abs().min(way.y.abs()) < way.length() / 4.0;
    let mean = |lengths: Vec<f64>| lengths.iter().sum::<f64>() / lengths.len() as f64;
    let straight = mean(ways.iter().filter(is_straight).map(|way| way.length()).collect());
    let any = mean(ways.iter().map(|way| way.length()).collect());
    [straight, any].into_iter().find(|length| length.is_finite() && *length > 0.0).unwrap_or(1.0)
}

/// The nearest whole numbers from the best start, if none is too far.
fn rounded(numbers: Vec<f64>) -> Option<Vec<i64>> {
    let off = |start: f64| {
        numbers.iter().map(|n| (n - start - (n - start).round()).abs()).fold(0.0, f64::max)
    };
    let starts = (0..TRIES).map(|step| step as f64 / TRIES as f64);
    let best = starts.reduce(|a, b| if off(b) < off(a) - 1e-9 { b } else { a })?;
    (off(best) <= FURTHEST).then(|| numbers.iter().map(|n| (n - best).round() as i64).collect())
}

fn all_differ(cells: &[(i64, i64)]) -> bool {
    (0..cells.len()).all(|a| !cells[..a].contains(&cells[a]))
}

/// Whether a link is short and has no node in its midst.
fn is_clear(cells: &[(i64, i64)], a: usize, b: usize) -> bool {
    let (across, down) = (cells[b].0 - cells[a].0, cells[b].1 - cells[a].1);
    let (middle_across, middle_down) = (cells[a].0 + cells[b].0, cells[a].1 + cells[b].1);
    let in_midst = |cell: &(i64, i64)| 2 * cell.0 == middle_across && 2 * cell.1 == middle_down;
    across * across + down * down <= LONGEST && !cells.iter().any(in_midst)
}
