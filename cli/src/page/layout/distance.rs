//! How far apart the nodes of a connected part should stand.

/// Two nodes with this many neighbours in common are corners of a square.
const CORNERS_SHARE: u32 = 2;

/// The wanted distance of every two nodes: the shortest way over links, each 1 long, and over the
/// diagonals of squares.
pub fn wanted(rows: &[u64]) -> Vec<Vec<f64>> {
    let nodes = rows.len();
    let mut far = (0..nodes)
        .map(|a| (0..nodes).map(|b| direct(rows, a, b)).collect::<Vec<_>>())
        .collect::<Vec<_>>();
    for over in 0..nodes {
        for a in 0..nodes {
            for b in 0..nodes {
                far[a][b] = far[a][b].min(far[a][over] + far[over][b]);
            }
        }
    }
    far
}

/// The distance that two nodes have by themselves.
fn direct(rows: &[u64], a: usize, b: usize) -> f64 {
    if a == b {
        0.0
    } else if rows[a] >> b & 1 == 1 {
        1.0
    } else if (rows[a] & rows[b]).count_ones() >= CORNERS_SHARE {
        std::f64::consts::SQRT_2
    } else {
        f64::INFINITY
    }
}
