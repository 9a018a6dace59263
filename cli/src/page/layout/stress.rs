//! Places whose distances come as near as they can to the wanted ones.

use super::plane::Point;

/// Rounds in which a direction of the start is sought.
const START_ROUNDS: usize = 120;
/// Rounds in which every node moves to where the others want it.
const SETTLING_ROUNDS: usize = 250;
/// How far a node is moved off its start, so that no two nodes start in one place.
const NUDGE: f64 = 0.02;

/// Places by the wanted distances, the near ones counting most.
pub fn settled(wanted: &[Vec<f64>]) -> Vec<Point> {
    let mut places = start(wanted);
    for _ in 0..SETTLING_ROUNDS {
        for node in 0..places.len() {
            places[node] = where_others_want(node, &places, wanted);
        }
    }
    places
}

/// The mean of the places that each other node would give this one, weighed by nearness.
fn where_others_want(node: usize, places: &[Point], wanted: &[Vec<f64>]) -> Point {
    let (mut sum, mut weights) = (Point::ORIGIN, 0.0);
    for (other, &place) in places.iter().enumerate().filter(|&(other, _)| other != node) {
        let far = wanted[node][other];
        let weight = 1.0 / (far * far);
        let away = places[node].less(place).unit().times(far);
        sum = sum.plus(place.plus(away).times(weight));
        weights += weight;
    }
    if weights > 0.0 {
        sum.times(1.0 / weights)
    } else {
        places[node]
    }
}

/// A first guess: the two directions in which the wanted distances reach furthest.
fn start(wanted: &[Vec<f64>]) -> Vec<Point> {
    let mut products = centred_products(wanted);
    let across = widest(&mut products);
    let along = widest(&mut products);
    let nudge = |node: usize, step: usize| (spread_number(node, step) / 50.0 - 1.0) * NUDGE;
    (0..wanted.len())
        .map(|node| Point::new(across[node] + nudge(node, 37), along[node] + nudge(node, 59)))
        .collect()
}

/// Fixed numbers from 0 to 100 without a pattern that a site could share.
fn spread_number(node: usize, step: usize) -> f64 {
    ((node + 1) * (node + 3) * step % 101) as f64
}

/// The scalar products that points with these distances would have around their centre.
fn centred_products(wanted: &[Vec<f64>]) -> Vec<Vec<f64>> {
    let nodes = wanted.len() as f64;
    let mean = |row: &Vec<f64>| row.iter().map(|far| far * far).sum::<f64>() / nodes;
    let means = wanted.iter().map(mean).collect::<Vec<_>>();
    let all = means.iter().sum::<f64>() / nodes;
    let product =
        |a: usize, b: usize| (means[a] + means[b] - all - wanted[a][b] * wanted[a][b]) / 2.0;
    (0..wanted.len()).map(|a| (0..wanted.len()).map(|b| product(a, b)).collect()).collect()
}

/// Every node's place along the widest direction of the products, which is then taken out of them.
fn widest(products: &mut [Vec<f64>]) -> Vec<f64> {
    let nodes = products.len();
    let mut way = (0..nodes).map(|node| spread_number(node, 71) - 50.0).collect::<Vec<_>>();
    let mut reach = 0.0;
    for _ in 0..START_ROUNDS {
        let next = products
            .iter()
            .map(|row| row.iter().zip(&way).map(|(p, w)| p * w).sum())
            .collect::<Vec<f64>>();
        reach = next.iter().map(|w| w * w).sum::<f64>().sqrt();
        if reach <= f64::EPSILON {
            return vec![0.0; nodes];
        }
        way = next.iter().map(|w| w / reach).collect();
    }
    for a in 0..nodes {
        for b in 0..nodes {
            products[a][b] -= reach * way[a] * way[b];
        }
    }
    way.iter().map(|w| w * reach.sqrt()).collect()
}
