//! The balance program's lines.

use crate::image;
use crate::table::balance;

/// One line per node under a header, or `refused` and the number.
pub fn listing(image: &[u8]) -> String {
    match image::read(image) {
        Err(refusal) => format!("refused {}\n", refusal as u8),
        Ok((_, book)) => {
            let mut lines = String::from("node data used free\n");
            for node in 0..book.topology.nodes() {
                let balance = balance(&book, node);
                lines += &format!("{node} {} {} {}\n", balance.data, balance.used, balance.free);
            }
            lines
        }
    }
}
