//! Reads an image on standard input and prints the balance of each node.

use std::io::{self, Read};

fn main() -> io::Result<()> {
    let mut image = Vec::new();
    io::stdin().read_to_end(&mut image)?;
    print!("{}", reference::listing::listing(&image));
    Ok(())
}
