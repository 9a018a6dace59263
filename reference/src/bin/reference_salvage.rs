//! Reads an image on standard input and prints what can be saved of it.

use std::io::{self, Read};

fn main() -> io::Result<()> {
    let mut image = Vec::new();
    io::stdin().read_to_end(&mut image)?;
    print!("{}", reference::salvage::lines(&image));
    Ok(())
}
