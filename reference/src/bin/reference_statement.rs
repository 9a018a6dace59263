//! Reads pairs of images on standard input and prints the statement over them.

use std::io::{self, Read};

fn main() -> io::Result<()> {
    let mut input = Vec::new();
    io::stdin().read_to_end(&mut input)?;
    print!("{}", reference::statement::statement(&input));
    Ok(())
}
