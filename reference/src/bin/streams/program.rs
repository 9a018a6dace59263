//! The program under test: one run for each stream.

use std::io::{Read, Write};
use std::process::{Command, Stdio};
use std::thread;

/// All that the program prints for this input. It may end before it has read all of it.
pub fn run(command: &[String], input: &[u8]) -> Result<Vec<u8>, String> {
    let mut child = Command::new(&command[0])
        .args(&command[1..])
        .stdin(Stdio::piped())
        .stdout(Stdio::piped())
        .spawn()
        .map_err(|error| format!("{} does not start: {error}", command[0]))?;
    let mut pipe = child.stdin.take().expect("input is piped");
    let mut output = child.stdout.take().expect("output is piped");
    let input = input.to_vec();
    let writer = thread::spawn(move || {
        // What stands behind the last pair is not read.
        let _ = pipe.write_all(&input);
    });
    let mut printed = Vec::new();
    output.read_to_end(&mut printed).map_err(|error| format!("cannot be read: {error}"))?;
    writer.join().expect("the writer does not panic");
    let status = child.wait().map_err(|error| format!("its end is unknown: {error}"))?;
    if status.success() { Ok(printed) } else { Err(format!("the program ended with {status}")) }
}
