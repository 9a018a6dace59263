//! Lines for a person: names without tricks, counts with their plural, lists in 80 columns.

use std::ffi::OsStr;
use std::fmt::Display;
use std::io;
use std::os::unix::ffi::OsStrExt;

/// The columns of a line.
pub const WIDTH: usize = 80;

/// The character changes how what stands around it is shown.
fn is_tricky(c: char) -> bool {
    c.is_control()
        || matches!(c, '\u{ad}' | '\u{61c}' | '\u{200b}'..='\u{200f}' | '\u{2028}'..='\u{202e}')
        || matches!(c, '\u{2060}'..='\u{206f}' | '\u{feff}' | '\u{fff9}'..='\u{fffb}')
        || matches!(c, '\u{e0000}'..='\u{e007f}')
}

/// A name as it may be printed: what is not plainly visible stands as its bytes.
pub fn plain(name: impl AsRef<OsStr>) -> String {
    let mut said = String::new();
    for chunk in name.as_ref().as_bytes().utf8_chunks() {
        for c in chunk.valid().chars() {
            if is_tricky(c) || c == '\\' {
                let mut bytes = [0; 4];
                said.extend(c.encode_utf8(&mut bytes).bytes().map(|b| format!("\\x{b:02x}")));
            } else {
                said.push(c);
            }
        }
        said.extend(chunk.invalid().iter().map(|b| format!("\\x{b:02x}")));
    }
    said
}

/// What the system says of an error, without its number.
pub fn reason(e: &io::Error) -> String {
    let said = e.to_string();
    said.split(" (os error").next().unwrap_or_default().to_string()
}

/// A count of things: 1 slot, 2 slots.
pub fn count<N: Display + PartialEq + From<u8>>(n: N, thing: &str) -> String {
    let plural = if n == N::from(1) { "" } else { "s" };
    format!("{n} {thing}{plural}")
}

/// Words in a row behind a title, wrapped; later lines stand below the first word.
pub fn row(title: &str, words: impl IntoIterator<Item = impl Display>) -> String {
    let indent = title.len();
    let mut said = title.to_string();
    let mut column = indent;
    for word in words {
        let word = format!(" {word}");
        if WIDTH < column + word.len() {
            said.push('\n');
            said.extend(std::iter::repeat_n(' ', indent));
            column = indent;
        }
        column += word.len();
        said.push_str(&word);
    }
    said.push('\n');
    said
}

#[cfg(test)]
mod tests {
    use super::*;

    #[test]
    fn one_thing_has_no_plural() {
        let counts = [count(0u8, "slot"), count(1u16, "slot"), count(2usize, "slot")];
        assert_eq!(counts, ["0 slots", "1 slot", "2 slots"]);
    }
}
