//! Texts as a person types them: lines of words, and what is wrong in which line.

use crate::files;
use std::path::Path;

/// The mark that some editors put before a text.
const BYTE_ORDER_MARK: &[u8] = b"\xef\xbb\xbf";

/// What is wrong, in which line; line 0 is the whole.
#[derive(Debug, PartialEq, Eq)]
pub struct Fault {
    pub line: usize,
    pub words: String,
}

pub fn fault<T>(line: usize, words: impl Into<String>) -> Result<T, Fault> {
    Err(Fault { line, words: words.into() })
}

impl Fault {
    /// Says what is wrong with a file, and in which line.
    pub fn said_of(&self, path: &Path) -> String {
        format!("{}: {}", self.place(path), self.words)
    }

    /// The file, and the line of it.
    pub fn place(&self, path: &Path) -> String {
        let name = files::called(path);
        match self.line {
            0 => name,
            line => format!("{name}, line {line}"),
        }
    }
}

/// The words of each line, with its number: a byte-order mark, carriage returns and tabs are blanks, # starts a comment.
pub fn lines(text: &[u8]) -> impl Iterator<Item = (usize, Vec<&[u8]>)> {
    let text = text.strip_prefix(BYTE_ORDER_MARK).unwrap_or(text);
    text.split(|&b| b == b'\n').enumerate().map(|(place, line)| {
        let said = line.split(|&b| b == b'#').next().unwrap_or_default();
        let words = said.split(u8::is_ascii_whitespace).filter(|word| !word.is_empty());
        (place + 1, words.collect())
    })
}

/// A number in digits; one that is very large is the largest there is.
pub fn number(word: &[u8]) -> Option<u64> {
    if word.is_empty() || !word.iter().all(u8::is_ascii_digit) {
        return None;
    }
    let digit = |n: u64, &c: &u8| n.saturating_mul(10).saturating_add(u64::from(c - b'0'));
    Some(word.iter().fold(0, digit))
}

/// Words as so many numbers.
pub fn numbers<const N: usize>(words: &[&[u8]]) -> Option<[u64; N]> {
    let found = words.iter().map(|word| number(word)).collect::<Option<Vec<_>>>()?;
    found.try_into().ok()
}
