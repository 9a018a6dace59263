//! Colour, for a terminal only.

use std::env;
use std::io::{self, IsTerminal};

/// The colours of streams in turn.
const STREAMS: [&str; 12] =
    ["31", "32", "33", "34", "35", "36", "91", "92", "93", "94", "95", "96"];

/// Whether to colour.
#[derive(Clone, Copy)]
pub struct Colour(bool);

impl Colour {
    /// Colour on a terminal that has it and a user who wants it.
    pub fn for_output() -> Colour {
        let unset = |name| env::var_os(name).is_none_or(|value| value.is_empty());
        let dumb = env::var_os("TERM").is_none_or(|term| term == "dumb");
        Colour(io::stdout().is_terminal() && unset("NO_COLOR") && !dumb)
    }

    fn paint(self, code: &str, text: &str) -> String {
        if self.0 {
            format!("\x1b[{code}m{text}\x1b[0m")
        } else {
            text.to_string()
        }
    }

    pub fn title(self, text: &str) -> String {
        self.paint("1", text)
    }

    pub fn faint(self, text: &str) -> String {
        self.paint("2", text)
    }

    /// What belongs to the stream at a place.
    pub fn stream(self, place: Option<usize>, text: &str) -> String {
        self.paint(STREAMS[place.unwrap_or(0) % STREAMS.len()], text)
    }
}
