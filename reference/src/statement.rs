//! The statement over many sites: two images a site, last month's and this
//! month's.

use crate::book::Book;
use crate::image;
use crate::refusal::Refusal;
use crate::table::balance;

/// The most pairs read.
const MAX_PAIRS: usize = 1000;

/// What a line says of an image.
#[derive(Clone, Copy, Default)]
struct Line {
    /// The fewest free slots of any node.
    free: u64,
    /// The sum of used over the nodes.
    used: u64,
    /// The longest latency of any row.
    latency: u64,
}

impl Line {
    fn print(self) -> String {
        format!("{} {} {}\n", self.free, self.used, self.latency)
    }

    /// The two sums and the maximum.
    fn add(self, other: Line) -> Line {
        Line {
            free: self.free + other.free,
            used: self.used + other.used,
            latency: self.latency.max(other.latency),
        }
    }
}

/// Everything that the program prints for this input.
pub fn statement(input: &[u8]) -> String {
    let (mut text, mut rest, mut total) = (String::new(), input, Line::default());
    for _ in 0..MAX_PAIRS {
        if rest.is_empty() {
            break;
        }
        let mut months = Vec::new();
        for _ in 0..2 {
            let Some(image) = take_image(&mut rest) else {
                return text + &refused(Refusal::WrongLength);
            };
            match image::read(image) {
                Err(refusal) => text += &refused(refusal),
                Ok((_, book)) => {
                    let line = line_of(&book);
                    text += &line.print();
                    total = total.add(line);
                    months.push(book);
                }
            }
        }
        if let [last, this] = &months[..] {
            text += &movement(last, this).unwrap_or_default();
        }
    }
    text + &total.print()
}

fn refused(refusal: Refusal) -> String {
    format!("refused {}\n", refusal as u8)
}

/// Takes a length of two bytes and so many bytes off the front; none if the
/// input ends before they do.
fn take_image<'a>(rest: &mut &'a [u8]) -> Option<&'a [u8]> {
    let (length, after) = rest.split_at_checked(2)?;
    let length = usize::from(u16::from_be_bytes([length[0], length[1]]));
    let (image, left) = after.split_at_checked(length)?;
    *rest = left;
    Some(image)
}

/// The free slots of each node.
fn free(book: &Book) -> Vec<u32> {
    (0..book.topology.nodes()).map(|node| balance(book, node).free).collect()
}

fn line_of(book: &Book) -> Line {
    let used = (0..book.topology.nodes()).map(|node| u64::from(balance(book, node).used)).sum();
    let latencies = book.rows.iter().map(|row| {
        let last = row.offsets.last().expect("a row has a hop");
        u64::from(last - row.offsets[0]) + 1
    });
    Line {
        free: free(book).into_iter().min().map_or(0, u64::from),
        used,
        latency: latencies.max().unwrap_or(0),
    }
}

/// Each node's free slots this month less last month's, with its sign; none if
/// the nodes are not as many.
fn movement(last: &Book, this: &Book) -> Option<String> {
    let signed = |(last, this): (u32, u32)| match i64::from(this) - i64::from(last) {
        0 => "0".to_string(),
        moved => format!("{moved:+}"),
    };
    let moved: Vec<String> = free(last).into_iter().zip(free(this)).map(signed).collect();
    (last.topology.nodes() == this.topology.nodes()).then(|| moved.join(" ") + "\n")
}
