//! What the program statement says of pairs of images, line by line.

use crate::book::stated_nodes;
use crate::dialogue::{number, Lines};
use crate::loaded::is_of_book;
use crate::pairs::Pair;
use crate::program::STATEMENT;
use crate::trouble::Trouble;

/// The fewest free slots of any node, the sum of used, and the longest latency; or the sums and the longest of all.
#[derive(Clone, Copy, Default, PartialEq, Eq, Debug)]
pub struct Figures {
    pub fewest: u64,
    pub used: u64,
    pub latency: u64,
}

/// The figures of an image, or the number of its refusal.
pub type Month = Result<Figures, u8>;

/// What is said of a site.
pub struct Site {
    pub months: [Month; 2],
    /// The nodes of each month's book; of a refused one it is nothing to go by.
    pub nodes: [usize; 2],
    /// Each node's free slots this month less last month's, with the sign; none where a book is refused or has other nodes.
    pub movement: Option<Vec<String>>,
}

pub struct Statement {
    pub sites: Vec<Site>,
    pub totals: Figures,
}

/// Whether a word is a difference as the program prints it: with its sign, and 0 without.
fn is_signed(word: &str) -> bool {
    let value = word.parse::<i64>();
    value.is_ok_and(|value| word == "0" || (value != 0 && format!("{value:+}") == word))
}

fn figures(line: &str) -> Option<Figures> {
    let numbers: Option<Vec<u64>> = line.split(' ').map(number).collect();
    match numbers?[..] {
        [fewest, used, latency] => Some(Figures { fewest, used, latency }),
        _ => None,
    }
}

fn month(line: &str) -> Option<Month> {
    let Some(said) = line.strip_prefix("refused ") else { return figures(line).map(Ok) };
    let number = number(said).and_then(|number| u8::try_from(number).ok());
    number.filter(|&number| is_of_book(number)).map(Err)
}

/// The difference of each of so many nodes.
fn movement(line: &str, nodes: usize) -> Option<Vec<String>> {
    let words: Vec<String> = line.split(' ').map(String::from).collect();
    (words.len() == nodes && words.iter().all(|word| is_signed(word))).then_some(words)
}

/// What the next lines say of a site.
fn site(lines: &mut Lines, pair: &Pair) -> Result<Site, Trouble> {
    let no_answer = || STATEMENT.no_answer();
    let mut next = || month(lines.next()?).ok_or_else(no_answer);
    let months = [next()?, next()?];
    let nodes = pair.each_ref().map(|image| stated_nodes(image).into());
    let moves = months.iter().all(Result::is_ok) && nodes[0] == nodes[1];
    let movement = match moves {
        true => Some(movement(lines.next()?, nodes[0]).ok_or_else(no_answer)?),
        false => None,
    };
    Ok(Site { months, nodes, movement })
}

/// The sums and the longest over the accepted images.
fn totals(sites: &[Site]) -> Figures {
    let accepted = sites.iter().flat_map(|site| &site.months).flatten();
    accepted.fold(Figures::default(), |all, own| Figures {
        fewest: all.fewest.saturating_add(own.fewest),
        used: all.used.saturating_add(own.used),
        latency: all.latency.max(own.latency),
    })
}

impl Statement {
    /// Reads what was said of the pairs; the last line is what the others add up to.
    pub fn read(said: &str, pairs: &[Pair]) -> Result<Statement, Trouble> {
        let mut lines = Lines::new(&STATEMENT, said);
        let sites = pairs.iter().map(|pair| site(&mut lines, pair));
        let sites = sites.collect::<Result<Vec<_>, _>>()?;
        let last = figures(lines.next()?);
        let totals = totals(&sites);
        if last != Some(totals) || !lines.is_read() {
            return Err(STATEMENT.no_answer());
        }
        Ok(Statement { sites, totals })
    }

    /// An image is refused.
    pub fn is_refused(&self) -> bool {
        self.sites.iter().flat_map(|site| &site.months).any(Result::is_err)
    }
}

#[cfg(test)]
mod tests {
    use super::*;

    fn of_nodes(nodes: [u8; 2]) -> Pair {
        nodes.map(|nodes| vec![nodes; 16])
    }

    #[test]
    fn a_movement_of_three_nodes_is_no_line_of_figures() {
        let said = "5 0 0\n5 0 0\n0 0 0\n10 0 0\n";
        let read = Statement::read(said, &[of_nodes([3, 3])]);
        assert_eq!(read.map(|read| read.totals.fewest).ok(), Some(10));
        assert!(Statement::read(said, &[of_nodes([3, 4])]).is_err());
    }

    #[test]
    fn only_what_the_program_prints_is_read() {
        let good = "5 2 1\n3 4 2\n-2 +1\n8 6 2\n";
        assert!(Statement::read(good, &[of_nodes([2, 2])]).is_ok());
        let edits = [("+1", "1"), ("-2 ", "-2  "), ("8 6", "8 7"), ("3 4 2", "refused 9")];
        for (part, wrong) in edits.into_iter().chain([("5 2 1", "05 2 1"), ("-2 +1", "-2 +0")]) {
            let said = good.replacen(part, wrong, 1);
            assert!(Statement::read(&said, &[of_nodes([2, 2])]).is_err(), "{said}");
        }
    }
}
