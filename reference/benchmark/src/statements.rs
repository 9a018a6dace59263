//! The statement of 1,000 sites with full books: the proved program and the one in plain C, each started anew and timed
//! from its start to its end, and the reference within this program.

use crate::clock;
use crate::jobs::Site;
use std::fs::{self, File};
use std::process::{Command, Stdio};

pub const NAME: &str = "statement: 1,000 pairs of full books, the whole program";

const PAIRS: usize = 1000;

/// The images of a statement.
pub const IMAGES: f64 = 2.0 * PAIRS as f64;

/// Where the pairs stand for the programs to read.
const FILE: &str = concat!(env!("CARGO_MANIFEST_DIR"), "/../../target/benchmark/pairs");

/// The pairs, and the words that run each program.
pub struct Statements {
    pairs: Vec<u8>,
    pub proved: Vec<String>,
    pub plain: Vec<String>,
}

impl Statements {
    /// Takes the words that run the proved program, and behind `--` those that run the one in plain C.
    pub fn new(site: &Site, words: &[String]) -> Statements {
        let images = site.months.iter().flat_map(|image| {
            let length = u16::try_from(image.len()).expect("an image is short");
            [&length.to_be_bytes(), &image[..]].concat()
        });
        let pairs = images.collect::<Vec<u8>>().repeat(PAIRS);
        fs::write(FILE, &pairs).expect("the pairs are written");
        let mut programs = words.split(|word| word == "--").map(<[String]>::to_vec);
        let mut next = || programs.next().expect("usage: benchmark WORDS.. -- WORDS..");
        Statements { pairs, proved: next(), plain: next() }
    }

    /// The two programs print what the reference does, which takes the microseconds that are given back.
    pub fn compare(&self) -> f64 {
        let start = clock::microseconds();
        let printed = reference::statement::statement(&self.pairs).into_bytes();
        let took = clock::microseconds() - start;
        assert!(printed == run(&self.proved), "the program differs: {NAME}");
        assert!(printed == run(&self.plain), "plain C differs: {NAME}");
        took
    }
}

/// Microseconds of a run of the program.
pub fn time(words: &[String]) -> f64 {
    let start = clock::microseconds_of_programs();
    run(words);
    clock::microseconds_of_programs() - start
}

/// All that the program prints for the pairs.
fn run(words: &[String]) -> Vec<u8> {
    let pairs = File::open(FILE).expect("the pairs are there");
    let mut command = Command::new(&words[0]);
    let done = command.args(&words[1..]).stdin(pairs).stderr(Stdio::inherit()).output();
    let done = done.expect("the program starts");
    assert!(done.status.success(), "the program ends well");
    done.stdout
}
