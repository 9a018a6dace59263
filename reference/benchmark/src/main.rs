//! Times the planner beside plain C and beside the reference, on the same jobs, and the program `statement` likewise.
//!
//! `benchmark WORDS.. -- WORDS..`: the words that run the program `statement`, and those that run it in plain C. Without
//! words the programs are left out.
//! Before any timing all three do every job, and each number and each byte that they give back must
//! be equal. Times are processor times, so that others on the machine count little. The three take turns
//! within a round; a ratio is the median of the rounds' ratios.

mod clock;
mod growth;
mod jobs;
mod planners;
mod site;
mod statements;

use jobs::{CHECK, JOBS, Job, OPENS, POST_OPENS, Site};
use planners::{PlainC, PlainTest, Planner, Proved, Reference};
use statements::Statements;
use std::hint::black_box;

const ROUNDS: usize = 25;

/// Microseconds that a job is run for at least, to be timed once.
const LEAST: f64 = 2000.0;

/// The reference is slow: it takes part in every so many rounds only.
const REFERENCE_EVERY: usize = 5;

fn main() {
    let site = Site::new(&Proved);
    for job in &JOBS {
        let ours = given_back(job, &Proved, &site);
        assert!(ours == given_back(job, &PlainC, &site), "plain C differs: {}", job.name);
        assert!(ours == given_back(job, &Reference, &site), "the reference differs: {}", job.name);
    }
    let tested = given_back(&POST_OPENS, &PlainTest, &site);
    assert!(tested == given_back(&POST_OPENS, &Proved, &site), "the plain test differs");
    let words: Vec<String> = std::env::args().skip(1).collect();
    let statements = (!words.is_empty()).then(|| Statements::new(&site, &words));
    let reference = statements.as_ref().map(Statements::compare);
    println!(
        "| Job | Planner, µs | Plain C, µs | Reference, µs | Planner : plain C | Reference : planner |"
    );
    println!("|---|--:|--:|--:|--:|--:|");
    for job in &JOBS {
        println!("{}", line(job, &site));
    }
    if let (Some(statements), Some(reference)) = (statements, reference) {
        print_statements(&statements, &site, reference);
    }
    print_month(&site);
    growth::print();
}

/// Prints how long the 64 opens of a month's end take, by each way to do them.
fn print_month(site: &Site) {
    let ways: [(&str, &Job, &dyn Planner); 5] = [
        ("one list, by the index: planner", &POST_OPENS, &Proved),
        ("one list, by the index: plain C", &POST_OPENS, &PlainC),
        ("one list, each offset tested against every hop: plain C", &POST_OPENS, &PlainTest),
        ("64 single calls: planner", &OPENS, &Proved),
        ("64 single calls: plain C", &OPENS, &PlainC),
    ];
    let mut rounds: [Vec<f64>; 5] = Default::default();
    for _ in 0..ROUNDS {
        for (all, (_, job, planner)) in rounds.iter_mut().zip(&ways) {
            all.push(time(job, *planner, site));
        }
    }
    println!("\n| 64 opens | µs | : the planner's list |");
    println!("|---|--:|--:|");
    for ((name, _, _), all) in ways.iter().zip(&rounds) {
        let ratio = of_rounds(all, &rounds[0]);
        println!("| {name} | {:.1} | {ratio:.2} |", median(all.clone()));
    }
}

/// Everything that the calls of a job give back.
fn given_back(job: &Job, planner: &dyn Planner, site: &Site) -> Vec<u8> {
    let mut bytes = Vec::new();
    (job.run)(planner, site, &mut |number, answer| {
        assert_eq!(number, 0, "every call of a job succeeds: {}", job.name);
        bytes.push(number);
        bytes.extend((answer.len() as u32).to_be_bytes());
        bytes.extend(answer);
    });
    bytes
}

/// A job's line of the table.
fn line(job: &Job, site: &Site) -> String {
    let (mut ours, mut plain, mut reference) = (Vec::new(), Vec::new(), Vec::new());
    for round in 0..ROUNDS {
        ours.push(time(job, &Proved, site));
        plain.push(time(job, &PlainC, site));
        if round % REFERENCE_EVERY == 0 {
            reference.push(time(job, &Reference, site));
        }
    }
    of_times(job.name, ours, plain, reference)
}

/// A line of the table, of the times of each round.
fn of_times(name: &str, ours: Vec<f64>, plain: Vec<f64>, reference: Vec<f64>) -> String {
    let ratio = of_rounds(&ours, &plain);
    let (ours, plain, reference) = (median(ours), median(plain), median(reference));
    let slower = reference / ours;
    format!("| {name} | {ours:.1} | {plain:.1} | {reference:.0} | {ratio:.2} | {slower:.1} |")
}

/// The median of the rounds' ratios.
fn of_rounds(a: &[f64], b: &[f64]) -> f64 {
    median(a.iter().zip(b).map(|(a, b)| a / b).collect())
}

/// Prints the line of the statement, and how long it takes beside a check of each image. The reference is timed once.
fn print_statements(statements: &Statements, site: &Site, reference: f64) {
    let (mut ours, mut plain, mut checks, mut plain_checks) = (vec![], vec![], vec![], vec![]);
    for _ in 0..ROUNDS {
        ours.push(statements::time(&statements.proved));
        plain.push(statements::time(&statements.plain));
        checks.push(statements::IMAGES * time(&CHECK, &Proved, site));
        plain_checks.push(statements::IMAGES * time(&CHECK, &PlainC, site));
    }
    let beside = [of_rounds(&ours, &checks), of_rounds(&plain, &plain_checks)];
    println!("{}", of_times(statements::NAME, ours, plain, vec![reference]));
    let [ours, plain] = beside.map(|ratio| format!("{ratio:.2}"));
    println!(
        "\nA statement takes {ours} times as long as a check of each image; in plain C {plain} times."
    );
}

/// Microseconds of a job.
fn time(job: &Job, planner: &dyn Planner, site: &Site) -> f64 {
    time_of(|| {
        (job.run)(planner, site, &mut |number, answer| {
            black_box((number, answer));
        });
    })
}

/// Microseconds of what is done, which is done twice as often until that takes long enough.
fn time_of(mut done: impl FnMut()) -> f64 {
    let mut times = 1;
    loop {
        let start = clock::microseconds();
        for _ in 0..times {
            done();
        }
        let took = clock::microseconds() - start;
        if took >= LEAST {
            return took / f64::from(times);
        }
        times *= 2;
    }
}

fn median(mut values: Vec<f64>) -> f64 {
    values.sort_by(f64::total_cmp);
    values[values.len() / 2]
}
