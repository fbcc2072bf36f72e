//! Times jobs of a query engine by `row-mask` beside loops by hand.
//!
//!     cargo run --release --features jobs --bin jobs               prints the table
//!     cargo run --release --features jobs --bin jobs -- README.md  writes it into a page
//!     cargo run --release --features jobs --bin jobs -- --only JOB
//!
//! Each job is a function that engines have, over the public calls in `ours`, and over words in `by_hand`. Whole answers
//! of both are compared before they are timed. The lines are those of the job's functions, without what all jobs share.

mod by_hand;
mod columns;
mod job;
mod ours;
#[path = "../page.rs"]
mod page;
#[path = "../timed.rs"]
mod timed;

use columns::Columns;
use job::{JOBS, Job};
use std::env;
use std::fmt::Write;
use std::process::exit;
use std::time::Duration;
use timed::least;

/// A call of a side: it answers a digest of its result.
pub type Call<'a> = Box<dyn FnMut() -> u64 + 'a>;

const ROUNDS: usize = 4;
const EACH: Duration = Duration::from_millis(50);
const LENGTHS: [usize; 4] = [100, 1024, 1 << 16, 1 << 20];
const HEADING: &str = "## Jobs of an engine";

fn main() {
    if !by_hand::has_all() {
        eprintln!("the loops by hand are for processors with AVX2 and BMI2");
        exit(2);
    }
    let words: Vec<String> = env::args().skip(1).collect();
    let load = timed::load();
    match words.iter().map(String::as_str).collect::<Vec<_>>()[..] {
        [] => println!("{}\n{}", table(|_| true), timed::taken_on(&load, false)),
        ["--only", name] => print!("{}", table(|it| it == name)),
        [page] => page::write(page, HEADING, &table(|_| true), &timed::taken_on(&load, false)),
        _ => {
            eprintln!("a page to write, one job, or nothing");
            exit(2);
        }
    }
}

fn table(is_asked: impl Fn(&str) -> bool) -> String {
    let mut table =
        String::from("| Job | True | Lines | by hand, ns | row-mask |\n|---|---|---|---|---|\n");
    for job in JOBS.iter().filter(|job| is_asked(job.name)) {
        for share in job.shares {
            let times = LENGTHS.map(|len| timed(job, len, *share));
            let (lines, by_hand) = job.lines();
            let said = f64::from(*share) / 10.0;
            let hands = times.map(|(hand, _)| format!("{hand:.0}")).join(" / ");
            let ratios = times.map(|(hand, ours)| format!("{:.2}", ours / hand)).join(" / ");
            writeln!(
                table,
                "| {} | {said}% | {lines} ({by_hand}) | {hands} | {ratios} |",
                job.name
            )
            .unwrap();
        }
    }
    table
}

/// The times of the quickest loop by hand, and of `row-mask`, over columns that lie elsewhere in each round.
fn timed(job: &Job, len: usize, share: u32) -> (f64, f64) {
    let mut times: Vec<f64> = vec![];
    for round in 0..ROUNDS {
        let columns = Columns::new(len, share, round);
        let mut calls = (job.calls)(&columns);
        let now = least(&mut calls, EACH);
        times.resize(now.len(), f64::INFINITY);
        for (least, now) in times.iter_mut().zip(now) {
            *least = least.min(now);
        }
    }
    let ours = times.pop().unwrap();
    (times.into_iter().fold(f64::INFINITY, f64::min), ours)
}
