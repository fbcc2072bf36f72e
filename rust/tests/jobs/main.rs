//! The jobs of the benchmark on masks of this package. `JOB SEED ROUNDS` prints a digest of all answers of a job, as
//! the program `mask_bench` does. As a test it does each job, and compares the digests with those of `mask_bench`.
#![allow(clippy::all, clippy::pedantic, dead_code, unused_imports, unused_mut, unused_variables)]

mod awkward;
mod bitmaps;
mod calls;
mod digest;
mod groups;
mod lists;
mod numbers;
mod pages;
mod stacks;
mod table;

use crate::digest::Digest;
use crate::numbers::Numbers;
use row_mask::MaskError;
use std::process::ExitCode;

type Job = fn(&mut Numbers, u32, &mut Digest) -> Result<(), MaskError>;

/// What `mask_bench JOB SEED 100` prints, for each of the seeds.
const ROUNDS: u32 = 100;
const SEEDS: [u32; 3] = [1, 11, 424_242];
const JOBS: [(&str, Job, [u64; 3]); 5] = [
    ("stacks", stacks::run, [0x5921af85d813e00b, 0x1282b9b09a94b042, 0xe6d528c17554e76e]),
    ("bitmaps", bitmaps::run, [0x13987a813d69007c, 0x2e2640a7998766b9, 0x6f814aa30ed221cd]),
    ("groups", groups::run, [0xb28095a26fb0d871, 0x5059870b162dfdf4, 0xd4ab1f22e950ead3]),
    ("lists", lists::run, [0x290bd2dffb02abb2, 0x07419794febae4ca, 0xb37a524b493eb7fd]),
    ("awkward", awkward::run, [0x99d1bda87d00e193, 0x7603b23b2f188607, 0xc003ec438472c6f2]),
];

fn main() -> ExitCode {
    let words: Vec<String> = std::env::args().skip(1).collect();
    match &words[..] {
        [job, seed, rounds] if !job.starts_with('-') => one_job(job, seed, rounds),
        _ => all_jobs(),
    }
}

fn one_job(job: &str, seed: &str, rounds: &str) -> ExitCode {
    let (Ok(seed), Ok(rounds)) = (seed.parse(), rounds.parse()) else {
        eprintln!("usage: jobs stacks|bitmaps|groups|lists|awkward|all SEED ROUNDS");
        return ExitCode::from(2);
    };
    match digest_of(job, seed, rounds) {
        Ok(digest) => {
            println!("{digest:016x}");
            ExitCode::SUCCESS
        }
        Err(fault) => {
            eprintln!("{fault}");
            ExitCode::FAILURE
        }
    }
}

/// Does each job with each seed, says which have another digest, and how many there are.
fn all_jobs() -> ExitCode {
    let (mut digests, mut wrong) = (0, 0);
    for (job, _, wanted) in JOBS {
        for (seed, want) in SEEDS.into_iter().zip(wanted) {
            digests += 1;
            match digest_of(job, seed, ROUNDS) {
                Ok(digest) if digest == want => continue,
                Ok(digest) => println!("{job} {seed}: {digest:016x} for {want:016x}"),
                Err(fault) => println!("{job} {seed}: {fault}"),
            }
            wrong += 1;
        }
    }
    println!("{digests} digests, {wrong} wrong");
    if wrong == 0 { ExitCode::SUCCESS } else { ExitCode::FAILURE }
}

/// The digest of all answers of a job, or of each of them in turn.
fn digest_of(job: &str, seed: u32, rounds: u32) -> Result<u64, MaskError> {
    let mut digest = Digest::new();
    let mut numbers = Numbers::new(u64::from(seed));
    for (name, run, _) in JOBS {
        if job == "all" || job == name {
            run(&mut numbers, rounds, &mut digest)?;
        }
    }
    Ok(digest.state())
}
