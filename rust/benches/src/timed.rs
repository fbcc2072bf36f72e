//! The time of a call, and what the times were taken on.

use crate::Call;
use std::fs;
use std::hint::black_box;
use std::process::Command;
use std::time::{Duration, Instant};

// Calls that take less than this, in nanoseconds, are timed so many in a row that they take as long: to ask for the time
// takes some 50.
const SHORT: f64 = 2000.0;

/// The least time of each call, in nanoseconds, of those that `each` is time for. They take turns, so that what else
/// the machine does meets all.
pub fn least(calls: &mut [Call<'_>], each: Duration) -> Vec<f64> {
    let in_a_row: Vec<u32> = calls.iter_mut().map(in_a_row).collect();
    let mut least = vec![f64::INFINITY; calls.len()];
    let (all, budget) = (Instant::now(), each * u32::try_from(calls.len()).unwrap());
    while all.elapsed() < budget {
        for ((call, count), least) in calls.iter_mut().zip(&in_a_row).zip(&mut least) {
            *least = least.min(time(call, *count));
        }
    }
    least
}

/// The time of a call, by so many in a row.
fn time(call: &mut Call<'_>, count: u32) -> f64 {
    let began = Instant::now();
    for _ in 0..count {
        black_box(call());
    }
    began.elapsed().as_secs_f64() * 1e9 / f64::from(count)
}

fn in_a_row(call: &mut Call<'_>) -> u32 {
    let mut count = 1;
    // (the least of some, since the first ones take longer)
    let is_short = |time: f64, count| time * f64::from(count) < SHORT;
    while (0..4).any(|_| is_short(time(call, count), count)) {
        count *= 2;
    }
    count
}

/// How many threads ran or waited to run, in the last minute.
pub fn load() -> String {
    let said = fs::read_to_string("/proc/loadavg").unwrap_or_default();
    said.split(' ').next().unwrap_or_default().to_string()
}

/// The machine, its load, the compiler's target, the commit, and the peers, where a table has them.
pub fn taken_on(load_before: &str, has_peers: bool) -> String {
    let cpus = fs::read_to_string("/proc/cpuinfo").unwrap_or_default();
    let model = cpus.lines().find_map(|line| line.strip_prefix("model name\t: "));
    let (model, day) = (model.unwrap_or("an unknown processor"), said("date", &["-u", "+%F"]));
    let (commit, load) = (said("git", &["rev-parse", "--short", "HEAD"]), load());
    let level = if cfg!(target_feature = "avx2") { "x86-64-v3" } else { "x86-64-v2" };
    let rustc = said("rustc", &["--version"]);
    let rustc = rustc.split(' ').nth(1).unwrap_or_default();
    let fixed = option_env!("FIXEDBITSET_VERSION")
        .filter(|_| has_peers)
        .map(|version| format!(", `fixedbitset` {version}"))
        .unwrap_or_default();
    let has_roaring = has_peers && cfg!(feature = "roaring");
    let other = if has_roaring { " but CRoaring, which is the system's build," } else { "" };
    format!(
        "Measured at commit {commit} on {day}, on {model}, with a load of {load_before} before and {load} after. All \
         sides{other} are compiled for {level} by rustc {rustc}{fixed}."
    )
}

fn said(program: &str, arguments: &[&str]) -> String {
    let output = Command::new(program).args(arguments).output();
    output.map(|it| String::from_utf8_lossy(&it.stdout).trim().to_string()).unwrap_or_default()
}
