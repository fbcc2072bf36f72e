//! The tables: each call's time beside the best loop by hand, as a ratio.

use crate::Call;
use crate::by_hand::ByHand;
use crate::lists::{Lists, Share};
use crate::ours::Ours;
#[cfg(not(row_mask_one_level))]
use crate::peers::NAMES;
use crate::peers::Peers;
use crate::timed::{self, least};
use std::fmt::Write;
use std::time::Duration;

// A table is timed so often from its first line to the last, since the machine may be slow for some seconds.
const ROUNDS: usize = 4;
const EACH: Duration = Duration::from_millis(50);
const SHARES: [(Share, &str); 3] = [(10, "1%"), (500, "50%"), (990, "99%")];
#[cfg(not(row_mask_one_level))]
const SHARES_OF_BATCHES: [(Share, &str); 3] = [(100, "10%"), (500, "50%"), (900, "90%")];
// Of the second table, and of all lines of `turns`.
const LENGTHS: [usize; 4] = [100, 1000, 1 << 16, 1 << 20];

/// A table of the page, below its heading.
pub struct Table {
    pub heading: &'static str,
    ours: &'static str,
    calls: &'static [&'static str],
    lengths: &'static [usize],
    shares: [(Share, &'static str); 3],
    peers: &'static [&'static str],
}

/// Those of a build whose calls go by what it is compiled for.
#[cfg(row_mask_one_level)]
pub const TABLES: [Table; 1] = [Table {
    heading: "## Without `pdep` and `pext`",
    ours: "row-mask",
    calls: &["rank intersection, no pdep", "choose bits, no pext"],
    lengths: &[1 << 16, 1 << 20],
    shares: SHARES,
    peers: &[],
}];

#[cfg(not(row_mask_one_level))]
pub const TABLES: [Table; 3] = [
    Table {
        heading: "## Table",
        ours: "row-mask",
        calls: &[
            "count",
            "and",
            "and, at odd bits",
            "==",
            "==, at odd bits",
            "rank intersection",
            "choose",
            "choose bits, by pext",
            "choose bits, of Vec<bool>",
            "choose, by a selection",
            "choose bits, by a selection",
            "choose strings, by a selection",
            "for over indices",
            "sum of indices",
            "for over values",
            "from_rows of a predicate",
            "collect a predicate",
            "from_fn of a predicate",
            "retain by a predicate",
            "scan",
        ],
        lengths: &[1 << 16, 1 << 20],
        shares: SHARES,
        peers: &NAMES,
    },
    Table {
        heading: "## Batches",
        ours: "row-mask",
        calls: &[
            "and",
            "rank intersection",
            "choose",
            "choose, of 4 bytes",
            "choose, by a selection",
            "choose, of 4 bytes, by a selection",
            "Mask::choose",
            "Mask::choose, of 4 bytes",
            "from_rows of a predicate",
            "collect a predicate",
            "scan",
        ],
        lengths: &[100, 1024, 8192],
        shares: SHARES_OF_BATCHES,
        peers: &[],
    },
    Table {
        heading: "## Masks",
        ours: "Mask",
        calls: &[
            "Mask::intersect_by_rank",
            "Mask::bitand",
            "Mask::bitor",
            "Mask::not",
            "Mask::to_bitand_not",
            "Mask::indices",
            "Mask::slices",
            "Mask::to_limited",
            "Mask::concat",
        ],
        lengths: &LENGTHS,
        shares: SHARES,
        peers: &[],
    },
];

/// The names of all calls.
pub fn calls() -> impl Iterator<Item = &'static str> {
    let mut calls: Vec<&str> = Vec::new();
    for name in TABLES.iter().flat_map(|table| table.calls) {
        if !calls.contains(name) {
            calls.push(name);
        }
    }
    calls.into_iter()
}

/// Each line of `turns`: a call, of how many rows, and of how many in 1,000 true ones.
pub fn lines() -> impl Iterator<Item = (&'static str, usize, Share)> {
    calls().flat_map(|name| {
        SHARES.into_iter().flat_map(move |(share, _)| LENGTHS.map(|len| (name, len, share)))
    })
}

/// The time of a call of `row-mask` alone, and what is taken off it, which `turns` asks for.
pub fn turn(name: &str, len: usize, share: Share, round: usize) -> (f64, f64) {
    let lists = &Lists::new(len, share, round);
    let (by_hand, ours) = (ByHand(lists), Ours(lists));
    let mut calls = compared(&by_hand, &ours, name);
    calls.drain(..calls.len() - 1);
    calls.extend(ours.beside(name));
    let times = least(&mut calls, EACH);
    (times[0], times.get(1).copied().unwrap_or(0.0))
}

/// The calls by hand, and that of `row-mask` behind them, whose answers are the same.
fn compared<'a>(by_hand: &'a ByHand<'_>, ours: &'a Ours<'_>, name: &str) -> Vec<Call<'a>> {
    let mut calls = by_hand.calls(name);
    calls.push(ours.call(name).unwrap());
    let answers: Vec<u64> = calls.iter_mut().map(|call| call()).collect();
    assert!(answers.iter().all(|it| *it == answers[0]), "{name}: {answers:?}");
    calls
}

impl Table {
    /// The lines of the calls that are asked for, or nothing where none is.
    pub fn timed(&self, is_asked: impl Fn(&str) -> bool) -> String {
        let of_call = |name| {
            self.shares
                .map(|(share, said)| self.lengths.iter().map(move |len| (name, *len, share, said)))
        };
        let asked = self.calls.iter().filter(|name| is_asked(name));
        let mut lines: Vec<Line> = asked
            .flat_map(|name| of_call(*name))
            .flatten()
            .map(|(name, len, share, said)| Line::new(name, len, share, said, self.peers.len()))
            .collect();
        for round in 0..ROUNDS {
            for line in &mut lines {
                line.time(round);
            }
        }
        let mut titles = vec!["Call", "True", "by hand, ns", self.ours];
        titles.extend(self.peers);
        let mut table = format!("| {} |\n|{}\n", titles.join(" | "), "---|".repeat(titles.len()));
        for row in lines.chunks(self.lengths.len()) {
            let Line { name, said, .. } = row[0];
            let cells: Vec<Vec<String>> = row.iter().map(Line::cells).collect();
            let column = |at: usize| {
                let said: Vec<&str> = cells.iter().map(|it| it[at].as_str()).collect();
                let is_one = said.iter().all(|it| *it == said[0]);
                if is_one { said[0].to_string() } else { said.join(" / ") }
            };
            let columns: Vec<String> = (0..cells[0].len()).map(column).collect();
            writeln!(table, "| {name} | {said} | {} |", columns.join(" | ")).unwrap();
        }
        if lines.is_empty() { String::new() } else { table }
    }

    pub fn taken_on(&self, load_before: &str) -> String {
        timed::taken_on(load_before, !self.peers.is_empty())
    }
}

/// A number with commas between groups of three digits.
fn grouped(number: usize) -> String {
    let digits = number.to_string();
    let groups: Vec<&str> = digits
        .as_bytes()
        .rchunks(3)
        .rev()
        .map(|group| std::str::from_utf8(group).unwrap())
        .collect();
    groups.join(",")
}

/// A line of a table, and the least times so far: those of the loops by hand, of `row-mask` with what is taken off, and of
/// the peers that have such a call.
struct Line {
    name: &'static str,
    len: usize,
    share: Share,
    said: &'static str,
    by_hand: Vec<f64>,
    ours: f64,
    beside: f64,
    peers: Vec<Option<f64>>,
}

impl Line {
    fn new(name: &'static str, len: usize, share: Share, said: &'static str, peers: usize) -> Line {
        let (by_hand, peers) = (vec![], vec![None; peers]);
        let (ours, beside) = (f64::INFINITY, f64::INFINITY);
        Line { name, len, share, said, by_hand, ours, beside, peers }
    }

    /// Times all once more, of lists that lie elsewhere in each round.
    fn time(&mut self, round: usize) {
        let lists = &Lists::new(self.len, self.share, round);
        let (by_hand, ours, peers) = (ByHand(lists), Ours(lists), Peers::new(lists));
        let mut calls = compared(&by_hand, &ours, self.name);
        let hands = calls.len() - 1;
        // (a table has columns for all of them, or for none)
        let peers: Vec<_> = peers.calls(self.name).into_iter().take(self.peers.len()).collect();
        let has: Vec<bool> = peers.iter().map(Option::is_some).collect();
        calls.extend(peers.into_iter().flatten());
        calls.extend(ours.beside(self.name));
        let mut times = least(&mut calls, EACH).into_iter();
        self.by_hand.resize(hands, f64::INFINITY);
        for least in &mut self.by_hand {
            *least = least.min(times.next().unwrap());
        }
        self.ours = self.ours.min(times.next().unwrap());
        for (least, has) in self.peers.iter_mut().zip(has) {
            *least = has.then(|| times.next().unwrap().min(least.unwrap_or(f64::INFINITY)));
        }
        self.beside = self.beside.min(times.next().unwrap_or(0.0));
    }

    /// The time of the best loop by hand, and the ratios of the others to it.
    fn cells(&self) -> Vec<String> {
        let best = self.by_hand.iter().copied().fold(f64::INFINITY, f64::min);
        let mut cells = vec![nanoseconds(best), format!("{:.2}", (self.ours - self.beside) / best)];
        cells.extend(
            self.peers
                .iter()
                .map(|least| least.map_or("-".into(), |it| format!("{:.2}", it / best))),
        );
        cells
    }
}

fn nanoseconds(time: f64) -> String {
    #[expect(clippy::cast_possible_truncation, clippy::cast_sign_loss, reason = "a time")]
    grouped(time.round() as usize)
}
