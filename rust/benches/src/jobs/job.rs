//! The jobs, and what their answers say of themselves.

use crate::by_hand::{self, Words};
use crate::columns::Columns;
use crate::{Call, ours};
use row_mask::BitmapBuf;

/// A job: the calls of the loops by hand, and that of `row-mask` behind them.
pub struct Job {
    pub name: &'static str,
    /// How many of 1,000 rows are chosen.
    pub shares: &'static [u32],
    pub calls: for<'a> fn(&'a Columns) -> Vec<Call<'a>>,
    sources: [(&'static str, &'static str); 2],
}

impl Job {
    /// The lines of the functions by `row-mask`, and of those by hand.
    pub fn lines(&self) -> (usize, usize) {
        let [ours, by_hand] = self.sources.map(|(source, name)| lines_of(source, name));
        (ours, by_hand)
    }
}

/// The lines of a function that aren't comments.
fn lines_of(source: &str, name: &str) -> usize {
    let begins = format!("fn {name}(");
    let from = source.lines().skip_while(|line| !line.contains(&begins));
    let lines = from.take_while(|line| *line != "}");
    lines.filter(|line| !line.trim().is_empty() && !line.trim().starts_with("//")).count() + 1
}

/// What a job answers.
pub trait Answer {
    /// All of it, as numbers.
    fn whole(&self) -> Vec<u64>;

    /// A number that it can't be without.
    fn digest(&self) -> u64;
}

impl Answer for Vec<i64> {
    fn whole(&self) -> Vec<u64> {
        self.iter().map(|it| it.cast_unsigned()).collect()
    }

    fn digest(&self) -> u64 {
        self.last().map_or(0, |it| it.cast_unsigned())
    }
}

impl Answer for Vec<u32> {
    fn whole(&self) -> Vec<u64> {
        self.iter().map(|it| u64::from(*it)).collect()
    }

    fn digest(&self) -> u64 {
        self.last().map_or(0, |it| u64::from(*it))
    }
}

impl Answer for u64 {
    fn whole(&self) -> Vec<u64> {
        vec![*self]
    }

    fn digest(&self) -> u64 {
        *self
    }
}

impl Answer for Words {
    fn whole(&self) -> Vec<u64> {
        let mut whole = self.words.clone();
        whole.push(self.len as u64);
        whole
    }

    fn digest(&self) -> u64 {
        self.words.last().copied().unwrap_or(0)
    }
}

impl Answer for BitmapBuf {
    fn whole(&self) -> Vec<u64> {
        let mut whole = self.as_bitmap().to_words();
        whole.push(self.len() as u64);
        whole
    }

    fn digest(&self) -> u64 {
        self.as_bytes().last().copied().map_or(0, u64::from)
    }
}

impl<A: Answer, B: Answer> Answer for (A, B) {
    fn whole(&self) -> Vec<u64> {
        let mut whole = self.0.whole();
        whole.extend(self.1.whole());
        whole
    }

    fn digest(&self) -> u64 {
        self.0.digest() ^ self.1.digest()
    }
}

/// The calls of the loops by hand and of `row-mask`, which answer a digest of what has to be the same as a whole.
fn sides<'a, A: Answer + 'a, B: Answer + 'a, const N: usize>(
    columns: &'a Columns,
    ours: fn(&Columns) -> A,
    by_hand: [unsafe fn(&Columns) -> B; N],
) -> Vec<Call<'a>> {
    let expected = ours(columns).whole();
    let mut calls: Vec<Call<'_>> = vec![];
    for job in by_hand {
        // SAFETY: the program asked whether the processor has what the loops take.
        let answer = move || unsafe { job(columns) };
        assert!(answer().whole() == expected, "two sides answer differently");
        calls.push(Box::new(move || answer().digest()));
    }
    calls.push(Box::new(move || ours(columns).digest()));
    calls
}

/// The name of a job's functions, and the sources that they stand in.
macro_rules! sources {
    ($module:literal, $name:literal) => {
        [
            (include_str!(concat!("ours/", $module, ".rs")), $name),
            (include_str!(concat!("by_hand/", $module, ".rs")), $name),
        ]
    };
}

const SHARES: &[u32] = &[10, 500, 900];
const HALF: &[u32] = &[500];

pub const JOBS: [Job; 13] = [
    Job {
        name: "scan of three predicates",
        shares: SHARES,
        calls: |columns| sides(columns, ours::scan::scan, [by_hand::scan::scan]),
        sources: sources!("scan", "scan"),
    },
    Job {
        name: "pages pruned",
        shares: SHARES,
        calls: |columns| sides(columns, ours::pages::pages, [by_hand::pages::pages]),
        sources: sources!("pages", "pages"),
    },
    Job {
        name: "bitmap to row numbers",
        shares: SHARES,
        calls: |columns| sides(columns, ours::rows::indices, [by_hand::rows::indices]),
        sources: sources!("rows", "indices"),
    },
    Job {
        name: "row numbers to bitmap",
        shares: SHARES,
        calls: |columns| sides(columns, ours::rows::from_indices, [by_hand::rows::from_indices]),
        sources: sources!("rows", "from_indices"),
    },
    Job {
        name: "rows at row numbers",
        shares: SHARES,
        calls: |columns| sides(columns, ours::rows::take, [by_hand::rows::take]),
        sources: sources!("rows", "take"),
    },
    Job {
        name: "sum with nulls",
        shares: &[500, 900],
        calls: |columns| sides(columns, ours::nulls::sum, [by_hand::nulls::sum]),
        sources: sources!("nulls", "sum"),
    },
    Job {
        name: "sum of few rows",
        shares: &[10],
        calls: |columns| sides(columns, ours::nulls::sum_of_few, [by_hand::nulls::sum_of_few]),
        sources: sources!("nulls", "sum_of_few"),
    },
    Job {
        name: "AND with nulls",
        shares: HALF,
        calls: |columns| sides(columns, ours::nulls::and_kleene, [by_hand::nulls::and_kleene]),
        sources: sources!("nulls", "and_kleene"),
    },
    Job {
        name: "deletions merged",
        shares: HALF,
        calls: |columns| sides(columns, ours::deletions::merged, [by_hand::deletions::merged]),
        sources: sources!("deletions", "merged"),
    },
    Job {
        name: "deletions by ranks",
        shares: SHARES,
        calls: |columns| {
            sides(
                columns,
                ours::deletions::deleted_by_ranks,
                [by_hand::deletions::deleted_by_ranks],
            )
        },
        sources: sources!("deletions", "deleted_by_ranks"),
    },
    Job {
        name: "bits renumbered",
        shares: SHARES,
        calls: |columns| {
            sides(columns, ours::deletions::renumbered, [by_hand::deletions::renumbered])
        },
        sources: sources!("deletions", "renumbered"),
    },
    Job {
        name: "parts of 10 appended",
        shares: HALF,
        calls: |columns| sides(columns, ours::appends::tens, [by_hand::appends::tens]),
        sources: sources!("appends", "appended"),
    },
    Job {
        name: "parts of 1,000 appended",
        shares: HALF,
        calls: |columns| sides(columns, ours::appends::thousands, [by_hand::appends::thousands]),
        sources: sources!("appends", "appended"),
    },
];
