//! `fixedbitset`.

extern crate fixedbitset;

use crate::Call;
use crate::lists::Lists;
use fixedbitset::FixedBitSet;
use std::hint::black_box;

pub struct Fixed<'a> {
    lists: &'a Lists,
    list: FixedBitSet,
    other: FixedBitSet,
    copy: FixedBitSet,
}

impl<'a> Fixed<'a> {
    pub fn new(lists: &'a Lists) -> Fixed<'a> {
        let list = of(&lists.list);
        Fixed { lists, copy: list.clone(), list, other: of(&lists.other) }
    }

    pub fn call(&self, name: &str) -> Option<Call<'_>> {
        let Fixed { lists, list, other, copy } = self;
        Some(match name {
            "count" => Box::new(move || list.count_ones(..) as u64),
            "and" => Box::new(move || black_box(list & other).len() as u64),
            "==" => Box::new(move || u64::from(list == copy)),
            "choose" => Box::new(move || {
                let mut chosen = Vec::with_capacity(list.count_ones(..));
                chosen.extend(list.ones().map(|i| lists.rows[i]));
                black_box(chosen).last().copied().unwrap_or(0)
            }),
            "for over indices" => Box::new(move || {
                let mut sum = 0;
                for i in list.ones() {
                    sum += lists.rows[i];
                }
                sum
            }),
            "sum of indices" => Box::new(move || list.ones().sum::<usize>() as u64),
            "for over values" => {
                let mut found = Vec::with_capacity(lists.len);
                Box::new(move || {
                    found.clear();
                    for (i, row) in lists.rows.iter().enumerate() {
                        if list[i] {
                            found.push(*row);
                        }
                    }
                    found.len() as u64
                })
            }
            "collect a predicate" => {
                let column = &lists.column;
                Box::new(move || {
                    let mut made = FixedBitSet::with_capacity(column.len());
                    for (i, it) in column.iter().enumerate() {
                        made.set(i, *it < lists.share);
                    }
                    black_box(made).len() as u64
                })
            }
            _ => return None,
        })
    }
}

fn of(list: &[bool]) -> FixedBitSet {
    let mut bits = FixedBitSet::with_capacity(list.len());
    for (i, value) in list.iter().enumerate() {
        bits.set(i, *value);
    }
    bits
}
