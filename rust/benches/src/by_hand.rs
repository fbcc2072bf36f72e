//! Loops over words, as one who knows the processor writes them. Where there are several, all are timed, and the
//! quickest is the one that counts.

mod bits;
mod compress;
mod masks;
mod pack;
mod rows;
mod scan;

use crate::Call;
use crate::lists::{Lists, Packed};
use crate::ours::digest;
use bits::{
    and, and_moved, and_of_few, bit_by_bit, bits_one_by_one, by_pdep, by_pext, count, equal_moved,
    filtered, filtered_in_room,
};
use compress::{choose_by_avx2, choose_by_avx512, choose_one_by_one};
use pack::{
    packed, packed_by_avx2, packed_by_avx512, packed_by_eights, packed_by_lanes, packed_by_shifts,
};
use rows::{
    choose, choose_all, choose_by_pushes, found, found_by_words, gathered, retained, strings,
    sum_of_indices, sum_of_rows,
};
use scan::{kept_and_listed, kept_as_they_come, scan};
use std::hint::black_box;

pub struct ByHand<'a>(pub &'a Lists);

impl ByHand<'_> {
    pub fn calls(&self, name: &str) -> Vec<Call<'_>> {
        let (lists, Packed { list: a, other: b, copy, ranks, moved }) = (self.0, &self.0.packed);
        let (a_moved, b_moved) = moved;
        let (rows, column, len) = (&lists.rows[..], &lists.column[..], lists.len);
        match name {
            "count" => vec![Box::new(move || count(a) as u64)],
            "and" if len <= 128 => vec![Box::new(move || last(&and_of_few(a, b), len))],
            "and" => vec![Box::new(move || last(&and(a, b), len))],
            "and, at odd bits" => {
                vec![Box::new(move || last(&and_moved(a_moved, b_moved, len), len))]
            }
            "==" => vec![Box::new(move || u64::from(a == copy))],
            "==, at odd bits" => vec![Box::new(move || u64::from(equal_moved(a_moved, copy, len)))],
            "rank intersection" => vec![
                Box::new(move || last(&by_pdep(a, ranks), len)),
                Box::new(move || last(&bit_by_bit(a, ranks), len)),
            ],
            "rank intersection, no pdep" => {
                vec![Box::new(move || last(&bit_by_bit(a, ranks), len))]
            }
            "choose" | "Mask::choose" => vec![
                Box::new(move || choose(a, rows).last().copied().unwrap_or(0)),
                Box::new(move || choose_by_pushes(a, rows).last().copied().unwrap_or(0)),
                Box::new(move || choose_all(a, rows).last().copied().unwrap_or(0)),
                Box::new(move || choose_by_avx2(a, rows).last().copied().unwrap_or(0)),
                Box::new(move || choose_by_avx512(a, rows).last().copied().unwrap_or(0)),
            ],
            "choose, of 4 bytes"
            | "choose, of 4 bytes, by a selection"
            | "Mask::choose, of 4 bytes" => vec![
                Box::new(move || choose_one_by_one(a, column).last().map_or(0, |it| (*it).into())),
                Box::new(move || choose_by_avx2(a, column).last().map_or(0, |it| (*it).into())),
                Box::new(move || choose_by_avx512(a, column).last().map_or(0, |it| (*it).into())),
            ],
            "choose bits, by pext" => vec![
                Box::new(move || last_of(&by_pext(a, b))),
                Box::new(move || last_of(&bits_one_by_one(a, b))),
            ],
            "choose bits, no pext" => vec![Box::new(move || last_of(&bits_one_by_one(a, b)))],
            "choose bits, of Vec<bool>" => vec![
                Box::new(move || last_of_bools(&filtered(lists))),
                Box::new(move || last_of_bools(&filtered_in_room(lists))),
            ],
            "choose, by a selection" => vec![
                Box::new(move || gathered(&lists.indices, rows).last().copied().unwrap_or(0)),
                Box::new(move || choose(a, rows).last().copied().unwrap_or(0)),
                Box::new(move || choose_by_avx2(a, rows).last().copied().unwrap_or(0)),
                Box::new(move || choose_by_avx512(a, rows).last().copied().unwrap_or(0)),
            ],
            "choose bits, by a selection" => vec![
                Box::new(move || last_of(&by_pext(a, b))),
                Box::new(move || last_of(&bits_one_by_one(a, b))),
            ],
            "choose strings, by a selection" => {
                vec![Box::new(move || digest(&strings(&lists.indices, &lists.texts)))]
            }
            "for over indices" => vec![Box::new(move || sum_of_rows(a, rows))],
            "sum of indices" => vec![Box::new(move || sum_of_indices(a))],
            "for over values" => {
                let (mut first, mut second) = (Vec::with_capacity(len), Vec::with_capacity(len));
                vec![
                    Box::new(move || found(a, rows, &mut first)),
                    Box::new(move || found_by_words(a, rows, &mut second)),
                ]
            }
            "retain by a predicate" => {
                vec![Box::new(move || last(&retained(a, |i| rows[i] % 4 != 0), len))]
            }
            "scan" => vec![
                Box::new(move || scan(lists, kept_as_they_come)),
                Box::new(move || scan(lists, kept_and_listed)),
            ],
            "from_rows of a predicate" | "collect a predicate" | "from_fn of a predicate" => vec![
                Box::new(move || last(&packed_by_lanes(column, lists.share), len)),
                Box::new(move || last(&packed_by_avx2(column, lists.share), len)),
                Box::new(move || last(&packed_by_avx512(column, lists.share), len)),
                Box::new(move || last(&packed(column, |it| it < lists.share), len)),
                Box::new(move || last(&packed_by_shifts(column, |it| it < lists.share), len)),
                Box::new(move || last(&packed_by_eights(column, |it| it < lists.share), len)),
            ],
            _ => masks::calls(lists, name),
        }
    }
}

/// The last byte of a list, where it is kept in words.
fn last(words: &[u64], len: usize) -> u64 {
    byte(words, len - 1)
}

/// The byte that has value `at`.
fn byte(words: &[u64], at: usize) -> u64 {
    black_box(words)[at / 64] >> (at % 64 / 8 * 8) & 0xFF
}

fn last_of((words, count): &(Vec<u64>, usize)) -> u64 {
    if *count == 0 { 0 } else { last(words, *count) }
}

/// The last byte of a list of truth values.
fn last_of_bools(list: &[bool]) -> u64 {
    let part = list.chunks(8).last().unwrap_or(&[]);
    black_box(part).iter().rev().fold(0, |byte, value| byte << 1 | u64::from(*value))
}
