//! Arrays of Arrow's C data interface that are filtered, beside the rows of plain lists: with offsets, nulls and buffers
//! that are absent, as columns and in structs. A result is moved and released as Arrow says, each request for memory is
//! refused in turn, and so is what the page says.

#![allow(
    clippy::cast_possible_truncation,
    clippy::cast_possible_wrap,
    clippy::cast_sign_loss,
    reason = "numbers are small"
)]

mod hostile;
mod hostile_nested;
mod lent;
mod memory;
mod nested;
mod owned;
mod refusals;

use lent::{Column, FORMATS, Random, Value, values_of};
use row_mask::arrow::{ArrowArray, filter};
use row_mask::{BitmapBuf, Selection};
use std::ptr::null_mut;

/// Rows that are chosen, and the bitmap that says so.
struct Chosen {
    list: Vec<bool>,
    rows: Selection,
}

impl Chosen {
    fn new(random: &mut Random, len: usize, share: usize) -> Chosen {
        let list: Vec<bool> = (0..len).map(|_| random.below(256) < share).collect();
        let rows = Selection::new(BitmapBuf::from(&list[..]).as_bitmap());
        Chosen { list, rows }
    }

    fn of(&self, values: &[Value]) -> Vec<Value> {
        let chosen = values.iter().zip(&self.list).filter(|(_, is_chosen)| **is_chosen);
        chosen.map(|(value, _)| value.clone()).collect()
    }
}

/// What is made of a column has its chosen rows, and those of its children. Answers how many values were compared.
fn is_chosen_of(column: &Column, from: usize, chosen: &Chosen, made: &ArrowArray) -> usize {
    let values = values_of(column.format, made);
    let wanted = chosen.of(&column.values[from..]);
    assert_eq!(values, wanted, "{}", column.format);
    let nulls = wanted.iter().filter(|value| value.is_none()).count();
    assert_eq!((made.length, made.null_count), (wanted.len() as i64, nulls as i64));
    assert_eq!((made.offset, made.n_buffers), (0, column.array.n_buffers));
    assert_eq!((made.n_children, made.dictionary), (column.array.n_children, null_mut()));
    let mut compared = wanted.len() + 2;
    for (i, child) in column.children.iter().enumerate() {
        // SAFETY: there are as many.
        let made = unsafe { &**made.children.add(i) };
        compared += is_chosen_of(child, from + column.offset(), chosen, made);
    }
    compared
}

fn filtered(column: &Column, chosen: &Chosen) -> ArrowArray {
    // SAFETY: the column is as Arrow says.
    unsafe { filter(&column.schema, &column.array, &chosen.rows) }.unwrap()
}

#[test]
fn columns_have_the_chosen_rows() {
    let (mut random, mut compared) = (Random(1), 0);
    for format in FORMATS {
        for len in [0, 1, 2, 7, 8, 9, 63, 64, 65, 150] {
            for offset in [0, 1, 8, 13, 64] {
                for nulls in 0..4 {
                    for share in [0, 12, 128, 244, 256] {
                        let column = Column::new(&mut random, format, len, offset, nulls);
                        let chosen = Chosen::new(&mut random, len, share);
                        let mut made = filtered(&column, &chosen);
                        compared += is_chosen_of(&column, 0, &chosen, &made);
                        // SAFETY: it is released once.
                        unsafe { made.release() };
                        assert!(made.release.is_none());
                    }
                }
            }
        }
    }
    println!("{compared} values of Arrow's arrays");
    assert!(compared > 1_000_000);
}

#[test]
fn a_child_outlives_its_struct() {
    let mut random = Random(2);
    let column = Column::new(&mut random, "+s", 40, 3, 1);
    let chosen = Chosen::new(&mut random, 40, 128);
    let mut made = filtered(&column, &chosen);
    // SAFETY: the child is there. It is moved, as Arrow says, and each is released once.
    unsafe {
        let place = *made.children.add(2);
        let mut child = place.read();
        (*place).release = None;
        made.release();
        is_chosen_of(&column.children[2], column.offset(), &chosen, &child);
        child.release();
        child.release();
    }
}

/// Rows that stand where a number of their width may not.
#[test]
fn rows_may_be_unaligned() {
    let mut random = Random(3);
    for format in ["s", "i", "l", "d:19,10", "w:16", "w:37"] {
        let mut column = Column::new(&mut random, format, 40, 3, 1);
        let chosen = Chosen::new(&mut random, 40, 128);
        column.move_rows();
        let mut made = filtered(&column, &chosen);
        is_chosen_of(&column, 0, &chosen, &made);
        // SAFETY: it is released once.
        unsafe { made.release() };
    }
}

/// Strings that are all empty, behind bytes that are absent.
#[test]
fn empty_strings_need_no_bytes() {
    let mut random = Random(4);
    for format in ["u", "Z"] {
        let mut column = Column::new(&mut random, format, 9, 3, 0);
        column.make_strings_empty(5);
        let chosen = Chosen::new(&mut random, 9, 128);
        let mut made = filtered(&column, &chosen);
        is_chosen_of(&column, 0, &chosen, &made);
        // SAFETY: it is released once.
        unsafe { made.release() };
    }
}
