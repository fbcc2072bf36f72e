//! Dictionaries, views and lists, alone and in each other and in structs, beside plain lists. A result doesn't need the
//! array that it was made of, or has taken it over, and each array is released once.

use super::Chosen;
use super::lent::Random;
use super::owned::{Column, FLAT, FORMATS, Item, KEYS, Type, arrays, items_of, make};
use row_mask::arrow::{ArrowArray, ArrowError, filter, filter_moved};
use std::ffi::c_void;

/// What is in an array may be moved out of it, and outlives it.
fn outlives(kind: &Type, mut made: ArrowArray) {
    // SAFETY: they are there. They are moved, as Arrow says, and each is released once.
    unsafe {
        let other = match (&kind.dictionary, kind.children.last()) {
            (Some(kind), _) => Some((&**kind, made.dictionary)),
            (_, Some(child)) => Some((child, *made.children.add(kind.children.len() - 1))),
            _ => None,
        };
        let Some((kind, place)) = other else {
            made.release();
            assert!(made.release.is_none());
            return;
        };
        let items = items_of(kind, &*place);
        let moved = place.read();
        (*place).release = None;
        made.release();
        assert_eq!(items_of(kind, &moved), items);
        outlives(kind, moved);
    }
}

pub fn filtered(column: &mut Column, rows: &Chosen, moves: bool) -> Result<ArrowArray, ArrowError> {
    let (schema, array) = (&column.kind.schema, &mut column.array);
    // SAFETY: the column is as Arrow says.
    unsafe {
        if moves {
            filter_moved(schema, array, &rows.rows)
        } else {
            filter(schema, array, &rows.rows)
        }
    }
}

fn tries(random: &mut Random, format: usize, len: usize, share: usize, moves: bool) -> usize {
    let mut column = make(random, format, len, 0);
    let chosen = Chosen::new(random, len, share);
    let list = column.items.iter().zip(&chosen.list).filter(|(_, is_chosen)| **is_chosen);
    let wanted: Vec<Item> = list.map(|(item, _)| item.clone()).collect();
    let made = filtered(&mut column, &chosen, moves).unwrap();
    assert_eq!(column.array.release.is_none(), moves);
    if !moves {
        // SAFETY: it is released once.
        unsafe { column.array.release() };
        assert_eq!(arrays(), 0);
    }
    let nulls = wanted.iter().filter(|item| **item == Item::Null).count();
    assert_eq!((made.offset, made.length), (0, wanted.len() as i64));
    // (keys that aren't null may stand for a null)
    assert!(made.null_count == nulls as i64 || (format >= KEYS && made.null_count < nulls as i64));
    assert_eq!(items_of(&column.kind, &made), wanted, "{}", FORMATS[format]);
    outlives(&column.kind, made);
    assert_eq!(arrays(), 0);
    wanted.len()
}

#[test]
fn rows_have_what_they_had() {
    let (mut random, mut compared) = (Random(10), 0);
    for format in FLAT - 2..FORMATS.len() {
        for len in [0, 1, 2, 7, 8, 9, 63, 64, 65, 150] {
            for share in [0, 12, 128, 244, 256] {
                compared += tries(&mut random, format, len, share, false);
                compared += tries(&mut random, format, len, share, true);
            }
        }
    }
    println!("{compared} rows of dictionaries, views and lists");
    assert!(compared > 10_000);
}

/// The buffers of views are the array's own where it is moved, and so is a dictionary.
#[test]
fn what_is_moved_is_not_copied() {
    let mut random = Random(11);
    // SAFETY: arrays have the buffers that they say.
    let buffers = |of: &ArrowArray| unsafe {
        std::slice::from_raw_parts(of.buffers, of.n_buffers as usize).to_vec()
    };
    for i in 0..20 {
        let mut column = make(&mut random, if i % 2 == 0 { 5 } else { KEYS }, 50, 0);
        let chosen = Chosen::new(&mut random, 50, 128);
        // SAFETY: a dictionary is there.
        let of = |array: &ArrowArray| unsafe {
            if i % 2 == 0 { buffers(array)[2..].to_vec() } else { buffers(&*array.dictionary) }
        };
        let before = of(&column.array);
        let mut made = filtered(&mut column, &chosen, true).unwrap();
        assert_eq!(of(&made), before);
        // SAFETY: it is released once.
        unsafe { made.release() };
    }
    assert_eq!(arrays(), 0);
}

/// Nothing in it was moved or released.
fn is_whole(array: &ArrowArray) -> bool {
    let children = 0..array.n_children as usize;
    // SAFETY: what isn't null is there.
    unsafe {
        array.release.is_some()
            && array.dictionary.as_ref().is_none_or(is_whole)
            && children.into_iter().all(|i| is_whole(&**array.children.add(i)))
    }
}

/// A call that is refused leaves all as it was.
#[track_caller]
pub fn refused(column: &mut Column, chosen: &Chosen, moves: bool) -> ArrowError {
    let error = filtered(column, chosen, moves).unwrap_err();
    assert!(is_whole(&column.array));
    assert_eq!(items_of(&column.kind, &column.array), column.items);
    error
}

/// What is in a struct twice is not moved twice, but copied.
#[test]
fn what_is_there_twice() {
    let (mut random, mut met) = (Random(12), [0, 0]);
    while met.contains(&0) {
        let mut column = make(&mut random, 9, 30, 0);
        let chosen = Chosen::new(&mut random, 30, 128);
        let kind = &column.kind.children[1];
        let what = match kind.format() {
            "vu" | "vz" => "child",
            _ if kind.dictionary.is_some() => "dictionary",
            _ => "",
        };
        if !what.is_empty() {
            met[usize::from(what == "child")] += 1;
            // SAFETY: there are four children.
            let [arrays, schemas] = unsafe {
                let (arrays, schemas) = (column.array.children, column.kind.schema.children);
                let old = [(*arrays.add(3)).cast::<c_void>(), (*schemas.add(3)).cast()];
                arrays.add(3).write(*arrays.add(1));
                schemas.add(3).write(*schemas.add(1));
                old
            };
            let error = filtered(&mut column, &chosen, true).unwrap_err();
            assert_eq!(error, ArrowError::BadArray { column: "a".into(), what });
            assert!(is_whole(&column.array));
            let mut made = filtered(&mut column, &chosen, false).unwrap();
            // SAFETY: as above, and it is released once.
            unsafe {
                made.release();
                column.array.children.add(3).write(arrays.cast());
                column.kind.schema.children.add(3).write(schemas.cast());
            }
        }
        // SAFETY: it is released once.
        unsafe { column.array.release() };
    }
    assert_eq!(arrays(), 0);
}
