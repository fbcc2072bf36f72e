//! Each public call on bitmaps with the largest and worst numbers that it takes, in a process that may take less than
//! 1 GiB. None panics or stops the process, and none asks for memory before what it is given was tested.

#![cfg(target_os = "linux")]

mod aborts;
mod memory;
mod rows;

use memory::{AHEAD, LITTLE, lacks, limit, refused, within};
use row_mask::{
    Bitmap, BitmapBuf, Error, NullableBitmap, NullableBitmapBuf, Offset, Selection, Strings,
};
use std::fmt::Debug;
use std::ops::{Bound, Range};
use std::path::Path;
use std::{fs, iter};

// Lengths of bitmaps for which such a process has no memory.
const LENGTHS: [usize; 5] = [1 << 33, 1 << 45, 1 << 62, usize::MAX - 7, usize::MAX];

#[test]
fn each_public_call_is_here() {
    fn names(folder: &Path, all: &mut Vec<String>) {
        for entry in fs::read_dir(folder).unwrap() {
            let path = entry.unwrap().path();
            if path.is_dir() {
                // (masks and buffers have tests of their own)
                if !["bin", "kit", "mask", "native", "proved"].iter().any(|it| path.ends_with(it)) {
                    names(&path, all);
                }
                continue;
            }
            if path.ends_with("buffer.rs") {
                continue;
            }
            let text = fs::read_to_string(path).unwrap();
            let calls = text.lines().filter_map(|line| line.trim().strip_prefix("pub fn "));
            // (several where a macro makes them in the same way)
            let names = calls.filter_map(|it| it.split(['(', '<']).next());
            let names = names.flat_map(|it| it.split(", "));
            all.extend(names.filter(|it| !it.starts_with('$')).map(str::to_owned));
        }
    }
    let mut all = vec![];
    names(&Path::new(env!("CARGO_MANIFEST_DIR")).join("src"), &mut all);
    assert!(all.len() > 80, "{all:?}");
    let here = concat!(include_str!("main.rs"), include_str!("rows.rs"));
    all.retain(|name| ![".", "::"].iter().any(|it| here.contains(&format!("{it}{name}("))));
    assert_eq!(all, [""; 0], "are called nowhere here");
}

fn strings<O: Offset + Debug>(first: O, last: O) {
    let one = Selection::new(Bitmap::new(&[1], 0, 1).unwrap());
    let offsets = [first, last];
    let past = refused(|| one.choose_strings(&offsets, b"ab"));
    let offset = last.try_into().ok().unwrap();
    assert_eq!(past, Error::OffsetOutOfBounds { offset, size: 2 });
    assert_eq!(refused(|| one.choose_bytes(&offsets, b"ab", &mut [0; 2])), past);
    assert_eq!(refused(|| Strings::new(&offsets, b"ab")), past);
    // (so many bytes, by the offsets alone)
    let mut out = [O::default(); 2];
    assert_eq!(within(LITTLE, || one.choose_offsets(&offsets, &mut out)), Ok(offset));
    assert_eq!(refused(|| one.choose_offsets(&offsets, &mut [])), small(0, 2));
}

fn small(room: usize, needed: usize) -> Error {
    Error::RoomTooSmall { room, needed }
}

#[test]
fn offsets_past_the_bytes() {
    let _alone = limit();
    strings(0_u64, u64::MAX);
    strings(0_i64, i64::MAX);
    strings(0_i64, 1 << 45);
    strings(0_i64, 1 << 33);
    strings(0_i32, i32::MAX);
    strings(0_u32, u32::MAX);
    let all = [true; 1000];
    let runs = Selection::new(BitmapBuf::from(&all[..]).as_bitmap());
    let mut offsets = vec![0_i64; 1001];
    offsets[1000] = i64::MAX;
    let offset = usize::try_from(i64::MAX).unwrap();
    let past = Error::OffsetOutOfBounds { offset, size: 2 };
    assert_eq!(refused(|| runs.choose_strings(&offsets, b"ab")), past);
    offsets[0] = i64::MIN;
    let unsorted = Error::UnsortedOffsets { at: 0 };
    assert_eq!(refused(|| runs.choose_strings(&offsets, b"ab")), unsorted);
    assert_eq!(refused(|| runs.choose_offsets(&offsets, &mut [])), unsorted);
}

#[test]
fn strings_past_the_end() {
    let _alone = limit();
    let offsets = [1_i32, 2, 4];
    let column = Strings::new(&offsets, b"abcd").unwrap();
    assert_eq!((column.len(), column.is_empty()), (2, false));
    assert_eq!((column.offsets(), column.bytes()), (&offsets[..], &b"abcd"[..]));
    let three = Selection::new(Bitmap::new(&[7], 0, 3).unwrap());
    let differ = Error::RowsDiffer { rows: 2, len: 3 };
    assert_eq!(refused(|| column.choose(&three)), differ);
    for n in [3, 1 << 32, usize::MAX - 1, usize::MAX] {
        assert_eq!(column.get(n), None);
        let past = Error::BadRange { start: n, end: n, len: 2 };
        assert_eq!(refused(|| column.slice(n..n)), past);
    }
    assert!(column.slice(..=usize::MAX).is_err());
}

#[test]
fn changes_by_the_largest_numbers() {
    let _alone = limit();
    let mut rows = BitmapBuf::from_fn(100, |i| i % 3 == 0);
    let before = rows.clone();
    for n in [100, 1 << 32, usize::MAX - 7, usize::MAX] {
        let past = Error::IndexOutOfBounds { index: n, len: 100 };
        assert_eq!((rows.set(n, true), rows.toggle(n)), (Err(past), Err(past)));
        rows.truncate(n);
        assert_eq!(rows, before);
    }
    for len in LENGTHS {
        lacks(len.saturating_add(100), || rows.try_reserve(len));
        lacks(len, || BitmapBuf::from_rows_into(&vec![(); len], |()| true, &mut rows));
        let mut room = [0xA5; 2];
        let refusal = small(2, len.div_ceil(8));
        let none = vec![(); len];
        assert_eq!(refused(|| BitmapBuf::from_rows_into(&none, |()| true, &mut room[..])), refusal);
        assert_eq!((&rows, room), (&before, [0xA5; 2]));
    }
    rows.reserve(0);
    rows.retain(|row| row < 4);
    rows.truncate(4);
    rows.push(true);
    assert_eq!((rows.to_string().as_str(), rows.as_bytes()), ("10011", &[0b1_1001][..]));
    rows.append_n(true, 0);
    rows.resize(7, true);
    assert_eq!((rows.to_string().as_str(), rows.as_bytes()), ("1001111", &[0b111_1001][..]));
    rows.truncate(0);
    assert!(rows.is_empty());
    assert!(BitmapBuf::from_rows(&[(); 0], |()| true).is_empty());
}

#[test]
fn lengths_with_no_memory() {
    let _alone = limit();
    for len in LENGTHS {
        lacks(len, || BitmapBuf::try_with_capacity(len));
        lacks(len, || BitmapBuf::try_all_false(len));
        lacks(len, || BitmapBuf::try_all_true(len));
        lacks(len, || BitmapBuf::try_from_fn(len, |_| panic!("a value was asked for")));
        lacks(len, || BitmapBuf::from_indices(len, &[0, len - 1]));
        lacks(len, || BitmapBuf::from_ranges(len, iter::once(0..len)));
        lacks(len, || BitmapBuf::from_ranges(len, []));
        // what is refused leaves a bitmap as it was, and writes no byte of the caller's
        let mut kept = BitmapBuf::from_fn(100, |i| i % 3 == 0);
        let before = kept.clone();
        lacks(len, || BitmapBuf::all_into(len, true, &mut kept));
        lacks(len, || BitmapBuf::from_fn_into(len, |_| true, &mut kept));
        lacks(len, || BitmapBuf::collect_into(Says(len), &mut kept));
        lacks(len, || BitmapBuf::from_indices_into(len, &[], &mut kept));
        lacks(len, || BitmapBuf::from_ranges_into(len, &[0..1, 0..len], &mut kept));
        assert_eq!(kept, before);
        let (mut room, refusal) = ([0xA5; 2], small(2, len.div_ceil(8)));
        assert_eq!(refused(|| BitmapBuf::all_into(len, true, &mut room[..])), refusal);
        assert_eq!(refused(|| BitmapBuf::from_fn_into(len, |_| true, &mut room[..])), refusal);
        assert_eq!(refused(|| BitmapBuf::collect_into(Says(len), &mut room[..])), refusal);
        assert_eq!(refused(|| BitmapBuf::from_indices_into(len, &[], &mut room[..])), refusal);
        assert_eq!(refused(|| BitmapBuf::from_ranges_into(len, &[], &mut room[..])), refusal);
        assert_eq!(room, [0xA5; 2]);
    }
}

#[test]
fn what_is_wrong_comes_before_memory() {
    let _alone = limit();
    for len in LENGTHS {
        let index = Error::IndexOutOfBounds { index: len, len };
        assert_eq!(refused(|| BitmapBuf::from_indices(len, &[0, len])), index);
        let ranges = [0..1, Range { start: 5, end: 3 }];
        let bad = Error::BadRange { start: 5, end: 3, len };
        let mut made = BitmapBuf::default();
        assert_eq!(refused(|| BitmapBuf::from_ranges_into(len, &ranges, &mut made)), bad);
        assert_eq!(within(AHEAD, || BitmapBuf::from_ranges(len, ranges.clone())), Err(bad));
    }
}

/// An iterator that says it has so many values, and has none.
#[derive(Clone)]
struct Says(usize);

impl Iterator for Says {
    type Item = bool;

    fn next(&mut self) -> Option<bool> {
        None
    }

    fn size_hint(&self) -> (usize, Option<usize>) {
        (self.0, Some(self.0))
    }
}

impl ExactSizeIterator for Says {}

#[test]
fn hints_that_are_wrong() {
    let _alone = limit();
    for len in LENGTHS {
        let made: BitmapBuf = within(AHEAD, || Says(len).collect());
        assert!(made.is_empty());
        let mut made = BitmapBuf::from_fn(13, |i| i == 12);
        // (behind the two bytes that are there)
        within(AHEAD + 2, || made.extend([true; 3].into_iter().chain(Says(len))));
        assert_eq!(made.to_string(), "0000000000001111");
        let none = Says(len).map(|_| Bitmap::new(&[], 0, 0).unwrap());
        assert!(within(LITTLE, || BitmapBuf::concat(none)).is_empty());
        let none = Says(len).map(|_| 0..1);
        assert_eq!(within(LITTLE, || BitmapBuf::from_ranges(3, none)).unwrap().to_string(), "000");
    }
    let mut made = BitmapBuf::from_fn(13, |i| i == 12);
    assert_eq!(within(LITTLE, || BitmapBuf::collect_into(Says(100), &mut made)), Ok(()));
    assert!(made.is_empty());
    // (more than was asked for ahead)
    let made: BitmapBuf = (0..9 * AHEAD).map(|i| i % 3 == 0).collect();
    assert_eq!(made, BitmapBuf::from_fn(9 * AHEAD, |i| i % 3 == 0));
}

#[test]
fn places_past_the_end() {
    let _alone = limit();
    let bytes = [0b1011_1001, 0xFF];
    let rows = Bitmap::new(&bytes, 0, 8).unwrap();
    for n in [9, 64, 1 << 32, 1 << 62, usize::MAX - 63, usize::MAX] {
        let outside = Error::OutOfBytes { bytes: 2, offset: n, len: n };
        assert_eq!(refused(|| Bitmap::new(&bytes, n, n)), outside);
        assert_eq!(refused(|| BitmapBuf::from_vec(bytes.to_vec(), n, n)), outside);
        #[cfg(target_endian = "little")]
        assert!(within(LITTLE, || Bitmap::from_words(&[], n)).is_err());
        assert_eq!((rows.get(n), rows.select(n), rows.next_index(n)), (None, None, None));
        assert_eq!((rows.next_run(n), rows.next_indices(n, &mut [0; 9])), (None, 0));
        assert_eq!(rows.next_words(n, &mut [0; 9]), 0);
        let past = Error::BadRange { start: n, end: n, len: 8 };
        assert_eq!(refused(|| rows.slice(n..n)), past);
        assert_eq!(refused(|| rows.count_range(n..n)), past);
        assert_eq!(rows.to_buf().fill_range(n..n, true), Err(past));
        let index = Error::IndexOutOfBounds { index: n, len: 8 };
        assert_eq!(refused(|| rows.counts_below(&[1, n])), index);
        assert_eq!(refused(|| rows.counts_below_into(&[n], &mut [])), index);
        assert!(rows.slice((Bound::Excluded(n), Bound::Included(n))).is_err());
        assert!(rows.slice(..=n).is_err());
        assert_eq!(refused(|| rows.counts_below(&[n, 1])), Error::UnsortedIndices { at: 1 });
        assert_eq!((rows.iter().nth(n), rows.iter().nth_back(n)), (None, None));
        assert_eq!((rows.indices().nth(n), rows.indices().nth_back(n)), (None, None));
        assert_eq!((rows.runs().nth(n), rows.iter().rev().skip(n).count()), (None, 0));
        assert_eq!(rows.indices().step_by(n).count(), 1);
        assert_eq!(refused(|| rows.intersect_at_ranks(&[n, 1])), Error::UnsortedRanks { at: 1 });
        let rank = Error::RankOutOfBounds { rank: n, count: 5 };
        assert_eq!(refused(|| rows.intersect_at_ranks(&[0, n])), rank);
        let mut room = [0];
        assert_eq!(refused(|| rows.intersect_at_ranks_into(&[n], &mut room[..])), rank);
    }
    assert_eq!(rows.count_range(..=usize::MAX), rows.slice(..=usize::MAX).map(Bitmap::count));
    assert_eq!(format!("{rows:>65535}").len(), 65_535);
}

// 2^28 values are 32 MiB.
const MANY: usize = 1 << 28;

#[test]
fn lengths_that_differ() {
    let _alone = limit();
    let (many, eight) = (BitmapBuf::all_true(MANY), BitmapBuf::all_false(8));
    for (a, b) in [(&many, &eight), (&eight, &many)] {
        let (left, right) = (a.len(), b.len());
        let (a, b, mut made) = (a.as_bitmap(), b.as_bitmap(), BitmapBuf::with_capacity(9));
        let differ = Error::LengthsDiffer { left, right };
        assert_eq!(refused(|| a.and(b)), differ);
        assert_eq!(refused(|| a.or(b)), differ);
        assert_eq!(refused(|| a.xor(b)), differ);
        assert_eq!(refused(|| a.and_not(b)), differ);
        assert_eq!(refused(|| a.or_not(b)), differ);
        assert_eq!(refused(|| a.and_into(b, &mut made)), differ);
        assert_eq!(refused(|| a.or_into(b, &mut made)), differ);
        assert_eq!(refused(|| a.xor_into(b, &mut made)), differ);
        assert_eq!(refused(|| a.and_not_into(b, &mut made)), differ);
        assert_eq!(refused(|| a.or_not_into(b, &mut made)), differ);
        assert_eq!((a.and_count(b), a.intersects(b)), (Err(differ), Err(differ)));
        assert_eq!((a.is_subset(b), a == b), (Err(differ), false));
        let ranks = Error::RanksDiffer { ranks: right, count: a.count() };
        assert_eq!(refused(|| a.intersect_by_rank(b)), ranks);
        assert_eq!(refused(|| a.intersect_by_rank_into(b, &mut made)), ranks);
        let rows = Error::RowsDiffer { rows: right, len: left };
        assert_eq!(refused(|| a.choose_bits(b)), rows);
        assert_eq!(refused(|| a.choose_bits_into(b, &mut made)), rows);
        let rows = Error::RowsDiffer { rows: b.bytes().len(), len: left };
        assert_eq!(refused(|| a.choose(b.bytes())), rows);
        assert_eq!(refused(|| a.choose_into(b.bytes(), &mut [])), rows);
        assert!(made.is_empty());
    }
    let mut changed = eight.clone();
    let (longer, differ) = (many.as_bitmap(), Error::LengthsDiffer { left: 8, right: MANY });
    assert_eq!(refused(|| changed.and_with(longer)), differ);
    assert_eq!(refused(|| changed.or_with(longer)), differ);
    assert_eq!(refused(|| changed.xor_with(longer)), differ);
    assert_eq!(refused(|| changed.and_not_with(longer)), differ);
    assert_eq!(changed, eight);
    let chosen = Selection::new(eight.as_bitmap());
    assert_eq!((chosen.len(), chosen.count(), chosen.is_empty()), (8, 0, false));
    let rows = Error::RowsDiffer { rows: MANY, len: 8 };
    assert_eq!(refused(|| chosen.choose_bits(many.as_bitmap())), rows);
    assert_eq!(refused(|| chosen.choose_bits_into(many.as_bitmap(), &mut changed)), rows);
    let bytes = Error::RowsDiffer { rows: MANY / 8, len: 8 };
    assert_eq!(refused(|| chosen.choose(many.as_bytes())), bytes);
    assert_eq!(refused(|| chosen.choose_into(many.as_bytes(), &mut [])), bytes);
}

#[test]
fn many_values() {
    let _alone = limit();
    let mut many = BitmapBuf::all_true(MANY);
    assert_eq!(many.iter().len(), MANY);
    let rows = many.as_bitmap();
    assert_eq!((rows.count(), rows.any(), rows.all()), (MANY, true, true));
    assert_eq!((rows.last_index(), rows.next_run(0)), (Some(MANY - 1), Some(0..MANY)));
    assert_eq!((rows.runs().count(), rows.indices().last()), (1, Some(MANY - 1)));
    assert_eq!((rows.offset(), rows.bytes().len()), (0, MANY / 8));
    assert_eq!(rows.to_words().len(), MANY / 64);
    let last = rows.slice(MANY - 3..).unwrap();
    assert_eq!((last.to_indices(), last.to_buf().into_bytes()), (vec![0, 1, 2], vec![7]));
    let mut room = [0; 2];
    let refusal = small(2, MANY / 8);
    assert_eq!(refused(|| rows.not_into(&mut room[..])), refusal);
    assert_eq!(refused(|| rows.copy_into(&mut room[..])), refusal);
    let twice = small(2, MANY / 4);
    assert_eq!(refused(|| BitmapBuf::concat_into(&[rows, rows], &mut room[..])), twice);
    assert_eq!(refused(|| BitmapBuf::from_bools_into(&[true; 17], &mut room[..])), small(2, 3));
    assert_eq!(BitmapBuf::from_ranges(MANY, iter::once(0..MANY)).as_ref(), Ok(&many));
    // (the first range lies in what is asked for ahead, and the others, if there are some, don't)
    for ranges in [[3..5, 4..6], [3..5, MANY - 2..MANY], [3..5, 1 << 23..(1 << 23) + 1]] {
        let mut want = BitmapBuf::all_false(MANY);
        for range in ranges.clone() {
            want.fill_range(range, true).unwrap();
        }
        assert_eq!(BitmapBuf::from_ranges(MANY, ranges).as_ref(), Ok(&want));
    }
    let three = last.to_buf();
    many.negate();
    many.append(three.as_bitmap());
    assert_eq!((many.len(), many.as_bitmap().count()), (MANY + 3, 3));
    many.clear();
    assert!(many.is_empty());
}

#[test]
fn memory_that_runs_out() {
    let _alone = limit();
    // 600 MiB are there once: an answer of another 600 is refused, and nothing is changed
    let len = 8 * (600 << 20);
    let rows = BitmapBuf::all_false(len);
    let (rows, mut made) = (rows.as_bitmap(), BitmapBuf::all_true(9));
    for refusal in
        [rows.and(rows), rows.or(rows), rows.xor(rows), rows.and_not(rows), rows.or_not(rows)]
    {
        lacks(len, || refusal);
    }
    lacks(len, || rows.not_into(&mut made));
    lacks(len, || rows.copy_into(&mut made));
    lacks(len, || Selection::try_new(rows));
    lacks(len, || rows.intersect_at_ranks(&[]));
    lacks(len, || rows.intersect_by_rank(Bitmap::new(&[], 0, 0).unwrap()));
    lacks(2 * len, || BitmapBuf::concat_into(&[rows, rows], &mut made));
    assert_eq!(made.to_string(), "111111111");
    let bytes = rows.bytes();
    let one = Selection::new(Bitmap::new(&[1], 0, 1).unwrap());
    let offsets = [0, u64::try_from(bytes.len()).unwrap()];
    lacks(len, || one.choose_strings(&offsets, bytes));
}

#[test]
fn nulls_that_differ_or_find_no_room() {
    let _alone = limit();
    let (many, eight) = (BitmapBuf::all_true(MANY), BitmapBuf::all_false(8));
    let differ = Error::LengthsDiffer { left: MANY, right: 8 };
    assert_eq!(refused(|| NullableBitmap::new(many.as_bitmap(), Some((&eight).into()))), differ);
    assert_eq!(NullableBitmapBuf::new(many.clone(), Some(eight.clone())).unwrap_err(), differ);
    let list = NullableBitmap::new(many.as_bitmap(), Some(many.as_bitmap())).unwrap();
    let (mut values, mut validity) = (BitmapBuf::all_true(9), [0xA5; 2]);
    assert_eq!(refused(|| list.and_kleene(&eight)), differ);
    assert_eq!(refused(|| list.or_kleene(&eight)), differ);
    assert_eq!(refused(|| list.and_kleene_into(&eight, &mut values, &mut validity[..])), differ);
    assert_eq!(refused(|| list.or_kleene_into(&eight, &mut values, &mut validity[..])), differ);
    // (there is room for the values, and none for the validity, or the other way round)
    let (refusal, mut kept) = (small(2, MANY / 8), values.clone());
    assert_eq!(list.and_kleene_into(list, &mut kept, &mut validity[..]), Err(refusal));
    assert_eq!(list.or_kleene_into(list, &mut validity[..], &mut kept), Err(refusal));
    assert_eq!(list.not_into(&mut kept, &mut validity[..]), Err(refusal));
    assert_eq!(refused(|| list.is_true_into(&mut validity[..])), refusal);
    assert_eq!(refused(|| list.is_not_false_into(&mut validity[..])), refusal);
    assert_eq!(refused(|| list.is_null_into(&mut validity[..])), refusal);
    assert_eq!((&kept, validity), (&values, [0xA5; 2]));
    assert_eq!((list.len(), list.null_count(), list.get(MANY)), (MANY, 0, None));
    assert_eq!((list.is_true(), list.is_null().any()), (many.clone(), false));
    assert!(list.is_not_false() == many && list.values() == list.validity().unwrap());
    let parts = NullableBitmapBuf::from(many).into_parts();
    assert_eq!((parts.0.len(), parts.1), (MANY, None));
}

#[test]
fn memory_that_runs_out_for_the_second_of_two() {
    let _alone = limit();
    // 350 MiB are there twice, and not a third time
    let len = 8 * (350 << 20);
    let rows = BitmapBuf::all_false(len);
    let rows = NullableBitmap::new(rows.as_bitmap(), Some(rows.as_bitmap())).unwrap();
    let (mut values, mut validity) = (BitmapBuf::all_true(9), BitmapBuf::all_true(3));
    values.reserve(len);
    lacks(len, || rows.and_kleene_into(rows, &mut values, &mut validity));
    lacks(len, || rows.or_kleene_into(rows, &mut values, &mut validity));
    lacks(len, || rows.not_into(&mut values, &mut validity));
    assert_eq!((values.to_string(), validity.to_string()), ("1".repeat(9), "1".repeat(3)));
    drop(values);
    lacks(len, || rows.and_kleene(rows).map(|_| ()));
}

#[test]
fn bytes_that_have_to_be_copied() {
    let _alone = limit();
    let bytes = vec![0; 600 << 20];
    let len = 8 * bytes.len() - 1;
    lacks(len, || BitmapBuf::from_vec(bytes, 1, len));
}

#[test]
fn lists_that_find_no_memory() {
    let _alone = limit();
    // (rows and indices of 640 MiB)
    let column = vec![0_usize; 80 << 20];
    let all = BitmapBuf::all_true(column.len());
    let bytes = 8 * column.len();
    // (a list of rows has room for sixteen more)
    let lacking = Error::OutOfMemory { bytes: bytes + 8 * 16 };
    assert_eq!(all.as_bitmap().choose(&column).unwrap_err(), lacking);
    assert_eq!(Selection::new(all.as_bitmap()).choose(&column).unwrap_err(), lacking);
    let lacking = Error::OutOfMemory { bytes };
    assert_eq!(all.as_bitmap().counts_below(&column).unwrap_err(), lacking);
    let (mut list, lacking) = (vec![7, 9], Error::OutOfMemory { bytes: bytes + 16 });
    let selection = Selection::new(all.as_bitmap());
    assert_eq!(all.as_bitmap().choose_append(&column, &mut list).unwrap_err(), lacking);
    assert_eq!(selection.choose_append(&column, &mut list).unwrap_err(), lacking);
    assert_eq!(list, [7, 9]);
}

#[test]
fn selections_that_find_no_memory() {
    let _alone = limit();
    // (2^28 indices of 4 bytes, of a bitmap of 64 MiB, for which there is memory twice)
    let each_other = BitmapBuf::from_vec(vec![0b0101_0101; 1 << 26], 0, 1 << 29).unwrap();
    let lacking = Error::OutOfMemory { bytes: 1 << 30 };
    assert_eq!(Selection::try_new(each_other.as_bitmap()).unwrap_err(), lacking);
}
