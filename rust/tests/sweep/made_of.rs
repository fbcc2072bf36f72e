//! What bitmaps of their own bytes are made of, and how they are changed in place.

use crate::lists::{Comparisons, Generator, indices_of, packed, runs_of};
use row_mask::{BitBuffer, Bitmap, BitmapBuf, Error, Mask};
use std::hash::{DefaultHasher, Hash, Hasher};

pub fn made_of(seen: &mut Comparisons, random: &mut Generator, list: &[bool], bitmap: Bitmap<'_>) {
    let len = list.len();
    seen.same_list(&BitmapBuf::from_fn(len, |i| list[i]), list);
    of_rows(seen, random, list);
    one_by_one(seen, random, list);
    seen.same_list(&BitmapBuf::from(list), list);
    seen.same_list(&BitmapBuf::from(bitmap), list);
    seen.same_list(&list.iter().copied().filter(|_| true).collect(), list);
    let bytes = bitmap.bytes().to_vec();
    seen.same_list(&BitmapBuf::from_vec(bytes, bitmap.offset(), len).unwrap(), list);
    let mut aligned = bitmap.to_buf().into_bytes();
    aligned.iter_mut().skip(len / 8).for_each(|byte| *byte |= !0 << (len % 8));
    aligned.extend([0xFF; 2]);
    seen.same_list(&BitmapBuf::from_vec(aligned, 0, len).unwrap(), list);
    #[cfg(target_endian = "little")]
    seen.same(Bitmap::from_words(&bitmap.to_words(), len).unwrap(), bitmap);
    seen.same_list(&BitmapBuf::all_true(len), &vec![true; len]);
    seen.same_list(&BitmapBuf::all_false(len), &vec![false; len]);
    let negated: Vec<bool> = list.iter().map(|value| !value).collect();
    seen.same_list(&!bitmap.to_buf(), &negated);
    joined(seen, random, list, bitmap);
    of_indices(seen, random, list);
    extended(seen, random, list);
    filled(seen, random, list);
    into_bytes(seen, list, bitmap);
}

/// A predicate over rows of each size, and one over the rows that are true.
fn of_rows(seen: &mut Comparisons, random: &mut Generator, list: &[bool]) {
    fn of<T: Copy>(
        seen: &mut Comparisons,
        list: &[bool],
        [no, yes]: [T; 2],
        is_true: impl Fn(&T) -> bool,
    ) {
        let rows: Vec<T> = list.iter().map(|value| if *value { yes } else { no }).collect();
        seen.same_list(&BitmapBuf::from_rows(&rows, &is_true), list);
        seen.same_list(&rows.iter().map(&is_true).collect(), list);
        let (size, mut out) = (packed(list).len(), vec![0xA5; packed(list).len() + 1]);
        seen.same(BitmapBuf::from_rows_into(&rows, &is_true, &mut out[..]), Ok(()));
        seen.same((&out[..size], out[size]), (&packed(list)[..], 0xA5));
    }
    of(seen, list, [5_u8, 3], |it| *it < 4);
    of(seen, list, [5_i16, -3], |it| *it < 4);
    of(seen, list, [[1_u8; 3], [2; 3]], |it| it[1] == 2);
    of(seen, list, [5.0_f32, f32::NAN], |it| it.is_nan());
    of(seen, list, [i64::MAX, i64::MIN], |it| *it < 0);
    of(seen, list, [(1_u64, 2_u64), (2, 1)], |it| it.0 > it.1);
    left_of_rows(seen, random, list);
    let keep = random.list(list.len(), 128);
    let (mut rows, mut asked) = (BitmapBuf::from(list), vec![]);
    rows.retain(|row| {
        asked.push(row);
        keep[row]
    });
    let want: Vec<bool> = list.iter().zip(&keep).map(|(a, b)| *a && *b).collect();
    seen.same_list(&rows, &want);
    seen.same(asked, indices_of(list));
}

/// A predicate over rows of each size, where others are left by the list.
fn left_of_rows(seen: &mut Comparisons, random: &mut Generator, list: &[bool]) {
    fn of<T: Copy>(
        seen: &mut Comparisons,
        list: &[bool],
        keep: &[bool],
        [no, yes]: [T; 2],
        is_true: impl Fn(&T) -> bool,
    ) {
        let rows: Vec<T> = keep.iter().map(|kept| if *kept { yes } else { no }).collect();
        let want: Vec<bool> = list.iter().zip(keep).map(|(a, b)| *a && *b).collect();
        let mut left = BitmapBuf::from(list);
        seen.same(left.retain_rows(&rows, &is_true), Ok(()));
        seen.same_list(&left, &want);
        seen.same(left.as_bytes(), &packed(&want)[..]);
        let mask = Mask::from(BitmapBuf::from(list));
        seen.same(mask.and_rows(&rows, &is_true), Mask::from(left));
        let longer: BitBuffer = [true; 3].into_iter().chain(list.iter().copied()).collect();
        let within = longer.slice(3..3 + list.len()).and_rows(&rows, &is_true);
        seen.same(within.iter().collect::<Vec<bool>>(), want);
    }
    for share in [0, 10, 128, 240, 256] {
        let keep = random.list(list.len(), share);
        of(seen, list, &keep, [5_u8, 3], |it| *it < 4);
        of(seen, list, &keep, [5_i16, -3], |it| *it < 4);
        of(seen, list, &keep, [5.0_f32, f32::NAN], |it| it.is_nan());
        of(seen, list, &keep, [i64::MAX, i64::MIN], |it| *it < 0);
        of(seen, list, &keep, ["a string", "another one"], |it| it.contains("other"));
    }
    let mut left = BitmapBuf::from(list);
    let (rows, len) = (list.len() + 1, list.len());
    let refused = left.retain_rows(&vec![0_u8; rows], |_| false);
    seen.same(refused, Err(Error::RowsDiffer { rows, len }));
    seen.same_list(&left, list);
}

/// Values that are added, set and taken off one by one.
fn one_by_one(seen: &mut Comparisons, random: &mut Generator, list: &[bool]) {
    let hash_of = |bits: &BitmapBuf| {
        let mut hasher = DefaultHasher::new();
        bits.hash(&mut hasher);
        hasher.finish()
    };
    let mut made = BitmapBuf::default();
    made.reserve(list.len() / 2);
    for value in list {
        made.push(*value);
    }
    seen.same_list(&made, list);
    seen.same(hash_of(&made), hash_of(&BitmapBuf::from(list)));
    let mut want = list.to_vec();
    for _ in 0..list.len().min(3) {
        let (i, value) = (random.below(list.len()), random.value(128));
        want[i] = value;
        seen.same(made.set(i, value), Ok(()));
        seen.same_list(&made, &want);
    }
    let len = random.below(list.len() + 2);
    made.truncate(len);
    want.truncate(len);
    seen.same_list(&made, &want);
    let outside = Error::IndexOutOfBounds { index: want.len(), len: want.len() };
    seen.same(made.set(want.len(), true), Err(outside));
    seen.same(made.try_reserve(9), Ok(()));
    made.push(true);
    want.push(true);
    seen.same_list(&made, &want);
}

/// Indices backwards and some of them twice, and ranges backwards of which some meet.
fn of_indices(seen: &mut Comparisons, random: &mut Generator, list: &[bool]) {
    let len = list.len();
    let mut indices = indices_of(list);
    indices.reverse();
    indices.extend_from_within(..random.below(indices.len() + 1));
    seen.same_list(&BitmapBuf::from_indices(len, &indices).unwrap(), list);
    let mut ranges = runs_of(list);
    ranges.reverse();
    seen.same_list(&BitmapBuf::from_ranges(len, ranges.clone()).unwrap(), list);
    let meeting = ranges.iter().flat_map(|run| [run.start..run.end, run.start..run.start + 1]);
    seen.same_list(&BitmapBuf::from_ranges(len, meeting).unwrap(), list);
    let outside = Err(Error::IndexOutOfBounds { index: len, len });
    indices.push(len);
    seen.same(BitmapBuf::from_indices(len, &indices), outside);
    let range = Error::BadRange { start: len, end: len + 1, len };
    seen.same(BitmapBuf::from_ranges(len, [0..0, len..len + 1]), Err(range));
}

fn extended(seen: &mut Comparisons, random: &mut Generator, list: &[bool]) {
    let (len, more) = (random.below(20), list.iter().copied());
    let first = random.list(len, 128);
    let mut made = BitmapBuf::with_capacity(first.len());
    made.extend(first.iter().copied().filter(|_| true));
    made.extend(more.filter(|_| true));
    seen.same_list(&made, &[&first[..], list].concat());
    made.clear();
    seen.same_list(&made, &[]);
    made.extend(list.iter().copied());
    seen.same_list(&made, list);
}

fn filled(seen: &mut Comparisons, random: &mut Generator, list: &[bool]) {
    let (mut made, mut want) = (BitmapBuf::from(list), list.to_vec());
    for value in [true, false, true] {
        let start = random.below(list.len() + 1);
        let end = start + random.below(list.len() + 1 - start);
        want[start..end].fill(value);
        seen.same(made.fill_range(start..end, value), Ok(()));
        seen.same_list(&made, &want);
    }
    let (start, end, len) = (list.len(), list.len() + 1, list.len());
    seen.same(made.fill_range(start..end, true), Err(Error::BadRange { start, end, len }));
}

/// Makers that write into bytes of the caller, and into a bitmap that had other values.
fn into_bytes(seen: &mut Comparisons, list: &[bool], bitmap: Bitmap<'_>) {
    let (len, size) = (list.len(), list.len().div_ceil(8));
    let room = || vec![0xA5; size + 1];
    let want = |list: &[bool]| (Ok(()), [&packed(list)[..], &[0xA5]].concat());
    let mut out = room();
    seen.same((BitmapBuf::from_fn_into(len, |i| list[i], &mut out[..]), out), want(list));
    let mut out = room();
    seen.same((BitmapBuf::from_bools_into(list, &mut out[..]), out), want(list));
    let (mut out, indices) = (room(), indices_of(list));
    seen.same((BitmapBuf::from_indices_into(len, &indices, &mut out[..]), out), want(list));
    let (mut out, ranges) = (room(), runs_of(list));
    seen.same((BitmapBuf::from_ranges_into(len, &ranges, &mut out[..]), out), want(list));
    let mut out = room();
    seen.same((BitmapBuf::collect_into(list.iter().copied(), &mut out[..]), out), want(list));
    let parts = [bitmap.slice(..len / 3).unwrap(), bitmap.slice(len / 3..).unwrap()];
    let mut out = room();
    seen.same((BitmapBuf::concat_into(&parts, &mut out[..]), out), want(list));
    let mut made = BitmapBuf::all_true(7);
    seen.same(BitmapBuf::concat_into(&parts, &mut made), Ok(()));
    seen.same_list(&made, list);
    seen.same(BitmapBuf::from_ranges_into(9, &[3..5, 5..6], &mut made), Ok(()));
    seen.same(BitmapBuf::from_ranges_into(len, &ranges, &mut made), Ok(()));
    seen.same_list(&made, list);
    seen.same(BitmapBuf::collect_into([true; 5], &mut made), Ok(()));
    seen.same(BitmapBuf::collect_into(list.iter().copied(), &mut made), Ok(()));
    seen.same_list(&made, list);
    for value in [true, false] {
        let mut out = room();
        seen.same((BitmapBuf::all_into(len, value, &mut out[..]), out), want(&vec![value; len]));
    }
}

fn joined(seen: &mut Comparisons, random: &mut Generator, list: &[bool], bitmap: Bitmap<'_>) {
    let (more, offset) = (random.below(90), random.below(16));
    let other = random.list(more, 128);
    let bytes = random.packed(&other, offset);
    let second = Bitmap::new(&bytes, offset, other.len()).unwrap();
    let want = [list, &other[..], list].concat();
    seen.same_list(&BitmapBuf::concat([bitmap, second, bitmap]), &want);
    let mut made = second.to_buf();
    made.append(bitmap);
    seen.same_list(&made, &[&other[..], list].concat());
}
