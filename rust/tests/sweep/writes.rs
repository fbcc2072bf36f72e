//! Values that are written at a place, added behind others, cut to the first true ones, and rows that are folded.

use crate::lists::{Comparisons, Generator, chosen, indices_of, packed};
use row_mask::{Bitmap, BitmapBuf, Error};

pub fn writes(seen: &mut Comparisons, random: &mut Generator, list: &[bool], bitmap: Bitmap<'_>) {
    at_a_place(seen, random, list, bitmap);
    of_few(seen, random, list);
    of_one_value(seen, random, list);
    for k in [0, 1, random.below(list.len() + 1), indices_of(list).len(), usize::MAX] {
        limits(seen, list, bitmap, k);
    }
    folds(seen, random, list, bitmap);
}

fn at_a_place(seen: &mut Comparisons, random: &mut Generator, list: &[bool], bitmap: Bitmap<'_>) {
    let (before, behind) = (random.below(80), random.below(20));
    let mut want = random.list(before + list.len() + behind, 128);
    let mut made = BitmapBuf::from(&want[..]);
    want[before..before + list.len()].copy_from_slice(list);
    seen.same(made.write_at(before, bitmap), Ok(()));
    seen.same_list(&made, &want);
    let (start, len) = (before + behind + 1, made.len());
    let refusal = Error::BadRange { start, end: start + list.len(), len };
    seen.same(made.write_at(start, bitmap), Err(refusal));
    let refusal = Error::BadRange { start: usize::MAX, end: usize::MAX, len };
    seen.same(made.write_at(usize::MAX, bitmap), Err(refusal));
    seen.same_list(&made, &want);
}

/// Parts of few values, one behind another, with memory for all and with none.
fn of_few(seen: &mut Comparisons, random: &mut Generator, list: &[bool]) {
    let room = [0, list.len(), list.len() + 64][random.below(3)];
    let (mut made, mut start, most) =
        (BitmapBuf::with_capacity(room), 0, [3, 20, 70][random.below(3)]);
    while start < list.len() {
        let (end, offset) = (list.len().min(start + random.below(most)), random.below(16));
        let bytes = random.packed(&list[start..end], offset);
        made.append(Bitmap::new(&bytes, offset, end - start).unwrap());
        start = end;
    }
    seen.same_list(&made, list);
}

fn of_one_value(seen: &mut Comparisons, random: &mut Generator, list: &[bool]) {
    let (mut made, mut want) = (BitmapBuf::from(list), list.to_vec());
    for value in [true, false, true] {
        let n = random.below(70);
        made.append_n(value, n);
        want.resize(want.len() + n, value);
        seen.same_list(&made, &want);
        let len = random.below(want.len() + 9);
        made.resize(len, !value);
        want.resize(len, !value);
        seen.same_list(&made, &want);
    }
}

fn limits(seen: &mut Comparisons, list: &[bool], bitmap: Bitmap<'_>, k: usize) {
    let kept = indices_of(list).len().min(k);
    let first = kept.checked_sub(1).map_or(0, |last| indices_of(list)[last] + 1);
    let mut front = list.to_vec();
    front[first..].fill(false);
    let mut others = list.to_vec();
    others[..first].fill(false);
    seen.same_list(&bitmap.limit(k), &front);
    seen.same_list(&bitmap.without_first(k), &others);
    let (mut in_place, mut left) = (bitmap.to_buf(), bitmap.to_buf());
    in_place.keep_first(k);
    left.drop_first(k);
    seen.same_list(&in_place, &front);
    seen.same_list(&left, &others);
    let mut out = vec![0xA5; list.len().div_ceil(8) + 1];
    seen.same(bitmap.limit_into(k, &mut out[..]), Ok(()));
    seen.same(&out, &[&packed(&front)[..], &[0xA5]].concat());
    seen.same(bitmap.without_first_into(k, &mut out[..]), Ok(()));
    seen.same(out, [&packed(&others)[..], &[0xA5]].concat());
}

fn folds(seen: &mut Comparisons, random: &mut Generator, list: &[bool], bitmap: Bitmap<'_>) {
    let mut rows: Vec<u64> = list.iter().map(|_| random.word()).collect();
    let digest = |before: u64, row: &u64| before.wrapping_mul(3).wrapping_add(*row);
    let want = chosen(&rows, list).iter().fold(1, digest);
    seen.same(bitmap.fold_chosen(&rows, 1, digest), Ok(want));
    let every = |before, row: &u64, is_true| digest(before, &(row ^ u64::from(is_true)));
    let want = rows.iter().zip(list).fold(1, |before, (row, is_true)| every(before, row, *is_true));
    seen.same(bitmap.fold_rows(&rows, 1, every), Ok(want));
    rows.push(0);
    let refusal = Err(Error::RowsDiffer { rows: rows.len(), len: list.len() });
    seen.same(bitmap.fold_chosen(&rows, 1, digest), refusal);
    seen.same(bitmap.fold_rows(&rows, 1, every), refusal);
}
