//! Indices of 4 bytes, and rows, values and strings at a list of indices.

use crate::lists::{self, Comparisons, Generator, indices_of};
use row_mask::{Bitmap, BitmapBuf, Error, RowIndex, Strings, take, take_append, take_into};
use std::fmt::Debug;

pub fn takes(seen: &mut Comparisons, random: &mut Generator, list: &[bool], bitmap: Bitmap<'_>) {
    narrow(seen, random, list, bitmap);
    let len = list.len();
    let count = if len == 0 { 0 } else { random.below(2 * len.min(300) + 1) };
    let places: Vec<usize> = (0..count).map(|_| random.below(len)).collect();
    let short: Vec<u32> = places.iter().map(|i| narrowed(*i)).collect();
    let bits: Vec<bool> = places.iter().map(|i| list[*i]).collect();
    of_bits(seen, bitmap, &places, &bits);
    of_bits(seen, bitmap, &short, &bits);
    of_true(seen, list, bitmap, &places);
    of_true(seen, list, bitmap, &short);
    let row = |i: usize| (i as u64).wrapping_mul(0x9E37_79B9_7F4A_7C15);
    of_rows(seen, len, &places, &short, |i| row(i).to_le_bytes()[0]);
    of_rows(seen, len, &places, &short, |i| row(i).to_le_bytes()[1] as char);
    of_rows(seen, len, &places, &short, row);
    of_rows(seen, len, &places, &short, |i| (row(i), i));
    of_rows(seen, len, &places, &short, |i| [row(i); 5]);
    of_rows(seen, len, &places, &short, |_| ());
    let value = |i: &usize| row(*i).to_le_bytes().repeat(5)[..(row(*i) % 37) as usize].to_vec();
    let values: Vec<Vec<u8>> = (0..len.min(500)).map(|i| value(&i)).collect();
    let places: Vec<usize> = places.into_iter().filter(|i| *i < values.len()).collect();
    of_strings(seen, &values, &places);
    of_strings(seen, &values, &places.iter().map(|i| narrowed(*i)).collect::<Vec<u32>>());
}

fn narrowed(i: usize) -> u32 {
    u32::try_from(i).unwrap()
}

/// Lists of them from a bitmap, and back.
fn narrow(seen: &mut Comparisons, random: &mut Generator, list: &[bool], bitmap: Bitmap<'_>) {
    let len = list.len();
    let mut indices: Vec<u32> = indices_of(list).into_iter().map(narrowed).collect();
    seen.same(bitmap.to_indices_u32(), Ok(indices.clone()));
    seen.same(bitmap.to_buf().to_indices_u32(), Ok(indices.clone()));
    for (room, from) in
        [(0, 0), (1, len / 2), (5, 0), (70, len / 3), (300, 0), (9, len), (2, len + 1)]
    {
        let mut out = vec![7; room];
        let found = bitmap.next_indices_u32(from, &mut out).unwrap();
        let left = indices.iter().copied().filter(|i| *i as usize >= from);
        seen.same(&out[..found], &left.take(room).collect::<Vec<u32>>()[..]);
    }
    indices.reverse();
    indices.extend_from_within(..random.below(indices.len() + 1));
    seen.same_list(&BitmapBuf::from_indices_u32(len, &indices).unwrap(), list);
    let mut out = vec![0xA5; len.div_ceil(8) + 1];
    seen.same(BitmapBuf::from_indices_u32_into(len, &indices, &mut out[..]), Ok(()));
    seen.same(out, [&lists::packed(list)[..], &[0xA5]].concat());
    indices.push(narrowed(len));
    let outside = Err(Error::IndexOutOfBounds { index: len, len });
    seen.same(BitmapBuf::from_indices_u32(len, &indices), outside);
}

/// Those of the indices whose values are true.
fn of_true<I: RowIndex + Debug>(
    seen: &mut Comparisons,
    list: &[bool],
    bitmap: Bitmap<'_>,
    indices: &[I],
) where
    usize: TryFrom<I>,
{
    let is_true = |i: &&I| usize::try_from(**i).is_ok_and(|i| list[i]);
    let want: Vec<I> = indices.iter().filter(is_true).copied().collect();
    seen.same(bitmap.true_among(indices).as_ref(), Ok(&want));
    let mut out = [indices, &indices[..indices.len().min(2)]].concat();
    seen.same(bitmap.true_among_into(indices, &mut out), Ok(want.len()));
    seen.same(&out[..want.len()], &want[..]);
    seen.same(&out[indices.len()..], &indices[..indices.len().min(2)]);
}

fn of_bits(seen: &mut Comparisons, bitmap: Bitmap<'_>, indices: &[impl RowIndex], want: &[bool]) {
    seen.same_list(&bitmap.take(indices).unwrap(), want);
    seen.same_list(&bitmap.to_buf().take(indices).unwrap(), want);
    let mut out = vec![0xA5; want.len().div_ceil(8) + 1];
    seen.same(bitmap.take_into(indices, &mut out[..]), Ok(()));
    seen.same(out, [&lists::packed(want)[..], &[0xA5]].concat());
    let few = bitmap.take_into(indices, &mut [][..]).is_ok();
    seen.same(few, want.is_empty());
}

fn of_rows<T: Copy + Debug + PartialEq>(
    seen: &mut Comparisons,
    len: usize,
    places: &[usize],
    short: &[u32],
    row: impl Fn(usize) -> T,
) {
    let rows: Vec<T> = (0..len).map(&row).collect();
    let want: Vec<T> = places.iter().map(|i| row(*i)).collect();
    seen.same(take(places, &rows), Ok(want.clone()));
    seen.same(take(short, &rows), Ok(want.clone()));
    let mut out: Vec<T> = want.iter().chain(&want).copied().collect();
    out.reverse();
    let behind = out[want.len()..].to_vec();
    seen.same(take_into(short, &rows, &mut out), Ok(()));
    seen.same((&out[..want.len()], &out[want.len()..]), (&want[..], &behind[..]));
    seen.same(take_append(places, &rows, &mut out), Ok(()));
    seen.same(&out[2 * want.len()..], &want[..]);
    let outside = Error::IndexOutOfBounds { index: len, len };
    let past = [places, &[len, len + 1]].concat();
    seen.same(take(&past, &rows), Err(outside));
    seen.same(take_into(&past, &rows, &mut []), Err(outside));
    if !want.is_empty() {
        let few = Error::RoomTooSmall { room: want.len() - 1, needed: want.len() };
        seen.same(take_into(places, &rows, &mut out[..want.len() - 1]), Err(few));
    }
}

fn of_strings(seen: &mut Comparisons, values: &[Vec<u8>], indices: &[impl RowIndex + Debug]) {
    let ends = values.iter().scan(0, |end, it| {
        *end += i32::try_from(it.len()).unwrap();
        Some(*end)
    });
    let offsets: Vec<i32> = [0].into_iter().chain(ends).collect();
    let bytes = values.concat();
    let strings = Strings::new(&offsets, &bytes).unwrap();
    let (made, chosen) = strings.take(indices).unwrap();
    let made = Strings::new(&made, &chosen).unwrap();
    seen.same(made.len(), indices.len());
    let number = |i: &_| format!("{i:?}").parse::<usize>().unwrap();
    let same = (0..made.len()).all(|k| made.get(k) == Some(&values[number(&indices[k])][..]));
    seen.same(same, true);
    let (mut ends, mut out) = (vec![7; indices.len() + 2], vec![0xA5; chosen.len() + 1]);
    seen.same(strings.take_offsets(indices, &mut ends), Ok(chosen.len()));
    seen.same((&ends[..=indices.len()], ends[indices.len() + 1]), (made.offsets(), 7));
    seen.same(strings.take_bytes(indices, &mut out), Ok(chosen.len()));
    seen.same((&out[..chosen.len()], out[chosen.len()]), (&chosen[..], 0xA5));
    let few = Error::RoomTooSmall { room: indices.len(), needed: indices.len() + 1 };
    seen.same(strings.take_offsets(indices, &mut ends[..indices.len()]), Err(few));
}
