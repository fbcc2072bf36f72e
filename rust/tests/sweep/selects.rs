//! Rows, bits and strings that a selection chooses.

use crate::lists::{self, Comparisons, Generator, chosen, count_of};
use row_mask::{Bitmap, Error, Offset, Row, Selection, Strings};
use std::fmt::Debug;

pub fn selects(seen: &mut Comparisons, random: &mut Generator, list: &[bool], bitmap: Bitmap<'_>) {
    let selection = Selection::new(bitmap);
    seen.same((selection.len(), selection.count()), (list.len(), count_of(list)));
    seen.same(selection.as_bitmap(), bitmap);
    of_each_size(seen, random, list, &selection);
    let (bits, offset) = (random.list(list.len(), 128), random.below(16));
    let bytes = random.packed(&bits, offset);
    let packed = Bitmap::new(&bytes, offset, bits.len()).unwrap();
    seen.same_list(&selection.choose_bits(packed).unwrap(), &chosen(&bits, list));
    let mut out = vec![0xA5; count_of(list).div_ceil(8) + 1];
    seen.same(selection.choose_bits_into(packed, &mut out[..]), Ok(()));
    seen.same(out, [&lists::packed(&chosen(&bits, list))[..], &[0xA5]].concat());
    let below = [9, 17, 40][random.below(3)];
    let mut value =
        |_: &bool| random.word().to_le_bytes().repeat(5)[..random.below(below)].to_vec();
    let values: Vec<Vec<u8>> = list.iter().map(&mut value).collect();
    strings::<u32>(seen, &values, list, &selection);
    strings::<i64>(seen, &values, list, &selection);
}

/// A row of a caller's own.
#[derive(Clone, Copy, Debug, PartialEq)]
struct Cents(i64);

// SAFETY: it is a number, and nothing else.
unsafe impl Row for Cents {}

/// Rows of each size that the library has, arrays that it hasn't, and a caller's own.
fn of_each_size(
    seen: &mut Comparisons,
    random: &mut Generator,
    list: &[bool],
    selection: &Selection,
) {
    let words: Vec<[u8; 8]> = list.iter().map(|_| random.word().to_le_bytes()).collect();
    let pair = |word: &[u8; 8]| [*word, *word].concat();
    let four = |word: &[u8; 8]| [pair(word), pair(word)].concat().try_into().unwrap();
    of_rows(seen, list, selection, |i| words[i][0]);
    of_rows(seen, list, selection, |i| i16::from_le_bytes([words[i][0], words[i][1]]));
    of_rows(seen, list, selection, |i| char::from(words[i][2]));
    of_rows(seen, list, selection, |i| u64::from_le_bytes(words[i]));
    of_rows(seen, list, selection, |i| u128::from(words[i][3]) << 100 | 7);
    of_rows(seen, list, selection, |i| [words[i][0], words[i][1]]);
    of_rows(seen, list, selection, |i| words[i]);
    of_rows(seen, list, selection, |i| -> [u8; 32] { four(&words[i]) });
    of_rows(seen, list, selection, |i| [u64::from(words[i][0]), 3]);
    of_rows(seen, list, selection, |i| Cents(i64::from_le_bytes(words[i])));
}

fn of_rows<T: Row + Debug + PartialEq>(
    seen: &mut Comparisons,
    list: &[bool],
    selection: &Selection,
    row: impl Fn(usize) -> T,
) {
    let rows: Vec<T> = (0..list.len()).map(row).collect();
    let (want, bitmap) = (chosen(&rows, list), selection.as_bitmap());
    seen.same(selection.choose(&rows).as_ref(), Ok(&want));
    seen.same(bitmap.choose(&rows).as_ref(), Ok(&want));
    let mut all = rows.clone();
    seen.same(selection.choose_append(&rows, &mut all), Ok(()));
    seen.same(bitmap.choose_append(&rows, &mut all), Ok(()));
    seen.same(all, [&rows[..], &want, &want].concat());
    // (one place more than is written, where there is a row to stand in it)
    let behind = rows.first();
    let room: Vec<T> = behind.into_iter().cycle().take(want.len() + 1).copied().collect();
    let want: Vec<T> = want.iter().chain(behind).copied().collect();
    let (mut out, mut again) = (room.clone(), room);
    seen.same(selection.choose_into(&rows, &mut out), Ok(()));
    seen.same(bitmap.choose_into(&rows, &mut again), Ok(selection.count()));
    seen.same((&out, &again), (&want, &want));
}

fn strings<O: Offset + Debug>(
    seen: &mut Comparisons,
    values: &[Vec<u8>],
    list: &[bool],
    selection: &Selection,
) {
    let (offsets, bytes) = joined::<O>(values);
    let want: Vec<Vec<u8>> =
        values.iter().zip(list).filter(|(_, value)| **value).map(|(it, _)| it.clone()).collect();
    let (want_offsets, want_bytes) = joined::<O>(&want);
    let (got_offsets, got_bytes) = selection.choose_strings(&offsets, &bytes).unwrap();
    seen.same(&got_offsets, &want_offsets);
    seen.same(&got_bytes, &want_bytes);
    let mut out = vec![O::default(); want.len() + 3];
    seen.same(selection.choose_offsets(&offsets, &mut out), Ok(want_bytes.len()));
    seen.same(&out[..=want.len()], &want_offsets[..]);
    let mut out = vec![7; want_bytes.len() + 2];
    seen.same(selection.choose_bytes(&offsets, &bytes, &mut out), Ok(want_bytes.len()));
    seen.same(out, [&want_bytes[..], &[7; 2]].concat());
    // a part of a longer column, whose first offset isn't 0
    let around = [&[b"before".to_vec()][..], values, &[b"behind".to_vec()]].concat();
    let (offsets, bytes) = joined::<O>(&around);
    let all = Strings::new(&offsets, &bytes).unwrap();
    let part = all.slice(1..=values.len()).unwrap();
    seen.same((part.len(), part.is_empty()), (values.len(), values.is_empty()));
    seen.same((0..values.len()).all(|i| part.get(i) == Some(&values[i][..])), true);
    seen.same((part.get(values.len()), all.get(0)), (None, Some(&b"before"[..])));
    seen.same(Strings::new(part.offsets(), part.bytes()).unwrap().len(), values.len());
    seen.same(part.choose(selection), Ok((want_offsets.clone(), want_bytes.clone())));
    let mut out = vec![O::default(); want.len() + 2];
    seen.same(part.choose_offsets(selection, &mut out), Ok(want_bytes.len()));
    seen.same(&out[..=want.len()], &want_offsets[..]);
    let mut out = vec![7; want_bytes.len() + 1];
    seen.same(part.choose_bytes(selection, &mut out), Ok(want_bytes.len()));
    seen.same(out, [&want_bytes[..], &[7]].concat());
}

fn joined<O: Offset>(values: &[Vec<u8>]) -> (Vec<O>, Vec<u8>) {
    let (mut offsets, mut bytes) = (vec![O::default()], vec![]);
    for value in values {
        bytes.extend_from_slice(value);
        offsets.push(O::try_from(bytes.len()).ok().unwrap());
    }
    (offsets, bytes)
}

#[test]
fn what_a_selection_asks_is_tested() {
    let selection = Selection::new(Bitmap::new(&[0b101], 0, 3).unwrap());
    let differ = Error::RowsDiffer { rows: 2, len: 3 };
    assert_eq!(selection.choose(&[1, 2]), Err(differ));
    let two = Bitmap::new(&[0], 0, 2).unwrap();
    assert_eq!(selection.choose_bits(two).err(), Some(differ));
    let three = Bitmap::new(&[0], 0, 3).unwrap();
    let refused = Error::RoomTooSmall { room: 0, needed: 1 };
    assert_eq!(selection.choose_bits_into(three, &mut [][..]), Err(refused));
    let small = |room, needed| Error::RoomTooSmall { room, needed };
    assert_eq!(selection.choose_into(&[1, 2, 3], &mut [0]), Err(small(1, 2)));

    let strings = |offsets: &[i32]| selection.choose_strings(offsets, b"abcd").err();
    assert_eq!(strings(&[0, 1, 2, 4]), None);
    assert_eq!(strings(&[4, 4, 4, 4]), None);
    assert_eq!(strings(&[0, 1, 2]), Some(Error::OffsetsDiffer { offsets: 3, len: 3 }));
    assert_eq!(strings(&[]), Some(Error::OffsetsDiffer { offsets: 0, len: 3 }));
    assert_eq!(strings(&[0, 2, 1, 4]), Some(Error::UnsortedOffsets { at: 2 }));
    assert_eq!(strings(&[-1, 2, 2, 4]), Some(Error::UnsortedOffsets { at: 0 }));
    assert_eq!(strings(&[0, 1, 2, 5]), Some(Error::OffsetOutOfBounds { offset: 5, size: 4 }));
    let refused = |offsets: &[i32]| Strings::new(offsets, b"abcd").err();
    assert_eq!(refused(&[4]), None);
    assert_eq!(refused(&[]), Some(Error::OffsetsDiffer { offsets: 0, len: 0 }));
    assert_eq!(refused(&[0, 2, 1, 4]), Some(Error::UnsortedOffsets { at: 2 }));
    assert_eq!(refused(&[-1, 2]), Some(Error::UnsortedOffsets { at: 0 }));
    assert_eq!(refused(&[0, 1, 5]), Some(Error::OffsetOutOfBounds { offset: 5, size: 4 }));
    let column = Strings::new(&[0_i64, 1, 4], b"abcd").unwrap();
    assert_eq!(column.choose(&selection).err(), Some(differ));
    assert_eq!(column.choose_offsets(&selection, &mut []).err(), Some(differ));
    assert_eq!(column.choose_bytes(&selection, &mut []).err(), Some(differ));
    assert_eq!(column.slice(2..4).err(), Some(Error::BadRange { start: 2, end: 4, len: 2 }));
    let column = Strings::new(&[0_i64, 1, 2, 4], b"abcd").unwrap();
    assert_eq!(column.choose_offsets(&selection, &mut [0; 2]), Err(small(2, 3)));
    assert_eq!(column.choose_bytes(&selection, &mut [0; 2]), Err(small(2, 3)));
    assert_eq!(selection.choose_append(&[1, 2], &mut vec![]), Err(differ));
    let offsets = [0_u64, 1, 2, 4];
    assert_eq!(selection.choose_offsets(&offsets, &mut [0; 2]), Err(small(2, 3)));
    assert_eq!(selection.choose_bytes(&offsets, b"abcd", &mut [0; 2]), Err(small(2, 3)));
}
