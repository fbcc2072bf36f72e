//! Rows at indices, next to a bitmap, and behind one another, with the worst numbers.

use super::{LENGTHS, MANY, small};
use crate::memory::{LITTLE, lacks, limit, refused, within};
use row_mask::{Bitmap, BitmapBuf, Error, Strings};

#[test]
fn indices_of_4_bytes() {
    let _alone = limit();
    for len in LENGTHS {
        lacks(len, || BitmapBuf::from_indices_u32(len, &[0, u32::MAX]));
        let mut kept = BitmapBuf::all_true(3);
        lacks(len, || BitmapBuf::from_indices_u32_into(len, &[], &mut kept));
        let (mut room, refusal) = ([0xA5; 2], small(2, len.div_ceil(8)));
        assert_eq!(refused(|| BitmapBuf::from_indices_u32_into(len, &[], &mut room[..])), refusal);
        assert_eq!((kept.to_string(), room), ("111".into(), [0xA5; 2]));
    }
    let index = Error::IndexOutOfBounds { index: u32::MAX as usize, len: 5 };
    assert_eq!(refused(|| BitmapBuf::from_indices_u32(5, &[4, u32::MAX])), index);
    // (one value more than indices of 4 bytes number)
    let bytes = vec![0; (1 << 29) + 1];
    let wide = Bitmap::new(&bytes, 7, (1 << 32) + 1).unwrap();
    let narrow = Error::IndicesTooNarrow { len: wide.len() };
    assert_eq!(refused(|| wide.to_indices_u32()), narrow);
    assert_eq!(refused(|| wide.next_indices_u32(usize::MAX, &mut [0; 2])), narrow);
    let most = wide.slice(1..).unwrap();
    assert_eq!(within(LITTLE, || most.to_indices_u32()), Ok(vec![]));
    assert_eq!(within(LITTLE, || most.next_indices_u32(usize::MAX, &mut [0; 2])), Ok(0));
}

#[test]
fn rows_at_indices() {
    let (rows, texts) = ([1_u8, 2, 3], Strings::new(&[0_i32, 1, 1, 2], b"ab").unwrap());
    let bits = Bitmap::new(&[0b101], 0, 3).unwrap();
    for index in [3, 1 << 32, usize::MAX] {
        let (indices, past) = ([2, index, 7], Error::IndexOutOfBounds { index, len: 3 });
        let (mut list, mut out, mut made) = (vec![9], [9; 3], BitmapBuf::all_true(2));
        assert_eq!(refused(|| row_mask::take(&indices, &rows)), past);
        assert_eq!(refused(|| row_mask::take_append(&indices, &rows, &mut list)), past);
        assert_eq!(refused(|| row_mask::take_into(&indices, &rows, &mut out)), past);
        assert_eq!(refused(|| bits.take(&indices)), past);
        assert_eq!(refused(|| bits.take_into(&indices, &mut made)), past);
        assert_eq!(refused(|| texts.take(&indices)), past);
        assert_eq!(refused(|| texts.take_offsets(&indices, &mut [0; 4])), past);
        assert_eq!(refused(|| texts.take_bytes(&indices, &mut out)), past);
        assert_eq!((list, out, made.to_string()), (vec![9], [9; 3], "11".into()));
    }
    let (all, mut out) = ([0_u32, 1, 2, 0], [9; 3]);
    assert_eq!(refused(|| row_mask::take_into(&all, &rows, &mut out)), small(3, 4));
    assert_eq!(refused(|| texts.take_offsets(&all, &mut [0; 3])), small(3, 5));
    assert_eq!(refused(|| texts.take_bytes(&all, &mut out[..2])), small(2, 3));
    assert_eq!(refused(|| bits.take_into(&all, &mut [][..])), small(0, 1));
}

#[test]
fn more_bytes_than_an_offset_counts() {
    let _alone = limit();
    let bytes = vec![b'a'; 1 << 20];
    let one = Strings::new(&[0_i32, 1 << 20], &bytes).unwrap();
    let great = Error::OffsetTooGreat { offset: 1 << 31 };
    let twice = [0_u32; 2048];
    assert_eq!(refused(|| one.take(&twice)), great);
    assert_eq!(refused(|| one.take_offsets(&twice, &mut [0; 2049])), great);
    assert_eq!(refused(|| one.take_bytes(&twice, &mut [])), great);
    let size = 2047 << 20;
    assert_eq!(one.take_offsets(&twice[1..], &mut [0; 2048]), Ok(size));
    assert_eq!(refused(|| one.take_bytes(&twice[1..], &mut [])), small(0, size));
}

#[test]
fn rows_beside_values() {
    let _alone = limit();
    let mut many = BitmapBuf::all_true(MANY);
    let differ = Error::RowsDiffer { rows: 2, len: MANY };
    assert_eq!(refused(|| many.fold_chosen(&[0; 2], 0, |sum, row| sum + row)), differ);
    assert_eq!(refused(|| many.fold_rows(&[0; 2], 0, |sum, row, _| sum + row)), differ);
    assert_eq!(within(LITTLE, || many.retain_rows(&[0; 2], |_| false)), Err(differ));
    assert_eq!(many.count(), MANY);
    assert_eq!(within(LITTLE, || many.words().len()), MANY / 64);
    let nothing = [(); MANY];
    assert_eq!(many.fold_chosen(&nothing, 0, |count, ()| count + 1), Ok(MANY));
    assert_eq!(many.retain_rows(&nothing, |()| false), Ok(()));
    assert!(!many.any());
}

#[test]
fn first_values_and_places() {
    let _alone = limit();
    let mut many = BitmapBuf::all_true(MANY);
    for k in [MANY, 1 << 62, usize::MAX] {
        assert_eq!((many.limit(k).count(), many.without_first(k).count()), (MANY, 0));
        let (mut room, refusal) = ([0xA5; 2], small(2, MANY / 8));
        assert_eq!(refused(|| many.as_bitmap().limit_into(k, &mut room[..])), refusal);
        assert_eq!(refused(|| many.as_bitmap().without_first_into(k, &mut room[..])), refusal);
        many.keep_first(k);
        assert_eq!(many.count(), MANY);
        let one = BitmapBuf::all_false(1);
        let past = Error::BadRange { start: k, end: k.saturating_add(1), len: MANY };
        assert_eq!(within(LITTLE, || many.write_at(k, &one)), Err(past));
    }
    let last = Error::BadRange { start: 1, end: MANY + 1, len: MANY };
    let all = many.clone();
    assert_eq!(within(LITTLE, || many.write_at(1, &all)), Err(last));
    assert_eq!(many.write_at(MANY, &BitmapBuf::default()), Ok(()));
    many.drop_first(usize::MAX);
    assert_eq!(many.count(), 0);
}

#[test]
fn ranks_past_the_last() {
    let _alone = limit();
    let ranks = BitmapBuf::all_true(MANY).as_bitmap().ranks();
    for n in [MANY, 1 << 32, 1 << 62, usize::MAX] {
        assert_eq!(within(LITTLE, || ranks.select(n)), None);
    }
    assert_eq!((ranks.select(MANY - 1), ranks.count_below(MANY)), (Some(MANY - 1), MANY));
    let none = Bitmap::new(&[], 0, 0).unwrap().ranks();
    assert_eq!((none.select(0), none.select(usize::MAX), none.count_below(0)), (None, None, 0));
}

#[test]
fn indices_in_common_of_any_lists() {
    let most = [7, 1 << 32, usize::MAX];
    assert_eq!(
        row_mask::intersect_sorted(&most, &[0, 1 << 32, usize::MAX]),
        Ok(most[1..].to_vec())
    );
    assert_eq!(row_mask::intersect_sorted(&most, &[]), Ok(vec![]));
    let mut out = [9; 3];
    assert_eq!(
        refused(|| row_mask::intersect_sorted_into(&most, &most, &mut out[..2])),
        small(2, 3)
    );
    assert_eq!(out, [9; 3]);
    // (of lists that don't ascend there are no more than the shorter one has)
    let falling: Vec<usize> = (0..500).rev().chain([usize::MAX, 0, 3]).collect();
    for list in [&falling[..], &falling[..20], &[3; 100], &[usize::MAX, 0]] {
        for other in [&falling[..], &falling[490..], &[0; 40]] {
            let found = row_mask::intersect_sorted(list, other).unwrap().len();
            assert!(found <= list.len().min(other.len()));
        }
    }
}

#[test]
fn indices_at_which_a_bitmap_is_true() {
    let bits = Bitmap::new(&[0b101], 0, 3).unwrap();
    for index in [3, 1 << 32, usize::MAX] {
        let (indices, past) = ([2, index, 7], Error::IndexOutOfBounds { index, len: 3 });
        let mut out = [9; 3];
        assert_eq!(refused(|| bits.true_among(&indices)), past);
        assert_eq!(refused(|| bits.true_among_into(&indices, &mut out)), past);
        assert_eq!(out, [9; 3]);
    }
    assert_eq!(refused(|| bits.true_among_into(&[0_u32, 1], &mut [0])), small(1, 2));
    assert_eq!(bits.to_buf().true_among(&[2_u32, 1, 2]), Ok(vec![2, 2]));
    assert_eq!(bits.to_buf().true_among_into(&[1_u32], &mut [0]), Ok(0));
}
