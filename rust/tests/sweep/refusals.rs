//! What a call asks is tested, and how bitmaps and refusals are printed.

use row_mask::arrow::ArrowError;
use row_mask::{AllocError, Bitmap, BitmapBuf, Error, Selection, Strings, take};

#[test]
fn what_a_call_asks_is_tested() {
    let bytes = [0b1011_1001, 0xFF];
    let refused = |offset, len| Bitmap::new(&bytes, offset, len).err();
    assert_eq!(refused(0, 16), None);
    assert_eq!(refused(16, 0), None);
    for (offset, len) in [(0, 17), (17, 0), (9, 8), (usize::MAX, 1), (1, usize::MAX)] {
        assert_eq!(refused(offset, len), Some(Error::OutOfBytes { bytes: 2, offset, len }));
    }
    assert_eq!(Bitmap::new(&[], 0, 0).unwrap().count(), 0);

    let start = 3;
    let eight = Bitmap::new(&bytes, 0, 8).unwrap();
    let seven = Bitmap::new(&bytes, 0, 7).unwrap();
    assert_eq!(eight.and(seven), Err(Error::LengthsDiffer { left: 8, right: 7 }));
    assert_ne!(eight, seven);
    assert_eq!(eight.get(8), None);
    assert_eq!(eight.slice(3..9).err(), Some(Error::BadRange { start: 3, end: 9, len: 8 }));
    assert_eq!(eight.count_range(start..2), Err(Error::BadRange { start: 3, end: 2, len: 8 }));
    assert_eq!(eight.slice(..=8).err(), Some(Error::BadRange { start: 0, end: 9, len: 8 }));
    assert!(eight.slice(..=usize::MAX).is_err());
    assert_eq!(eight.slice(..=2).unwrap().len(), 3);
    assert_eq!(eight.slice(..).unwrap(), eight);
    assert_eq!(eight.to_buf().and_with(seven), Err(Error::LengthsDiffer { left: 8, right: 7 }));
    assert_eq!(eight.intersect_by_rank(seven), Err(Error::RanksDiffer { ranks: 7, count: 5 }));
    assert_eq!(eight.intersect_at_ranks(&[0, 2, 2]), Err(Error::UnsortedRanks { at: 2 }));
    assert_eq!(
        eight.intersect_at_ranks(&[0, 5]),
        Err(Error::RankOutOfBounds { rank: 5, count: 5 })
    );
    assert_eq!(eight.counts_below(&[3, 3, 1]), Err(Error::UnsortedIndices { at: 2 }));
    assert_eq!(eight.counts_below(&[8, 9]), Err(Error::IndexOutOfBounds { index: 9, len: 8 }));
    assert_eq!(eight.choose(&[1, 2]), Err(Error::RowsDiffer { rows: 2, len: 8 }));
    assert_eq!(eight.choose_bits(seven), Err(Error::RowsDiffer { rows: 7, len: 8 }));
}

/// Lists of indices of 4 bytes, and what is taken at lists of indices.
#[test]
fn indices_that_name_nothing_are_refused() {
    let eight = Bitmap::new(&[0b1011_1001], 0, 8).unwrap();
    let outside = |index| Error::IndexOutOfBounds { index, len: 8 };
    assert_eq!(eight.take(&[7_u32, 9, 8]), Err(outside(9)));
    assert_eq!(eight.take(&[usize::MAX]), Err(outside(usize::MAX)));
    assert_eq!(BitmapBuf::from_indices_u32(8, &[u32::MAX]), Err(outside(0xFFFF_FFFF)));
    assert_eq!(take(&[0_u32], &[0_u8; 0]), Err(Error::IndexOutOfBounds { index: 0, len: 0 }));
    let bytes = vec![7; 200];
    let strings = Strings::new(&[0_i32, 0, 200], &bytes).unwrap();
    assert_eq!(strings.take(&[2_u32]), Err(Error::IndexOutOfBounds { index: 2, len: 2 }));
    let (many, mut out) = (vec![1_u32; 11_000_000], [0; 0]);
    let great = Error::OffsetTooGreat { offset: 2_200_000_000 };
    assert_eq!(strings.take_bytes(&many, &mut out), Err(great));
    assert_eq!(great.to_string(), "offset 2200000000 is more than its type counts");
    let zeros = vec![0; (1 << 29) + 1];
    let long = Bitmap::new(&zeros, 0, (1 << 32) + 1).unwrap();
    let narrow = Error::IndicesTooNarrow { len: (1 << 32) + 1 };
    assert_eq!(long.to_indices_u32(), Err(narrow));
    assert_eq!(long.next_indices_u32(0, &mut [7]), Err(narrow));
    assert_eq!(long.slice(1 << 20..).unwrap().next_indices_u32(usize::MAX, &mut [7]), Ok(0));
    assert_eq!(
        narrow.to_string(),
        "there are 4294967297 values, and indices of 4 bytes number 4294967296"
    );
}

/// An iterator of true values that is wrong about its length.
struct Says {
    values: usize,
    said: usize,
}

impl Iterator for Says {
    type Item = bool;

    fn next(&mut self) -> Option<bool> {
        self.values = self.values.checked_sub(1)?;
        Some(true)
    }
}

impl ExactSizeIterator for Says {
    fn len(&self) -> usize {
        self.said
    }
}

#[test]
fn what_changes_and_makers_ask_is_tested() {
    let eight = Bitmap::new(&[0b1011_1001], 0, 8).unwrap();
    let seven = Bitmap::new(&[0b1011_1001], 0, 7).unwrap();
    let differ = Error::LengthsDiffer { left: 8, right: 7 };
    assert_eq!(eight.and_into(seven, &mut [][..]), Err(differ));
    let small = |room, needed| Error::RoomTooSmall { room, needed };
    assert_eq!(eight.choose_into(&[0; 8], &mut [0; 4]), Err(small(4, 5)));
    assert_eq!(eight.choose_bits_into(eight, &mut [][..]), Err(small(0, 1)));
    assert_eq!(eight.counts_below_into(&[1, 2], &mut [0]), Err(small(1, 2)));

    let mut room = [0xA5; 1];
    assert_eq!(BitmapBuf::concat_into(&[eight, seven], &mut room[..]), Err(small(1, 2)));
    assert_eq!(BitmapBuf::collect_into([true; 9], &mut room[..]), Err(small(1, 2)));
    assert_eq!(BitmapBuf::from_ranges_into(9, &[0..8, 8..9], &mut room[..]), Err(small(1, 2)));
    let range = Error::BadRange { start: 8, end: 9, len: 8 };
    assert_eq!(BitmapBuf::from_ranges_into(8, &[0..8, 8..9], &mut room[..]), Err(range));
    assert_eq!(room, [0xA5]);
    assert_eq!(BitmapBuf::collect_into(Says { values: 0, said: 8 }, &mut room[..]), Ok(()));
    assert_eq!(room, [0]);
    let (few, mut room) = (Says { values: 601, said: 1300 }, [0xA5; 163]);
    assert_eq!(BitmapBuf::collect_into(few, &mut room[..]), Ok(()));
    let want = BitmapBuf::from_fn(1300, |i| i < 601);
    assert_eq!(&room[..], want.as_bytes());
    let (few, mut long) = (Says { values: 1100, said: 4000 }, [0xA5; 501]);
    assert_eq!(BitmapBuf::collect_into(few, &mut long[..]), Ok(()));
    assert_eq!(long[..500], *BitmapBuf::from_fn(4000, |i| i < 1100).as_bytes());
    assert_eq!(long[500], 0xA5);
    let (many, mut made) = (Says { values: 1300, said: 601 }, want);
    assert_eq!(BitmapBuf::collect_into(many, &mut made), Ok(()));
    assert_eq!(made, BitmapBuf::all_true(601));

    let outside = |bytes, len| Some(Error::OutOfBytes { bytes, offset: 0, len });
    assert_eq!(BitmapBuf::from_vec(vec![0], 0, 9).err(), outside(1, 9));
    #[cfg(target_endian = "little")]
    assert_eq!(Bitmap::from_words(&[0], 65).err(), outside(8, 65));
}

#[test]
fn texts() {
    let bitmap = Bitmap::new(&[0b0011_0010], 1, 6).unwrap();
    assert_eq!(format!("{bitmap}|{bitmap:>8}"), "100110|  100110");
    let said = "{ len: 6, count: 3, values: 100110 }";
    assert_eq!(format!("{bitmap:?}"), format!("Bitmap {said}"));
    assert_eq!(format!("{:?}", bitmap.to_buf()), format!("BitmapBuf {said}"));
    let long: BitmapBuf = (0..1000).map(|i| i == 1 || i == 999).collect();
    let values = format!("01{}..", "0".repeat(62));
    assert_eq!(
        format!("{long:?}"),
        format!("BitmapBuf {{ len: 1000, count: 2, values: {values} }}")
    );
    let refused = bitmap.choose(&[0]).unwrap_err();
    assert_eq!(refused.to_string(), "there are 1 rows, and 6 values");
    let refused = Bitmap::new(&[0], 4, 5).unwrap_err();
    assert_eq!(refused.to_string(), "5 bits from bit 4 on are not within 1 bytes");
    let said = "Selection { bitmap: BitmapBuf { len: 6, count: 3, values: 100110 }, .. }";
    assert_eq!(format!("{:?}", Selection::new(bitmap)), said);
    let strings = Strings::new(&[1, 3, 3], b"abc").unwrap();
    assert_eq!(format!("{strings:?}"), "Strings { len: 2, .. }");
}

#[test]
fn texts_of_refusals() {
    use Error as E;

    let texts = [
        (
            E::OutOfBytes { bytes: 1, offset: 4, len: 5 },
            "5 bits from bit 4 on are not within 1 bytes",
        ),
        (E::LengthsDiffer { left: 8, right: 7 }, "one bitmap has 8 values, and the other 7"),
        (E::BadRange { start: 3, end: 9, len: 8 }, "3..9 is no range of 8 values"),
        (E::RowsDiffer { rows: 1, len: 6 }, "there are 1 rows, and 6 values"),
        (E::RanksDiffer { ranks: 7, count: 5 }, "there are 7 ranks, and 5 true values"),
        (E::UnsortedRanks { at: 2 }, "rank number 2 is not above the one before it"),
        (E::RankOutOfBounds { rank: 5, count: 4 }, "there is no rank 5 of 4 true values"),
        (E::UnsortedIndices { at: 2 }, "index number 2 is below the one before it"),
        (E::IndexOutOfBounds { index: 9, len: 8 }, "index 9 is past the end of 8 values"),
        (E::OffsetsDiffer { offsets: 3, len: 4 }, "there are 3 offsets, and 4 rows"),
        (E::UnsortedOffsets { at: 1 }, "offset number 1 is negative, or below the one before it"),
        (E::OffsetOutOfBounds { offset: 6, size: 5 }, "offset 6 is past the end of 5 bytes"),
        (E::OutOfMemory { bytes: 64 }, "there is no memory for 64 bytes"),
        (E::RoomTooSmall { room: 1, needed: 2 }, "there is room for 1, and 2 are to be written"),
    ];
    for (refusal, text) in texts {
        assert_eq!(refusal.to_string(), text);
        assert_eq!(ArrowError::from(refusal).to_string(), text);
    }
    let (column, format) = (String::from("a.b"), String::from("+r"));
    let text = "the array of column 'a.b' doesn't fit its schema: bad length";
    assert_eq!(ArrowError::BadArray { column: column.clone(), what: "length" }.to_string(), text);
    let text = "column 'a.b' of format '+r' is not supported";
    assert_eq!(ArrowError::NotSupported { column, format }.to_string(), text);
    assert_eq!(AllocError.to_string(), "out of memory");
}
