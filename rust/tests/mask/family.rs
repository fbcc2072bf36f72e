//! Masks, buffers, bitmaps and selections made of one another: their values, and which bytes are copied.

use crate::lists::{buffers, lists, masks};
use row_mask::{
    AllOr, AllocError, BitBuffer, Bitmap, BitmapBuf, Bytes, Error, Mask, MaskError, Selection,
};
use std::mem::discriminant;

fn values(of: impl IntoIterator<Item = bool>) -> Vec<bool> {
    of.into_iter().collect()
}

/// Bytes that have a list from bit `offset` on, with `outside` around it.
fn packed(list: &[bool], offset: usize, outside: u8) -> Vec<u8> {
    let mut bytes = vec![outside; (offset + list.len()).div_ceil(8)];
    for (i, value) in list.iter().enumerate() {
        let (byte, bit) = ((offset + i) / 8, 1 << ((offset + i) % 8));
        bytes[byte] = if *value { bytes[byte] | bit } else { bytes[byte] & !bit };
    }
    bytes
}

/// The mask is as `Mask::from_buffer` makes it.
fn same_mask(mask: &Mask, list: &[bool]) {
    let wanted = Mask::from_buffer(BitBuffer::from(list));
    assert_eq!(values(mask), list);
    assert_eq!((mask, discriminant(mask)), (&wanted, discriminant(&wanted)));
    assert_eq!(mask.true_count(), list.iter().filter(|value| **value).count());
}

/// The bitmap is as one that is made of the list: its bytes too, with clear bits behind the last value.
fn same_bitmap(bitmap: &BitmapBuf, list: &[bool]) {
    assert_eq!(*bitmap, BitmapBuf::from(list));
    assert_eq!(bitmap.as_bytes(), packed(list, 0, 0));
}

#[test]
fn each_of_each() {
    for list in lists() {
        for offset in 0..=8 {
            for outside in [0, 0xFF] {
                let bytes = packed(&list, offset, outside);
                let bitmap = Bitmap::new(&bytes, offset, list.len()).unwrap();
                same_bitmap(&BitmapBuf::from(bitmap), &list);
                same_mask(&Mask::from(bitmap), &list);
                assert_eq!(values(&BitBuffer::from(bitmap)), list);
                same_mask(&Mask::from(BitmapBuf::from(bitmap)), &list);
                assert_eq!(values(&BitBuffer::from(BitmapBuf::from(bitmap))), list);
                let bytes = Bytes::from(bytes.clone());
                let buffer = BitBuffer::new_with_offset(bytes, offset, list.len());
                let (lent, other) = (buffer.as_bitmap(), buffer.clone());
                assert_eq!((lent, lent.bytes()), (bitmap, buffer.inner().as_slice()));
                assert_eq!(Bitmap::from(&buffer), bitmap);
                same_bitmap(&BitmapBuf::from(other.clone()), &list);
                drop((buffer, other));
            }
        }
        for buffer in buffers(&list) {
            same_bitmap(&BitmapBuf::from(buffer), &list);
        }
        for mask in masks(&list) {
            let selection = Selection::new(&mask);
            assert_eq!(selection.as_bitmap(), BitmapBuf::from(&list[..]));
            assert_eq!((selection.len(), selection.count()), (mask.len(), mask.true_count()));
            match mask.as_bitmap() {
                AllOr::All => assert!(!list.contains(&false)),
                AllOr::None => assert!(!list.contains(&true)),
                AllOr::Some(bitmap) => {
                    assert_eq!(values(bitmap), list);
                    assert_eq!(bitmap, mask.values().unwrap().as_bitmap());
                    assert_eq!(bitmap, Bitmap::from(mask.values().unwrap()));
                }
            }
            assert_eq!(values(&BitBuffer::from(mask.clone())), list);
            same_bitmap(&BitmapBuf::from(mask.clone()), &list);
            same_bitmap(&BitmapBuf::from(mask), &list);
        }
    }
}

/// The bytes of the only holder are given from one to the other, and back, if they are more than 16.
#[test]
fn bytes_of_one_holder_are_not_copied() {
    let many: Vec<_> = lists().into_iter().filter(|it| it.len() > 129).collect();
    for list in many.iter().filter(|it| it.contains(&true) && it.contains(&false)) {
        let bitmap = BitmapBuf::from(&list[..]);
        let place = bitmap.as_bytes().as_ptr();
        let buffer = BitBuffer::from(bitmap);
        assert_eq!((buffer.inner().as_ptr(), buffer.offset()), (place, 0));
        let bitmap = BitmapBuf::from(buffer);
        assert_eq!(bitmap.as_bytes().as_ptr(), place);
        let mask = Mask::from(bitmap);
        let AllOr::Some(lent) = mask.as_bitmap() else { panic!("{mask}") };
        assert_eq!(lent.bytes().as_ptr(), place);
        let bitmap = BitmapBuf::from(mask);
        assert_eq!(bitmap.as_bytes().as_ptr(), place);
        let selection = Selection::new(bitmap);
        assert_eq!(selection.as_bitmap().bytes().as_ptr(), place);
        // (a part from the first bit on has the whole list's bytes, and is the only one that does)
        let part = BitBuffer::from(&list[..]).slice(..list.len() - 1);
        let place = part.inner().as_ptr();
        let bitmap = BitmapBuf::from(part);
        assert_eq!(bitmap.as_bytes().as_ptr(), place);
        same_bitmap(&bitmap, &list[..list.len() - 1]);
    }
}

/// What others hold, or what begins at another bit, is copied, and stays as it was.
#[test]
fn bytes_of_others_are_copied() {
    for list in lists().iter().filter(|it| it.contains(&true) && it.contains(&false)) {
        let buffer = BitBuffer::from(&list[..]);
        let mut bitmap = BitmapBuf::from(buffer.clone());
        assert_ne!(bitmap.as_bytes().as_ptr(), buffer.inner().as_ptr());
        bitmap.negate();
        assert_eq!(values(&buffer), *list);
        let mask = Mask::from(buffer);
        let mut bitmap = BitmapBuf::from(mask.clone());
        bitmap.negate();
        assert_eq!(values(&mask), *list);
        // (the mask is the only holder of its values, and not of their bytes)
        let buffer = mask.to_bit_buffer();
        let mut bitmap = BitmapBuf::from(mask);
        bitmap.negate();
        assert_eq!(values(&buffer), *list);
        let part = buffer.slice(1..);
        drop(buffer);
        same_bitmap(&BitmapBuf::from(part), &list[1..]);
    }
}

/// Bitmaps, and references to what has one, stand wherever a bitmap does.
#[test]
fn each_is_a_bitmap_of_a_call() -> Result<(), Error> {
    let (a, b) = ([true, true, false, true], [false, true, true, true]);
    let (mut one, other, want) = (BitmapBuf::from(&a[..]), BitmapBuf::from(&b[..]), "0101");
    let (buffer, mask) = (BitBuffer::from(&b[..]), Mask::from_iter(b));
    let (bitmap, selection) = (other.as_bitmap(), Selection::new(&other));
    let values = mask.values().unwrap();
    assert_eq!(one.and(bitmap)?.to_string(), want);
    assert_eq!(one.and(&other)?.to_string(), want);
    assert_eq!(one.and(&buffer)?.to_string(), want);
    assert_eq!(one.and(values)?.to_string(), want);
    assert_eq!(one.and(&selection)?.to_string(), want);
    assert_eq!(one.and(&mask.to_bit_buffer())?.to_string(), want);
    assert_eq!(one.as_bitmap().intersect_by_rank(other.slice(1..)?)?, one);
    assert_eq!(selection.choose_bits(&one)?.to_string(), "101");
    assert_eq!(BitmapBuf::concat([&one, &other]).len(), 8);
    assert_eq!(BitmapBuf::concat([bitmap, bitmap].iter()).count(), 6);
    let mut joined = BitmapBuf::default();
    BitmapBuf::concat_into(&[&buffer, &buffer], &mut joined)?;
    assert_eq!(joined.to_string(), "01110111");
    one.append(&selection);
    one.and_with(&joined)?;
    assert_eq!(one.to_string(), "01010111");
    Ok(())
}

#[test]
fn equal_values_are_equal() {
    for list in lists() {
        let bitmap = BitmapBuf::from(&list[..]);
        let mut other = bitmap.clone();
        other.push(true);
        for mask in masks(&list) {
            assert_eq!(bitmap, mask);
            assert_eq!(bitmap.as_bitmap(), mask);
            assert_ne!(other, mask);
            assert_ne!(other.as_bitmap(), mask);
            for (i, value) in list.iter().enumerate() {
                let mut other = bitmap.clone();
                other.toggle(i).unwrap();
                assert_ne!(other, mask);
                assert_eq!(other.get(i), Some(!value));
            }
        }
        for buffer in buffers(&list) {
            assert_eq!(bitmap, buffer);
            assert_eq!(bitmap.as_bitmap(), buffer);
            assert_ne!(other, buffer);
            assert_ne!(other.as_bitmap(), buffer);
        }
    }
}

/// Each call of a `BitmapBuf` answers what that of its `Bitmap` does.
#[test]
fn owned_answers_as_borrowed() -> Result<(), Error> {
    for list in lists() {
        let (a, b) = (BitmapBuf::from(&list[..]), BitmapBuf::from_fn(list.len(), |i| i % 3 == 1));
        let (lent, other, len) = (a.as_bitmap(), b.as_bitmap(), list.len());
        for i in 0..=len {
            assert_eq!((a.get(i), a.select(i)), (lent.get(i), lent.select(i)));
            assert_eq!((a.next_index(i), a.next_run(i)), (lent.next_index(i), lent.next_run(i)));
            assert_eq!(
                (a.slice(i..), a.count_range(i..)),
                (lent.slice(i..), lent.count_range(i..))
            );
        }
        assert_eq!((a.count(), a.any(), a.all()), (lent.count(), lent.any(), lent.all()));
        assert_eq!(a.last_index(), lent.last_index());
        assert!(a.indices().eq(lent.indices()) && a.runs().eq(lent.runs()));
        assert_eq!((a.to_indices(), a.to_words()), (lent.to_indices(), lent.to_words()));
        let (mut indices, mut words) = ([[0; 9]; 2], [[0; 3]; 2]);
        assert_eq!(a.next_indices(1, &mut indices[0]), lent.next_indices(1, &mut indices[1]));
        assert_eq!(a.next_words(1, &mut words[0]), lent.next_words(1, &mut words[1]));
        assert_eq!((indices[0], words[0]), (indices[1], words[1]));
        let (ends, mut out) = ([0, len / 2, len], [[0; 3]; 2]);
        assert_eq!(a.counts_below(&ends), lent.counts_below(&ends));
        a.counts_below_into(&ends, &mut out[0])?;
        lent.counts_below_into(&ends, &mut out[1])?;
        assert_eq!(out[0], out[1]);
        assert_eq!((a.and(&b), a.or(&b)), (lent.and(other), lent.or(other)));
        assert_eq!((a.xor(&b), a.and_not(&b)), (lent.xor(other), lent.and_not(other)));
        assert_eq!(
            (a.and_count(&b), a.intersects(&b)),
            (lent.and_count(other), lent.intersects(other))
        );
        assert_eq!(a.is_subset(&b), lent.is_subset(other));
        let mut made = BitmapBuf::default();
        a.and_into(&b, &mut made)?;
        assert_eq!(made, lent.and(other)?);
        a.or_into(&b, &mut made)?;
        assert_eq!(made, lent.or(other)?);
        a.xor_into(&b, &mut made)?;
        assert_eq!(made, lent.xor(other)?);
        a.and_not_into(&b, &mut made)?;
        assert_eq!(made, lent.and_not(other)?);
        a.not_into(&mut made)?;
        assert_eq!(made, !lent);
        a.copy_into(&mut made)?;
        assert_eq!(made, a);
        let ranks = BitmapBuf::from_fn(a.count(), |i| i % 2 == 0);
        let narrowed = lent.intersect_by_rank(&ranks)?;
        assert_eq!(a.intersect_by_rank(&ranks)?, narrowed);
        assert_eq!(a.intersect_at_ranks(&ranks.to_indices())?, narrowed);
        a.intersect_by_rank_into(&ranks, &mut made)?;
        assert_eq!(made, narrowed);
        made.clear();
        a.intersect_at_ranks_into(&ranks.to_indices(), &mut made)?;
        assert_eq!(made, narrowed);
        let rows: Vec<usize> = (0..len).collect();
        let (mut chosen, mut out) = (vec![7], vec![0; len]);
        assert_eq!(a.choose(&rows)?, a.to_indices());
        a.choose_append(&rows, &mut chosen)?;
        assert_eq!(chosen[1..], a.to_indices());
        assert_eq!(a.choose_into(&rows, &mut out)?, a.count());
        assert_eq!(out[..a.count()], a.to_indices());
        assert_eq!(a.choose_bits(&b), lent.choose_bits(other));
        assert_eq!(a.choose_bits_into(&b, &mut made)?, a.count());
        assert_eq!(made, lent.choose_bits(other)?);
    }
    Ok(())
}

#[test]
fn values_are_appended_many_at_once() {
    for list in lists() {
        for value in [false, true] {
            for more in [0, 1, 7, 8, 9, 64, 130] {
                let mut bitmap = BitmapBuf::from(&list[..]);
                bitmap.append_n(value, more);
                same_bitmap(&bitmap, &[&list[..], &vec![value; more][..]].concat());
                let mut resized = BitmapBuf::from(&list[..]);
                resized.resize(list.len() + more, value);
                assert_eq!(resized, bitmap);
                bitmap.resize(list.len(), !value);
                same_bitmap(&bitmap, &list);
                bitmap.resize(list.len() / 2, value);
                same_bitmap(&bitmap, &list[..list.len() / 2]);
            }
        }
    }
}

#[test]
fn errors_become_one() {
    let pairs = [
        (MaskError::Memory(AllocError), Error::OutOfMemory { bytes: 0 }),
        (MaskError::UnsortedIndices { at: 3 }, Error::UnsortedIndices { at: 3 }),
        (MaskError::RepeatedIndex { at: 3 }, Error::RepeatedIndex { at: 3 }),
        (
            MaskError::IndexOutOfBounds { index: 7, len: 5 },
            Error::IndexOutOfBounds { index: 7, len: 5 },
        ),
        (MaskError::BadRange { at: 3 }, Error::BadRangeAt { at: 3 }),
        (MaskError::UnsortedRanges { at: 3 }, Error::UnsortedRanges { at: 3 }),
        (MaskError::OverlappingRanges { at: 3 }, Error::OverlappingRanges { at: 3 }),
        (MaskError::LengthOverflow, Error::LengthOverflow),
    ];
    for (of, error) in pairs {
        assert_eq!(Error::from(of), error);
        assert!(!error.to_string().is_empty());
    }
    assert_eq!(Error::from(AllocError).to_string(), MaskError::Memory(AllocError).to_string());
}
