//! Walks by `for`, and what each walk has besides its steps.

use row_mask::intersect_by_rank::RankBits;
use row_mask::{BitBuffer, Bytes, Mask};
use std::fmt::Debug;
use std::iter::FusedIterator;

#[test]
fn values_by_for() {
    let list: Vec<bool> = (0..130).map(|i| i % 3 == 0).collect();
    let (mask, buffer): (Mask, _) = (list.iter().copied().collect(), BitBuffer::from(&list[..]));
    let (mut of_mask, mut of_buffer) = (Vec::new(), Vec::new());
    for value in &mask {
        of_mask.push(value);
    }
    for value in &buffer {
        of_buffer.push(value);
    }
    assert!(of_mask == list && of_buffer == list);
    assert!((&Mask::AllTrue(3)).into_iter().eq([true; 3]));
}

/// A walk yields a list: step by step with the length at each, and by `fold` behind any number of steps.
fn yields<I: ExactSizeIterator<Item = bool>>(list: &[bool], walk: impl Fn() -> I) {
    let mut steps = walk();
    for (i, value) in list.iter().enumerate() {
        let left = list.len() - i;
        assert_eq!((steps.len(), steps.size_hint()), (left, (left, Some(left))));
        assert_eq!(steps.next(), Some(*value));
    }
    assert_eq!((steps.len(), steps.next(), steps.next()), (0, None, None));
    for before in [0, 1, 31, 63, 64, 65, 127, 128, 129, 190].map(|it| it.min(list.len())) {
        let (mut rest, mut folded) = (walk(), list[..before].to_vec());
        assert!(rest.by_ref().take(before).eq(folded.iter().copied()));
        assert_eq!(rest.len(), list.len() - before);
        rest.for_each(|value| folded.push(value));
        assert_eq!(folded, list);
    }
}

#[test]
fn values_at_each_offset_and_length() {
    let bytes: Vec<u8> = (0..40_u32).map(|i| (i * i * 37 % 251).to_le_bytes()[0]).collect();
    let shared = Bytes::from(bytes.clone());
    for (offset, len) in (0..=9).flat_map(|offset| (0..=200).map(move |len| (offset, len))) {
        let list: Vec<bool> =
            (offset..offset + len).map(|i| bytes[i / 8] >> (i % 8) & 1 == 1).collect();
        let buffer = BitBuffer::new_with_offset(shared.clone(), offset, len);
        yields(&list, || buffer.iter());
        let mask = Mask::from(buffer.clone());
        yields(&list, || mask.iter());
    }
    for (value, len) in [true, false].into_iter().flat_map(|it| [0, 1, 64, 200].map(|n| (it, n))) {
        let mask = Mask::new(len, value);
        yields(&vec![value; len], || mask.iter());
    }
}

/// A walk that has ended stays so.
fn ends<I: FusedIterator + Debug>(name: &str, count: usize, mut walk: I) {
    assert_eq!(format!("{walk:?}"), format!("{name} {{ .. }}"));
    assert_eq!(walk.by_ref().count(), count, "{name}");
    assert!((0..3).all(|_| walk.next().is_none()), "{name}");
}

#[test]
fn walks_end_once() {
    for list in [vec![], vec![true; 64], vec![false; 65], (0..130).map(|i| i % 3 == 0).collect()] {
        let (buffer, count) = (BitBuffer::from(&list[..]), list.iter().filter(|it| **it).count());
        let runs = list.chunk_by(|a, b| a == b).filter(|it| it[0]).count();
        ends("BitIterator", list.len(), buffer.iter());
        ends("SetIndices", count, buffer.set_indices());
        ends("SetSlices", runs, buffer.set_slices());
        ends("Words", list.len() / 64, buffer.chunks().iter());
        ends("PaddedWords", list.len().div_ceil(64), buffer.chunks().iter_padded());
        assert_eq!(
            format!("{:?} {:?}", buffer.chunks(), RankBits::new(&buffer)),
            "BitChunks { .. } RankBits { .. }"
        );
        let mask = Mask::from(buffer);
        ends("MaskBoolIter", list.len(), mask.iter());
        ends("MaskSetIndices", count, mask.set_indices());
        ends("MaskSetSlices", runs, mask.set_slices());
    }
}
