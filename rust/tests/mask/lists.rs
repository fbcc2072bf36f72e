//! Lists of truth values, and each way in which a buffer or a mask may hold one.

use row_mask::{BitBuffer, Bytes, Mask};

/// All lists of up to five values, and longer ones about the ends of words.
pub fn lists() -> Vec<Vec<bool>> {
    let mut lists = Vec::new();
    for len in 0..=5 {
        lists.extend((0..1 << len).map(|bits: u32| (0..len).map(|i| bits >> i & 1 == 1).collect()));
    }
    for len in [63, 64, 65, 128, 200] {
        lists.extend([false, true].map(|value| vec![value; len]));
        lists.extend([2, 3, 63].map(|step| (0..len).map(|i| i % step == 1).collect()));
        lists.extend([0, len - 1].map(|only| (0..len).map(|i| i == only).collect()));
    }
    lists
}

/// Buffers of a list, from several bits of their bytes on, with clear and with set bits around it.
pub fn buffers(list: &[bool]) -> Vec<BitBuffer> {
    let mut buffers = Vec::new();
    for (offset, outside) in [(0, 0xFF), (1, 0), (7, 0xFF), (8, 0), (67, 0xFF)] {
        let mut bytes = vec![outside; (offset + list.len()) / 8 + 1];
        for (i, value) in list.iter().enumerate() {
            let (byte, bit) = ((offset + i) / 8, 1 << ((offset + i) % 8));
            bytes[byte] = if *value { bytes[byte] | bit } else { bytes[byte] & !bit };
        }
        buffers.push(BitBuffer::new_with_offset(Bytes::from(bytes), offset, list.len()));
    }
    buffers
}

/// Masks of a list: by several buffers and constructors, with each cached list, and by both variants of an empty one.
pub fn masks(list: &[bool]) -> Vec<Mask> {
    let len = list.len();
    let indices = || (0..len).filter(|i| list[*i]);
    let mut masks: Vec<Mask> =
        buffers(list).into_iter().map(|it| Mask::try_from_buffer(it).unwrap()).collect();
    masks.push(Mask::try_from_bools(list.iter().copied()).unwrap());
    masks.push(Mask::try_from_indices(len, indices()).unwrap());
    masks.push(Mask::try_from_slices(len, indices().map(|i| (i, i + 1)).collect()).unwrap());
    masks.push(Mask::try_from_excluded_indices(len, (0..len).filter(|i| !list[*i])).unwrap());
    let backwards = (0..len).rev().filter(|i| list[*i]);
    masks.push(Mask::try_from_unsorted_indices(len, backwards.clone().chain(backwards)).unwrap());
    let cached = Mask::try_from_bools(list.iter().copied()).unwrap();
    cached.try_indices().unwrap();
    masks.push(cached.try_clone().unwrap());
    cached.try_slices().unwrap();
    masks.push(cached);
    if list.is_empty() {
        masks.extend([Mask::AllTrue(0), Mask::AllFalse(0)]);
    }
    masks
}
