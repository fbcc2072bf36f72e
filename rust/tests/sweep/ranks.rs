//! Indices by rank and ranks by index, by counts that are made once.

use crate::lists::{Comparisons, Generator, count_of, indices_of};
use row_mask::{BitBuffer, Bitmap, BitmapBuf, Mask, Ranks};

/// Each rank and each index, and some past the end.
fn all(seen: &mut Comparisons, list: &[bool], ranks: &Ranks) {
    let indices = indices_of(list);
    seen.same((ranks.len(), ranks.is_empty()), (list.len(), list.is_empty()));
    seen.same(ranks.true_count(), indices.len());
    seen.same(ranks.as_bitmap().iter().eq(list.iter().copied()), true);
    for n in (0..indices.len() + 3).chain([512, 1 << 32, usize::MAX]) {
        seen.same(ranks.select(n), indices.get(n).copied());
    }
    let mut below = 0;
    for n in 0..=list.len() {
        seen.same(ranks.count_below(n), below);
        below += usize::from(list.get(n) == Some(&true));
    }
}

fn of_bitmap(seen: &mut Comparisons, random: &mut Generator, list: &[bool], offset: usize) {
    let bytes = random.packed(list, offset);
    let bitmap = Bitmap::new(&bytes, offset, list.len()).unwrap();
    all(seen, list, &bitmap.ranks());
    let buffer = BitBuffer::new_with_offset(bytes.clone().into(), offset, list.len());
    all(seen, list, &Ranks::try_from_buffer(buffer.clone()).unwrap());
    seen.same(Ranks::new(buffer).buffer().offset(), offset);
}

#[test]
fn ranks_of_lengths_and_offsets() {
    let (mut seen, mut random) = (Comparisons::default(), Generator(3));
    for len in 0..=2000 {
        for share in [0, 2, 128, 254, 256] {
            let list = random.list(len, share);
            of_bitmap(&mut seen, &mut random, &list, len % 17);
        }
    }
    println!("{} comparisons of ranks of 0 to 2,000 values", seen.0);
    assert!(seen.0 > 25_000_000, "{}", seen.0);
}

/// Where blocks of 512 begin and end: only the values there are true, or only they are false.
#[test]
fn ranks_at_the_edges_of_blocks() {
    let (mut seen, mut random) = (Comparisons::default(), Generator(4));
    for len in [511, 512, 513, 1023, 1024, 1025, 65_535, 65_536, 65_537, 99_999] {
        for is_true in [true, false] {
            let list: Vec<bool> =
                (0..len).map(|i| (i % 512 == 0 || i % 512 == 511) == is_true).collect();
            for offset in [0, 5, 13] {
                of_bitmap(&mut seen, &mut random, &list, offset);
            }
        }
    }
    // long runs of one value, so that many counts are equal
    for parts in [[40_000, 10, 30_000], [3, 60_000, 1]] {
        let list: Vec<bool> =
            parts.iter().enumerate().flat_map(|(i, len)| vec![i % 2 == 1; *len]).collect();
        of_bitmap(&mut seen, &mut random, &list, 3);
    }
    println!("{} comparisons of ranks at the edges of blocks", seen.0);
}

#[test]
fn ranks_of_a_million_values_in_any_order() {
    let mut random = Generator(5);
    let list = random.list(1 << 20, 100);
    let (indices, mask) = (indices_of(&list), list.iter().copied().collect::<Mask>());
    let ranks = Ranks::new(mask);
    for _ in 0..10_000 {
        let n = random.below(indices.len());
        assert_eq!(ranks.select(n), Some(indices[n]));
        assert_eq!(ranks.count_below(indices[n]), n);
        assert_eq!(ranks.count_below(indices[n] + 1), n + 1);
    }
    assert_eq!(ranks.true_count(), count_of(&list));
}

#[test]
fn ranks_keep_what_they_are_made_of() {
    let rows = BitmapBuf::from_iter([true, false, true]);
    let ranks = Ranks::new(rows.clone());
    assert_eq!(
        format!("{ranks:?}"),
        "Ranks { bitmap: Bitmap { len: 3, count: 2, values: 101 }, .. }"
    );
    assert!(ranks.as_bitmap() == rows);
    assert_eq!(Ranks::new(Mask::new_true(600)).select(599), Some(599));
    assert_eq!(Ranks::new(Mask::new_false(600)).select(0), None);
}
