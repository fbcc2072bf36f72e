//! Counts, indices, runs and words.

use crate::lists::{Comparisons, Generator, count_of, indices_of, runs_of};
use row_mask::Bitmap;

pub fn reads(seen: &mut Comparisons, random: &mut Generator, list: &[bool], bitmap: Bitmap<'_>) {
    let (len, indices) = (list.len(), indices_of(list));
    seen.same(bitmap.len(), len);
    seen.same(bitmap.is_empty(), len == 0);
    seen.same(bitmap.count(), indices.len());
    seen.same((bitmap.any(), bitmap.all()), (list.contains(&true), !list.contains(&false)));
    seen.same(bitmap.last_index(), indices.last().copied());
    seen.same(bitmap.to_indices(), indices.clone());
    words(seen, random, list, bitmap);
    seen.same(
        (bitmap.words().len(), bitmap.words().eq(bitmap.to_words())),
        (len.div_ceil(64), true),
    );
    seen.same(bitmap.iter().eq(list.iter().copied()), true);
    seen.same(bitmap.indices().eq(indices.iter().copied()), true);
    let mut walk = bitmap.indices();
    seen.same(walk.next(), indices.first().copied());
    seen.same(walk.sum::<usize>(), indices.iter().skip(1).sum());
    seen.same(bitmap.runs().eq(runs_of(list)), true);
    for n in [0, 1, indices.len() / 2, indices.len().saturating_sub(1), indices.len(), usize::MAX] {
        seen.same(bitmap.select(n), indices.get(n).copied());
    }
    for from in [0, len / 3, random.below(len + 1), len] {
        seen.same(bitmap.get(from), list.get(from).copied());
        seen.same(bitmap.next_index(from), indices.iter().copied().find(|i| *i >= from));
        let run = runs_of(list).into_iter().find(|run| from < run.end);
        seen.same(bitmap.next_run(from), run.map(|run| run.start.max(from)..run.end));
        let end = from + random.below(len - from + 1);
        seen.same(bitmap.count_range(from..end), Ok(count_of(&list[from..end])));
        let part = bitmap.slice(from..end).unwrap();
        seen.same(part.iter().eq(list[from..end].iter().copied()), true);
        seen.same(part.count(), count_of(&list[from..end]));
    }
    for (room, from) in [(0, 0), (1, len / 2), (5, 0), (70, len / 3), (300, 0), (9, len)] {
        let mut out = vec![7; room];
        let found = bitmap.next_indices(from, &mut out);
        let want: Vec<usize> = indices.iter().copied().filter(|i| *i >= from).take(room).collect();
        seen.same(&out[..found], &want[..]);
    }
    seen.same(bitmap.next_indices(len + 1, &mut [0]), 0);
    seen.same(bitmap.next_index(len + 1), None);
    seen.same(bitmap.next_run(len + 1), None);
    let mut places: Vec<usize> = (0..random.below(20)).map(|_| random.below(len + 1)).collect();
    places.sort_unstable();
    let below: Vec<usize> = places.iter().map(|i| count_of(&list[..*i])).collect();
    let mut out = vec![7; places.len() + 1];
    seen.same(bitmap.counts_below_into(&places, &mut out), Ok(()));
    seen.same((&out[..places.len()], out[places.len()]), (&below[..], 7));
    seen.same(bitmap.counts_below(&places), Ok(below));
}

fn words(seen: &mut Comparisons, random: &mut Generator, list: &[bool], bitmap: Bitmap<'_>) {
    let word =
        |part: &[bool]| part.iter().rev().fold(0, |word, value| word << 1 | u64::from(*value));
    let want: Vec<u64> = list.chunks(64).map(word).collect();
    seen.same(bitmap.to_words(), want.clone());
    for from in [0, random.below(want.len() + 2), want.len(), usize::MAX] {
        let mut out = vec![7; random.below(5)];
        let left = want.get(from..).unwrap_or(&[]);
        let count = left.len().min(out.len());
        seen.same(bitmap.next_words(from, &mut out), count);
        seen.same(&out[..count], &left[..count]);
        seen.same(out[count..].iter().all(|word| *word == 7), true);
    }
}
