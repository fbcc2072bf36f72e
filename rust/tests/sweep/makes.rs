//! Bitmaps that are made of others, and rows that are chosen.

use crate::lists::{Comparisons, Generator, chosen, count_of, indices_of, narrowed, packed};
use row_mask::{Bitmap, BitmapBuf, Error};

pub fn makes(seen: &mut Comparisons, random: &mut Generator, list: &[bool], bitmap: Bitmap<'_>) {
    let share = [3, 128, 253][random.below(3)];
    let (other, offset) = (random.list(list.len(), share), random.below(16));
    let bytes = random.packed(&other, offset);
    let second = Bitmap::new(&bytes, offset, list.len()).unwrap();
    let pairs = || list.iter().zip(&other);
    let both: Vec<bool> = pairs().map(|(a, b)| *a && *b).collect();
    let either: Vec<bool> = pairs().map(|(a, b)| *a || *b).collect();
    let left: Vec<bool> = pairs().map(|(a, b)| *a && !*b).collect();
    let differ: Vec<bool> = pairs().map(|(a, b)| a != b).collect();
    let negated: Vec<bool> = list.iter().map(|a| !*a).collect();
    seen.same_list(&bitmap.and(second).unwrap(), &both);
    seen.same_list(&bitmap.or(second).unwrap(), &either);
    seen.same_list(&bitmap.and_not(second).unwrap(), &left);
    seen.same_list(&bitmap.xor(second).unwrap(), &differ);
    seen.same_list(&!bitmap, &negated);
    let copy = bitmap.to_buf();
    seen.same_list(&copy, list);
    seen.same_list(&!&copy, &negated);
    seen.same_list(&list.iter().copied().collect(), list);
    let in_place = |change: fn(&mut BitmapBuf, Bitmap<'_>) -> Result<(), Error>| {
        let mut changed = bitmap.to_buf();
        change(&mut changed, second).map(|()| changed).unwrap()
    };
    seen.same_list(&in_place(|a, b| a.and_with(b)), &both);
    seen.same_list(&in_place(|a, b| a.or_with(b)), &either);
    seen.same_list(&in_place(|a, b| a.and_not_with(b)), &left);
    seen.same_list(&in_place(|a, b| a.xor_with(b)), &differ);
    let mut turned = bitmap.to_buf();
    turned.negate();
    seen.same_list(&turned, &negated);
    seen.same(bitmap == copy, true);
    seen.same(PartialEq::<Bitmap<'_>>::eq(&copy, &bitmap), true);
    seen.same(Bitmap::from(&copy), bitmap);
    seen.same((&copy).into_iter().eq(list.iter().copied()), true);
    seen.same(bitmap == second, *list == other[..]);
    seen.same(bitmap == copy.as_bitmap(), true);
    if !list.is_empty() {
        let mut changed = list.to_vec();
        let i = random.below(list.len());
        changed[i] = !changed[i];
        seen.same(bitmap == changed.into_iter().collect::<BitmapBuf>().as_bitmap(), false);
    }
}

pub fn narrows(seen: &mut Comparisons, random: &mut Generator, list: &[bool], bitmap: Bitmap<'_>) {
    let share = [3, 128, 253][random.below(3)];
    let (ranks, offset) = (random.list(count_of(list), share), random.below(16));
    let bytes = random.packed(&ranks, offset);
    let second = Bitmap::new(&bytes, offset, ranks.len()).unwrap();
    let want = narrowed(list, &ranks);
    seen.same_list(&bitmap.intersect_by_rank(second).unwrap(), &want);
    seen.same_list(&bitmap.intersect_at_ranks(&indices_of(&ranks)).unwrap(), &want);
}

pub fn chooses(seen: &mut Comparisons, random: &mut Generator, list: &[bool], bitmap: Bitmap<'_>) {
    let words: Vec<u64> = list.iter().map(|_| random.word()).collect();
    #[expect(clippy::cast_possible_truncation, reason = "any value will do")]
    let (ones, twos): (Vec<u8>, Vec<u16>) =
        words.iter().map(|word| (*word as u8, *word as u16)).unzip();
    let fours: Vec<char> = ones.iter().map(|byte| char::from(*byte)).collect();
    let sixteens: Vec<u128> = words.iter().map(|word| u128::from(*word) << 64 | 7).collect();
    seen.same(bitmap.choose(&ones).unwrap(), chosen(&ones, list));
    seen.same(bitmap.choose(&twos).unwrap(), chosen(&twos, list));
    seen.same(bitmap.choose(&fours).unwrap(), chosen(&fours, list));
    seen.same(bitmap.choose(&words).unwrap(), chosen(&words, list));
    seen.same(bitmap.choose(&sixteens).unwrap(), chosen(&sixteens, list));
    let mut out = vec![7; count_of(list) + 1];
    seen.same(bitmap.choose_into(&twos, &mut out), Ok(count_of(list)));
    let mut want = chosen(&twos, list);
    want.push(7);
    seen.same(out, want);
    chooses_bits(seen, random, list, bitmap);
}

fn chooses_bits(seen: &mut Comparisons, random: &mut Generator, list: &[bool], bitmap: Bitmap<'_>) {
    let share = [3, 128, 253][random.below(3)];
    let (bits, offset) = (random.list(list.len(), share), random.below(16));
    let bytes = random.packed(&bits, offset);
    let bits_of = Bitmap::new(&bytes, offset, bits.len()).unwrap();
    let want = chosen(&bits, list);
    let made = bitmap.choose_bits(bits_of).unwrap();
    seen.same_list(&made, &want);
    let mut out = vec![0xA5; want.len().div_ceil(8) + 2];
    seen.same(bitmap.choose_bits_into(bits_of, &mut out[..]), Ok(want.len()));
    seen.same(out, [&packed(&want)[..], &[0xA5; 2]].concat());
    // a rank intersection by them is `and`
    seen.same(bitmap.intersect_by_rank(made.as_bitmap()), bitmap.and(bits_of));
}
