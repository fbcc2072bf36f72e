//! Each call beside plain lists, over lengths, bit offsets and densities. The bits around a bitmap
//! are random, so that an answer which reads them differs.

mod lists;
mod made_of;
mod makes;
mod nullables;
mod pairs;
mod ranges;
mod ranks;
mod reads;
mod refusals;
mod selects;
mod sorted;
mod takes;
mod walks;
mod writes;

use lists::{Comparisons, Generator};
use row_mask::Bitmap;

fn one(seen: &mut Comparisons, random: &mut Generator, list: &[bool], offset: usize) {
    let bytes = random.packed(list, offset);
    let bitmap = Bitmap::new(&bytes, offset, list.len()).unwrap();
    reads::reads(seen, random, list, bitmap);
    walks::walks(seen, random, list, bitmap);
    pairs::pairs(seen, random, list, bitmap);
    made_of::made_of(seen, random, list, bitmap);
    makes::makes(seen, random, list, bitmap);
    makes::narrows(seen, random, list, bitmap);
    selects::selects(seen, random, list, bitmap);
    makes::chooses(seen, random, list, bitmap);
    takes::takes(seen, random, list, bitmap);
    writes::writes(seen, random, list, bitmap);
}

#[test]
fn lengths_and_offsets() {
    let (mut seen, mut random) = (Comparisons::default(), Generator(1));
    for len in 0..=200 {
        for offset in 0..16 {
            for share in [0, 8, 128, 250, 256] {
                let list = random.list(len, share);
                one(&mut seen, &mut random, &list, offset);
            }
        }
    }
    println!("{} comparisons of bitmaps of 0 to 200 values", seen.0);
    assert!(seen.0 > 900_000, "{}", seen.0);
}

/// Here a rank intersection begins to go by its longer loop.
#[test]
fn about_a_thousand_values() {
    let (mut seen, mut random) = (Comparisons::default(), Generator(3));
    for len in (1016..1032).chain(1080..1096) {
        for (share, offset) in [(8, 0), (128, 0), (128, 5), (250, 11)] {
            let list = random.list(len, share);
            one(&mut seen, &mut random, &list, offset);
        }
    }
    println!("{} comparisons of bitmaps of 1,016 to 1,095 values", seen.0);
    assert!(seen.0 > 100_000, "{}", seen.0);
}

#[test]
fn a_million_values() {
    let (mut seen, mut random) = (Comparisons::default(), Generator(2));
    for (share, offset) in [(1, 0), (128, 3), (255, 13)] {
        let list = random.list(1 << 20, share);
        one(&mut seen, &mut random, &list, offset);
    }
    println!("{} comparisons of bitmaps of 2^20 values", seen.0);
    assert!(seen.0 > 100, "{}", seen.0);
}
