//! Each call that goes by what the processor has, with all of it, and without one after another: on x86-64 AVX-512's VPOPCNTDQ
//! and VBMI2, the rest of it, PDEP and PEXT, and x86-64-v3, and on 64-bit ARM BDEP and BEXT.

#[cfg(target_arch = "x86_64")]
use super::features::found::{KEEPS_CLOCK, V3, V4, VBMI2, VPOPCNTDQ};
use super::features::found::{MOST, QUICK_BITS};
use super::instructions::{deposit, extract};
use crate::proved::mask_c;
use crate::{BitBuffer, Bitmap, BitmapBuf, Mask, Row, Selection};

#[cfg(target_arch = "x86_64")]
const TO_V4: u8 = V3 | QUICK_BITS | V4;
#[cfg(target_arch = "x86_64")]
const MORE: u8 = TO_V4 | KEEPS_CLOCK;
#[cfg(target_arch = "x86_64")]
const LEVELS: [u8; 7] =
    [0, V3, V3 | QUICK_BITS, TO_V4, MORE, MORE | VBMI2, MORE | VBMI2 | VPOPCNTDQ];
#[cfg(target_arch = "aarch64")]
const LEVELS: [u8; 2] = [0, QUICK_BITS];

/// A call gives the same whatever the processor has.
fn same<T: PartialEq + std::fmt::Debug>(call: impl Fn() -> T) {
    let [none, more @ ..] = LEVELS.map(|most| {
        MOST.set(most);
        call()
    });
    MOST.set(u8::MAX);
    for it in more {
        assert_eq!(it, none);
    }
}

/// The instructions, beside a loop over the bits.
#[test]
fn instructions() {
    println!("instructions for bits at set places: {}", super::has_quick_bits());
    if !super::has_quick_bits() {
        return;
    }
    let words =
        (0..64).flat_map(|i| [1 << i, u64::MAX << i, u64::MAX >> i, 0x9E37_79B9_7F4A_7C15 << i]);
    let words: Vec<u64> = words.chain([0, u64::MAX / 3, 0x2545_F491_4F6C_DD1D]).collect();
    for &mask in &words {
        let places: Vec<u32> = (0..64).filter(|place| mask >> place & 1 == 1).collect();
        for &word in &words {
            let (mut deposited, mut extracted) = (0, 0);
            for (number, place) in places.iter().enumerate() {
                deposited |= (word >> number & 1) << place;
                extracted |= (word >> place & 1) << number;
            }
            assert_eq!((deposit(word, mask), extract(word, mask)), (deposited, extracted));
        }
    }
}

// (none to all of them, and runs)
fn values(len: usize, share: usize) -> BitmapBuf {
    BitmapBuf::from_fn(len, |i| {
        if share < 8 { i * i % 7 < share } else { (i / share).is_multiple_of(2) }
    })
}

fn each_list(call: impl Fn(Bitmap<'_>, Bitmap<'_>)) {
    for len in [0, 1, 63, 64, 65, 200, 1_000, 8_191, 8_192, 8_193] {
        for share in [0, 1, 3, 6, 7, 40, 300] {
            for offset in [0, 3] {
                let (a, b) = (values(len + offset, share), values(len + 5, 3));
                let part =
                    |of: &BitmapBuf| of.as_bitmap().slice(of.len() - len..).map(Bitmap::to_buf);
                let whole = (part(&a).unwrap(), part(&b).unwrap());
                call(a.as_bitmap().slice(offset..).unwrap(), b.as_bitmap().slice(5..).unwrap());
                call(whole.0.as_bitmap(), whole.1.as_bitmap());
            }
        }
    }
}

#[test]
fn bitmaps() {
    each_list(|a, b| {
        same(|| (a.count(), a.and_count(b), a.intersects(b), a.is_subset(b), a == b));
        same(|| (a.and(b), a.or(b), a.and_not(b), a.xor(b), !a, a.to_buf()));
        same(|| (a.to_indices(), a.to_words(), a.runs().collect::<Vec<_>>()));
        same(|| (a.select(a.count() / 2), a.counts_below(&[0, a.len() / 3, a.len()])));
        same(|| BitmapBuf::concat([b, a, b]));
        same(|| BitmapBuf::from_indices(a.len(), &a.to_indices()));
        same(|| BitmapBuf::from(&a.iter().collect::<Vec<_>>()[..]));
        same(|| {
            let mut kept = a.to_buf();
            kept.and_with(b).map(|()| kept.negate()).map(|()| kept)
        });
    });
}

#[test]
fn choosing() {
    each_list(|a, b| {
        let rows: Vec<usize> = (0..a.len()).collect();
        let ranks = values(a.count(), 3);
        same(|| (a.choose(&rows), a.choose_bits(b)));
        same(|| {
            (
                a.intersect_by_rank(ranks.as_bitmap()),
                a.intersect_at_ranks(&ranks.as_bitmap().to_indices()),
            )
        });
        same(|| BitmapBuf::from_rows(&rows, |row| row % 3 == 1));
    });
}

/// Rows are those that a walk over the indices reads, and nothing is written behind them.
fn chosen<T: Row + PartialEq + std::fmt::Debug>(a: Bitmap<'_>, row: impl Fn(usize) -> T) {
    let rows: Vec<T> = (0..a.len()).map(&row).collect();
    let wanted: Vec<T> = a.indices().map(|i| rows[i]).collect();
    same(|| {
        assert_eq!(a.choose(&rows).unwrap(), wanted);
        assert_eq!(Mask::from(a.to_buf()).choose(&rows), wanted);
        assert_eq!(Selection::new(a.to_buf()).choose(&rows).unwrap(), wanted);
        let mut out = vec![row(5); wanted.len() + 70];
        assert_eq!(a.choose_into(&rows, &mut out), Ok(wanted.len()));
        assert_eq!(out[..wanted.len()], wanted);
        assert_eq!(out[wanted.len()..], [row(5); 70]);
    });
}

#[test]
fn choosing_small_rows() {
    each_list(|a, _| {
        chosen(a, |i| (i % 251).to_le_bytes()[0]);
        chosen(a, |i| i % 3 == 0);
        chosen(a, |i| u16::try_from(i % 65_521).unwrap());
        chosen(a, |i| [i.to_le_bytes()[1], i.to_le_bytes()[0]]);
        chosen(a, |i| u32::try_from(i).unwrap().wrapping_mul(0x9E37_79B9));
        chosen(a, |i| [i.to_le_bytes()[0], 7, i.to_le_bytes()[1], 9]);
        chosen(a, |i| char::from(i.to_le_bytes()[0]));
        chosen(a, |i| i.wrapping_mul(0x9E37_79B9_7F4A_7C15));
        chosen(a, |i| [f32::from(i.to_le_bytes()[0]), f32::from(i.to_le_bytes()[1])]);
        chosen(a, |i| [i.to_le_bytes(), [3; 8]]);
    });
}

/// The calls of a C library choose these rows too, into just their places and into more.
#[test]
fn choosing_for_c() {
    each_list(|a, _| {
        macro_rules! chosen {
            ($($choose:ident($row:expr);)*) => {$(
                let rows: Vec<_> = (0..a.len()).map($row).collect();
                let wanted: Vec<_> = a.indices().map(|i| rows[i]).collect();
                for more in [0, 70] {
                    same(|| {
                        let mut out = vec![$row(5); wanted.len() + more];
                        let count = mask_c::$choose(a.bytes(), a.offset(), a.len(), &rows, &mut out);
                        assert_eq!(out[..count], wanted);
                        count
                    });
                }
            )*};
        }
        chosen! {
            row_mask_choose_1(|i: usize| i.to_le_bytes()[0]);
            row_mask_choose_2(|i: usize| u16::try_from(i % 65_521).unwrap());
            row_mask_choose_4(|i: usize| u32::try_from(i).unwrap().wrapping_mul(0x9E37_79B9));
            row_mask_choose_8(|i: usize| u64::try_from(i).unwrap().wrapping_mul(0x9E37_79B9_7F4A_7C15));
        }
    });
}

/// Rows of each size are asked once, in their order.
fn asked<T>(row: impl Fn(usize) -> T, is_true: impl Fn(&T) -> bool) {
    for len in [0, 1, 63, 64, 65, 200, 2_000] {
        let rows: Vec<T> = (0..len).map(|i| row(i * 7 % 1_009)).collect();
        same(|| {
            let mut next = rows.iter();
            let made = BitmapBuf::from_rows(&rows, |row| {
                next.next().is_some_and(|it| std::ptr::eq(it, row)) && is_true(row)
            });
            assert!(next.next().is_none());
            for (row, value) in rows.iter().zip(&made) {
                assert_eq!(value, is_true(row));
            }
            made.len()
        });
    }
}

#[test]
fn packing() {
    asked(|_| (), |()| true);
    asked(|i| i % 256 < 100, |it| *it);
    asked(|i| u16::try_from(i).unwrap(), |it| *it > 500);
    asked(|i| [i % 3 == 0; 3], |it| it[2]);
    asked(|i| i32::try_from(i).unwrap(), |it| *it % 3 == 1);
    asked(|i| [i < 9; 5], |it| it[4]);
    asked(|i| i, |it| *it > 500);
    asked(|i| (i, i % 2), |it| it.0 > 300 && it.1 == 1);
    each_list(|a, _| {
        let mut values: Vec<bool> = a.iter().collect();
        assert_eq!(a, values.iter().copied().collect::<BitmapBuf>());
        assert_eq!(a, BitmapBuf::from_fn(a.len(), |i| values[i]));
        let mut bytes = vec![!0; a.len().div_ceil(8)];
        BitmapBuf::collect_into(values.drain(..), &mut bytes[..]).unwrap();
        assert_eq!(Bitmap::new(&bytes, 0, a.len()), Bitmap::new(a.to_buf().as_bytes(), 0, a.len()));
    });
}

#[test]
fn masks() {
    each_list(|a, b| {
        let of = |values: Bitmap<'_>| Mask::from(values.iter().collect::<BitBuffer>());
        let ranks = values(a.count(), 3);
        let (a, b, ranks) = (of(a), of(b), of(ranks.as_bitmap()));
        same(|| (a.intersect_by_rank(&ranks), a.choose_values(&b)));
        same(|| (a.try_bitand(&b), a.try_bitor(&b), a == b, a.true_count()));
        same(|| BitBuffer::from_rows(&[3_u64, 5, 8], |row| row % 2 == 1));
    });
}
