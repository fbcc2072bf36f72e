//! Two bitmaps combined and compared, into room of the caller and in place.

use crate::lists::{Comparisons, Generator, count_of, narrowed, packed};
use row_mask::{Bitmap, BitmapBuf, Error, Room};

type Into<R> = fn(Bitmap<'_>, Bitmap<'_>, &mut R) -> Result<(), Error>;

pub fn pairs(seen: &mut Comparisons, random: &mut Generator, list: &[bool], bitmap: Bitmap<'_>) {
    let share = [3, 128, 253][random.below(3)];
    let (other, offset) = (random.list(list.len(), share), random.below(16));
    let bytes = random.packed(&other, offset);
    let second = Bitmap::new(&bytes, offset, list.len()).unwrap();
    let want = |of: fn(bool, bool) -> bool| {
        list.iter().zip(&other).map(|(a, b)| of(*a, *b)).collect::<Vec<_>>()
    };
    let both = want(|a, b| a && b);

    let into = |bytes: Into<[u8]>, buf: Into<BitmapBuf>, want: &[bool]| {
        (bytes, buf, bitmap, second, want.to_vec())
    };
    let not: Vec<bool> = list.iter().map(|a| !a).collect();
    for call in [
        into(|a, b, out| a.and_into(b, out), |a, b, out| a.and_into(b, out), &both),
        into(|a, b, out| a.or_into(b, out), |a, b, out| a.or_into(b, out), &want(|a, b| a || b)),
        into(
            |a, b, out| a.and_not_into(b, out),
            |a, b, out| a.and_not_into(b, out),
            &want(|a, b| a && !b),
        ),
        into(
            |a, b, out| a.or_not_into(b, out),
            |a, b, out| a.or_not_into(b, out),
            &want(|a, b| a || !b),
        ),
        into(|a, b, out| a.xor_into(b, out), |a, b, out| a.xor_into(b, out), &want(|a, b| a != b)),
        into(|a, _, out| a.not_into(out), |a, _, out| a.not_into(out), &not),
        into(|a, _, out| a.copy_into(out), |a, _, out| a.copy_into(out), list),
    ] {
        written(seen, random, call);
    }
    ranks(seen, random, list, bitmap);
    compared(seen, list, &other, (bitmap, second));
}

fn compared(
    seen: &mut Comparisons,
    list: &[bool],
    other: &[bool],
    (a, b): (Bitmap<'_>, Bitmap<'_>),
) {
    let pairs = || list.iter().zip(other).map(|(a, b)| (*a, *b));
    seen.same(a.and_count(b), Ok(pairs().filter(|(a, b)| *a && *b).count()));
    seen.same(a.intersects(b), Ok(pairs().any(|(a, b)| a && b)));
    seen.same(a.is_subset(b), Ok(pairs().all(|(a, b)| b || !a)));
    let left = a.and_not(b).unwrap();
    seen.same(left.as_bitmap().intersects(b), Ok(false));
    seen.same(left.as_bitmap().is_subset(a), Ok(true));
    seen.same(a.and_count(a), Ok(count_of(list)));
}

fn ranks(seen: &mut Comparisons, random: &mut Generator, list: &[bool], bitmap: Bitmap<'_>) {
    let ranks = random.list(count_of(list), 128);
    let bytes = random.packed(&ranks, 5);
    let second = Bitmap::new(&bytes, 5, ranks.len()).unwrap();
    let by_rank: (Into<[u8]>, Into<BitmapBuf>) = (
        |a, b, out| a.intersect_by_rank_into(b, out),
        |a, b, out| a.intersect_by_rank_into(b, out),
    );
    let at_ranks: (Into<[u8]>, Into<BitmapBuf>) = (
        |a, b, out| a.intersect_at_ranks_into(&b.to_indices(), out),
        |a, b, out| a.intersect_at_ranks_into(&b.to_indices(), out),
    );
    for (bytes, buf) in [by_rank, at_ranks] {
        written(seen, random, (bytes, buf, bitmap, second, narrowed(list, &ranks)));
    }
}

/// Written into bytes that are longer, into just the bytes, and into a bitmap that had other values.
/// Bytes that are too few are refused, and left as they were.
fn written(
    seen: &mut Comparisons,
    random: &mut Generator,
    (bytes, buf, a, b, want): (Into<[u8]>, Into<BitmapBuf>, Bitmap<'_>, Bitmap<'_>, Vec<bool>),
) {
    let size = want.len().div_ceil(8);
    let mut room = vec![0xA5; size + 3];
    seen.same(bytes(a, b, &mut room), Ok(()));
    seen.same(&room[..size], &packed(&want)[..]);
    seen.same(&room[size..], &[0xA5; 3]);
    seen.same(bytes(a, b, &mut room[..size]), Ok(()));
    let before = random.below(300);
    let other = random.list(before, 128);
    let mut made = BitmapBuf::from(&other[..]);
    seen.same(buf(a, b, &mut made), Ok(()));
    seen.same_list(&made, &want);
    if size > 0 {
        let refused = Error::RoomTooSmall { room: size - 1, needed: size };
        let mut room = vec![0xA5; size - 1];
        seen.same(bytes(a, b, &mut room), Err(refused));
        seen.same(room, vec![0xA5; size - 1]);
    }
}

/// Any room is taken, as by a call of one's own.
#[test]
fn room_is_a_bound() {
    fn both(a: Bitmap<'_>, out: &mut (impl Room + ?Sized)) {
        a.and_into(a, out).unwrap();
    }
    let (mut bytes, mut made) = ([0xFF; 1], BitmapBuf::default());
    let bitmap = Bitmap::new(&[0b1010], 0, 4).unwrap();
    both(bitmap, &mut bytes[..]);
    both(bitmap, &mut made);
    assert_eq!((bytes, made.to_string().as_str()), ([0b1010], "0101"));
}
