//! Rows at the true values, by the loop for their size: several at once where the processor can.

#[cfg(target_arch = "x86_64")]
use super::has_vbmi2;
#[cfg(target_arch = "x86_64")]
use super::processor::{Compressed, CompressedNarrow, compresses, moves_fours};
use super::processor::{Moved, moves_bytes};
use crate::proved::mask_bits::choose::rows::{choose_rows, choose_small_rows};
use crate::proved::mask_bits::choose::small_rows::MoveRows;
use crate::proved::mask_bits::counts::count_bits;
use crate::proved::mask_bits::output::Lent;
use crate::proved::mask_bits::{BitBuffer, BitChunks, SetSlices};
use crate::proved::mask_c;
use crate::proved::vortex_mask::mask::choose;
use alloc::vec::Vec;
use core::any::TypeId;
use core::marker::PhantomData;
use core::mem::{MaybeUninit, transmute};
use core::ops::{Range, RangeInclusive};
use core::slice;

// Several small rows are moved at once where one value in so many is true. Where fewer are, to count those of each word
// takes longer than is gained.
const ONE_TRUE_IN: usize = 8;

// They are in words of so many true values or more, of rows of one byte, of two or four, and of eight. Fewer take less time
// one by one.
const FEW_BYTES: usize = 6;
#[cfg(target_arch = "x86_64")]
const FEW_FOURS: usize = 8;
#[cfg(target_arch = "x86_64")]
const FEW_EIGHTS: usize = 10;

// Rows of eight bytes are where three in so many values are true, and rows of two without AVX-512.
#[cfg(target_arch = "x86_64")]
const THREE_TRUE_IN: usize = 8;

// Rows of so many bytes that aren't moved so are taken four at a time where one in so many values is true: where fewer are,
// most words have a step of four for one or two rows.
const BY_FOUR: RangeInclusive<usize> = 8..=24;
const ONE_OF_FOUR_IN: usize = 6;

// AVX-512 moves rows of more values than these.
#[cfg(target_arch = "x86_64")]
const FEW_VALUES: usize = 64;

// The loop over words is compiled for x86-64-v3 too, which it asks for of more values than these (see `choose_rows`).
const ANY_LEVEL: usize = 128;

// Beside that one, runs have to have so many values, taken together, for copies of them to pay; beside the other `OF_A_RUN`.
const OF_A_LONG_RUN: usize = 48;

/// To copy a run at once pays where runs have so many values, taken together. Fewer take less time one by one.
pub(crate) const OF_A_RUN: usize = 24;

/// A list of chosen rows is made with room for so many more: several are moved at once, of which the last may be any.
pub(crate) const MORE: usize = 16;

/// Writes the rows at the true values, which are `count`, to the front of `out`. What is behind them may be written too.
///
/// # Safety
/// There is a row for each value, so many are true, and each has a place. A row is plain bytes, each of them written.
pub(crate) unsafe fn choose_rows_by_size<T: Copy>(
    rows: &[T],
    chunks: BitChunks<'_>,
    out: &mut [MaybeUninit<T>],
    count: usize,
) {
    let len = rows.len();
    // (between two runs there is a false value at least)
    let of_a_run = if len > ANY_LEVEL { OF_A_LONG_RUN } else { OF_A_RUN };
    let has_long_runs = (len - count).saturating_mul(of_a_run) <= count;
    let has_many = count >= len / ONE_TRUE_IN;
    let is_small = size_of::<T>() <= 4 || !has_long_runs;
    // SAFETY: this is what is asked here too.
    if has_many && is_small && unsafe { choose_several(rows, &chunks, out, count) } {
        return;
    }
    let by_four =
        BY_FOUR.contains(&size_of::<T>()) && len > ANY_LEVEL && count >= len / ONE_OF_FOUR_IN;
    let cells = as_cells(rows);
    if has_long_runs {
        copy_runs(cells, SetSlices::new(chunks).map(|(start, end)| start..end), out);
    } else if by_four {
        choose_rows::<4, _, _>(&mut Lent { out, at: 0 }, cells, &chunks);
    } else {
        choose_rows::<0, _, _>(&mut Lent { out, at: 0 }, cells, &chunks);
    }
}

/// The same where several rows of this size are moved at once: it says whether they are.
///
/// # Safety
/// As there.
#[inline]
pub(crate) unsafe fn choose_several<T: Copy>(
    rows: &[T],
    chunks: &BitChunks<'_>,
    out: &mut [MaybeUninit<T>],
    count: usize,
) -> bool {
    // SAFETY: a row is as many bytes as stand here, and this is asked here too.
    unsafe {
        match size_of::<T>() {
            #[cfg(target_arch = "x86_64")]
            1 if rows.len() > FEW_VALUES && has_vbmi2() => {
                move_narrow::<FEW_BYTES, u8, T>(rows, chunks, out);
            }
            1 if moves_bytes() => move_as::<FEW_BYTES, u8, Moved, T>(rows, chunks, out),
            #[cfg(target_arch = "x86_64")]
            size @ (2 | 4 | 8) => return move_wider(size, rows, chunks, out, count),
            _ => return false,
        }
    }
    true
}

/// The same of rows of 2, 4 or 8 bytes, which are so many.
///
/// # Safety
/// As there.
#[cfg(target_arch = "x86_64")]
#[inline]
unsafe fn move_wider<T: Copy>(
    size: usize,
    rows: &[T],
    chunks: &BitChunks<'_>,
    out: &mut [MaybeUninit<T>],
    count: usize,
) -> bool {
    let is_dense = is_dense(rows.len(), count);
    // SAFETY: this is what is asked here too.
    unsafe {
        if rows.len() > FEW_VALUES && (size < 8 || is_dense) && compresses() {
            match size {
                2 if has_vbmi2() => move_narrow::<FEW_FOURS, [u8; 2], T>(rows, chunks, out),
                2 => move_as::<FEW_FOURS, [u8; 2], Compressed, T>(rows, chunks, out),
                4 => move_as::<FEW_FOURS, [u8; 4], Compressed, T>(rows, chunks, out),
                _ => move_as::<FEW_EIGHTS, [u8; 8], Compressed, T>(rows, chunks, out),
            }
        } else if size < 8 && (size == 4 || is_dense) && moves_fours() {
            match size {
                2 => move_as::<FEW_FOURS, [u8; 2], Moved, T>(rows, chunks, out),
                _ => move_as::<FEW_FOURS, [u8; 4], Moved, T>(rows, chunks, out),
            }
        } else {
            return false;
        }
    }
    true
}

/// The same of rows of one byte or two, by an instruction of VBMI2.
///
/// # Safety
/// As there, and the processor has it, as `has_vbmi2` says.
#[cfg(target_arch = "x86_64")]
#[inline]
unsafe fn move_narrow<const FEW: usize, B: Copy, T: Copy>(
    rows: &[T],
    chunks: &BitChunks<'_>,
    out: &mut [MaybeUninit<T>],
) where
    CompressedNarrow: MoveRows<B>,
{
    // SAFETY: this is what is asked here. Each place gets a row's bytes, and none is read before.
    unsafe {
        let (rows, out) = as_byte_rows(rows, out);
        move_by_vbmi2::<FEW, B>(rows, chunks, out);
    }
}

/// Whether, with so many true values, so large a share is true that several wide rows are moved after one branch.
#[cfg(target_arch = "x86_64")]
fn is_dense(len: usize, count: usize) -> bool {
    count / 3 >= len / THREE_TRUE_IN
}

/// The same of rows that are taken as bytes.
///
/// # Safety
/// As there. `B` is a byte or an array of bytes, as long as a row.
#[inline]
unsafe fn move_as<const FEW: usize, B: Copy, M: MoveRows<B>, T: Copy>(
    rows: &[T],
    chunks: &BitChunks<'_>,
    out: &mut [MaybeUninit<T>],
) {
    // SAFETY: this is what is asked here. Each place gets a row's bytes, and none is read before.
    let (rows, out) = unsafe { as_byte_rows(rows, out) };
    move_several::<FEW, B, M>(rows, chunks, out);
}

// The number of rows that are written is in a local value of each copy. So it stays in a register: to store it after each
// word takes up to 1.5 times as long. (Inlined, it would slow down the loop beside it.)
#[inline(never)]
fn move_several<const FEW: usize, T: Copy, M: MoveRows<T>>(
    rows: &[T],
    chunks: &BitChunks<'_>,
    out: &mut [T],
) {
    super::by_level_to_v4!(
        true,
        move_by_v4::<FEW, T, M>(rows, chunks, out),
        move_by_v3::<FEW, T, M>(rows, chunks, out),
        move_by_any::<FEW, T, M>(rows, chunks, out)
    );
}

#[cfg(target_arch = "x86_64")]
#[target_feature(enable = "avx2,bmi1,bmi2,f16c,fma,lzcnt,movbe,popcnt")]
fn move_by_v3<const FEW: usize, T: Copy, M: MoveRows<T>>(
    rows: &[T],
    chunks: &BitChunks<'_>,
    out: &mut [T],
) {
    move_by_any::<FEW, T, M>(rows, chunks, out);
}

#[cfg(target_arch = "x86_64")]
#[target_feature(enable = "avx2,bmi1,bmi2,f16c,fma,lzcnt,movbe,popcnt")]
#[target_feature(enable = "avx512f,avx512bw,avx512cd,avx512dq,avx512vl")]
fn move_by_v4<const FEW: usize, T: Copy, M: MoveRows<T>>(
    rows: &[T],
    chunks: &BitChunks<'_>,
    out: &mut [T],
) {
    move_by_any::<FEW, T, M>(rows, chunks, out);
}

#[cfg(target_arch = "x86_64")]
#[target_feature(enable = "avx2,bmi1,bmi2,f16c,fma,lzcnt,movbe,popcnt")]
#[target_feature(enable = "avx512f,avx512bw,avx512cd,avx512dq,avx512vl,avx512vbmi2")]
fn move_by_vbmi2<const FEW: usize, T: Copy>(rows: &[T], chunks: &BitChunks<'_>, out: &mut [T])
where
    CompressedNarrow: MoveRows<T>,
{
    move_by_any::<FEW, T, CompressedNarrow>(rows, chunks, out);
}

#[allow(clippy::inline_always, reason = "a copy is compiled for what the function around it has")]
#[inline(always)]
fn move_by_any<const FEW: usize, T: Copy, M: MoveRows<T>>(
    rows: &[T],
    chunks: &BitChunks<'_>,
    out: &mut [T],
) {
    choose_small_rows::<FEW, M, _, _>(&mut Lent { out, at: 0 }, rows, chunks);
}

/// Copies runs of items, one after another. (Never inlined, so that it changes no loop beside it.)
#[inline(never)]
pub(crate) fn copy_runs<T: Copy>(of: &[T], runs: impl Iterator<Item = Range<usize>>, to: &mut [T]) {
    let mut at = 0;
    for run in runs {
        let end = at + run.len();
        to[at..end].copy_from_slice(&of[run]);
        at = end;
    }
}

/// Rows as places that may be written or not.
fn as_cells<T>(rows: &[T]) -> &[MaybeUninit<T>] {
    // SAFETY: it is the same slice, and each of its places is written.
    unsafe { slice::from_raw_parts(rows.as_ptr().cast(), rows.len()) }
}

/// Rows and their places as those of a type of bytes.
///
/// # Safety
/// A row is plain bytes. `B` is a byte or an array of bytes, as long as a row. Each place is written before it is read.
unsafe fn as_byte_rows<'a, T: Copy, B: Copy>(
    rows: &'a [T],
    out: &'a mut [MaybeUninit<T>],
) -> (&'a [B], &'a mut [B]) {
    debug_assert_eq!((size_of::<B>(), align_of::<B>()), (size_of::<T>(), 1));
    // SAFETY: the slices have the same memory, in as many items of the same size. Any place is fit for bytes, whatever
    // the one of a row is, and those of a row are all written. The rest is asked here.
    unsafe {
        (
            slice::from_raw_parts(rows.as_ptr().cast(), rows.len()),
            slice::from_raw_parts_mut(out.as_mut_ptr().cast(), out.len()),
        )
    }
}

/// Puts the rows at the true values into an empty list with room for these, which are so many. It stands in the place
/// of the proved function of this name, to which it leaves rows that aren't known to be plain bytes.
pub(crate) fn put_chosen_rows<T: Copy>(
    list: &mut Vec<T>,
    rows: &[T],
    buffer: &BitBuffer,
    count: usize,
) {
    if !is_number::<T>() {
        return choose::put_chosen_rows(list, rows, buffer, count);
    }
    let out = list.spare_capacity_mut();
    // SAFETY: a number is plain bytes. There is a row for each value, and just so many are true, as the proved function is
    // called. So as many places are written.
    unsafe {
        choose_rows_by_size(rows, buffer.chunks(), out, count);
        list.set_len(count);
    }
}

/// Writes the rows at the true values to the front of `out`, and returns how many they are. It stands in the place of the
/// proved function of this name in a C library that cargo makes, to which it leaves what isn't moved several at once: rows of
/// one byte, those that aren't known to be plain bytes, few rows, and lists of which few values are true.
pub(crate) fn choose_to_front<T: Copy>(
    bytes: &[u8],
    offset: usize,
    len: usize,
    rows: &[T],
    out: &mut [T],
) -> usize {
    let is_moved = is_number::<T>() && moves_rows_of(size_of::<T>());
    if is_moved && len > ANY_LEVEL && mask_c::have_many(bytes, offset, len) {
        let count = count_bits(bytes, offset, len);
        let (chunks, places) = (BitChunks::new_proved(bytes, offset, len), out.len());
        // SAFETY: a number is plain bytes. There is a row for each value, and room for those that are true, as the proved
        // function is called. Nothing but rows is written.
        let is_done = count >= len / ONE_TRUE_IN
            && unsafe {
                let out = slice::from_raw_parts_mut(out.as_mut_ptr().cast(), places);
                choose_several(rows, &chunks, out, count)
            };
        if is_done {
            return count;
        }
    }
    mask_c::choose_to_front(bytes, offset, len, rows, out)
}

/// Whether the processor moves several rows of more than one byte at once.
fn moves_rows_of(size: usize) -> bool {
    match size {
        #[cfg(target_arch = "x86_64")]
        2 | 4 => moves_fours() || compresses(),
        #[cfg(target_arch = "x86_64")]
        8 => compresses(),
        _ => false,
    }
}

/// Whether a type is a number, `bool` or `char`.
#[inline]
fn is_number<T>() -> bool {
    macro_rules! is_one_of {
        ($($number:ty)*) => {{
            let this = id_of::<T>();
            $(this == TypeId::of::<$number>())||*
        }};
    }
    is_one_of!(u8 i8 bool u16 i16 u32 i32 f32 char u64 i64 f64 usize isize u128 i128)
}

/// What tells a type from others, but for its lifetimes.
#[inline]
fn id_of<T>() -> TypeId {
    trait Identified {
        fn id(&self) -> TypeId
        where
            Self: 'static;
    }
    impl<T> Identified for PhantomData<T> {
        #[inline]
        fn id(&self) -> TypeId
        where
            Self: 'static,
        {
            TypeId::of::<T>()
        }
    }
    let of: PhantomData<T> = PhantomData;
    // SAFETY: nothing is read through the reference, and the method doesn't depend on lifetimes.
    unsafe { transmute::<&dyn Identified, &(dyn Identified + 'static)>(&of) }.id()
}

#[cfg(test)]
mod tests {
    use super::is_number;

    fn is_of_numbers<T>(_: T) -> bool {
        is_number::<T>()
    }

    #[test]
    fn numbers_are_known() {
        assert!(is_of_numbers(7_u8) && is_of_numbers(0.5) && is_of_numbers('a'));
        assert!(!is_of_numbers([7_u8; 4]) && !is_of_numbers((7_u8, 7_u8)));
        assert!(!is_of_numbers(&*String::from("a")) && !is_of_numbers(Some(7_u32)));
    }
}
