//! The calls of `Mask`. Each gets masks that cache no list.

use crate::Call;
use crate::lists::Lists;
use crate::ours::listed;
use row_mask::{AllOr, Mask, MaskValues};
use std::sync::Arc;

pub fn call<'a>(lists: &'a Lists, name: &str) -> Option<Call<'a>> {
    let (mut a, b, ranks) = (of(&lists.list), of(&lists.other), of(&lists.ranks));
    let (len, half) = (lists.len, lists.half());
    Some(match name {
        "Mask::intersect_by_rank" => {
            Box::new(move || byte(&a.try_intersect_by_rank(&ranks).unwrap(), len - 1))
        }
        "Mask::choose" => {
            Box::new(move || a.try_choose(&lists.rows).unwrap().last().copied().unwrap_or(0))
        }
        "Mask::choose, of 4 bytes" => Box::new(move || {
            a.try_choose(&lists.column).unwrap().last().map_or(0, |it| (*it).into())
        }),
        "Mask::bitand" => Box::new(move || byte(&a.try_bitand(&b).unwrap(), len - 1)),
        "Mask::bitor" => Box::new(move || byte(&a.try_bitor(&b).unwrap(), len - 1)),
        "Mask::not" => Box::new(move || byte(&a.try_not().unwrap(), len - 1)),
        "Mask::to_bitand_not" => Box::new(move || byte(&a.try_to_bitand_not(&b).unwrap(), len - 1)),
        "Mask::indices" => {
            let bare = bare(&a);
            Box::new(move || {
                let AllOr::Some(indices) = a.try_indices().unwrap() else { unreachable!() };
                let digest = listed(indices.len(), indices.last().copied().unwrap_or(0));
                forget(&mut a, &bare);
                digest
            })
        }
        "Mask::slices" => {
            let bare = bare(&a);
            Box::new(move || {
                let AllOr::Some(runs) = a.try_slices().unwrap() else { unreachable!() };
                let digest = listed(2 * runs.len(), runs.last().map_or(0, |(_, end)| *end));
                forget(&mut a, &bare);
                digest
            })
        }
        "Mask::to_limited" => {
            let (count, at) = half;
            Box::new(move || byte(&a.try_to_limited(count).unwrap(), at))
        }
        "Mask::concat" => {
            let part = a.try_slice(0, len - 1).unwrap();
            Box::new(move || byte(&Mask::concat([&part, &b]).unwrap(), 2 * len - 2))
        }
        _ => return None,
    })
}

/// What a call does beside itself, whose time is taken off: it lets go of the list that its mask has cached.
pub fn beside<'a>(lists: &'a Lists, name: &str) -> Option<Call<'a>> {
    matches!(name, "Mask::indices" | "Mask::slices").then(|| {
        let mut mask = of(&lists.list);
        let bare = bare(&mask);
        Box::new(move || {
            forget(&mut mask, &bare);
            0_u64
        }) as Call
    })
}

fn of(list: &[bool]) -> Mask {
    Mask::try_from_rows(list, |value| *value).unwrap()
}

fn bare(mask: &Mask) -> MaskValues {
    mask.values().unwrap().try_clone().unwrap()
}

/// The byte with value `at` of a mask that has both values and begins at a whole byte, without bits past the last value.
fn byte(mask: &Mask, at: usize) -> u64 {
    let bits = mask.values().unwrap().bit_buffer();
    let first = 8 * (at / 8);
    u64::from(bits.inner()[first / 8]) & ((1 << (bits.len() - first).min(8)) - 1)
}

/// Lets go of the list that a mask caches, so that the next call makes it.
fn forget(mask: &mut Mask, bare: &MaskValues) {
    if let Mask::Values(values) = mask {
        *Arc::get_mut(values).unwrap() = bare.try_clone().unwrap();
    }
}
