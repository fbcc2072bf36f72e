//! The libraries. Their answers are no digests of the result, and aren't compared.

use crate::Call;
use crate::lists::Lists;
use std::marker::PhantomData;

#[cfg(not(row_mask_one_level))]
pub const NAMES: [&str; 2] = ["fixedbitset", "CRoaring"];

/// The libraries, where they are asked for.
pub struct Peers<'a> {
    #[cfg(feature = "fixedbitset")]
    fixed: crate::fixed::Fixed<'a>,
    #[cfg(feature = "roaring")]
    roaring: crate::roaring::Roaring<'a>,
    lists: PhantomData<&'a Lists>,
}

impl<'a> Peers<'a> {
    pub fn new(lists: &'a Lists) -> Peers<'a> {
        let _ = lists;
        Peers {
            #[cfg(feature = "fixedbitset")]
            fixed: crate::fixed::Fixed::new(lists),
            #[cfg(feature = "roaring")]
            roaring: crate::roaring::Roaring::new(lists),
            lists: PhantomData,
        }
    }

    /// Their calls, as many as `NAMES`, where they have such a call.
    pub fn calls(&self, name: &str) -> Vec<Option<Call<'_>>> {
        let _ = (name, self.lists);
        vec![
            #[cfg(feature = "fixedbitset")]
            self.fixed.call(name),
            #[cfg(not(feature = "fixedbitset"))]
            None,
            #[cfg(feature = "roaring")]
            self.roaring.call(name),
            #[cfg(not(feature = "roaring"))]
            None,
        ]
    }
}
