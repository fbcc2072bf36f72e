//! `CRoaring`, which is compressed: where few values are true it skips what is empty.

use crate::Call;
use crate::lists::Lists;

#[repr(C)]
struct Raw([u8; 0]);

unsafe extern "C" {
    fn roaring_bitmap_of_ptr(size: usize, values: *const u32) -> *mut Raw;
    fn roaring_bitmap_run_optimize(bitmap: *mut Raw) -> bool;
    fn roaring_bitmap_free(bitmap: *const Raw);
    fn roaring_bitmap_get_cardinality(bitmap: *const Raw) -> u64;
    fn roaring_bitmap_equals(a: *const Raw, b: *const Raw) -> bool;
    fn roaring_bitmap_and(a: *const Raw, b: *const Raw) -> *mut Raw;
    fn roaring_bitmap_to_uint32_array(bitmap: *const Raw, out: *mut u32);
}

struct Bits(*mut Raw);

impl Drop for Bits {
    fn drop(&mut self) {
        // SAFETY: it was made by CRoaring and is freed once.
        unsafe { roaring_bitmap_free(self.0) }
    }
}

impl Bits {
    fn new(list: &[bool]) -> Bits {
        let len = u32::try_from(list.len()).unwrap();
        let indices: Vec<u32> = (0..len).filter(|i| list[*i as usize]).collect();
        // SAFETY: the pointer and the size are those of one slice.
        let bitmap = unsafe { roaring_bitmap_of_ptr(indices.len(), indices.as_ptr()) };
        // SAFETY: it was just made.
        unsafe { roaring_bitmap_run_optimize(bitmap) };
        Bits(bitmap)
    }

    fn count(&self) -> u64 {
        // SAFETY: it is a bitmap of CRoaring.
        unsafe { roaring_bitmap_get_cardinality(self.0) }
    }

    fn indices(&self) -> Vec<u32> {
        let mut indices = vec![0; usize::try_from(self.count()).unwrap()];
        // SAFETY: there is room for as many values as it has.
        unsafe { roaring_bitmap_to_uint32_array(self.0, indices.as_mut_ptr()) };
        indices
    }
}

pub struct Roaring<'a> {
    lists: &'a Lists,
    list: Bits,
    other: Bits,
    copy: Bits,
}

impl<'a> Roaring<'a> {
    pub fn new(lists: &'a Lists) -> Roaring<'a> {
        let (list, copy) = (Bits::new(&lists.list), Bits::new(&lists.list));
        Roaring { lists, list, other: Bits::new(&lists.other), copy }
    }

    pub fn call(&self, name: &str) -> Option<Call<'_>> {
        let Roaring { lists, list, other, copy } = self;
        Some(match name {
            "count" => Box::new(move || list.count()),
            // SAFETY: both are bitmaps of CRoaring.
            "and" => Box::new(move || Bits(unsafe { roaring_bitmap_and(list.0, other.0) }).count()),
            // SAFETY: both are bitmaps of CRoaring.
            "==" => Box::new(move || u64::from(unsafe { roaring_bitmap_equals(list.0, copy.0) })),
            "choose" => Box::new(move || {
                let chosen: Vec<u64> =
                    list.indices().iter().map(|i| lists.rows[*i as usize]).collect();
                chosen.last().copied().unwrap_or(0)
            }),
            "for over indices" => Box::new(move || {
                let mut sum = 0;
                for i in list.indices() {
                    sum += lists.rows[i as usize];
                }
                sum
            }),
            "sum of indices" => {
                Box::new(move || list.indices().iter().map(|i| u64::from(*i)).sum())
            }
            _ => return None,
        })
    }
}
