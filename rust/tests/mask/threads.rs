//! Lists that threads ask for at once, of one mask and of its clones.

use row_mask::{AllOr, Mask};
use std::sync::Barrier;
use std::thread;

const THREADS: usize = 8;

/// All get the same list, which is the mask's, while other clones are let go.
#[test]
fn a_list_is_made_once_for_all_clones() {
    for len in [70, 1000, 10_001] {
        let list: Vec<bool> = (0..len).map(|i| i % 3 == 1 || i % 64 > 50).collect();
        let indices: Vec<usize> = (0..len).filter(|i| list[*i]).collect();
        for _ in 0..20 {
            let mask: Mask = list.iter().copied().collect();
            let start = Barrier::new(THREADS);
            thread::scope(|scope| {
                for number in 0..THREADS {
                    let (own, start, indices, mask) = (mask.clone(), &start, &indices, &mask);
                    scope.spawn(move || {
                        start.wait();
                        if number % 4 == 3 {
                            return drop(own);
                        }
                        let lent = if number % 2 == 0 { &own } else { mask };
                        assert_eq!(lent.indices(), AllOr::Some(&indices[..]));
                        let AllOr::Some(runs) = lent.slices() else { panic!("it is mixed") };
                        assert!(
                            runs.iter()
                                .flat_map(|(start, end)| *start..*end)
                                .eq(indices.iter().copied())
                        );
                    });
                }
            });
            let clone = mask.clone();
            let [one, other] =
                [&mask, &clone].map(|it| it.values().unwrap().cached_indices().unwrap());
            assert_eq!(one.as_ptr(), other.as_ptr());
            assert_eq!(one, indices);
        }
    }
}

/// What lends from a plan that many have.
#[test]
fn a_shared_mask_lends_its_list() {
    static ALL: Mask = Mask::AllTrue(3);
    assert_eq!(ALL.indices(), AllOr::All);
    let plan = std::sync::Arc::new(Mask::from_indices(9, [2, 5]));
    let theirs = plan.clone();
    let other = thread::spawn(move || theirs.slices().cloned_list());
    assert_eq!(other.join().unwrap(), [(2, 3), (5, 6)]);
    assert_eq!(plan.indices(), AllOr::Some(&[2, 5][..]));
}

trait ClonedList<T> {
    fn cloned_list(self) -> Vec<T>;
}

impl<T: Clone> ClonedList<T> for AllOr<&[T]> {
    fn cloned_list(self) -> Vec<T> {
        match self {
            AllOr::Some(list) => list.to_vec(),
            _ => Vec::new(),
        }
    }
}
