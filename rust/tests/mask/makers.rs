//! What is made of iterators, lists and bytes, beside plain lists.

use crate::lists::{buffers, lists};
use crate::said;
use row_mask::{BitBuffer, BitBufferMut, Bytes, Mask};
use std::iter;

fn values<'a>(of: impl IntoIterator<Item = bool> + 'a) -> Vec<bool> {
    of.into_iter().collect()
}

#[test]
fn of_values() {
    for list in lists() {
        let made = [
            BitBuffer::from(&list[..]),
            BitBuffer::from(list.clone()),
            list.iter().copied().collect(),
            list.iter().copied().filter(|_| true).collect(),
            list.iter().copied().collect::<BitBufferMut>().try_freeze().unwrap(),
        ];
        for buffer in made {
            assert_eq!(values(&buffer), list);
        }
        let mask: Mask = list.iter().copied().collect();
        assert_eq!(values(&mask), list);
        assert!(!list.is_empty() || matches!(mask, Mask::AllFalse(0)));
        for buffer in buffers(&list) {
            let mask = Mask::from(buffer);
            assert_eq!(values(&mask), list);
            assert_eq!(
                matches!(mask, Mask::Values(_)),
                list.contains(&true) && list.contains(&false)
            );
        }
    }
}

#[test]
fn of_masks() {
    let lists = lists();
    let joined: Mask = lists.iter().map(|it| it.iter().copied().collect::<Mask>()).collect();
    assert_eq!(values(&joined), lists.concat());
    assert!(matches!(Mask::from_iter([] as [Mask; 0]), Mask::AllTrue(0)));
    let longest = [Mask::AllTrue(usize::MAX - 1), Mask::AllTrue(1)];
    assert!(matches!(longest.into_iter().collect(), Mask::AllTrue(usize::MAX)));
    let too_long = || [Mask::AllTrue(usize::MAX), Mask::AllFalse(1)].into_iter().collect::<Mask>();
    let text = "row_mask: `from_masks`: the sum of the lengths does not fit";
    assert_eq!(said(too_long).as_deref(), Some(text));
}

/// A test of rows may count, and sees each row once, in order.
#[test]
fn of_rows() {
    for list in lists() {
        let (mut seen, mut again) = (vec![], vec![]);
        let mask = Mask::from_rows(&list, |value| {
            seen.push(*value);
            *value
        });
        let buffer = BitBuffer::from_rows(&list, |value| {
            again.push(*value);
            *value
        });
        assert_eq!((&seen, &again), (&list, &list));
        assert_eq!((values(&mask), values(&buffer)), (list.clone(), list.clone()));
        assert_eq!(mask, Mask::try_from_rows(&list, |value| *value).unwrap());
    }
}

#[test]
fn builders_grow() {
    let (mut builder, mut list) = (BitBufferMut::default(), Vec::new());
    assert_eq!(builder.len(), 0);
    for more in lists() {
        builder.extend(more.iter().copied());
        list.extend(more);
        assert_eq!(builder.len(), list.len());
    }
    assert_eq!(format!("{builder:?}"), format!("BitBufferMut {{ len: {}, .. }}", list.len()));
    assert_eq!(values(&builder.try_freeze().unwrap()), list);
}

#[test]
fn of_bytes() {
    for count in [2, 16, 17, 40] {
        let bytes = [&[0xB4][..], &vec![0xFF; count - 1]].concat();
        let boxed: Box<[u8]> = Box::from(&bytes[..]);
        let place = boxed.as_ptr();
        let made = [
            Bytes::from(&bytes[..]),
            Bytes::from(boxed),
            bytes.iter().copied().collect(),
            Bytes::from(bytes.clone()),
            Bytes::from_vec(bytes.clone()).unwrap(),
        ];
        assert_eq!(made[1].as_ptr() == place, count > 16);
        for it in made {
            assert_eq!(it.as_slice(), bytes);
            assert_eq!(format!("{:?}", BitBuffer::new(it, 10)), "BitBuffer(0010110111)");
        }
    }
}

/// Values that are walked over give one list, whatever the walk says of their number.
#[test]
fn of_a_walk() {
    for len in 0..=140 {
        let list: Vec<bool> = (0..len).map(|i| i * i % 7 < 3).collect();
        let wanted = BitBuffer::from(&list[..]);
        assert_eq!(wanted, list.iter().copied().collect());
        assert_eq!(wanted, list.iter().copied().filter(|_| true).collect());
        let mut next = list.iter().copied();
        assert_eq!(wanted, iter::from_fn(|| next.next()).collect());
        for said in [0, 1, 63, 64, 65] {
            assert_eq!(wanted, Said(list.iter().copied(), said).collect());
        }
    }
}

/// A walk that says a wrong number.
struct Said<I>(I, usize);

impl<I: Iterator> Iterator for Said<I> {
    type Item = I::Item;

    fn next(&mut self) -> Option<I::Item> {
        self.0.next()
    }

    fn size_hint(&self) -> (usize, Option<usize>) {
        (0, Some(self.1))
    }
}
