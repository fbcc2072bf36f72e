//! Truth values with nulls beside Kleene's tables, written out for one value.

use row_mask::{BitBuffer, Mask, NullableBitBuffer};

type Value = Option<bool>;

fn and(a: Value, b: Value) -> Value {
    match (a, b) {
        (Some(false), _) | (_, Some(false)) => Some(false),
        (Some(true), Some(true)) => Some(true),
        _ => None,
    }
}

fn or(a: Value, b: Value) -> Value {
    match (a, b) {
        (Some(true), _) | (_, Some(true)) => Some(true),
        (Some(false), Some(false)) => Some(false),
        _ => None,
    }
}

/// Numbers that look drawn.
struct Drawn(u64);

impl Drawn {
    fn below(&mut self, most: u64) -> u64 {
        self.0 =
            self.0.wrapping_mul(6_364_136_223_846_793_005).wrapping_add(1_442_695_040_888_963_407);
        (self.0 >> 33) % most
    }

    /// Values, with a null among so many or none, or all valid.
    fn values(&mut self, len: usize, nulls: u64) -> Vec<Value> {
        let mut value = || (nulls == 0 || self.below(nulls) > 0).then(|| self.below(2) > 0);
        (0..len).map(|_| value()).collect()
    }
}

/// Bits from a position on, with others around them.
fn bits(bools: impl Iterator<Item = bool>, offset: usize) -> BitBuffer {
    let around = [true, false, true];
    let list: Vec<bool> = around.iter().cycle().copied().take(offset).chain(bools).collect();
    let len = list.len() - offset;
    let bytes = BitBuffer::from([&list[..], &around[..]].concat());
    bytes.slice(offset..offset + len)
}

/// The same values: what stands at a null is `filler`, and where none is null there may be no validity.
fn held(list: &[Value], offsets: [usize; 2], filler: bool, is_valid: bool) -> NullableBitBuffer {
    let values = bits(list.iter().map(|it| it.unwrap_or(filler)), offsets[0]);
    let validity = bits(list.iter().map(Option::is_some), offsets[1]);
    NullableBitBuffer::new(values, (!is_valid).then_some(validity))
}

fn values(of: &NullableBitBuffer) -> Vec<Value> {
    let is_valid = |i| of.validity().is_none_or(|it| it.value(i));
    (0..of.len()).map(|i| is_valid(i).then(|| of.values().value(i))).collect()
}

fn same(of: &NullableBitBuffer, list: &[Value]) {
    let bools = |test: fn(&Value) -> bool| list.iter().map(test).collect::<BitBuffer>();
    assert_eq!(values(of), list);
    assert_eq!(of.null_count(), list.iter().filter(|it| it.is_none()).count());
    assert_eq!(of.is_true(), bools(|it| *it == Some(true)));
    assert_eq!(of.is_not_false(), bools(|it| *it != Some(false)));
    assert_eq!(of.is_null(), bools(Option::is_none));
    assert_eq!(Mask::from_nullable(of), Mask::from(of.is_true()));
}

/// All pairs of three values, at each length and at drawn positions of all four lists.
#[test]
fn tables() {
    let mut drawn = Drawn(94);
    for len in 0..=200 {
        for round in 0..16 {
            let nulls = [round % 4, round / 4];
            let [one, other] = nulls.map(|it| drawn.values(len, it));
            let mut held = |list: &[Value], nulls: u64| {
                let offsets = [0; 2].map(|_: usize| usize::try_from(drawn.below(70)).unwrap());
                held(list, offsets, drawn.below(2) > 0, nulls == 0 && drawn.below(2) > 0)
            };
            let (a, b) = (held(&one, nulls[0]), held(&other, nulls[1]));
            same(&a, &one);
            let pairs = || one.iter().copied().zip(other.iter().copied());
            same(&a.and_kleene(&b), &pairs().map(|(a, b)| and(a, b)).collect::<Vec<_>>());
            same(&a.or_kleene(&b), &pairs().map(|(a, b)| or(a, b)).collect::<Vec<_>>());
            same(&!&a, &one.iter().map(|it| it.map(|it| !it)).collect::<Vec<_>>());
            // De Morgan, and twice the negation
            assert_eq!(values(&!a.and_kleene(&b)), values(&(!&a).or_kleene(&!&b)));
            assert_eq!(values(&!!a.clone()), one);
        }
    }
}

/// Made of a walk and of rows, and printed.
#[test]
fn made() {
    let mut drawn = Drawn(3);
    for len in [0, 1, 2, 63, 64, 65, 127, 128, 129, 1000] {
        let list = drawn.values(len, 5);
        same(&list.iter().copied().collect(), &list);
        same(&NullableBitBuffer::from_rows(&list, |it| *it), &list);
        let bools: Vec<bool> = list.iter().map(|it| *it == Some(true)).collect();
        let valid = NullableBitBuffer::from(BitBuffer::from(&bools[..]));
        assert_eq!((valid.null_count(), valid.is_empty()), (0, len == 0));
        assert_eq!(valid.is_true(), BitBuffer::from(&bools[..]));
    }
    let few: NullableBitBuffer = [Some(true), None, Some(false)].into_iter().collect();
    assert_eq!(format!("{few:?}"), "NullableBitBuffer(1?0)");
    let many: NullableBitBuffer = [None; 65].into_iter().collect();
    assert_eq!(format!("{many:?}"), format!("NullableBitBuffer({}.., len=65)", "?".repeat(64)));
}
