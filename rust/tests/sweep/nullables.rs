//! Truth values with nulls combined over bitmaps, beside Kleene's tables written out for one value.

use crate::lists::{Comparisons, Generator, packed};
use row_mask::{Bitmap, BitmapBuf, Error, NullableBitBuffer, NullableBitmap, NullableBitmapBuf};

type Value = Option<bool>;
type Into<R> = fn(NullableBitmap<'_>, NullableBitmap<'_>, &mut R, &mut R) -> Result<(), Error>;
type Made = fn(NullableBitmap<'_>, NullableBitmap<'_>) -> NullableBitmapBuf;
/// A call into bytes, into bitmaps, and anew.
type Call = (Into<[u8]>, Into<BitmapBuf>, Made);

const THREE: [Value; 3] = [Some(true), Some(false), None];

fn and(a: Value, b: Value) -> Value {
    match (a, b) {
        (Some(false), _) | (_, Some(false)) => Some(false),
        (Some(true), Some(true)) => Some(true),
        _ => None,
    }
}

fn or(a: Value, b: Value) -> Value {
    match (a, b) {
        (Some(true), _) | (_, Some(true)) => Some(true),
        (Some(false), Some(false)) => Some(false),
        _ => None,
    }
}

/// A list, the bytes that have its values from a bit on, and those that have its validity, if it has one.
struct Held {
    list: Vec<Value>,
    values: (Vec<u8>, usize),
    validity: Option<(Vec<u8>, usize)>,
}

impl Held {
    /// What stands at a null is random. Where no value is null there may be no validity.
    fn new(random: &mut Generator, list: Vec<Value>, offsets: [usize; 2]) -> Held {
        let filled: Vec<bool> =
            list.iter().map(|it| it.unwrap_or_else(|| random.value(128))).collect();
        let valid: Vec<bool> = list.iter().map(Option::is_some).collect();
        let values = (random.packed(&filled, offsets[0]), offsets[0]);
        let is_without = !valid.contains(&false) && random.value(128);
        let validity = (!is_without).then(|| (random.packed(&valid, offsets[1]), offsets[1]));
        Held { list, values, validity }
    }

    fn bitmap(&self) -> NullableBitmap<'_> {
        let of = |(bytes, offset)| Bitmap::new(bytes, offset, self.list.len()).unwrap();
        let validity = self.validity.as_ref().map(|(bytes, offset)| of((bytes, *offset)));
        NullableBitmap::new(of((&self.values.0, self.values.1)), validity).unwrap()
    }
}

fn parts(list: &[Value]) -> [Vec<bool>; 2] {
    [|it: &Value| *it == Some(true), Option::is_some].map(|of| list.iter().map(of).collect())
}

fn pairs(seen: &mut Comparisons, random: &mut Generator, a: &Held, b: &Held) {
    let (one, other) = (a.bitmap(), b.bitmap());
    let want = |of: fn(Value, Value) -> Value| {
        a.list.iter().zip(&b.list).map(|(a, b)| of(*a, *b)).collect::<Vec<_>>()
    };
    let calls: [Call; 3] = [
        (
            |a, b, v, w| a.and_kleene_into(b, v, w),
            |a, b, v, w| a.and_kleene_into(b, v, w),
            |a, b| a.and_kleene(b).unwrap(),
        ),
        (
            |a, b, v, w| a.or_kleene_into(b, v, w),
            |a, b, v, w| a.or_kleene_into(b, v, w),
            |a, b| a.or_kleene(b).unwrap(),
        ),
        (|a, _, v, w| a.not_into(v, w), |a, _, v, w| a.not_into(v, w), |a, _| !a),
    ];
    let wants = [want(and), want(or), want(|a, _| a.map(|a| !a))];
    for ((bytes, buf, new), want) in calls.into_iter().zip(wants) {
        into_bytes(seen, bytes, (one, other), &want);
        into_bufs(seen, random, buf, (one, other), &want);
        made(seen, &new(one, other), &want);
    }
    reads(seen, one, &a.list);
}

/// Into bytes that are longer, and into just the bytes. Where either is too short, neither is changed.
fn into_bytes(
    seen: &mut Comparisons,
    call: Into<[u8]>,
    (a, b): (NullableBitmap<'_>, NullableBitmap<'_>),
    want: &[Value],
) {
    let size = want.len().div_ceil(8);
    for sizes in [[size + 3, size + 1], [size, size]] {
        let [mut values, mut validity] = sizes.map(|size| vec![0xA5; size]);
        seen.same(call(a, b, &mut values, &mut validity), Ok(()));
        for (out, want) in [values, validity].iter().zip(parts(want)) {
            seen.same(&out[..size], &packed(&want)[..]);
            seen.same(out[size..].iter().all(|it| *it == 0xA5), true);
        }
    }
    if size > 0 {
        for sizes in [[size - 1, size], [size, size - 1]] {
            let [mut values, mut validity] = sizes.map(|size| vec![0xA5; size]);
            let refused = Error::RoomTooSmall { room: size - 1, needed: size };
            seen.same(call(a, b, &mut values, &mut validity), Err(refused));
            seen.same([values, validity].concat().iter().all(|it| *it == 0xA5), true);
        }
    }
}

/// Into bitmaps that had other values.
fn into_bufs(
    seen: &mut Comparisons,
    random: &mut Generator,
    call: Into<BitmapBuf>,
    (a, b): (NullableBitmap<'_>, NullableBitmap<'_>),
    want: &[Value],
) {
    let [mut values, mut validity] = [(); 2].map(|()| {
        let len = random.below(300);
        BitmapBuf::from(&random.list(len, 128)[..])
    });
    seen.same(call(a, b, &mut values, &mut validity), Ok(()));
    for (out, want) in [values, validity].iter().zip(parts(want)) {
        seen.same_list(out, &want);
    }
}

fn made(seen: &mut Comparisons, made: &NullableBitmapBuf, want: &[Value]) {
    let [trues, valid] = parts(want);
    seen.same_list(made.values(), &trues);
    match made.validity() {
        Some(validity) => seen.same_list(validity, &valid),
        None => seen.same(valid.contains(&false), false),
    }
    seen.same(made.null_count(), valid.iter().filter(|it| !**it).count());
}

fn reads(seen: &mut Comparisons, it: NullableBitmap<'_>, list: &[Value]) {
    let bools = |test: fn(&Value) -> bool| list.iter().map(test).collect::<Vec<_>>();
    seen.same_list(&it.is_true(), &bools(|it| *it == Some(true)));
    seen.same_list(&it.is_not_false(), &bools(|it| *it != Some(false)));
    seen.same_list(&it.is_null(), &bools(Option::is_none));
    seen.same(it.null_count(), list.iter().filter(|it| it.is_none()).count());
    seen.same((it.len(), it.is_empty()), (list.len(), list.is_empty()));
    seen.same(it.get(list.len()), None);
    seen.same((0..list.len()).all(|i| it.get(i) == Some(list[i])), true);
}

/// The nine pairs of true, false and null, at each length and at each offset of the four lists.
#[test]
fn tables_at_lengths_and_offsets() {
    let (mut seen, mut random) = (Comparisons::default(), Generator(3));
    for len in 0..=200 {
        for at in 0..64 {
            let (i, j) = (at % 8, at / 8);
            let one = (0..len).map(|k| THREE[(k + at) % 3]).collect();
            let other = (0..len).map(|k| THREE[(k + at) / 3 % 3]).collect();
            let a = Held::new(&mut random, one, [i, (i + j) % 8]);
            let b = Held::new(&mut random, other, [j, (i + 3 * j) % 8]);
            pairs(&mut seen, &mut random, &a, &b);
        }
    }
    println!("{} comparisons of tables with nulls", seen.0);
    assert!(seen.0 > 700_000, "{}", seen.0);
}

/// With few nulls or many, or none and then often no validity.
#[test]
fn a_million_pairs() {
    let (mut seen, mut random, mut pairs_seen) = (Comparisons::default(), Generator(4), 0);
    while pairs_seen < 1_000_000 {
        let len = [random.below(200), random.below(3000)][random.below(2)];
        let [a, b] = [(); 2].map(|()| {
            let (nulls, share) =
                ([0, 3, 128, 256][random.below(4)], [3, 128, 253][random.below(3)]);
            let list = (0..len).map(|_| (!random.value(nulls)).then(|| random.value(share)));
            let list = list.collect();
            let offsets = [random.below(70), random.below(70)];
            Held::new(&mut random, list, offsets)
        });
        pairs(&mut seen, &mut random, &a, &b);
        pairs_seen += len;
    }
    println!("{} comparisons of {pairs_seen} pairs with nulls", seen.0);
}

#[test]
fn differing_lengths_are_refused() {
    let (three, four) = ([0b101], [0b1011]);
    let (a, b) = (Bitmap::new(&three, 0, 3).unwrap(), Bitmap::new(&four, 0, 4).unwrap());
    let refused = Some(Error::LengthsDiffer { left: 3, right: 4 });
    assert_eq!(NullableBitmap::new(a, Some(b)).err(), refused);
    assert_eq!(NullableBitmapBuf::new(a.to_buf(), Some(b.to_buf())).err(), refused);
    let (one, other) = (NullableBitmap::from(a), NullableBitmap::from(b));
    assert_eq!(one.and_kleene(other).err(), refused);
    assert_eq!(one.or_kleene(other).err(), refused);
    let (mut values, mut validity) = (b.to_buf(), [0xA5; 1]);
    assert_eq!(one.and_kleene_into(other, &mut values, &mut validity[..]).err(), refused);
    assert_eq!(one.or_kleene_into(other, &mut values, &mut validity[..]).err(), refused);
    assert_eq!((values, validity), (b.to_buf(), [0xA5]));
}

/// The first room is left as it was where the second is too small, of whatever kind it is.
#[test]
fn a_bitmap_is_kept_beside_bytes_that_are_too_few() {
    let nulls = NullableBitmap::from(Bitmap::new(&[0xFF, 0xFF], 0, 9).unwrap());
    let (mut values, mut validity) = (BitmapBuf::all_true(3), [0xA5; 1]);
    let refused = Err(Error::RoomTooSmall { room: 1, needed: 2 });
    assert_eq!(nulls.or_kleene_into(nulls, &mut values, &mut validity[..]), refused);
    assert_eq!(nulls.not_into(&mut values, &mut validity[..]), refused);
    assert_eq!((values, validity), (BitmapBuf::all_true(3), [0xA5]));
}

/// Converted to a buffer and back, and printed.
#[test]
fn converted() {
    let mut random = Generator(5);
    for len in [0, 1, 9, 64, 65, 127, 128, 129, 1000] {
        for nulls in [0, 128] {
            let list: Vec<Value> =
                (0..len).map(|_| (!random.value(nulls)).then(|| random.value(128))).collect();
            let held = Held::new(&mut random, list.clone(), [3, 6]);
            let text: String =
                list.iter().map(|it| it.map_or('?', |it| b"01"[usize::from(it)].into())).collect();
            let owned = NullableBitmapBuf::from(held.bitmap());
            assert_eq!([owned.to_string(), held.bitmap().to_string()], [&text[..]; 2]);
            let at = owned.values().as_bytes().as_ptr();
            let buffer = NullableBitBuffer::from(owned);
            assert_eq!(NullableBitmap::from(&buffer).to_string(), text);
            let back = NullableBitmapBuf::from(buffer);
            assert_eq!(back.to_string(), text);
            assert!(len <= 128 || back.values().as_bytes().as_ptr() == at);
            assert_eq!(list.into_iter().collect::<NullableBitmapBuf>().to_string(), text);
        }
    }
    let many: NullableBitmapBuf = [None; 65].into_iter().collect();
    let said = format!("NullableBitmapBuf({}.., len=65)", "?".repeat(64));
    assert_eq!(format!("{many:?}"), said);
    assert_eq!(format!("{:?}", many.as_bitmap()), said.replace("Buf", ""));
}
