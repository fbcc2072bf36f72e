//! Columns whose arrays own what they have, made of plain lists, and such lists of arrays.

use super::lent::Random;
use row_mask::arrow::{ArrowArray, ArrowSchema};
use std::cell::Cell;
use std::ffi::{CString, c_void};
use std::ops::Range;
use std::ptr::{null, null_mut};

/// What is in a row. Keys have what they stand for, and strings are bytes.
#[derive(Clone, Debug, PartialEq)]
pub enum Item {
    Null,
    Bytes(Vec<u8>),
    Items(Vec<Item>),
}

/// Flat ones first, and behind them those that have others. A dictionary is told by its keys.
pub const FORMATS: [&str; 18] = [
    "i", "b", "u", "Z", "w:3", "vu", "vz", "+l", "+L", "+s", "c", "C", "s", "S", "i", "I", "l", "L",
];
pub const FLAT: usize = 7;
pub const KEYS: usize = 10;

// ---- arrays that own what they have ----

thread_local! {
    /// How many arrays were made and not released.
    static ARRAYS: Cell<usize> = const { Cell::new(0) };
}

pub fn arrays() -> usize {
    ARRAYS.get()
}

/// What an array has, at its private data. (Buffers are numbers of 16 bytes, so that they are aligned.)
#[derive(Default)]
struct Owned {
    buffers: Vec<Option<Vec<u128>>>,
    starts: Vec<*const c_void>,
    children: Vec<*mut ArrowArray>,
}

unsafe extern "C" fn release_array(array: *mut ArrowArray) {
    // SAFETY: it was made below, and is released once.
    unsafe {
        let owned = Box::from_raw((*array).private_data.cast::<Owned>());
        let dictionary = Some((*array).dictionary).filter(|it| !it.is_null());
        for other in owned.children.iter().copied().chain(dictionary) {
            Box::from_raw(other).release();
        }
        (*array).release = None;
    }
    ARRAYS.set(ARRAYS.get() - 1);
}

unsafe extern "C" fn release_schema(schema: *mut ArrowSchema) {
    // SAFETY: it is there.
    unsafe { (*schema).release = None };
}

/// A schema, and what it points to.
pub struct Type {
    pub schema: Box<ArrowSchema>,
    format: CString,
    pub children: Vec<Type>,
    _places: Vec<*mut ArrowSchema>,
    pub dictionary: Option<Box<Type>>,
}

impl Type {
    fn new(format: &str, mut children: Vec<Type>, mut dictionary: Option<Box<Type>>) -> Type {
        let format = CString::new(format).unwrap();
        let mut places: Vec<_> = children.iter_mut().map(|it| &raw mut *it.schema).collect();
        let schema = Box::new(ArrowSchema {
            format: format.as_ptr(),
            name: c"a".as_ptr(),
            metadata: null(),
            flags: 2,
            n_children: places.len() as i64,
            children: places.as_mut_ptr(),
            dictionary: dictionary.as_mut().map_or(null_mut(), |it| &raw mut *it.schema),
            release: Some(release_schema),
            private_data: null_mut(),
        });
        Type { schema, format, children, _places: places, dictionary }
    }

    pub fn format(&self) -> &str {
        self.format.to_str().unwrap()
    }
}

pub struct Column {
    pub kind: Type,
    pub array: ArrowArray,
    pub items: Vec<Item>,
}

fn aligned(bytes: &[u8]) -> Vec<u128> {
    let mut memory = vec![0_u128; bytes.len() / 16 + 1];
    // SAFETY: numbers are bytes.
    let (_, room, _) = unsafe { memory.align_to_mut::<u8>() };
    room[..bytes.len()].copy_from_slice(bytes);
    memory
}

fn packed(bits: &[bool]) -> Vec<u8> {
    let byte = |eight: &[bool]| eight.iter().rev().fold(0, |byte, bit| byte << 1 | u8::from(*bit));
    bits.chunks(8).map(byte).collect()
}

fn width(format: &str) -> usize {
    match format {
        "c" | "C" => 1,
        "s" | "S" => 2,
        "w:3" => 3,
        "l" | "L" | "Z" | "+L" => 8,
        _ => 4,
    }
}

/// Numbers of so many bytes.
fn numbers(numbers: impl IntoIterator<Item = usize>, width: usize) -> Vec<u8> {
    let bytes = |number: usize| match width {
        1 => vec![number as u8],
        2 => (number as u16).to_ne_bytes().to_vec(),
        4 => (number as u32).to_ne_bytes().to_vec(),
        _ => (number as u64).to_ne_bytes().to_vec(),
    };
    numbers.into_iter().flat_map(bytes).collect()
}

/// What a column is made of.
#[derive(Default)]
struct Parts {
    buffers: Vec<Option<Vec<u8>>>,
    children: Vec<Column>,
    dictionary: Option<Column>,
    items: Vec<Item>,
}

impl Random {
    fn list(&mut self, count: usize) -> Vec<u8> {
        (0..count).map(|_| self.number() as u8).collect()
    }

    /// Deep columns have no others in them.
    fn format(&mut self, depth: usize) -> usize {
        self.below(if depth > 2 { FLAT } else { FORMATS.len() })
    }
}

fn views(random: &mut Random, end: usize) -> Parts {
    let mut bytes: Vec<Vec<u8>> = Vec::new();
    for _ in 0..random.below(4) {
        let size = random.below(3).min(1) * (20 + random.below(60));
        bytes.push(random.list(size));
    }
    let (mut views, mut items) = (Vec::new(), Vec::new());
    for _ in 0..end {
        let buffer = random.below(3);
        let of = bytes.get(buffer).filter(|bytes| !bytes.is_empty());
        let item = if let Some(bytes) = of.filter(|_| random.below(2) == 0) {
            let size = 13 + random.below(bytes.len() - 12);
            let at = random.below(bytes.len() - size + 1);
            views.extend(numbers([size], 4));
            views.extend(&bytes[at..at + 4]);
            views.extend(numbers([buffer, at], 4));
            bytes[at..at + size].to_vec()
        } else {
            let (size, bytes) = (random.below(13), random.list(12));
            views.extend(numbers([size], 4));
            views.extend(&bytes);
            bytes[..size].to_vec()
        };
        items.push(Item::Bytes(item));
    }
    let sizes = (!bytes.is_empty()).then(|| numbers(bytes.iter().map(Vec::len), 8));
    let mut buffers = vec![Some(views)];
    buffers.extend(bytes.into_iter().map(|bytes| Some(bytes).filter(|it| !it.is_empty())));
    buffers.push(sizes);
    Parts { buffers, items, ..Parts::default() }
}

/// Where each of so many rows begins, and the last one ends.
fn offsets(random: &mut Random, end: usize, longest: usize) -> Vec<usize> {
    let mut made = vec![random.below(5)];
    for i in 0..end {
        made.push(made[i] + random.below(3).min(1) * random.below(longest));
    }
    made
}

fn parts(random: &mut Random, format: usize, end: usize, depth: usize) -> Parts {
    let it = FORMATS[format];
    let child = |random: &mut Random, len| {
        let (format, more) = (random.format(depth), random.below(3));
        make(random, format, len + more, depth + 1)
    };
    if format >= KEYS {
        let len = random.below(100);
        let values = child(random, 1 + len);
        let keys: Vec<_> = (0..end).map(|_| random.below(values.items.len())).collect();
        let items = keys.iter().map(|key| values.items[*key].clone()).collect();
        let buffers = vec![Some(numbers(keys, width(it)))];
        return Parts { buffers, items, dictionary: Some(values), ..Parts::default() };
    }
    let runs = |offsets: &[usize]| offsets.windows(2).map(|w| w[0]..w[1]).collect::<Vec<_>>();
    match it {
        "vu" | "vz" => views(random, end),
        "+l" | "+L" => {
            let offsets = offsets(random, end, 5);
            let child = child(random, offsets[end]);
            let list = |run: Range<usize>| Item::Items(child.items[run].to_vec());
            let items = runs(&offsets).into_iter().map(list).collect();
            let buffers = vec![Some(numbers(offsets, width(it)))];
            Parts { buffers, items, children: vec![child], ..Parts::default() }
        }
        "+s" => {
            let children: Vec<_> = (0..4).map(|_| child(random, end)).collect();
            let row = |i: usize| children.iter().map(|child| child.items[i].clone()).collect();
            let items = (0..end).map(|i| Item::Items(row(i))).collect();
            Parts { children, items, ..Parts::default() }
        }
        "u" | "Z" => {
            let offsets = offsets(random, end, 20);
            let bytes = random.list(offsets[end]);
            let item = |run: Range<usize>| Item::Bytes(bytes[run].to_vec());
            let items = runs(&offsets).into_iter().map(item).collect();
            let buffers = vec![Some(numbers(offsets, width(it))), Some(bytes)];
            Parts { buffers, items, ..Parts::default() }
        }
        "b" => {
            let bits: Vec<bool> = (0..end).map(|_| random.below(2) == 1).collect();
            let items = bits.iter().map(|bit| Item::Bytes(vec![u8::from(*bit)])).collect();
            Parts { buffers: vec![Some(packed(&bits))], items, ..Parts::default() }
        }
        _ => {
            let rows = random.list(end * width(it));
            let items = rows.chunks(width(it)).map(|row| Item::Bytes(row.to_vec())).collect();
            Parts { buffers: vec![Some(rows)], items, ..Parts::default() }
        }
    }
}

/// A column of a format, whose array owns what it has.
pub fn make(random: &mut Random, format: usize, len: usize, depth: usize) -> Column {
    let offset = random.below(3).min(1) * random.below(20);
    let Parts { mut buffers, children, dictionary, mut items } =
        parts(random, format, offset + len, depth);
    let has_nulls = random.below(3) > 0;
    let nulls: Vec<bool> = items.iter().map(|_| has_nulls && random.below(3) == 0).collect();
    for (item, _) in items.iter_mut().zip(&nulls).filter(|(_, is_null)| **is_null) {
        *item = Item::Null;
    }
    let valid: Vec<bool> = nulls.iter().map(|is_null| !is_null).collect();
    buffers.insert(0, has_nulls.then(|| packed(&valid)));
    items.drain(..offset);
    let (types, places) = children
        .into_iter()
        .map(|it| (it.kind, Box::into_raw(Box::new(it.array))))
        .collect::<(Vec<_>, Vec<_>)>();
    let (values_type, values) = match dictionary {
        Some(it) => (Some(Box::new(it.kind)), Box::into_raw(Box::new(it.array))),
        None => (None, null_mut()),
    };
    let mut owned = Box::new(Owned { children: places, ..Owned::default() });
    owned.buffers = buffers.iter().map(|it| it.as_ref().map(|it| aligned(it))).collect();
    let start = |it: &Option<Vec<u128>>| it.as_ref().map_or(null(), |it| it.as_ptr().cast());
    owned.starts = owned.buffers.iter().map(start).collect();
    ARRAYS.set(ARRAYS.get() + 1);
    let array = ArrowArray {
        length: len as i64,
        null_count: if has_nulls { -1 } else { 0 },
        offset: offset as i64,
        n_buffers: owned.starts.len() as i64,
        n_children: owned.children.len() as i64,
        buffers: owned.starts.as_mut_ptr(),
        children: owned.children.as_mut_ptr(),
        dictionary: values,
        release: Some(release_array),
        private_data: Box::into_raw(owned).cast(),
    };
    Column { kind: Type::new(FORMATS[format], types, values_type), array, items }
}

// ---- what is in an array ----

struct Read<'a> {
    format: &'a str,
    array: &'a ArrowArray,
}

impl Read<'_> {
    fn bytes(&self, buffer: usize, from: usize, count: usize) -> &[u8] {
        if count == 0 {
            return &[];
        }
        // SAFETY: the array is as Arrow says.
        unsafe {
            let start = (*self.array.buffers.add(buffer)).cast::<u8>();
            std::slice::from_raw_parts(start.add(from), count)
        }
    }

    fn number(&self, buffer: usize, width: usize, i: usize) -> usize {
        let bytes = self.bytes(buffer, width * i, width);
        match width {
            1 => bytes[0].into(),
            2 => u16::from_ne_bytes(bytes.try_into().unwrap()).into(),
            4 => u32::from_ne_bytes(bytes.try_into().unwrap()) as usize,
            _ => u64::from_ne_bytes(bytes.try_into().unwrap()) as usize,
        }
    }

    fn bit(&self, buffer: usize, i: usize) -> bool {
        self.bytes(buffer, i / 8, 1)[0] >> (i % 8) & 1 == 1
    }

    fn view(&self, i: usize) -> &[u8] {
        let size = self.number(1, 4, 4 * i);
        if size <= 12 {
            return self.bytes(1, 16 * i + 4, size);
        }
        let (buffer, at) = (self.number(1, 4, 4 * i + 2), self.number(1, 4, 4 * i + 3));
        let last = self.array.n_buffers as usize - 1;
        assert!(buffer + 2 < last && at + size <= self.number(last, 8, buffer));
        let bytes = self.bytes(2 + buffer, at, size);
        assert_eq!(bytes[..4], *self.bytes(1, 16 * i + 4, 4));
        bytes
    }

    /// What is in row `i`, counted from the front of the buffers.
    fn item(&self, i: usize, values: &[Item], children: &[Vec<Item>]) -> Item {
        // SAFETY: there is a buffer for the validity.
        let has_validity = unsafe { !(*self.array.buffers).is_null() };
        let run = || {
            let width = width(self.format);
            self.number(1, width, i)..self.number(1, width, i + 1)
        };
        match self.format {
            _ if has_validity && self.array.null_count != 0 && !self.bit(0, i) => Item::Null,
            _ if !values.is_empty() => values[self.number(1, width(self.format), i)].clone(),
            "vu" | "vz" => Item::Bytes(self.view(i).to_vec()),
            "+l" | "+L" => Item::Items(children[0][run()].to_vec()),
            "+s" => Item::Items(children.iter().map(|it| it[i].clone()).collect()),
            "u" | "Z" => Item::Bytes(self.bytes(2, run().start, run().len()).to_vec()),
            "b" => Item::Bytes(vec![u8::from(self.bit(1, i))]),
            it => Item::Bytes(self.bytes(1, width(it) * i, width(it)).to_vec()),
        }
    }
}

/// The rows of an array.
pub fn items_of(kind: &Type, array: &ArrowArray) -> Vec<Item> {
    // SAFETY: there are as many children as the schema says.
    let child = |i: usize| unsafe { &**array.children.add(i) };
    let children: Vec<_> =
        kind.children.iter().enumerate().map(|(i, kind)| items_of(kind, child(i))).collect();
    let values = kind.dictionary.as_ref().map_or(Vec::new(), |kind| {
        // SAFETY: it is there.
        items_of(kind, unsafe { &*array.dictionary })
    });
    let read = Read { format: kind.format(), array };
    let from = array.offset as usize;
    (from..from + array.length as usize).map(|i| read.item(i, &values, &children)).collect()
}
