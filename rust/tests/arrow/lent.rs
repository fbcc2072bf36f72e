//! Columns that are lent, made of plain lists, and such lists of columns that were made.

use row_mask::arrow::{ArrowArray, ArrowSchema};
use std::ffi::{CString, c_void};
use std::ptr::{null, null_mut};

pub const FORMATS: [&str; 47] = [
    "c",
    "C",
    "s",
    "S",
    "e",
    "i",
    "I",
    "f",
    "l",
    "L",
    "g",
    "tdD",
    "tdm",
    "tts",
    "ttm",
    "ttu",
    "ttn",
    "tss:",
    "tsm:UTC",
    "tsu:",
    "tsn:+01:00",
    "tDs",
    "tDm",
    "tDu",
    "tDn",
    "tiM",
    "tiD",
    "tin",
    "w:1",
    "w:2",
    "w:3",
    "w:4",
    "w:8",
    "w:16",
    "w:37",
    "d:9,2,32",
    "d:18,2,64",
    "d:19,10",
    "d:19,10,128",
    "d:40,-3,256",
    "d:5,0",
    "b",
    "u",
    "z",
    "U",
    "Z",
    "+s",
];

/// The bytes of a row, or none where it is null. A bit is a byte here, and a row of a struct has no bytes.
pub type Value = Option<Vec<u8>>;

pub struct Random(pub u64);

impl Random {
    pub fn number(&mut self) -> u64 {
        self.0 ^= self.0 << 13;
        self.0 ^= self.0 >> 7;
        self.0 ^= self.0 << 17;
        self.0
    }

    pub fn below(&mut self, end: usize) -> usize {
        (self.number() % end as u64) as usize
    }

    fn bytes(&mut self, count: usize) -> Vec<u8> {
        (0..count).map(|_| self.number() as u8).collect()
    }
}

/// How wide rows are, as the page of Arrow says.
fn width(format: &str) -> usize {
    match format {
        "c" | "C" => 1,
        "s" | "S" | "e" => 2,
        "i" | "I" | "f" | "tdD" | "tts" | "ttm" | "tiM" => 4,
        "tin" | "d:19,10" | "d:5,0" => 16,
        _ => match format.split_once(':') {
            Some(("w", width)) => width.parse().unwrap(),
            Some(("d", decimal)) => {
                decimal.rsplit(',').next().unwrap().parse::<usize>().unwrap() / 8
            }
            _ => 8,
        },
    }
}

/// How many bytes an offset of strings has.
fn offset_width(format: &str) -> Option<usize> {
    match format {
        "u" | "z" => Some(4),
        "U" | "Z" => Some(8),
        _ => None,
    }
}

/// The callback of a schema whose memory is a test's.
pub unsafe extern "C" fn release_schema(schema: *mut ArrowSchema) {
    // SAFETY: it is there.
    unsafe { (*schema).release = None };
}

/// The same of an array.
pub unsafe extern "C" fn release_array(array: *mut ArrowArray) {
    // SAFETY: it is there.
    unsafe { (*array).release = None };
}

/// What a column lends. Its structs point to lists that it has, so it can be moved, and its children stay.
pub struct Column {
    pub format: &'static str,
    /// The rows from the array's offset on.
    pub values: Vec<Value>,
    pub schema: ArrowSchema,
    pub array: ArrowArray,
    pub children: Vec<Column>,
    texts: [CString; 2],
    // (in numbers of 16 bytes, so that they are aligned)
    memory: Vec<Vec<u128>>,
    starts: Vec<*const c_void>,
    schemas: Vec<*mut ArrowSchema>,
    arrays: Vec<*mut ArrowArray>,
}

impl Column {
    /// Nulls are told by no bitmap, by their number, by a bitmap alone, or there are none in the bitmap.
    pub fn new(
        random: &mut Random,
        format: &'static str,
        len: usize,
        offset: usize,
        nulls: usize,
    ) -> Column {
        let end = offset + len;
        let has_nulls = nulls == 1 || nulls == 2;
        let mut all: Vec<Value> = (0..end)
            .map(|_| {
                let size = match format {
                    "+s" => 0,
                    "b" => 1,
                    _ if offset_width(format).is_some() => {
                        random.below(4).min(1) * random.below(20)
                    }
                    _ => width(format),
                };
                let mut bytes = random.bytes(size);
                bytes.iter_mut().filter(|_| format == "b").for_each(|byte| *byte %= 2);
                (!has_nulls || random.below(3) > 0).then_some(bytes)
            })
            .collect();
        let mut buffers = vec![validity(&all, nulls)];
        buffers.extend(buffers_of(random, format, &all));
        let children = if format == "+s" { children(random, end) } else { Vec::new() };
        let null_count = all[offset..].iter().filter(|value| value.is_none()).count();
        let null_count = if nulls == 2 { -1 } else { null_count as i64 };
        all.drain(..offset);
        let mut made = Column::empty(format, all, children);
        (made.array.length, made.array.offset) = (len as i64, offset as i64);
        made.array.null_count = null_count;
        made.memory =
            buffers.iter().map(|bytes| aligned(bytes.as_deref().unwrap_or_default())).collect();
        made.starts = made.memory.iter().map(|memory| memory.as_ptr().cast()).collect();
        for (start, bytes) in made.starts.iter_mut().zip(&buffers) {
            if bytes.is_none() || end == 0 {
                *start = null();
            }
        }
        made.connect();
        made
    }

    fn empty(format: &'static str, values: Vec<Value>, children: Vec<Column>) -> Column {
        let schema = ArrowSchema {
            format: null(),
            name: null(),
            metadata: null(),
            flags: 2,
            n_children: children.len() as i64,
            children: null_mut(),
            dictionary: null_mut(),
            release: Some(release_schema),
            private_data: null_mut(),
        };
        let array = ArrowArray {
            length: 0,
            null_count: 0,
            offset: 0,
            n_buffers: 0,
            n_children: children.len() as i64,
            buffers: null_mut(),
            children: null_mut(),
            dictionary: null_mut(),
            release: Some(release_array),
            private_data: null_mut(),
        };
        let texts = [CString::new(format).unwrap(), CString::new("a").unwrap()];
        let (memory, starts, schemas, arrays) = (Vec::new(), Vec::new(), Vec::new(), Vec::new());
        Column { format, values, schema, array, children, texts, memory, starts, schemas, arrays }
    }

    /// Has the structs point to what the column has.
    fn connect(&mut self) {
        self.schemas = self.children.iter_mut().map(|child| &raw mut child.schema).collect();
        self.arrays = self.children.iter_mut().map(|child| &raw mut child.array).collect();
        (self.schema.format, self.schema.name) = (self.texts[0].as_ptr(), self.texts[1].as_ptr());
        self.schema.children = self.schemas.as_mut_ptr();
        self.array.children = self.arrays.as_mut_ptr();
        self.array.n_buffers = self.starts.len() as i64;
        self.array.buffers = self.starts.as_mut_ptr();
    }

    pub fn offset(&self) -> usize {
        self.array.offset as usize
    }

    /// Another format, which the buffers don't fit.
    pub fn set_format(&mut self, format: &str) {
        self.texts[0] = CString::new(format).unwrap();
        self.connect();
    }

    pub fn set_start(&mut self, buffer: usize, start: *const c_void) -> *const c_void {
        std::mem::replace(&mut self.starts[buffer], start)
    }

    /// Moves the rows one byte on.
    pub fn move_rows(&mut self) {
        let old = &self.memory[1];
        // SAFETY: numbers are bytes.
        let (_, bytes, _) = unsafe { old.align_to::<u8>() };
        let moved = aligned(&[&[0], bytes].concat());
        self.starts[1] = moved.as_ptr().cast::<u8>().wrapping_add(1).cast();
        self.memory[1] = moved;
    }

    /// Each offset is this number.
    pub fn make_strings_empty(&mut self, offset: u64) {
        let width = offset_width(self.format).unwrap();
        let end = self.offset() + self.values.len();
        let bytes: Vec<u8> = (0..=end).flat_map(|_| offset.to_ne_bytes_of(width)).collect();
        self.memory[1] = aligned(&bytes);
        (self.starts[1], self.starts[2]) = (self.memory[1].as_ptr().cast(), null());
        self.values.fill(Some(Vec::new()));
    }

    /// Writes an offset of strings.
    pub fn set_offset(&mut self, i: usize, offset: u64) {
        let width = offset_width(self.format).unwrap();
        // SAFETY: numbers are bytes, and these are of the column.
        let (_, bytes, _) = unsafe { self.memory[1].align_to_mut::<u8>() };
        bytes[width * i..][..width].copy_from_slice(&offset.to_ne_bytes_of(width));
    }
}

/// The bytes of a number as the machine has them, of so many of its low bytes.
trait NativeBytes {
    fn to_ne_bytes_of(self, width: usize) -> Vec<u8>;
}

impl NativeBytes for u64 {
    fn to_ne_bytes_of(self, width: usize) -> Vec<u8> {
        if width == 4 { (self as u32).to_ne_bytes().to_vec() } else { self.to_ne_bytes().to_vec() }
    }
}

fn aligned(bytes: &[u8]) -> Vec<u128> {
    let mut memory = vec![0; bytes.len() / 16 + 1];
    // SAFETY: numbers are bytes.
    let (_, room, _) = unsafe { memory.align_to_mut::<u8>() };
    room[..bytes.len()].copy_from_slice(bytes);
    memory
}

fn packed(bits: impl Iterator<Item = bool>) -> Vec<u8> {
    let bits: Vec<bool> = bits.collect();
    bits.chunks(8)
        .map(|eight| eight.iter().rev().fold(0, |byte, bit| byte << 1 | u8::from(*bit)))
        .collect()
}

fn validity(values: &[Value], nulls: usize) -> Option<Vec<u8>> {
    (nulls > 0).then(|| packed(values.iter().map(Option::is_some)))
}

/// The buffers behind the validity. What a null has there is random.
fn buffers_of(random: &mut Random, format: &str, values: &[Value]) -> Vec<Option<Vec<u8>>> {
    if format == "+s" {
        return Vec::new();
    }
    if format == "b" {
        return vec![Some(packed(
            values.iter().map(|value| value.as_ref().is_some_and(|it| it[0] == 1)),
        ))];
    }
    let Some(width_of_offset) = offset_width(format) else {
        let rows = values
            .iter()
            .flat_map(|value| value.clone().unwrap_or_else(|| random.bytes(width(format))));
        return vec![Some(rows.collect())];
    };
    let mut bytes = random.bytes(7);
    let mut offsets = (bytes.len() as u64).to_ne_bytes_of(width_of_offset);
    for value in values {
        bytes.extend(value.as_deref().unwrap_or(b"null"));
        offsets.extend((bytes.len() as u64).to_ne_bytes_of(width_of_offset));
    }
    vec![Some(offsets), Some(bytes)]
}

/// The columns of a struct with so many rows, some of which have more.
fn children(random: &mut Random, len: usize) -> Vec<Column> {
    let flat = FORMATS.iter().filter(|format| **format != "+s").copied().collect::<Vec<_>>();
    (0..8)
        .map(|_| {
            let format = flat[random.below(flat.len())];
            let (more, offset, nulls) = (random.below(3), random.below(10), random.below(4));
            Column::new(random, format, len + more, offset, nulls)
        })
        .collect()
}

/// The rows of an array that was made.
pub fn values_of(format: &str, made: &ArrowArray) -> Vec<Value> {
    let len = made.length as usize;
    // SAFETY: the array is as Arrow says.
    let start = |buffer| unsafe { *made.buffers.add(buffer) }.cast::<u8>();
    let bytes = |buffer, from: usize, count| match count {
        0 => &[][..],
        // SAFETY: there are so many.
        _ => unsafe { std::slice::from_raw_parts(start(buffer).wrapping_add(from), count) },
    };
    let bit = |buffer, i: usize| bytes(buffer, i / 8, 1)[0] >> (i % 8) & 1;
    let offset = |i| match offset_width(format) {
        Some(4) => u32::from_ne_bytes(bytes(1, 4 * i, 4).try_into().unwrap()) as usize,
        _ => u64::from_ne_bytes(bytes(1, 8 * i, 8).try_into().unwrap()) as usize,
    };
    let value = |i| match format {
        "+s" => Vec::new(),
        "b" => vec![bit(1, i)],
        _ if offset_width(format).is_some() => {
            bytes(2, offset(i), offset(i + 1) - offset(i)).to_vec()
        }
        _ => bytes(1, width(format) * i, width(format)).to_vec(),
    };
    if offset_width(format).is_some() {
        assert_eq!(offset(0), 0);
    }
    (0..len).map(|i| (start(0).is_null() || bit(0, i) == 1).then(|| value(i))).collect()
}
