//! What the text of a format says of a column's buffers.

/// What is in the buffers of an array, behind its validity.
#[derive(Clone, Copy, PartialEq, Eq)]
pub(super) enum Format {
    Bits,
    /// Rows of so many bytes.
    Rows(usize),
    /// Offsets of 4 bytes, and bytes.
    Strings,
    /// Offsets of 8 bytes, and bytes.
    LargeStrings,
    /// Views of 16 bytes, any number of buffers that they are of, and the sizes of these.
    Views,
    /// Offsets of 4 bytes, and a child.
    Lists,
    /// Offsets of 8 bytes, and a child.
    LargeLists,
    /// No buffer, but children.
    Struct,
}

impl Format {
    pub(super) fn of(text: &[u8]) -> Option<Format> {
        Some(match text {
            b"b" => Format::Bits,
            b"u" | b"z" => Format::Strings,
            b"U" | b"Z" => Format::LargeStrings,
            b"vu" | b"vz" => Format::Views,
            b"+l" => Format::Lists,
            b"+L" => Format::LargeLists,
            b"+s" => Format::Struct,
            _ => Format::Rows(width(text)?),
        })
    }

    /// Whether an array may have so many buffers, that of validity among them.
    pub(super) fn takes_buffers(self, count: i64) -> bool {
        match self {
            Format::Struct => count == 1,
            Format::Bits | Format::Rows(_) | Format::Lists | Format::LargeLists => count == 2,
            Format::Strings | Format::LargeStrings => count == 3,
            Format::Views => (3..=i64::from(i32::MAX)).contains(&count),
        }
    }

    /// The same of children.
    pub(super) fn takes_children(self, count: i64) -> bool {
        match self {
            Format::Struct => count >= 0,
            Format::Lists | Format::LargeLists => count == 1,
            _ => count == 0,
        }
    }

    /// How many bytes the buffer behind the validity has for so many values, if memory can have as many.
    pub(super) fn size(self, values: usize) -> Option<usize> {
        let size = match self {
            Format::Struct => Some(0),
            Format::Bits => Some(values.div_ceil(8)),
            Format::Rows(width) => values.checked_mul(width),
            Format::Views => values.checked_mul(16),
            Format::Strings | Format::Lists => values.checked_add(1)?.checked_mul(4),
            Format::LargeStrings | Format::LargeLists => values.checked_add(1)?.checked_mul(8),
        };
        size.filter(|size| isize::try_from(*size).is_ok())
    }
}

fn width(text: &[u8]) -> Option<usize> {
    Some(match text {
        b"c" | b"C" => 1,
        b"s" | b"S" | b"e" => 2,
        b"i" | b"I" | b"f" | b"tdD" | b"tts" | b"ttm" | b"tiM" => 4,
        b"l"
        | b"L"
        | b"g"
        | b"tdm"
        | b"ttu"
        | b"ttn"
        | b"tiD"
        | b"tDs"
        | b"tDm"
        | b"tDu"
        | b"tDn"
        | [b't', b's', b's' | b'm' | b'u' | b'n', b':', ..] => 8,
        b"tin" => 16,
        [b'w', b':', digits @ ..] => positive(digits)?,
        [b'd', b':', decimal @ ..] => width_of_decimal(decimal)?,
        _ => return None,
    })
}

/// `19,10` has 16 bytes, and `19,10,N` has N bits. The second number may be negative.
fn width_of_decimal(text: &[u8]) -> Option<usize> {
    let mut numbers = text.split(|byte| *byte == b',');
    let (_precision, scale) = (positive(numbers.next()?)?, numbers.next()?);
    number(scale.strip_prefix(b"-").unwrap_or(scale))?;
    let bits = numbers.next().map_or(Some(128), positive)?;
    let is_known = numbers.next().is_none() && [32, 64, 128, 256].contains(&bits);
    is_known.then_some(bits / 8)
}

/// A number above 0, with no 0 in front.
fn positive(digits: &[u8]) -> Option<usize> {
    number(digits).filter(|_| digits.first() != Some(&b'0'))
}

/// A number of 31 bits, of digits alone.
fn number(digits: &[u8]) -> Option<usize> {
    let text = str::from_utf8(digits).ok().filter(|_| digits.iter().all(u8::is_ascii_digit))?;
    text.parse::<i32>().ok()?.try_into().ok()
}
