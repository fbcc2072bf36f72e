//! Few bytes as one number, and the bits of a word one by one.
#![allow(clippy::inline_always, reason = "each is a step of loops")]

/// At most eight bytes as one number, the first lowest.
#[inline(always)]
pub(crate) fn number_of(bytes: &[u8]) -> u64 {
    debug_assert!(bytes.len() <= 8);
    if let Ok(eight) = <[u8; 8]>::try_from(bytes) {
        return u64::from_le_bytes(eight);
    }
    match (bytes.first_chunk(), bytes.last_chunk()) {
        // (what is in both is the same)
        (Some(first), Some(last)) => {
            let behind = u64::from(u32::from_le_bytes(*last)) << (8 * (bytes.len() - 4));
            u64::from(u32::from_le_bytes(*first)) | behind
        }
        _ => bytes.iter().rev().fold(0, |number, byte| number << 8 | u64::from(*byte)),
    }
}

/// Calls a function with the place of each set bit, the lowest first.
#[inline(always)]
pub(crate) fn for_each_bit(mut word: u64, mut of: impl FnMut(u32)) {
    while word != 0 {
        of(word.trailing_zeros());
        word &= word - 1;
    }
}

#[cfg(test)]
mod tests {
    /// As by a copy.
    #[test]
    fn few_bytes_are_read() {
        let bytes = [30, 60, 90, 120, 150, 180, 210, 240];
        for count in 0..=8 {
            let mut copy = [0; 8];
            copy[..count].copy_from_slice(&bytes[..count]);
            assert_eq!(super::number_of(&bytes[..count]), u64::from_le_bytes(copy));
        }
    }
}
