//! Document 02's request 06, "Eight plain bytes at a time".
//!
//! "Wherever the UTF-8 check stands at a character's start and the next eight
//! bytes are all below 80 hex, it shall pass over them in one step, else over
//! one character. Beside its answer it gives the exact number of such eights up
//! to where it stops."
//!
//! What a character is, is RFC 3629's to say: "no surrogates, no overlong
//! forms, nothing above U+10FFFF". Here its number is put together from its
//! bytes, and then judged. For refusal 2 the reader keeps Rust's own check; the
//! tests hold this one against it.

/// What the check answers.
#[derive(Debug, Clone, Copy, PartialEq, Eq)]
pub struct Checked {
    /// "length of the longest valid front"; all bytes, if all are UTF-8.
    pub front: usize,
    /// "the exact number of such eights up to where it stops"
    pub eights: usize,
}

/// Checks any bytes, however many: "text at most 65,536 bytes" is a rule for
/// reading and not for this check.
pub fn check(bytes: &[u8]) -> Checked {
    let mut checked = Checked { front: 0, eights: 0 };
    loop {
        let rest = &bytes[checked.front..];
        if starts_with_eight(rest) {
            checked.front += 8;
            checked.eights += 1;
        } else if let Some(length) = first_character(rest) {
            checked.front += length;
        } else {
            return checked;
        }
    }
}

/// Whether "the next eight bytes are all below 80 hex"; fewer are no eight.
fn starts_with_eight(bytes: &[u8]) -> bool {
    bytes.first_chunk::<8>().is_some_and(|eight| eight.iter().all(|&byte| byte < 0x80))
}

/// The length of the character that the bytes start with. `None` if they start
/// with none, if the end cuts it off, or if there are no bytes.
fn first_character(bytes: &[u8]) -> Option<usize> {
    let (&lead, later) = bytes.split_first()?;
    // The lead byte tells the length, and gives its low bits.
    let (length, low) = match lead {
        0b0000_0000..=0b0111_1111 => (1, lead),
        0b1100_0000..=0b1101_1111 => (2, lead & 0b0001_1111),
        0b1110_0000..=0b1110_1111 => (3, lead & 0b0000_1111),
        0b1111_0000..=0b1111_0111 => (4, lead & 0b0000_0111),
        // A later byte, or one that no character has.
        _ => return None,
    };
    let mut number = u32::from(low);
    for byte in later.get(..length - 1)? {
        if byte >> 6 != 0b10 {
            return None;
        }
        number = number << 6 | u32::from(byte & 0b0011_1111);
    }
    // Another length than the number's own is an overlong form.
    (length_of(number) == Some(length)).then_some(length)
}

/// RFC 3629's table: how many bytes the character of this number has. `None`
/// for surrogates and above U+10FFFF.
fn length_of(number: u32) -> Option<usize> {
    match number {
        0..=0x7F => Some(1),
        0x80..=0x7FF => Some(2),
        0xD800..=0xDFFF => None,
        0x800..=0xFFFF => Some(3),
        0x1_0000..=0x10_FFFF => Some(4),
        _ => None,
    }
}
