//! The reader's check of UTF-8, by itself.

use crate::sys;

/// What the check of UTF-8 answers.
#[derive(Debug, Clone, Copy, PartialEq, Eq, Hash)]
#[must_use]
pub struct Utf8Check {
    /// The length of the longest front that is UTF-8, in bytes: that of all the
    /// bytes, if they are UTF-8 to their end.
    pub front: usize,
    /// How often the check passed over eight plain bytes in one step, up to
    /// where the front ends.
    pub eights: usize,
}

impl Utf8Check {
    pub(crate) fn new(front: u64, [eights]: [u64; 1]) -> Utf8Check {
        // Each is at most the slice's length.
        Utf8Check { front: front as usize, eights: eights as usize }
    }
}

/// Checks any bytes as UTF-8 (RFC 3629), as a reading does before it looks for
/// tokens; here [`MAX_TEXT`](crate::MAX_TEXT) is no limit.
///
/// Wherever the check stands at a character's start and the next eight bytes
/// are all below 80 hex, it passes over these eight in one step, else over one
/// character. It stops at the end, or at the start of the first character that
/// is none or that the end cuts off. This is no refusal: what it answers then
/// is the front before it.
///
/// ```
/// let check = duper::utf8("é12345678".as_bytes());
/// assert_eq!((check.front, check.eights), (10, 1));
///
/// // Nine letters are one eight and one character; then the end cuts off an é.
/// let check = duper::utf8(b"123456789\xC3");
/// assert_eq!((check.front, check.eights), (9, 1));
/// ```
pub fn utf8(bytes: &[u8]) -> Utf8Check {
    sys::utf8(bytes)
}
