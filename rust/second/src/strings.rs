//! String contents. Each function is given the bytes between the quotes and
//! answers `None` where document 01 refuses the content with 4.

use std::borrow::Cow;

/// "Unescaped 00 to 09, 0B to 1F and 7F are refused with 4 in all but `b64"`."
fn is_control(byte: u8) -> bool {
    byte.is_ascii_control() && byte != b'\n'
}

/// A raw string, text or bytes: its own bytes.
pub(crate) fn raw(body: &[u8]) -> Option<Cow<'_, [u8]>> {
    if body.iter().any(|&byte| is_control(byte)) {
        return None;
    }
    Some(Cow::Borrowed(body))
}

/// A quoted text string: "a text's whole content must be UTF-8".
pub(crate) fn quoted_text(body: &[u8], escaped: bool) -> Option<Cow<'_, [u8]>> {
    let content = quoted_bytes(body, escaped)?;
    // Without escapes the content is part of the text, which is UTF-8.
    if escaped {
        std::str::from_utf8(&content).ok()?;
    }
    Some(content)
}

/// A quoted byte string. `escaped` tells whether there is a backslash in it.
pub(crate) fn quoted_bytes(body: &[u8], escaped: bool) -> Option<Cow<'_, [u8]>> {
    if escaped {
        unescape(body).map(Cow::Owned)
    } else {
        raw(body)
    }
}

/// "`\0 \b \t \n \f \r \" \\`, `\xHH`, `\uHHHH`, `\UHHHHHHHH`; no others [...]
/// `\u` and `\U` must name scalar values, in byte strings too, and give their
/// UTF-8; a surrogate pair is refused. `\x` gives one byte".
fn unescape(body: &[u8]) -> Option<Vec<u8>> {
    let mut content = Vec::with_capacity(body.len());
    let mut rest = body;
    while let Some((&byte, after)) = rest.split_first() {
        if byte != b'\\' {
            if is_control(byte) {
                return None;
            }
            content.push(byte);
            rest = after;
            continue;
        }
        let (&letter, after) = after.split_first()?;
        let digits = match letter {
            b'x' => 2,
            b'u' => 4,
            b'U' => 8,
            _ => 0,
        };
        let (digits, after) = after.split_at_checked(digits)?;
        match letter {
            b'0' => content.push(0x00),
            b'b' => content.push(0x08),
            b't' => content.push(0x09),
            b'n' => content.push(0x0A),
            b'f' => content.push(0x0C),
            b'r' => content.push(0x0D),
            b'"' | b'\\' => content.push(letter),
            b'x' => content.push(hex(digits)? as u8),
            b'u' | b'U' => {
                let named = char::from_u32(hex(digits)?)?;
                content.extend_from_slice(named.encode_utf8(&mut [0; 4]).as_bytes());
            }
            _ => return None,
        }
        rest = after;
    }
    Some(content)
}

/// At most eight hex digits in either case.
fn hex(digits: &[u8]) -> Option<u32> {
    digits.iter().try_fold(0, |sum, &digit| Some(sum << 4 | char::from(digit).to_digit(16)?))
}

/// "Base64: the alphabet of RFC 4648 section 4, spaces ignored anywhere, pads
/// last. With d digits: d mod 4 is not 1; pads at most (4 - d mod 4) mod 4;
/// unused bits of the last digit zero."
pub(crate) fn base64(body: &[u8]) -> Option<Vec<u8>> {
    let mut content = Vec::with_capacity(body.len() / 4 * 3 + 2);
    let (mut digits, mut pads) = (0usize, 0usize);
    // The bits not yet given out; fewer than eight between digits.
    let (mut bits, mut held) = (0u32, 0u32);
    for &byte in body {
        let value = match byte {
            b'\t' | b'\n' | b'\r' | b' ' => continue,
            b'=' => {
                pads += 1;
                continue;
            }
            b'A'..=b'Z' => byte - b'A',
            b'a'..=b'z' => byte - b'a' + 26,
            b'0'..=b'9' => byte - b'0' + 52,
            b'+' => 62,
            b'/' => 63,
            _ => return None,
        };
        if pads > 0 {
            return None;
        }
        digits += 1;
        bits = bits << 6 | u32::from(value);
        held += 6;
        if held >= 8 {
            held -= 8;
            content.push((bits >> held) as u8);
            bits &= (1 << held) - 1;
        }
    }
    let left = digits % 4;
    (left != 1 && pads <= (4 - left) % 4 && bits == 0).then_some(content)
}
