//! The whole text as a list of tokens.
//!
//! "Then it is cut into tokens from the left, with spaces and comments skipped
//! between them." Where a token ends never depends on what stands before it,
//! so the list can be made whole before any of it is understood.

use std::borrow::Cow;

use crate::numbers::{number, Number};
use crate::{strings, Refusal};

/// A token: its places in the text and what it is.
#[derive(Debug, Clone, PartialEq, Eq)]
pub(crate) struct Token<'t> {
    pub start: usize,
    /// One past its last byte.
    pub end: usize,
    pub what: What<'t>,
}

impl Token<'_> {
    /// Its places as the table holds them.
    pub fn span(&self) -> [u32; 2] {
        [self.start as u32, self.end as u32]
    }
}

/// What a token is, with its worked-out value.
#[derive(Debug, Clone, PartialEq, Eq)]
pub(crate) enum What<'t> {
    /// One of `{ } [ ] ( ) : ,`.
    Mark(u8),
    True,
    False,
    Null,
    /// A word that opens with a capital: an identifier's name, or a key.
    Name,
    /// Any other word of the shape: a key and nothing else.
    Word,
    /// A text string, quoted or raw, with its content.
    Text(Cow<'t, [u8]>),
    /// A byte string, quoted, raw or Base64, with its content.
    Bytes(Cow<'t, [u8]>),
    Number(Number),
}

impl What<'_> {
    /// "A key is any word of the shape, or a text string."
    pub fn is_key(&self) -> bool {
        matches!(
            self,
            What::True | What::False | What::Null | What::Name | What::Word | What::Text(_)
        )
    }
}

/// Cuts a text into its tokens, up to the end or to the first one that is
/// faulty by itself (3 to 6), which is then given as a refusal.
pub(crate) fn cut(text: &str) -> (Vec<Token<'_>>, Option<Refusal>) {
    let bytes = text.as_bytes();
    let mut tokens = Vec::with_capacity(bytes.len() / 4 + 8);
    let mut start = 0;
    while let Some(&first) = bytes.get(start) {
        let end = match first {
            b'\t' | b'\n' | b'\r' | b' ' => Ok(start + 1),
            b'/' => comment_end(bytes, start).ok_or(3),
            _ => token(text, start, first).map(|(end, what)| {
                tokens.push(Token { start, end, what });
                end
            }),
        };
        match end {
            Ok(end) => start = end,
            Err(number) => return (tokens, Some(Refusal::new(number, start))),
        }
    }
    (tokens, None)
}

/// The content of a part that is "any string token or any word of the key
/// shape, valid by itself, UTF-8 included", and nothing besides.
pub(crate) fn only_content(part: &[u8]) -> Option<Cow<'_, [u8]>> {
    let text = std::str::from_utf8(part).ok()?;
    let &first = part.first()?;
    let (end, what) = token(text, 0, first).ok()?;
    if end != part.len() {
        return None;
    }
    match what {
        What::Text(content) | What::Bytes(content) => Some(content),
        What::True | What::False | What::Null | What::Name | What::Word => {
            Some(Cow::Borrowed(part))
        }
        What::Mark(_) | What::Number(_) => None,
    }
}

/// "`//` runs to before the next 0A or 0D, or to the end. `/*` runs to the
/// first `*/` after it; `/*/` isn't closed." A slash that opens neither is
/// malformed.
fn comment_end(bytes: &[u8], at: usize) -> Option<usize> {
    let body = at + 2;
    let rest = bytes.get(body..)?;
    match bytes[at + 1] {
        b'/' => {
            Some(body + rest.iter().position(|b| matches!(b, b'\n' | b'\r')).unwrap_or(rest.len()))
        }
        b'*' => Some(body + rest.windows(2).position(|two| two == b"*/")? + 2),
        _ => None,
    }
}

/// Cuts the token that opens at a byte, its first, and gives its end and what
/// it is; the error is the token's own refusal number, 3 to 6.
#[inline(always)]
fn token(text: &str, start: usize, first: u8) -> Result<(usize, What<'_>), u32> {
    let bytes = text.as_bytes();
    Ok(match first {
        b'{' | b'}' | b'[' | b']' | b'(' | b')' | b':' | b',' => (start + 1, What::Mark(first)),
        // "Strings open with `"`, `b"`, `b64"`, or `r` or `br` followed at
        // once by any number of `#` and a quote. [...] `r` or `br` followed by
        // `#` opens a raw string and nothing else."
        b'"' => {
            let (end, body, escaped) = quoted(bytes, start + 1).ok_or(3u32)?;
            (end, What::Text(strings::quoted_text(body, escaped).ok_or(4u32)?))
        }
        b'b' if bytes[start..].starts_with(b"b\"") => {
            let (end, body, escaped) = quoted(bytes, start + 2).ok_or(3u32)?;
            (end, What::Bytes(strings::quoted_bytes(body, escaped).ok_or(4u32)?))
        }
        b'b' if bytes[start..].starts_with(b"b64\"") => {
            // "`b64"` ends at the next quote."
            let body = &bytes[start + 4..];
            let length = body.iter().position(|&byte| byte == b'"').ok_or(3u32)?;
            let content = strings::base64(&body[..length]).ok_or(4u32)?;
            (start + 4 + length + 1, What::Bytes(Cow::Owned(content)))
        }
        b'r' if matches!(bytes.get(start + 1), Some(b'#' | b'"')) => {
            let (end, body) = raw(bytes, start + 1).ok_or(3u32)?;
            (end, What::Text(strings::raw(body).ok_or(4u32)?))
        }
        b'b' if matches!(bytes[start..], [_, b'r', b'#' | b'"', ..]) => {
            let (end, body) = raw(bytes, start + 2).ok_or(3u32)?;
            (end, What::Bytes(strings::raw(body).ok_or(4u32)?))
        }
        // "A word opens with a letter or `_` where no string opens, and runs
        // over letters, digits and joiners."
        b'A'..=b'Z' | b'a'..=b'z' | b'_' => {
            let end = run_end(bytes, start, |byte| matches!(byte, b'_' | b'-'));
            let word = &bytes[start..end];
            (end, word_of_the_shape(word).ok_or(3u32)?)
        }
        // "A number opens with a digit, `+` or `-`, and runs over letters,
        // digits, `_ . + -`."
        b'0'..=b'9' | b'+' | b'-' => {
            let end = run_end(bytes, start, |byte| matches!(byte, b'_' | b'.' | b'+' | b'-'));
            (end, What::Number(number(&text[start..end])?))
        }
        // "A tick is refused with 6."
        b'\'' => return Err(6),
        // "Any other byte is malformed."
        _ => return Err(3),
    })
}

/// The end of a run over letters, digits and some further bytes.
fn run_end(bytes: &[u8], start: usize, further: impl Fn(u8) -> bool) -> usize {
    let run = &bytes[start..];
    let length = run.iter().position(|&byte| !byte.is_ascii_alphanumeric() && !further(byte));
    start + length.unwrap_or(run.len())
}

/// "Its shape: a letter, or `_` and a letter or digit; then any number of
/// groups of at most one joiner and one letter or digit." So: only one joiner
/// at a time, none at the end, and none but `_` at the front.
fn word_of_the_shape<'t>(word: &[u8]) -> Option<What<'t>> {
    let joiner = |byte: u8| matches!(byte, b'_' | b'-');
    let doubled = word.windows(2).any(|two| joiner(two[0]) && joiner(two[1]));
    if doubled || joiner(*word.last()?) {
        return None;
    }
    Some(match word {
        b"true" => What::True,
        b"false" => What::False,
        b"null" => What::Null,
        [b'A'..=b'Z', ..] => What::Name,
        _ => What::Word,
    })
}

/// "In `"` and `b"` a backslash takes the next byte with it; the next free
/// quote ends the token." Gives the token's end, the bytes between the quotes
/// and whether a backslash is among them; `None` if there is no such quote.
fn quoted(bytes: &[u8], open: usize) -> Option<(usize, &[u8], bool)> {
    let mut at = open;
    let mut escaped = false;
    loop {
        let rest = bytes.get(at..)?;
        at += rest.iter().position(|byte| matches!(byte, b'"' | b'\\'))?;
        if bytes[at] == b'"' {
            return Some((at + 1, &bytes[open..at], escaped));
        }
        escaped = true;
        at += 2;
    }
}

/// "A raw string with k hashes ends at the first quote followed by k hashes."
/// `hashes` is where its hashes start. Gives the token's end and the bytes
/// between the quotes; `None` if it isn't opened or isn't closed.
fn raw(bytes: &[u8], hashes: usize) -> Option<(usize, &[u8])> {
    let count = |from: usize, most: usize| {
        bytes[from..].iter().take(most).take_while(|&&byte| byte == b'#').count()
    };
    let k = count(hashes, usize::MAX);
    if bytes.get(hashes + k) != Some(&b'"') {
        return None;
    }
    let open = hashes + k + 1;
    let mut at = open;
    loop {
        let quote = at + bytes[at..].iter().position(|&byte| byte == b'"')?;
        // The hashes counted hold no quote, so each byte is looked at twice
        // at the most.
        let found = count(quote + 1, k);
        if found == k {
            return Some((quote + 1 + k, &bytes[open..quote]));
        }
        at = quote + 1 + found;
    }
}
