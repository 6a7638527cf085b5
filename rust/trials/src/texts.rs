//! The cases: random texts, taken ones and faulty ones, each with the length
//! of the table it is read into. Nothing here depends on the reader under
//! trial.

use crate::exponents::{self, Meaning, Token};
use crate::random::Random;
use crate::writer::{self, Row, Written};

/// One text, the table's length in words, and what is known beforehand.
#[derive(Debug, Clone, PartialEq, Eq)]
pub struct Case {
    /// What sort of case this is.
    pub sort: &'static str,
    /// The text.
    pub text: Vec<u8>,
    /// The lent table's length in words.
    pub words: usize,
    /// What the answer must be, where the way the text was made tells.
    pub known: Known,
    /// Strings and keys known to be in the text, with their contents.
    pub contents: Vec<(usize, usize, Vec<u8>)>,
}

/// What is known of a case's reading.
#[derive(Debug, Clone, PartialEq, Eq)]
pub enum Known {
    /// Nothing.
    Nothing,
    /// It is taken, with these rows.
    Rows(Vec<Row>),
    /// It is taken, with so many nodes.
    Nodes(usize),
    /// It is refused, with this number at this place.
    Refused(u32, u64),
}

/// Makes a case from a run's seed and its number.
pub fn case(seed: u64, number: u64) -> Case {
    let random = &mut Random::for_case(seed, number);
    match random.below(100) {
        0..=24 => valid(random),
        25..=44 => damaged(random),
        45..=54 => cut(random),
        55..=65 => glued(random),
        66..=69 => exponent(random),
        70..=76 => spliced(random),
        77..=80 => doubled(random),
        81..=86 => lone_tokens(random),
        87..=91 => depth(random),
        92..=93 => node_limit(random),
        94 => length(random),
        _ => small_table(random),
    }
}

/// How many cases [`short`] has.
pub const SHORT: u64 = NAMED_FROM + exponents::NAMED as u64;
/// Texts of none, one and two bytes, each in five surroundings.
const TWO_BYTES: u64 = 5 * (1 + 256 + 65_536);
/// Exponents of none to six bytes, each one of six.
const EXPONENTS: u64 = 1 + 6 + 36 + 216 + 1_296 + 7_776 + 46_656;
/// The number of the first one of [`exponents::named`].
const NAMED_FROM: u64 = TWO_BYTES + EXPONENTS;

/// Every text of up to two bytes, bare and in four surroundings, by number;
/// then every exponent of up to six bytes of `0`, `6`, `_`, `+`, `-` and `x`;
/// then the numbers of [`exponents::named`].
pub fn short(number: u64) -> Case {
    match number {
        0..TWO_BYTES => two_bytes(number),
        TWO_BYTES..NAMED_FROM => short_exponent(number - TWO_BYTES),
        _ => {
            let token = &exponents::named()[(number - NAMED_FROM) as usize];
            holding("short", token, 0, 24)
        }
    }
}

fn short_exponent(number: u64) -> Case {
    let mut text = b"[1e".to_vec();
    // Shorter ones first: each but the empty one is a byte and an earlier one.
    let mut rest = number;
    while rest > 0 {
        rest -= 1;
        text.push(b"06_+-x"[(rest % 6) as usize]);
        rest /= 6;
    }
    text.push(b']');
    Case { sort: "short", text, words: 24, known: Known::Nothing, contents: Vec::new() }
}

fn two_bytes(number: u64) -> Case {
    let surroundings: [[&[u8]; 2]; 5] =
        [[b"", b""], [b"[", b"]"], [b"{", b":1}"], [b"[\"", b"\"]"], [b"[b64\"", b"\"]"]];
    let [open, close] = surroundings[(number % 5) as usize];
    let bytes = match number / 5 {
        0 => Vec::new(),
        one @ 1..=256 => vec![(one - 1) as u8],
        two => ((two - 257) as u16).to_be_bytes().to_vec(),
    };
    let text = [open, &bytes, close].concat();
    let words = 12 * 3 + (number % 13) as usize;
    Case { sort: "short", text, words, known: Known::Nothing, contents: Vec::new() }
}

/// A case of which nothing is known, with a table that has room.
fn unknown(random: &mut Random, sort: &'static str, text: Vec<u8>) -> Case {
    let words = roomy(random, &text);
    Case { sort, text, words, known: Known::Nothing, contents: Vec::new() }
}

/// A table with room for every node the text could have (there are never more
/// than half its bytes, and one), most often no longer than that.
fn roomy(random: &mut Random, text: &[u8]) -> usize {
    match random.below(60) {
        0 => 12 * 4096,
        1 => 12 * 4096 + random.below(30),
        2 => 12 * 4097,
        _ => 12 * (text.len() / 2 + 1).min(4096) + random.below(25),
    }
}

fn nodes_wanted(random: &mut Random) -> usize {
    match random.below(10) {
        0 => random.between(30, 200),
        1..=3 => random.between(8, 30),
        _ => random.between(1, 8),
    }
}

fn written(random: &mut Random) -> Written {
    let nodes = nodes_wanted(random);
    writer::write(random, nodes)
}

/// A text that came out too long is refused for that.
fn fits(text: &[u8], known: Known) -> Known {
    if text.len() > 65_536 {
        Known::Refused(1, 65_536)
    } else {
        known
    }
}

fn valid(random: &mut Random) -> Case {
    let Written { text, rows, contents } = written(random);
    let words = roomy(random, &text);
    let known = fits(&text, Known::Rows(rows));
    Case { sort: "valid", text, words, known, contents }
}

/// A valid text with a table of about as many rows as it has nodes.
fn small_table(random: &mut Random) -> Case {
    let Written { text, rows, contents } = written(random);
    let words = match random.below(8) {
        0 => [0, 1, 11, 12, 13, 23, 24, 25][random.below(8)],
        1 => 12 * random.below(rows.len() + 2) + random.below(12),
        _ => (12 * rows.len() + random.below(26)).saturating_sub(13),
    };
    let limit = words / 12;
    // 10 stands at the first value for which there is no node.
    let known = match rows.get(limit) {
        Some(row) => Known::Refused(10, u64::from(row[2])),
        None => Known::Rows(rows),
    };
    let known = fits(&text, known);
    Case { sort: "small table", text, words, known, contents }
}

const FRAGMENTS: &[&[u8]] = &[
    b"{",
    b"}",
    b"[",
    b"]",
    b"(",
    b")",
    b":",
    b",",
    b"{",
    b"[",
    b"(",
    b"}",
    b"]",
    b")",
    b",",
    b":",
    b" ",
    b"\n",
    b"\r",
    b"\t",
    b"//",
    b"/*",
    b"*/",
    b"/",
    b"*",
    b"//x\n",
    b"/**/",
    b"/*/",
    b"A",
    b"A(",
    b"Zz-1(",
    b"A_",
    b"true",
    b"false",
    b"null",
    b"a",
    b"b",
    b"r",
    b"br",
    b"b64",
    b"_",
    b"_1",
    b"-",
    b"a-b",
    b"height",
    b"x",
    b"u",
    b"U",
    b"e",
    b"E",
    b"1",
    b"0",
    b"-0",
    b"+1",
    b"1e5",
    b"1e06",
    b"1e00",
    b"e-0",
    b"e+0",
    b"0_",
    b"1.5",
    b".",
    b"+",
    b"0x",
    b"0b1",
    b"0o7",
    b"00",
    b"1_0",
    b"9223372036854775807",
    b"-9223372036854775808",
    b"9223372036854775808",
    b"1e400",
    b"1e401",
    b"\"",
    b"\"\"",
    b"\"a\"",
    b"b\"",
    b"b\"a\"",
    b"b64\"",
    b"b64\"QQ==\"",
    b"QQ",
    b"=",
    b"r\"",
    b"r#\"",
    b"\"#",
    b"#",
    b"br#\"",
    b"r#\"a\"#",
    b"br\"a\"",
    b"\\",
    b"\\\"",
    b"\\x61",
    b"\\u0061",
    b"\\n",
    b"'",
    b"\xC3\xA9",
    b"\xE2\x82\xAC",
    b"\xF0\x9F\x98\x80",
    b"\x7F",
    b"\x00",
    b"\xFF",
];

fn fragment(random: &mut Random) -> &'static [u8] {
    // Broken UTF-8 and NUL end most other interest; keep them rare.
    loop {
        let fragment = FRAGMENTS[random.below(FRAGMENTS.len())];
        if !(fragment == b"\xFF" || fragment == b"\x00") || random.one_in(6) {
            return fragment;
        }
    }
}

/// A byte that is likely to matter.
fn odd_byte(random: &mut Random) -> u8 {
    const LIKELY: &[u8] = b"{}[](),::\"\"\\#'/*_-+.eE01x9bru64A=an \n\r\t";
    match random.below(12) {
        0 => random.next() as u8,
        1 => (random.next() & 0x7F) as u8,
        _ => LIKELY[random.below(LIKELY.len())],
    }
}

/// Changes a text in some place.
pub(crate) fn damage(random: &mut Random, text: &mut Vec<u8>) {
    let at = random.below(text.len() + 1);
    match random.below(6) {
        0 | 1 if at < text.len() => text[at] = odd_byte(random),
        2 if at < text.len() => {
            text.remove(at);
        }
        3 => text.insert(at, odd_byte(random)),
        4 if at < text.len() => {
            let end = (at + 1 + random.below(6)).min(text.len());
            if random.one_in(2) {
                text.drain(at..end);
            } else {
                let again = text[at..end].to_vec();
                text.splice(at..at, again);
            }
        }
        _ if text.len() >= 2 => {
            let other = random.below(text.len());
            let at = at.min(text.len() - 1);
            text.swap(at, other);
        }
        _ => text.push(odd_byte(random)),
    }
}

fn damaged(random: &mut Random) -> Case {
    let mut text = written(random).text;
    for _ in 0..random.between(1, 3) {
        damage(random, &mut text);
    }
    unknown(random, "damaged", text)
}

fn cut(random: &mut Random) -> Case {
    let mut text = written(random).text;
    let length = random.below(text.len() + 1);
    if random.one_in(4) {
        text.drain(..length);
    } else {
        text.truncate(length);
    }
    unknown(random, "cut short", text)
}

/// Up to so many fragments in a row, sometimes after a good opening.
pub fn glue(random: &mut Random, most: usize) -> Vec<u8> {
    let mut text = Vec::new();
    if random.one_in(2) {
        text.extend_from_slice(random.pick::<[u8]>(&[b"[", b"{", b"(", b"{a:", b"A(", b"[A("]));
    }
    for _ in 0..random.below(most) {
        text.extend_from_slice(fragment(random));
    }
    text
}

fn glued(random: &mut Random) -> Case {
    let text = glue(random, 12);
    unknown(random, "glued", text)
}

/// A valid text with a fragment put in, most often where a token could start.
fn spliced(random: &mut Random) -> Case {
    let mut text = written(random).text;
    let marks: Vec<usize> = text
        .iter()
        .enumerate()
        .filter(|(_, byte)| b"{}[](),:".contains(byte))
        .map(|(at, _)| at + 1)
        .collect();
    let at = marks[random.below(marks.len())];
    let put = fragment(random).to_vec();
    let taken = if random.one_in(3) { random.below(3).min(text.len() - at) } else { 0 };
    text.splice(at..at + taken, put);
    unknown(random, "spliced", text)
}

fn doubled(random: &mut Random) -> Case {
    let (text, place) = writer::write_doubled(random);
    let words = roomy(random, &text);
    let known = Known::Refused(8, place as u64);
    Case { sort: "doubled key", text, words, known, contents: Vec::new() }
}

/// Single tokens close to every line the papers draw, in an array, as a key or
/// bare.
fn lone_tokens(random: &mut Random) -> Case {
    let token = match random.below(4) {
        0 => near_number(random),
        1 => near_string(random),
        2 => near_base64(random),
        _ => near_word(random),
    };
    let text = match random.below(6) {
        0 => [b"{", &token[..], b":1}"].concat(),
        1 => [b"[A(", &token[..], b")]"].concat(),
        2 => token,
        3 => [b"[]", &token[..]].concat(),
        _ => [b"[", &token[..], b"]"].concat(),
    };
    unknown(random, "lone token", text)
}

fn near_number(random: &mut Random) -> Vec<u8> {
    let mut text = match random.below(10) {
        0 => format!("{}", (i64::MAX as u64).wrapping_add(random.below(4) as u64)),
        1 => format!("-{}", (i64::MAX as u64).wrapping_add(random.below(4) as u64)),
        2 => format!("0x{:x}", (i64::MAX as u64).wrapping_add(random.below(3) as u64)),
        3 => {
            let zeros = random.below(6);
            let exponent = random.between(398, 408) as i64 * if random.one_in(2) { 1 } else { -1 };
            format!("{}.{}e{exponent}", random.below(3), "0".repeat(zeros + 1))
        }
        4 => {
            let digits = format!("{}", (i64::MAX as u64).wrapping_add(random.below(4) as u64));
            let (whole, fraction) = digits.split_at(random.between(1, digits.len() - 1));
            format!("{whole}.{fraction}")
        }
        5 => format!("{}e{}", random.below(20), "9".repeat(random.between(1, 60))),
        6 => "7".repeat(random.between(17, 45)),
        7 | 8 => exponents::token(random).written,
        _ => {
            let pieces = ["0", "1", "9", "_", ".", "e", "E", "+", "-", "x", "b", "o", "a", "F"];
            let mut text = random.pick(&["0", "1", "-", "+", "0x"]).to_string();
            for _ in 0..random.below(7) {
                text.push_str(random.pick(&pieces));
            }
            text
        }
    }
    .into_bytes();
    if random.one_in(5) {
        let at = random.below(text.len() + 1);
        text.insert(at, *random.pick(&[&b'_', &b'0', &b'.', &b'e', &b'-']));
    }
    text
}

/// A number with an exponent, of which it is known what it must be.
fn exponent(random: &mut Random) -> Case {
    let token = exponents::token(random);
    let form = random.below(3);
    let words = 24 + random.below(25);
    holding("exponent", &token, form, words)
}

/// A text that holds the token, by its form: the item of an array, bare or in an
/// identifier, or a member of an object.
fn holding(sort: &'static str, token: &Token, form: usize, words: usize) -> Case {
    let [open, close] = [["[", "]"], ["[A(", ")]"], ["{k:", "}"]][form];
    let text = [open, &token.written, close].concat().into_bytes();
    let place = open.len() as u32;
    let end = place + token.written.len() as u32;
    let known = match token.meaning {
        Meaning::Refused(number) => Known::Refused(number, place.into()),
        Meaning::Decimal([low, high, power]) => {
            let (root, value, key, name) = match form {
                0 => (2, [1, end], [0, 0], [0, 0]),
                // The value starts with the name and ends behind the bracket.
                1 => (2, [1, end + 1], [0, 0], [1, 2]),
                _ => (1, [3, end], [1, 2], [0, 0]),
            };
            let [start, end] = value;
            Known::Rows(vec![
                [root, u32::MAX, 0, text.len() as u32, 0, 0, 0, 0, 2, 1, 0, 0],
                [7, 0, start, end, key[0], key[1], name[0], name[1], 2, low, high, power],
            ])
        }
    };
    Case { sort, text, words, known, contents: Vec::new() }
}

fn near_string(random: &mut Random) -> Vec<u8> {
    let (mut token, _) = writer::write_string(random);
    match random.below(4) {
        0 => damage(random, &mut token),
        1 => {
            let escapes: [&[u8]; 22] = [
                b"\\/",
                b"\\q",
                b"\\x",
                b"\\x4",
                b"\\xC3",
                b"\\xA9",
                b"\\xE2\\x82\\xAC",
                b"\\xED\\xA0\\x80",
                b"\\uD800",
                b"\\uDFFF",
                b"\\ud7ff",
                b"\\uE000",
                b"\\u12",
                b"\\U00110000",
                b"\\U0010FFFF",
                b"\\UFFFFFFFF",
                b"\\X41",
                b"\\\xC3\xA9",
                b"\\0",
                b"\t",
                b"\x7F",
                b"\xC2\x80",
            ];
            let at = token.iter().position(|&byte| byte == b'"').map_or(0, |at| at + 1);
            for _ in 0..random.between(1, 3) {
                let put = random.pick(&escapes).to_vec();
                token.splice(at..at, put);
            }
        }
        2 => {
            token.pop();
        }
        _ => {}
    }
    token
}

fn near_base64(random: &mut Random) -> Vec<u8> {
    let mut token = b"b64\"".to_vec();
    for _ in 0..random.below(7) {
        token.push(b"AQRgZw/+0 "[random.below(10)]);
    }
    for _ in 0..random.below(4) {
        let choices = if random.one_in(4) { 6 } else { 4 };
        token.push(b"= =\nQ-"[random.below(choices)]);
    }
    token.push(b'"');
    token
}

fn near_word(random: &mut Random) -> Vec<u8> {
    let mut token = Vec::new();
    for _ in 0..random.between(1, 5) {
        let choices = if random.one_in(3) { 11 } else { 9 };
        token.push(b"rb64_-aA1#\""[random.below(choices)]);
    }
    token
}

/// Containers nested about 32 deep, with identifiers and keys among them.
fn depth(random: &mut Random) -> Case {
    let depth = random.between(30, 34);
    let mut text = Vec::new();
    let mut closing = Vec::new();
    let mut ninth = None;
    for level in 1..=depth {
        if random.one_in(4) {
            text.extend_from_slice(b"A(");
            closing.push(&b")"[..]);
        }
        if level == 33 {
            ninth = Some(text.len() as u64);
        }
        match random.below(3) {
            0 if level < depth => {
                text.extend_from_slice(b"{a:");
                closing.push(b"}");
            }
            1 => {
                text.push(b'(');
                closing.push(b")");
            }
            _ => {
                text.push(b'[');
                closing.push(b"]");
            }
        }
    }
    let closed = !random.one_in(4);
    if closed {
        for close in closing.iter().rev() {
            text.extend_from_slice(close);
        }
    }
    let words = 12 * random.between(depth, depth + 2);
    let known = match ninth {
        Some(place) => Known::Refused(9, place),
        None if closed => Known::Nodes(depth),
        None => Known::Refused(7, text.len() as u64),
    };
    let mut case = Case { sort: "depth", text, words, known, contents: Vec::new() };
    if random.one_in(3) {
        // Too few nodes as well.
        case.words = 12 * random.between(depth.saturating_sub(3), depth);
        case.known = Known::Nothing;
    }
    case
}

/// Texts of about 4,096 nodes.
fn node_limit(random: &mut Random) -> Case {
    let nodes = random.between(4095, 4097);
    let mut text = Vec::new();
    let form = random.below(4);
    text.push(if form == 2 { b'{' } else { b'[' });
    let mut places = vec![0];
    for number in 1..nodes {
        if number > 1 {
            text.push(b',');
        }
        if form == 2 {
            text.extend_from_slice(format!("k{number}:").as_bytes());
        }
        places.push(text.len());
        match form {
            0 => text.extend_from_slice(b"null"),
            1 => text.extend_from_slice(b"[]"),
            2 => text.push(b'0'),
            _ => text.extend_from_slice(b"A(1)"),
        }
    }
    text.push(if form == 2 { b'}' } else { b']' });
    let words = match random.below(4) {
        0 => 12 * 4096,
        1 => 12 * 5000 + 7,
        2 => 12 * nodes,
        _ => 12 * nodes - 1,
    };
    let known = match places.get((words / 12).min(4096)) {
        Some(&place) => Known::Refused(10, place as u64),
        None => Known::Nodes(nodes),
    };
    Case { sort: "node limit", text, words, known, contents: Vec::new() }
}

/// Texts of about 65,536 bytes.
fn length(random: &mut Random) -> Case {
    if random.one_in(4) {
        return long_word(random);
    }
    let wanted = random.between(65_535, 65_537);
    let mut text = Vec::new();
    let mut tail: Vec<u8> = Vec::new();
    let mut fill = b' ';
    match random.below(10) {
        0 => text.extend_from_slice(b"[]"),
        1 => {
            text.extend_from_slice(b"[\"");
            tail.extend_from_slice(b"\"]");
            fill = b'x';
        }
        2 => {
            text.extend_from_slice(b"[]//");
            fill = b'/';
        }
        3 => {
            text.extend_from_slice(b"/*");
            tail.extend_from_slice(b"*/()");
            fill = b'*';
        }
        4 => {
            text.extend_from_slice(b"[0x");
            tail.extend_from_slice(b"7]");
            fill = b'0';
        }
        5 => {
            text.extend_from_slice(b"{r");
            tail.extend_from_slice(b":1}");
            fill = b'r';
        }
        6 => {
            text.extend_from_slice(b"[b64\"");
            tail.extend_from_slice(b"\"]");
            fill = b'A';
        }
        7 => {
            text.extend_from_slice(b"[1e");
            tail.extend_from_slice(b"7]");
            fill = b'0';
        }
        8 => {
            text.extend_from_slice(b"[1e-");
            tail.extend_from_slice(b"]");
            fill = b'9';
        }
        _ => {
            text.extend_from_slice(b"[0.");
            tail.extend_from_slice(b"e9]");
            fill = b'0';
        }
    }
    text.resize(wanted - tail.len(), fill);
    text.extend_from_slice(&tail);
    match random.below(5) {
        0 => *text.last_mut().expect("it is long") = 0xC3,
        1 => {
            let at = random.below(text.len());
            text[at] = odd_byte(random);
        }
        _ => {}
    }
    let known = if wanted > 65_536 { Known::Refused(1, 65_536) } else { Known::Nothing };
    let words = random.between(0, 40);
    Case { sort: "length", text, words, known, contents: Vec::new() }
}

/// A text too long to read, of one word or string, for content calls: "A span
/// that runs [...] over 65,536 bytes is 19 too."
fn long_word(random: &mut Random) -> Case {
    let mut text = vec![b'a'; random.between(65_538, 65_800)];
    if random.one_in(3) {
        let end = random.between(65_535, 65_537);
        text[0] = b'"';
        text[end - 1] = b'"';
    }
    if random.one_in(3) {
        // What stands outside the span isn't looked at.
        *text.last_mut().expect("it is long") = 0xFF;
    }
    let known = Known::Refused(1, 65_536);
    Case { sort: "long word", text, words: random.below(30), known, contents: Vec::new() }
}

#[cfg(test)]
mod tests {
    use super::*;
    use std::collections::HashSet;

    #[test]
    fn cases_follow_from_seed_and_number() {
        for number in 0..200 {
            assert_eq!(case(3, number), case(3, number));
        }
        assert!((0..200).any(|number| case(3, number) != case(4, number)));
    }

    #[test]
    fn short_texts_are_all_there() {
        let bare = |number: u64| short(5 * number).text;
        assert_eq!(bare(0), b"");
        assert_eq!((bare(1), bare(256)), (vec![0], vec![255]));
        assert_eq!((bare(257), bare(TWO_BYTES / 5 - 1)), (vec![0, 0], vec![255, 255]));
        assert_eq!(short(5 * 257 + 3).text, b"[\"\0\0\"]");
    }

    #[test]
    fn short_exponents_are_all_there() {
        let texts: HashSet<_> = (TWO_BYTES..NAMED_FROM).map(|number| short(number).text).collect();
        // All are different, and no longer than six bytes.
        assert_eq!(texts.len() as u64, EXPONENTS);
        assert!(texts.iter().all(|text| text.len() <= b"[1e".len() + 6 + b"]".len()));
        for text in ["[1e]", "[1e06]", "[1e-0_06]", "[1e0__6]", "[1e_]", "[1exxxxxx]"] {
            assert!(texts.contains(text.as_bytes()), "{text}");
        }
        assert_eq!(short(NAMED_FROM).text, b"[1e06]");
        assert_eq!(short(SHORT - 1).text.len(), b"[01e]".len() + 60_000);
    }
}
