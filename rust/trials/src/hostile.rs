//! Texts that take a reader long if it looks for doubled keys by comparing them, or
//! by a decision tree over the bytes of their contents. For `bench`; each is at most
//! 65,536 bytes and 4,096 nodes.

use std::collections::HashSet;

use second::{MAX_DEPTH, MAX_NODES, MAX_TEXT};

use crate::random::Random;

/// A text to time.
#[derive(Debug, Clone, PartialEq, Eq)]
pub struct Hostile {
    /// What it is called.
    pub name: String,
    /// The text.
    pub text: Vec<u8>,
    /// Number and place if it is refused.
    pub refusal: Option<(u32, u64)>,
}

/// The content up to which an index may decode a key.
const SCRATCH: usize = 2_046;

/// One object of these keys as they are written, as many as there is room for.
fn object(name: &str, keys: impl IntoIterator<Item = String>) -> Hostile {
    let text = listed(keys, MAX_NODES - 1, MAX_TEXT - 2);
    Hostile { name: name.into(), text: format!("{{{text}}}").into_bytes(), refusal: None }
}

/// Up to so many members in so many bytes, each with the value 0.
fn listed(keys: impl IntoIterator<Item = String>, most: usize, room: usize) -> String {
    let mut text = String::new();
    for key in keys.into_iter().take(most) {
        if text.len() + key.len() + 3 > room {
            break;
        }
        if !text.is_empty() {
            text.push(',');
        }
        text.push_str(&key);
        text.push_str(":0");
    }
    text
}

/// So many times the letter a, of which the first ones are spelled as the bits of
/// the number say: few pairs of keys are spelled alike.
fn two_ways(number: usize, letters: usize, spelled: usize) -> String {
    let letter = |bit: usize| match bit < spelled && number >> bit & 1 == 1 {
        true => "\\x61",
        false => "a",
    };
    (0..letters).map(letter).collect()
}

/// One object of 2,350 keys that all begin with twelve times the letter a. The
/// first four are spelled in two ways.
pub fn spellings() -> Hostile {
    let keys = (0..2350).map(|n| format!("\"{}{n:04}\"", two_ways(n, 12, 4)));
    object("2,350 keys, two ways", keys)
}

/// One object of the 31 keys that are just too long for an index: the text that takes
/// the longest to read of all that are known.
pub fn long_keys() -> Hostile {
    object("just over, two ways", long(SCRATCH + 1, 4))
}

/// The object with one member more, at the end: what comes before its fault, and the
/// bytes that have it.
fn ending(name: &str, object: Hostile, number: u32, [before, fault]: [&str; 2]) -> Hostile {
    let mut text = object.text;
    text.pop();
    text.push(b',');
    text.extend_from_slice(before.as_bytes());
    let place = text.len() as u64;
    text.extend_from_slice(fault.as_bytes());
    text.push(b'}');
    Hostile { name: name.into(), text, refusal: Some((number, place)) }
}

/// Printable bytes that need no escape.
fn plain() -> Vec<char> {
    (' '..='~').filter(|c| !matches!(c, '"' | '\\')).collect()
}

/// How many halves of bytes differ from those of the letter a all along.
fn halves(key: &str) -> usize {
    key.bytes().map(|byte| usize::from(byte >> 4 != 6) + usize::from(byte & 15 != 1)).sum()
}

/// Every content of so many bytes.
fn all_of(length: usize) -> Vec<String> {
    let mut all = vec![String::new()];
    for _ in 0..length {
        let longer =
            all.iter().flat_map(|front| plain().into_iter().map(move |c| format!("{front}{c}")));
        all = longer.collect();
    }
    all
}

/// Contents that differ from so many times the letter a in one half of a byte. In
/// a tree whose tests ask for one bit, or for one half's value, most of them fail all
/// tests there are, and add another. Behind them come those that differ in the last
/// byte too: the chain again, behind one of its tests.
fn chain(length: usize) -> Vec<String> {
    let mut all = vec!["a".repeat(length)];
    for at in (0..length).rev() {
        let near = |c: &char| halves(&c.to_string()) == 1;
        let (front, behind) = ("a".repeat(at), "a".repeat(length - 1 - at));
        all.extend(plain().iter().filter(|c| near(c)).map(|c| format!("{front}{c}{behind}")));
    }
    let seen: HashSet<_> = all.iter().cloned().collect();
    let again: Vec<_> = all.iter().map(|key| format!("{}q", &key[..length - 1])).collect();
    all.extend(again.into_iter().filter(|key| !seen.contains(key)));
    // Where the last byte alone differs they come to one.
    let mut seen = HashSet::new();
    all.retain(|key| seen.insert(key.clone()));
    all
}

fn quoted(content: &str) -> String {
    format!("\"{content}\"")
}

/// Contents in an order in which each is as far down as can be: those that differ
/// from the first in few halves come first, and among them those with the
/// difference at the end.
fn far_down(length: usize) -> Vec<String> {
    let mut all = all_of(length);
    all.sort_by_cached_key(|key| {
        let reversed: String = key.chars().rev().collect();
        (halves(key), std::cmp::Reverse(reversed))
    });
    all
}

fn shuffled(mut all: Vec<String>) -> Vec<String> {
    let random = &mut Random::new(1);
    for at in (1..all.len()).rev() {
        all.swap(at, random.below(at + 1));
    }
    all
}

/// Keys of a number behind so many letters, spelled in one way or in two.
fn fronts(letters: usize, spelled: usize) -> Hostile {
    let ways = if spelled == 0 { "one way" } else { "two ways" };
    let keys = (0..).map(|n| format!("\"{}{n:04}\"", two_ways(n, letters, spelled)));
    object(&format!("fronts of {letters}, {ways}"), keys.take(MAX_NODES))
}

/// Long keys with a number at the end, of so many bytes of content.
fn long(length: usize, spelled: usize) -> impl Iterator<Item = String> {
    (0..99).map(move |n| format!("\"{}{n:02}\"", two_ways(n, length - 2, spelled)))
}

/// Objects of so many keys in an array, as many as there is room for.
fn objects(name: &str, count: usize, key: impl Fn(usize) -> String) -> Hostile {
    let members = (0..count).map(&key);
    let one = format!("{{{}}}", listed(members, count, MAX_TEXT));
    let most = ((MAX_NODES - 1) / (count + 1)).min((MAX_TEXT - 2) / (one.len() + 1));
    let text = format!("[{}]", vec![one; most.max(1)].join(","));
    Hostile { name: name.into(), text: text.into_bytes(), refusal: None }
}

/// Objects in each other, as deep as can be, of so many keys each; a fault comes at
/// the end of the innermost.
fn deep(name: &str, count: usize) -> Hostile {
    let members = listed((0..count).map(|n| format!("\"\\x6b{n:03}\"")), count, MAX_TEXT);
    let open = format!("{{{members},in:");
    let mut text = open.repeat(MAX_DEPTH - 1);
    text.push_str(&format!("{{{members},"));
    let place = text.len() as u64;
    text.push_str("00");
    Hostile { name: name.into(), text: text.into_bytes(), refusal: Some((3, place)) }
}

/// The worst texts known.
pub fn worst() -> Vec<Hostile> {
    let mut all = vec![spellings()];
    for letters in [8, 50, 250, 1_000] {
        all.push(fronts(letters, 0));
        all.push(fronts(letters, 4));
    }
    // The greatest number of different spellings of the first letters.
    all.push(fronts(24, 12));
    let words = (0..4_095).map(|n| format!("aaaaaaa{n:04}"));
    all.push(object("fronts of 7, words", words));

    let two: Vec<_> = far_down(2).iter().map(|key| quoted(key)).collect();
    let three: Vec<_> = far_down(3).iter().map(|key| quoted(key)).collect();
    all.push(object("2 bytes, far down", two.clone()));
    all.push(object("2 bytes, by value", all_of(2).iter().map(|key| quoted(key))));
    all.push(object("2 bytes, any order", shuffled(two)));
    all.push(object("3 bytes, far down", three.clone()));
    all.push(object("3 bytes, backwards", three.into_iter().take(4_095).rev()));
    for length in [12, 24, 38, 55] {
        let name = format!("one half of {length} bytes");
        all.push(object(&name, chain(length).iter().map(|key| quoted(key))));
    }
    let characters = (0x800..0xD800u32).step_by(13).filter_map(char::from_u32);
    all.push(object("characters of 3 bytes", characters.map(|c| quoted(&c.to_string()))));

    all.push(long_keys());
    all.push(object("just over, one way", long(SCRATCH + 1, 0)));
    all.push(object("just under, two ways", long(SCRATCH, 4)));
    all.push(object("just under, one way", long(SCRATCH, 0)));
    // Every long key meets short ones that go on as it does.
    let short = (0..1_700).map(|n| format!("\"{}{n:04}\"", two_ways(n, 8, 4)));
    all.push(object("1,700 short, then long", short.chain(long(SCRATCH + 1, 4))));
    let mixed = long(SCRATCH + 1, 4).take(15).zip(0..).flat_map(|(long, part)| {
        let short =
            (0..110).map(move |n| format!("\"{}{:04}\"", two_ways(n, 8, 4), 110 * part + n));
        short.chain([long])
    });
    all.push(object("long among short", mixed));
    let middle = (0..60).map(|n| format!("\"{}{n:03}\"", two_ways(n, 500, 4)));
    all.push(object("60 of 500, then long", middle.chain(long(SCRATCH + 1, 4))));
    all.push(object(
        "16 of 4,000, two ways",
        (0..16).map(|n| format!("\"{}{n:02}\"", two_ways(n, 4_050, 4))),
    ));

    // Just below where a reader may change its way, and just above.
    for count in [16, 17, 32, 33] {
        let hostile =
            |letters: usize| move |n: usize| format!("\"{}{n:02}\"", two_ways(n, letters, 4));
        all.push(objects(&format!("objects of {count}, hostile"), count, hostile(12)));
        all.push(objects(&format!("objects of {count}, long ones"), count, hostile(60)));
        all.push(objects(&format!("objects of {count}, 1,000 b."), count, hostile(1_000)));
    }

    // Between two keys of the outer object stands another object.
    let holding: Vec<_> = (0..2_047).map(|n| format!("key{n:04}:{{a:0}}")).collect();
    let text = format!("{{{}}}", holding.join(",")).into_bytes();
    all.push(Hostile { name: "2,047 keys of objects".into(), text, refusal: None });

    let words = || object("", (0..3_999).map(|n| format!("key{n:04}")));
    let again = r#""\x6bey0000":0"#;
    all.push(ending("4,000, the last doubled", words(), 8, ["", again]));
    all.push(ending("4,000, its neighbour's", words(), 8, ["", "key3998:0"]));
    all.push(ending("4,000, then a fault", words(), 3, ["key0:", "00"]));
    all.push(ending("4,000, then no colon", words(), 7, ["key0 ", "0"]));
    let spelled = |n: usize| format!("\"{}{n:04}\"", two_ways(n, 12, 4));
    let ways = || object("", (0..2_340).map(spelled));
    all.push(ending("two ways, last doubled", ways(), 8, ["", "\"aaaaaaaaaaaa0001\":0"]));
    all.push(ending("two ways, then a fault", ways(), 3, ["", "00"]));
    all.push(deep("32 deep of 120, a fault", 120));
    all
}

/// Objects of few to some keys that fill a text, and one short text.
pub fn usual() -> Vec<Hostile> {
    let mut all = Vec::new();
    for count in [5, 8, 16, 17, 24, 32, 48, 64] {
        all.push(objects(&format!("{count} keys, words"), count, |n| format!("key{n:02}")));
        all.push(objects(&format!("{count} keys, in quotes"), count, |n| format!("\"key{n:02}\"")));
        all.push(objects(&format!("{count} keys, escapes"), count, |n| {
            format!("\"\\x6bey{n:02}\"")
        }));
    }
    let text = b"{ball: 1, rig: null}".to_vec();
    all.push(Hostile { name: "20 bytes".into(), text, refusal: None });
    all
}

#[cfg(test)]
mod tests {
    use super::*;
    use crate::check::second_read;

    /// They are within the limits, and are answered as they say.
    #[test]
    fn they_read() {
        let mut names = HashSet::new();
        for Hostile { name, text, refusal } in worst().into_iter().chain(usual()) {
            assert!(text.len() <= MAX_TEXT, "{name}: {}", text.len());
            let mut table = vec![0; 12 * MAX_NODES];
            let answer = second_read(&text, &mut table);
            println!("{name}: {} bytes, {answer:?}", text.len());
            assert_eq!(answer.err(), refusal, "{name}");
            assert!(names.insert(name.clone()), "{name} comes twice");
        }
    }
}
