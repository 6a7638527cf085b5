//! Texts with objects of many keys. They are made as a value first and written
//! afterwards, so every key's content and place is known without a reader, and
//! with them the first key that its object has already. Nothing here depends on
//! the reader under trial.

use std::collections::{HashMap, HashSet};

use second::{MAX_DEPTH, MAX_NODES, MAX_TEXT, ROW};

use crate::random::Random;
use crate::texts::{Case, Known};
use crate::trees::Tree;
use crate::writer::{self, Row, Written};

/// A key as it stands in a text.
#[derive(Debug, Clone, PartialEq, Eq)]
pub struct Key {
    /// The number of its object's node.
    pub object: usize,
    /// Its token's start.
    pub start: usize,
    /// Its token's end.
    pub end: usize,
    /// Its content.
    pub content: Vec<u8>,
}

/// A text of many keys, and what is known of it.
#[derive(Debug, Clone, PartialEq, Eq)]
pub struct Keyed {
    /// The text with its table's length and the answer to it.
    pub case: Case,
    /// All keys before the fault that was put in, doubled ones included.
    pub keys: Vec<Key>,
    /// The numbers of the objects that hold each object of `keys`, the nearest
    /// first.
    pub outer: HashMap<usize, Vec<usize>>,
    /// Place and number of the first fault that is no doubled key.
    pub other: Option<(u64, u32)>,
    /// The first doubled key behind the fault that was put in.
    pub behind: Option<u64>,
}

impl Keyed {
    /// The first key whose content its object has already, with the one that has
    /// it: "key already in this object", at the "second key's start".
    pub fn doubled(&self) -> Option<(&Key, &Key)> {
        let mut seen = HashMap::new();
        self.keys.iter().find_map(|key| {
            let first = *seen.entry((key.object, &key.content)).or_insert(key);
            (first != key).then_some((first, key))
        })
    }

    /// "Among 3 to 10 the smallest place counts, then the smallest number."
    pub fn refusal(&self) -> Option<(u64, u32)> {
        let eighth = self.doubled().map(|(_, key)| (key.start as u64, 8));
        eighth.into_iter().chain(self.other).min()
    }
}

/// Makes a text.
pub fn keyed(random: &mut Random) -> Keyed {
    let tree = tree(random);
    let (keys, bytes) = weight(&tree);
    let terse = keys > 400 || random.one_in(4);
    let escapes = escapes(random, bytes + keys * if terse { 8 } else { 40 }, bytes);
    let Written { mut text, rows, contents } = writer::write_keys(random, &tree, terse, escapes);
    let mut keys = keys_of(&rows, &contents);
    let words = words(random, rows.len());
    let limit = MAX_NODES.min(words / ROW);
    let mut other = rows.get(limit).map(|row| (u64::from(row[2]), 10));
    let mut behind = None;
    if random.one_in(2) {
        let node = some_node(random, &rows, &keys);
        let spoiled = spoil(random, &mut text, &rows, node, limit);
        // What stands before the change is as it was, what comes after it has moved.
        other = other.filter(|&(place, _)| place <= spoiled.from as u64);
        let fault = [(spoiled.place, spoiled.number)];
        other = other.into_iter().chain(spoiled.full).chain(fault).min();
        behind = spoiled.rest.and_then(|(from, moved)| {
            let mut later = all_doubled(&keys).into_iter().filter(|&start| start >= from);
            later.next().map(|start| (start + moved - from) as u64)
        });
        keys.retain(|key| key.start < spoiled.from);
    }
    if random.one_in(150) {
        // "1 goes before 2, and 2 before the rest", however late it stands.
        text.push(0xFF);
    }
    let outer = keys.iter().map(|key| (key.object, outer_objects(&rows, key.object))).collect();
    let case = Case { sort: "keys", text, words, known: Known::Nothing, contents: Vec::new() };
    let mut keyed = Keyed { case, keys, outer, other, behind };
    let text = &keyed.case.text;
    keyed.case.known = match (keyed.refusal(), std::str::from_utf8(text)) {
        _ if text.len() > MAX_TEXT => Known::Refused(1, MAX_TEXT as u64),
        (_, Err(error)) => Known::Refused(2, error.valid_up_to() as u64),
        (Some((place, number)), _) => Known::Refused(number, place),
        (None, _) => Known::Rows(rows),
    };
    keyed
}

/// The keys that a text was written with.
fn keys_of(rows: &[Row], contents: &[(usize, usize, Vec<u8>)]) -> Vec<Key> {
    let with_key = rows.iter().filter(|row| row[5] > 0);
    with_key
        .map(|row| {
            let (object, start, end) = (row[1] as usize, row[4] as usize, row[5] as usize);
            // They are noted in the order of their places.
            let at = contents.partition_point(|&(other, ..)| other < start);
            Key { object, start, end, content: contents[at].2.clone() }
        })
        .collect()
}

/// The places of all keys that their objects have already.
fn all_doubled(keys: &[Key]) -> Vec<usize> {
    let mut seen = HashSet::new();
    let mut again = Vec::new();
    for key in keys {
        if !seen.insert((key.object, &key.content)) {
            again.push(key.start);
        }
    }
    again
}

fn parents(rows: &[Row], node: usize) -> impl Iterator<Item = usize> + '_ {
    let parent = |&node: &usize| Some(rows[node][1] as usize).filter(|&parent| parent < node);
    std::iter::successors(Some(node), parent).skip(1)
}

fn outer_objects(rows: &[Row], node: usize) -> Vec<usize> {
    parents(rows, node).filter(|&outer| rows[outer][0] == 1).collect()
}

/// A table's length: with room, or without.
fn words(random: &mut Random, nodes: usize) -> usize {
    match random.below(20) {
        0 => ROW * random.between(nodes.saturating_sub(3), nodes) + random.below(ROW),
        1 | 2 => ROW * random.below(nodes + 2) + random.below(ROW),
        3 => ROW * MAX_NODES + random.below(30),
        _ => ROW * (nodes + random.below(3)) + random.below(ROW),
    }
}

/// How far apart escapes stand in quoted keys, so that the text is hardly ever too
/// long: an escape takes about six bytes.
fn escapes(random: &mut Random, plain: usize, bytes: usize) -> (usize, usize) {
    let left = 60_000usize.saturating_sub(plain).max(1);
    let least = (6 * bytes / left).max(1);
    (least, if random.one_in(3) { least * 200 } else { least.max(6) * 2 })
}

/// How many keys there are, and the bytes in their contents.
fn weight(tree: &Tree) -> (usize, usize) {
    let add = |(keys, bytes), (more, further)| (keys + more, bytes + further);
    match tree {
        Tree::Object(members) => {
            members.iter().map(|(key, value)| add((1, key.len()), weight(value))).fold((0, 0), add)
        }
        Tree::Array(items) | Tree::Tuple(items) => items.iter().map(weight).fold((0, 0), add),
        _ => (0, 0),
    }
}

/// Mostly 2 to 100, and most of all at 8 to 40, where a reader may change its way
/// of looking for a key.
fn count(random: &mut Random) -> usize {
    match random.below(100) {
        0..=1 => 1,
        2..=39 => random.between(2, 100),
        40..=88 => random.between(8, 40),
        89..=98 => random.between(100, 999),
        _ if random.one_in(4) => random.between(4_090, 4_095),
        _ => random.between(1_000, 4_095),
    }
}

/// The text's value: objects, in each other or beside each other, some of which
/// have a key twice.
fn tree(random: &mut Random) -> Tree {
    let keys = count(random);
    match random.below(20) {
        0..=8 => {
            let contents = contents(random, keys, 24_000, &[]);
            object(random, contents, 2)
        }
        9..=14 => {
            let contents = contents(random, keys, 16_000, &[]);
            nested(random, contents, &mut 4_000usize.saturating_sub(keys), 3)
        }
        15..=17 => siblings(random, keys),
        _ => deep(random),
    }
}

/// An object of these keys, some of which come again once in so many times.
fn object(random: &mut Random, mut contents: Vec<String>, once_in: usize) -> Tree {
    if random.one_in(once_in) {
        let times = if random.one_in(3) { random.between(2, 4) } else { 1 };
        for _ in 0..times {
            double(random, &mut contents);
        }
    }
    Tree::Object(contents.into_iter().map(|key| (key, Tree::Scalar)).collect())
}

/// Puts one of the contents a second time, somewhere behind the first.
fn double(random: &mut Random, contents: &mut Vec<String>) {
    let length = contents.len();
    let longest = (0..length).max_by_key(|&at| contents[at].len()).unwrap_or(0);
    let first = match random.below(6) {
        0 => 0,
        1 => length - 1,
        2 => longest,
        3 | 4 if contents[longest].len() > 200 => longest,
        _ => random.below(length),
    };
    let second = match random.below(4) {
        0 => first + 1,
        1 => length,
        _ => random.between(first + 1, length),
    };
    contents.insert(second, contents[first].clone());
}

/// An object in which some values are objects, in a container or not, with keys
/// that the outer one has too.
fn nested(random: &mut Random, keys: Vec<String>, left: &mut usize, room: usize) -> Tree {
    let mut outer = object(random, keys.clone(), 3);
    let Tree::Object(members) = &mut outer else { return outer };
    for _ in 0..random.between(1, 3) {
        let wanted = count(random).min(100).min(*left);
        if room == 0 || wanted == 0 {
            break;
        }
        *left -= wanted;
        let inside = contents(random, wanted, 2_000, &keys);
        let inner = if random.one_in(3) {
            nested(random, inside, left, room - 1)
        } else {
            object(random, inside, 3)
        };
        let at = random.below(members.len());
        members[at].1 = match random.below(6) {
            0 => Tree::Array(vec![inner]),
            1 => Tree::Tuple(vec![Tree::Scalar, inner]),
            _ => inner,
        };
    }
    outer
}

/// Objects in a row with about the same keys.
fn siblings(random: &mut Random, keys: usize) -> Tree {
    let objects = random.between(2, 5);
    let keys = keys.min(4_000 / objects);
    let room = 24_000 / objects;
    let common = contents(random, keys, room, &[]);
    let mut objects: Vec<_> = (1..objects)
        .map(|_| {
            let contents = contents(random, keys, room, &common);
            object(random, contents, 5)
        })
        .collect();
    // Its long keys, if any, come once.
    objects.insert(random.below(objects.len() + 1), object(random, common, 5));
    if random.one_in(2) {
        Tree::Array(objects)
    } else {
        Tree::Tuple(objects)
    }
}

/// Objects in each other, up to as deep as can be, with about the same keys.
fn deep(random: &mut Random) -> Tree {
    let depth = if random.one_in(3) { MAX_DEPTH } else { random.between(2, MAX_DEPTH) };
    let common = contents(random, 20, 400, &[]);
    let mut tree = Tree::Scalar;
    for _ in 0..depth {
        let keys = random.between(1, 24);
        let contents = contents(random, keys, 400, &common);
        let mut outer = object(random, contents, 2 * depth);
        if let Tree::Object(members) = &mut outer {
            let at = random.below(members.len());
            members[at].1 = tree;
        }
        tree = outer;
    }
    tree
}

/// So many different contents, of up to about so many bytes together. Some are
/// among these, if there are any.
fn contents(random: &mut Random, keys: usize, room: usize, common: &[String]) -> Vec<String> {
    let most = (room / keys.max(1)).clamp(4, 200);
    let likes = [Like::new(random, most), Like::new(random, most)];
    let mut special = Vec::new();
    if random.one_in(6) {
        special.push(String::new());
    }
    // Where there are several objects, all but the first have short keys, or the
    // text would be too long.
    if common.is_empty() && keys <= 200 && random.one_in(5) {
        special.extend(long_ones(random));
    }
    let common: Vec<_> = common.iter().filter(|key| key.len() <= 200).collect();
    let share = random.between(2, 9);
    let mut all = HashSet::new();
    let mut listed = Vec::new();
    let mut vain = 0;
    while listed.len() < keys {
        let key = match random.below(10) {
            0..=1 if !special.is_empty() => special.swap_remove(0),
            at if at < share && !common.is_empty() => common[random.below(common.len())].clone(),
            // Where there are no more alike, a number makes one.
            _ if vain > 2 * keys + 20 => format!("n{:x}", listed.len() + random.below(99)),
            at => likes[at % 2].content(random, listed.len()),
        };
        if all.insert(key.clone()) {
            listed.push(key);
        } else {
            vain += 1;
        }
    }
    listed
}

/// What makes contents alike.
struct Like {
    sort: usize,
    base: String,
}

impl Like {
    fn new(random: &mut Random, most: usize) -> Like {
        let most = match random.below(4) {
            0 => most.min(3),
            1 | 2 => most.min(16),
            _ => most,
        };
        let length = random.between(1, most);
        let base = if random.one_in(2) {
            "a".repeat(length)
        } else {
            (0..length).map(|_| char::from(b'a' + random.below(26) as u8)).collect()
        };
        Like { sort: random.below(8), base }
    }

    /// A content that is much like the others.
    fn content(&self, random: &mut Random, number: usize) -> String {
        let base = &self.base;
        match self.sort {
            // They differ in a number at the end, or at the front.
            0 => format!("{base}{}", random.below(2 * number + 20)),
            1 => format!("_{number:03x}{base}"),
            // In one byte or one bit, or in a few if there are many of them.
            2 | 3 => {
                let mut bytes = base.clone().into_bytes();
                for _ in 0..1 + random.below(1 + number / (16 * bytes.len())) {
                    let at = some_place(random, bytes.len());
                    bytes[at] = match self.sort {
                        2 => random.between(0x20, 0x7E) as u8,
                        _ => bytes[at] ^ 1 << random.below(7),
                    };
                }
                String::from_utf8_lossy(&bytes).into_owned()
            }
            // One is a front of the other.
            4 => base.chars().cycle().take(random.below(base.len() + 3)).collect(),
            // 00 at the end, and elsewhere.
            5 => {
                let zeros = "\0".repeat(random.below(4 + base.len() / 8));
                let front = if random.one_in(4) { "\0" } else { "" };
                format!("{front}{}{zeros}", &base[..random.below(base.len().min(3) + 1)])
            }
            // Characters of two to four bytes, many of which differ in one.
            6 => (0..random.between(1, 1 + base.len() / 4)).map(|_| character(random)).collect(),
            _ => {
                let pieces =
                    ["a", "b", "\"", "\\", "#", "\"#", "\n", "\t", "\0", "é", " ", "x", ":"];
                (0..random.below(base.len().min(6) + 1)).map(|_| random.pick(&pieces)).collect()
            }
        }
    }
}

/// The front, the middle, the end, or any.
fn some_place(random: &mut Random, length: usize) -> usize {
    match random.below(5) {
        0 => 0,
        1 => length / 2,
        2 | 3 => length - 1,
        _ => random.below(length),
    }
}

fn character(random: &mut Random) -> char {
    let bases =
        [0x80, 0xE0, 0x7E0, 0x800, 0x20A0, 0xD7E0, 0xE000, 0xFFE0, 0x10000, 0x1F600, 0x10FFE0];
    let code = bases[random.below(bases.len())] + random.below(0x20) as u32;
    char::from_u32(code).unwrap_or('é')
}

/// Lengths of long contents, at both sides of where a reader may go another way.
const LENGTHS: [usize; 23] = [
    255, 256, 257, 511, 512, 513, 1_023, 1_024, 1_025, 2_040, 2_041, 2_042, 2_043, 2_044, 2_045,
    2_046, 2_047, 2_048, 2_049, 2_050, 4_095, 4_096, 4_097,
];

const LONGEST: usize = 20_000;

/// A few long contents that go on alike for long.
fn long_ones(random: &mut Random) -> Vec<String> {
    let fill = ['a', 'a', 'é', '\u{1F600}'][random.below(4)];
    // So that one of them may come twice within a text; but of two of the longest
    // neither does.
    let (length, mut left) = match random.below(12) {
        0 => (LONGEST, 42_000),
        1 => (LONGEST, 22_000),
        _ => (LENGTHS[random.below(LENGTHS.len())], 22_000),
    };
    let mut all = Vec::new();
    for _ in 0..random.between(2, 6) {
        let length = match random.below(8) {
            0 => length + 1,
            1 => length - 1,
            2 => length + 256,
            3 => LENGTHS[random.below(LENGTHS.len())],
            _ => length,
        };
        if length > left {
            break;
        }
        left -= length;
        all.push(long_one(random, fill, length));
    }
    all
}

/// Of so many bytes, about; a place may differ from the rest.
fn long_one(random: &mut Random, fill: char, length: usize) -> String {
    let width = fill.len_utf8();
    let front = std::iter::repeat('b').take(length % width);
    let mut all: Vec<_> = front.chain(std::iter::repeat(fill).take(length / width)).collect();
    let at = match random.below(8) {
        0 => all.len(),
        1 => 255 / width,
        2 => 2_043 / width,
        3 => 2_046 / width,
        4 => 2_045 / width,
        _ => some_place(random, all.len()),
    };
    if let Some(place) = all.get_mut(at) {
        // Those of more bytes than one differ in a bit or a byte of the last.
        let others = match width {
            1 => ['b', 'c', 'e', '\0'],
            2 => ['è', 'í', 'ë', 'ù'],
            _ => ['\u{1F601}', '\u{1F602}', '\u{1F604}', '\u{1F608}'],
        };
        *place = others[random.below(4)];
    }
    all.into_iter().collect()
}

/// A node to put a fault at: any, or one about the first doubled key.
fn some_node(random: &mut Random, rows: &[Row], keys: &[Key]) -> usize {
    let first = all_doubled(keys).first().copied();
    let near = first.and_then(|start| rows.iter().position(|row| row[4] as usize == start));
    match near {
        Some(node) if random.one_in(2) => {
            (node + random.below(5)).saturating_sub(2).clamp(1, rows.len() - 1)
        }
        _ if random.one_in(4) => rows.len() - 1,
        _ => random.between(1, rows.len() - 1),
    }
}

/// A fault that was put into a text.
struct Spoiled {
    number: u32,
    place: u64,
    /// Up to here the text is as it was.
    from: usize,
    /// Where the old text goes on behind it, and where that is now.
    rest: Option<(usize, usize)>,
    /// Place and number if a node that it opens has no room.
    full: Option<(u64, u32)>,
}

/// Tokens with a fault of their own, whatever stands before and after.
const BAD: &[(u32, &str)] = &[
    (3, "00"),
    (3, "1__0"),
    (3, "1e"),
    (3, "a_"),
    (3, "_"),
    (3, "@"),
    (3, "é"),
    (3, "r#x"),
    (4, r#""\q""#),
    (4, r#""Jos\xE9""#),
    (4, r#""\uD800""#),
    (4, "\"a\tb\""),
    (4, "r\"\u{7F}\""),
    (4, r#"b64"A""#),
    (5, "9223372036854775808"),
    (5, "0x8000000000000000"),
    (5, "1e401"),
    (6, "'"),
    (6, "'2026-11-15'"),
];

/// Puts a fault at a node's key or value, behind it, or at the text's end. What
/// stands before it stays.
fn spoil(
    random: &mut Random,
    text: &mut Vec<u8>,
    rows: &[Row],
    node: usize,
    limit: usize,
) -> Spoiled {
    let [start, end, key, key_end] = [2, 3, 4, 5].map(|word| rows[node][word] as usize);
    let (number, bad) = BAD[random.below(BAD.len())];
    match random.below(16) {
        0..=2 => put(text, start, end, number, bad),
        3..=4 if key_end > 0 => put(text, key, key_end, number, bad),
        // "7 is at the first token that no taken text could have there".
        5 => put(text, start, end, 7, random.pick(&[":", "}", "nope"])),
        6 if key_end > 0 => {
            put(text, key, key_end, 7, random.pick(&[",", ":", "[", "b\"x\"", "1"]))
        }
        7 | 8 => {
            // Behind a key no more than a colon may come, behind a value a comma or
            // an end.
            let (at, bad) = if key_end > 0 && random.one_in(3) {
                (key_end, random.pick(&["0", ",", "\"x\"", "}", "A(1)"]))
            } else {
                (end, random.pick(&["0", ":", "\"x\"", "[", "A(1)"]))
            };
            text.insert(at, b' ');
            let spoiled = put(text, at + 1, at + 1, 7, bad);
            Spoiled { rest: spoiled.rest.map(|(_, now)| (at, now)), ..spoiled }
        }
        // "or text ends early": 7 at the length.
        9 | 10 => {
            let edges =
                if key_end > 0 { [start, end, key, key_end] } else { [start, end, start, end] };
            let edge = edges[random.below(4)];
            text.truncate(edge);
            cut(7, edge)
        }
        // Not closed.
        11 => {
            text.truncate(start);
            text.extend_from_slice(
                random.pick(&["\"x", "/* x", "r#\"x\"", "b\"\\\"", "/*/"]).as_bytes(),
            );
            cut(3, start)
        }
        12 if text.get(key) == Some(&b'"') && key_end > key + 2 => {
            text.truncate(random.between(key + 1, key_end - 1));
            cut(3, key)
        }
        13 | 14 => {
            // Too deep: the root is the first container.
            let open = parents(rows, node).count();
            let spoiled = put(text, start, end, 9, &"[".repeat(MAX_DEPTH + 1 - open));
            let last = (MAX_DEPTH - open) as u64;
            let full = limit.checked_sub(node).map(|more| (start as u64 + more as u64, 10));
            let full = full.filter(|&(place, _)| place < start as u64 + last);
            Spoiled { place: start as u64 + last, full, ..spoiled }
        }
        _ => {
            // Behind the root; a comment that it ends in is closed by the line end.
            text.push(b'\n');
            let length = text.len();
            let (number, bad) = if random.one_in(2) { (number, bad) } else { (7, "}") };
            put(text, length, length, number, bad)
        }
    }
}

/// Puts a bad token in place of these bytes.
fn put(text: &mut Vec<u8>, start: usize, end: usize, number: u32, bad: &str) -> Spoiled {
    text.splice(start..end, bad.bytes());
    let rest = Some((end, start + bad.len()));
    Spoiled { number, place: start as u64, from: start, rest, full: None }
}

/// The text ends with this fault.
fn cut(number: u32, place: usize) -> Spoiled {
    Spoiled { number, place: place as u64, from: place, rest: None, full: None }
}
