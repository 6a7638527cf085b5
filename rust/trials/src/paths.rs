//! Texts, each with paths to ask for, by document 02's request 09. Of a document
//! that was made as a value it is known beforehand where every path leads; and
//! a path with one step made wrong must end at that step. Nothing here depends
//! on the reader under trial.

use second::{MAX_NODES, ROW};

use crate::random::Random;
use crate::texts;
use crate::trees::{self, document, Document};
use crate::writer::Row;

/// A text and some paths.
#[derive(Debug, Clone, PartialEq, Eq)]
pub struct Case {
    /// Where the text is from.
    pub source: Source,
    /// The text.
    pub text: Vec<u8>,
    /// The rows that its reading must have, if they are known; these are within
    /// all limits but the table's and the text's lengths.
    pub rows: Option<Vec<Row>>,
    /// The paths.
    pub asked: Vec<Asked>,
}

/// Where a text is from.
#[derive(Debug, Clone, Copy, PartialEq, Eq)]
pub enum Source {
    /// A document as it was written.
    Document,
    /// A document with some bytes changed.
    Damaged,
    /// The texts of the readers' own trials.
    Elsewhere,
}

/// A path to ask for.
#[derive(Debug, Clone, PartialEq, Eq)]
pub struct Asked {
    /// What sort of path this is.
    pub sort: &'static str,
    /// The path.
    pub path: Vec<u8>,
    /// The lent table's length in words.
    pub words: usize,
    /// The node that it leads to, or the first step that has no child to go to,
    /// if the text reads and this is known.
    pub known: Option<Result<usize, usize>>,
}

/// Makes a text and its paths. The error is a slip in the making.
pub fn case(random: &mut Random) -> Result<Case, String> {
    match random.below(20) {
        0..=2 => Ok(elsewhere(random)),
        3 | 4 => {
            let mut case = of_document(random)?;
            for _ in 0..random.between(1, 2) {
                texts::damage(random, &mut case.text);
            }
            for asked in &mut case.asked {
                asked.known = None;
            }
            Ok(Case { source: Source::Damaged, rows: None, ..case })
        }
        _ => of_document(random),
    }
}

/// Any of the texts that the readers are tried on.
pub(crate) fn other_text(random: &mut Random) -> texts::Case {
    // A reading compares each key with all others of its object, so thousands of
    // them take long.
    let takes_long = |case: &texts::Case| case.sort == "node limit" && case.text[0] == b'{';
    let mut case = texts::case(random.next(), 0);
    if takes_long(&case) && !random.one_in(8) {
        case = texts::case(random.next(), 0);
    }
    case
}

/// One of these texts, with paths by chance.
fn elsewhere(random: &mut Random) -> Case {
    let texts::Case { text, words, .. } = other_text(random);
    let paths = if text.len() > 10_000 { 1 } else { random.between(2, 5) };
    let mut asked = Vec::new();
    for _ in 0..paths {
        let path = by_chance(random, &[]);
        asked.push(Asked { sort: "by chance", path, words, known: None });
    }
    Case { source: Source::Elsewhere, text, rows: None, asked }
}

fn of_document(random: &mut Random) -> Result<Case, String> {
    let document = document(random);
    let mut asked = Vec::new();
    for _ in 0..random.between(3, 9) {
        let Way { sort, path, known } = way(random, &document);
        let followed = document.follow(&path);
        if known.is_some_and(|known| known != followed) {
            let text = document.text.escape_ascii();
            let path = path.escape_ascii();
            return Err(format!("no case: {sort}: {path}: {known:?}, not {followed:?}\n{text}"));
        }
        let words = words(random, document.rows.len());
        asked.push(Asked { sort, path, words, known: Some(followed) });
    }
    let Document { text, rows, .. } = document;
    Ok(Case { source: Source::Document, text, rows: Some(rows), asked })
}

/// The length of a table for so many nodes: just enough, with room to spare, or
/// too short.
pub(crate) fn words(random: &mut Random, nodes: usize) -> usize {
    match random.below(200) {
        0 => ROW * MAX_NODES + random.below(30),
        1..=40 => ROW * nodes,
        41..=80 => ROW * nodes + random.below(ROW),
        81..=92 => (ROW * nodes).saturating_sub(1 + random.below(ROW)),
        93..=100 => ROW * random.below(nodes) + random.below(ROW),
        _ => ROW * (nodes + random.below(6)) + random.below(ROW),
    }
}

/// A path, and where it leads if that is known from its making.
struct Way {
    sort: &'static str,
    path: Vec<u8>,
    known: Option<Result<usize, usize>>,
}

/// Steps behind one that has no child: they mean nothing.
const FURTHER: &[&[u8]] = &[b"0", b"a", b"", b"1", b"\xFF"];

fn joined(steps: &[&[u8]]) -> Vec<u8> {
    steps.join(&b'.')
}

fn has_dot(step: &&[u8]) -> bool {
    step.contains(&b'.')
}

/// Any node, rather a deep one than not.
fn any_node(random: &mut Random, document: &Document) -> usize {
    let mut node = random.below(document.places.len());
    for _ in 0..random.below(3) {
        let other = random.below(document.places.len());
        if document.way(other).len() > document.way(node).len() {
            node = other;
        }
    }
    node
}

fn way(random: &mut Random, document: &Document) -> Way {
    let node = any_node(random, document);
    let steps = document.way(node);
    match random.below(20) {
        0..=4 => to_node(document, node),
        5..=13 => wrong_step(random, document, node),
        14 | 15 => beyond(random, document, node),
        16 => dots(random, joined(&steps)),
        17 => {
            // Steps of this document, in any order.
            let steps: Vec<_> = document.places.iter().map(|place| &place.step[..]).collect();
            Way { sort: "by chance", path: by_chance(random, &steps), known: None }
        }
        18 if random.one_in(10) => long(random, joined(&steps)),
        _ => Way { sort: "by chance", path: by_chance(random, &steps), known: None },
    }
}

/// The path to a node, or what stands for it if it can't be reached.
fn to_node(document: &Document, node: usize) -> Way {
    let steps = document.way(node);
    let path = joined(&steps);
    if node == 0 {
        Way { sort: "the root", path, known: Some(Ok(0)) }
    } else if path.is_empty() {
        // An empty key at the root.
        Way { sort: "the empty path for an empty key", path, known: Some(Ok(0)) }
    } else if steps.iter().any(has_dot) {
        Way { sort: "a key with a dot", path, known: None }
    } else {
        Way { sort: "to a node", path, known: Some(Ok(node)) }
    }
}

/// The path to a node, with one of its steps made wrong.
fn wrong_step(random: &mut Random, document: &Document, node: usize) -> Way {
    let steps = document.way(node);
    // Behind a step with a dot nothing is reached.
    let reached = steps.iter().position(has_dot).map_or(steps.len(), |dotted| dotted + 1);
    if reached == 0 {
        return beyond(random, document, node);
    }
    let at = if random.one_in(2) { reached - 1 } else { random.below(reached) };
    let mut child = node;
    for _ in at + 1..steps.len() {
        child = document.places[child].parent.unwrap_or(0);
    }
    let parent = document.places[child].parent.unwrap_or(0);
    for _ in 0..20 {
        let (sort, wrong) = slip(random, document, parent, child);
        if document.child(parent, &wrong).is_some() {
            continue;
        }
        let wrong = &wrong[..];
        let mut steps = steps.clone();
        steps[at] = wrong;
        match random.below(6) {
            0 => steps.truncate(at + 1),
            1 => {
                steps.truncate(at + 1);
                for _ in 0..random.between(1, 4) {
                    steps.push(random.pick(FURTHER));
                }
            }
            _ => {}
        }
        let path = joined(&steps);
        let known = match path.is_empty() {
            true => Some(Ok(0)),
            false if has_dot(&wrong) => None,
            false => Some(Err(at)),
        };
        return Way { sort, path, known };
    }
    // Hardly ever: every slip was another child's step.
    to_node(document, node)
}

/// A step that is near the one that leads from the parent to the child, but
/// mostly none that leads anywhere.
fn slip(
    random: &mut Random,
    document: &Document,
    parent: usize,
    child: usize,
) -> (&'static str, Vec<u8>) {
    let any = random.below(document.places.len());
    let position = document.places[parent].children.iter().position(|&other| other == child);
    let position = position.unwrap_or(0);
    match random.below(20) {
        0 => return ("an empty step", Vec::new()),
        1 => {
            // That of the parent, the child or any node, if it has one.
            let name = document.name([parent, child, any][random.below(3)]);
            let sort = if name.is_empty() { "an empty step" } else { "an identifier's name" };
            return (sort, name.to_vec());
        }
        2 => return ("a step from elsewhere", document.places[any].step.clone()),
        3 => return ("a node's number", child.to_string().into_bytes()),
        _ => {}
    }
    if document.places[parent].is_object {
        let key = document.places[child].step.clone();
        wrong_key(random, key, document.key_as_written(child), position)
    } else {
        wrong_index(random, position, document.places[parent].children.len())
    }
}

/// A step near a key, which is written in this way and stands at this position.
fn wrong_key(
    random: &mut Random,
    mut key: Vec<u8>,
    written: &[u8],
    position: usize,
) -> (&'static str, Vec<u8>) {
    match random.below(9) {
        0 => ("a key as written", written.to_vec()),
        1 => {
            // Only what stands between the quotes.
            let is_quote = |&byte: &u8| byte == b'"';
            let start = written.iter().position(is_quote).map_or(0, |at| at + 1);
            let end = written.iter().rposition(is_quote).unwrap_or(written.len());
            ("a key as written", written[start.min(end)..end].to_vec())
        }
        2 => ("a key in quotes", [b"\"", &key[..], b"\""].concat()),
        3 => {
            let length = match random.below(3) {
                0 => random.below(key.len() + 1),
                _ => key.len().saturating_sub(1),
            };
            key.truncate(length);
            ("a key's front", key)
        }
        4 => {
            key.drain(..key.len().min(1));
            ("a key's end", key)
        }
        5 => {
            key.push(*random.pick(&[&0, &b' ', &b'a', &b'0', &b'"', &0xC3, &0xFF]));
            ("a key and more", key)
        }
        6 => {
            for byte in &mut key {
                *byte = if byte.is_ascii_lowercase() {
                    byte.to_ascii_uppercase()
                } else {
                    byte.to_ascii_lowercase()
                };
            }
            ("a key in other letters", key)
        }
        7 => {
            let at = match random.below(3) {
                0 => 0,
                1 => random.below(key.len()),
                _ => key.len().saturating_sub(1),
            };
            if let Some(byte) = key.get_mut(at) {
                *byte ^= 1 << random.below(8);
            }
            ("a key with a byte changed", key)
        }
        _ => ("an index in an object", position.to_string().into_bytes()),
    }
}

/// A step near an index, in a container of so many children.
fn wrong_index(random: &mut Random, index: usize, children: usize) -> (&'static str, Vec<u8>) {
    let digits = index.to_string();
    let (sort, step) = match random.below(12) {
        0 | 1 => {
            let zeros = if random.one_in(4) { random.between(2, 40) } else { 1 };
            ("a leading zero", "0".repeat(zeros) + &digits)
        }
        2 => ("a sign", random.pick(&["+", "-", "-", "--", "+-"]).to_string() + &digits),
        3 => ("minus one", format!("-{}", children - index)),
        4 => {
            // Often between two digits, if there is such an index.
            let index = if children > 10 { random.between(10, children - 1) } else { index };
            let mut step = index.to_string();
            step.insert(random.below(step.len() + 1), '_');
            ("an underscore", step)
        }
        5 | 6 => ("past the end", (children + random.below(3)).to_string()),
        7 => {
            // The index again, if it is kept in so many bits.
            let bits = [8, 16, 31, 32, 32, 63, 64, 64, 96][random.below(9)];
            let times = 1 + random.below(9) as u128;
            ("a wide index", ((times << bits) + index as u128).to_string())
        }
        8 => {
            let step = match random.below(4) {
                0 => u32::MAX.to_string(),
                1 => u64::MAX.to_string(),
                // One less than 0, of so many bits.
                2 => (1u128 << [31, 32, 63, 64][random.below(4)]).to_string(),
                _ => {
                    let mut step = String::from(random.pick(&["1", "9"]));
                    for _ in 0..random.between(9, 29) {
                        step.push(char::from(b'0' + random.below(10) as u8));
                    }
                    step
                }
            };
            ("a wide index", step)
        }
        9 => {
            // By the bytes beside the digits, of which `/` would be -1 and `:` 10.
            let step = match (index + 1) % 10 {
                0 => format!("{}/", (index + 1) / 10),
                1 if index == 10 => ":".to_string(),
                1 if index > 10 => format!("{}:", index / 10 - 1),
                _ => format!("{digits}{}", random.pick(&["/", ":", ";"])),
            };
            ("no digits", step)
        }
        10 => {
            let other = ["\u{660}", "\u{661}", "\u{FF10}", "\u{FF11}", "²", "a", "x", "A", "-", ""];
            ("no digits", random.pick(&other).to_string())
        }
        _ => {
            let more = ["a", " ", "\0", "\n", "e0", "x", "_", "+", "%", "]", "é", ",", "h"];
            let before = [" ", "\t", "0x", "0b", "0o", "#", "[", "a", "\0"];
            let step = if random.one_in(2) {
                digits + random.pick(&more)
            } else {
                random.pick(&before).to_string() + &digits
            };
            ("digits and more", step)
        }
    };
    (sort, step.into_bytes())
}

/// The path to a node, and a step that its value has no child for: any step, if
/// it is a scalar.
fn beyond(random: &mut Random, document: &Document, node: usize) -> Way {
    let steps = document.way(node);
    let any = random.below(document.places.len());
    let further: Vec<u8> = match random.below(5) {
        0 => Vec::new(),
        1 => random.below(3).to_string().into_bytes(),
        2 => document.places[any].step.clone(),
        3 => document.places[node].children.len().to_string().into_bytes(),
        _ => document.name(node).to_vec(),
    };
    let mut beyond = steps.clone();
    beyond.push(&further);
    for _ in 0..random.below(3) {
        beyond.push(random.pick(FURTHER));
    }
    let path = joined(&beyond);
    let is_plain = !path.is_empty() && !beyond.iter().any(has_dot);
    let is_stuck = document.child(node, &further).is_none();
    let known = (is_plain && is_stuck).then_some(Err(steps.len()));
    let is_scalar = document.rows[node][0] > 3;
    Way { sort: if is_scalar { "below a scalar" } else { "below a container" }, path, known }
}

/// A path with dots before it, behind it or in it.
fn dots(random: &mut Random, mut path: Vec<u8>) -> Way {
    let places: Vec<usize> = (0..path.len()).filter(|&at| path[at] == b'.').collect();
    match random.below(5) {
        0 | 1 => {
            path.push(b'.');
            Way { sort: "a dot behind", path, known: None }
        }
        2 => {
            path.insert(0, b'.');
            Way { sort: "a dot before", path, known: None }
        }
        3 if !places.is_empty() => {
            path.insert(places[random.below(places.len())], b'.');
            Way { sort: "a doubled dot", path, known: None }
        }
        _ if !places.is_empty() => {
            let at = places[random.below(places.len())];
            match random.pick(&["", "/", ",", "\0", "\\."]) {
                "" => drop(path.remove(at)),
                other => drop(path.splice(at..=at, other.bytes())),
            }
            Way { sort: "no dot", path, known: None }
        }
        _ => Way { sort: "dots alone", path: vec![b'.'; random.between(1, 40)], known: None },
    }
}

/// A path of up to tens of thousands of bytes, with a good one before them.
fn long(random: &mut Random, mut path: Vec<u8>) -> Way {
    let unit = random.pick(&[".", "0.", "a.", "0", "9", "a", ".0"]);
    if random.one_in(2) && !path.is_empty() {
        path.push(b'.');
    }
    let times = match random.below(3) {
        0 => random.between(30, 600),
        1 => random.between(65_530, 65_540),
        _ => random.between(65_536, 80_000),
    };
    path.extend_from_slice(unit.repeat(times / unit.len()).as_bytes());
    Way { sort: "a long path", path, known: None }
}

/// Dots, digits, letters and some of these steps.
fn by_chance(random: &mut Random, steps: &[&[u8]]) -> Vec<u8> {
    let mut path = Vec::new();
    for _ in 0..random.below(9) {
        match random.below(8) {
            0..=2 => path.push(b'.'),
            3 => path.push(b'0'),
            4 => path.push(b'1'),
            5 => path.push(*random.pick(&[&b'a', &b'b', &b'k', &b'A', &b'2', &0, &0xFF])),
            _ if steps.is_empty() => path.extend_from_slice(b"0."),
            _ => {
                path.extend_from_slice(steps[random.below(steps.len())]);
                if random.one_in(2) {
                    path.push(b'.');
                }
            }
        }
    }
    path
}

impl Case {
    /// What reading the text into a table of so many words must come to, if that
    /// is known: the answer and the whole table.
    pub fn reading(&self, words: usize) -> Option<(crate::check::Answer, Vec<u32>)> {
        Some(trees::reading(&self.text, self.rows.as_ref()?, words))
    }
}

#[cfg(test)]
mod tests {
    use super::*;

    #[test]
    fn cases_follow_from_seed_and_number() {
        let made = |seed, number| case(&mut Random::for_case(seed, number)).unwrap();
        for number in 0..200 {
            assert_eq!(made(3, number), made(3, number));
        }
        assert!((0..200).any(|number| made(3, number) != made(4, number)));
    }

    /// Where it is known what reading a text comes to, `second` reads it so.
    #[test]
    fn readings_are_as_known() {
        for number in 0..1_000 {
            let case = case(&mut Random::for_case(7, number)).unwrap();
            for Asked { words, .. } in &case.asked {
                let Some((known, rows)) = case.reading(*words) else { continue };
                let mut table = crate::check::rubbish(*words);
                let answer = crate::check::second_read(&case.text, &mut table);
                assert_eq!((answer, table), (known, rows), "{}", case.text.escape_ascii());
            }
        }
    }
}
