//! Texts to be summarized, by document 02's request 05: arrays of records with a
//! height of every sort, now and then with another value among them or around
//! them. They are made as a value first, so that it is known beforehand what
//! their summary is. Some are broken, and some are the texts of the readers' own
//! trials. Nothing here depends on the reader under trial.

use second::{MAX_DEPTH, MAX_TEXT};

use crate::heights::{self, Height, Summary};
use crate::paths::{self, Source};
use crate::random::Random;
use crate::summarizing::Answer;
use crate::texts;
use crate::trees::{self, Document, Tree};
use crate::writer::Row;

/// "the key `height_mm`"
pub const KEY: &str = "height_mm";

/// A text and the tables for it.
#[derive(Debug, Clone, PartialEq, Eq)]
pub struct Case {
    /// Where the text is from.
    pub source: Source,
    /// The text.
    pub text: Vec<u8>,
    /// The rows that its reading must have, if they are known; these are within
    /// all limits but the table's and the text's lengths.
    pub rows: Option<Vec<Row>>,
    /// The answer, if the text is taken and this is known.
    pub known: Option<Answer>,
    /// The lengths of the tables that it is read into, one after the other, in
    /// words.
    pub words: Vec<usize>,
}

impl Case {
    /// What reading the text into a table of so many words must come to, if that
    /// is known: the answer and the whole table.
    pub fn reading(&self, words: usize) -> Option<(crate::check::Answer, Vec<u32>)> {
        Some(trees::reading(&self.text, self.rows.as_ref()?, words))
    }
}

/// Makes a text and its tables.
pub fn case(random: &mut Random) -> Case {
    match random.below(40) {
        0..=2 => elsewhere(random),
        3..=5 => broken(random),
        6..=8 => with_fault(random),
        9 => padded(random),
        _ => of_document(random),
    }
}

fn elsewhere(random: &mut Random) -> Case {
    let texts::Case { text, words, .. } = paths::other_text(random);
    Case { source: Source::Elsewhere, text, rows: None, known: None, words: vec![words] }
}

fn of_document(random: &mut Random) -> Case {
    let document = document(random);
    let nodes = document.rows.len();
    let tables = if nodes > 400 { 1 } else { random.between(1, 3) };
    let words = (0..tables).map(|_| paths::words(random, nodes)).collect();
    let known = Some(known(&document));
    let Document { text, rows, .. } = document;
    Case { source: Source::Document, text, rows: Some(rows), known, words }
}

/// What the summary of a document must be, by the value that it was made of.
fn known(document: &Document) -> Answer {
    let Document { rows, places, .. } = document;
    let elements = &places[0].children;
    if rows[0][0] != 2 {
        return Err((21, 0));
    }
    if let Some(&other) = elements.iter().find(|&&element| rows[element][0] != 1) {
        return Err((21, other as u64));
    }
    let height = |&record: &usize| {
        let value = document.child(record, KEY.as_bytes());
        Height::by_row(value.map(|value| &rows[value]))
    };
    Ok(Summary::of(elements.iter().map(height)))
}

/// A text that something was done to, so that its reading isn't known.
fn unknown(case: Case, text: Vec<u8>) -> Case {
    Case { source: Source::Damaged, text, rows: None, known: None, ..case }
}

/// Some bytes are changed.
fn broken(random: &mut Random) -> Case {
    let case = of_document(random);
    let mut text = case.text.clone();
    for _ in 0..random.between(1, 2) {
        texts::damage(random, &mut text);
    }
    unknown(case, text)
}

/// What stands in the place of a value: refused with 3, 4, 5, 6 or 7.
const FAULTS: &[&str] = &[
    "00",
    "1e",
    "0.5_",
    "\"",
    "412.",
    "\"\\q\"",
    "\"\\xFF\"",
    "9223372036854775808",
    "0.1e402",
    "'2025-06-01'",
    "'",
    ":",
    "",
    "412,5",
    "height_mm",
];

/// One fault, of one of the numbers 2 to 9.
fn with_fault(random: &mut Random) -> Case {
    match random.below(6) {
        0 => {
            // A byte that is no character's.
            let case = of_document(random);
            let mut text = case.text.clone();
            let at = random.below(text.len() + 1);
            text.insert(at, *random.pick(&[&0xFF, &0x80, &0xC3]));
            unknown(case, text)
        }
        1 => of_tree(random, |random| {
            // "A record held one height key twice", in any two spellings.
            let mut members = members(random, Sorts::Any);
            for _ in 0..2 {
                let at = random.below(members.len() + 1);
                members.insert(at, (KEY.to_string(), heights::measured(random)));
            }
            Tree::Object(members)
        }),
        2 => of_tree(random, |random| {
            let mut deep = heights::measured(random);
            // With the root and the record that are around it, some too deep.
            for _ in 0..MAX_DEPTH - random.below(4) {
                deep = if random.one_in(2) { Tree::Array(vec![deep]) } else { record(deep) };
            }
            record(deep)
        }),
        _ => {
            let case = of_document(random);
            let rows = case.rows.as_deref().unwrap_or_default();
            let row = rows[random.below(rows.len())];
            let fault = random.pick(FAULTS);
            let mut text = case.text.clone();
            text.splice(row[2] as usize..row[3] as usize, fault.bytes());
            unknown(case, text)
        }
    }
}

/// Some records and this one among them, which may be one that doesn't read.
fn of_tree(random: &mut Random, make: impl FnOnce(&mut Random) -> Tree) -> Case {
    let mut elements: Vec<_> = (0..random.below(4)).map(|_| any_record(random)).collect();
    let made = make(random);
    elements.insert(random.below(elements.len() + 1), made);
    let Document { text, rows, .. } = Document::new(random, &Tree::Array(elements), false);
    let words = vec![paths::words(random, rows.len())];
    Case { source: Source::Damaged, text, rows: None, known: None, words }
}

/// Spaces behind the text, so that it is about as long as a text may be.
fn padded(random: &mut Random) -> Case {
    let mut case = of_document(random);
    if random.one_in(3) && case.text.len() < MAX_TEXT {
        case.text.resize(random.between(MAX_TEXT - 1, MAX_TEXT + 2), b' ');
        case.words.truncate(1);
    }
    case
}

/// Of which sorts the records of a text are.
#[derive(Debug, Clone, Copy, PartialEq, Eq)]
enum Sorts {
    Any,
    Measured,
    /// Any but measured, unless by chance.
    Others,
}

fn document(random: &mut Random) -> Document {
    if random.one_in(30) {
        // Any root at all.
        return trees::document(random);
    }
    let choice = random.below(1_000);
    let count = match choice {
        0..=3 => random.between(1_000, 2_047),
        4..=11 => random.between(80, 300),
        12..=150 => random.between(9, 30),
        _ => random.below(9),
    };
    let sorts = match random.below(8) {
        0 | 1 => Sorts::Others,
        2 => Sorts::Measured,
        _ => Sorts::Any,
    };
    let tree = match choice {
        // With one node for a record, or two, about as many records as can be.
        0 => Tree::Array(vec![Tree::Object(Vec::new()); 2 * count + 1]),
        1..=3 => Tree::Array((0..count).map(|_| bare(random, sorts)).collect()),
        _ => {
            let mut elements = Vec::new();
            for _ in 0..count {
                elements.push(Tree::Object(members(random, sorts)));
            }
            around(random, elements)
        }
    };
    Document::new(random, &tree, choice <= 3)
}

/// The records in an array: now and then with other values among them, or in
/// another container.
fn around(random: &mut Random, mut elements: Vec<Tree>) -> Tree {
    if random.one_in(8) {
        for _ in 0..random.between(1, 3) {
            let other = match random.below(4) {
                0 => Tree::Null,
                1 => Tree::Array(vec![any_record(random)]),
                2 => Tree::Tuple(vec![any_record(random)]),
                _ => trees::any(random, 4, 3),
            };
            elements.insert(random.below(elements.len() + 1), other);
        }
    }
    match random.below(40) {
        0 => Tree::Tuple(elements),
        1 => Tree::Array(vec![Tree::Array(elements)]),
        2 => record(Tree::Array(elements)),
        3 => {
            let key = |(number, value)| (format!("k{number}"), value);
            Tree::Object(elements.into_iter().enumerate().map(key).collect())
        }
        _ => Tree::Array(elements),
    }
}

/// An object with this height and nothing else.
fn record(height: Tree) -> Tree {
    Tree::Object(vec![(KEY.to_string(), height)])
}

/// A record of at most two nodes.
fn bare(random: &mut Random, sorts: Sorts) -> Tree {
    match random.below(8) {
        0 => Tree::Object(Vec::new()),
        1 => record(Tree::Null),
        2 => record(Tree::Scalar),
        _ if sorts == Sorts::Others => record(Tree::Integer(-1)),
        _ => record(heights::measured(random)),
    }
}

fn any_record(random: &mut Random) -> Tree {
    Tree::Object(members(random, Sorts::Any))
}

/// Keys that are near the one that is asked for, and others.
const OTHER_KEYS: &[&str] = &[
    "height",
    "height_m",
    "height_mmm",
    "height_mn",
    "Height_mm",
    "HEIGHT_MM",
    "height-mm",
    "heightmm",
    "_height_mm",
    " height_mm",
    "height_mm ",
    "height_mm\0",
    "height_mm.0",
    "\"height_mm\"",
    "h\\x65ight_mm",
    "eight_mm",
    "aaaaaaaaa",
    "hauteur_m",
    "mm_height",
    "ball",
    "rig",
    "",
    "é",
];

/// The members of a record: its height, unless it is absent, among others.
fn members(random: &mut Random, sorts: Sorts) -> Vec<(String, Tree)> {
    let mut members: Vec<(String, Tree)> = Vec::new();
    for _ in 0..random.below(4) {
        let key = random.pick(OTHER_KEYS);
        if members.iter().all(|(other, _)| other != key) {
            members.push((key.to_string(), other_value(random)));
        }
    }
    let height = match random.below(8) {
        _ if sorts == Sorts::Measured => Some(heights::measured(random)),
        0 => Some(Tree::Null),
        1 => None,
        2..=4 if sorts == Sorts::Any => Some(heights::measured(random)),
        2 => Some(Tree::Null),
        3 => None,
        _ => Some(heights::unfit(random)),
    };
    if let Some(height) = height {
        let at = random.below(members.len() + 1);
        members.insert(at, (KEY.to_string(), height));
    }
    members
}

/// The value of another key. The key that is asked for may be further in.
fn other_value(random: &mut Random) -> Tree {
    match random.below(6) {
        0 => heights::measured(random),
        1 => record(heights::measured(random)),
        2 => {
            let records = vec![record(heights::measured(random)), record(Tree::Null)];
            Tree::Array(records)
        }
        3 => trees::any(random, 4, 3),
        _ => Tree::Scalar,
    }
}

#[cfg(test)]
mod tests {
    use super::*;
    use crate::check::{rubbish, second_read};

    #[test]
    fn cases_follow_from_seed_and_number() {
        let made = |seed, number| case(&mut Random::for_case(seed, number));
        for number in 0..200 {
            assert_eq!(made(3, number), made(3, number));
        }
        assert!((0..200).any(|number| made(3, number) != made(4, number)));
    }

    /// Where it is known what reading a text comes to, `second` reads it so.
    #[test]
    fn readings_are_as_known() {
        for number in 0..1_000 {
            let case = case(&mut Random::for_case(7, number));
            for &words in &case.words {
                let Some((known, rows)) = case.reading(words) else { continue };
                let mut table = rubbish(words);
                let answer = second_read(&case.text, &mut table);
                assert_eq!((answer, table), (known, rows), "{}", case.text.escape_ascii());
            }
        }
    }

    #[test]
    fn what_is_known_by_hand() {
        let of = |tree: &Tree| known(&Document::new(&mut Random::new(1), tree, true));
        let empty = || Tree::Object(Vec::new());
        let tree = Tree::Array(vec![
            record(Tree::Integer(5)),
            record(Tree::Null),
            empty(),
            record(empty()),
            record(Tree::Decimal { minus: true, digits: 0, power: -1 }),
        ]);
        // 5,000 and 0 micrometres.
        let heights = Some([0.0, 5_000.0, 2_500.0].map(f64::to_bits));
        assert_eq!(of(&tree), Ok(Summary { counts: [2, 1, 1, 1], heights }));
        assert_eq!(of(&Tree::Tuple(vec![empty()])), Err((21, 0)));
        assert_eq!(of(&empty()), Err((21, 0)));
        let tree = Tree::Array(vec![record(Tree::Null), empty(), Tree::Null, Tree::Null]);
        assert_eq!(of(&tree), Err((21, 4)));
        let none = Summary { counts: [0; 4], heights: None };
        assert_eq!(of(&Tree::Array(Vec::new())), Ok(none));
    }

    /// The root and 4,095 records are all the nodes that there can be.
    #[test]
    fn as_many_records_as_can_be() {
        let tree = Tree::Array(vec![Tree::Object(Vec::new()); 4_095]);
        let document = Document::new(&mut Random::new(1), &tree, true);
        assert_eq!(document.rows.len(), second::MAX_NODES);
        assert_eq!(known(&document).map(|summed| summed.counts), Ok([0, 0, 4_095, 0]));
    }
}
