//! Random texts that read, each with spaces and comments to be inserted at
//! edges of its tokens. Nothing here depends on the reader under trial.

use second::insertion::{edges, Gap, Insertion};
use second::{MAX_NODES, MAX_TEXT, ROW};

use crate::histories::first_text;
use crate::random::Random;
use crate::texts::{Case, Known};
use crate::writer::{self, Written};

/// A text that reads, and what is inserted into it.
#[derive(Debug, Clone, PartialEq, Eq)]
pub struct Annotated {
    /// The old text, its table's length, and what is known of its reading.
    pub old: Case,
    /// The insertions, in no order of places.
    pub insertions: Vec<Insertion>,
}

/// Makes a text and its insertions.
pub fn annotated(random: &mut Random) -> Result<Annotated, String> {
    let old = good(random);
    let edges = edges(&old.text)
        .filter(|edges| !edges.is_empty())
        .ok_or_else(|| format!("the old text has no tokens: {}", old.text.escape_ascii()))?;
    let mut insertions = some(random, &edges);
    if random.one_in(40) {
        fill(random, &old.text, &edges, &mut insertions);
    }
    Ok(Annotated { old, insertions })
}

/// A text that reads, with a table that has room for its nodes.
fn good(random: &mut Random) -> Case {
    let (text, known, nodes) = match random.below(400) {
        0 => {
            let (text, nodes) = crowded(random);
            (text, Known::Nodes(nodes), nodes)
        }
        // Now and then as long, as deep or as full as can be.
        1..=80 => {
            let (text, nodes) = first_text(random);
            (text, Known::Nodes(nodes), nodes)
        }
        choice => {
            let wanted = match choice % 10 {
                0 => random.between(30, 80),
                1..=3 => random.between(8, 30),
                _ => random.between(1, 8),
            };
            let Written { text, rows, .. } = writer::write(random, wanted);
            let nodes = rows.len();
            (text, Known::Rows(rows), nodes)
        }
    };
    // Often just enough, often more, mostly with a remainder.
    let words = match random.below(200) {
        0 => ROW * MAX_NODES + random.below(30),
        1..=30 => ROW * nodes,
        31..=95 => ROW * nodes + random.below(ROW),
        96..=170 => ROW * (nodes + random.below(6)) + random.below(ROW),
        _ => ROW * (nodes + random.below(40)) + random.below(ROW),
    };
    Case { sort: "annotated", text, words, known, contents: Vec::new() }
}

/// About as many nodes as a reading can have, of every kind, some of them
/// named, and all or none with a key.
fn crowded(random: &mut Random) -> (Vec<u8>, usize) {
    let items = [
        "1", "-0.5", "null", "true", "false", "\"\"", "b\"\"", "[]", "(,)", "{}", "A(1)",
        "Z(r\"\")",
    ];
    let nodes = random.between(MAX_NODES - 6, MAX_NODES);
    let object = random.one_in(2);
    let mut text = String::from(if object { "{" } else { "[" });
    for number in 1..nodes {
        if number > 1 {
            text.push(',');
        }
        if object && random.one_in(2) {
            text.push_str(&format!("k{number}:"));
        } else if object {
            text.push_str(&format!("\"{number}\":"));
        }
        text.push_str(random.pick(&items));
    }
    text.push(if object { '}' } else { ']' });
    (text.into_bytes(), nodes)
}

/// From no insertion to some at every edge.
fn some(random: &mut Random, edges: &[usize]) -> Vec<Insertion> {
    let any = |random: &mut Random| edges[random.below(edges.len())];
    let mut places = Vec::new();
    match random.below(12) {
        0 => {}
        1 | 2 => places.push(any(random)),
        3..=5 => places.extend((0..random.between(2, 8)).map(|_| any(random))),
        6 | 7 => {
            // Several at one place, and some elsewhere.
            let place = any(random);
            places.resize(random.between(2, 6), place);
            places.extend((0..random.below(4)).map(|_| any(random)));
        }
        8 | 9 => places.extend_from_slice(edges),
        _ => {
            for &edge in edges {
                places.resize(places.len() + random.below(3), edge);
            }
        }
    }
    shuffle(random, &mut places);
    // Many at a time are mostly short, or nearly every such text is too long.
    let short = places.len() > 500 && !random.one_in(4);
    places.into_iter().map(|place| Insertion { place, gap: gap(random, short) }).collect()
}

fn shuffle<T>(random: &mut Random, items: &mut [T]) {
    for last in (1..items.len()).rev() {
        items.swap(last, random.below(last + 1));
    }
}

/// A space or a comment; `short`: of the shortest there are.
fn gap(random: &mut Random, short: bool) -> Gap {
    match random.below(6) {
        0..=2 => space(random),
        3 | 4 if short => Gap::Block(Vec::new()),
        3 | 4 => comment(random, Gap::Block),
        _ if short => Gap::Line(Vec::new()),
        _ if random.one_in(3) => comment(random, Gap::LineReturn),
        _ => comment(random, Gap::Line),
    }
}

fn space(random: &mut Random) -> Gap {
    Gap::Space([0x09, 0x0A, 0x0D, 0x20][random.below(4)])
}

/// What a comment's body is made of: all that means something outside of
/// comments, characters of every length, and newlines that aren't any.
const PIECES: &[&str] = &[
    "*",
    "*",
    "/",
    "/",
    "/*",
    "//",
    "**",
    "/ *",
    "* /",
    "\"",
    "'",
    "r#\"",
    "b64\"",
    "[",
    "]",
    "{",
    "}",
    "(",
    ")",
    ":",
    ",",
    "null",
    "-1",
    "x",
    " ",
    "\t",
    "\n",
    "\r",
    "\r\n",
    "\0",
    "\u{1}",
    "\u{B}",
    "\u{1F}",
    "\u{7F}",
    "\\",
    "\\\"",
    "#",
    "\u{80}",
    "\u{85}",
    "é",
    "\u{7FF}",
    "\u{800}",
    "€",
    "\u{2028}",
    "\u{FEFF}",
    "\u{FFFF}",
    "😀",
    "\u{10FFFF}",
];

/// A comment of the one or the other form, by its body.
fn comment(random: &mut Random, form: fn(Vec<u8>) -> Gap) -> Gap {
    if random.one_in(60) {
        let length = random.between(1, 2_000);
        return form(long_body(random, length));
    }
    let mut body = Vec::new();
    for _ in 0..random.below(6) {
        let longer = [&body[..], random.pick(PIECES).as_bytes()].concat();
        // A piece that would end the comment is left out.
        if form(longer.clone()).is_allowed() {
            body = longer;
        }
    }
    form(body)
}

/// A body of so many bytes, for either form.
fn long_body(random: &mut Random, length: usize) -> Vec<u8> {
    let units = ["x", "*", "/", "[", "\"", "'", "\\", "\0", "\u{7F}", " ", "é", "€", "😀"];
    let unit = random.pick(&units);
    let mut body = unit.repeat(length / unit.len()).into_bytes();
    body.resize(length, b'-');
    body
}

/// Adds what is missing until the new text is as long as a text may be, or one
/// byte longer: a comment, or up to some thousand spaces and a comment.
fn fill(random: &mut Random, text: &[u8], edges: &[usize], insertions: &mut Vec<Insertion>) {
    let wanted = MAX_TEXT + random.below(2);
    let inserted: usize = insertions.iter().map(|insertion| insertion.gap.bytes().len()).sum();
    let Some(missing) = wanted.checked_sub(text.len() + inserted) else { return };
    let mut spaces = if random.one_in(6) { random.below(4_000).min(missing) } else { 0 };
    let long = match missing - spaces {
        rest @ 4.. if random.one_in(2) => Some(Gap::Block(long_body(random, rest - 4))),
        rest @ 3.. => Some(Gap::Line(long_body(random, rest - 3))),
        rest => {
            spaces += rest;
            None
        }
    };
    for gap in (0..spaces).map(|_| space(random)).chain(long).collect::<Vec<_>>() {
        let insertion = Insertion { place: edges[random.below(edges.len())], gap };
        insertions.insert(random.below(insertions.len() + 1), insertion);
    }
}

#[cfg(test)]
mod tests {
    use super::*;

    #[test]
    fn cases_follow_from_seed_and_number() {
        let made = |seed, number| annotated(&mut Random::for_case(seed, number)).unwrap();
        for number in 0..100 {
            assert_eq!(made(3, number), made(3, number));
        }
        assert!((0..100).any(|number| made(3, number) != made(4, number)));
    }

    #[test]
    fn old_texts_read() {
        for number in 0..400 {
            let Annotated { old, .. } = annotated(&mut Random::for_case(5, number)).unwrap();
            let answer = second::read(&old.text, &mut vec![0; old.words]);
            assert!(answer.is_ok(), "{answer:?}: {}", old.text.escape_ascii());
        }
    }
}
