//! Documents that are made as a value first and written afterwards: so the
//! number of every node, and the step that leads to it, is known without
//! reading the text. Nothing here depends on the reader under trial.

use std::collections::HashSet;

use second::{MAX_DEPTH, MAX_NODES, MAX_TEXT, ROW};

use crate::check::Answer;
use crate::random::Random;
use crate::writer::{self, Row};

/// A value, as far as paths and summaries go.
#[derive(Debug, Clone, PartialEq, Eq)]
pub enum Tree {
    /// Members; no two have one key, but where [`crate::keys`] wants it.
    Object(Vec<(String, Tree)>),
    /// Items.
    Array(Vec<Tree>),
    /// Items.
    Tuple(Vec<Tree>),
    /// Any other value.
    Scalar,
    /// `null`.
    Null,
    /// This integer, in any spelling.
    Integer(i64),
    /// This decimal, in any spelling.
    Decimal {
        /// Whether it has a minus.
        minus: bool,
        /// All its digits as one whole number.
        digits: u64,
        /// The power of ten.
        power: i64,
    },
}

/// Where a node stands.
#[derive(Debug, Clone, PartialEq, Eq)]
pub struct Place {
    /// Its parent's number; `None` for the root.
    pub parent: Option<usize>,
    /// Its key's content, or its index in decimal; nothing for the root.
    pub step: Vec<u8>,
    /// Whether it is an object.
    pub is_object: bool,
    /// The numbers of its children.
    pub children: Vec<usize>,
}

/// A value and its text.
#[derive(Debug, Clone, PartialEq, Eq)]
pub struct Document {
    /// The text.
    pub text: Vec<u8>,
    /// The rows its reading must have.
    pub rows: Vec<Row>,
    /// Where each node stands, by number.
    pub places: Vec<Place>,
}

impl Document {
    /// Writes a value's text. `terse`: as short as can be.
    pub fn new(random: &mut Random, tree: &Tree, terse: bool) -> Document {
        let written = writer::write_tree(random, tree, terse);
        let mut places = Vec::new();
        put(&mut places, None, Vec::new(), tree);
        Document { text: written.text, rows: written.rows, places }
    }

    /// The child that a step leads to.
    pub fn child(&self, node: usize, step: &[u8]) -> Option<usize> {
        let mut children = self.places[node].children.iter().copied();
        children.find(|&child| self.places[child].step == step)
    }

    /// The node that a path leads to, or the number of the first step that has
    /// no child to go to.
    pub fn follow(&self, path: &[u8]) -> Result<usize, usize> {
        let mut node = 0;
        // "the empty path is the root"
        if !path.is_empty() {
            for (number, step) in path.split(|&byte| byte == b'.').enumerate() {
                node = self.child(node, step).ok_or(number)?;
            }
        }
        Ok(node)
    }

    /// The steps that lead from the root to a node. None has a dot in it, unless
    /// the node can't be reached.
    pub fn way(&self, mut node: usize) -> Vec<&[u8]> {
        let mut way = Vec::new();
        while let Some(parent) = self.places[node].parent {
            way.push(&self.places[node].step[..]);
            node = parent;
        }
        way.reverse();
        way
    }

    /// A node's key as it is written; nothing if it has none.
    pub fn key_as_written(&self, node: usize) -> &[u8] {
        &self.text[self.rows[node][4] as usize..self.rows[node][5] as usize]
    }

    /// A node's identifier; nothing if it has none.
    pub fn name(&self, node: usize) -> &[u8] {
        &self.text[self.rows[node][6] as usize..self.rows[node][7] as usize]
    }
}

/// Numbers a value's nodes in the order of their first bytes: a container, then
/// all that its first child holds, and so on.
fn put(places: &mut Vec<Place>, parent: Option<usize>, step: Vec<u8>, tree: &Tree) {
    let number = places.len();
    if let Some(parent) = parent {
        places[parent].children.push(number);
    }
    let is_object = matches!(tree, Tree::Object(_));
    places.push(Place { parent, step, is_object, children: Vec::new() });
    match tree {
        Tree::Object(members) => {
            for (key, value) in members {
                put(places, Some(number), key.as_bytes().to_vec(), value);
            }
        }
        Tree::Array(items) | Tree::Tuple(items) => {
            for (index, value) in items.iter().enumerate() {
                put(places, Some(number), index.to_string().into_bytes(), value);
            }
        }
        Tree::Scalar | Tree::Null | Tree::Integer(_) | Tree::Decimal { .. } => {}
    }
}

/// What reading a text of these rows into a table of so many words must come to:
/// the answer and the whole table.
pub fn reading(text: &[u8], rows: &[Row], words: usize) -> (Answer, Vec<u32>) {
    let mut table = vec![0; words];
    if text.len() > MAX_TEXT {
        return (Err((1, 65_536)), table);
    }
    // 10 stands at the first value for which there is no node.
    if let Some(row) = rows.get(second::node_limit(words)) {
        return (Err((10, row[2].into())), table);
    }
    for (into, row) in table.chunks_exact_mut(ROW).zip(rows) {
        into.copy_from_slice(row);
    }
    (Ok(rows.len()), table)
}

/// Any value of up to so many nodes, with room for so many containers inside
/// each other.
pub fn any(random: &mut Random, mut nodes: usize, room: usize) -> Tree {
    Maker { random, dots: true }.any(&mut nodes, room)
}

/// Makes a document: mostly of some nodes, now and then as deep as can be, with
/// several hundred children in one container, or with about as many nodes as
/// can be.
pub fn document(random: &mut Random) -> Document {
    let mut maker = Maker { dots: !random.one_in(3), random };
    let choice = maker.random.below(800);
    let tree = match choice {
        0 => {
            let items = vec![Tree::Scalar; maker.random.between(1_000, MAX_NODES - 2)];
            let kind = maker.random.between(1, 2);
            maker.within(kind, items)
        }
        1..=12 => {
            // A reading compares each key with all others of its object.
            let kind = [0, 1, 1, 2, 2][maker.random.below(5)];
            let most = if kind == 0 { 350 } else { 700 };
            let items = (0..maker.random.between(150, most)).map(|_| maker.any(&mut 3, 2));
            let items = items.collect();
            maker.within(kind, items)
        }
        13..=80 => maker.deep(),
        81..=140 => {
            // Indices of two digits.
            let items = (0..maker.random.between(11, 40)).map(|_| maker.any(&mut 2, 2)).collect();
            let kind = maker.random.below(3);
            maker.within(kind, items)
        }
        _ => {
            let mut budget = match choice % 10 {
                0 => maker.random.between(30, 120),
                1..=3 => maker.random.between(8, 30),
                _ => maker.random.between(1, 12),
            };
            maker.container(&mut budget, MAX_DEPTH)
        }
    };
    Document::new(random, &tree, choice == 0)
}

struct Maker<'r> {
    random: &'r mut Random,
    /// Whether keys may have dots in them, so that their values can't be
    /// reached.
    dots: bool,
}

impl Maker<'_> {
    /// A value of up to so many nodes, with room for so many containers inside
    /// each other.
    fn any(&mut self, budget: &mut usize, room: usize) -> Tree {
        *budget = budget.saturating_sub(1);
        if room > 0 && *budget > 0 && self.random.one_in(2) {
            self.container(budget, room)
        } else if room > 0 && self.random.one_in(8) {
            self.holding(Vec::new())
        } else {
            Tree::Scalar
        }
    }

    fn container(&mut self, budget: &mut usize, room: usize) -> Tree {
        let most = match self.random.below(10) {
            0 => 0,
            1 | 2 => *budget,
            _ => (*budget).min(5),
        };
        let mut children = Vec::new();
        while children.len() < most && *budget > 0 {
            children.push(self.any(budget, room - 1));
        }
        self.holding(children)
    }

    /// A container of any kind with these children.
    fn holding(&mut self, children: Vec<Tree>) -> Tree {
        let kind = self.random.below(3);
        self.of_kind(kind, children)
    }

    fn of_kind(&mut self, kind: usize, children: Vec<Tree>) -> Tree {
        match kind {
            0 => {
                let mut keys = HashSet::new();
                let keyed = children.into_iter().enumerate().map(|(number, child)| loop {
                    let key = self.key(number);
                    if keys.insert(key.clone()) {
                        break (key, child);
                    }
                });
                Tree::Object(keyed.collect())
            }
            1 => Tree::Array(children),
            _ => Tree::Tuple(children),
        }
    }

    /// A container with these children, bare or the only child of another.
    fn within(&mut self, kind: usize, children: Vec<Tree>) -> Tree {
        let tree = self.of_kind(kind, children);
        if self.random.one_in(2) {
            self.holding(vec![tree])
        } else {
            tree
        }
    }

    /// A chain of mostly as many containers as can be open at once, with some
    /// values beside it.
    fn deep(&mut self) -> Tree {
        self.dots = false;
        let depth = if self.random.one_in(5) { self.random.between(25, 31) } else { MAX_DEPTH };
        let innermost = self.random.below(3);
        let mut chain = if innermost == 0 { self.holding(Vec::new()) } else { Tree::Scalar };
        // So many containers are around it.
        let around = if innermost == 0 { depth - 1 } else { depth };
        let crowded = self.random.one_in(2);
        for level in (1..=around).rev() {
            let room = (MAX_DEPTH - level).min(2);
            let beside = if crowded { self.random.below(4) } else { self.random.below(5) / 4 };
            let mut children: Vec<_> = (0..beside).map(|_| self.any(&mut 2, room)).collect();
            children.insert(self.random.below(beside + 1), chain);
            chain = self.holding(children);
        }
        chain
    }

    /// A key, mostly one that comes up in other objects too.
    fn key(&mut self, number: usize) -> String {
        let words =
            ["a", "b", "aa", "ab", "A", "k0", "balls", "height_mm", "null", "_1", "r", "a-b"];
        let indices = [
            "0",
            "1",
            "2",
            "10",
            "00",
            "01",
            "-0",
            "+1",
            "1_0",
            "0x1",
            "4294967296",
            "18446744073709551616",
        ];
        let dotted = [".", "..", "a.", ".a", "a.b", "0.0", "balls.3.height_mm"];
        let pieces = [
            "\"", "\\", "#", "\"#", "\n", "\r", "\t", "\0", "\u{7F}", "é", "\u{80}", "\u{7FF}",
            "€", "\u{FFFF}", "😀", "/", "//", "'", "\\x61", "{", " ", "a", "0",
        ];
        match self.random.below(16) {
            0..=4 => self.random.pick(&words).to_string(),
            5 | 6 => self.random.pick(&indices).to_string(),
            7 => String::new(),
            8 | 9 if self.dots => self.random.pick(&dotted).to_string(),
            10 => number.to_string(),
            11 if self.random.one_in(20) => {
                let unit = self.random.pick(&["k", "0", "é", "\\", "\n"]);
                unit.repeat(self.random.between(100, 700))
            }
            11..=13 => {
                let mut key = String::new();
                for _ in 0..self.random.between(1, 5) {
                    key.push_str(self.random.pick(&pieces));
                }
                key
            }
            _ => format!("k{number}"),
        }
    }
}

#[cfg(test)]
mod tests {
    use super::*;

    #[test]
    fn documents_follow_from_seed_and_number() {
        let made = |seed, number| document(&mut Random::for_case(seed, number));
        for number in 0..200 {
            assert_eq!(made(3, number), made(3, number));
        }
        assert!((0..200).any(|number| made(3, number) != made(4, number)));
    }

    /// The rows by the writer and the places by the value tell of the same
    /// nodes, and each is where its way leads.
    #[test]
    fn rows_and_places_agree() {
        for number in 0..1_000 {
            let document = document(&mut Random::for_case(6, number));
            let Document { text, rows, places } = &document;
            assert_eq!(rows.len(), places.len());
            for (node, (row, place)) in rows.iter().zip(places).enumerate() {
                assert_eq!(row[1], place.parent.map_or(u32::MAX, |parent| parent as u32));
                assert_eq!(row[0] == 1, place.is_object);
                assert_eq!(row[0] <= 3 && row[9] > 0, !place.children.is_empty());
                let way = document.way(node);
                let path = way.join(&b'.');
                let has_dot = way.iter().any(|step| step.contains(&b'.'));
                if !has_dot && (node == 0 || !path.is_empty()) {
                    assert_eq!(document.follow(&path), Ok(node), "{}", text.escape_ascii());
                }
                if !has_dot && !path.is_empty() {
                    let beyond = [&path[..], b".none of these"].concat();
                    assert_eq!(document.follow(&beyond), Err(way.len()));
                }
            }
        }
    }

    #[test]
    fn by_hand() {
        let word = |key: &str, value| (key.to_string(), value);
        let pair = Tree::Tuple(vec![Tree::Scalar, Tree::Scalar]);
        let tree = Tree::Object(vec![
            word("a", Tree::Array(vec![pair, Tree::Scalar])),
            word("", Tree::Object(vec![word("", Tree::Scalar)])),
        ]);
        let document = Document::new(&mut Random::new(1), &tree, true);
        for (path, expected) in [
            (&b""[..], Ok(0)),
            (b"a", Ok(1)),
            (b"a.0", Ok(2)),
            (b"a.0.1", Ok(4)),
            (b"a.1", Ok(5)),
            (b".", Ok(7)),
            (b"a.2", Err(1)),
            (b"a.00", Err(1)),
            (b"a.", Err(1)),
            (b"..", Err(2)),
            (b"b.a", Err(0)),
            (b"a.1.0.0", Err(2)),
        ] {
            assert_eq!(document.follow(path), expected, "{}", path.escape_ascii());
        }
        // The same nodes, each at the first byte of its value.
        let kinds: Vec<_> = document.rows.iter().map(|row| row[0]).collect();
        assert_eq!(kinds, [1, 2, 3, 6, 6, 6, 1, 6]);
    }
}
