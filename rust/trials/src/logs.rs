//! Logs to be salvaged, by document 02's request 14. A log is made as a list of
//! lines, and of most lines it is known from their making whether they are kept,
//! with which rows, or else which fault they have. Nothing here depends on the
//! reader under trial.

use second::{node_limit, MAX_NODES, MAX_TEXT, ROW};

use crate::random::Random;
use crate::texts;
use crate::trees::{self, Document, Tree};
use crate::writer::Row;

/// "with 31 as the depth limit"
pub const MAX_LINE_DEPTH: usize = 31;

/// What becomes of a line.
#[derive(Debug, Clone, PartialEq, Eq)]
pub enum Fate {
    /// It reads, and its reading has these rows: it is kept if there is room for
    /// them, else it is lost with 10.
    Kept(Vec<Row>),
    /// It has this fault, behind the start of so many nodes: it is lost with that
    /// number if there is room for them, else with 10.
    Lost(u8, usize),
    /// That isn't known from its making.
    Unknown,
}

/// A line, without its line feed.
#[derive(Debug, Clone, PartialEq, Eq)]
pub struct Line {
    /// Its bytes; none is 0A.
    pub bytes: Vec<u8>,
    /// What becomes of it.
    pub fate: Fate,
}

impl Line {
    fn lost(bytes: impl Into<Vec<u8>>, number: u8, nodes: usize) -> Line {
        Line { bytes: bytes.into(), fate: Fate::Lost(number, nodes) }
    }

    /// The nodes that it has if it is kept.
    fn nodes(&self) -> usize {
        match &self.fate {
            Fate::Kept(rows) => rows.len(),
            _ => 0,
        }
    }
}

/// A log.
#[derive(Debug, Clone, PartialEq, Eq)]
pub struct Log {
    /// Its lines.
    pub lines: Vec<Line>,
    /// All its bytes: the last line has a line feed behind it or none.
    pub bytes: Vec<u8>,
}

impl Log {
    fn new(lines: Vec<Line>, is_ended: bool) -> Log {
        let mut bytes = Vec::new();
        for line in &lines {
            bytes.extend_from_slice(&line.bytes);
            bytes.push(b'\n');
        }
        // "an empty last piece does not" count, so an empty last line has its 0A.
        if !is_ended && lines.last().is_some_and(|line| !line.bytes.is_empty()) {
            bytes.pop();
        }
        Log { lines, bytes }
    }

    /// Whether the making tells what becomes of every line.
    pub fn is_known(&self) -> bool {
        self.lines.iter().all(|line| line.fate != Fate::Unknown)
    }
}

/// The lengths of the lent buffers.
#[derive(Debug, Clone, Copy, PartialEq, Eq)]
pub struct Lent {
    /// The table's, in words.
    pub words: usize,
    /// The output's.
    pub room: usize,
    /// That of the list of verdicts.
    pub list: usize,
}

impl Lent {
    /// How many nodes the table has room for.
    pub fn limit(&self) -> usize {
        node_limit(self.words)
    }
}

/// Makes a log, and lengths for one to three calls.
pub fn case(random: &mut Random) -> (Log, Vec<Lent>) {
    let (lines, calls) = match random.below(1_000) {
        0 | 1 => (tiny(random), 1),
        2..=6 => (many_nodes(random), 1),
        7..=56 => (long(random), 2),
        57..=66 => (Vec::new(), 2),
        67..=95 => {
            // Lost ones alone, if none of unknown fate reads.
            let lines = (0..random.between(1, 5)).map(|_| any(random));
            (lines.filter(|line| line.nodes() == 0).collect(), 2)
        }
        96..=140 => (one_large(random), 2),
        _ => (ordinary(random), random.between(1, 3)),
    };
    let log = Log::new(lines, random.one_in(2));
    let lent = (0..calls).map(|_| lent(random, &log)).collect();
    (log, lent)
}

/// Lengths at both sides of what the log needs.
fn lent(random: &mut Random, log: &Log) -> Lent {
    let nodes = log.lines.iter().map(Line::nodes);
    let (needed, largest) = (1 + nodes.clone().sum::<usize>(), nodes.max().unwrap_or(0));
    let words = match random.below(18) {
        0 => random.below(2 * ROW),
        1 => ROW * random.below(8) + random.below(ROW),
        2..=4 => ROW * needed + random.below(ROW),
        5 | 6 => ROW * needed - 1,
        7 => ROW * largest + random.below(ROW),
        8 => (ROW * largest).saturating_sub(1),
        // Enough for all but the largest.
        9 | 10 => ROW * (needed - largest) + random.below(ROW),
        // Clearing all rows for thousands of lines would take long.
        11 if log.lines.len() < 200 => ROW * MAX_NODES + random.below(30),
        _ => ROW * (needed + random.below(20)) + random.below(ROW),
    };
    let kept = log.lines.iter().filter(|line| (1..=node_limit(words)).contains(&line.nodes()));
    let written = 3 + kept.map(|line| line.bytes.len() + 3).sum::<usize>();
    let room = match random.below(10) {
        0 => written - 1,
        1 => random.below(written),
        2..=4 => written,
        5 => MAX_TEXT + random.below(20),
        _ => written + random.below(200),
    };
    let lines = log.lines.len();
    let list = match random.below(12) {
        0 => lines.saturating_sub(1),
        1 => random.below(lines + 1),
        2..=5 => lines,
        _ => lines + random.below(20),
    };
    Lent { words, room, list }
}

/// Some lines; the rig often died in the last one.
fn ordinary(random: &mut Random) -> Vec<Line> {
    let lines = if random.one_in(12) { random.between(9, 60) } else { random.between(1, 8) };
    let mut lines: Vec<_> = (1..lines).map(|_| any(random)).collect();
    lines.push(if random.one_in(2) { died(random) } else { any(random) });
    // A log of known lines alone is held against its making by itself.
    if random.one_in(2) {
        lines.retain(|line| line.fate != Fate::Unknown);
    }
    lines
}

/// Small lines, and one among them that has more nodes than all others.
fn one_large(random: &mut Random) -> Vec<Line> {
    let mut lines: Vec<_> = (0..random.below(6)).map(|_| small(random)).collect();
    let nodes = lines.iter().map(Line::nodes).sum::<usize>();
    let large = random.between(nodes + 2, nodes + 40);
    lines.insert(random.below(lines.len() + 1), of_nodes(random, large));
    lines
}

/// Thousands of empty or tiny lines, now and then as many as a log has room for.
fn tiny(random: &mut Random) -> Vec<Line> {
    let empty = || Line::lost("", 7, 0);
    if random.one_in(2) {
        let most = if random.one_in(4) { MAX_TEXT + random.below(2) } else { 8_000 };
        return vec![empty(); if random.one_in(3) { most } else { random.between(1_000, most) }];
    }
    let tiny = [of_nodes(random, 1), Line::lost(" ", 7, 0), Line::lost("[", 7, 1), empty()];
    let (count, sorts) = (random.between(1_000, 6_000), random.between(1, 4));
    (0..count).map(|_| tiny[random.below(sorts)].clone()).collect()
}

/// Lines that make about as many nodes as there can be.
fn many_nodes(random: &mut Random) -> Vec<Line> {
    let mut left = random.between(MAX_NODES - 3, MAX_NODES);
    let mut lines = Vec::new();
    while left > 0 {
        let nodes = random.between(1, left.min(2_000));
        lines.push(of_nodes(random, nodes));
        left -= nodes;
    }
    if random.one_in(2) {
        lines.insert(random.below(lines.len() + 1), any(random));
    }
    lines
}

/// Some lines, and one that is so long that the log, or what is written, is about as
/// long as can be.
fn long(random: &mut Random) -> Vec<Line> {
    let mut lines: Vec<_> = (0..random.between(1, 6)).map(|_| small(random)).collect();
    let at = random.below(lines.len());
    let kept = lines.iter().filter(|line| line.nodes() > 0);
    let written = 3 + kept.map(|line| line.bytes.len() + 3).sum::<usize>();
    let length = lines.iter().map(|line| line.bytes.len() + 1).sum::<usize>();
    let target = random.between(MAX_TEXT - 1, MAX_TEXT + 2);
    let by_written = lines[at].nodes() > 0 && !random.one_in(3);
    let taken = if by_written { written } else { length };
    // Spaces behind it change no line's fate.
    let longer = lines[at].bytes.len() + target - taken;
    lines[at].bytes.resize(longer, b' ');
    lines
}

/// A short line of known fate.
fn small(random: &mut Random) -> Line {
    let nodes = random.between(1, 4);
    match random.below(4) {
        0 => Line::lost("", 7, 0),
        1 => hollow(random),
        _ => of_nodes(random, nodes),
    }
}

/// An array, tuple or object that has so many nodes in all.
fn of_nodes(random: &mut Random, nodes: usize) -> Line {
    let inside = vec![Tree::Scalar; nodes - 1];
    let tree = match random.below(3) {
        0 => Tree::Tuple(inside),
        1 if nodes == 1 => Tree::Object(Vec::new()),
        _ => Tree::Array(inside),
    };
    of_tree(random, &tree, true)
}

/// Any line.
fn any(random: &mut Random) -> Line {
    match random.below(40) {
        0..=11 => {
            let (bytes, rows) = good(random);
            Line { bytes, fate: Fate::Kept(rows) }
        }
        12..=16 => with_end(random),
        17 | 18 => deep(random),
        19 | 20 => doubled(random),
        21..=23 => hollow(random),
        24..=28 => with_fault(random),
        29..=32 => died(random),
        33 => {
            // A byte that is no character's; 2 goes before all other faults.
            let mut bytes = good(random).0;
            let at = random.below(bytes.len() + 1);
            bytes.insert(at, *random.pick(&[&0xFF, &0xC0, &0xF8]));
            Line::lost(bytes, 2, 0)
        }
        34..=37 => {
            let mut bytes = good(random).0;
            for _ in 0..random.between(1, 2) {
                texts::damage(random, &mut bytes);
            }
            unknown(bytes)
        }
        _ => unknown(texts::glue(random, 8)),
    }
}

/// A line of which only its bytes are known.
fn unknown(mut bytes: Vec<u8>) -> Line {
    without_line_feeds(&mut bytes, b'\r');
    let fate = if bytes.is_empty() { Fate::Lost(7, 0) } else { Fate::Unknown };
    Line { bytes, fate }
}

fn without_line_feeds(bytes: &mut [u8], instead: u8) {
    bytes.iter_mut().filter(|byte| **byte == b'\n').for_each(|byte| *byte = instead);
}

/// A text on one line. Line feeds are replaced in such a way that the rows stay: in
/// base64 by spaces, in other strings and in keys by a letter that no key has,
/// elsewhere by 0D, which ends a line comment too.
fn on_one_line(mut text: Vec<u8>, rows: &[Row]) -> Vec<u8> {
    let strings = rows.iter().filter(|row| matches!(row[0], 4 | 5)).map(|row| (row[9], row[10]));
    for (start, end) in strings.chain(rows.iter().map(|row| (row[4], row[5]))) {
        let token = &mut text[start as usize..end as usize];
        let instead = if token.starts_with(b"b64\"") { b' ' } else { b'~' };
        without_line_feeds(token, instead);
    }
    without_line_feeds(&mut text, b'\r');
    text
}

/// How many containers are open at once in each node, itself included.
pub(crate) fn depths(rows: &[Row]) -> Vec<usize> {
    let mut depths: Vec<usize> = Vec::new();
    for row in rows {
        let outer = depths.get(row[1] as usize).copied().unwrap_or(0);
        depths.push(outer + usize::from(row[0] <= 3));
    }
    depths
}

/// A line of this value, which is lost if it is too deep: "with 31 as the depth limit".
fn of_tree(random: &mut Random, tree: &Tree, terse: bool) -> Line {
    let Document { text, rows, .. } = Document::new(random, tree, terse);
    let bytes = on_one_line(text, &rows);
    let fate = match depths(&rows).iter().position(|&depth| depth > MAX_LINE_DEPTH) {
        // 9 is at the bracket. An identifier around it has opened the node before.
        Some(node) => Fate::Lost(9, node + usize::from(rows[node][7] > 0)),
        None => Fate::Kept(rows),
    };
    Line { bytes, fate }
}

/// A line that is kept, and its rows.
fn good(random: &mut Random) -> (Vec<u8>, Vec<Row>) {
    loop {
        let Document { text, rows, .. } = trees::document(random);
        if depths(&rows).iter().all(|&depth| depth <= MAX_LINE_DEPTH) {
            return (on_one_line(text, &rows), rows);
        }
    }
}

/// A good line with something behind its value: a comment, closed or not, or a second
/// value.
fn with_end(random: &mut Random) -> Line {
    let ends: [(u8, &[&str]); 3] = [
        (0, &["\r", " ", "//", " // a note", "/* a note */", "// [ \" '"]),
        (3, &["/*", "/*/", "/* *", "/"]),
        (7, &["[]", " {}", "\r1", ",", " , []", "]", " A"]),
    ];
    let (mut bytes, rows) = good(random);
    let (number, ends) = ends[random.below(3)];
    bytes.extend_from_slice(random.pick(ends).as_bytes());
    let fate = if number == 0 { Fate::Kept(rows) } else { Fate::Lost(number, rows.len()) };
    Line { bytes, fate }
}

/// Containers in each other, 30 to 34, with identifiers or without.
fn deep(random: &mut Random) -> Line {
    let mut tree = if random.one_in(2) { Tree::Scalar } else { Tree::Array(Vec::new()) };
    let depth = random.between(30, 34) - usize::from(tree != Tree::Scalar);
    for _ in 0..depth {
        tree = match random.below(3) {
            0 => Tree::Object(vec![("a".to_string(), tree)]),
            1 => Tree::Tuple(vec![Tree::Scalar, tree]),
            _ => Tree::Array(vec![tree]),
        };
    }
    let terse = random.one_in(2);
    of_tree(random, &tree, terse)
}

/// An object that has a key twice, in any two spellings.
fn doubled(random: &mut Random) -> Line {
    let keys = random.between(2, 6);
    let second = random.between(1, keys - 1);
    let first = random.below(second);
    let key = |at: usize| format!("k{}", if at == second { first } else { at });
    let members = (0..keys).map(|at| (key(at), trees::any(random, 3, 2))).collect();
    let Document { text, rows, places } = Document::new(random, &Tree::Object(members), false);
    Line::lost(on_one_line(text, &rows), 8, places[0].children[second])
}

/// A line without any root.
fn hollow(random: &mut Random) -> Line {
    let lines: [(u8, &[&[u8]]); 9] = [
        (7, &[b"", b" ", b"\r", b" \t \r", b"// a note", b"/* a note */"]),
        (7, &[b"412.5", b"null", b"\"[]\"", b",", b"]", b"A", b"A(1)"]),
        (3, &[b"/* a note", b"00", b"\"", b"\xEF\xBB\xBF[]"]),
        (3, &[b"\0", b" \0\0", b"\0\0\0\0\0\0\0\0"]),
        (2, &[b"\xFF", b"\xC3"]),
        (4, &[b"\"\\q\"", b"\"\\xFF\""]),
        (5, &[b"9223372036854775808"]),
        (6, &[b"'2025-06-01'", b"'"]),
        (7, &[b""]),
    ];
    let (number, lines) = lines[random.below(lines.len())];
    let bytes = random.pick(lines);
    // An identifier is the start of a node.
    Line::lost(bytes, number, usize::from(bytes.starts_with(b"A")))
}

/// A value of a good line is replaced by what none may be.
fn with_fault(random: &mut Random) -> Line {
    let faults: [(u8, &[&str]); 5] = [
        (3, &["00", "1e", "0.5_", "1_"]),
        (4, &["\"\\q\"", "\"\\xFF\"", "b64\"A\""]),
        (5, &["9223372036854775808", "0.1e402"]),
        (6, &["'2025-06-01'", "'"]),
        (7, &[":", "height_mm", "A,"]),
    ];
    let (mut bytes, rows) = good(random);
    let node = random.below(rows.len());
    let (number, faults) = faults[random.below(faults.len())];
    let fault = random.pick(faults);
    bytes.splice(rows[node][2] as usize..rows[node][3] as usize, fault.bytes());
    // An identifier is the start of a node.
    Line::lost(bytes, number, node + usize::from(fault.starts_with('A')))
}

/// A good line that ends early: before a value, inside a string, at any byte; or with
/// zeros from there on, as a file has that was cut off by a power failure.
fn died(random: &mut Random) -> Line {
    let (mut bytes, rows) = good(random);
    let node = random.below(rows.len());
    let row = rows[node];
    let start = row[2] as usize;
    match random.below(8) {
        0..=2 => {
            bytes.truncate(start);
            Line::lost(bytes, 7, node)
        }
        3 => {
            bytes.truncate(start);
            bytes.resize(start + random.between(1, 20), 0);
            Line::lost(bytes, 3, node)
        }
        4 | 5 if matches!(row[0], 4 | 5) => {
            let (from, to) = (row[9] as usize, row[10] as usize);
            let quote = bytes[from..to].iter().position(|&byte| byte == b'"').unwrap_or(0);
            bytes.truncate(random.between(from + quote + 1, to - 1));
            match std::str::from_utf8(&bytes) {
                Ok(_) => Line::lost(bytes, 3, node + usize::from(row[7] > 0)),
                Err(_) => Line::lost(bytes, 2, 0),
            }
        }
        _ => {
            let length = random.below(bytes.len());
            bytes.truncate(length);
            unknown(bytes)
        }
    }
}

#[cfg(test)]
mod tests {
    use super::*;

    #[test]
    fn logs_follow_from_seed_and_number() {
        let made = |seed, number| case(&mut Random::for_case(seed, number));
        for number in 0..200 {
            assert_eq!(made(3, number), made(3, number));
        }
        assert!((0..200).any(|number| made(3, number) != made(4, number)));
    }

    /// The lines of a log are its pieces between line feeds.
    #[test]
    fn lines_are_split_at_line_feeds() {
        for number in 0..1_000 {
            let (log, _) = case(&mut Random::for_case(4, number));
            let pieces: Vec<_> = log.bytes.split_inclusive(|&byte| byte == b'\n').collect();
            assert_eq!(pieces.len(), log.lines.len());
            for (piece, line) in pieces.into_iter().zip(&log.lines) {
                assert_eq!(piece.strip_suffix(b"\n").unwrap_or(piece), line.bytes);
            }
        }
    }
}
