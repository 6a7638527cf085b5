//! Random histories of corrections and undos, each with what the plain book
//! says of it. Nothing here depends on the calls under trial.

use second::book::{self, Book, Call, Page};
use second::ROW;

use crate::check::{rubbish, rubbish_bytes};
use crate::random::Random;
use crate::{exponents, texts, writer};

/// Buffers as a caller lends them, with the lengths in use.
#[derive(Debug, Clone, PartialEq, Eq)]
pub struct Lent {
    /// The text buffer.
    pub text: Vec<u8>,
    /// Its length in use.
    pub used: usize,
    /// The journal.
    pub journal: Vec<u8>,
    /// Its length in use.
    pub kept: usize,
    /// The table.
    pub table: Vec<u32>,
}

impl Lent {
    /// Buffers of these lengths that start with a text and an empty journal.
    /// All that isn't in use is rubbish, so that a byte left alone shows.
    pub fn first(text: &[u8], lengths: book::Lengths) -> Lent {
        Lent {
            text: front(text, lengths.text),
            used: text.len(),
            journal: rubbish_bytes(lengths.journal),
            kept: 0,
            table: rubbish(lengths.table),
        }
    }
}

/// A buffer of this length, or the bytes' own if that is more, with these bytes
/// at its front.
pub(crate) fn front(bytes: &[u8], length: usize) -> Vec<u8> {
    let mut buffer = rubbish_bytes(length.max(bytes.len()));
    buffer[..bytes.len()].copy_from_slice(bytes);
    buffer
}

/// A text that reads, the buffers' lengths, and a list of calls with the book's
/// page after each. In the end all is taken back, and once more is tried.
#[derive(Debug, Clone)]
pub struct History {
    /// The first text.
    pub first: Vec<u8>,
    /// The lengths of the lent buffers.
    pub lengths: book::Lengths,
    /// The calls, each with its page.
    pub calls: Vec<(Call, Page)>,
}

/// Makes a history. Its calls are chosen with an eye on the book's own pages
/// alone.
pub fn history(random: &mut Random) -> Result<History, String> {
    let (first, nodes) = first_text(random);
    let lengths = book::Lengths {
        text: first.len()
            + match random.below(12) {
                0 => 0,
                1..=3 => random.below(12),
                4..=10 => random.below(300),
                _ => 70_000,
            },
        journal: match random.below(12) {
            0 => random.below(30),
            1..=3 => random.below(200),
            4..=10 => 2_000,
            _ => first.len() + 2_000,
        },
        table: match random.below(60) {
            0 => ROW * 4096 + random.below(20),
            1..=9 => ROW * nodes + random.below(ROW),
            10..=29 => ROW * (nodes + random.below(6)) + random.below(ROW),
            _ => ROW * (nodes + random.below(40)) + random.below(ROW),
        },
    };
    let mut book = Book::new(&first, lengths)
        .ok_or_else(|| format!("the first text doesn't read: {}", first.escape_ascii()))?;
    let undos = random.between(2, 9);
    let mut calls: Vec<(Call, Page)> = Vec::new();
    let mut page = book.page();
    let most = if first.len() > 5_000 { 8 } else { 30 };
    for _ in 0..random.between(1, most) {
        // Now and then, too, all is taken back, and once more is tried.
        let all = if random.one_in(30) { book.in_force() + 1 } else { 0 };
        for _ in 0..all.max(1) {
            let call = if all > 0 || random.one_in(undos) {
                Call::Undo
            } else {
                correction(random, &page, lengths)
            };
            page = book.enter(&call);
            calls.push((call, page.clone()));
        }
    }
    for _ in 0..=book.in_force() {
        calls.push((Call::Undo, book.enter(&Call::Undo)));
    }
    Ok(History { first, lengths, calls })
}

/// A text that reads, and its node count.
pub(crate) fn first_text(random: &mut Random) -> (Vec<u8>, usize) {
    match random.below(400) {
        0 => {
            // About as long as a text can be.
            let length = random.between(65_000, 65_536);
            let mut text = b"[1, \"a\", (null,), ".to_vec();
            match random.below(3) {
                0 => text.resize(length - 1, b' '),
                1 => {
                    text.extend_from_slice(b"/*");
                    text.resize(length - 3, b'x');
                    text.extend_from_slice(b"*/");
                }
                _ => {
                    text.push(b'"');
                    text.resize(length - 2, b'x');
                    text.extend_from_slice(b"\"]");
                    return (text, 6);
                }
            }
            text.push(b']');
            (text, 5)
        }
        1 => {
            // About as many nodes as a reading can have.
            let nodes = random.between(4_090, 4_096);
            (array(nodes), nodes)
        }
        2..=40 => {
            // About as deep as containers can be nested.
            let depth = random.between(26, 32);
            (deep(random, depth), depth)
        }
        41..=80 => written(random, 10, 60),
        _ => written(random, 1, 10),
    }
}

pub(crate) fn written(random: &mut Random, least: usize, most: usize) -> (Vec<u8>, usize) {
    let nodes = random.between(least, most);
    let written = writer::write(random, nodes);
    (written.text, written.rows.len())
}

/// An array of so many nodes, itself included.
fn array(nodes: usize) -> Vec<u8> {
    let items = vec!["1"; nodes.saturating_sub(1)];
    format!("[{}]", items.join(",")).into_bytes()
}

/// So many containers, each but the first in the one before, some in an
/// identifier.
fn deep(random: &mut Random, depth: usize) -> Vec<u8> {
    let mut text = Vec::new();
    let mut closing: Vec<&[u8]> = Vec::new();
    for level in 0..depth {
        let innermost = level + 1 == depth;
        let (open, close): (&[u8], &[u8]) = match random.below(5) {
            0 if !innermost => (b"{a:", b"}"),
            1 => (b"(", b")"),
            2 => (b"A([", b"])"),
            _ => (b"[", b"]"),
        };
        text.extend_from_slice(open);
        closing.push(close);
    }
    text.extend(closing.into_iter().rev().flatten());
    text
}

/// A correction of the text on this page, mostly of a node that it has.
fn correction(random: &mut Random, page: &Page, lengths: book::Lengths) -> Call {
    let node = node_number(random, page.nodes);
    let old = match page.table.get(node.saturating_mul(ROW)..).map(|row| row.get(2..4)) {
        Some(Some(&[start, end])) => (end - start) as usize,
        _ => 0,
    };
    // What the text may still grow by, if the node's value goes.
    let room = (lengths.text.min(65_536) + old).saturating_sub(page.text.len());
    let replacement = replacement(random, node == 0, room, lengths.table / ROW);
    Call::Correct { node, replacement }
}

/// A node number, most often below the count.
pub(crate) fn node_number(random: &mut Random, nodes: usize) -> usize {
    match random.below(60) {
        0 => nodes,
        1 => nodes + 1 + random.below(3),
        2 => *random.pick(&[
            &usize::MAX,
            &(usize::MAX / ROW + 1),
            &(1 << 32),
            &(u32::MAX as usize),
            &4_095,
            &4_096,
        ]),
        3 => (1 << 32) + random.below(nodes),
        _ => random.below(nodes),
    }
}

/// A replacement: mostly one value, and one for the root if `root` says so;
/// sometimes none. `room` is the longest that the text can take, `limit` the
/// number of rows in the table.
pub(crate) fn replacement(random: &mut Random, root: bool, room: usize, limit: usize) -> Vec<u8> {
    if root && !random.one_in(4) {
        let nodes = random.between(1, 12);
        return writer::write_value(random, nodes, true).text;
    }
    match random.below(60) {
        0 => texts::glue(random, 4),
        1 => Vec::new(),
        2 => {
            let slips: [&[u8]; 14] = [
                b"1, 2",
                b"1 // x",
                b" 1",
                b"1\n",
                b"/**/1",
                b"1]",
                b"a: 1",
                b"x",
                b"\"a",
                b"00",
                b"01e6",
                b"1e0_",
                b"'x'",
                b"\"\xFF\"",
            ];
            random.pick(&slips).to_vec()
        }
        3 => b"{a:1,\"\\x61\":2}".to_vec(),
        4 => b"9223372036854775808".to_vec(),
        5 => b"A(B(1))".to_vec(),
        // A whole text, which may have spaces and comments around it.
        6 => writer::write(random, 4).text,
        7..=9 => {
            let depth = random.between(1, 33);
            deep(random, depth)
        }
        10..=12 => {
            let depth = random.between(1, 6);
            deep(random, depth)
        }
        // About as many nodes as the table has room for.
        13 if limit < 200 => array((limit + 2).saturating_sub(random.below(6))),
        14 if random.one_in(60) => array(random.between(4_093, 4_097)),
        15 => array(random.between(1, 12)),
        // About as long as the text has room for.
        16 | 17 if room < 300 || random.one_in(10) => {
            string((room + 1).saturating_sub(random.below(3)))
        }
        18 if random.one_in(60) => string(random.between(65_535, 65_537)),
        19 => writer::write_string(random).0,
        20 => b"null".to_vec(),
        21 => b"A([])".to_vec(),
        22 => b"{a:(1,2)}".to_vec(),
        23..=29 => random.below(2_000).to_string().into_bytes(),
        30..=32 => exponents::token(random).written.into_bytes(),
        33 | 34 => writer::write_value(random, 20, false).text,
        35..=42 if room > 30_000 => exponents::long_token(random).written.into_bytes(),
        _ => writer::write_value(random, 3, false).text,
    }
}

/// A string of about so many bytes; at least two.
pub(crate) fn string(length: usize) -> Vec<u8> {
    let mut text = vec![b'x'; length.max(2)];
    let last = text.len() - 1;
    (text[0], text[last]) = (b'"', b'"');
    text
}
