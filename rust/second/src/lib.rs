//! An independent second reader for Duper, written from documents 01, 02 and
//! 000 alone.
//!
//! It is built unlike a reader that walks the bytes by recursive descent:
//!
//! 1. `tokens` cuts the whole text into a list of tokens, each with its
//!    places and its worked-out value, up to the first token with a fault of
//!    its own;
//! 2. `nodes` makes one pass over that list with an explicit stack and fills
//!    an arena of nodes;
//! 3. the arena is written out as document 01's table.
//!
//! That two-step order gives document 01's first fault exactly. Every fault's
//! place is the start of a token or comment, or the text's length, and the
//! numbers a token has by itself (3 to 6) are smaller than those it gets from
//! its surroundings (7 to 10). So the first fault is the one at the first
//! token that has any, and its own goes before its surroundings': "Among 3 to
//! 10 the smallest place counts, then the smallest number."
//!
//! Upon the reader stand corrections and undo: [`correct`] and [`undo`] over
//! lent buffers, and [`book`], document 01's plain book, which has no buffers
//! and works everything out anew from the corrections in force. [`insertion`]
//! is document 02's rule on what comments may do to a table, and [`utf8`] its
//! check that passes over eight plain bytes at a time. [`path`] finds a node by
//! the keys and indices that lead to it from the root. [`summary`] counts the
//! records of a text by what their height is, and gives the least, the greatest
//! and the mean of the measured ones. [`salvage`] makes one text of those lines
//! of a log that read.

#![forbid(unsafe_code)]
#![warn(missing_docs)]

pub mod book;
mod change;
pub mod insertion;
mod nodes;
mod numbers;
pub mod path;
pub mod salvage;
mod strings;
pub mod summary;
mod tokens;
pub mod utf8;

#[cfg(test)]
mod tests;

pub use change::{correct, undo, Answer};
use nodes::{Arena, Entry};

/// "text at most 65,536 bytes"
pub const MAX_TEXT: usize = 65_536;
/// "at most 32 containers open at once"
pub const MAX_DEPTH: usize = 32;
/// "nodes at most the smaller of 4,096 and the lent table's words divided by
/// 12, rounded down"
pub const MAX_NODES: usize = 4_096;
/// "Twelve 32-bit words a node"
pub const ROW: usize = 12;

/// A refusal: one of document 01's numbers, or one that a request of document
/// 02 adds, and its place.
#[derive(Debug, Clone, Copy, PartialEq, Eq)]
pub struct Refusal {
    /// The paper's number of refusal.
    pub number: u32,
    /// The place the paper gives for it; for 21 the number of a node, for 23
    /// that of a step.
    pub place: u64,
}

impl Refusal {
    pub(crate) fn new(number: u32, place: usize) -> Self {
        Refusal { number, place: place as u64 }
    }

    /// Document 01's refusals from 11 on have the place 0, and so have document
    /// 02's 27 and 28.
    pub(crate) fn at_zero(number: u32) -> Self {
        Refusal { number, place: 0 }
    }
}

/// How many nodes a table of so many words can hold.
pub fn node_limit(table_words: usize) -> usize {
    MAX_NODES.min(table_words / ROW)
}

/// Reads a text into the lent table and answers the node count.
///
/// Every word of the table is written: the rows, then zeros ("Words after the
/// last node are 0"). "A refused reading, and 11, leave every table word 0 and
/// a node count of 0."
pub fn read(text: &[u8], table: &mut [u32]) -> Result<usize, Refusal> {
    match arena(text, node_limit(table.len()), MAX_DEPTH, Entry::Root) {
        Ok(arena) => {
            arena.write(table);
            Ok(arena.len())
        }
        Err(refusal) => {
            table.fill(0);
            Err(refusal)
        }
    }
}

/// Gives the content of the string or word at a span of the text.
///
/// "It takes any string token or any word of the key shape, valid by itself,
/// UTF-8 included, and writes its content at the output's front; the rest of
/// the output stays. A span that runs backwards, past the text or over 65,536
/// bytes is 19 too. 19 goes before 20; both write nothing."
pub fn content(text: &[u8], start: u64, end: u64, out: &mut [u8]) -> Result<usize, Refusal> {
    let part = span(text, start, end).ok_or(Refusal::at_zero(19))?;
    let found = tokens::only_content(part).ok_or(Refusal::at_zero(19))?;
    let front = out.get_mut(..found.len()).ok_or(Refusal::at_zero(20))?;
    front.copy_from_slice(&found);
    Ok(found.len())
}

/// The bytes of a span, unless it "runs backwards, past the text or over
/// 65,536 bytes".
fn span(text: &[u8], start: u64, end: u64) -> Option<&[u8]> {
    if end.checked_sub(start)? > MAX_TEXT as u64 {
        return None;
    }
    text.get(usize::try_from(start).ok()?..usize::try_from(end).ok()?)
}

/// Whether the bytes are "one value from its first byte to its last, within
/// the sizes above taken alone with 4,096 nodes"; with `root`, whether that
/// value is a root besides. This is what refusal 13 turns on.
pub fn one_value(text: &[u8], root: bool) -> bool {
    let entry = if root { Entry::Root } else { Entry::AnyValue };
    arena(text, MAX_NODES, MAX_DEPTH, entry).is_ok_and(|arena| arena.covers(text.len()))
}

/// Reads a whole text into an arena of at most `limit` nodes, with at most
/// `deepest` containers open at once.
///
/// "1 goes before 2, and 2 before the rest."
fn arena(text: &[u8], limit: usize, deepest: usize, entry: Entry) -> Result<Arena<'_>, Refusal> {
    if text.len() > MAX_TEXT {
        return Err(Refusal::new(1, MAX_TEXT));
    }
    // 2's place is the "length of the longest valid front".
    let text = std::str::from_utf8(text).map_err(|e| Refusal::new(2, e.valid_up_to()))?;
    let (tokens, fault) = tokens::cut(text);
    let mut arena = Arena::new(limit, deepest, entry);
    for token in &tokens {
        arena.take(token, text).map_err(|number| Refusal::new(number, token.start))?;
    }
    match fault {
        Some(fault) => Err(fault),
        None if arena.is_whole() => Ok(arena),
        // "or text ends early": 7 at "the length".
        None => Err(Refusal::new(7, text.len())),
    }
}
