//! Document 01's plain book of demand 3.
//!
//! "The plain book of demand 3 is fed the first text, the lengths of the lent
//! buffers and, for each call, whether it corrects or undoes, with a
//! correction's node number and replacement; never an answer. It keeps the
//! corrections in force, each a node number and a replacement; at first none."
//!
//! Nothing else is kept: text, journal and table are worked out anew from that
//! list whenever they are asked for.

use crate::change::trailer;
use crate::{one_value, read, MAX_TEXT, ROW};

/// The lengths of the lent buffers.
#[derive(Debug, Clone, Copy, PartialEq, Eq)]
pub struct Lengths {
    /// The text buffer, in bytes.
    pub text: usize,
    /// The journal, in bytes.
    pub journal: usize,
    /// The table, in words.
    pub table: usize,
}

/// One call, as the book is told of it.
#[derive(Debug, Clone, PartialEq, Eq)]
pub enum Call {
    /// A correction.
    Correct {
        /// Its node number.
        node: usize,
        /// Its replacement.
        replacement: Vec<u8>,
    },
    /// An undo.
    Undo,
}

/// "Each answer is the refusal, at 0, or none; then the node count in the
/// reading of the book's text after the call, that text's length and the total
/// length of the entries in force." Here with the text, the journal in use and
/// the table after the call.
#[derive(Debug, Clone, PartialEq, Eq)]
pub struct Page {
    /// The number of the refusal; its place is always 0.
    pub refusal: Option<u32>,
    /// The node count in the reading of the book's text.
    pub nodes: usize,
    /// The book's text.
    pub text: Vec<u8>,
    /// "The journal in use is these entries in order."
    pub journal: Vec<u8>,
    /// The reading of the book's text, all lent words of it.
    pub table: Vec<u32>,
}

/// A correction in force.
#[derive(Debug, Clone, PartialEq, Eq)]
struct InForce {
    node: usize,
    replacement: Vec<u8>,
}

/// The book itself.
#[derive(Debug, Clone)]
pub struct Book {
    first: Vec<u8>,
    lent: Lengths,
    in_force: Vec<InForce>,
}

/// What a list of corrections makes of the first text.
struct Made {
    text: Vec<u8>,
    journal: Vec<u8>,
    table: Vec<u32>,
    nodes: usize,
}

impl Book {
    /// A book over a first text. Demand 3 starts "with a text that reads" and
    /// fits its buffer; for any other the answer is `None`.
    pub fn new(first: &[u8], lent: Lengths) -> Option<Book> {
        let book = Book { first: first.to_vec(), lent, in_force: Vec::new() };
        (first.len() <= lent.text && book.made(&[]).is_some()).then_some(book)
    }

    /// Enters one call and gives the page after it.
    pub fn enter(&mut self, call: &Call) -> Page {
        let refusal = match call {
            Call::Correct { node, replacement } => self.correct(*node, replacement).err(),
            Call::Undo => match self.in_force.pop() {
                Some(_) => None,
                // "An undo is refused with 17 if none is in force."
                None => Some(17),
            },
        };
        Page { refusal, ..self.page() }
    }

    /// How many corrections are in force.
    pub fn in_force(&self) -> usize {
        self.in_force.len()
    }

    /// The page as things stand. No text on the way fails to read, for a list
    /// in force; an empty page would show it.
    pub fn page(&self) -> Page {
        let Made { text, journal, table, nodes } = self.made(&self.in_force).unwrap_or(Made {
            text: Vec::new(),
            journal: Vec::new(),
            table: Vec::new(),
            nodes: 0,
        });
        Page { refusal: None, nodes, text, journal, table }
    }

    /// "A correction is refused with the first that holds: 12, the reading of
    /// the book's text has no such node; 13 as above; 14 as above; 15, the
    /// entries in force and its own together are longer than the lent journal;
    /// 16, the new text doesn't read. Else it is added as the last in force."
    fn correct(&mut self, node: usize, replacement: &[u8]) -> Result<(), u32> {
        let now = self.made(&self.in_force).ok_or(16u32)?;
        if node >= now.nodes {
            return Err(12);
        }
        if !one_value(replacement, node == 0) {
            return Err(13);
        }
        let (text, entry) = replace(&now.text, &now.table, node, replacement);
        if text.len() > self.lent.text || text.len() > MAX_TEXT {
            return Err(14);
        }
        if now.journal.len() + entry.len() > self.lent.journal {
            return Err(15);
        }
        let mut longer = self.in_force.clone();
        longer.push(InForce { node, replacement: replacement.to_vec() });
        if self.made(&longer).is_none() {
            return Err(16);
        }
        self.in_force = longer;
        Ok(())
    }

    /// "Its text is the first text with these made in order: each replaces the
    /// bytes from word 2 to word 3 of its node, in the reading of the text so
    /// far." `None` if a text on the way doesn't read.
    fn made(&self, list: &[InForce]) -> Option<Made> {
        let mut text = self.first.clone();
        let mut journal = Vec::new();
        let mut table = vec![0; self.lent.table];
        let mut nodes = read(&text, &mut table).ok()?;
        for correction in list {
            let (next, entry) = replace(&text, &table, correction.node, &correction.replacement);
            text = next;
            journal.extend(entry);
            nodes = read(&text, &mut table).ok()?;
        }
        Some(Made { text, journal, table, nodes })
    }
}

/// One replacement, and its entry: "the bytes it replaces, then the trailer".
fn replace(text: &[u8], table: &[u32], node: usize, new: &[u8]) -> (Vec<u8>, Vec<u8>) {
    let start = table[node * ROW + 2] as usize;
    let end = table[node * ROW + 3] as usize;
    let old = &text[start..end];
    (
        [&text[..start], new, &text[end..]].concat(),
        [old, &trailer(start, new.len(), old.len())].concat(),
    )
}

/// Enters a whole list of calls and gives a page for each.
pub fn pages(first: &[u8], lent: Lengths, calls: &[Call]) -> Option<Vec<Page>> {
    let mut book = Book::new(first, lent)?;
    Some(calls.iter().map(|call| book.enter(call)).collect())
}
