//! A safe wrapper over the Duper reader, which comes as a C archive.
//!
//! Eight functions are the archive's own: [`read`] fills a lent table of nodes,
//! twelve words each; [`content`] writes the content of a string or key;
//! [`find`] answers which node a path like `balls.3.height_mm` leads to;
//! [`summary`](summary()) counts the records of a season by what their height is,
//! missing ones apart from measured ones, and gives the least, the greatest and
//! the mean; [`correct`] replaces a value in a lent text and notes in a lent
//! journal what stood there; [`undo`] takes that back; [`salvage_into`] keeps of
//! a log that has a value in each line the lines that read, as one text;
//! [`utf8`](utf8()) is the reader's check of UTF-8 by itself. [`Document`] does the
//! lending: it owns a text, its table and its journal, and lists the nodes; for a
//! log [`salvage`](salvage()) does.
//!
//! Any bytes may be handed in. Each call answers or gives a [`Refusal`]; none
//! panics and nothing has to be checked first. A thread needs stack enough, as
//! the archive works there: 64 KiB for a reading, a path, a summary or a salvage,
//! 256 KiB for a correction; Rust's own threads have 2 MiB. The archive is for
//! x86-64 Linux.
//!
//! ```
//! let mut document = duper::Document::read("[1, null]")?;
//! for node in document.nodes() {
//!     println!("{:?} at {:?}", node.kind(), node.span());
//! }
//! document.correct(2, "12.5")?;
//! assert_eq!(document.text(), b"[1, 12.5]");
//! document.undo()?;
//! assert_eq!(document.text(), b"[1, null]");
//! # Ok::<(), duper::Refusal>(())
//! ```

#![deny(unsafe_op_in_unsafe_fn)]
#![warn(missing_docs)]

mod change;
mod document;
mod node;
mod path;
mod refusal;
mod salvage;
mod summary;
mod sys;
mod utf8;

pub use change::{correct, undo, Answer};
pub use document::{Children, Document, Limits, Members};
pub use node::{nodes, Decimal, Kind, Node, Nodes, Value};
pub use path::find;
pub use refusal::{Reason, Refusal};
pub use salvage::{salvage, salvage_into, Lost, Salvaged, Written};
pub use summary::{summary, Counts, Heights, Summary};
pub use utf8::{utf8, Utf8Check};

/// Words of the table for each node.
pub const ROW: usize = 12;
/// The most nodes a reading can have, however long the table.
pub const MAX_NODES: usize = 4096;
/// The longest text that is taken, in bytes.
pub const MAX_TEXT: usize = 65_536;

/// Reads a text into the lent table and answers the number of its nodes.
///
/// The table holds twelve words for each node, and zeros after the last. If
/// the text is refused the whole table is zeros. A table of fewer than twelve
/// words has room for no node.
///
/// ```
/// let mut table = [0; 10 * duper::ROW];
/// assert_eq!(duper::read(b"[1, null]", &mut table), Ok(3));
/// ```
pub fn read(text: &[u8], table: &mut [u32]) -> Result<usize, Refusal> {
    sys::read(text, table)
}

/// Writes the content of the string or plain key from `start` to `end` of the
/// text at the front of `out`, and answers its length in bytes.
///
/// The rest of `out` stays as it is. If the span isn't one string or key (19),
/// or its content is longer than `out` (20), nothing is written.
///
/// ```
/// let mut out = [0; 8];
/// let written = duper::content(br#"["Jos\xC3\xA9"]"#, 1, 14, &mut out)?;
/// assert_eq!(&out[..written], "José".as_bytes());
/// # Ok::<(), duper::Refusal>(())
/// ```
pub fn content(text: &[u8], start: usize, end: usize, out: &mut [u8]) -> Result<usize, Refusal> {
    sys::content(text, start, end, out)
}
