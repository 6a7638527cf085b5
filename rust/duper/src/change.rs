//! Corrections and undo on lent buffers.

use crate::{sys, Refusal};

/// What a correction or undo on lent buffers answers.
#[derive(Debug, Clone, Copy, PartialEq, Eq, Hash)]
#[must_use]
pub struct Answer {
    /// Whether the text was changed; if not, why not. Text and journal are
    /// then as they were.
    pub outcome: Result<(), Refusal>,
    /// How many nodes the table now holds: those of the text as it now stands,
    /// or none after a refusal from 1 to 11.
    pub nodes: usize,
    /// The text's length in use; as it was given, if the call was refused.
    pub used: usize,
    /// The journal's length in use; as it was given, if the call was refused.
    pub kept: usize,
}

impl Answer {
    pub(crate) fn new(answer: u64, [nodes, used, kept]: [u64; 3]) -> Answer {
        // Each is at most a slice's length or a `usize` that was handed in.
        let [nodes, used, kept] = [nodes as usize, used as usize, kept as usize];
        Answer { outcome: Refusal::from_answer(answer).map(|_| ()), nodes, used, kept }
    }
}

/// Puts `replacement` in the place of a node's value, and notes in the journal
/// what stood there.
///
/// `used` and `kept` are the lengths in use of text and journal: the text is
/// `text[..used]`, and what follows is room for it to grow. The first
/// correction of a text has a journal with nothing in use. The next call is to
/// be given the buffers as this one left them and the lengths it answered.
///
/// The table need hold nothing before: the text is read into it first, and
/// `node` is a number of that reading. Afterwards it is the reading of the text
/// as it then stands, changed or not; after a refusal from 1 to 11 it is all
/// zeros. A refusal leaves text and journal as they were.
///
/// [`Document`](crate::Document) does the lending and keeps the lengths.
///
/// ```
/// let mut text = *b"[1, null]...";
/// let mut journal = [0; 64];
/// let mut table = [0; 10 * duper::ROW];
/// let answer = duper::correct(&mut text, 9, &mut journal, 0, &mut table, 2, b"412.5");
/// assert_eq!(answer.outcome, Ok(()));
/// assert_eq!(&text[..answer.used], b"[1, 412.5]");
///
/// let answer = duper::undo(&mut text, answer.used, &mut journal, answer.kept, &mut table);
/// assert_eq!(answer.outcome, Ok(()));
/// assert_eq!(&text[..answer.used], b"[1, null]");
/// assert_eq!((answer.nodes, answer.kept), (3, 0));
/// ```
pub fn correct(
    text: &mut [u8],
    used: usize,
    journal: &mut [u8],
    kept: usize,
    table: &mut [u32],
    node: usize,
    replacement: &[u8],
) -> Answer {
    sys::correct(text, used, journal, kept, table, node, replacement)
}

/// Takes back the correction that the journal's last entry notes.
///
/// Buffers and lengths are as for [`correct`]. The entry is cut off by the
/// length answered alone; the journal's bytes stay. Any journal may be handed
/// in: an entry that doesn't fit the text is refused.
pub fn undo(
    text: &mut [u8],
    used: usize,
    journal: &mut [u8],
    kept: usize,
    table: &mut [u32],
) -> Answer {
    sys::undo(text, used, journal, kept, table)
}
