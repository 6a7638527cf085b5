//! Document 01's corrections and undo, over lent buffers.

use crate::nodes::Entry;
use crate::{arena, node_limit, one_value, read, Refusal, MAX_DEPTH, MAX_TEXT, ROW};

/// "three 32-bit numbers, low byte first": the trailer's length.
pub(crate) const TRAILER: usize = 12;

/// "Each answer gives the node count and both lengths in use, these unchanged
/// by a refusal."
#[derive(Debug, Clone, Copy, PartialEq, Eq)]
pub struct Answer {
    /// The refusal, or none.
    pub refusal: Option<Refusal>,
    /// The node count of the reading that the table then holds.
    pub nodes: usize,
    /// The text's length in use.
    pub used: usize,
    /// The journal's length in use.
    pub kept: usize,
}

/// A change of the text: these bytes are replaced by others.
struct Change {
    start: usize,
    end: usize,
    new: Vec<u8>,
}

impl Change {
    /// The text's length afterwards.
    fn length(&self, used: usize) -> usize {
        used - (self.end - self.start) + self.new.len()
    }

    /// The whole text afterwards.
    fn made(&self, text: &[u8]) -> Vec<u8> {
        [&text[..self.start], &self.new, &text[self.end..]].concat()
    }
}

/// The trailer: "start; replacement length; old length plus 12, which is the
/// whole entry".
pub(crate) fn trailer(start: usize, replacement: usize, old: usize) -> [u8; TRAILER] {
    let mut bytes = [0; TRAILER];
    for (four, number) in bytes.chunks_exact_mut(4).zip([start, replacement, old + TRAILER]) {
        four.copy_from_slice(&(number as u32).to_le_bytes());
    }
    bytes
}

/// Puts a replacement in the place of one node's value.
///
/// "Order: 11; the present text is read (1 to 10); 12; 13; 14 (new length over
/// the buffer or 65,536); 15; 16." "After any of these the table is the
/// reading of the text as it then stands"; after 1 to 11 it is all zeros.
pub fn correct(
    text: &mut [u8],
    used: usize,
    journal: &mut [u8],
    kept: usize,
    table: &mut [u32],
    node: usize,
    replacement: &[u8],
) -> Answer {
    let nodes = match present(text, used, journal, kept, table) {
        Ok(nodes) => nodes,
        Err(refusal) => return Answer { refusal: Some(refusal), nodes: 0, used, kept },
    };
    let refused = |number| Answer { refusal: Some(Refusal::at_zero(number)), nodes, used, kept };

    if node >= nodes {
        return refused(12);
    }
    if !one_value(replacement, node == 0) {
        return refused(13);
    }
    let (start, end) = (table[node * ROW + 2] as usize, table[node * ROW + 3] as usize);
    let change = Change { start, end, new: replacement.to_vec() };
    if change.length(used) > text.len().min(MAX_TEXT) {
        return refused(14);
    }
    let old = text[start..end].to_vec();
    let entry = [&old[..], &trailer(start, replacement.len(), old.len())].concat();
    if entry.len() > journal.len() - kept {
        return refused(15);
    }
    match make(text, used, table, &change) {
        Some((nodes, used)) => {
            // "The journal gains the old bytes, then a trailer that points
            // back [...] Other journal bytes stay."
            journal[kept..kept + entry.len()].copy_from_slice(&entry);
            Answer { refusal: None, nodes, used, kept: kept + entry.len() }
        }
        None => refused(16),
    }
}

/// Takes back the journal's last entry.
///
/// "Undo order: 11; reading; 17 (length 0); 18 (fewer than 12 bytes; third
/// number under 12 or over the length in use; start plus replacement length
/// over the text's); 14; 16. It puts the old bytes back, zeroes text bytes no
/// longer used, and cuts the entry off by length only."
pub fn undo(
    text: &mut [u8],
    used: usize,
    journal: &[u8],
    kept: usize,
    table: &mut [u32],
) -> Answer {
    let nodes = match present(text, used, journal, kept, table) {
        Ok(nodes) => nodes,
        Err(refusal) => return Answer { refusal: Some(refusal), nodes: 0, used, kept },
    };
    let refused = |number| Answer { refusal: Some(Refusal::at_zero(number)), nodes, used, kept };

    if kept == 0 {
        return refused(17);
    }
    let Some((change, entry)) = last_entry(&journal[..kept], used) else {
        return refused(18);
    };
    if change.length(used) > text.len().min(MAX_TEXT) {
        return refused(14);
    }
    match make(text, used, table, &change) {
        Some((nodes, used)) => Answer { refusal: None, nodes, used, kept: kept - entry },
        None => refused(16),
    }
}

/// What the journal's last entry would put back, and the entry's length;
/// `None` is refusal 18.
fn last_entry(journal: &[u8], used: usize) -> Option<(Change, usize)> {
    let (_, trailer) = journal.split_last_chunk::<TRAILER>()?;
    let number = |at: usize| {
        let four = [trailer[at], trailer[at + 1], trailer[at + 2], trailer[at + 3]];
        u64::from(u32::from_le_bytes(four))
    };
    let (start, replacement, entry) = (number(0), number(4), number(8));
    if entry < TRAILER as u64 || entry > journal.len() as u64 || start + replacement > used as u64 {
        return None;
    }
    let entry = entry as usize;
    let old = &journal[journal.len() - entry..journal.len() - TRAILER];
    let start = start as usize;
    Some((Change { start, end: start + replacement as usize, new: old.to_vec() }, entry))
}

/// 11, "a length in use exceeds its buffer", then the reading of the present
/// text. Either leaves the table as it should be.
fn present(
    text: &[u8],
    used: usize,
    journal: &[u8],
    kept: usize,
    table: &mut [u32],
) -> Result<usize, Refusal> {
    if used > text.len() || kept > journal.len() {
        table.fill(0);
        return Err(Refusal::at_zero(11));
    }
    read(&text[..used], table)
}

/// Makes a change for which there is room, and gives the new node count and
/// length; or, where "the resulting text doesn't read" (16), does nothing.
fn make(
    text: &mut [u8],
    used: usize,
    table: &mut [u32],
    change: &Change,
) -> Option<(usize, usize)> {
    let made = change.made(&text[..used]);
    arena(&made, node_limit(table.len()), MAX_DEPTH, Entry::Root).ok()?;
    text[..made.len()].copy_from_slice(&made);
    // "Bytes the text no longer uses become 0; later ones stay."
    if made.len() < used {
        text[made.len()..used].fill(0);
    }
    read(&made, table).ok().map(|nodes| (nodes, made.len()))
}
