//! Salvaging a log that has a value in each line.

use std::error::Error;
use std::fmt;

use crate::{sys, Reason, Refusal, MAX_NODES, MAX_TEXT, ROW};

/// What salvaging a log into lent buffers answers.
#[derive(Debug, Clone, Copy, PartialEq, Eq, Hash)]
#[must_use]
pub struct Written {
    /// The length of the text that was written at the output's front.
    pub bytes: usize,
    /// How many lines the log has, and so how many verdicts were written at the
    /// list's front.
    pub lines: usize,
}

impl Written {
    pub(crate) fn new([bytes, lines]: [u64; 2]) -> Written {
        // Each is at most a slice's length.
        Written { bytes: bytes as usize, lines: lines as usize }
    }
}

/// What was salvaged of a log.
#[derive(Debug, Clone, PartialEq, Eq, Hash)]
#[must_use]
pub struct Salvaged {
    /// A text whose root is an array of the kept lines' values, in order. It
    /// always reads, and is for [`Document::read`](crate::Document::read).
    pub text: Vec<u8>,
    /// For each line of the log 0 if it was kept, else the number of refusal.
    pub verdicts: Vec<u8>,
}

impl Salvaged {
    /// The lines that were not kept, in order.
    ///
    /// ```
    /// let salvaged = duper::salvage(b"{ball: 1}\n{ball: 2, ball: 3}\n{ball: 4}\n{bal")?;
    /// let lost: Vec<_> = salvaged.lost().map(|lost| (lost.line, lost.number)).collect();
    /// assert_eq!(lost, [(2, 8), (4, 7)]);
    ///
    /// let first = salvaged.lost().next().expect("two are lost");
    /// assert_eq!(first.reason(), Some(duper::Reason::DoubledKey));
    /// assert_eq!(first.to_string(), "line 2: the key is already in this object (refusal 8)");
    /// # Ok::<(), duper::Refusal>(())
    /// ```
    pub fn lost(&self) -> impl Iterator<Item = Lost> + '_ {
        let numbered = (1..).zip(self.verdicts.iter().map(|&verdict| u32::from(verdict)));
        numbered.filter(|(_, number)| *number != 0).map(|(line, number)| Lost { line, number })
    }
}

/// A line that does not read by itself; as an error it says why.
#[derive(Debug, Clone, Copy, PartialEq, Eq, Hash)]
pub struct Lost {
    /// The line's number, from 1 on.
    pub line: usize,
    /// The number of refusal, from 2 to 10.
    pub number: u32,
}

impl Lost {
    /// What the number means; `None` for a number that this wrapper doesn't
    /// know.
    pub fn reason(&self) -> Option<Reason> {
        Reason::from_number(self.number)
    }
}

impl fmt::Display for Lost {
    fn fmt(&self, f: &mut fmt::Formatter<'_>) -> fmt::Result {
        write!(f, "line {}: ", self.line)?;
        match self.reason() {
            // One less than in a text, as the array is around the line.
            Some(Reason::TooDeep) => f.write_str("over 31 containers are open at once")?,
            Some(reason) => reason.fmt(f)?,
            None => f.write_str("refused for a reason this wrapper does not know")?,
        }
        write!(f, " (refusal {})", self.number)
    }
}

impl Error for Lost {}

/// Salvages what can be read of a log that has a value in each line, as of a rig
/// that died mid-line; see [`salvage_into`] for what a line is and which are kept.
///
/// ```
/// let log = b"{ball: 1, height_mm: 412.5}\n{ball: 2, height_mm: null}\n{ball: 3, hei";
/// let salvaged = duper::salvage(log)?;
/// assert_eq!(salvaged.verdicts, [0, 0, 7]);
/// for lost in salvaged.lost() {
///     eprintln!("{lost}");
/// }
///
/// let season = duper::Document::read(salvaged.text)?;
/// assert_eq!(season.summary()?.counts.measured, 1);
/// assert!(season.find("1.height_mm")?.is_null());
/// # Ok::<(), duper::Refusal>(())
/// ```
///
/// The buffers are as large as the call has use for, so 27 never comes. The
/// refusal is 1 if the log is over 65,536 bytes, and 28 if what is kept would make
/// a text of over 65,536 bytes or over 4,096 nodes: such a log is to be handed over
/// in parts, cut behind a line feed.
pub fn salvage(log: &[u8]) -> Result<Salvaged, Refusal> {
    // A value takes at least a byte, and the array is one more. A kept line has at
    // least two bytes, its brackets, and three are written behind it. A line has at
    // least a byte, if only its line feed.
    let length = log.len().min(MAX_TEXT);
    let mut table = vec![0; (length + 1).min(MAX_NODES) * ROW];
    let mut text = vec![0; (3 * length + 3).min(MAX_TEXT)];
    let mut verdicts = vec![0; length];
    let written = salvage_into(log, &mut table, &mut text, &mut verdicts)?;
    text.truncate(written.bytes);
    verdicts.truncate(written.lines);
    Ok(Salvaged { text, verdicts })
}

/// Salvages a log that has a value in each line: keeps the lines that read by
/// themselves, and writes a text that has their values in an array.
///
/// A line is what stands before a line feed, 0A, or behind the last one if that is
/// not empty. So an empty line counts as one, and a carriage return stays in its
/// line, where it is a space. A line is kept if [`read`](crate::read) would take it
/// with the lent table and with at most 31 containers open at once, as the array is
/// around it. So it holds a whole value that can be the root, and may end in a
/// comment.
///
/// At the front of `out` are written `[` and 0A, then each kept line as it stands,
/// 0A, a comma and 0A, then `]`; at the front of `verdicts` for each line 0 if it
/// is kept, else the number of refusal, from 2 to 10. Later places of both stay.
/// What is written always reads, and the root's children are the kept lines'
/// values in order. The table is all zeros afterwards, whatever the answer.
///
/// The refusal is, in this order,
///
/// - 1 if the log is over 65,536 bytes;
/// - 27 if `verdicts` is shorter than the log has lines;
/// - 28 if the text would be longer than `out` or than 65,536 bytes, or if it would
///   have more nodes than the lent table has room for. No line is dropped to fit.
///
/// Each leaves `out` and `verdicts` as they were. [`salvage`] does the lending.
///
/// ```
/// let log = b"[412.5]\n\n[nul\n[null] // lost sight of it";
/// let mut table = [0; 5 * duper::ROW];
/// let (mut out, mut verdicts) = ([b'.'; 50], [99; 5]);
/// let written = duper::salvage_into(log, &mut table, &mut out, &mut verdicts)?;
/// assert_eq!((written.bytes, written.lines), (42, 4));
/// assert_eq!(&out[..43], b"[\n[412.5]\n,\n[null] // lost sight of it\n,\n].");
/// assert_eq!(verdicts, [0, 7, 7, 0, 99]);
///
/// // The array, two more and their values: five nodes.
/// let mut table = [0; 5 * duper::ROW - 1];
/// let refusal = duper::salvage_into(log, &mut table, &mut out, &mut verdicts).unwrap_err();
/// assert_eq!(refusal.reason(), Some(duper::Reason::NoRoomForKept));
/// # Ok::<(), duper::Refusal>(())
/// ```
pub fn salvage_into(
    log: &[u8],
    table: &mut [u32],
    out: &mut [u8],
    verdicts: &mut [u8],
) -> Result<Written, Refusal> {
    sys::salvage(log, table, out, verdicts)
}

#[cfg(test)]
mod tests {
    use super::*;

    #[test]
    fn lost_lines_are_told_in_words() {
        let salvaged = Salvaged { text: Vec::new(), verdicts: vec![0, 3, 0, 0, 9, 99] };
        let lost: Vec<_> = salvaged.lost().map(|lost| (lost.line, lost.number)).collect();
        assert_eq!(lost, [(2, 3), (5, 9), (6, 99)]);
        let told: Vec<_> = salvaged.lost().map(|lost| lost.to_string()).collect();
        assert_eq!(
            told,
            [
                "line 2: a token or comment is malformed or not closed (refusal 3)",
                "line 5: over 31 containers are open at once (refusal 9)",
                "line 6: refused for a reason this wrapper does not know (refusal 99)",
            ]
        );
        let kept = Salvaged { text: Vec::new(), verdicts: vec![0; 3] };
        assert_eq!(kept.lost().next(), None);
    }
}
