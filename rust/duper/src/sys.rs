//! The boundary to the archive. All that is unsafe in this crate is here.

use crate::{Answer, Refusal, Summary, Utf8Check, Written};

extern "C" {
    /// Answers the node count, or refusal times 4294967296 plus place.
    /// `table_len` is in words.
    fn duper_read(text: *const u8, text_len: usize, table: *mut u32, table_len: usize) -> u64;

    /// Answers refusal times 4294967296 plus the bytes written.
    fn duper_content(
        text: *const u8,
        text_len: usize,
        start: u64,
        end: u64,
        out: *mut u8,
        out_len: usize,
    ) -> u64;

    /// Answers the node's number, or refusal times 4294967296 plus place, which
    /// for 23 is a step's number. `table_len` is in words.
    fn duper_find(
        text: *const u8,
        text_len: usize,
        table: *mut u32,
        table_len: usize,
        path: *const u8,
        path_len: usize,
    ) -> u64;

    /// Answers 0, or refusal times 4294967296 plus place, which for 21 is a
    /// node's number; in `counts` how many heights are measured, null, absent and
    /// unfit, and in `heights` the least, the greatest and the mean. A refusal
    /// leaves both as they were. Where no height is measured, `heights` stays.
    /// `table_len` is in words.
    fn duper_summary(
        text: *const u8,
        text_len: usize,
        table: *mut u32,
        table_len: usize,
        counts: *mut [u64; 4],
        heights: *mut [f64; 3],
    ) -> u64;

    /// Answers 0, or refusal times 4294967296 plus place; and in `answer` the
    /// node count and the lengths in use of text and journal.
    fn duper_correct(
        text: *mut u8,
        text_len: usize,
        used: usize,
        journal: *mut u8,
        journal_len: usize,
        kept: usize,
        table: *mut u32,
        table_len: usize,
        node: usize,
        replacement: *const u8,
        replacement_len: usize,
        answer: *mut [u64; 3],
    ) -> u64;

    /// Answers as `duper_correct` does.
    fn duper_undo(
        text: *mut u8,
        text_len: usize,
        used: usize,
        journal: *mut u8,
        journal_len: usize,
        kept: usize,
        table: *mut u32,
        table_len: usize,
        answer: *mut [u64; 3],
    ) -> u64;

    /// Answers 0, or refusal times 4294967296 plus place; and in `answer` the
    /// bytes written and the number of lines, 0 and 0 after a refusal. `table_len`
    /// is in words.
    fn duper_salvage(
        log: *const u8,
        log_len: usize,
        table: *mut u32,
        table_len: usize,
        out: *mut u8,
        out_len: usize,
        verdicts: *mut u8,
        verdicts_len: usize,
        answer: *mut [u64; 2],
    ) -> u64;

    /// Answers the length of the longest front that is UTF-8; and in `eights`
    /// the number of eights in it.
    fn duper_utf8(text: *const u8, text_len: usize, eights: *mut [u64; 1]) -> u64;
}

pub(crate) fn read(text: &[u8], table: &mut [u32]) -> Result<usize, Refusal> {
    // SAFETY: both pointers come from live slices, with these slices' own
    // lengths; they are aligned and, for empty slices too, not null. The text
    // is only read. The table is borrowed for this call alone, so the two
    // can't overlap. Neither pointer is kept.
    let answer = unsafe { duper_read(text.as_ptr(), text.len(), table.as_mut_ptr(), table.len()) };
    Refusal::from_answer(answer)
}

pub(crate) fn content(
    text: &[u8],
    start: usize,
    end: usize,
    out: &mut [u8],
) -> Result<usize, Refusal> {
    // SAFETY: as above; `start` and `end` are plain numbers that the archive
    // judges itself, whatever they are.
    let answer = unsafe {
        duper_content(
            text.as_ptr(),
            text.len(),
            start as u64,
            end as u64,
            out.as_mut_ptr(),
            out.len(),
        )
    };
    Refusal::from_answer(answer)
}

pub(crate) fn find(text: &[u8], table: &mut [u32], path: &[u8]) -> Result<usize, Refusal> {
    // SAFETY: every pointer comes from a live slice, with that slice's own
    // length; they are aligned and, for empty slices too, not null. Text and
    // path are only read, so these two may overlap. The table is borrowed
    // mutably for this call alone, so it overlaps neither. No pointer is kept.
    let answer = unsafe {
        duper_find(
            text.as_ptr(),
            text.len(),
            table.as_mut_ptr(),
            table.len(),
            path.as_ptr(),
            path.len(),
        )
    };
    Refusal::from_answer(answer)
}

pub(crate) fn summary(text: &[u8], table: &mut [u32]) -> Result<Summary, Refusal> {
    let (mut counts, mut heights) = ([0; 4], [0.0; 3]);
    let answer = summary_into(text, table, &mut counts, &mut heights);
    Refusal::from_answer(answer)?;
    Ok(Summary::new(counts, heights))
}

/// The call as it is, with lent counts and heights.
fn summary_into(
    text: &[u8],
    table: &mut [u32],
    counts: &mut [u64; 4],
    heights: &mut [f64; 3],
) -> u64 {
    // SAFETY: the pointers to text and table come from live slices, with these
    // slices' own lengths, the others from arrays of four and three; they are
    // aligned and, for empty slices too, not null. The text is only read. Table
    // and arrays are borrowed mutably for this call alone, so no two of the four
    // overlap. No pointer is kept.
    unsafe {
        duper_summary(text.as_ptr(), text.len(), table.as_mut_ptr(), table.len(), counts, heights)
    }
}

pub(crate) fn correct(
    text: &mut [u8],
    used: usize,
    journal: &mut [u8],
    kept: usize,
    table: &mut [u32],
    node: usize,
    replacement: &[u8],
) -> Answer {
    let mut counts = [0; 3];
    // SAFETY: every pointer comes from a live slice, with that slice's own
    // length, or from the array of three; they are aligned and not null. Text,
    // journal, table and array are borrowed mutably for this call alone, so no
    // two of them overlap, nor does the replacement, which is only read. No
    // pointer is kept. `used`, `kept` and `node` are plain numbers that the
    // archive judges itself, whatever they are.
    let answer = unsafe {
        duper_correct(
            text.as_mut_ptr(),
            text.len(),
            used,
            journal.as_mut_ptr(),
            journal.len(),
            kept,
            table.as_mut_ptr(),
            table.len(),
            node,
            replacement.as_ptr(),
            replacement.len(),
            &mut counts,
        )
    };
    Answer::new(answer, counts)
}

pub(crate) fn undo(
    text: &mut [u8],
    used: usize,
    journal: &mut [u8],
    kept: usize,
    table: &mut [u32],
) -> Answer {
    let mut counts = [0; 3];
    // SAFETY: as for `correct`.
    let answer = unsafe {
        duper_undo(
            text.as_mut_ptr(),
            text.len(),
            used,
            journal.as_mut_ptr(),
            journal.len(),
            kept,
            table.as_mut_ptr(),
            table.len(),
            &mut counts,
        )
    };
    Answer::new(answer, counts)
}

pub(crate) fn salvage(
    log: &[u8],
    table: &mut [u32],
    out: &mut [u8],
    verdicts: &mut [u8],
) -> Result<Written, Refusal> {
    let mut counts = [0; 2];
    let answer = salvage_counted(log, table, out, verdicts, &mut counts);
    Refusal::from_answer(answer)?;
    Ok(Written::new(counts))
}

/// The call as it is, with lent counts of bytes and lines.
fn salvage_counted(
    log: &[u8],
    table: &mut [u32],
    out: &mut [u8],
    verdicts: &mut [u8],
    counts: &mut [u64; 2],
) -> u64 {
    // SAFETY: every pointer comes from a live slice, with that slice's own length,
    // or from the array of two; they are aligned and, for empty slices too, not
    // null. The log is only read. Table, output, list and array are borrowed
    // mutably for this call alone, so no two of the five overlap. No pointer is
    // kept.
    unsafe {
        duper_salvage(
            log.as_ptr(),
            log.len(),
            table.as_mut_ptr(),
            table.len(),
            out.as_mut_ptr(),
            out.len(),
            verdicts.as_mut_ptr(),
            verdicts.len(),
            counts,
        )
    }
}

pub(crate) fn utf8(bytes: &[u8]) -> Utf8Check {
    let mut eights = [0];
    // SAFETY: the one pointer comes from a live slice, with that slice's own
    // length, the other from the array of one; they are aligned and, for an
    // empty slice too, not null. The bytes are only read. The array is borrowed
    // mutably for this call alone, so the two can't overlap. Neither pointer is
    // kept.
    let front = unsafe { duper_utf8(bytes.as_ptr(), bytes.len(), &mut eights) };
    Utf8Check::new(front, eights)
}

#[cfg(test)]
mod tests {
    use super::*;
    use crate::ROW;

    const COUNTS: [u64; 4] = [1, 2, u64::MAX, 4];
    const HEIGHTS: [f64; 3] = [-1.5, f64::INFINITY, -0.0];

    /// Calls with counts, heights and a table that hold something else before;
    /// gives the answer, the counts and the heights to the last bit.
    fn call(text: &[u8], table: &mut [u32]) -> (u64, [u64; 4], [u64; 3]) {
        let (mut counts, mut heights) = (COUNTS, HEIGHTS);
        table.fill(9);
        let answer = summary_into(text, table, &mut counts, &mut heights);
        (answer, counts, heights.map(f64::to_bits))
    }

    #[test]
    fn counts_and_heights_are_written() {
        let mut table = [0; 12 * ROW];
        // 2500, 0 and 1000 micrometres: the sum is 3500.
        let text = b"[{height_mm: 0.250e1}, {height_mm: -0.0}, {height_mm: 1}, {}, {}, {}]";
        let heights = [0.0, 2500.0, 3500.0 / 3.0].map(f64::to_bits);
        assert_eq!(call(text, &mut table), (0, [3, 0, 3, 0], heights));
    }

    #[test]
    fn no_measured_height_leaves_the_heights() {
        let mut table = [0; 12 * ROW];
        let heights = HEIGHTS.map(f64::to_bits);
        assert_eq!(call(b"[]", &mut table), (0, [0; 4], heights));
        let text = b"[{height_mm: null}, {}, {height_mm: -1}, {}, {height_mm: true}, {a: 5}]";
        assert_eq!(call(text, &mut table), (0, [0, 1, 3, 2], heights));
    }

    #[test]
    fn a_refusal_leaves_counts_and_heights() {
        let heights = HEIGHTS.map(f64::to_bits);
        for (text, number, place) in [
            (&b"{}"[..], 21, 0),
            (b"[{height_mm: 1}, 2]", 21, 3),
            (b"", 7, 0),
            (b"[00]", 3, 1),
            (b"[{height_mm: 1}", 7, 15),
            // Room for four nodes: the fifth is the third record.
            (b"[{height_mm: 1}, {}, {}, {}]", 10, 21),
            (&[b' '; 65_537], 1, 65_536),
        ] {
            let mut table = [0; 5 * ROW - 1];
            let answer = (number << 32) + place;
            let called = call(text, &mut table);
            assert_eq!(called, (answer, COUNTS, heights), "{}", text.escape_ascii());
        }
    }

    /// Every refusal of a log clears both counts, whatever they were.
    #[test]
    fn bytes_and_lines_are_written_by_every_outcome() {
        let long = [b'\n'; 65_537];
        for (log, room, list, answer, counted) in [
            (&b"[]\n{}\n\n["[..], 13, 4, 0, [13, 4]),
            (b"", 3, 0, 0, [3, 0]),
            (b"\n", 3, 1, 0, [3, 1]),
            (&long, 3, 65_537, (1 << 32) + 65_536, [0, 0]),
            (b"[]\n{}\n\n[", 13, 3, 27 << 32, [0, 0]),
            (b"[]\n{}\n\n[", 12, 4, 28 << 32, [0, 0]),
            (b"[]\n{}\n\n[]", 18, 4, 28 << 32, [0, 0]),
        ] {
            // Room for the array and two nodes.
            let mut table = [9; 3 * ROW];
            let (mut out, mut verdicts) = (vec![0; room], vec![0; list]);
            let mut counts = [5, u64::MAX];
            let called = salvage_counted(log, &mut table, &mut out, &mut verdicts, &mut counts);
            assert_eq!((called, counts), (answer, counted), "{} bytes", log.len());
            assert_eq!(table, [0; 3 * ROW]);
        }
    }
}
