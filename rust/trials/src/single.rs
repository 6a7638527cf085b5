//! Random single calls on any buffers: any text, lengths in use that may exceed
//! them, any journal, any table. Nothing here depends on the calls under trial.

use second::book::Call;
use second::ROW;

use crate::check::rubbish;
use crate::histories::{first_text, front, node_number, replacement, string, written, Lent};
use crate::random::Random;
use crate::{texts, writer};

/// One call on any buffers.
pub fn single(random: &mut Random) -> (Lent, Call) {
    let (text, nodes) = match random.below(400) {
        0 => first_text(random),
        1 => (vec![b' '; random.between(65_535, 65_538)], 1),
        2..=60 => {
            // Mostly refused, by every number.
            let case = texts::case(random.next(), 0);
            let text = if case.text.len() > 2_000 { b"[00]".to_vec() } else { case.text };
            let nodes = text.len() / 2 + 1;
            (text, nodes)
        }
        61..=80 => (texts::glue(random, 8), 8),
        _ => written(random, 1, 8),
    };
    let mut whole = vec![0; ROW * (text.len() / 2 + 1).min(4096)];
    let rows = second::read(&text, &mut whole).unwrap_or(0);
    let table = match random.below(40) {
        0 => random.below(40),
        1 => (ROW * nodes).saturating_sub(random.below(3)),
        _ => ROW * (nodes + random.below(12)) + random.below(ROW),
    };
    let room = match random.below(100) {
        0..=9 => 0,
        10..=59 => random.below(30),
        60 => 70_000,
        _ => 300,
    };
    let buffer = front(&text, text.len() + room);
    let used = in_use(random, text.len(), buffer.len());
    let call = if random.one_in(2) {
        Call::Undo
    } else {
        let node = node_number(random, rows.max(1));
        let replacement = replacement(random, node == 0, room + 4, table / ROW);
        Call::Correct { node, replacement }
    };
    let entries = journal(random, &text, &whole[..rows * ROW], room);
    let length = match random.below(8) {
        0 => entries.len(),
        1 => entries.len() + random.below(24),
        _ => entries.len() + 24 + random.below(300),
    };
    let journal = front(&entries, length);
    let kept = in_use(random, entries.len(), journal.len());
    (Lent { text: buffer, used, journal, kept, table: rubbish(table) }, call)
}

/// A length in use: mostly the right one, sometimes another within the buffer,
/// sometimes one that exceeds it.
fn in_use(random: &mut Random, right: usize, buffer: usize) -> usize {
    match random.below(100) {
        0 => random.below(buffer + 1),
        1 => buffer,
        2 => buffer + 1 + random.below(3),
        3 => *random.pick(&[&usize::MAX, &(1 << 32), &(u32::MAX as usize), &(1 << 63)]),
        4 => (1 << 32) + right,
        _ => right,
    }
}

/// A journal in use: none, random bytes, or an entry that is right, nearly
/// right, or forged, after bytes that nobody should look at. `room` is what the
/// text buffer has besides the text.
fn journal(random: &mut Random, text: &[u8], rows: &[u32], room: usize) -> Vec<u8> {
    let mut bytes = Vec::new();
    match random.below(12) {
        0 => return bytes,
        1 => {
            // Too short for a trailer, or just not.
            for _ in 0..random.between(1, 13) {
                bytes.push(random.below(14) as u8);
            }
            return bytes;
        }
        2 => {
            for _ in 0..random.below(60) {
                bytes.push(random.next() as u8);
            }
            return bytes;
        }
        3..=5 => {}
        _ => {
            for _ in 0..random.below(30) {
                bytes.push(random.next() as u8);
            }
        }
    }
    // In the place of what.
    let length = text.len() as u32;
    let (mut start, mut replaced) = match rows.len() / ROW {
        0 => (random.below(text.len() + 2) as u32, random.below(text.len() + 2) as u32),
        1 => (rows[2], rows[3] - rows[2]),
        // Mostly not the root: old bytes are mostly none.
        count => {
            let row = &rows[random.between(1, count - 1) * ROW..];
            (row[2], row[3] - row[2])
        }
    };
    match random.below(24) {
        // Sums that wrap in 32 bits.
        0 => (start, replaced) = (u32::MAX, 2),
        1 => (start, replaced) = (u32::MAX - random.below(20) as u32, random.below(30) as u32),
        2 => (start, replaced) = (random.below(30) as u32, u32::MAX - random.below(20) as u32),
        3 => (start, replaced) = (1 << 31, 1 << 31),
        // Around the text's end.
        4 => replaced = length.wrapping_sub(start),
        5 => replaced = length.wrapping_sub(start).wrapping_add(random.below(3) as u32),
        6 => (start, replaced) = (length + random.below(3) as u32, random.below(2) as u32),
        // Nothing is replaced, or another part.
        7 => replaced = 0,
        8 => {
            start = random.below(text.len() + 2) as u32;
            replaced = random.below(text.len() + 2) as u32;
        }
        _ => {}
    }
    // What would be put back.
    let longest = (65_537 + replaced as usize).saturating_sub(text.len());
    let old = match random.below(10) {
        // About as long as the longest text has room for.
        0..=4 if text.len() + room > 65_536 && replaced <= length => {
            string(longest.saturating_sub(random.below(3)))
        }
        0 => Vec::new(),
        1 => texts::glue(random, 4),
        2 => {
            let from = random.below(text.len() + 1);
            text[from..from + random.below(text.len() - from + 1)].to_vec()
        }
        3 => vec![random.next() as u8; random.below(40)],
        4 => replacement(random, false, 30, 4),
        _ => writer::write_value(random, 2, false).text,
    };
    let right = old.len() as u32 + 12;
    let third = match random.below(24) {
        0 => random.below(13) as u32,
        1 => *random.pick(&[&0, &11, &12, &13, &u32::MAX, &(u32::MAX - 11), &(1 << 31)]),
        2 => right + bytes.len() as u32,
        3 => right + bytes.len() as u32 + 1,
        4 => right + 1,
        5 => right - 1,
        _ => right,
    };
    bytes.extend_from_slice(&old);
    for number in [start, replaced, third] {
        bytes.extend_from_slice(&number.to_le_bytes());
    }
    bytes
}
