//! What must hold of one reader's answers, whatever the other says; and a
//! reader's answers held against `second`'s.

use second::ROW;

use crate::random::Random;
use crate::texts::{Case, Known};
use crate::zeros::Seen;

/// An answer in document 01's terms: a count, or a number and a place.
pub type Answer = Result<usize, (u32, u64)>;

/// A reader on trial: `second`'s, or the archive's.
pub type Reader = fn(&[u8], &mut [u32]) -> Answer;

/// The table before a call: never zero, so that every word left alone shows.
pub fn rubbish(words: usize) -> Vec<u32> {
    (0..words as u32).map(|at| at.wrapping_mul(0x9E37_79B1) | 1).collect()
}

/// The output before a content call.
pub fn rubbish_bytes(length: usize) -> Vec<u8> {
    (0..length).map(|at| (at as u8).wrapping_mul(31) ^ 0xA5).collect()
}

/// Checks one reading: the node count within the limit, words 2 and 3 forward
/// and within the text, parents and descendants in order, child counts right,
/// zeros after the last node; and what is known of the case.
pub fn reading(case: &Case, answer: Answer, table: &[u32]) -> Result<(), String> {
    let limit = 4096.min(table.len() / ROW);
    let count = match answer {
        Ok(count) => count,
        Err((number, place)) => {
            if !(1..=10).contains(&number) || place > case.text.len() as u64 {
                return Err(format!("refusal {number} at {place}"));
            }
            0
        }
    };
    if count > limit || (answer.is_ok() && count == 0) {
        return Err(format!("{count} nodes, limit {limit}"));
    }
    if let Some(at) = table[count * ROW..].iter().position(|&word| word != 0) {
        return Err(format!("word {} after the last node isn't 0", count * ROW + at));
    }
    let rows: Vec<&[u32]> = table[..count * ROW].chunks_exact(ROW).collect();
    let mut children = vec![0u32; count];
    for (number, row) in rows.iter().enumerate() {
        let wrong = |what: &str| Err(format!("node {number}: {what}: {row:?}"));
        if !(1..=10).contains(&row[0]) {
            return wrong("kind");
        }
        if row[2] >= row[3] || row[3] as usize > case.text.len() {
            return wrong("span");
        }
        if (row[8] as usize) <= number || row[8] as usize > count {
            return wrong("descendants");
        }
        if number == 0 {
            if row[1] != u32::MAX || row[8] as usize != count {
                return wrong("root");
            }
            continue;
        }
        let Some(parent) = rows.get(row[1] as usize).filter(|_| (row[1] as usize) < number) else {
            return wrong("parent");
        };
        children[row[1] as usize] += 1;
        if parent[0] > 3 || row[2] <= parent[2] || row[3] >= parent[3] || row[8] > parent[8] {
            return wrong("not within its parent");
        }
        if rows[number - 1][2] >= row[2] {
            return wrong("order of first bytes");
        }
        if (parent[0] == 1) != (row[5] != 0) {
            return wrong("key");
        }
    }
    for (row, children) in rows.iter().zip(children) {
        if row[0] <= 3 && (row[9] != children || row[10] != 0 || row[11] != 0) {
            return Err(format!("{children} children: {row:?}"));
        }
    }
    match &case.known {
        Known::Nothing => Ok(()),
        Known::Refused(number, place) if answer == Err((*number, *place)) => Ok(()),
        Known::Nodes(nodes) if answer == Ok(*nodes) => Ok(()),
        Known::Rows(known) if answer == Ok(known.len()) => {
            match known.iter().zip(&rows).position(|(known, row)| known[..] != row[..]) {
                Some(at) => Err(format!("node {at}: known {:?}, read {:?}", known[at], rows[at])),
                None => Ok(()),
            }
        }
        known => Err(format!("known beforehand: {known:?}, answered {answer:?}")),
    }
}

/// A span for a content call, with its output's length and the content if it
/// is known.
#[derive(Debug, Clone)]
pub struct ContentCall {
    /// The span's start.
    pub start: u64,
    /// The span's end.
    pub end: u64,
    /// The output's length.
    pub room: usize,
    /// The content, where known.
    pub known: Option<Vec<u8>>,
}

/// Content calls for a case: right spans (known ones and those of the table),
/// near ones and random ones, with outputs of every size around the content's.
pub fn content_calls(case: &Case, table: &[u32], random: &mut Random) -> Vec<ContentCall> {
    let mut calls = Vec::new();
    let length = case.text.len() as u64;
    for _ in 0..case.contents.len().min(3) {
        let (start, end, content) = &case.contents[random.below(case.contents.len())];
        for room in rooms(content.len(), random) {
            calls.push(ContentCall {
                start: *start as u64,
                end: *end as u64,
                room,
                known: Some(content.clone()),
            });
        }
    }
    let rows: Vec<&[u32]> = table.chunks_exact(ROW).take_while(|row| row[0] != 0).collect();
    for _ in 0..rows.len().min(3) {
        let row = rows[random.below(rows.len())];
        let (start, end) = match random.below(4) {
            0 => (row[4], row[5]),
            1 => (row[6], row[7]),
            2 if row[0] == 4 || row[0] == 5 => (row[9], row[10]),
            _ => (row[2], row[3]),
        };
        let (mut start, mut end) = (u64::from(start), u64::from(end));
        match random.below(6) {
            0 => start = start.saturating_sub(1),
            1 => start += 1,
            2 => end += 1,
            3 => end = end.saturating_sub(1),
            _ => {}
        }
        let width = end.saturating_sub(start).min(70_000) as usize;
        let rooms = [width, width.saturating_sub(random.below(6)), random.below(width + 2)];
        calls.extend(rooms.map(|room| ContentCall { start, end, room, known: None }));
    }
    if case.text.len() > 65_537 {
        // Spans of about the greatest length, within a longer text.
        let latest = case.text.len() - 65_536;
        let start = if random.one_in(2) { 0 } else { random.below(latest) as u64 };
        let end = start + random.between(65_535, 65_537) as u64;
        let room = random.between(65_530, 65_540);
        calls.push(ContentCall { start, end, room, known: None });
    }
    for _ in 0..3 {
        let mut start = random.below(case.text.len() + 2) as u64;
        let mut end = random.below(case.text.len() + 3) as u64;
        match random.below(16) {
            0 => end = u64::MAX,
            1 => start = u64::MAX,
            2 => (start, end) = (start + (1 << 32), end + (1 << 32)),
            3 => (start, end) = (0, length),
            4 => end = length,
            5 => (start, end) = (start << 40, end << 40),
            6 => start = start.max(end),
            _ => end = start + random.below(9) as u64,
        }
        calls.push(ContentCall { start, end, room: random.below(40), known: None });
    }
    calls
}

/// Output lengths around a content's.
fn rooms(content: usize, random: &mut Random) -> [usize; 4] {
    [content, content.saturating_sub(1), content + 1 + random.below(9), random.below(content + 1)]
}

/// Checks one content call: 19 or 20 and nothing written, or the content at
/// the front and the rest as it was.
pub fn content(call: &ContentCall, answer: Answer, out: &[u8]) -> Result<(), String> {
    let before = rubbish_bytes(out.len());
    let written = match answer {
        Ok(written) if written <= out.len() => written,
        Err((19 | 20, 0)) => 0,
        other => return Err(format!("answer {other:?}")),
    };
    if out[written..] != before[written..] {
        return Err("the rest of the output changed".to_string());
    }
    let Some(known) = &call.known else { return Ok(()) };
    let expected = if known.len() > out.len() { Err((20, 0)) } else { Ok(known.len()) };
    if answer != expected || (answer.is_ok() && out[..written] != known[..]) {
        return Err(format!("expected {expected:?} {known:?}, answered {answer:?}"));
    }
    Ok(())
}

/// `second`'s answer in these terms.
pub fn second_read(text: &[u8], table: &mut [u32]) -> Answer {
    second::read(text, table).map_err(|refusal| (refusal.number, refusal.place))
}

/// `second`'s content answer in these terms.
pub fn second_content(text: &[u8], call: &ContentCall, out: &mut [u8]) -> Answer {
    second::content(text, call.start, call.end, out)
        .map_err(|refusal| (refusal.number, refusal.place))
}

/// Reads a case by the reader on trial and by `second`. Answers and whole tables
/// must be alike, and be as [`reading`] has them. Gives answer and table; the
/// error tells the difference.
pub fn both(
    case: &Case,
    reader: impl Fn(&[u8], &mut [u32]) -> Answer,
) -> Result<(Answer, Vec<u32>), String> {
    let mut ours = rubbish(case.words);
    let mut theirs = ours.clone();
    let our_answer = reader(&case.text, &mut ours);
    let their_answer = second_read(&case.text, &mut theirs);
    if our_answer != their_answer {
        return Err(format!("on trial: {our_answer:?}\nsecond: {their_answer:?}"));
    }
    if let Some(at) = (0..case.words).find(|&at| ours[at] != theirs[at]) {
        return Err(format!(
            "both answer {our_answer:?}; word {} of node {}: on trial {}, second {}",
            at % ROW,
            at / ROW,
            ours[at],
            theirs[at]
        ));
    }
    reading(case, our_answer, &ours)?;
    Ok((our_answer, ours))
}

/// Checks `second` alone on one case.
pub fn second_alone(case: &Case, random: &mut Random, seen: &mut Seen) -> Result<(), String> {
    let mut table = rubbish(case.words);
    let answer = second_read(&case.text, &mut table);
    reading(case, answer, &table)?;
    seen.count(&case.text, answer, &table);
    for call in content_calls(case, &table, random) {
        let mut out = rubbish_bytes(call.room);
        let answer = second_content(&case.text, &call, &mut out);
        content(&call, answer, &out).map_err(|what| format!("{call:?}: {what}"))?;
    }
    let Ok(count) = answer else { return Ok(()) };
    for (number, row) in table[..count * ROW].chunks_exact(ROW).enumerate() {
        let whole = &case.text[row[2] as usize..row[3] as usize];
        // Every node's value is one value alone.
        if (count < 20 || number < 3) && !second::one_value(whole, number == 0) {
            return Err(format!("node {number} isn't one value alone"));
        }
        // Word 11 of a string is its content's length.
        if row[0] == 4 || row[0] == 5 {
            let mut out = vec![0; row[11] as usize];
            let content = second::content(&case.text, row[9].into(), row[10].into(), &mut out).ok();
            if content != Some(row[11] as usize) {
                return Err(format!("node {number}: content length {content:?}"));
            }
        }
    }
    Ok(())
}

#[cfg(test)]
mod tests {
    use super::*;
    use crate::texts;

    #[test]
    fn second_keeps_the_invariants() {
        let mut sorts = std::collections::BTreeMap::new();
        for number in 0..6000 {
            let case = texts::case(7, number);
            let mut random = Random::for_case(8, number);
            if let Err(what) = second_alone(&case, &mut random, &mut Seen::default()) {
                panic!("case {number} ({}): {what}\n{}", case.sort, case.text.escape_ascii());
            }
            let mut table = vec![0; case.words];
            let number = second_read(&case.text, &mut table).err().map_or(0, |(n, _)| n);
            *sorts.entry((case.sort, number)).or_insert(0) += 1;
        }
        // Every refusal of a reading comes up, and readings that are taken.
        for wanted in 0..=10 {
            assert!(sorts.keys().any(|&(_, number)| number == wanted), "{wanted}: {sorts:?}");
        }
        println!("{sorts:#?}");
    }

    /// Another table, and another number, where nothing is known beforehand.
    #[test]
    fn differences_are_seen() {
        let case = |text: &[u8]| Case {
            sort: "",
            text: text.to_vec(),
            words: 24,
            known: Known::Nothing,
            contents: Vec::new(),
        };
        let [good, bad] = [case(b"[1e06]"), case(b"[1e0_]")];
        let mut table = vec![0; 24];
        assert_eq!(second_read(&good.text, &mut table), Ok(2));
        assert_eq!(both(&good, second_read), Ok((Ok(2), table)));
        assert_eq!(both(&bad, second_read), Ok((Err((3, 1)), vec![0; 24])));

        let power = |text: &[u8], table: &mut [u32]| {
            let answer = second_read(text, table);
            table[23] += 1;
            answer
        };
        let what = "both answer Ok(2); word 11 of node 1: on trial 1007, second 1006";
        assert_eq!(both(&good, power), Err(what.to_string()));
        let number = |text: &[u8], table: &mut [u32]| {
            second_read(text, table).map_err(|(_, place)| (5, place))
        };
        let what = "on trial: Err((5, 1))\nsecond: Err((3, 1))";
        assert_eq!(both(&bad, number), Err(what.to_string()));
    }
}
