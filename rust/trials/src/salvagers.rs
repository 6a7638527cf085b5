//! Salvagers that are wrong in one way each. The logs must tell each of them from the
//! right one, by what is known from their making and by `second`. A wrong salvager
//! goes by what becomes of the lines: so it is right in all else.

use std::borrow::Cow;

use second::{one_value, MAX_NODES, MAX_TEXT, ROW};

use crate::check::{rubbish, second_read};
use crate::logs::{case, depths, Lent, Log};
use crate::random::Random;
use crate::salvaging::{by_second, judged, second_salvage, text, Called, Judged, Sizes};
use crate::wrong;

/// The lines of a log, and what becomes of them with room for so many nodes.
type Lines = for<'l> fn(&'l Log, usize) -> Vec<Judged<'l>>;

/// What is written.
type Text = fn(&[Judged]) -> Vec<u8>;

/// The refusal.
type Refuses = fn(&Sizes) -> Option<(u32, u64)>;

/// Answer and buffers, by the right ones.
type Leaves = fn(&Found, Called) -> Called;

/// What a salvager goes by.
#[derive(Clone, Copy)]
struct Rules {
    lines: Lines,
    text: Text,
    refuses: Refuses,
    leaves: Leaves,
}

const RIGHT: Rules =
    Rules { lines: judged, text, refuses: Sizes::refusal, leaves: |_, called| called };

/// What a salvager finds in a log.
struct Found<'l> {
    lines: Vec<Judged<'l>>,
    text: Vec<u8>,
    before: Called,
}

/// A salvager that goes by these rules.
fn by(log: &Log, lent: &Lent, rules: &Rules) -> Called {
    let lines = (rules.lines)(log, lent.limit());
    let text = (rules.text)(&lines);
    let refusal = (rules.refuses)(&Sizes::new(log, lent, &lines, text.len()));
    let called = Called::expected(lent, &lines, &text, refusal);
    (rules.leaves)(&Found { lines, text, before: Called::before(lent) }, called)
}

/// The right lines, with something done to each.
fn each(log: &Log, limit: usize, mut change: impl FnMut(&mut Judged)) -> Vec<Judged<'_>> {
    let mut lines = judged(log, limit);
    lines.iter_mut().for_each(&mut change);
    lines
}

fn lose(line: &mut Judged, verdict: u8) {
    line.verdict = verdict;
    line.rows = Cow::Borrowed(&[]);
}

fn was_lost(line: &Judged) -> bool {
    line.verdict != 0
}

/// Salvagers that have the lines or their verdicts wrong.
const LINES: &[(&str, Lines)] = &[
    ("32 containers may be open", |log, limit| {
        each(log, limit, |line| {
            let mut table = rubbish(ROW * limit.min(line.line.len()));
            let read = second_read(line.line, &mut table);
            if let (9, Ok(nodes)) = (line.verdict, read) {
                (line.verdict, line.rows) = (0, Cow::Owned(vec![[0; ROW]; nodes]));
            }
        })
    }),
    ("30 containers may be open", |log, limit| {
        each(log, limit, |line| {
            if depths(&line.rows).contains(&31) {
                lose(line, 9);
            }
        })
    }),
    ("0D ends a line too", |log, limit| {
        let pieces = log.bytes.split_inclusive(|byte| matches!(byte, b'\n' | b'\r'));
        let lines = pieces.map(|piece| piece.strip_suffix(b"\n").unwrap_or(piece));
        let lines = lines.map(|line| line.strip_suffix(b"\r").unwrap_or(line));
        lines
            .map(|line| match by_second(line, limit.max(1)) {
                Ok(rows) => Judged { line, verdict: 0, rows: Cow::Owned(rows) },
                Err(verdict) => Judged { line, verdict, rows: Cow::Borrowed(&[]) },
            })
            .collect()
    }),
    ("an empty last piece counts", |log, limit| {
        let mut lines = judged(log, limit);
        if log.bytes.last().map_or(true, |&byte| byte == b'\n') {
            lines.push(Judged { line: &[], verdict: 7, rows: Cow::Borrowed(&[]) });
        }
        lines
    }),
    ("a last line without 0A is dropped", |log, limit| {
        let mut lines = judged(log, limit);
        if log.bytes.last().is_some_and(|&byte| byte != b'\n') {
            lines.pop();
        }
        lines
    }),
    ("an empty line is none", |log, limit| {
        let mut lines = judged(log, limit);
        lines.retain(|line| !line.line.is_empty());
        lines
    }),
    ("a scalar is a root", |log, limit| {
        each(log, limit, |line| {
            if line.verdict == 7 && one_value(line.line, false) {
                (line.verdict, line.rows) = (0, Cow::Owned(vec![[0; ROW]]));
            }
        })
    }),
    ("lines are dropped to fit the table", |log, limit| {
        let mut left = limit.max(1) - 1;
        each(log, limit, |line| match left.checked_sub(line.rows.len()) {
            Some(fewer) => left = fewer,
            None => lose(line, 10),
        })
    }),
    ("a line has a node less, for the array", |log, limit| judged(log, limit.max(1) - 1)),
    ("a line may have 4,096 nodes", |log, _| judged(log, MAX_NODES)),
    ("a lost line is 1", |log, limit| each(log, limit, |line| line.verdict = line.verdict.min(1))),
    ("a verdict is the fault's place", |log, limit| {
        each(log, limit, |line| {
            let mut table = rubbish(ROW * limit.min(line.line.len() + 1));
            if let (true, Err((_, place))) = (was_lost(line), second_read(line.line, &mut table)) {
                line.verdict = (place as u8).max(1);
            }
        })
    }),
    ("a line is kept without its last 0D", |log, limit| {
        each(log, limit, |line| line.line = line.line.strip_suffix(b"\r").unwrap_or(line.line))
    }),
];

/// Writes each kept line with this before it and this behind it, between these two.
fn framed(lines: &[Judged], [open, before, behind, close]: [&str; 4]) -> Vec<u8> {
    let kept = lines.iter().filter(|line| line.verdict == 0);
    let kept = kept.flat_map(|line| [before.as_bytes(), line.line, behind.as_bytes()]);
    [open.as_bytes()].into_iter().chain(kept).chain([close.as_bytes()]).flatten().copied().collect()
}

/// Salvagers that write the text wrongly.
const TEXTS: &[(&str, Text)] = &[
    ("no comma behind the last line", |lines| match text(lines).strip_suffix(b",\n]") {
        Some(front) => [front, b"]"].concat(),
        None => text(lines),
    }),
    ("a comma before each line", |lines| framed(lines, ["[\n", ",\n", "\n", "]"])),
    ("no line feed before the comma", |lines| framed(lines, ["[\n", "", ",\n", "]"])),
    ("no line feed behind the comma", |lines| framed(lines, ["[\n", "", "\n,", "]"])),
    ("no line feed behind the bracket", |lines| framed(lines, ["[", "", "\n,\n", "]"])),
    ("nothing if no line is kept", |lines| match lines.iter().all(was_lost) {
        true => Vec::new(),
        false => text(lines),
    }),
];

/// Salvagers that refuse wrongly.
const REFUSALS: &[(&str, Refuses)] = &[
    ("27 after 28", |sizes| {
        let roomy = Sizes { list: usize::MAX, ..*sizes };
        roomy.refusal().or(sizes.refusal())
    }),
    ("1 after 27", |sizes| match sizes.lines > sizes.list {
        true => Some((27, 0)),
        false => sizes.refusal(),
    }),
    ("1 after 28", |sizes| Sizes { log: 0, ..*sizes }.refusal().or(sizes.refusal())),
    ("1 at 0", |sizes| sizes.refusal().map(|(number, _)| (number, 0))),
    ("1 for 65,536 bytes", |sizes| Sizes { log: sizes.log + 1, ..*sizes }.refusal()),
    ("1 for 65,538 bytes on", |sizes| Sizes { log: sizes.log.max(1) - 1, ..*sizes }.refusal()),
    ("27 at the list's end", |sizes| match sizes.refusal() {
        Some((27, _)) => Some((27, sizes.list as u64)),
        other => other,
    }),
    ("27 for a full list", |sizes| Sizes { lines: sizes.lines + 1, ..*sizes }.refusal()),
    ("nodes without the array", |sizes| Sizes { nodes: sizes.nodes - 1, ..*sizes }.refusal()),
    ("28 for a full table", |sizes| Sizes { nodes: sizes.nodes + 1, ..*sizes }.refusal()),
    ("4,096 nodes whatever the table", |sizes| Sizes { limit: MAX_NODES, ..*sizes }.refusal()),
    ("28 for a full output", |sizes| match sizes.written == sizes.room {
        true => Sizes { room: 0, ..*sizes }.refusal(),
        false => sizes.refusal(),
    }),
    ("28 for 65,536 bytes", |sizes| match sizes.written == MAX_TEXT {
        true => Sizes { room: 0, ..*sizes }.refusal(),
        false => sizes.refusal(),
    }),
    ("what is written may be longer", |sizes| {
        let written = if sizes.written <= sizes.room { 0 } else { sizes.written };
        Sizes { written, ..*sizes }.refusal()
    }),
];

/// Writes text or verdicts though the call is refused with this number.
fn written(found: &Found, mut called: Called, number: u32, is_text: bool) -> Called {
    if called.answer == Err((number, 0)) {
        let verdicts: Vec<_> = found.lines.iter().map(|line| line.verdict).collect();
        let (into, from) = match is_text {
            true => (&mut called.out, &found.text),
            false => (&mut called.verdicts, &verdicts),
        };
        into.iter_mut().zip(from).for_each(|(into, byte)| *into = *byte);
    }
    called
}

/// Salvagers that answer or leave the buffers wrongly.
const LEAVES: &[(&str, Leaves)] = &[
    ("27 leaves the list written", |found, called| written(found, called, 27, false)),
    ("28 leaves the list written", |found, called| written(found, called, 28, false)),
    ("27 leaves the output written", |found, called| written(found, called, 27, true)),
    ("28 leaves the output written", |found, called| written(found, called, 28, true)),
    ("the table is the last line's reading", |found, mut called| {
        if let (Ok(_), Some(last)) = (called.answer, found.lines.last()) {
            let _ = second_read(last.line, &mut called.table);
        }
        called
    }),
    ("a refusal leaves the table", |found, called| match called.answer {
        Err(_) => Called { table: found.before.table.clone(), ..called },
        Ok(_) => called,
    }),
    ("words behind the last row stay", |found, mut called| {
        let rows = called.table.len() / ROW * ROW;
        called.table[rows..].copy_from_slice(&found.before.table[rows..]);
        called
    }),
    ("later places of the output are cleared", |found, mut called| {
        if called.answer.is_ok() {
            called.out[found.text.len()..].fill(0);
        }
        called
    }),
    ("later places of the list are cleared", |found, mut called| {
        if called.answer.is_ok() {
            called.verdicts[found.lines.len()..].fill(0);
        }
        called
    }),
    ("lost lines have no place in the list", |found, mut called| {
        if called.answer.is_ok() {
            let kept = found.lines.iter().filter(|line| !was_lost(line)).count();
            called.verdicts[..kept].fill(0);
            let later = kept..found.lines.len();
            called.verdicts[later.clone()].copy_from_slice(&found.before.verdicts[later]);
        }
        called
    }),
    ("only kept lines are counted", |found, mut called| {
        let lost = found.lines.iter().filter(|line| was_lost(line)).count();
        called.answer = called.answer.map(|(bytes, lines)| (bytes, lines - lost));
        called
    }),
    ("the last bracket isn't counted", |_, mut called| {
        called.answer = called.answer.map(|(bytes, lines)| (bytes - 1, lines));
        called
    }),
];

/// How many logs a wrong salvager is tried on.
const LOGS: u64 = 6_000;

fn is_seen(name: &str, rules: Rules) {
    wrong::is_seen(name, LOGS, |number| {
        let (log, calls) = case(&mut Random::for_case(42, number));
        let [mut by_making, mut by_other] = [false; 2];
        for lent in &calls {
            let ours = by(&log, lent, &rules);
            by_making |= log.is_known() && ours != by(&log, lent, &RIGHT);
            by_other |= ours != Called::new(&log, lent, second_salvage);
        }
        [by_making, by_other]
    });
}

/// What the wrong salvagers are made of is right.
#[test]
fn the_right_rules_show_no_difference() {
    for number in 0..3_000 {
        let (log, calls) = case(&mut Random::for_case(43, number));
        for lent in &calls {
            let theirs = Called::new(&log, lent, second_salvage);
            assert_eq!(by(&log, lent, &RIGHT), theirs, "log {number}");
        }
    }
}

#[test]
fn wrong_lines_are_seen() {
    for &(name, lines) in LINES {
        is_seen(name, Rules { lines, ..RIGHT });
    }
}

#[test]
fn wrong_texts_are_seen() {
    for &(name, text) in TEXTS {
        is_seen(name, Rules { text, ..RIGHT });
    }
}

#[test]
fn wrong_refusals_are_seen() {
    for &(name, refuses) in REFUSALS {
        is_seen(name, Rules { refuses, ..RIGHT });
    }
}

#[test]
fn wrong_answers_and_buffers_are_seen() {
    for &(name, leaves) in LEAVES {
        is_seen(name, Rules { leaves, ..RIGHT });
    }
}
