//! Corrections and undos on trial: histories against the plain book and
//! `second`, and single calls on any buffers against `second`.

use second::book::{Call, Page};
use second::{Answer, ROW};

use crate::histories::{history, History, Lent};
use crate::kind::Kind;
use crate::random::Random;
use crate::single::single;
use crate::zeros;

/// How many single calls go with each history.
const SINGLE: usize = 8;

/// A call on lent buffers in document 01's terms. It leaves the lengths in use
/// to its caller.
pub type Editor = fn(&mut Lent, &Call) -> Answer;

/// What is held against the book and `second`.
#[derive(Debug, Clone, Copy)]
pub struct OnTrial {
    /// The calls.
    pub editor: Editor,
    /// Holds further calls against a history.
    pub history: fn(&History) -> Result<(), String>,
    /// Holds further calls against a single one: given are the buffers before
    /// it and after it, and its answer.
    pub single: fn(&Lent, &Call, &Lent, Answer) -> Result<(), String>,
}

impl OnTrial {
    /// These calls and no further ones.
    pub const fn only(editor: Editor) -> OnTrial {
        OnTrial { editor, history: |_| Ok(()), single: |_, _, _, _| Ok(()) }
    }
}

/// How often each refusal came up, 0 standing for none.
#[derive(Debug, Clone, Default, PartialEq, Eq)]
pub struct Seen {
    /// In histories, by number.
    pub histories: [u64; 21],
    /// In those of their corrections whose replacement is a number with leading
    /// zeros in its exponent.
    pub zeros: [u64; 21],
    /// In those of them that have over 10,000 leading zeros there.
    pub many_zeros: [u64; 21],
    /// In single calls, by number.
    pub single: [u64; 21],
}

impl Kind for Seen {
    const PLURAL: &'static str = "histories";
    const SINGULAR: &'static str = "history";
    const USUAL: u64 = 10_000;
    const TURN: u32 = 32;

    type OnTrial = OnTrial;
    const SECOND: OnTrial = OnTrial::only(second);
    #[cfg(feature = "against")]
    const DUPER: OnTrial = crate::against::EDITING;

    fn trial(&mut self, turned: u64, number: u64, on_trial: OnTrial) -> Result<(), String> {
        trial(&mut Random::for_case(turned, number), on_trial, self)
    }

    fn progress(&self) -> String {
        format!("histories, {} calls", self.histories.iter().sum::<u64>())
    }

    fn compared(&self) -> String {
        let [calls, single] = [self.histories, self.single].map(|seen| seen.iter().sum::<u64>());
        format!("histories of {calls} calls, and {single} single calls, no difference")
    }

    fn details(&self) -> Vec<String> {
        let counts = [
            ("histories", self.histories),
            ("corrections by a number with leading zeros in its exponent", self.zeros),
            ("corrections by one with over 10,000 of them", self.many_zeros),
            ("single calls", self.single),
        ];
        let line = |(what, seen): (&str, [u64; 21])| {
            let refused = (1..=20).filter(|&number| seen[number] > 0);
            let refused: Vec<_> =
                refused.map(|number| format!("{number}: {}", seen[number])).collect();
            format!("{what}: accepted {}; refused {}", seen[0], refused.join(", "))
        };
        counts.map(line).to_vec()
    }
}

/// `second`'s calls.
pub fn second(lent: &mut Lent, call: &Call) -> Answer {
    let Lent { text, used, journal, kept, table } = lent;
    match call {
        Call::Correct { node, replacement } => {
            second::correct(text, *used, journal, *kept, table, *node, replacement)
        }
        Call::Undo => second::undo(text, *used, journal, *kept, table),
    }
}

/// Runs one history and some single calls; the error tells the first
/// difference, and all that is needed to see it again.
pub fn trial(random: &mut Random, on_trial: OnTrial, seen: &mut Seen) -> Result<(), String> {
    let history = history(random)?;
    run(&history, on_trial.editor, seen)?;
    (on_trial.history)(&history)?;
    for _ in 0..SINGLE {
        let (lent, call) = single(random);
        let mut after = lent.clone();
        let answer = both(&mut after, &mut lent.clone(), &call, on_trial.editor)
            .and_then(|answer| (on_trial.single)(&lent, &call, &after, answer).map(|()| answer))
            .map_err(|what| {
                let Lent { text, used, journal, kept, table } = &lent;
                format!(
                    "a single call, {}\ntext buffer, {used} of {} bytes in use: {}\n\
                     journal, {kept} of {} bytes in use: {}\ntable of {} words\n{what}",
                    told(&call),
                    text.len(),
                    text.escape_ascii(),
                    journal.len(),
                    journal.escape_ascii(),
                    table.len()
                )
            })?;
        count(&mut seen.single, answer);
    }
    Ok(())
}

/// Runs a history's calls, each with buffers and lengths as the last one left
/// them.
fn run(history: &History, editor: Editor, seen: &mut Seen) -> Result<(), String> {
    let mut ours = Lent::first(&history.first, history.lengths);
    let mut theirs = ours.clone();
    for (number, (call, page)) in history.calls.iter().enumerate() {
        let answer = both(&mut ours, &mut theirs, call, editor)
            .and_then(|answer| as_the_book(&ours, answer, page).map(|()| answer))
            .and_then(|answer| cause(call, page).map(|()| answer))
            .map_err(|what| told_to(history, number, &what))?;
        count(&mut seen.histories, answer);
        if let Call::Correct { replacement, .. } = call {
            let zeros = zeros::in_exponent(replacement);
            if zeros > 0 {
                count(&mut seen.zeros, answer);
            }
            if zeros > 10_000 {
                count(&mut seen.many_zeros, answer);
            }
        }
    }
    // "Undoing all in force gives back the first text byte for byte."
    if ours.text.get(..ours.used) != Some(&history.first[..]) || ours.kept > 0 {
        let text = ours.text.escape_ascii();
        let what = format!("undoing all doesn't give back the first text: {text}");
        return Err(told_to(history, history.calls.len(), &what));
    }
    Ok(())
}

/// Makes one call twice, on buffers that are alike: by the editor on trial and
/// by `second`. Answers and whole buffers must be alike again; and they must be
/// as document 01 says, whatever `second` makes of it. Takes over the lengths
/// answered.
fn both(ours: &mut Lent, theirs: &mut Lent, call: &Call, editor: Editor) -> Result<Answer, String> {
    let before = ours.clone();
    let our_answer = editor(ours, call);
    let their_answer = second(theirs, call);
    if our_answer != their_answer {
        return Err(format!("on trial: {our_answer:?}\nsecond: {their_answer:?}"));
    }
    let at = |what| format!("both answer {our_answer:?}; {what}");
    alike("byte", "of the text buffer", &ours.text, &theirs.text).map_err(at)?;
    alike("byte", "of the journal", &ours.journal, &theirs.journal).map_err(at)?;
    alike("word", "of the table", &ours.table, &theirs.table).map_err(at)?;
    stands(&before, ours, call, our_answer).map_err(at)?;
    for lent in [ours, theirs] {
        (lent.used, lent.kept) = (our_answer.used, our_answer.kept);
    }
    Ok(our_answer)
}

/// Compares two buffers whole.
fn alike<T: PartialEq + std::fmt::Debug>(
    what: &str,
    of: &str,
    ours: &[T],
    theirs: &[T],
) -> Result<(), String> {
    if ours.len() != theirs.len() {
        return Err(format!("{} {what}s {of}, and {}", ours.len(), theirs.len()));
    }
    match ours.iter().zip(theirs).position(|(our, their)| our != their) {
        Some(at) => {
            Err(format!("{what} {at} {of}: on trial {:?}, second {:?}", ours[at], theirs[at]))
        }
        None => Ok(()),
    }
}

/// What must hold of a call whatever `second` says: which refusals there are,
/// that they leave text and journal as they were, which bytes an accepted call
/// leaves alone, and that the table is the text's reading.
fn stands(before: &Lent, after: &Lent, call: &Call, answer: Answer) -> Result<(), String> {
    let wrong = |what: &str| Err(what.to_string());
    let Answer { refusal, nodes, used, kept } = answer;
    if let Some(second::Refusal { number, place }) = refusal {
        let correcting = matches!(call, Call::Correct { .. });
        match number {
            1..=10 | 11 | 14 | 16 => {}
            12 | 13 | 15 if correcting => {}
            17 | 18 if !correcting => {}
            _ => return wrong("no such refusal of this call"),
        }
        if number > 10 && place != 0 {
            return wrong("place");
        }
        if after.text != before.text || after.journal != before.journal {
            return wrong("a refused call changed text or journal");
        }
        if (used, kept) != (before.used, before.kept) {
            return wrong("a refused call answered other lengths");
        }
        if number <= 11 {
            let zeros = nodes == 0 && after.table.iter().all(|&word| word == 0);
            return if zeros { Ok(()) } else { wrong("the table or the node count isn't 0") };
        }
    } else {
        // Both ways the longer journal's last entry tells what stood in the
        // text before the correction, and what stands there after it.
        let (shorter, longer, old, new) = match call {
            Call::Correct { .. } => (before.kept, kept, (before, before.used), (after, used)),
            Call::Undo => (kept, before.kept, (after, used), (before, before.used)),
        };
        let (Some(old), Some(new)) = (old.0.text.get(..old.1), new.0.text.get(..new.1)) else {
            return wrong("the text's length answered exceeds its buffer");
        };
        let Some(entry) = after.journal.get(shorter..longer) else {
            return wrong("the journal's length answered");
        };
        let Some((start, replaced, replacement)) = told_by(entry, new) else {
            return wrong("the journal's entry");
        };
        let end = start + replacement.len();
        if old != [&new[..start], replaced, &new[end..]].concat() {
            return wrong("the text isn't changed as the entry tells");
        }
        if matches!(call, Call::Correct { replacement: given, .. } if given != replacement) {
            return wrong("the replacement isn't in its place");
        }
        // Bytes no longer used are 0; what nobody speaks of stays.
        let end = used.max(before.used);
        if after.text[used..end].iter().any(|&byte| byte != 0) {
            return wrong("a byte no longer used isn't 0");
        }
        if after.text[end..] != before.text[end..] {
            return wrong("a byte after the text changed");
        }
        let written = if matches!(call, Call::Undo) { shorter } else { longer };
        if after.journal[..shorter] != before.journal[..shorter]
            || after.journal[written..] != before.journal[written..]
        {
            return wrong("another byte of the journal changed");
        }
    }
    let mut reading = crate::check::rubbish(after.table.len());
    let count = second::read(&after.text[..used], &mut reading);
    if count != Ok(nodes) || after.table != reading {
        return wrong("the table or the node count isn't the text's reading");
    }
    Ok(())
}

/// What an entry tells of the text after its correction: the start, the bytes
/// that were replaced, and those that now stand there.
fn told_by<'a>(entry: &'a [u8], text: &'a [u8]) -> Option<(usize, &'a [u8], &'a [u8])> {
    let (replaced, trailer) = entry.split_at_checked(entry.len().checked_sub(12)?)?;
    let number = |at| {
        let four = *trailer.get(at..)?.first_chunk::<4>()?;
        Some(u32::from_le_bytes(four) as usize)
    };
    let (start, length, whole) = (number(0)?, number(4)?, number(8)?);
    let replacement = text.get(start..start.checked_add(length)?)?;
    (whole == entry.len()).then_some((start, replaced, replacement))
}

/// Holds answer, text, journal in use and table against the book's page.
fn as_the_book(lent: &Lent, answer: Answer, page: &Page) -> Result<(), String> {
    let expected = Answer {
        refusal: page.refusal.map(|number| second::Refusal { number, place: 0 }),
        nodes: page.nodes,
        used: page.text.len(),
        kept: page.journal.len(),
    };
    if answer != expected {
        return Err(format!("on trial: {answer:?}\nbook: {expected:?}"));
    }
    if lent.text.get(..answer.used) != Some(&page.text[..]) {
        return Err(format!("the book's text: {}", page.text.escape_ascii()));
    }
    if lent.journal.get(..answer.kept) != Some(&page.journal[..]) {
        return Err(format!("the book's journal: {}", page.journal.escape_ascii()));
    }
    if lent.table != page.table {
        return Err("the book's table is another".to_string());
    }
    Ok(())
}

/// "after a correction only 9 or 10 can be the cause" of 16.
fn cause(call: &Call, page: &Page) -> Result<(), String> {
    let (Some(16), Call::Correct { node, replacement }) = (page.refusal, call) else {
        return Ok(());
    };
    // A refused call leaves text and table, so this page has those before it.
    let [start, end] = [2, 3].map(|word| page.table[node * ROW + word] as usize);
    let made = [&page.text[..start], replacement, &page.text[end..]].concat();
    match second::read(&made, &mut vec![0; page.table.len()]) {
        Err(second::Refusal { number: 9 | 10, .. }) => Ok(()),
        other => Err(format!("16, but the resulting text gives {other:?}")),
    }
}

fn count(seen: &mut [u64; 21], answer: Answer) {
    let number = answer.refusal.map_or(0, |refusal| refusal.number);
    if let Some(seen) = seen.get_mut(number as usize) {
        *seen += 1;
    }
}

/// A call in words.
pub fn told(call: &Call) -> String {
    match call {
        Call::Correct { node, replacement } => {
            format!("correct node {node} by {}", replacement.escape_ascii())
        }
        Call::Undo => "undo".to_string(),
    }
}

/// A history up to one of its calls, and what is wrong there.
pub fn told_to(history: &History, last: usize, what: &str) -> String {
    let History { first, lengths, calls } = history;
    let mut lines = vec![
        format!("first text, {} bytes: {}", first.len(), first.escape_ascii()),
        format!(
            "text buffer of {} bytes, journal of {}, table of {} words",
            lengths.text, lengths.journal, lengths.table
        ),
    ];
    for (number, (call, page)) in calls.iter().take(last + 1).enumerate() {
        let refused = page.refusal.map_or(String::new(), |refusal| format!(": {refusal}"));
        lines.push(format!("call {}: {}{refused}", number + 1, told(call)));
    }
    lines.push(what.to_string());
    lines.join("\n")
}

#[cfg(test)]
mod tests {
    use super::*;

    #[test]
    fn second_agrees_with_the_book() {
        let mut seen = Seen::default();
        for number in 0..600 {
            let random = &mut Random::for_case(11, number);
            if let Err(what) = trial(random, OnTrial::only(second), &mut seen) {
                panic!("history {number}: {what}");
            }
        }
        // Every answer that the book knows comes up, and no other; and in
        // single calls every one there is.
        let came_up = |seen: [u64; 21]| (0..=20).filter(|&n| seen[n] > 0).collect::<Vec<_>>();
        assert_eq!(came_up(seen.histories), [0, 12, 13, 14, 15, 16, 17], "{seen:?}");
        assert_eq!(came_up(seen.single), (0..=18).collect::<Vec<_>>(), "{seen:?}");
        // Leading zeros in an exponent are taken, and refused where they must be;
        // so are very many of them.
        assert_eq!(came_up(seen.zeros), [0, 12, 13, 14, 15], "{seen:?}");
        assert!(seen.many_zeros[0] > 3 && seen.many_zeros[13] > 3, "{seen:?}");
        println!("{seen:?}");
    }

    /// Calls that go wrong in one way each.
    #[test]
    fn differences_are_seen() {
        fn accepted(lent: &mut Lent, call: &Call, wrong: fn(&mut Lent, &mut Answer)) -> Answer {
            let mut answer = second(lent, call);
            if answer.refusal.is_none() {
                wrong(lent, &mut answer);
            }
            answer
        }
        fn refused(lent: &mut Lent, call: &Call, wrong: fn(&mut Lent, &mut Answer)) -> Answer {
            let mut answer = second(lent, call);
            if answer.refusal.is_some() {
                wrong(lent, &mut answer);
            }
            answer
        }
        let editors: [(&str, Editor); 9] = [
            ("a byte after the text", |lent, call| {
                accepted(lent, call, |lent, answer| {
                    let end = lent.used.max(answer.used);
                    lent.text.iter_mut().skip(end).for_each(|byte| *byte = 0);
                })
            }),
            ("a byte no longer used", |lent, call| {
                accepted(lent, call, |lent, answer| {
                    let used = lent.used;
                    lent.text[..used].iter_mut().skip(answer.used).for_each(|byte| *byte = b'x');
                })
            }),
            ("a byte of the journal", |lent, call| {
                accepted(lent, call, |lent, answer| {
                    lent.journal.iter_mut().skip(answer.kept).for_each(|byte| *byte = 0);
                })
            }),
            ("only reports success", |lent, call| {
                let before = lent.clone();
                accepted(lent, call, |_, _| ());
                *lent = before;
                Answer { refusal: None, nodes: 0, used: lent.used, kept: lent.kept }
            }),
            ("undo refused at will", |lent, call| match call {
                Call::Undo if lent.kept > 40 => {
                    let refusal = Some(second::Refusal { number: 17, place: 0 });
                    Answer { refusal, ..second(&mut lent.clone(), call) }
                }
                _ => second(lent, call),
            }),
            ("a place", |lent, call| {
                refused(lent, call, |_, answer| {
                    answer.refusal.iter_mut().for_each(|refusal| refusal.place += 1)
                })
            }),
            ("the table after a refusal", |lent, call| {
                refused(lent, call, |lent, _| lent.table.fill(0))
            }),
            ("the count after a refusal", |lent, call| {
                refused(lent, call, |_, answer| answer.nodes = 0)
            }),
            ("a length after a refusal", |lent, call| {
                refused(lent, call, |lent, answer| answer.used = answer.used.min(lent.text.len()))
            }),
        ];
        for (name, editor) in editors {
            let found = (0..300).any(|number| {
                let random = &mut Random::for_case(12, number);
                trial(random, OnTrial::only(editor), &mut Seen::default()).is_err()
            });
            assert!(found, "{name}");
        }
    }
}
