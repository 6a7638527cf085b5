//! `duper`'s calls in the trials' terms, for each kind to be held against
//! `second`: reading, content, corrections and undos, the UTF-8 check, asking by
//! path, summaries, and salvaging. Where a `Document` makes the same call, it is held
//! against the call's answer. The texts' comparison is here too: whole tables, numbers
//! and places, and contents with the output buffers compared whole.

use second::book::Call;
use second::utf8::Checked;

use crate::check::{self, Answer, ContentCall};
use crate::editing;
use crate::finding::{self, Finder};
use crate::heights::Summary;
use crate::histories::{History, Lent};
use crate::random::Random;
use crate::salvaging;
use crate::summarizing::{self, Summarizer};
use crate::texts::Case;
use crate::zeros;

/// A refusal in document 01's terms.
fn refused(refusal: duper::Refusal) -> (u32, u64) {
    (refusal.number, refusal.place.into())
}

/// `duper`'s answer in document 01's terms.
pub fn duper_read(text: &[u8], table: &mut [u32]) -> Answer {
    duper::read(text, table).map_err(refused)
}

/// `duper`'s content answer in these terms. On a target whose addresses are
/// narrower than 64 bits a wider span can't be handed over, and isn't.
fn duper_content(text: &[u8], call: &ContentCall, out: &mut [u8]) -> Option<Answer> {
    let (start, end) = (usize::try_from(call.start).ok()?, usize::try_from(call.end).ok()?);
    Some(duper::content(text, start, end, out).map_err(refused))
}

/// Compares both readers on one case; the error tells the difference.
pub fn compare(case: &Case, random: &mut Random, seen: &mut zeros::Seen) -> Result<(), String> {
    let (answer, table) = check::both(case, duper_read)?;
    seen.count(&case.text, answer, &table);
    for call in check::content_calls(case, &table, random) {
        let mut our_out = check::rubbish_bytes(call.room);
        let mut their_out = our_out.clone();
        let Some(our_answer) = duper_content(&case.text, &call, &mut our_out) else { continue };
        let their_answer = check::second_content(&case.text, &call, &mut their_out);
        if our_answer != their_answer || our_out != their_out {
            return Err(format!(
                "{call:?}\nduper: {our_answer:?} {}\nsecond: {their_answer:?} {}",
                our_out.escape_ascii(),
                their_out.escape_ascii()
            ));
        }
        check::content(&call, our_answer, &our_out).map_err(|what| format!("{call:?}: {what}"))?;
    }
    Ok(())
}

/// `duper`'s calls on lent buffers, in document 01's terms.
fn editor(lent: &mut Lent, call: &Call) -> second::Answer {
    let Lent { text, used, journal, kept, table } = lent;
    let answer = match call {
        Call::Correct { node, replacement } => {
            duper::correct(text, *used, journal, *kept, table, *node, replacement)
        }
        Call::Undo => duper::undo(text, *used, journal, *kept, table),
    };
    let duper::Answer { outcome, nodes, used, kept } = answer;
    second::Answer { refusal: outcome.err().map(in_second), nodes, used, kept }
}

fn in_second(refusal: duper::Refusal) -> second::Refusal {
    second::Refusal { number: refusal.number, place: refusal.place.into() }
}

/// `duper`'s corrections and undos, and a document's.
pub const EDITING: editing::OnTrial =
    editing::OnTrial { editor, history: a_document, single: one_call };

/// `duper`'s UTF-8 check in `second`'s terms.
pub fn duper_utf8(bytes: &[u8]) -> Checked {
    let duper::Utf8Check { front, eights } = duper::utf8(bytes);
    Checked { front, eights }
}

/// `duper`'s answer to a path in document 01's terms.
fn duper_find(text: &[u8], table: &mut [u32], path: &[u8]) -> Answer {
    duper::find(text, table, path).map_err(refused)
}

/// Holds a document, which lends a table of its own, against the answer to a
/// path with a table of so many words.
fn asked_document(text: &[u8], words: usize, path: &[u8], answer: Answer) -> Result<(), String> {
    let document = duper::Document::read_within(text, words / 12);
    let found = document.as_ref().map_err(|refusal| *refusal).and_then(|document| {
        let node = document.find(path)?;
        Ok((node.number(), Some(node) == document.node(node.number())))
    });
    match found.map_err(refused) {
        Ok((number, true)) if answer == Ok(number) => Ok(()),
        Err(refusal) if answer == Err(refusal) => Ok(()),
        found => Err(format!("a document answers {found:?}, expected {answer:?}")),
    }
}

/// `duper`'s answers to paths, and a document's.
pub const FINDING: finding::OnTrial<Finder> =
    finding::OnTrial { finder: duper_find, further: asked_document };

/// `duper`'s summary in the trial's terms.
fn in_trial(answer: Result<duper::Summary, duper::Refusal>) -> summarizing::Answer {
    let duper::Summary { counts, heights } = answer.map_err(refused)?;
    let duper::Counts { measured, null, absent, unfit } = counts;
    let bits = |duper::Heights { least, greatest, mean }| [least, greatest, mean].map(f64::to_bits);
    Ok(Summary { counts: [measured, null, absent, unfit], heights: heights.map(bits) })
}

fn duper_summary(text: &[u8], table: &mut [u32]) -> summarizing::Answer {
    in_trial(duper::summary(text, table))
}

/// Holds a document, which lends a table of its own, against the summary with a
/// table of so many words.
fn summarized_document(
    text: &[u8],
    words: usize,
    answer: summarizing::Answer,
) -> Result<(), String> {
    let document = duper::Document::read_within(text, words / 12);
    let found = in_trial(document.and_then(|document| document.summary()));
    if found != answer {
        return Err(format!("a document answers {found:?}, expected {answer:?}"));
    }
    Ok(())
}

/// `duper`'s summaries, and a document's.
pub const SUMMARIZING: summarizing::OnTrial<Summarizer> =
    summarizing::OnTrial { summarizer: duper_summary, further: summarized_document };

fn duper_salvage(
    log: &[u8],
    table: &mut [u32],
    out: &mut [u8],
    verdicts: &mut [u8],
) -> salvaging::Answer {
    let written = duper::salvage_into(log, table, out, verdicts).map_err(refused)?;
    Ok((written.bytes, written.lines))
}

/// On the buffers that `duper` lends itself.
fn duper_salvaged(log: &[u8]) -> Result<(Vec<u8>, Vec<u8>), (u32, u64)> {
    let salvaged = duper::salvage(log).map_err(refused)?;
    Ok((salvaged.text, salvaged.verdicts))
}

/// `duper`'s salvaging of logs, and its reading of what is salvaged.
pub const SALVAGING: salvaging::OnTrial =
    salvaging::OnTrial { salvager: duper_salvage, own: duper_salvaged, reader: duper_read };

/// A document that may grow as far as buffers of these lengths let it.
fn document(
    text: &[u8],
    journal: &[u8],
    rooms: [usize; 3],
) -> Result<duper::Document, duper::Refusal> {
    let [text_room, journal_room, words] = rooms;
    let limits = duper::Limits { text: text_room, journal: journal_room, nodes: words / 12 };
    duper::Document::read_with_journal(text, journal, limits)
}

fn call_on(document: &mut duper::Document, call: &Call) -> Result<(), duper::Refusal> {
    match call {
        Call::Correct { node, replacement } => document.correct(*node, replacement),
        Call::Undo => document.undo(),
    }
}

/// Holds a document, which makes rooms of its own, against this refusal and
/// these buffers; its answers must not show the rooms.
fn holds(
    document: &duper::Document,
    answer: Result<(), duper::Refusal>,
    refusal: Option<second::Refusal>,
    [text, journal]: [&[u8]; 2],
    rows: &[u32],
) -> Result<(), String> {
    let refused = answer.err().map(in_second);
    if refused != refusal {
        return Err(format!("a document answers {refused:?}, expected {refusal:?}"));
    }
    if (document.text(), document.journal(), document.table()) != (text, journal, rows) {
        return Err("a document's text, journal or table is another".to_string());
    }
    Ok(())
}

/// Holds a document against the plain book.
fn a_document(history: &History) -> Result<(), String> {
    let lengths = history.lengths;
    let wrong = |number, what: String| editing::told_to(history, number, &what);
    let rooms = [lengths.text, lengths.journal, lengths.table];
    let mut document = document(&history.first, &[], rooms)
        .map_err(|refusal| wrong(0, format!("a document: {refusal}")))?;
    for (number, (call, page)) in history.calls.iter().enumerate() {
        let answer = call_on(&mut document, call);
        let refusal = page.refusal.map(|number| second::Refusal { number, place: 0 });
        let rows = &page.table[..page.nodes * 12];
        holds(&document, answer, refusal, [&page.text, &page.journal], rows)
            .map_err(|what| wrong(number, what))?;
    }
    Ok(())
}

/// Holds a document against a call on lent buffers, if the lengths in use are
/// within these.
fn one_call(
    before: &Lent,
    call: &Call,
    after: &Lent,
    answer: second::Answer,
) -> Result<(), String> {
    let Lent { text, used, journal, kept, table } = before;
    let (Some(first), Some(entries)) = (text.get(..*used), journal.get(..*kept)) else {
        return Ok(());
    };
    match document(first, entries, [text.len(), journal.len(), table.len()]) {
        Ok(mut document) => {
            let called = call_on(&mut document, call);
            let rows = &after.table[..answer.nodes * 12];
            let in_use = [&after.text[..answer.used], &after.journal[..answer.kept]];
            holds(&document, called, answer.refusal, in_use, rows)
        }
        // What doesn't read makes no document.
        Err(refusal) if answer.refusal == Some(in_second(refusal)) && refusal.number <= 10 => {
            Ok(())
        }
        Err(refusal) => Err(format!("a document: {refusal}")),
    }
}
