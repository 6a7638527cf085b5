//! The season's summary on trial: answers and whole tables are held against what
//! is known of a text beforehand, and against `second`'s. Heights are compared
//! to the last bit.

use std::collections::BTreeMap;

use second::summary;

use crate::check::{self, rubbish, second_read};
use crate::finding::alike;
use crate::heights::{Summary, MOST};
use crate::kind::{listed, Kind};
use crate::paths::Source;
use crate::random::Random;
use crate::records::{self, Case};

/// An answer: counts and heights, or a refusal's number and place.
pub type Answer = Result<Summary, (u32, u64)>;

/// The call in these terms.
pub type Summarizer = fn(&[u8], &mut [u32]) -> Answer;

/// Holds a further call against an answer: given are the text, the table's
/// length in words, and the answer.
pub type Further = fn(&[u8], usize, Answer) -> Result<(), String>;

/// What is held against `second` and what is known.
#[derive(Debug, Clone, Copy)]
pub struct OnTrial<S> {
    /// The call.
    pub summarizer: S,
    /// A further call, for one table of each text.
    pub further: Further,
}

impl<S> OnTrial<S> {
    /// This call and no further one.
    pub const fn only(summarizer: S) -> OnTrial<S> {
        OnTrial { summarizer, further: |_, _, _| Ok(()) }
    }
}

/// What was compared, and what came up in it.
#[derive(Debug, Clone, Default, PartialEq, Eq)]
pub struct Seen {
    /// Texts as they were written.
    pub documents: u64,
    /// Texts that something was done to.
    pub damaged: u64,
    /// Other texts.
    pub elsewhere: u64,
    /// Calls, of all these.
    pub calls: u64,
    /// Calls of which the answer was known beforehand.
    pub known: u64,
    /// Words of tables.
    pub words: u64,
    /// Records that are measured, null, absent and unfit.
    pub records: [u64; 4],
    /// The most records of a text.
    pub most: u64,
    /// Summaries with heights.
    pub with_heights: u64,
    /// Summaries without any height.
    pub without_heights: u64,
    /// Refused with 21 at the root.
    pub root: u64,
    /// Refused with 21 at an element.
    pub element: u64,
    /// Refused because the text doesn't read, by the number of refusal.
    pub refused: BTreeMap<u32, u64>,
}

impl Seen {
    fn count(&mut self, words: usize, is_known: bool, answer: Answer) {
        self.calls += 1;
        self.known += u64::from(is_known);
        self.words += words as u64;
        match answer {
            Ok(Summary { counts, heights }) => {
                for (seen, count) in self.records.iter_mut().zip(counts) {
                    *seen += count;
                }
                self.most = self.most.max(counts.iter().sum());
                self.with_heights += u64::from(heights.is_some());
                self.without_heights += u64::from(heights.is_none());
            }
            Err((21, 0)) => self.root += 1,
            Err((21, _)) => self.element += 1,
            Err((number, _)) => *self.refused.entry(number).or_default() += 1,
        }
    }

    fn count_text(&mut self, source: Source) {
        match source {
            Source::Document => self.documents += 1,
            Source::Damaged => self.damaged += 1,
            Source::Elsewhere => self.elsewhere += 1,
        }
    }
}

impl Kind for Seen {
    const PLURAL: &'static str = "summaries";
    const SINGULAR: &'static str = "summary";
    const USUAL: u64 = 20_000;
    const TURN: u32 = 40;

    type OnTrial = OnTrial<Summarizer>;
    const SECOND: OnTrial<Summarizer> = OnTrial::only(second_summary);
    #[cfg(feature = "against")]
    const DUPER: OnTrial<Summarizer> = crate::against::SUMMARIZING;

    fn trial(
        &mut self,
        turned: u64,
        number: u64,
        on_trial: OnTrial<Summarizer>,
    ) -> Result<(), String> {
        trial(&mut Random::for_case(turned, number), on_trial, self)
    }

    fn progress(&self) -> String {
        format!("texts with {} summaries", self.calls)
    }

    fn compared(&self) -> String {
        format!(
            "texts with {} summaries, no difference in answers and {} words",
            self.calls, self.words
        )
    }

    fn details(&self) -> Vec<String> {
        let [measured, null, absent, unfit] = self.records;
        vec![
            format!(
                "texts: {} of records, {} with something done to them, and {} others; \
                 answers known beforehand: {}",
                self.documents, self.damaged, self.elsewhere, self.known
            ),
            format!(
                "records: measured {measured}, null {null}, absent {absent}, unfit {unfit}; \
                 at most {} in a text",
                self.most
            ),
            format!(
                "summaries with heights: {}, without any: {}; refused with 21 at the root: {}, \
                 at an element: {}",
                self.with_heights, self.without_heights, self.root, self.element
            ),
            format!(
                "refused by the reading: {}, by number {}",
                self.refused.values().sum::<u64>(),
                listed(&self.refused)
            ),
        ]
    }

    /// What hardly came up: less than once in 2,000 calls. A run of many texts
    /// that shows nothing of one of these is no trial of it.
    fn rare(&self) -> Vec<String> {
        let [measured, null, absent, unfit] = self.records;
        let mut counts = vec![
            ("measured".to_string(), measured),
            ("null".to_string(), null),
            ("absent".to_string(), absent),
            ("unfit".to_string(), unfit),
            ("with heights".to_string(), self.with_heights),
            ("without any height".to_string(), self.without_heights),
            ("21 at the root".to_string(), self.root),
            ("21 at an element".to_string(), self.element),
        ];
        for number in 1..=10 {
            let count = self.refused.get(&number).copied().unwrap_or(0);
            counts.push((format!("refused with {number}"), count));
        }
        counts.retain(|(_, count)| *count < (self.calls / 2_000).max(1));
        counts.into_iter().map(|(what, count)| format!("{what}: {count}")).collect()
    }
}

/// `second`'s call in these terms.
pub fn second_summary(text: &[u8], table: &mut [u32]) -> Answer {
    let refused = |refusal: second::Refusal| (refusal.number, refusal.place);
    let summary::Summary { counts, heights } = summary::summary(text, table).map_err(refused)?;
    let summary::Counts { measured, null, absent, unfit } = counts;
    let bits =
        |summary::Heights { least, greatest, mean }| [least, greatest, mean].map(f64::to_bits);
    Ok(Summary { counts: [measured, null, absent, unfit], heights: heights.map(bits) })
}

/// Makes one text and tries the call on it with each of its tables; the error
/// tells the first difference, and all that is needed to see it again.
pub fn trial<S: Fn(&[u8], &mut [u32]) -> Answer>(
    random: &mut Random,
    on_trial: OnTrial<S>,
    seen: &mut Seen,
) -> Result<(), String> {
    let case = records::case(random);
    for (number, &words) in case.words.iter().enumerate() {
        let told = |what: String| told(&case, words, &what);
        let (answer, is_known) = hold(&case, words, &on_trial.summarizer).map_err(told)?;
        if number == 0 {
            (on_trial.further)(&case.text, words, answer).map_err(told)?;
        }
        seen.count(words, is_known, answer);
    }
    seen.count_text(case.source);
    Ok(())
}

/// Calls with one table, and compares answers and tables. Gives the answer, and
/// whether it was known beforehand.
fn hold(
    case: &Case,
    words: usize,
    summarizer: impl Fn(&[u8], &mut [u32]) -> Answer,
) -> Result<(Answer, bool), String> {
    let ours = call(case, words, summarizer);
    let theirs = call(case, words, second_summary);
    let known = known(case, words);
    by_known(&known, &ours).map_err(|what| format!("{what}; second: {:?}", theirs.0))?;
    by_known(&known, &theirs).map_err(|what| format!("second: {what}"))?;
    by_second(&ours, &theirs)?;
    Ok((ours.0, known.is_making))
}

/// An answer and the whole table.
pub(crate) type Called = (Answer, Vec<u32>);

pub(crate) fn call(
    case: &Case,
    words: usize,
    summarizer: impl Fn(&[u8], &mut [u32]) -> Answer,
) -> Called {
    let mut table = rubbish(words);
    let answer = summarizer(&case.text, &mut table);
    (answer, table)
}

/// What is known of a call without it.
pub(crate) struct Known {
    /// What the text's reading comes to: "the lent table is left as the reader
    /// leaves it".
    reading: check::Answer,
    /// The reading's whole table.
    table: Vec<u32>,
    /// Whether the making of the text tells its reading and the answer; else
    /// `second` read it.
    pub(crate) is_making: bool,
    /// The answer: the reading's refusal, or the summary, or 21.
    answer: Option<Answer>,
}

pub(crate) fn known(case: &Case, words: usize) -> Known {
    let made = case.reading(words);
    let is_making = made.is_some();
    let (reading, table) = made.unwrap_or_else(|| {
        let mut table = vec![0; words];
        (second_read(&case.text, &mut table), table)
    });
    // "is refused, after 1 to 10, with 21"
    let answer = match reading {
        Err(refusal) => Some(Err(refusal)),
        Ok(_) => case.known,
    };
    Known { reading, table, is_making, answer }
}

/// Holds a call against what is known.
pub(crate) fn by_known(known: &Known, (answer, table): &Called) -> Result<(), String> {
    match known.answer {
        Some(expected) if expected != *answer => {
            return Err(format!("answer: expected {expected:?}, answered {answer:?}"));
        }
        _ => {}
    }
    alike(&known.table, table).map_err(|what| format!("table: {what}"))?;
    if !is_sound(known, *answer) {
        let reading = known.reading;
        return Err(format!("answer: {answer:?} in a reading of {reading:?}"));
    }
    Ok(())
}

/// What holds of the answer for any text, by the text's reading.
fn is_sound(known: &Known, answer: Answer) -> bool {
    let Ok(nodes) = known.reading else { return answer.err() == known.reading.err() };
    let kind = |node: u64| known.table[node as usize * 12];
    match answer {
        // "The four counts [...] add up to the number of records": the count of
        // the root's children, its word 9.
        Ok(Summary { counts, heights }) => {
            kind(0) == 2
                && counts.iter().sum::<u64>() == u64::from(known.table[9])
                && heights.is_some() == (counts[0] > 0)
                && heights.map_or(true, are_in_order)
        }
        Err((21, 0)) => kind(0) != 2,
        // A child of the root.
        Err((21, node)) => {
            node < nodes as u64 && kind(node) != 1 && known.table[node as usize * 12 + 1] == 0
        }
        Err(_) => false,
    }
}

/// The least is at most the mean, and this at most the greatest, all within the
/// bounds.
fn are_in_order(heights: [u64; 3]) -> bool {
    let [least, greatest, mean] = heights.map(f64::from_bits);
    0.0 <= least && least <= mean && mean <= greatest && greatest <= MOST as f64
}

/// Holds a call against `second`'s.
pub(crate) fn by_second(
    (answer, table): &Called,
    (expected, tables): &Called,
) -> Result<(), String> {
    if answer != expected {
        return Err(format!("answer: second {expected:?}, on trial {answer:?}"));
    }
    alike(tables, table).map_err(|what| format!("table, by second: {what}"))
}

/// The text, the table's length, and what is wrong.
fn told(case: &Case, words: usize, what: &str) -> String {
    format!(
        "text of {} bytes ({:?}):\n{}\ntable of {words} words\n{what}",
        case.text.len(),
        case.source,
        case.text.escape_ascii()
    )
}

#[cfg(test)]
mod tests {
    use super::*;

    #[test]
    fn second_answers_as_is_known() {
        let mut seen = Seen::default();
        for number in 0..10_000 {
            let random = &mut Random::for_case(20, number);
            if let Err(what) = trial(random, OnTrial::only(second_summary), &mut seen) {
                panic!("summary {number}: {what}");
            }
        }
        println!("{seen:#?}");
        assert_eq!(seen.rare(), Vec::<String>::new(), "{seen:?}");
        let Seen { documents, damaged, elsewhere, calls, known, .. } = seen;
        assert_eq!(documents + damaged + elsewhere, 10_000);
        assert!(damaged > 500 && elsewhere > 500 && documents > 7_000, "{seen:?}");
        assert!(known > calls / 2 && seen.most > 2_000, "{seen:?}");
        assert_eq!(seen.refused.keys().copied().collect::<Vec<_>>(), (1..=10).collect::<Vec<_>>());
    }

    #[test]
    fn what_hardly_came_up_is_told() {
        let mut seen = Seen { calls: 6_000, records: [5, 2, 3, 3], ..Seen::default() };
        (seen.with_heights, seen.without_heights, seen.root) = (9, 9, 9);
        seen.refused = (1..=10).map(|number| (number, 3)).collect();
        seen.refused.remove(&9);
        assert_eq!(seen.rare(), ["null: 2", "21 at an element: 0", "refused with 9: 0"]);
    }
}
