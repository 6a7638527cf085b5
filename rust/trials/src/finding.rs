//! Asking by path on trial: answers and whole tables are held against what is
//! known of a document and its paths beforehand, and against `second`'s.

use std::collections::BTreeMap;

use second::MAX_DEPTH;

use crate::check::{rubbish, second_read, Answer};
use crate::kind::{listed, Kind};
use crate::paths::{self, Asked, Case, Source};
use crate::random::Random;

/// The call in document 01's terms: a node's number, or a refusal's number and
/// place.
pub type Finder = fn(&[u8], &mut [u32], &[u8]) -> Answer;

/// Holds a further call against an answer: given are the text, the table's
/// length in words, the path, and the answer.
pub type Further = fn(&[u8], usize, &[u8], Answer) -> Result<(), String>;

/// What is held against `second` and what is known.
#[derive(Debug, Clone, Copy)]
pub struct OnTrial<F> {
    /// The call.
    pub finder: F,
    /// A further call, for one path of each text.
    pub further: Further,
}

impl<F> OnTrial<F> {
    /// This call and no further one.
    pub const fn only(finder: F) -> OnTrial<F> {
        OnTrial { finder, further: |_, _, _, _| Ok(()) }
    }
}

/// What was compared, and what came up in it.
#[derive(Debug, Clone, Default, PartialEq, Eq)]
pub struct Seen {
    /// Documents as they were written.
    pub documents: u64,
    /// Documents with some bytes changed.
    pub damaged: u64,
    /// Other texts.
    pub elsewhere: u64,
    /// Paths, of all these.
    pub paths: u64,
    /// Paths of which the answer was known beforehand.
    pub known: u64,
    /// Words of tables.
    pub words: u64,
    /// Paths that lead to a node.
    pub found: u64,
    /// How many of these lead to the root.
    pub roots: u64,
    /// The most steps of a path that leads to a node.
    pub deepest: usize,
    /// The greatest number of such a node.
    pub greatest: usize,
    /// Paths refused with 23, by the number of the step.
    pub stuck: BTreeMap<u64, u64>,
    /// Paths refused because the text doesn't read, by the number of refusal.
    pub refused: BTreeMap<u32, u64>,
    /// The longest path, in bytes.
    pub longest: usize,
    /// Paths by their sort.
    pub sorts: BTreeMap<&'static str, u64>,
}

impl Seen {
    fn count(&mut self, asked: &Asked, is_known: bool, answer: Answer) {
        let Asked { sort, path, words, .. } = asked;
        self.paths += 1;
        self.known += u64::from(is_known);
        self.words += *words as u64;
        self.longest = self.longest.max(path.len());
        *self.sorts.entry(sort).or_default() += 1;
        match answer {
            Ok(node) => {
                self.found += 1;
                self.roots += u64::from(node == 0);
                self.greatest = self.greatest.max(node);
                self.deepest = self.deepest.max(steps(path));
            }
            Err((23, step)) => *self.stuck.entry(step).or_default() += 1,
            Err((number, _)) => *self.refused.entry(number).or_default() += 1,
        }
    }

    fn count_text(&mut self, source: Source) {
        match source {
            Source::Document => self.documents += 1,
            Source::Damaged => self.damaged += 1,
            Source::Elsewhere => self.elsewhere += 1,
        }
    }
}

impl Kind for Seen {
    const PLURAL: &'static str = "paths";
    const SINGULAR: &'static str = "path";
    const USUAL: u64 = 20_000;
    const TURN: u32 = 24;

    type OnTrial = OnTrial<Finder>;
    const SECOND: OnTrial<Finder> = OnTrial::only(second_find);
    #[cfg(feature = "against")]
    const DUPER: OnTrial<Finder> = crate::against::FINDING;

    fn trial(&mut self, turned: u64, number: u64, on_trial: OnTrial<Finder>) -> Result<(), String> {
        trial(&mut Random::for_case(turned, number), on_trial, self)
    }

    fn progress(&self) -> String {
        format!("texts with {} paths", self.paths)
    }

    fn compared(&self) -> String {
        format!(
            "texts with {} paths, no difference in answers and {} words",
            self.paths, self.words
        )
    }

    fn details(&self) -> Vec<String> {
        vec![
            format!(
                "texts: {} documents, {} of them damaged, and {} others; \
                 answers known beforehand: {}",
                self.documents + self.damaged,
                self.damaged,
                self.elsewhere,
                self.known
            ),
            format!(
                "found: {}, the root {} times; by at most {} steps, and up to node {}; \
                 longest path: {} bytes",
                self.found, self.roots, self.deepest, self.greatest, self.longest
            ),
            format!(
                "refused with 23: {}, by step {}",
                self.stuck.values().sum::<u64>(),
                listed(&self.stuck)
            ),
            format!(
                "refused by the reading: {}, by number {}",
                self.refused.values().sum::<u64>(),
                listed(&self.refused)
            ),
            format!("paths by sort: {}", listed(&self.sorts)),
        ]
    }
}

/// `second`'s call in these terms.
pub fn second_find(text: &[u8], table: &mut [u32], path: &[u8]) -> Answer {
    second::path::find(text, table, path).map_err(|refusal| (refusal.number, refusal.place))
}

/// Makes one text and its paths and tries the call on them; the error tells the
/// first difference, and all that is needed to see it again.
pub fn trial<F: Fn(&[u8], &mut [u32], &[u8]) -> Answer>(
    random: &mut Random,
    on_trial: OnTrial<F>,
    seen: &mut Seen,
) -> Result<(), String> {
    let case = paths::case(random)?;
    for (number, asked) in case.asked.iter().enumerate() {
        let told = |what: String| told(&case, asked, &what);
        let (answer, is_known) = hold(&case, asked, &on_trial.finder).map_err(told)?;
        if number == 0 {
            (on_trial.further)(&case.text, asked.words, &asked.path, answer).map_err(told)?;
        }
        seen.count(asked, is_known, answer);
    }
    seen.count_text(case.source);
    Ok(())
}

/// Asks for one path, and compares answers and tables. Gives the answer, and
/// whether it was known beforehand.
fn hold(
    case: &Case,
    asked: &Asked,
    finder: impl Fn(&[u8], &mut [u32], &[u8]) -> Answer,
) -> Result<(Answer, bool), String> {
    let ours = call(case, asked, finder);
    let theirs = call(case, asked, second_find);
    let known = known(case, asked);
    by_known(asked, &known, &ours).map_err(|what| format!("{what}; second {:?}", theirs.0))?;
    by_known(asked, &known, &theirs).map_err(|what| format!("second: {what}"))?;
    by_second(&ours, &theirs)?;
    Ok((ours.0, known.is_making && known.answer.is_some()))
}

/// An answer and the whole table.
pub(crate) type Called = (Answer, Vec<u32>);

pub(crate) fn call(
    case: &Case,
    asked: &Asked,
    finder: impl Fn(&[u8], &mut [u32], &[u8]) -> Answer,
) -> Called {
    let mut table = rubbish(asked.words);
    let answer = finder(&case.text, &mut table, &asked.path);
    (answer, table)
}

/// What is known of a call without it.
pub(crate) struct Known {
    /// What the text's reading comes to: "The call reads the text into the lent
    /// table itself".
    reading: Answer,
    /// The reading's whole table.
    table: Vec<u32>,
    /// Whether the making of the text tells its reading; else `second` read it.
    pub(crate) is_making: bool,
    /// The answer: the reading's refusal, or "the node's number, or 23 and the
    /// number of the first step, from 0, that has no child to go to".
    answer: Option<Answer>,
}

pub(crate) fn known(case: &Case, asked: &Asked) -> Known {
    let made = case.reading(asked.words);
    let is_making = made.is_some();
    let (reading, table) = made.unwrap_or_else(|| {
        let mut table = vec![0; asked.words];
        (second_read(&case.text, &mut table), table)
    });
    let answer = match reading {
        Err(refusal) => Some(Err(refusal)),
        Ok(_) => asked.known.map(|known| known.map_err(|step| (23, step as u64))),
    };
    Known { reading, table, is_making, answer }
}

/// Holds a call against what is known.
pub(crate) fn by_known(
    asked: &Asked,
    known: &Known,
    (answer, table): &Called,
) -> Result<(), String> {
    match known.answer {
        Some(expected) if expected != *answer => {
            return Err(format!("answer: expected {expected:?}, answered {answer:?}"));
        }
        _ => {}
    }
    // Whatever the path, it is a node of the reading, or a step of the path that
    // isn't deeper than a text can be.
    let steps = steps(&asked.path);
    let is_sound = match (*answer, known.reading) {
        (Ok(node), Ok(nodes)) => node < nodes,
        (Err((23, step)), Ok(_)) => step < steps as u64 && step <= MAX_DEPTH as u64,
        (answer, reading) => answer == reading,
    };
    if !is_sound {
        let reading = known.reading;
        return Err(format!("answer: {answer:?} in a reading of {reading:?}, {steps} steps"));
    }
    alike(&known.table, table).map_err(|what| format!("table: {what}"))
}

/// The empty path has no step, and any other one more than it has dots.
fn steps(path: &[u8]) -> usize {
    match path {
        [] => 0,
        _ => 1 + path.iter().filter(|&&byte| byte == b'.').count(),
    }
}

/// Holds a call against `second`'s.
pub(crate) fn by_second(
    (answer, table): &Called,
    (expected, tables): &Called,
) -> Result<(), String> {
    if answer != expected {
        return Err(format!("answer: second {expected:?}, on trial {answer:?}"));
    }
    alike(tables, table).map_err(|what| format!("table, by second: {what}"))
}

/// Compares two tables whole.
pub(crate) fn alike(expected: &[u32], left: &[u32]) -> Result<(), String> {
    if expected == left {
        return Ok(());
    }
    let at = expected.iter().zip(left).position(|(expected, left)| expected != left);
    let at = at.unwrap_or(expected.len().min(left.len()));
    let (expected, left) = (expected.get(at), left.get(at));
    Err(format!("word {at}: expected {expected:?}, left {left:?}"))
}

/// How many bytes of a path an error shows; it can be made again.
const SHOWN: usize = 2_000;

/// The text, the path, and what is wrong.
fn told(case: &Case, asked: &Asked, what: &str) -> String {
    let Asked { sort, path, words, known } = asked;
    let shown = &path[..path.len().min(SHOWN)];
    format!(
        "text of {} bytes ({:?}):\n{}\npath of {} bytes ({sort}): {}\n\
         table of {words} words; known of the path: {known:?}\n{what}",
        case.text.len(),
        case.source,
        case.text.escape_ascii(),
        path.len(),
        shown.escape_ascii()
    )
}

#[cfg(test)]
mod tests {
    use super::*;

    #[test]
    fn second_answers_as_is_known() {
        let mut seen = Seen::default();
        for number in 0..3_000 {
            let random = &mut Random::for_case(20, number);
            if let Err(what) = trial(random, OnTrial::only(second_find), &mut seen) {
                panic!("path {number}: {what}");
            }
        }
        println!("{seen:#?}");
        let Seen { documents, damaged, elsewhere, paths, known, found, roots, .. } = seen;
        assert_eq!(documents + damaged + elsewhere, 3_000);
        assert!(damaged > 100 && elsewhere > 200 && documents > 2_000, "{seen:?}");
        assert!(known > paths / 2 && found > paths / 8 && roots < found / 2, "{seen:?}");
        // Each step that can be the first without a child, and each refusal of a
        // reading.
        assert_eq!(seen.stuck.keys().copied().collect::<Vec<_>>(), (0..=32).collect::<Vec<_>>());
        assert_eq!(seen.refused.keys().copied().collect::<Vec<_>>(), (1..=10).collect::<Vec<_>>());
        assert_eq!(seen.deepest, 32);
        assert!(seen.greatest > 1_000 && seen.longest > 65_536, "{seen:?}");
        assert_eq!(seen.sorts.len(), 33, "{:?}", seen.sorts);
        assert!(seen.sorts.values().all(|&count| count > 0), "{seen:?}");
    }
}
