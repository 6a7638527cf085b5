//! Reading on trial: random texts, or the short ones in their place, with what
//! stands in their strings and keys.

use crate::check;
use crate::kind::Kind;
use crate::random::Random;
use crate::texts::{self, Case};
use crate::zeros;

/// Tries reading and content on one case, with random numbers for the content
/// calls, and counts what was read; the error tells the difference.
pub type Comparison = fn(&Case, &mut Random, &mut zeros::Seen) -> Result<(), String>;

/// What was seen of the texts that were read: random ones, or those of
/// [`texts::short`].
#[derive(Debug, Clone, Copy, Default, PartialEq, Eq)]
pub struct Seen<const SHORT: bool> {
    /// Their bytes.
    pub bytes: u64,
    /// The exponents in them.
    pub exponents: zeros::Seen,
}

/// The random texts.
pub type Texts = Seen<false>;

/// The short texts.
pub type ShortTexts = Seen<true>;

impl<const SHORT: bool> Seen<SHORT> {
    fn case(turned: u64, number: u64) -> Case {
        if SHORT {
            texts::short(number)
        } else {
            texts::case(turned, number)
        }
    }
}

impl<const SHORT: bool> Kind for Seen<SHORT> {
    const PLURAL: &'static str = "texts";
    const SINGULAR: &'static str = "case";
    const USUAL: u64 = if SHORT { texts::SHORT } else { 100_000 };
    const TURN: u32 = 0;

    type OnTrial = Comparison;
    const SECOND: Comparison = check::second_alone;
    #[cfg(feature = "against")]
    const DUPER: Comparison = crate::against::compare;

    fn trial(&mut self, turned: u64, number: u64, comparison: Comparison) -> Result<(), String> {
        let case = Self::case(turned, number);
        self.bytes += case.text.len() as u64;
        comparison(&case, &mut Random::for_case(!turned, number), &mut self.exponents)
    }

    fn progress(&self) -> String {
        format!("texts, {} bytes", self.bytes)
    }

    fn compared(&self) -> String {
        "texts, no difference".to_string()
    }

    fn details(&self) -> Vec<String> {
        self.exponents.details()
    }

    /// With the text, and with `--short` where that is needed to make it again.
    fn told(seed: u64, number: u64, difference: &str) -> String {
        let Case { sort, words, text, .. } = Self::case(seed.rotate_left(Self::TURN), number);
        let short = if SHORT { "--short " } else { "" };
        format!(
            "difference in case {number} of seed {seed} ({sort}); again: \
             {short}--seed {seed} --case {number}\n\
             table of {words} words, text of {} bytes:\n{}\n{difference}",
            text.len(),
            text.escape_ascii()
        )
    }
}
