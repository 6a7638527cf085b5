//! What a kind of trials says of itself: its two options, how one trial is made
//! and run, and how its findings are printed. The program runs all kinds in one
//! way. A further kind is a module that implements [`Kind`], with `duper`'s calls
//! for it in `against`, and one line in the program's list.

use std::collections::BTreeMap;
use std::fmt::Display;

/// A kind of trials. The value holds what the trials of a run have seen so far.
pub trait Kind: Default {
    /// The option that tells how many to run, without its dashes.
    const PLURAL: &'static str;
    /// The option that tells the number of the only one to run, without its dashes.
    /// A difference goes by this name too.
    const SINGULAR: &'static str;
    /// How many are run where no kind is named.
    const USUAL: u64;
    /// By how many bits the seed is turned to the left. No two kinds turn it alike,
    /// so that they don't go by the same random numbers; and none may ever turn it
    /// otherwise than before, so that an old difference is found again.
    const TURN: u32;

    /// The calls that are on trial.
    type OnTrial: Copy;
    /// `second`'s, to look at it alone.
    const SECOND: Self::OnTrial;
    /// `duper`'s, to hold them against `second`'s.
    #[cfg(feature = "against")]
    const DUPER: Self::OnTrial;

    /// Makes one trial, from the turned seed and its number alone, and tries the
    /// calls in it; the error tells the difference.
    fn trial(&mut self, turned: u64, number: u64, on_trial: Self::OnTrial) -> Result<(), String>;

    /// What the trials run so far were, to be told behind "3 of 10".
    fn progress(&self) -> String;

    /// What all of them were and what was compared, to be told behind their count.
    fn compared(&self) -> String;

    /// What came up in them, line by line.
    fn details(&self) -> Vec<String>;

    /// What hardly came up in them, though it should have in a run of many.
    fn rare(&self) -> Vec<String> {
        Vec::new()
    }

    /// A difference, with the options that make its trial again; the seed is the
    /// run's own.
    fn told(seed: u64, number: u64, difference: &str) -> String {
        let name = Self::SINGULAR;
        format!(
            "difference in {name} {number} of seed {seed}; again: \
             --seed {seed} --{name} {number}\n{difference}"
        )
    }
}

/// What came up, each with its count.
pub(crate) fn listed(counts: &BTreeMap<impl Display, u64>) -> String {
    let counts: Vec<_> = counts.iter().map(|(what, count)| format!("{what}: {count}")).collect();
    counts.join(", ")
}
