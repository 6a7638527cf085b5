//! `trials`: holds `duper` against `second` in the kinds of trials that are listed
//! in [`KINDS`].
//!
//! Each kind has two options. One tells how many to run, as in `--texts N`; the
//! other runs the one of that number only, as in `--case K`. Without any of these,
//! some of every kind are run. `--seed S` makes the trials of another run again, and
//! `--self` looks at `second` alone.
//! `--short` runs every text of up to two bytes, bare and in a few surroundings,
//! every exponent of up to six bytes over a small alphabet, and the numbers of
//! document 02's request 02, in place of random texts.

use std::ops::Range;
use std::process::ExitCode;
use std::time::{Duration, Instant, SystemTime};

use trials::kind::Kind;
use trials::texts;
use trials::{editing, eights, finding, insertions, keying, reading, salvaging, summarizing};

/// All kinds of trials, in the order in which they are run.
const KINDS: &[Listed] = &[
    Listed::of::<reading::Texts>(),
    Listed::of::<editing::Seen>(),
    Listed::of::<insertions::Seen>(),
    Listed::of::<eights::Seen>(),
    Listed::of::<finding::Seen>(),
    Listed::of::<summarizing::Seen>(),
    Listed::of::<keying::Seen>(),
    Listed::of::<salvaging::Seen>(),
];

/// Where the texts are in the list: `--short` is for them.
const TEXTS: usize = 0;

/// Two kinds that turn the seed alike would go by the same random numbers.
const _: () = {
    let (mut at, mut taken) = (0, 0u64);
    while at < KINDS.len() {
        assert!(taken >> KINDS[at].turn & 1 == 0, "two kinds turn the seed alike");
        taken |= 1 << KINDS[at].turn;
        at += 1;
    }
};

/// A kind of trials as the list has it: see [`Kind`].
#[derive(Clone, Copy)]
struct Listed {
    plural: &'static str,
    singular: &'static str,
    usual: u64,
    turn: u32,
    run: fn(&Options, Range<u64>) -> Result<(), String>,
}

impl Listed {
    const fn of<K: Kind>() -> Listed {
        let (plural, singular, usual, turn) = (K::PLURAL, K::SINGULAR, K::USUAL, K::TURN);
        Listed { plural, singular, usual, turn, run: run::<K> }
    }

    fn has(&self, option: &str) -> bool {
        option == self.plural || option == self.singular
    }

    /// The trials that one of its options asks for with this number.
    fn numbers(&self, option: &str, number: u64) -> Range<u64> {
        if option == self.plural {
            0..number
        } else {
            number..number.saturating_add(1)
        }
    }
}

/// What to run.
struct Options {
    /// Each kind with the numbers of its trials.
    kinds: Vec<(Listed, Range<u64>)>,
    seed: u64,
    alone: bool,
}

fn usage() -> String {
    let mut usage = "trials [--self] [--seed S]".to_string();
    for (at, Listed { plural, singular, .. }) in KINDS.iter().enumerate() {
        let short = if at == TEXTS { "--short | " } else { "" };
        usage += &format!(" [{short}--{plural} N | --{singular} K]");
    }
    usage
}

fn options(mut arguments: impl Iterator<Item = String>) -> Result<Options, String> {
    let now = SystemTime::now().duration_since(SystemTime::UNIX_EPOCH).unwrap_or_default();
    let (mut seed, mut alone, mut short) = (now.as_nanos() as u64, false, false);
    let mut kinds: Vec<_> = KINDS.iter().map(|kind| (*kind, None)).collect();
    while let Some(argument) = arguments.next() {
        let mut number = || {
            let given = arguments.next().unwrap_or_default();
            given.parse::<u64>().map_err(|_| format!("{argument}: not a number: {given:?}"))
        };
        match argument.as_str() {
            "--seed" => seed = number()?,
            "--self" => alone = true,
            "--short" => short = true,
            _ => {
                let option = argument.strip_prefix("--").unwrap_or_default();
                let (kind, numbers) = kinds
                    .iter_mut()
                    .find(|(kind, _)| kind.has(option))
                    .ok_or_else(|| format!("unknown argument {argument}\nusage: {}", usage()))?;
                *numbers = Some(kind.numbers(option, number()?));
            }
        }
    }
    if short {
        let (kind, numbers) = &mut kinds[TEXTS];
        *kind = Listed::of::<reading::ShortTexts>();
        if numbers.get_or_insert(0..texts::SHORT).end > texts::SHORT {
            return Err(format!("--short has {} texts, numbered from 0", texts::SHORT));
        }
    }
    // What isn't named isn't run, unless nothing is named.
    let none_named = kinds.iter().all(|(_, numbers)| numbers.is_none());
    let unnamed = |kind: Listed| 0..if none_named { kind.usual } else { 0 };
    let kinds = kinds.into_iter().map(|(kind, numbers)| (kind, numbers.unwrap_or(unnamed(kind))));
    Ok(Options { kinds: kinds.collect(), seed, alone })
}

/// A line on standard error every three seconds.
struct Progress {
    started: Instant,
    told: Instant,
}

impl Progress {
    fn new() -> Progress {
        Progress { started: Instant::now(), told: Instant::now() }
    }

    fn tell(&mut self, done: impl FnOnce() -> String) {
        if self.told.elapsed() > Duration::from_secs(3) {
            self.told = Instant::now();
            eprintln!("{}, {:.0} s", done(), self.started.elapsed().as_secs_f64());
        }
    }

    fn seconds(&self) -> f64 {
        self.started.elapsed().as_secs_f64()
    }
}

/// So many trials of a kind must show some of everything that its `rare` looks at.
const MANY: u64 = 10_000;

/// Runs these trials of a kind. The error is what to print.
fn run<K: Kind>(options: &Options, numbers: Range<u64>) -> Result<(), String> {
    let on_trial = match options.alone {
        #[cfg(feature = "against")]
        false => K::DUPER,
        // Without the feature `main` ends before unless `second` is alone.
        _ => K::SECOND,
    };
    let seed = options.seed;
    let total = numbers.end - numbers.start;
    let mut progress = Progress::new();
    let mut seen = K::default();
    for number in numbers {
        seen.trial(seed.rotate_left(K::TURN), number, on_trial)
            .map_err(|difference| K::told(seed, number, &difference))?;
        progress.tell(|| format!("{} of {total} {}", number + 1, seen.progress()));
    }
    println!("{total} {}, {:.1} s", seen.compared(), progress.seconds());
    for line in seen.details() {
        println!("  {line}");
    }
    let rare = seen.rare();
    if total >= MANY && !rare.is_empty() {
        return Err(format!("no trial of what hardly came up: {}", rare.join(", ")));
    }
    Ok(())
}

fn main() -> ExitCode {
    let options = match options(std::env::args().skip(1)) {
        Ok(options) => options,
        Err(message) => {
            eprintln!("{message}");
            return ExitCode::from(2);
        }
    };
    if !options.alone && !cfg!(feature = "against") {
        eprintln!("built without the feature `against`: only --self can run");
        return ExitCode::from(2);
    }
    println!("seed {}", options.seed);
    let mut kinds = options.kinds.iter().filter(|(_, numbers)| !numbers.is_empty());
    match kinds.try_for_each(|(kind, numbers)| (kind.run)(&options, numbers.clone())) {
        Ok(()) => ExitCode::SUCCESS,
        Err(difference) => {
            println!("{difference}");
            ExitCode::FAILURE
        }
    }
}

#[cfg(test)]
mod tests {
    use super::*;

    #[test]
    fn options_are_different() {
        let all = KINDS.iter().flat_map(|kind| [kind.plural, kind.singular]);
        let mut all: Vec<_> = all.chain(["self", "seed", "short"]).collect();
        all.sort_unstable();
        assert!(all.windows(2).all(|two| two[0] != two[1]), "{all:?}");
    }
}
