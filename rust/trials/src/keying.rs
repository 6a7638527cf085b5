//! Objects of many keys on trial: a reader is held against what the making of a
//! text tells and against `second`, by number, place and whole table.

use std::collections::{BTreeMap, HashMap};

use crate::check::{self, second_read, Answer, Reader};
use crate::keys::{keyed, Keyed};
use crate::kind::{listed, Kind};
use crate::random::Random;

/// An object of more keys than this counts as one of many.
pub const MANY: usize = 16;

/// What was compared, and what came up in it.
#[derive(Debug, Clone, Default, PartialEq, Eq)]
pub struct Seen {
    /// Texts.
    pub texts: u64,
    /// Words of tables.
    pub words: u64,
    /// Texts that were taken.
    pub taken: u64,
    /// Texts refused, by number.
    pub refused: BTreeMap<u32, u64>,
    /// Objects of which over [`MANY`] keys stand before the refusal, if any.
    pub objects: u64,
    /// Texts refused with 8 in such an object.
    pub in_many: u64,
    /// Texts refused with 8 where the two keys are spelled in two ways.
    pub otherwise: u64,
    /// Texts refused with 8 where another fault comes later.
    pub later: u64,
    /// Texts refused with 8 where the key has over 2,046 bytes of content.
    pub long: u64,
    /// Texts refused with another number where a doubled key comes later.
    pub behind: u64,
    /// The most keys in one object before the refusal.
    pub most: usize,
}

impl Seen {
    /// Texts refused with 8.
    pub fn doubled(&self) -> u64 {
        self.refused.get(&8).copied().unwrap_or(0)
    }

    fn count(&mut self, keyed: &Keyed, answer: Answer) {
        self.texts += 1;
        self.words += keyed.case.words as u64;
        let place = match answer {
            Ok(_) => {
                self.taken += 1;
                u64::MAX
            }
            Err((number, place)) => {
                *self.refused.entry(number).or_default() += 1;
                // 1 and 2 are told before any key is looked at.
                if number > 2 {
                    place
                } else {
                    0
                }
            }
        };
        let mut sizes = HashMap::new();
        for key in keyed.keys.iter().take_while(|key| key.start as u64 <= place) {
            *sizes.entry(key.object).or_insert(0) += 1;
        }
        self.objects += sizes.values().filter(|&&keys| keys > MANY).count() as u64;
        self.most = self.most.max(sizes.values().copied().max().unwrap_or(0));
        match (answer, keyed.doubled()) {
            (Err((8, _)), Some((first, second))) => {
                let text = &keyed.case.text;
                let alike = text[first.start..first.end] == text[second.start..second.end];
                self.in_many += u64::from(sizes[&second.object] > MANY);
                self.otherwise += u64::from(!alike);
                self.later += u64::from(keyed.other.is_some());
                self.long += u64::from(second.content.len() > 2_046);
            }
            (Err((3..=10, _)), doubled) => {
                self.behind += u64::from(doubled.is_some() || keyed.behind.is_some());
            }
            _ => {}
        }
    }
}

impl Kind for Seen {
    const PLURAL: &'static str = "keys";
    const SINGULAR: &'static str = "key";
    const USUAL: u64 = 20_000;
    const TURN: u32 = 56;

    type OnTrial = Reader;
    const SECOND: Reader = second_read;
    #[cfg(feature = "against")]
    const DUPER: Reader = crate::against::duper_read;

    fn trial(&mut self, turned: u64, number: u64, reader: Reader) -> Result<(), String> {
        trial(&mut Random::for_case(turned, number), reader, self)
    }

    fn progress(&self) -> String {
        "texts of many keys".to_string()
    }

    fn compared(&self) -> String {
        format!("texts of many keys, no difference in answers and {} words", self.words)
    }

    fn details(&self) -> Vec<String> {
        vec![
            format!(
                "objects of more than {MANY} keys: {}; the most in one object: {}",
                self.objects, self.most
            ),
            format!(
                "duplicates reported: {}, of which spelled otherwise than the first: {}, \
                 in an object of more than {MANY} keys: {}, of over 2,046 bytes: {}, \
                 with another fault later: {}",
                self.doubled(),
                self.otherwise,
                self.in_many,
                self.long,
                self.later
            ),
            format!(
                "taken: {}; refused by number {}; with a duplicate behind another fault: {}",
                self.taken,
                listed(&self.refused),
                self.behind
            ),
        ]
    }

    /// What came up in less than one text of 400.
    fn rare(&self) -> Vec<String> {
        let counts = [
            ("texts taken", self.taken),
            ("objects of many keys", self.objects),
            ("doubled keys in them", self.in_many),
            ("doubled keys spelled otherwise", self.otherwise),
            ("doubled keys with another fault later", self.later),
            ("doubled long keys", self.long),
            ("doubled keys behind another fault", self.behind),
        ];
        let numbers = [(3, "3"), (4, "4"), (5, "5"), (6, "6"), (7, "7"), (9, "9"), (10, "10")];
        let numbers = numbers.map(|(number, name)| (name, self.refused.get(&number).copied()));
        let numbers = numbers.map(|(name, count)| (name, count.unwrap_or(0)));
        let all = counts.into_iter().chain(numbers);
        let rare = all.filter(|(_, count)| count * 400 < self.texts);
        rare.map(|(what, _)| what.to_string()).collect()
    }
}

/// Makes one text and tries the reader on it; the error tells the difference, and
/// all that is needed to see it again.
pub fn trial(
    random: &mut Random,
    reader: impl Fn(&[u8], &mut [u32]) -> Answer,
    seen: &mut Seen,
) -> Result<(), String> {
    let keyed = keyed(random);
    match check::both(&keyed.case, reader) {
        Ok((answer, _)) => {
            seen.count(&keyed, answer);
            Ok(())
        }
        Err(what) => Err(format!(
            "table of {} words, text of {} bytes:\n{}\n{what}",
            keyed.case.words,
            keyed.case.text.len(),
            keyed.case.text.escape_ascii()
        )),
    }
}

#[cfg(test)]
mod tests {
    use super::*;

    /// What is known of the texts is what `second` reads, and all that is counted
    /// comes up.
    #[test]
    fn second_agrees_with_the_making() {
        let mut seen = Seen::default();
        for number in 0..6_000 {
            let random = &mut Random::for_case(31, number);
            if let Err(what) = trial(random, second_read, &mut seen) {
                panic!("text {number}: {what}");
            }
        }
        println!("{seen:?}");
        assert_eq!(seen.rare(), Vec::<&str>::new(), "{seen:?}");
        assert!(seen.most > 4_000, "{seen:?}");
        // Hardly any is too long to read.
        let unread = seen.refused.get(&1).copied().unwrap_or(0);
        assert!(unread * 100 < seen.texts, "{seen:?}");
    }
}
