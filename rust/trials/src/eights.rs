//! The UTF-8 check on trial, with its count of eights: it is held against
//! `second`'s, and both against what the runs of plain bytes tell.

use second::utf8::{self, Checked};
use second::MAX_TEXT;

use crate::bytes;
use crate::kind::Kind;

/// A check on trial: `second`'s, or the archive's.
pub type Check = fn(&[u8]) -> Checked;

/// What was compared, and what came up in it.
#[derive(Debug, Clone, Copy, Default, PartialEq, Eq)]
pub struct Seen {
    /// Cases.
    pub cases: u64,
    /// Their bytes.
    pub bytes: u64,
    /// Cases that aren't UTF-8 to their end.
    pub faulty: u64,
    /// How many of these have an eight before the fault.
    pub behind: u64,
    /// Cases of over 65,536 bytes.
    pub long: u64,
    /// Eights in all cases.
    pub eights: u64,
}

impl Seen {
    fn count(&mut self, bytes: &[u8], Checked { front, eights }: Checked) {
        let faulty = front < bytes.len();
        self.cases += 1;
        self.bytes += bytes.len() as u64;
        self.faulty += u64::from(faulty);
        self.behind += u64::from(faulty && eights > 0);
        self.long += u64::from(bytes.len() > MAX_TEXT);
        self.eights += eights as u64;
    }
}

impl Kind for Seen {
    const PLURAL: &'static str = "checks";
    const SINGULAR: &'static str = "check";
    const USUAL: u64 = 200_000;
    const TURN: u32 = 48;

    type OnTrial = Check;
    const SECOND: Check = utf8::check;
    #[cfg(feature = "against")]
    const DUPER: Check = crate::against::duper_utf8;

    fn trial(&mut self, turned: u64, number: u64, check: Check) -> Result<(), String> {
        trial(&bytes::case(turned, number), check, self)
    }

    fn progress(&self) -> String {
        format!("checks, {} bytes", self.bytes)
    }

    fn compared(&self) -> String {
        format!("UTF-8 checks of {} bytes, no difference", self.bytes)
    }

    fn details(&self) -> Vec<String> {
        vec![format!(
            "with a fault: {}, of which behind an eight: {}; of over 65,536 bytes: {}; eights: {}",
            self.faulty, self.behind, self.long, self.eights
        )]
    }
}

/// Tries the check on these bytes; the error tells the first difference, and
/// the bytes.
pub fn trial(bytes: &[u8], check: Check, seen: &mut Seen) -> Result<(), String> {
    let expected = utf8::check(bytes);
    alike(expected, check(bytes))
        .and_then(|()| alike(by_runs(bytes), expected).map_err(|what| format!("second: {what}")))
        .map_err(|what| format!("{} bytes:\n{}\n{what}", bytes.len(), bytes.escape_ascii()))?;
    seen.count(bytes, expected);
    Ok(())
}

/// Compares both numbers.
fn alike(expected: Checked, answered: Checked) -> Result<(), String> {
    if answered.front != expected.front {
        return Err(format!("front: expected {}, answered {}", expected.front, answered.front));
    }
    if answered.eights != expected.eights {
        return Err(format!("eights: expected {}, answered {}", expected.eights, answered.eights));
    }
    Ok(())
}

/// Both numbers worked out another way. The front is that of Rust's own check.
/// Before each run of plain bytes in it stands a character that is none of
/// them, or nothing; so the check comes to stand at the run's start, and passes
/// over as many eights as fit into the run.
fn by_runs(bytes: &[u8]) -> Checked {
    let front = match std::str::from_utf8(bytes) {
        Ok(_) => bytes.len(),
        Err(error) => error.valid_up_to(),
    };
    let runs = bytes[..front].split(|&byte| byte >= 0x80);
    Checked { front, eights: runs.map(|run| run.len() / 8).sum() }
}

#[cfg(test)]
mod tests {
    use super::*;

    #[test]
    fn second_counts_as_the_runs_tell() {
        let mut seen = Seen::default();
        for number in 0..8_000 {
            if let Err(what) = trial(&bytes::case(16, number), utf8::check, &mut seen) {
                panic!("check {number}: {what}");
            }
        }
        println!("{seen:#?}");
        let Seen { cases, bytes: _, faulty, behind, long, eights } = seen;
        assert_eq!(cases, 8_000);
        assert!(faulty > 2_000 && cases - faulty > 2_000, "{seen:?}");
        assert!(behind > 1_000 && long > 0 && eights > 8_000, "{seen:?}");
    }

    fn is_plain(byte: u8) -> bool {
        byte < 0x80
    }

    /// The front as it should be, with a count of the bytes in it.
    fn counted(bytes: &[u8], count: fn(&[u8]) -> usize) -> Checked {
        let Checked { front, .. } = utf8::check(bytes);
        Checked { front, eights: count(&bytes[..front]) }
    }

    /// The sum of what each run of such bytes counts for.
    fn summed(bytes: &[u8], plain: fn(u8) -> bool, eights: fn(usize) -> usize) -> usize {
        bytes.split(|&byte| !plain(byte)).map(|run| eights(run.len())).sum()
    }

    /// How many plain bytes these end with.
    fn last_run(bytes: &[u8]) -> usize {
        bytes.iter().rev().take_while(|&&byte| is_plain(byte)).count()
    }

    /// The check's own walk, but with another say on what eight bytes are an
    /// eight; it is given all that follow, which are eight or more.
    fn walk(bytes: &[u8], is_eight: fn(&[u8]) -> bool) -> Checked {
        let mut checked = Checked { front: 0, eights: 0 };
        loop {
            let rest = &bytes[checked.front..];
            let is_character = |length: &usize| {
                rest.get(..*length).is_some_and(|part| std::str::from_utf8(part).is_ok())
            };
            if rest.len() >= 8 && is_eight(rest) {
                checked.front += 8;
                checked.eights += 1;
            } else if let Some(length) = (1..=4).find(is_character) {
                checked.front += length;
            } else {
                return checked;
            }
        }
    }

    /// A check that takes one character too many: so many bytes, of which the
    /// first is this, the second one of these, and all but the first are later
    /// bytes.
    fn lenient(
        bytes: &[u8],
        length: usize,
        first: u8,
        second: std::ops::RangeInclusive<u8>,
    ) -> Checked {
        let mut checked = utf8::check(bytes);
        while let Some([lead, later @ ..]) = bytes[checked.front..].get(..length) {
            let all_later = later.iter().all(|byte| (0x80..=0xBF).contains(byte));
            if *lead != first || !all_later || !second.contains(&later[0]) {
                break;
            }
            let next = utf8::check(&bytes[checked.front + length..]);
            checked.front += length + next.front;
            checked.eights += next.eights;
        }
        checked
    }

    /// Checks that go wrong in one way each, and which number then shows it.
    #[test]
    fn differences_are_seen() {
        let checks: &[(&str, &str, Check)] = &[
            ("eights at multiples of eight only", "eights:", |bytes| {
                counted(bytes, |front| {
                    front.chunks_exact(8).filter(|eight| eight.is_ascii()).count()
                })
            }),
            ("every eight that there is", "eights:", |bytes| {
                counted(bytes, |front| front.windows(8).filter(|eight| eight.is_ascii()).count())
            }),
            ("an eighth of the front", "eights:", |bytes| counted(bytes, |front| front.len() / 8)),
            ("an eighth of its plain bytes", "eights:", |bytes| {
                counted(bytes, |front| front.iter().filter(|&&byte| is_plain(byte)).count() / 8)
            }),
            ("nine plain bytes asked", "eights:", |bytes| {
                walk(bytes, |rest| rest.len() > 8 && rest[..9].is_ascii())
            }),
            ("nine plain bytes asked unless the end is there", "eights:", |bytes| {
                walk(bytes, |rest| rest.iter().take(9).all(|&byte| is_plain(byte)))
            }),
            ("the first byte isn't looked at", "front:", |bytes| {
                walk(bytes, |rest| rest[1..8].is_ascii())
            }),
            ("the last byte isn't looked at", "front:", |bytes| {
                walk(bytes, |rest| rest[..7].is_ascii())
            }),
            ("seven plain bytes are enough", "eights:", |bytes| {
                counted(bytes, |front| summed(front, is_plain, |run| run / 7))
            }),
            ("seven bytes are enough at the end", "eights:", |bytes| {
                let mut checked = utf8::check(bytes);
                let at_end = checked.front == bytes.len();
                checked.eights += usize::from(at_end && last_run(bytes) % 8 == 7);
                checked
            }),
            ("the last eight of the bytes isn't seen", "eights:", |bytes| {
                let mut checked = utf8::check(bytes);
                let run = last_run(bytes);
                let at_end = checked.front == bytes.len();
                checked.eights -= usize::from(at_end && run > 0 && run % 8 == 0);
                checked
            }),
            ("the eight right before a fault isn't counted", "eights:", |bytes| {
                let mut checked = utf8::check(bytes);
                let run = last_run(&bytes[..checked.front]);
                let at_fault = checked.front < bytes.len();
                checked.eights -= usize::from(at_fault && run > 0 && run % 8 == 0);
                checked
            }),
            ("eights past a fault", "eights:", |bytes| {
                let eights = summed(bytes, is_plain, |run| run / 8);
                Checked { eights, ..utf8::check(bytes) }
            }),
            ("eights up to the first other character", "eights:", |bytes| {
                counted(bytes, |front| {
                    front.split(|&byte| !is_plain(byte)).take(1).map(|run| run.len() / 8).sum()
                })
            }),
            ("one too many", "eights:", |bytes| {
                let Checked { front, eights } = utf8::check(bytes);
                Checked { front, eights: eights + 1 }
            }),
            ("one too many at a fault", "eights:", |bytes| {
                let Checked { front, eights } = utf8::check(bytes);
                Checked { front, eights: eights + usize::from(front < bytes.len()) }
            }),
            ("no eights at a fault", "eights:", |bytes| {
                let Checked { front, eights } = utf8::check(bytes);
                Checked { front, eights: if front < bytes.len() { 0 } else { eights } }
            }),
            ("the count in one byte", "eights:", |bytes| {
                let Checked { front, eights } = utf8::check(bytes);
                Checked { front, eights: eights % 256 }
            }),
            ("7F isn't plain", "eights:", |bytes| {
                counted(bytes, |front| summed(front, |byte| byte < 0x7F, |run| run / 8))
            }),
            ("00 isn't plain", "eights:", |bytes| {
                counted(bytes, |front| {
                    summed(front, |byte| is_plain(byte) && byte > 0, |run| run / 8)
                })
            }),
            ("80 is plain", "front:", |bytes| {
                walk(bytes, |rest| rest[..8].iter().all(|&byte| byte <= 0x80))
            }),
            ("the front runs up to the byte at fault", "front:", |bytes| {
                let Checked { front, eights } = utf8::check(bytes);
                // Up to here no more bytes could make it a character.
                let hopeless = |&at: &usize| {
                    let part = std::str::from_utf8(&bytes[front..=at]);
                    part.is_err_and(|error| error.error_len().is_some())
                };
                let at_fault = (front..bytes.len()).find(hopeless);
                Checked { front: at_fault.unwrap_or(front), eights }
            }),
            ("a character that is cut off is in the front", "front:", |bytes| {
                match std::str::from_utf8(bytes) {
                    Err(error) if error.error_len().is_none() => {
                        Checked { front: bytes.len(), ..utf8::check(bytes) }
                    }
                    _ => utf8::check(bytes),
                }
            }),
            ("surrogates", "front:", |bytes| lenient(bytes, 3, 0xED, 0xA0..=0xBF)),
            ("U+0000 in two bytes", "front:", |bytes| lenient(bytes, 2, 0xC0, 0x80..=0x80)),
            ("overlong forms of two bytes", "front:", |bytes| lenient(bytes, 2, 0xC1, 0x80..=0xBF)),
            ("overlong forms of three bytes", "front:", |bytes| {
                lenient(bytes, 3, 0xE0, 0x80..=0x9F)
            }),
            ("overlong forms of four bytes", "front:", |bytes| {
                lenient(bytes, 4, 0xF0, 0x80..=0x8F)
            }),
            ("U+110000", "front:", |bytes| lenient(bytes, 4, 0xF4, 0x90..=0x90)),
            ("F5 leads", "front:", |bytes| lenient(bytes, 4, 0xF5, 0x80..=0xBF)),
            ("F8 leads", "front:", |bytes| lenient(bytes, 5, 0xF8, 0x80..=0xBF)),
            ("no more than 65,536 bytes", "front:", |bytes| {
                utf8::check(&bytes[..bytes.len().min(MAX_TEXT)])
            }),
            ("nothing of over 65,536 bytes", "front:", |bytes| {
                utf8::check(if bytes.len() > MAX_TEXT { &[] } else { bytes })
            }),
        ];
        for (name, sign, check) in checks {
            let found = (0..8_000).any(|number| {
                let outcome = trial(&bytes::case(17, number), *check, &mut Seen::default());
                outcome.is_err_and(|what| {
                    what.lines().last().is_some_and(|line| line.starts_with(sign))
                })
            });
            assert!(found, "{name}");
        }
    }
}
