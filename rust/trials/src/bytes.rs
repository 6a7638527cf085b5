//! Any bytes, for the UTF-8 check: plain ones in runs of about a multiple of
//! eight, characters of every length, and faults of every kind. Nothing here
//! depends on the check under trial.

use crate::random::Random;

/// Makes a case from a run's seed and its number. The first 1,300 are the same
/// in every run.
pub fn case(seed: u64, number: u64) -> Vec<u8> {
    fixed(number).unwrap_or_else(|| any(&mut Random::for_case(seed, number)))
}

/// What stands among plain bytes in the fixed cases: a lone later byte, a
/// character, one without its later bytes, and a byte that no character has.
const AMONG: [&[u8]; 4] = [b"\x80", b"\xC3\xA9", b"\xE2", b"\xFF"];

/// Each of these at every place among 0 to 24 plain bytes, by number.
fn fixed(number: u64) -> Option<Vec<u8>> {
    let number = usize::try_from(number).ok()?;
    let mut places = (0..=24).flat_map(|plain| (0..=plain).map(move |place| (plain, place)));
    let (plain, place) = places.nth(number / AMONG.len())?;
    let mut bytes: Vec<u8> = (0..plain).map(|at| [b'a', 0x7F, 0x00][at % 3]).collect();
    bytes.splice(place..place, AMONG[number % AMONG.len()].iter().copied());
    Some(bytes)
}

/// Runs, characters and faults up to some length.
fn any(random: &mut Random) -> Vec<u8> {
    let length = match random.below(1_000) {
        0 => random.between(65_530, 65_560),
        1 => random.between(65_537, 70_000),
        2..=29 => random.below(4_000),
        _ => random.below(41),
    };
    // One part in so many is faulty, or none is. Behind a fault nothing counts,
    // so long cases need few.
    let faulty = [None, None, Some(3), Some(10), Some(1_000)][random.below(5)];
    let mut bytes = Vec::with_capacity(length + 32);
    while bytes.len() < length {
        if faulty.is_some_and(|times| random.one_in(times)) {
            bytes.extend(fault(random));
        } else if random.one_in(2) {
            bytes.extend(plain(random));
        } else {
            bytes.extend(character(random));
        }
    }
    // This may cut off a character.
    bytes.truncate(length);
    bytes
}

/// A run of plain bytes, mostly of about a multiple of eight.
fn plain(random: &mut Random) -> Vec<u8> {
    let length = match random.below(4) {
        0 => random.below(20),
        _ => (8 * random.below(5) + random.below(3)).saturating_sub(1),
    };
    let byte = |_| match random.below(8) {
        0 => 0x00,
        1 => 0x7F,
        _ => random.below(0x80) as u8,
    };
    (0..length).map(byte).collect()
}

/// The first and the last characters of each row of RFC 3629's grammar, and
/// some others.
const CHARACTERS: &[&str] = &[
    "\u{80}",
    "é",
    "\u{7FF}",
    "\u{800}",
    "\u{FFF}",
    "\u{1000}",
    "€",
    "\u{CFFF}",
    "\u{D000}",
    "\u{D7FF}",
    "\u{E000}",
    "\u{FEFF}",
    "\u{FFFF}",
    "\u{10000}",
    "😀",
    "\u{3FFFF}",
    "\u{40000}",
    "\u{FFFFF}",
    "\u{100000}",
    "\u{10FFFF}",
];

/// A character of two, three or four bytes, by its number or from the list.
fn character(random: &mut Random) -> Vec<u8> {
    let number = match random.below(4) {
        0 => Some(random.between(0x80, 0x7FF)),
        1 => Some(random.between(0x800, 0xFFFF)),
        2 => Some(random.between(0x1_0000, 0x10_FFFF)),
        _ => None,
    };
    // A surrogate is no character: then one from the list too.
    match number.and_then(|number| char::from_u32(number as u32)) {
        Some(character) => character.to_string().into_bytes(),
        None => random.pick(CHARACTERS).as_bytes().to_vec(),
    }
}

/// The bytes at both sides of each bound of RFC 3629's grammar.
const BOUNDS: [u8; 25] = [
    0x00, 0x7F, 0x80, 0x8F, 0x90, 0x9F, 0xA0, 0xBF, 0xC0, 0xC1, 0xC2, 0xDF, 0xE0, 0xE1, 0xEC, 0xED,
    0xEE, 0xEF, 0xF0, 0xF1, 0xF3, 0xF4, 0xF5, 0xF8, 0xFF,
];

/// What would be characters if the rows of the grammar went further: overlong
/// forms, surrogates, and all above U+10FFFF.
const BEYOND: &[&[u8]] = &[
    b"\xC0\x80",
    b"\xC1\xBF",
    b"\xE0\x80\x80",
    b"\xE0\x9F\xBF",
    b"\xED\xA0\x80",
    b"\xED\xBF\xBF",
    b"\xF0\x80\x80\x80",
    b"\xF0\x8F\xBF\xBF",
    b"\xF4\x90\x80\x80",
    b"\xF5\x80\x80\x80",
    b"\xF7\xBF\xBF\xBF",
    b"\xF8\x88\x80\x80\x80",
    b"\xFD\xBF\xBF\xBF\xBF\xBF",
];

/// Bytes that are mostly no character.
fn fault(random: &mut Random) -> Vec<u8> {
    let bound = |random: &mut Random| BOUNDS[random.below(BOUNDS.len())];
    match random.below(7) {
        // A lone later byte.
        0 => vec![random.between(0x80, 0xBF) as u8],
        // A character that is cut off.
        1 => {
            let mut bytes = character(random);
            bytes.truncate(random.between(1, bytes.len() - 1));
            bytes
        }
        2 => random.pick(BEYOND).to_vec(),
        // A character with another byte in the place of one.
        3 | 4 => {
            let mut bytes = character(random);
            let place = random.below(bytes.len());
            bytes[place] = bound(random);
            bytes
        }
        5 => (0..random.between(1, 4)).map(|_| bound(random)).collect(),
        _ => (0..random.between(1, 4)).map(|_| random.next() as u8).collect(),
    }
}

#[cfg(test)]
mod tests {
    use super::*;
    use std::collections::HashSet;

    #[test]
    fn cases_follow_from_seed_and_number() {
        for number in 0..3_000 {
            assert_eq!(case(3, number), case(3, number));
        }
        assert!((1_300..1_400).any(|number| case(3, number) != case(4, number)));
    }

    #[test]
    fn the_fixed_cases() {
        // 0 to 24 plain bytes have 1 to 25 places, 325 in all, for four each.
        let cases: Vec<Vec<u8>> = (0..1_300).map(|number| fixed(number).unwrap()).collect();
        assert_eq!(fixed(1_300), None);
        assert_eq!(cases.iter().collect::<HashSet<_>>().len(), 1_300);
        assert_eq!(cases[0], b"\x80");
        assert_eq!(cases[5], b"\xC3\xA9a");
        assert_eq!(cases[9], b"a\xC3\xA9");
        assert!(cases.iter().all(|bytes| (1..=26).contains(&bytes.len())));
        for among in AMONG {
            let whole = [b"a\x7F\0".repeat(8), among.to_vec()].concat();
            assert!(cases.contains(&whole));
        }
    }
}
