//! Number tokens with an exponent, by document 02's request 02, and tokens near
//! them: "an optional sign and one or more digits, with a single underscore
//! allowed between digits, and leading zeros allowed". Each is put together
//! from its parts, so what it must be is known without reading it. Nothing here
//! depends on the reader under trial.

use crate::random::Random;

/// What a token must be.
#[derive(Debug, Clone, Copy, PartialEq, Eq)]
pub enum Meaning {
    /// A decimal, with words 9 to 11 of its node.
    Decimal([u32; 3]),
    /// Refused with this number, 3 or 5, at its start.
    Refused(u32),
}

/// A number token with an exponent.
#[derive(Debug, Clone, PartialEq, Eq)]
pub struct Token {
    /// The token, of at most 61,000 bytes.
    pub written: String,
    /// What it must be.
    pub meaning: Meaning,
}

/// A token before it is written.
struct Parts {
    sign: &'static str,
    /// The integer part, without its sign.
    whole: String,
    /// The point and the fraction digits, or nothing.
    fraction: String,
    letter: &'static str,
    exponent_sign: &'static str,
    /// The exponent's digits, with underscores between them.
    digits: String,
}

impl Parts {
    fn written(&self) -> String {
        let Parts { sign, whole, fraction, letter, exponent_sign, digits } = self;
        format!("{sign}{whole}{fraction}{letter}{exponent_sign}{digits}")
    }
}

/// How many tokens [`named`] has.
pub const NAMED: usize = 27;

/// The request's own numbers, and others at both sides of its sentences: "an
/// exponent of very many zeros must not trip 5". Decimals by m and p + 1000.
pub fn named() -> [Token; NAMED] {
    let zeros = "0".repeat(60_000);
    let nines = "9".repeat(60_000);
    let taken = |written: String, m: u32, power: u32| Token {
        written,
        meaning: Meaning::Decimal([m, 0, power]),
    };
    let refused =
        |written: String, number: u32| Token { written, meaning: Meaning::Refused(number) };
    [
        taken("1e06".into(), 1, 1006),
        refused("01e6".into(), 3),
        taken("1e0_6".into(), 1, 1006),
        taken("1e-00".into(), 1, 1000),
        taken("0e0".into(), 0, 1000),
        refused("1e_5".into(), 3),
        refused("1e5_".into(), 3),
        refused("1e5__0".into(), 3),
        refused("1e".into(), 3),
        refused("1e+".into(), 3),
        refused("1e+_1".into(), 3),
        // Zeros before other digits, and alone.
        taken(format!("1e{zeros}6"), 1, 1006),
        taken(format!("1e+{zeros}6"), 1, 1006),
        taken(format!("1e-{zeros}6"), 1, 994),
        taken(format!("1e{zeros}"), 1, 1000),
        taken(format!("1e-{zeros}"), 1, 1000),
        taken(format!("1e{zeros}400"), 1, 1400),
        refused(format!("1e{zeros}401"), 5),
        taken(format!("1.5e-{zeros}399"), 15, 600),
        refused(format!("1.5e-{zeros}400"), 5),
        refused(format!("1e{nines}"), 5),
        refused(format!("1e-{nines}"), 5),
        refused(format!("1e{zeros}_"), 3),
        // 3 goes before 5.
        refused(format!("1e{nines}x"), 3),
        refused(format!("1e{nines}_"), 3),
        refused(format!("1e{zeros}401_"), 3),
        refused(format!("01e{nines}"), 3),
    ]
}

/// Stands for every exponent that is farther from 0 than any limit.
const FAR: i64 = 1 << 40;

/// Makes a token: one in three malformed, about one in six with an exponent of
/// over 1,000 digits.
pub fn token(random: &mut Random) -> Token {
    let is_long = random.one_in(6);
    make(random, is_long)
}

/// Likewise, but nearly all with an exponent of over 1,000 digits.
pub fn long_token(random: &mut Random) -> Token {
    make(random, true)
}

fn make(random: &mut Random, is_long: bool) -> Token {
    let m = match random.below(24) {
        0 => i64::MAX as u64 + 1,
        1 | 2 => i64::MAX as u64,
        3..=6 => 0,
        7..=15 => 1 + random.below(9) as u64,
        _ => random.below(100_000) as u64,
    };
    let count = if random.one_in(2) { 0 } else { random.between(1, 4) };
    let all = format!("{m:0width$}", width = count + 1);
    let (whole, fraction) = all.split_at(all.len() - count);

    // Underscores between digits: none, at one place in so many, or everywhere.
    let often = [0, 0, 1, 2, 5][random.below(5)];
    let (digits, value) =
        if is_long { long(random, count, often > 0) } else { short(random, count) };
    let mut parts = Parts {
        sign: random.pick(&["", "", "+", "-"]),
        whole: whole.to_string(),
        fraction: if count > 0 { format!(".{fraction}") } else { String::new() },
        letter: random.pick(&["e", "E"]),
        exponent_sign: random.pick(&["", "+", "-"]),
        digits: grouped(random, &digits, often),
    };

    let meaning = if random.one_in(3) {
        spoil(random, &mut parts);
        Meaning::Refused(3)
    } else {
        let exponent = if parts.exponent_sign == "-" { -value } else { value };
        meaning(parts.sign == "-", m, exponent - count as i64)
    };
    Token { written: parts.written(), meaning }
}

/// "m over 9223372036854775807, or p outside -400..400, is refused with 5."
fn meaning(minus: bool, m: u64, p: i64) -> Meaning {
    if m > i64::MAX as u64 || !(-400..=400).contains(&p) {
        return Meaning::Refused(5);
    }
    let wide = m | u64::from(minus) << 63;
    Meaning::Decimal([wide as u32, (wide >> 32) as u32, (p + 1000) as u32])
}

/// An exponent's digits, mostly with some leading zeros, and its value, for a
/// number with so many fraction digits.
fn short(random: &mut Random, fraction: usize) -> (String, i64) {
    let zeros = match random.below(8) {
        0 | 1 => 0,
        2..=5 => 1,
        _ => random.between(2, 30),
    };
    let (digits, value) = significant(random, fraction);
    ("0".repeat(zeros) + &digits, value)
}

/// Over 1,000 digits, mostly tens of thousands, and half as many if there are
/// underscores between them.
fn long(random: &mut Random, fraction: usize, underscores: bool) -> (String, i64) {
    let length = match random.below(4) {
        0 => random.between(2_100, 10_000),
        _ => random.between(22_000, 60_000),
    };
    let length = if underscores { length / 2 } else { length };
    match random.below(8) {
        // Zeros alone.
        0 | 1 => ("0".repeat(length), 0),
        2 => ("9".repeat(length), FAR),
        // A multiple of 2^(length - 1), so 0 if it is kept in fewer bits.
        3 => ("1".to_string() + &"0".repeat(length - 1), FAR),
        4 => ("0".repeat(length / 2) + &"9".repeat(length - length / 2), FAR),
        _ => {
            let (digits, value) = significant(random, fraction);
            ("0".repeat(length) + &digits, value)
        }
    }
}

/// Digits without leading zeros, and their value.
fn significant(random: &mut Random, fraction: usize) -> (String, i64) {
    let value = match random.below(12) {
        0 | 1 => 0,
        // At both sides of the least and the greatest p.
        2..=5 => random.between(398 - fraction, 402 + fraction),
        6 => random.between(401, 99_999),
        7 => {
            // Small again, if it is kept in so many bits.
            let over = [8, 16, 31, 32, 63, 64][random.below(6)];
            let value = (1u128 << over) + random.below(20) as u128;
            return (value.to_string(), value.min(FAR as u128) as i64);
        }
        8 => return ("9".repeat(random.between(13, 60)), FAR),
        9 => return ("1".to_string() + &"0".repeat(random.between(13, 200)), FAR),
        _ => random.below(30),
    };
    (value.to_string(), value as i64)
}

/// Single underscores between digits, at one place in so many; 0 is nowhere.
fn grouped(random: &mut Random, digits: &str, often: usize) -> String {
    let mut written = String::with_capacity(2 * digits.len());
    for digit in digits.chars() {
        if often > 0 && !written.is_empty() && random.one_in(often) {
            written.push('_');
        }
        written.push(digit);
    }
    written
}

/// Makes the token malformed. In a long one the fault is mostly at the end.
fn spoil(random: &mut Random, parts: &mut Parts) {
    let digits = &mut parts.digits;
    let length = digits.len();
    let at_end = length > 1_000 && !random.one_in(4);
    // A place among the digits; `first`: the first place that will do.
    let mut place = |first: usize| if at_end { length } else { random.between(first, length) };
    let (any, inner) = (place(0), place(1));
    match random.below(12) {
        // Two underscores between digits, or three where one stands already.
        0 | 1 => {
            if inner == length {
                digits.push('0');
            }
            digits.insert_str(inner, "__");
        }
        2 => digits.insert(0, '_'),
        3 | 4 => digits.push('_'),
        // A sign or none, and no digits.
        5 => digits.clear(),
        6 => digits.insert_str(0, random.pick(&["+-", "-+", "--", "++"])),
        7 | 8 => digits.insert_str(any, random.pick(&["x", "a", "e", "E", "b0", "F"])),
        9 => digits.insert_str(any, random.pick(&[".", ".5"])),
        10 => digits.insert_str(inner, random.pick(&["+", "-", "-1"])),
        // "`[01e6]` stays refused".
        _ => parts.whole.insert(0, '0'),
    }
}

#[cfg(test)]
mod tests {
    use super::*;
    use crate::check::{both, reading, rubbish, second_read, Answer};
    use crate::texts::{self, Case, Known};

    #[test]
    fn tokens_follow_from_seed_and_number() {
        let made = |seed, number| token(&mut Random::for_case(seed, number));
        for number in 0..200 {
            assert_eq!(made(3, number), made(3, number));
        }
        assert!((0..200).any(|number| made(3, number) != made(4, number)));
    }

    #[test]
    fn tokens_are_what_they_must_be() {
        let made = (0..4_000).map(|number| token(&mut Random::for_case(18, number)));
        for Token { written, meaning } in made.chain(named()) {
            assert!(written.len() <= 61_000, "{} bytes", written.len());
            let mut table = [0; 24];
            let answer = second_read(format!("[{written}]").as_bytes(), &mut table);
            let read = match answer {
                Ok(2) if table[12] == 7 => Meaning::Decimal([table[21], table[22], table[23]]),
                Err((number, 1)) => Meaning::Refused(number),
                other => panic!("{other:?}, kind {}: {written}", table[12]),
            };
            assert_eq!(read, meaning, "{written}");
        }
    }

    /// The cases of a run that have one number with an exponent.
    fn cases() -> Vec<Case> {
        (0..20_000)
            .map(|number| texts::case(19, number))
            .filter(|case| case.sort == "exponent")
            .collect()
    }

    /// What a reader takes an exponent for, given its sign and what follows
    /// that; `None` if for what it is.
    type Otherwise = fn(&str, &str) -> Option<String>;

    /// Reads as `second` does, but a text in which the number stands otherwise,
    /// in as many bytes, so that all places stay. The number is the first run
    /// that opens with a digit or a sign.
    fn with_number(
        text: &[u8],
        table: &mut [u32],
        otherwise: impl Fn(&str) -> Option<String>,
    ) -> Answer {
        let opens = |&byte: &u8| byte.is_ascii_digit() || byte == b'+' || byte == b'-';
        let runs = |&byte: &u8| byte.is_ascii_alphanumeric() || b"_.+-".contains(&byte);
        let start = text.iter().position(opens).unwrap();
        let length = text[start..].iter().take_while(|byte| runs(byte)).count();
        let mut text = text.to_vec();
        let number = &mut text[start..start + length];
        if let Some(other) = otherwise(std::str::from_utf8(number).unwrap()) {
            number.copy_from_slice(other.as_bytes());
        }
        second_read(&text, table)
    }

    /// Likewise of the exponent alone.
    fn with_exponent(
        text: &[u8],
        table: &mut [u32],
        otherwise: impl Fn(&str, &str) -> Option<String>,
    ) -> Answer {
        with_number(text, table, |number| {
            let [front, sign, digits] = split(number)?;
            Some(front.to_string() + &otherwise(sign, digits)?)
        })
    }

    /// Likewise, if the exponent is well formed.
    fn with_good(text: &[u8], table: &mut [u32], otherwise: Otherwise) -> Answer {
        with_exponent(text, table, |sign, digits| {
            let good = digits.split('_').all(is_group);
            otherwise(sign, digits).filter(|_| good)
        })
    }

    /// All up to the letter, the exponent's sign, and what follows that.
    fn split(number: &str) -> Option<[&str; 3]> {
        let (front, exponent) = number.split_at(number.find(['e', 'E'])? + 1);
        let signed = exponent.starts_with(['+', '-']);
        let (sign, digits) = exponent.split_at(usize::from(signed));
        Some([front, sign, digits])
    }

    fn is_group(part: &str) -> bool {
        !part.is_empty() && part.bytes().all(|byte| byte.is_ascii_digit())
    }

    fn starts_with_zero(digits: &str) -> bool {
        digits.len() > 1 && digits.starts_with('0')
    }

    fn bare(digits: &str) -> String {
        digits.replace('_', "")
    }

    /// Their value; the greatest there is, if that is too wide.
    fn value(digits: &str) -> u64 {
        match bare(digits).trim_start_matches('0') {
            "" => 0,
            rest => rest.parse().unwrap_or(u64::MAX),
        }
    }

    /// What is left of their value in 64 bits.
    fn wrapped(digits: &str) -> u64 {
        let digits = digits.bytes().filter(u8::is_ascii_digit);
        digits.fold(0u64, |sum, digit| sum.wrapping_mul(10).wrapping_add(u64::from(digit - b'0')))
    }

    /// A sign and this value, in as many bytes as there were.
    fn padded(sign: &str, digits: &str, value: impl ToString) -> String {
        format!("{sign}{:0>width$}", value.to_string(), width = digits.len())
    }

    fn malformed(sign: &str, digits: &str) -> String {
        sign.to_string() + &"_".repeat(digits.len())
    }

    /// That needs at least three digits.
    fn too_wide(sign: &str, digits: &str) -> String {
        sign.to_string() + &"9".repeat(digits.len())
    }

    /// Too wide, if there are over so many digits.
    fn over(most: usize, sign: &str, digits: &str) -> Option<String> {
        (bare(digits).len() > most).then(|| too_wide(sign, digits))
    }

    /// What is left of the value in so many bits, up to 64.
    fn kept(bits: u32, sign: &str, digits: &str) -> Option<String> {
        Some(padded(sign, digits, wrapped(digits) & (u64::MAX >> (64 - bits))))
    }

    /// Ways to have a well formed exponent wrong.
    const GOOD: &[(&str, Otherwise)] = &[
        ("no leading zeros, as before the request", |sign, digits| {
            starts_with_zero(digits).then(|| malformed(sign, digits))
        }),
        ("one leading zero at the most", |sign, digits| {
            bare(digits).starts_with("00").then(|| malformed(sign, digits))
        }),
        ("no leading zeros behind a sign", |sign, digits| {
            (!sign.is_empty() && starts_with_zero(digits)).then(|| malformed(sign, digits))
        }),
        ("no leading zeros without a sign", |sign, digits| {
            (sign.is_empty() && starts_with_zero(digits)).then(|| malformed(sign, digits))
        }),
        ("zeros alone are no digits", |sign, digits| {
            (value(digits) == 0).then(|| malformed(sign, digits))
        }),
        ("-0 is refused", |sign, digits| {
            (sign == "-" && value(digits) == 0).then(|| malformed(sign, digits))
        }),
        ("a zero ends the exponent", |sign, digits| {
            starts_with_zero(digits).then(|| padded(sign, digits, 0))
        }),
        ("leading zeros make it octal", |sign, digits| {
            let octal = u64::from_str_radix(&bare(digits), 8).ok()?;
            starts_with_zero(digits).then(|| padded(sign, digits, octal))
        }),
        ("the sign is lost", |sign, digits| (sign == "-").then(|| format!("+{digits}"))),
        ("the sign is lost before a zero", |sign, digits| {
            (sign == "-" && starts_with_zero(digits)).then(|| format!("+{digits}"))
        }),
        ("over five digits written are too wide", |sign, digits| over(5, sign, digits)),
        ("over 19 digits written are too wide", |sign, digits| over(19, sign, digits)),
        ("over 10,000 digits written are too wide", |sign, digits| over(10_000, sign, digits)),
        ("over 32,767 digits written are too wide", |sign, digits| over(32_767, sign, digits)),
        ("digits behind 10,000 others are passed over", |sign, digits| {
            let bare = bare(digits);
            Some(padded(sign, digits, value(bare.get(..10_000)?)))
        }),
        ("the first nine digits count", |sign, digits| {
            let bare = bare(digits);
            Some(padded(sign, digits, value(bare.get(..9)?)))
        }),
        ("the last nine digits count", |sign, digits| {
            let bare = bare(digits);
            Some(padded(sign, digits, value(&bare[bare.len().checked_sub(9)?..])))
        }),
        ("it is kept in 8 bits", |sign, digits| kept(8, sign, digits)),
        ("it is kept in 16 bits", |sign, digits| kept(16, sign, digits)),
        ("it is kept in 32 bits", |sign, digits| kept(32, sign, digits)),
        ("it is kept in 64 bits", |sign, digits| kept(64, sign, digits)),
        ("it is at most 400", |sign, digits| Some(padded(sign, digits, value(digits).min(400)))),
        ("its own range is -400..400", |sign, digits| {
            (value(digits) > 400).then(|| too_wide(sign, digits))
        }),
        ("its digits are counted", |sign, digits| Some(padded(sign, digits, bare(digits).len()))),
        ("an underscore is a zero", |sign, digits| {
            Some(sign.to_string() + &digits.replace('_', "0"))
        }),
        ("no underscore behind a leading zero", |sign, digits| {
            digits.starts_with("0_").then(|| malformed(sign, digits))
        }),
        ("no underscores at all", |sign, digits| {
            digits.contains('_').then(|| malformed(sign, digits))
        }),
    ];

    /// Ways to have a malformed exponent wrong.
    const BAD: &[(&str, Otherwise)] = &[
        ("a doubled underscore is allowed", |sign, digits| {
            Some(padded(sign, digits, digits.replace("__", "_")))
        }),
        ("an underscore is allowed in front", |sign, digits| {
            Some(padded(sign, digits, digits.strip_prefix('_')?))
        }),
        ("an underscore is allowed at the end", |sign, digits| {
            Some(padded(sign, digits, digits.strip_suffix('_')?))
        }),
        ("a sign alone is 0", |sign, digits| {
            (!sign.is_empty() && digits.is_empty()).then(|| "0".to_string())
        }),
        ("a second sign is passed over", |sign, digits| {
            Some(padded(sign, digits, digits.strip_prefix(['+', '-'])?))
        }),
        ("a letter ends the exponent", |sign, digits| {
            let end = digits.find(|byte: char| byte.is_ascii_alphabetic())?;
            Some(padded(sign, digits, &digits[..end]))
        }),
        ("a point ends the exponent", |sign, digits| {
            Some(padded(sign, digits, &digits[..digits.find('.')?]))
        }),
        ("5 goes before 3", |sign, digits| {
            let end = digits.find(|byte: char| !byte.is_ascii_digit())?;
            (value(&digits[..end]) > 10_000).then(|| too_wide(sign, digits))
        }),
        ("5 goes before 3 at the end of a long run", |sign, digits| {
            let end = digits.find(|byte: char| !byte.is_ascii_digit())?;
            let wide = end > 10_000 && value(&digits[..end]) > 10_000;
            wide.then(|| too_wide(sign, digits))
        }),
    ];

    /// A wrong reader is seen by what `second` reads, where nothing is known of
    /// the token, and by what is known of it.
    fn is_seen(cases: &[Case], name: &str, reader: impl Fn(&[u8], &mut [u32]) -> Answer) {
        let differs = |case: &Case| {
            let unknown = Case { known: Known::Nothing, ..case.clone() };
            both(&unknown, &reader).is_err()
        };
        assert!(cases.iter().any(differs), "by what `second` reads: {name}");
        let known = |case: &Case| {
            let mut table = rubbish(case.words);
            let answer = reader(&case.text, &mut table);
            reading(case, answer, &table).is_err()
        };
        assert!(cases.iter().any(known), "by what is known: {name}");
    }

    /// Readers that have the rule on exponents wrong in one way each.
    #[test]
    fn differences_are_seen() {
        let cases = cases();
        assert!(cases.iter().all(|case| both(case, second_read).is_ok()));
        for (name, otherwise) in GOOD {
            is_seen(&cases, name, |text, table| with_good(text, table, *otherwise));
        }
        for (name, otherwise) in BAD {
            is_seen(&cases, name, |text, table| with_exponent(text, table, otherwise));
        }
        is_seen(&cases, "the integer part may have a leading zero", |text, table| {
            with_number(text, table, |number| {
                let zero = starts_with_zero(number) && number.as_bytes()[1].is_ascii_digit();
                zero.then(|| format!("+{}", &number[1..]))
            })
        });
    }
}
