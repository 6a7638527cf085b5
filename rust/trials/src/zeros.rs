//! Which numbers with leading zeros in the exponent a run has compared, and
//! what they were. "an exponent of very many zeros must not trip 5": a run
//! without any would show nothing of that.

use second::ROW;

use crate::check::Answer;

/// How many numbers were taken, refused with 5, and refused with 3.
#[derive(Debug, Clone, Copy, Default, PartialEq, Eq)]
pub struct Outcomes {
    /// Taken.
    pub taken: u64,
    /// Refused with 5.
    pub too_wide: u64,
    /// Refused with 3.
    pub malformed: u64,
}

impl Outcomes {
    /// All of them.
    pub fn all(&self) -> u64 {
        self.taken + self.too_wide + self.malformed
    }

    fn add(&mut self, outcome: Outcome) {
        match outcome {
            Outcome::Taken => self.taken += 1,
            Outcome::TooWide => self.too_wide += 1,
            Outcome::Malformed => self.malformed += 1,
        }
    }
}

#[derive(Debug, Clone, Copy, PartialEq, Eq)]
enum Outcome {
    Taken,
    TooWide,
    Malformed,
}

/// Numbers that were compared. Of a taken text these are its decimals without
/// an identifier; of a refused one it is the number that was refused.
#[derive(Debug, Clone, Copy, Default, PartialEq, Eq)]
pub struct Seen {
    /// Those with leading zeros in the exponent.
    pub leading: Outcomes,
    /// Those with over 1,000 of them.
    pub thousand: Outcomes,
    /// Those with over 10,000 of them.
    pub ten_thousand: Outcomes,
    /// Those with over 10,000 bytes in the exponent and no leading zero.
    pub long: Outcomes,
    /// Taken ones with leading zeros, by the exponent's sign: none, plus, minus.
    pub signs: [u64; 3],
    /// Taken ones with leading zeros and an underscore in the exponent.
    pub grouped: u64,
}

impl Seen {
    /// Counts what stands in a text, by the answer to its reading and the table.
    pub fn count(&mut self, text: &[u8], answer: Answer, table: &[u32]) {
        match answer {
            Ok(nodes) => {
                let rows = table.chunks_exact(ROW).take(nodes);
                for row in rows.filter(|row| row[0] == 7 && row[7] == 0) {
                    self.add(&text[row[2] as usize..row[3] as usize], Outcome::Taken);
                }
            }
            Err((3, place)) => self.add(run(text, place), Outcome::Malformed),
            Err((5, place)) => self.add(run(text, place), Outcome::TooWide),
            Err(_) => {}
        }
    }

    fn add(&mut self, number: &[u8], outcome: Outcome) {
        let Some(exponent) = exponent(number) else { return };
        let zeros = leading(exponent);
        if zeros > 0 {
            self.leading.add(outcome);
        } else if exponent.len() > 10_000 {
            self.long.add(outcome);
        }
        if zeros > 1_000 {
            self.thousand.add(outcome);
        }
        if zeros > 10_000 {
            self.ten_thousand.add(outcome);
        }
        if zeros > 0 && outcome == Outcome::Taken {
            let sign = match exponent[0] {
                b'+' => 1,
                b'-' => 2,
                _ => 0,
            };
            self.signs[sign] += 1;
            self.grouped += u64::from(exponent.contains(&b'_'));
        }
    }

    /// What came up, line by line.
    pub fn details(&self) -> Vec<String> {
        let counts = [
            ("with leading zeros", self.leading),
            ("with over 1,000 leading zeros", self.thousand),
            ("with over 10,000 leading zeros", self.ten_thousand),
            ("of over 10,000 bytes without leading zeros", self.long),
        ];
        let line = |(what, outcomes): (&str, Outcomes)| {
            let Outcomes { taken, too_wide, malformed } = outcomes;
            let all = outcomes.all();
            format!(
                "exponents {what}: {all}; taken {taken}, refused with 5: {too_wide}, \
                 with 3: {malformed}"
            )
        };
        let mut lines: Vec<_> = counts.into_iter().map(line).collect();
        let [none, plus, minus] = self.signs;
        lines.push(format!(
            "of those taken with leading zeros: no sign {none}, plus {plus}, minus {minus}; \
             with underscores {}",
            self.grouped
        ));
        lines
    }
}

/// "A number opens with a digit, `+` or `-`, and runs over letters, digits,
/// `_ . + -`." The run at this place; empty if none opens there.
fn run(text: &[u8], place: u64) -> &[u8] {
    let rest = &text[place as usize..];
    if !matches!(rest.first(), Some(b'0'..=b'9' | b'+' | b'-')) {
        return &[];
    }
    let end = rest.iter().position(|&byte| !is_in_number(byte));
    &rest[..end.unwrap_or(rest.len())]
}

fn is_in_number(byte: u8) -> bool {
    byte.is_ascii_alphanumeric() || matches!(byte, b'_' | b'.' | b'+' | b'-')
}

/// What stands behind the first `e` or `E` of a run, if it isn't a hex, octal
/// or binary number.
fn exponent(number: &[u8]) -> Option<&[u8]> {
    if let [b'0', b'x' | b'o' | b'b', ..] = number {
        return None;
    }
    let letter = number.iter().position(|byte| matches!(byte, b'e' | b'E'))?;
    Some(&number[letter + 1..])
}

/// How many zeros an exponent has before a further digit, or before whatever
/// makes it malformed. The last of zeros alone isn't counted.
fn leading(exponent: &[u8]) -> usize {
    let digits = match exponent {
        [b'+' | b'-', digits @ ..] => digits,
        digits => digits,
    };
    let front = digits.iter().take_while(|byte| matches!(byte, b'0' | b'_'));
    let length = front.clone().count();
    let zeros = front.filter(|&&byte| byte == b'0').count();
    zeros.saturating_sub(usize::from(length == digits.len()))
}

/// How many leading zeros these bytes have in the exponent, if they are one
/// number run from the first to the last; else none.
pub fn in_exponent(bytes: &[u8]) -> usize {
    let number = run(bytes, 0);
    if number.len() < bytes.len() {
        return 0;
    }
    exponent(number).map_or(0, leading)
}

#[cfg(test)]
mod tests {
    use super::*;
    use crate::check::second_alone;
    use crate::random::Random;
    use crate::texts;

    #[test]
    fn zeros_that_lead() {
        for (written, zeros) in [
            ("", 0),
            ("0", 0),
            ("6", 0),
            ("60", 0),
            ("00", 1),
            ("06", 1),
            ("+06", 1),
            ("-006", 2),
            ("-0_0", 1),
            ("0_6", 1),
            ("0_0_6", 2),
            ("0x1", 1),
            ("0__6", 1),
            ("0_", 0),
            ("+", 0),
        ] {
            assert_eq!(leading(written.as_bytes()), zeros, "{written}");
        }
        for (number, zeros) in
            [("1e06", 1), ("01E+00", 1), ("-1.5e-0_06", 2), ("1e0x1", 1), ("1e0006", 3)]
        {
            assert_eq!(in_exponent(number.as_bytes()), zeros, "{number}");
        }
        for number in ["", "1e6", "1e0", "0x1e06", "06", "e06", "[1e06]", "1e06 ", "A(1e06)"] {
            assert_eq!(in_exponent(number.as_bytes()), 0, "{number}");
        }
    }

    /// A modest number of texts has every kind of number that is counted.
    #[test]
    fn every_kind_comes_up() {
        let mut seen = Seen::default();
        for number in 0..10_000 {
            let case = texts::case(20, number);
            let random = &mut Random::for_case(21, number);
            if let Err(what) = second_alone(&case, random, &mut seen) {
                panic!("case {number} ({}): {what}\n{}", case.sort, case.text.escape_ascii());
            }
        }
        println!("{seen:#?}");
        for Outcomes { taken, too_wide, malformed } in
            [seen.leading, seen.thousand, seen.ten_thousand]
        {
            assert!(taken > 5 && too_wide > 5 && malformed > 5, "{seen:?}");
        }
        assert!(seen.long.too_wide > 2 && seen.long.malformed > 2, "{seen:?}");
        assert_eq!(seen.long.taken, 0);
        assert!(seen.signs.iter().all(|&count| count > 50) && seen.grouped > 50, "{seen:?}");
    }
}
