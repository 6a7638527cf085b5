//! Number tokens, by string handling.

/// What a number token means.
#[derive(Debug, Clone, Copy, PartialEq, Eq)]
pub(crate) enum Number {
    /// Within "the range of a signed 64-bit integer".
    Integer(i64),
    /// "Its meaning is sign, whole number m of all its digits, and power of
    /// ten p = exponent minus count of fraction digits."
    Decimal {
        /// Whether a minus was written; "A minus on -0.0 is kept."
        minus: bool,
        /// m, at most 9223372036854775807.
        m: u64,
        /// p, from -400 to 400.
        p: i32,
    },
}

/// Refusal 3: malformed.
const MALFORMED: u32 = 3;
/// Refusal 5: number too wide.
const TOO_WIDE: u32 = 5;

/// "9223372036854775808 is refused with 5" unless a minus stands before it.
const MOST: u128 = i64::MAX as u128;
/// Past this every sum of digits has long been too wide, so it may stop there.
const CAP: u128 = 1 << 64;

/// Works out a whole number run, or answers 3 or 5.
///
/// The shape is judged to its end before any width is, as 3 goes before 5.
pub(crate) fn number(run: &str) -> Result<Number, u32> {
    if let Some(prefixed) = prefixed(run) {
        return prefixed;
    }
    let (front, exponent) = match run.bytes().position(|byte| matches!(byte, b'e' | b'E')) {
        Some(at) => (&run[..at], Some(&run[at + 1..])),
        None => (run, None),
    };
    let (whole, fraction) = match front.bytes().position(|byte| byte == b'.') {
        Some(at) => (&front[..at], Some(&front[at + 1..])),
        None => (front, None),
    };
    let (minus, whole) = decimal_integer(whole).ok_or(MALFORMED)?;
    if fraction.is_some_and(|digits| !grouped(digits, 10)) {
        return Err(MALFORMED);
    }
    // Document 02's request 02, over document 01's "written as a decimal
    // integer".
    let exponent = match exponent {
        Some(written) => Some(signed_digits(written).ok_or(MALFORMED)?),
        None => None,
    };
    if fraction.is_none() && exponent.is_none() {
        return integer(minus, amount(0, whole, 10));
    }

    let fraction = fraction.unwrap_or("");
    let m = amount(amount(0, whole, 10), fraction, 10);
    let fraction_digits = fraction.bytes().filter(|&byte| byte != b'_').count() as i128;
    let exponent = match exponent {
        Some((true, digits)) => -(amount(0, digits, 10) as i128),
        Some((false, digits)) => amount(0, digits, 10) as i128,
        None => 0,
    };
    let p = exponent - fraction_digits;
    if m > MOST || !(-400..=400).contains(&p) {
        return Err(TOO_WIDE);
    }
    Ok(Number::Decimal { minus, m: m as u64, p: p as i32 })
}

/// "`0x` `0o` `0b` in small letters, hex digits in either case: no sign,
/// leading zeros allowed, `_` only between digits."
fn prefixed(run: &str) -> Option<Result<Number, u32>> {
    let (digits, radix) = if let Some(digits) = run.strip_prefix("0x") {
        (digits, 16)
    } else if let Some(digits) = run.strip_prefix("0o") {
        (digits, 8)
    } else {
        (run.strip_prefix("0b")?, 2)
    };
    Some(if grouped(digits, radix) {
        integer(false, amount(0, digits, radix))
    } else {
        Err(MALFORMED)
    })
}

/// "-9223372036854775808 is taken, 9223372036854775808 is refused with 5; -0
/// is 0."
fn integer(minus: bool, amount: u128) -> Result<Number, u32> {
    let value = if minus { -(amount as i128) } else { amount as i128 };
    i64::try_from(value).map(Number::Integer).map_err(|_| TOO_WIDE)
}

/// "Decimal integer: optional sign, then one digit, or a nonzero digit
/// followed by more, a single `_` allowed between two digits." Gives the minus
/// and the digits.
fn decimal_integer(written: &str) -> Option<(bool, &str)> {
    signed_digits(written).filter(|(_, digits)| digits.len() == 1 || !digits.starts_with('0'))
}

/// "From now an exponent is an optional sign and one or more digits, with a
/// single underscore allowed between digits, and leading zeros allowed." Gives
/// the minus and the digits.
fn signed_digits(written: &str) -> Option<(bool, &str)> {
    let (minus, digits) = match written.strip_prefix('-') {
        Some(digits) => (true, digits),
        None => (false, written.strip_prefix('+').unwrap_or(written)),
    };
    grouped(digits, 10).then_some((minus, digits))
}

/// Whether this is one or more digits with single `_` only between digits.
fn grouped(digits: &str, radix: u32) -> bool {
    digits.as_bytes().split(|&byte| byte == b'_').all(|group| {
        !group.is_empty() && group.iter().all(|&digit| char::from(digit).is_digit(radix))
    })
}

/// Goes on from `so_far` with these digits, `_` passed over, stopping at
/// [`CAP`]. A value that reached it stays there: it is at least twice [`MOST`].
fn amount(so_far: u128, digits: &str, radix: u32) -> u128 {
    digits
        .bytes()
        .filter_map(|digit| char::from(digit).to_digit(radix))
        .fold(so_far, |sum, digit| (sum * u128::from(radix) + u128::from(digit)).min(CAP))
}
