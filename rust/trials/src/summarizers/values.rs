//! Wrong about what a value says of the height.

use second::ROW;

use super::{says, Says};
use crate::finders::View;
use crate::heights::{parts, Height, MOST};

/// What a number says by its sign, digits and power of ten.
fn number(view: &View, node: usize, by: impl Fn(bool, u64, i64) -> Height) -> Height {
    match parts(view.rows[node].try_into().unwrap()) {
        Some((minus, digits, power)) => by(minus, digits, power),
        None => says(view, node),
    }
}

/// Unfit, if this holds of its sign, digits and power of ten.
fn unfit_if(view: &View, node: usize, is_it: impl Fn(bool, u64, i64) -> bool) -> Height {
    number(view, node, |minus, digits, power| match is_it(minus, digits, power) {
        true => Height::Unfit,
        false => says(view, node),
    })
}

/// Values of this kind say this.
fn kind(view: &View, node: usize, kind: u32, height: Height) -> Height {
    if view.rows[node][0] == kind {
        height
    } else {
        says(view, node)
    }
}

/// Unfit, if it is in no identifier and this holds of its bytes.
fn unfit_as_written(view: &View, node: usize, is_it: impl Fn(&[u8]) -> bool) -> Height {
    let row = view.rows[node];
    let written = &view.text[row[2] as usize..row[3] as usize];
    if is_it(written) && view.name(node).is_empty() {
        Height::Unfit
    } else {
        says(view, node)
    }
}

/// Micrometres that are kept in so many bits.
fn kept(view: &View, node: usize, bits: u32) -> Height {
    number(view, node, |minus, digits, power| {
        let ten = |sum: u128, _| sum * 10 % (1u128 << bits);
        let amount = match power + 3 {
            power @ 0.. => (0..power).fold(u128::from(digits), ten) % (1u128 << bits),
            _ => return says(view, node),
        };
        match amount {
            amount if amount <= u128::from(MOST) && !minus => Height::Measured(amount as u64),
            _ => Height::Unfit,
        }
    })
}

/// The float of these digits, in micrometres.
fn as_float(digits: u64, power: i64) -> f64 {
    digits as f64 * 10f64.powi(power as i32 + 3)
}

pub(super) const VALUES: &[(&str, Says)] = &[
    ("null is 0", |view, node| kind(view, node, 10, Height::Measured(0))),
    ("null is unfit", |view, node| kind(view, node, 10, Height::Unfit)),
    ("null is absent", |view, node| kind(view, node, 10, Height::Absent)),
    ("integers are unfit", |view, node| kind(view, node, 6, Height::Unfit)),
    ("decimals are unfit", |view, node| kind(view, node, 7, Height::Unfit)),
    ("a text is absent", |view, node| kind(view, node, 4, Height::Absent)),
    ("bytes are absent", |view, node| kind(view, node, 5, Height::Absent)),
    ("false is 0", |view, node| kind(view, node, 8, Height::Measured(0))),
    ("false is null", |view, node| kind(view, node, 8, Height::Null)),
    ("true is 1", |view, node| kind(view, node, 9, Height::Measured(1_000))),
    ("an object is absent", |view, node| kind(view, node, 1, Height::Absent)),
    ("an array is null", |view, node| kind(view, node, 2, Height::Null)),
    ("a tuple is 0", |view, node| kind(view, node, 3, Height::Measured(0))),
    ("an array's only element is the height", |view, node| {
        match (view.rows[node][0], view.children(node)[..].first()) {
            (2, Some(&only)) if view.rows[node][9] == 1 => says(view, only),
            _ => says(view, node),
        }
    }),
    ("a value in an identifier is unfit", |view, node| match says(view, node) {
        Height::Measured(_) if !view.name(node).is_empty() => Height::Unfit,
        height => height,
    }),
    ("null in an identifier is unfit", |view, node| match says(view, node) {
        Height::Null if !view.name(node).is_empty() => Height::Unfit,
        height => height,
    }),
    ("integers are micrometres", |view, node| match (view.rows[node][0], says(view, node)) {
        (6, Height::Measured(amount)) => Height::Measured(amount / 1_000),
        (_, height) => height,
    }),
    ("all are micrometres", |view, node| {
        number(view, node, |minus, digits, power| match power {
            0 if !minus && digits <= MOST => Height::Measured(digits),
            _ if digits == 0 => Height::Measured(0),
            _ => Height::Unfit,
        })
    }),
    ("integers up to 10,000,000", |view, node| {
        number(view, node, |minus, digits, power| match digits {
            ..=MOST if power == 0 && !minus => Height::Measured(digits * 1_000),
            _ => says(view, node),
        })
    }),
    ("-0.0 is unfit", |view, node| unfit_if(view, node, |minus, digits, _| minus && digits == 0)),
    ("a minus is unfit", |view, node| unfit_if(view, node, |minus, _, _| minus)),
    ("0 is unfit", |view, node| match says(view, node) {
        Height::Measured(0) => Height::Unfit,
        height => height,
    }),
    ("0 to a great power is unfit", |view, node| {
        unfit_if(view, node, |_, digits, power| digits == 0 && power > 4)
    }),
    ("0 to a small power is unfit", |view, node| {
        unfit_if(view, node, |_, digits, power| digits == 0 && power < -19)
    }),
    ("a minus is dropped", |view, node| {
        let mut row: [u32; ROW] = view.rows[node].try_into().unwrap();
        if row[0] == 7 {
            row[10] &= u32::MAX >> 1;
        }
        Height::by_row(Some(&row))
    }),
    ("an integer's minus is dropped", |view, node| {
        number(view, node, |_, digits, power| match digits {
            ..=10_000 if power == 0 => Height::Measured(digits * 1_000),
            _ => says(view, node),
        })
    }),
    ("less than 10,000,000", |view, node| match says(view, node) {
        Height::Measured(MOST) => Height::Unfit,
        height => height,
    }),
    ("up to 10,000,001", |view, node| {
        number(view, node, |minus, digits, power| match (digits, power) {
            (10_000_001, -3) if !minus => Height::Measured(10_000_001),
            _ => says(view, node),
        })
    }),
    ("over 10,000,000 is 10,000,000", |view, node| {
        number(view, node, |minus, digits, power| match as_float(digits, power) > MOST as f64 {
            true if !minus => Height::Measured(MOST),
            _ => says(view, node),
        })
    }),
    ("below 0 is 0", |view, node| {
        number(view, node, |minus, _, _| match minus {
            true => Height::Measured(0),
            false => says(view, node),
        })
    }),
    ("fractions are cut off", |view, node| {
        number(view, node, |minus, digits, power| match as_float(digits, power).floor() {
            whole if whole <= MOST as f64 && !minus => Height::Measured(whole as u64),
            _ => says(view, node),
        })
    }),
    ("fractions are rounded", |view, node| {
        number(view, node, |minus, digits, power| match as_float(digits, power).round() {
            whole if whole <= MOST as f64 && !minus => Height::Measured(whole as u64),
            _ => says(view, node),
        })
    }),
    ("floats decide what is whole", |view, node| {
        number(view, node, |minus, digits, power| {
            let float = as_float(digits, power);
            match says(view, node) {
                Height::Unfit if !minus && float.fract() == 0.0 && float <= MOST as f64 => {
                    Height::Measured(float as u64)
                }
                height => height,
            }
        })
    }),
    ("more than three fraction digits are unfit", |view, node| {
        unfit_if(view, node, |_, _, power| power < -3)
    }),
    ("a power over 0 is unfit", |view, node| unfit_if(view, node, |_, _, power| power > 0)),
    ("more than 15 digits are unfit", |view, node| {
        unfit_if(view, node, |_, digits, _| digits >= 10u64.pow(15))
    }),
    ("kept in 31 bits", |view, node| kept(view, node, 31)),
    ("kept in 32 bits", |view, node| kept(view, node, 32)),
    ("kept in 63 bits", |view, node| kept(view, node, 63)),
    ("kept in 64 bits", |view, node| kept(view, node, 64)),
    ("hexadecimal is unfit", |view, node| {
        unfit_as_written(view, node, |number| number.starts_with(b"0x"))
    }),
    ("an exponent is unfit", |view, node| {
        unfit_as_written(view, node, |number| {
            !number.starts_with(b"0x") && number.iter().any(|byte| b"eE".contains(byte))
        })
    }),
    ("an underscore is unfit", |view, node| {
        unfit_as_written(view, node, |number| number.contains(&b'_'))
    }),
];
