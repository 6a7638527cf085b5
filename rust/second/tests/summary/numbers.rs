//! Which numbers are measured, and as how many micrometres.

use super::*;

const MANY: usize = 60_000;

// Measured: integers.

#[test]
fn integers() {
    for (written, micrometres) in [
        ("0", 0),
        ("-0", 0),
        ("+0", 0),
        ("1", 1_000),
        ("+1", 1_000),
        ("9", 9_000),
        ("10", 10_000),
        ("1_0", 10_000),
        ("712", 712_000),
        ("1_2_3", 123_000),
        ("9999", 9_999_000),
        ("9_999", 9_999_000),
        ("10000", 10_000_000),
        ("+10000", 10_000_000),
        ("10_000", 10_000_000),
        ("1_0_0_0_0", 10_000_000),
    ] {
        measured(written, micrometres);
    }
    for written in [
        "10001",
        "10_001",
        "+10001",
        "20000",
        "99999",
        "100000",
        "10000000",
        "9223372036854775807",
        "-1",
        "-9",
        "-1_0",
        "-10000",
        "-10001",
        "-9223372036854775808",
    ] {
        unfit(written);
    }
}

#[test]
fn hexadecimal_octal_and_binary() {
    for (written, micrometres) in [
        ("0x0", 0),
        ("0o0", 0),
        ("0b0", 0),
        ("0x00", 0),
        ("0b0_0", 0),
        ("0x1", 1_000),
        ("0o1", 1_000),
        ("0b1", 1_000),
        ("0xA", 10_000),
        ("0xa", 10_000),
        ("0o17", 15_000),
        ("0b1010", 10_000),
        ("0b10", 2_000),
        ("0o10", 8_000),
        ("0x10", 16_000),
        // Letters that are digits here: no exponent, and no other prefix.
        ("0xe", 14_000),
        ("0x1E", 30_000),
        ("0x1e1", 481_000),
        ("0x1e10", 7_696_000),
        ("0x0e4", 228_000),
        ("0x0b1", 177_000),
        ("0xB1", 177_000),
        ("0x0_0_b_1", 177_000),
        // 10,000 is 2710 in hexadecimal, 23420 in octal; and in binary it is
        // 8192 + 1024 + 512 + 256 + 16.
        ("0x2710", 10_000_000),
        ("0x00_27_10", 10_000_000),
        ("0o23420", 10_000_000),
        ("0o02_34_20", 10_000_000),
        ("0b10011100010000", 10_000_000),
        ("0b0010_0111_0001_0000", 10_000_000),
        // One less.
        ("0x270F", 9_999_000),
        ("0x270f", 9_999_000),
        ("0o23417", 9_999_000),
        ("0b10011100001111", 9_999_000),
    ] {
        measured(written, micrometres);
    }
    for written in [
        "0x2711",
        "0o23421",
        "0b10011100010001",
        "0xFFFF",
        "0x7fffFFFFffffFFFF",
        "0o777777777777777777777",
    ] {
        unfit(written);
    }
}

// Measured: decimals.

#[test]
fn fractions() {
    for (written, micrometres) in [
        ("0.0", 0),
        ("+0.0", 0),
        ("-0.0", 0),
        ("0.000", 0),
        ("0.0000", 0),
        ("-0.000_0", 0),
        ("0.001", 1),
        ("+0.001", 1),
        ("0.0010", 1),
        ("0.001000000", 1),
        ("0.002", 2),
        ("0.01", 10),
        ("0.010", 10),
        ("0.1", 100),
        ("0.5", 500),
        ("0.999", 999),
        ("1.0", 1_000),
        ("1.001", 1_001),
        ("2.5", 2_500),
        ("12.345", 12_345),
        ("12.345000", 12_345),
        ("1_2.3_4_5", 12_345),
        ("1_2.3_4_5_0", 12_345),
        ("9999.999", 9_999_999),
        ("9_999.999_000", 9_999_999),
        ("10000.0", 10_000_000),
        ("10000.000", 10_000_000),
        ("10_000.000_000", 10_000_000),
        // m is 10 to the 18.
        ("10000.00000000000000", 10_000_000),
    ] {
        measured(written, micrometres);
    }
}

#[test]
fn fractions_of_a_micrometre_are_unfit() {
    for written in [
        "0.0001",
        "0.0005",
        "0.0009",
        "0.00010",
        "0.00099999",
        "0.0011",
        "0.9999",
        "1.0001",
        "1.0005",
        "2.50001",
        "9999.9999",
        "9999.9991",
        "0.000_1",
        "0.000000000000000001",
        // As floats these are whole: 1, 4, 0.001 and 9999.999.
        "1.000000000000000001",
        "4.0000000000000001",
        "0.00100000000000000001",
        "9999.99900000000001",
    ] {
        unfit(written);
    }
}

#[test]
fn more_than_10_000_000_is_unfit() {
    for written in [
        "10000.001",
        "10000.0010",
        "10_000.001",
        "10000.1",
        "10000.999",
        "10001.0",
        // And no whole number besides.
        "10000.0001",
        "10000.0005",
        "10000.00000000000001",
        "99999.9999",
    ] {
        unfit(written);
    }
}

#[test]
fn less_than_0_is_unfit() {
    for written in [
        "-0.001",
        "-0.0001",
        "-0.0005",
        "-0.5",
        "-1.0",
        "-2.5",
        "-9999.999",
        "-10000.0",
        "-1e-3",
        "-1e0",
        "-1e4",
        "-1e-4",
        "-1e400",
        "-1e-400",
        "-25e-1",
        "-0.250e1",
        "-0.1e-3",
    ] {
        unfit(written);
    }
    // Unless it is 0 after all.
    for written in ["-0", "-0.0", "-0.000", "-0e0", "-0E-3", "-0e400", "-0e-400", "-0.00e-398"] {
        measured(written, 0);
    }
}

#[test]
fn exponents() {
    for (written, micrometres) in [
        ("1e0", 1_000),
        ("1E0", 1_000),
        ("1e+0", 1_000),
        ("1e-0", 1_000),
        ("1e00", 1_000),
        ("1e1", 10_000),
        ("1.5e3", 1_500_000),
        ("2.50e0", 2_500),
        ("0.25e1", 2_500),
        ("0.250E1", 2_500),
        ("+0.250e+1", 2_500),
        ("0.0250e2", 2_500),
        ("0.02_50e0_2", 2_500),
        ("25e-1", 2_500),
        ("2_5E-0_1", 2_500),
        ("250e-2", 2_500),
        ("2500e-3", 2_500),
        ("2500.0e-3", 2_500),
        ("25000e-4", 2_500),
        // 1 from both sides.
        ("1e-3", 1),
        ("1E-3", 1),
        ("1e-03", 1),
        ("10e-4", 1),
        ("100e-5", 1),
        ("1000e-6", 1),
        ("1.0e-3", 1),
        ("1.00e-3", 1),
        ("10.0e-4", 1),
        ("0.1e-2", 1),
        ("0.001e0", 1),
        ("0.0001e1", 1),
        ("0.00001e2", 1),
        ("0.000000000000000001e15", 1),
        ("1000000000000000000e-21", 1),
        // 10,000,000 and one less.
        ("1e4", 10_000_000),
        ("1E4", 10_000_000),
        ("1e+4", 10_000_000),
        ("1e04", 10_000_000),
        ("1e0_4", 10_000_000),
        ("1.0e4", 10_000_000),
        ("0.1e5", 10_000_000),
        ("0.00001e9", 10_000_000),
        ("10e3", 10_000_000),
        ("10000e0", 10_000_000),
        ("10000000e-3", 10_000_000),
        ("10000000000e-6", 10_000_000),
        ("1000000000000000000e-14", 10_000_000),
        ("9.999999e3", 9_999_999),
        ("99.99999e2", 9_999_999),
        ("9999999e-3", 9_999_999),
        ("9999999000e-6", 9_999_999),
        // As many digits as m may have.
        ("1000000000000000000e-18", 1_000),
        ("9000000000000000000e-18", 9_000),
        ("9223372000000000000e-15", 9_223_372),
        // 0 to any power.
        ("0e0", 0),
        ("0e1", 0),
        ("0E-3", 0),
        ("0e-4", 0),
        ("0e400", 0),
        ("0e-400", 0),
        ("0.0e401", 0),
        ("0.00e-398", 0),
        ("0.000e0", 0),
    ] {
        measured(written, micrometres);
    }
    for written in [
        // Over it.
        "1e5",
        "1E5",
        "1e+05",
        "2e4",
        "1.1e4",
        "1.0001e4",
        "1.0000001e4",
        "10000001e-3",
        "0.1e6",
        "100e3",
        "1e6",
        "1e19",
        "1e20",
        "1e400",
        "9223372036854775807e0",
        "9223372036854775807e400",
        "0.1e401",
        // No whole number.
        "1e-4",
        "1E-4",
        "5e-4",
        "9e-4",
        "1e-04",
        "10e-5",
        "11e-4",
        "0.1e-3",
        "0.001e-1",
        "1.5e-3",
        "12345e-4",
        "1e-400",
        "1.0e-399",
        "9223372036854775807e-15",
        "9223372036854775807e-19",
        "9223372036854775807e-22",
        "9223372036854775807e-400",
        "1000000000000000001e-18",
        "1000000000000000001e-14",
    ] {
        unfit(written);
    }
}

/// Numbers whose micrometres would be from 0 to 10,000,000 if they were kept in
/// so many bits.
#[test]
fn nothing_wraps() {
    for written in [
        "4294968",           // 2^32 + 704
        "4294967.296",       // 2^32
        "4294967.297",       // 2^32 + 1
        "9223372036854776",  // 2^63 + 192
        "18446744073709552", // 2^64 + 384
        "36893488147419104", // 2^65 + 768
        "4294967296e-3",
        "4294967297e-3",
        // Multiples of 2 to the 32, 64, 128 and more.
        "1e29",
        "1e32",
        "1e61",
        "1e64",
        "1e125",
        "1e128",
        "1e253",
        "1e256",
        "1e397",
    ] {
        unfit(written);
    }
}

/// 2,000 micrometres in a row, each in millimetres with three fraction digits.
#[test]
fn whole_micrometres_with_three_digits() {
    for first in [0u64, 1_000, 4_349_000, 9_998_001] {
        let last = first + 1_999;
        let written: Vec<String> = (first..=last)
            .map(|number| format!("{{height_mm:{}.{:03}}}", number / 1_000, number % 1_000))
            .collect();
        // The mean of numbers in a row is halfway between the ends.
        let heights = [first as f64, last as f64, first as f64 + 999.5];
        holds(format!("[{}]", written.join(",")), [2_000, 0, 0, 0], Some(heights));
    }
}

/// By document 01's meaning of a decimal: "sign, whole number m of all its
/// digits, and power of ten p".
fn expected(minus: bool, m: u64, p: i64) -> Option<u64> {
    let micrometres = match p + 3 {
        _ if m == 0 => 0,
        power @ 0..=7 => u128::from(m) * 10u128.pow(power as u32),
        // No m but 0 is as great as 10 to the 19.
        power @ -18..0 => {
            let divisor = 10u128.pow(power.unsigned_abs() as u32);
            if u128::from(m) % divisor != 0 {
                return None;
            }
            u128::from(m) / divisor
        }
        _ => return None,
    };
    let fits = micrometres <= 10_000_000 && (micrometres == 0 || !minus);
    fits.then_some(micrometres as u64)
}

/// One height in a table that just holds it.
#[track_caller]
fn quickly(written: &str, micrometres: Option<u64>) {
    let text = alone(written);
    let mut table = [RUBBISH; 3 * ROW];
    let summed = match micrometres {
        Some(height) => of([1, 0, 0, 0], Some([height as f64; 3])),
        None => of([0, 0, 0, 1], None),
    };
    assert_eq!(summary(text.as_bytes(), &mut table), Ok(summed), "{text}");
}

#[test]
fn every_power_of_ten() {
    let mut measured = 0;
    for m in [
        0,
        1,
        2,
        5,
        9,
        10,
        11,
        99,
        100,
        101,
        999,
        1_000,
        9_999,
        10_000,
        10_001,
        123_456,
        9_999_999,
        10_000_000,
        10_000_001,
        99_999_999,
        100_000_000,
        4_294_967_296,
        9_999_999_000_000,
        1_000_000_000_000_000_000,
        1_000_000_000_000_000_001,
        9_000_000_000_000_000_000,
        9_223_372_036_854_775_807,
    ] {
        for p in -400..=400 {
            for (sign, minus) in [("", false), ("-", true)] {
                let micrometres = expected(minus, m, p);
                quickly(&format!("{sign}{m}e{p}"), micrometres);
                measured += u32::from(micrometres.is_some());
            }
        }
    }
    // 0 always. Of the rest 1, 10, 100 and so on, of which there are 8, with 8
    // powers each; 2, 5, 9 and 9 with 18 zeros with 7; 11 and 99 with 6; 101 and
    // 999 with 5; then 9,999 with 4, 10,001 with 3, 123,456 with 2, and 9,999,999
    // and the same with 6 zeros with 1.
    assert_eq!(measured, 2 * 801 + 8 * 8 + 4 * 7 + 2 * 6 + 2 * 5 + 4 + 3 + 2 + 1 + 1);
    assert_eq!(expected(false, 1, 4), Some(10_000_000));
    assert_eq!(expected(false, 1, 5), None);
    assert_eq!(expected(false, 1, -3), Some(1));
    assert_eq!(expected(false, 1, -4), None);
}

/// Every run of up to six of these bytes, as a height. What it means is what
/// document 01 says of words 9 to 11, which the summary itself doesn't use.
#[test]
fn every_short_number() {
    const BYTES: &str = "019.e-_";
    let mut runs = vec![String::new()];
    let (mut tried, mut measured, mut unfit, mut faulty) = (0, 0, 0, 0);
    while let Some(run) = runs.pop() {
        if run.len() < 6 {
            runs.extend(BYTES.chars().map(|byte| format!("{run}{byte}")));
        }
        if run.is_empty() {
            continue;
        }
        tried += 1;
        let mut table = [RUBBISH; 2 * ROW];
        match read(format!("[{run}]").as_bytes(), &mut table) {
            Ok(_) => {
                let row = &table[ROW..];
                let wide = u64::from(row[9]) | u64::from(row[10]) << 32;
                let micrometres = match row[0] {
                    6 => expected((wide as i64) < 0, (wide as i64).unsigned_abs(), 0),
                    7 => expected(wide >> 63 == 1, wide & !(1 << 63), i64::from(row[11]) - 1000),
                    kind => panic!("{run} is of kind {kind}"),
                };
                quickly(&run, micrometres);
                *if micrometres.is_some() { &mut measured } else { &mut unfit } += 1;
            }
            Err(Refusal { number, place }) => {
                assert_eq!(place, 1, "{run}");
                refused_with(3 * ROW, alone(&run), number, 12);
                faulty += 1;
            }
        }
    }
    assert_eq!(tried, 7 + 49 + 343 + 2_401 + 16_807 + 117_649);
    assert!(measured > 1_000 && unfit > 1_000 && faulty > 1_000, "{measured} {unfit} {faulty}");
}

#[test]
fn very_many_digits() {
    let zeros = "0".repeat(MANY);
    for (written, micrometres) in [
        // Leading zeros of the other forms, and of exponents.
        (format!("0x{zeros}5"), 5_000),
        (format!("0x{zeros}2710"), 10_000_000),
        (format!("0o{zeros}17"), 15_000),
        (format!("0b{zeros}"), 0),
        (format!("5e{zeros}"), 5_000),
        (format!("5e-{zeros}"), 5_000),
        (format!("5e-{zeros}3"), 5),
        (format!("1e+{zeros}4"), 10_000_000),
        (format!("1e{}4", "0_".repeat(30_000)), 10_000_000),
        // 60,000 zeros and a 5 behind the point are 60,001 digits.
        (format!("0.{zeros}5e60001"), 5_000),
        (format!("0.{zeros}5e59998"), 5),
        (format!("0.{zeros}1e60005"), 10_000_000),
        (format!("0.{}5e30001", "0_".repeat(30_000)), 5_000),
        // Nothing but zeros.
        (format!("0.{zeros}e60000"), 0),
        (format!("-0.{zeros}e60000"), 0),
        (format!("-0.{zeros}e59600"), 0),
        (format!("0.{zeros}e60400"), 0),
    ] {
        measured(&written, micrometres);
    }
    for written in [
        format!("0x{zeros}2711"),
        format!("5e{zeros}4"),
        format!("5e-{zeros}4"),
        format!("0.{zeros}5e60005"),
        format!("0.{zeros}1e60006"),
        format!("0.{zeros}5e59997"),
        format!("0.{zeros}1e59601"),
        format!("0.{zeros}1e60401"),
        format!("-0.{zeros}5e60001"),
    ] {
        unfit(&written);
    }
    // Too wide is too wide, even if it is 0.
    refused(alone(&format!("0.{zeros}")), 5, 12);
    refused(alone(&format!("0.{zeros}e60401")), 5, 12);
    refused(alone(&format!("1.{zeros}")), 5, 12);
}

/// A number that is no number of the papers is not unfit: the text doesn't
/// read.
#[test]
fn numbers_that_are_refused() {
    for written in [
        "00", "01", "-01", "1.", "0x", "0X1", "-0x1", "1__0", "1_", "5mm", "1e", "1e+", "0_1",
        "1.5.0", "--1", ".5",
    ] {
        refused(alone(written), 3, 12);
    }
    for written in [
        "9223372036854775808",
        "-9223372036854775809",
        "0x8000000000000000",
        "9223372036854775808e-15",
        "10000.000000000000000",
        "1e401",
        "1e-401",
        "0e401",
        "-0e-401",
    ] {
        refused(alone(written), 5, 12);
    }
    refused(alone("'2025-06-01'"), 6, 12);
    refused(alone("nul"), 7, 12);
    refused(alone("NULL"), 7, 16);
    refused(alone("1 mm"), 7, 14);
    refused(alone(""), 7, 12);
    refused(alone("A()"), 7, 14);
    refused(alone("A(B(5))"), 7, 14);
}
