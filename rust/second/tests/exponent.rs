//! Document 02's request 02: "From now an exponent is an optional sign and one
//! or more digits, with a single underscore allowed between digits, and leading
//! zeros allowed."
//!
//! Expected rows, numbers and places are worked out by hand from the papers. p
//! is the exponent minus the count of fraction digits, and word 11 is p + 1000.

use std::collections::HashMap;

use second::{content, one_value, read, Refusal, MAX_TEXT, ROW};

const NONE: u32 = u32::MAX;
/// Word 10 of a decimal with a minus, if m is below 2^32.
const MINUS: u32 = 2_147_483_648;
const MANY: usize = 60_000;

/// How a text is named where a test fails; a long one by its ends.
fn named(text: &str) -> String {
    match text.len() {
        0..=80 => text.to_string(),
        length => format!("{}..{} ({length} bytes)", &text[..20], &text[length - 20..]),
    }
}

/// The text is taken with these rows, and zeros stand after them.
#[track_caller]
fn taken(text: &str, rows: &[[u32; ROW]]) {
    let mut expected = rows.concat();
    expected.extend([0; 17]);
    let mut table = vec![0xDEAD_BEEF; expected.len()];
    let answer = read(text.as_bytes(), &mut table);
    assert_eq!(answer, Ok(rows.len()), "{}", named(text));
    assert_eq!(table, expected, "{}", named(text));
}

/// The text is refused, and every word of the table is 0.
#[track_caller]
fn refused(text: &str, number: u32, place: u64) {
    let mut table = vec![0xDEAD_BEEF; 50];
    let answer = read(text.as_bytes(), &mut table);
    assert_eq!(answer, Err(Refusal { number, place }), "{}", named(text));
    assert!(table.iter().all(|&word| word == 0), "{}", named(text));
}

/// The number is the only item of an array, and taken: its bytes, and words 9
/// to 11.
#[track_caller]
fn item(written: &str, length: u32, last: [u32; 3]) {
    let [low, high, power] = last;
    let root = [2, NONE, 0, length + 2, 0, 0, 0, 0, 2, 1, 0, 0];
    let number = [7, 0, 1, length + 1, 0, 0, 0, 0, 2, low, high, power];
    taken(&format!("[{written}]"), &[root, number]);
}

/// The number is the only item of an array, and refused at its start.
#[track_caller]
fn bad(written: &str, number: u32) {
    refused(&format!("[{written}]"), number, 1);
}

// The request's own cases.

#[test]
fn the_request() {
    // "`[1e06]` gives m 1 and word 11 at 1006."
    let mut table = [7; 24];
    assert_eq!(read(b"[1e06]", &mut table), Ok(2));
    let root = [2, 4_294_967_295, 0, 6, 0, 0, 0, 0, 2, 1, 0, 0];
    let number = [7, 0, 1, 5, 0, 0, 0, 0, 2, 1, 0, 1006];
    assert_eq!(table[..], [root, number].concat());
    // "`[01e6]` stays refused with 3 at 1."
    let mut table = [7; 24];
    assert_eq!(read(b"[01e6]", &mut table), Err(Refusal { number: 3, place: 1 }));
    assert_eq!(table, [0; 24]);
}

// The shape.

#[test]
fn exponents_that_are_taken() {
    for (written, length, last) in [
        ("1e06", 4, [1, 0, 1006]),
        ("1E06", 4, [1, 0, 1006]),
        ("1e+06", 5, [1, 0, 1006]),
        ("1e-06", 5, [1, 0, 994]),
        ("1e006", 5, [1, 0, 1006]),
        ("1e0_6", 5, [1, 0, 1006]),
        ("1e+0_6", 6, [1, 0, 1006]),
        ("1e-0_6", 6, [1, 0, 994]),
        ("1e0_0_6", 7, [1, 0, 1006]),
        ("1e00_06", 7, [1, 0, 1006]),
        ("1e0", 3, [1, 0, 1000]),
        ("1e00", 4, [1, 0, 1000]),
        ("1e+00", 5, [1, 0, 1000]),
        ("1e-00", 5, [1, 0, 1000]),
        ("1e0_0", 5, [1, 0, 1000]),
        ("1e-0_0", 6, [1, 0, 1000]),
        ("0e0", 3, [0, 0, 1000]),
        ("0e00", 4, [0, 0, 1000]),
        ("0E-00", 5, [0, 0, 1000]),
        // "A minus on -0.0 is kept", as is one on any other decimal.
        ("-0e00", 5, [0, MINUS, 1000]),
        ("-1e06", 5, [1, MINUS, 1006]),
        ("-2E-02", 6, [2, MINUS, 998]),
        ("+5e+022", 7, [5, 0, 1022]),
        // A zero that doesn't lead was never a matter.
        ("1e10", 4, [1, 0, 1010]),
        ("1e100", 5, [1, 0, 1100]),
        ("1e010", 5, [1, 0, 1010]),
        ("1e0_1_0", 7, [1, 0, 1010]),
        ("1e2_00", 6, [1, 0, 1200]),
        ("1e02_00", 7, [1, 0, 1200]),
        // With fraction digits, which are taken off: 6 - 1, -34 - 3, 10 - 2.
        ("1.5e06", 6, [15, 0, 1005]),
        ("6.626e-034", 10, [6626, 0, 963]),
        ("12_3.4_5e0_1_0", 14, [12_345, 0, 1008]),
        ("-0.0e00", 7, [0, MINUS, 999]),
        // 9223372036854775807 is 2^63 - 1.
        ("9223372036854775807e00", 22, [4_294_967_295, 2_147_483_647, 1000]),
        ("-9223372036854775807e-00", 24, [4_294_967_295, 4_294_967_295, 1000]),
    ] {
        item(written, length, last);
    }
}

#[test]
fn exponents_that_are_malformed() {
    // No digits, or not only digits.
    for written in [
        "1e", "1E", "1e+", "1e-", "1e+-1", "1e-+0", "1e--0", "1e++0", "1e0x1", "1e0x", "1e0b0",
        "1e06a", "1e0a6", "1ea06", "1e06.5", "1e06.", "1e.06", "1e0.0", "1e0e0", "1e06e", "1e06E1",
        "1ee06", "1e0+", "1e0-", "1e0+1", "1e0-1", "1e-0-1", "1e06-",
    ] {
        bad(written, 3);
    }
    // "a single underscore allowed between digits", and nowhere else.
    for written in [
        "1e_5", "1e5_", "1e5__0", "1e+_1", "1e-_0", "1e_+1", "1e0_", "1e-0_", "1e_0", "1e_00",
        "1e0__6", "1e0__0", "1e00_", "1e0_6_", "1e_", "1e__", "1e+_", "1e0_+6", "1e0_x", "1e0_.5",
    ] {
        bad(written, 3);
    }
    // The rest of a number has the rules that it had.
    for written in [
        "01e6", "-01e6", "+01e6", "00e1", "00e01", "01e06", "-00e00", "0_1e06", "0_0e0", "1_e06",
        "1._0e06", "1.0_e06", "1.5_e06", "1.e06", "1__0e06", "06", "-06", "0_6", "00",
    ] {
        bad(written, 3);
    }
    // A hex number's digits are no exponent: 7686 is 1E06 hex.
    let root = [2, NONE, 0, 8, 0, 0, 0, 0, 2, 1, 0, 0];
    taken("[0x1e06]", &[root, [6, 0, 1, 7, 0, 0, 0, 0, 2, 7686, 0, 0]]);
    bad("0x1e+06", 3);
}

/// Every exponent of up to six of these bytes. What is taken is made by the
/// request's own sentence; all else is 3.
#[test]
fn every_short_exponent() {
    const BYTES: &str = "06_+-x";
    const LONGEST: usize = 6;
    // "an optional sign and one or more digits": first a sign and one digit.
    // Then "a single underscore allowed between digits": a digit more, with an
    // underscore before it or without.
    let mut good: HashMap<String, i64> = HashMap::new();
    for (sign, times) in [("", 1), ("+", 1), ("-", -1)] {
        let mut made = vec![(format!("{sign}0"), 0), (format!("{sign}6"), 6)];
        while let Some((written, value)) = made.pop() {
            if written.len() > LONGEST {
                continue;
            }
            for (joined, digit) in [("0", 0), ("6", 6), ("_0", 0), ("_6", 6)] {
                made.push((format!("{written}{joined}"), value * 10 + digit));
            }
            good.insert(written, value * times);
        }
    }

    let mut all = vec![String::new()];
    let mut at = 0;
    while at < all.len() {
        let written = all[at].clone();
        if written.len() < LONGEST {
            all.extend(BYTES.chars().map(|byte| format!("{written}{byte}")));
        }
        at += 1;
    }
    assert_eq!(all.len(), 1 + 6 + 36 + 216 + 1_296 + 7_776 + 46_656);

    let (mut taken, mut too_wide) = (0, 0);
    for exponent in &all {
        let written = format!("1e{exponent}");
        match good.get(exponent) {
            None => bad(&written, 3),
            Some(&p) if p.abs() > 400 => {
                bad(&written, 5);
                too_wide += 1;
            }
            Some(&p) => {
                item(&written, written.len() as u32, [1, 0, (1000 + p) as u32]);
                taken += 1;
            }
        }
    }
    assert_eq!(taken + too_wide, good.len());
    assert!(taken > 50 && too_wide > 50, "{taken} {too_wide}");
}

// The range: p counts, and not the exponent as it is written.

#[test]
fn both_sides_of_400() {
    for (written, length, last) in [
        ("1e0400", 6, [1, 0, 1400]),
        ("1e+0400", 7, [1, 0, 1400]),
        ("1e-0400", 7, [1, 0, 600]),
        ("1e0_4_0_0", 9, [1, 0, 1400]),
        ("0e0400", 6, [0, 0, 1400]),
        ("0e-0400", 7, [0, 0, 600]),
        ("0e-000400", 9, [0, 0, 600]),
        // 401 - 1 and -399 - 1; 402 - 2 and -398 - 2.
        ("1.0e0401", 8, [10, 0, 1400]),
        ("1.0e-0399", 9, [10, 0, 600]),
        ("1.00e00402", 10, [100, 0, 1400]),
        ("-1.00e-00398", 12, [100, MINUS, 600]),
        ("0.000_000e0_406", 15, [0, 0, 1400]),
    ] {
        item(written, length, last);
    }
    for written in [
        "1e0401",
        "1e+0401",
        "1e-0401",
        "1e0_401",
        "0e0401",
        "0e-0401",
        "0e000401",
        "1.0e0402",
        "1.0e-0400",
        "1.00e00403",
        "1.00e-00399",
        // m is too wide, whatever the exponent is.
        "9223372036854775808e00",
        "-9223372036854775808e-00",
        "-9223372036854775808e09",
        "922337203685477580.8e01",
    ] {
        bad(written, 5);
    }
}

/// Exponents that would be 6, or 0, if they were kept in so many bits.
#[test]
fn no_exponent_wraps() {
    for digits in [
        // 2^8 + 6 is within the range.
        "65542",                                      // 2^16 + 6
        "4294967296",                                 // 2^32
        "4294967302",                                 // 2^32 + 6
        "9223372036854775814",                        // 2^63 + 6
        "18446744073709551616",                       // 2^64
        "18446744073709551622",                       // 2^64 + 6
        "340282366920938463463374607431768211462",    // 2^128 + 6
        "100000000000000000000000000000000000000000", // 10^41
    ] {
        for front in ["1e", "1e+", "1e-", "1e0", "1e-0_0", "0.5e+000"] {
            bad(&format!("{front}{digits}"), 5);
        }
    }
    item("1e262", 5, [1, 0, 1262]);
    // A multiple of 2^60000, so 0 if kept in fewer bits.
    bad(&format!("1e1{}", "0".repeat(MANY)), 5);
    bad(&format!("1e-01{}", "0".repeat(MANY)), 5);
    // A multiple of 2^60001 and 6 more, so 6 if kept in fewer bits.
    bad(&format!("1e1{}6", "0".repeat(MANY)), 5);
}

// "an exponent of very many zeros must not trip 5"

#[test]
fn very_many_zeros() {
    let zeros = "0".repeat(MANY);
    // Zeros alone: an exponent of 0.
    item(&format!("1e{zeros}"), 60_002, [1, 0, 1000]);
    item(&format!("1e+{zeros}"), 60_003, [1, 0, 1000]);
    item(&format!("1e-{zeros}"), 60_003, [1, 0, 1000]);
    item(&format!("-0E-{zeros}"), 60_004, [0, MINUS, 1000]);
    // Zeros, then digits.
    item(&format!("1e{zeros}6"), 60_003, [1, 0, 1006]);
    item(&format!("1e+{zeros}6"), 60_004, [1, 0, 1006]);
    item(&format!("1e-{zeros}6"), 60_004, [1, 0, 994]);
    item(&format!("1e{zeros}_6"), 60_004, [1, 0, 1006]);
    item(&format!("-1.5e{zeros}10"), 60_007, [15, MINUS, 1009]);
    // Zeros, then digits at both sides of 400.
    item(&format!("1e{zeros}400"), 60_005, [1, 0, 1400]);
    item(&format!("1e-{zeros}400"), 60_006, [1, 0, 600]);
    item(&format!("1.5e{zeros}401"), 60_007, [15, 0, 1400]);
    item(&format!("1.5e-{zeros}399"), 60_008, [15, 0, 600]);
    for written in [
        format!("1e{zeros}401"),
        format!("1e+{zeros}401"),
        format!("1e-{zeros}401"),
        format!("0e{zeros}401"),
        format!("1.5e{zeros}402"),
        format!("1.5e-{zeros}400"),
        format!("9223372036854775808e{zeros}"),
    ] {
        bad(&written, 5);
    }
    // A single underscore between all of them: 30,000 zeros and as many
    // underscores are 60,000 bytes.
    let grouped = "0_".repeat(30_000);
    item(&format!("1e{grouped}0"), 60_003, [1, 0, 1000]);
    item(&format!("1e{grouped}6"), 60_003, [1, 0, 1006]);
    item(&format!("1e+{grouped}6"), 60_004, [1, 0, 1006]);
    item(&format!("1e-{grouped}6"), 60_004, [1, 0, 994]);
    item(&format!("1e{grouped}4_0_0"), 60_007, [1, 0, 1400]);
    bad(&format!("1e{grouped}4_0_1"), 5);
    // 30,000 fraction digits, an exponent of 30,000 behind as many zeros.
    let zeros = "0".repeat(30_000);
    item(&format!("0.{zeros}e{zeros}30000"), 60_008, [0, 0, 1000]);
    item(&format!("0.{zeros}e+{zeros}30_400"), 60_010, [0, 0, 1400]);
    item(&format!("0.{zeros}e{zeros}29600"), 60_008, [0, 0, 600]);
    bad(&format!("0.{zeros}e{zeros}30401"), 5);
    bad(&format!("0.{zeros}e{zeros}29599"), 5);
    bad(&format!("0.{zeros}e{zeros}"), 5);
    bad(&format!("0.{zeros}e-{zeros}1"), 5);
}

#[test]
fn very_many_nines() {
    let nines = "9".repeat(MANY);
    for written in [
        format!("1e{nines}"),
        format!("1e+{nines}"),
        format!("1e-{nines}"),
        format!("0e{nines}"),
        format!("1e0{nines}"),
        format!("1e-0_{nines}"),
        format!("0.5e{nines}"),
        format!("1e{}9", "9_".repeat(30_000)),
        format!("1e{}{}", "0".repeat(30_000), "9".repeat(30_000)),
    ] {
        bad(&written, 5);
    }
}

/// "Among 3 to 10 the smallest place counts, then the smallest number": a run
/// that is malformed and too wide is 3.
#[test]
fn three_goes_before_five() {
    for digits in ["0".repeat(MANY), "9".repeat(MANY), "0".repeat(MANY) + "401", "999".to_string()]
    {
        for front in ["1e", "1e+", "1e-", "9223372036854775808e"] {
            for back in ["x", "e", "a0", "_", "__9", "__0", "_x", ".0", ".", "-", "+1", "e0"] {
                bad(&format!("{front}{digits}{back}"), 3);
            }
        }
        for front in ["1e_", "1e+_", "1e+-", "1ex", "01e", "-00e", "1_e", "1.e"] {
            bad(&format!("{front}{digits}"), 3);
        }
    }
}

#[test]
fn up_to_the_greatest_length() {
    // `[1e`, 65,531 zeros, `6]`.
    let text = format!("[1e{}6]", "0".repeat(65_531));
    assert_eq!(text.len(), MAX_TEXT);
    let root = [2, NONE, 0, 65_536, 0, 0, 0, 0, 2, 1, 0, 0];
    taken(&text, &[root, [7, 0, 1, 65_535, 0, 0, 0, 0, 2, 1, 0, 1006]]);
    refused(&format!("[1e{}6]", "0".repeat(65_532)), 1, 65_536);
    refused(&format!("[1e{}]", "9".repeat(65_532)), 5, 1);
    refused(&format!("[1e{}x]", "9".repeat(65_531)), 3, 1);
    // The text ends in the run: then it ends early, unless the run is at fault.
    refused(&format!("[1e{}", "0".repeat(65_533)), 7, 65_536);
    refused(&format!("[1e{}_", "0".repeat(65_532)), 3, 1);
    refused(&format!("[1e{}", "9".repeat(65_533)), 5, 1);
}

// Among other tokens.

#[test]
fn spans_and_places() {
    taken(
        r#"{a:1e06,"b":X(1e-06)}"#,
        &[
            [1, NONE, 0, 21, 0, 0, 0, 0, 3, 2, 0, 0],
            [7, 0, 3, 7, 1, 2, 0, 0, 2, 1, 0, 1006],
            [7, 0, 12, 20, 8, 11, 12, 13, 3, 1, 0, 994],
        ],
    );
    taken(
        "(1e00/**/,0e-0_7)",
        &[
            [3, NONE, 0, 17, 0, 0, 0, 0, 3, 2, 0, 0],
            [7, 0, 1, 5, 0, 0, 0, 0, 2, 1, 0, 1000],
            [7, 0, 10, 16, 0, 0, 0, 0, 3, 0, 0, 993],
        ],
    );
    refused("[1, 1e0_]", 3, 4);
    refused("{a:01e6}", 3, 3);
    refused("[A(1e0401)]", 5, 3);
    refused("[1e06,1e06,01e6]", 3, 11);
    refused("[1e06 06]", 3, 6);
    refused("[1e 06]", 3, 1);
    refused("[1e06", 7, 5);
    // Well formed, but not where a number may stand; at fault, 3 or 5 first.
    refused("1e06", 7, 0);
    refused("[]1e06", 7, 2);
    refused("{1e06:1}", 7, 1);
    refused("{1e0_:1}", 3, 1);
    refused("{1e0401:1}", 5, 1);
    refused("[e06]", 7, 1);
    // 10, "a value opens [...] with no node left".
    assert_eq!(read(b"[1e06]", &mut [9; 23]), Err(Refusal { number: 10, place: 1 }));
    assert_eq!(read(b"[01e6]", &mut [9; 23]), Err(Refusal { number: 3, place: 1 }));
}

#[test]
fn one_value_and_content() {
    let zeros = "0".repeat(MANY);
    for part in ["1e06", "-1.5E-0_6", "X(1e06)", "[1e00,]", &format!("1e{zeros}6")] {
        assert!(one_value(part.as_bytes(), false), "{}", named(part));
    }
    for part in ["01e6", "1e0_", "1e06 ", "1e0401", "[1e_0]", &format!("1e{zeros}_")] {
        assert!(!one_value(part.as_bytes(), false), "{}", named(part));
    }
    assert!(one_value(b"[1e06]", true));
    assert!(!one_value(b"1e06", true));
    // A number is no string and no word.
    let mut out = [5; 8];
    assert_eq!(content(b"1e06", 0, 4, &mut out), Err(Refusal { number: 19, place: 0 }));
    assert_eq!(content(b"1e06", 1, 4, &mut out), Ok(3));
    assert_eq!(&out, b"e06\x05\x05\x05\x05\x05");
}
