//! Made-up texts, whose summary is known from how they are made.

use super::*;

const GAPS: [&str; 9] =
    ["", "", "", " ", "\n", "\t\r", "/*{height_mm:1},*/", "//height_mm:1\n", "/*)]}*/"];

const NAMES: [&str; 4] = ["A", "Over", "Ball-2", "Height_mm"];

const KEYS: [&str; 12] = [
    "height_mm",
    "height_mm",
    "\"height_mm\"",
    "r\"height_mm\"",
    "r##\"height_mm\"##",
    r#""height\x5fmm""#,
    r#""height\x5Fm\x6D""#,
    r#""\u0068eight_mm""#,
    r#""height\U0000005fmm""#,
    r#""\x68\x65\x69\x67\x68\x74\x5f\x6d\x6d""#,
    r#""\u0068\u0065ight_\u006d\u006D""#,
    "r#\"height_mm\"#",
];

const OTHER_KEYS: [&str; 10] = [
    "a",
    "A",
    "Height_mm",
    "height-mm",
    "r\"height\\x5fmm\"",
    "\"height_mm\\0\"",
    "\"\"",
    "null",
    "\"}],\"",
    "\"h\\u00E9ight_mm\"",
];

const SCALARS: [&str; 14] = [
    "0",
    "-7",
    "1.5",
    "6.626e-34",
    "0x1F",
    "true",
    "false",
    "null",
    "\"height_mm\"",
    "r#\"{\"height_mm\":5}\"#",
    "b\"\\xFF]\"",
    "br\"5\"",
    "b64\"ZHVwZXI\"",
    "\"5\"",
];

/// A value as it is written, and of how many nodes.
struct Written {
    text: String,
    nodes: u64,
}

/// Parts with spaces and comments between.
fn spaced(numbers: &mut Numbers, parts: &[&str]) -> String {
    let spaced = parts.iter().map(|part| format!("{}{part}", numbers.one_of(&GAPS)));
    let spaced: String = spaced.collect();
    spaced + numbers.one_of(&GAPS)
}

/// The value in an identifier, now and then.
fn perhaps_named(numbers: &mut Numbers, text: String) -> String {
    if numbers.below(4) == 0 {
        let name = numbers.one_of(&NAMES);
        spaced(numbers, &[name, "(", &text, ")"])
    } else {
        spaced(numbers, &[&text])
    }
}

/// A container of these parts, with commas between and perhaps behind them.
fn container(numbers: &mut Numbers, brackets: [&str; 2], parts: Vec<Written>) -> Written {
    let nodes = 1 + parts.iter().map(|part| part.nodes).sum::<u64>();
    let mut text: String = parts.iter().map(|part| part.text.clone()).collect::<Vec<_>>().join(",");
    if !parts.is_empty() && numbers.below(3) == 0 {
        text.push(',');
    }
    let text = spaced(numbers, &[brackets[0], &text, brackets[1]]);
    Written { text: perhaps_named(numbers, text), nodes }
}

/// A key with a value.
fn pair(numbers: &mut Numbers, key: &str, value: Written) -> Written {
    Written { text: spaced(numbers, &[key, ":", &value.text]), nodes: value.nodes }
}

/// An object with some other keys, and with the height, if any, among them.
fn object(numbers: &mut Numbers, depth: u64, height: Option<Written>) -> Written {
    let first = numbers.below(10);
    let count = numbers.below(3);
    let mut pairs = Vec::new();
    for number in first..first + count {
        let value = value(numbers, depth);
        pairs.push(pair(numbers, OTHER_KEYS[number as usize % 10], value));
    }
    if let Some(height) = height {
        let key = numbers.one_of(&KEYS);
        let height = pair(numbers, key, height);
        pairs.insert(numbers.below(count + 1) as usize, height);
    }
    container(numbers, ["{", "}"], pairs)
}

/// Any value, with containers up to so deep in it. Objects in it may have the
/// key too.
fn value(numbers: &mut Numbers, depth: u64) -> Written {
    match numbers.below(if depth == 0 { 4 } else { 8 }) {
        0..=3 => {
            let text = numbers.one_of(&SCALARS).to_string();
            Written { text: perhaps_named(numbers, text), nodes: 1 }
        }
        4..=5 => {
            let height = value(numbers, depth - 1);
            object(numbers, depth - 1, Some(height))
        }
        kind => {
            let items = (0..numbers.below(3)).map(|_| value(numbers, depth - 1)).collect();
            container(numbers, if kind == 6 { ["[", "]"] } else { ["(", ")"] }, items)
        }
    }
}

/// Digits with an underscore between some of them.
fn grouped(numbers: &mut Numbers, digits: &str) -> String {
    let mut text = String::new();
    for digit in digits.chars() {
        if !text.is_empty() && numbers.below(6) == 0 {
            text.push('_');
        }
        text.push(digit);
    }
    text
}

/// m times 10 to the power, in one of the ways in which it can be written. m
/// has at most 18 digits even with the zeros that it is given here.
fn decimal(numbers: &mut Numbers, m: u64, power: i64) -> String {
    // Zeros behind m, which the exponent takes away again.
    let zeros = numbers.below(5) as usize;
    let point = numbers.below(12) as usize;
    let digits = format!("{m}{}", if m == 0 { String::new() } else { "0".repeat(zeros) });
    let exponent = power - if m == 0 { 0 } else { zeros as i64 } + point as i64;
    // At least one digit stands before the point.
    let digits = format!("{digits:0>width$}", width = point + 1);
    let (whole, fraction) = digits.split_at(digits.len() - point);
    let mut text = grouped(numbers, whole);
    if point > 0 {
        text = text + "." + &grouped(numbers, fraction);
    }
    if exponent != 0 || numbers.below(4) == 0 {
        let sign = if exponent < 0 { "-" } else { numbers.one_of(&["", "+"]) };
        let leading = numbers.one_of(&["", "", "0", "00"]);
        let written = grouped(numbers, &format!("{leading}{}", exponent.abs()));
        text = text + numbers.one_of(&["e", "E"]) + sign + &written;
    }
    text
}

/// So many micrometres, in one of the ways in which they can be written.
fn spelled(numbers: &mut Numbers, micrometres: u64) -> String {
    let millimetres = micrometres / 1_000;
    let whole = micrometres % 1_000 == 0;
    let sign = if micrometres == 0 { numbers.one_of(&["", "+", "-"]) } else { "" };
    match numbers.below(8) {
        0 if whole => format!("0x{}", grouped(numbers, &format!("0{millimetres:X}"))),
        1 if whole => format!("0x{}", grouped(numbers, &format!("{millimetres:x}"))),
        2 if whole => format!("0o{}", grouped(numbers, &format!("{millimetres:o}"))),
        3 if whole => format!("0b{}", grouped(numbers, &format!("{millimetres:b}"))),
        4 if whole => format!("{sign}{}", grouped(numbers, &millimetres.to_string())),
        5 => format!("{sign}{millimetres}.{:03}", micrometres % 1_000),
        _ => format!("{sign}{}", decimal(numbers, micrometres, -3)),
    }
}

/// A number that is unfit.
fn unfit_number(numbers: &mut Numbers) -> String {
    match numbers.below(6) {
        0 => {
            let micrometres = 10_000_001 + numbers.below(1_000_000_000);
            spelled(numbers, micrometres)
        }
        // A last digit behind those of whole micrometres.
        1 => {
            let m = numbers.below(100_000_000) * 10 + 1 + numbers.below(9);
            decimal(numbers, m, -4)
        }
        2 => {
            let m = 1 + numbers.below(100_000_000);
            let m = if m % 10 == 0 { m + 1 } else { m };
            let power = -4 - numbers.below(300) as i64;
            decimal(numbers, m, power)
        }
        3 => {
            let m = 1 + numbers.below(100_000_000);
            let power = 5 + numbers.below(300) as i64;
            decimal(numbers, m, power)
        }
        _ => {
            let m = 1 + numbers.below(10_000_000);
            format!("-{}", decimal(numbers, m, -3))
        }
    }
}

/// A record, counted in the one of the four that it belongs to.
fn record(numbers: &mut Numbers, counts: &mut [u64; 4], micrometres: &mut Vec<u64>) -> Written {
    let sort = numbers.below(4);
    counts[sort as usize] += 1;
    let scalar = match sort {
        0 => {
            let most = [10, 1_000, 10_000_001][numbers.below(3) as usize];
            // Now and then a whole number of millimetres, or the greatest.
            let number = match numbers.below(8) {
                0 => numbers.below(10_001) * 1_000,
                1 => 10_000_000,
                _ => numbers.below(most),
            };
            micrometres.push(number);
            spelled(numbers, number)
        }
        1 => "null".to_string(),
        2 => return object(numbers, 2, None),
        _ if numbers.below(3) == 0 => {
            numbers.one_of(&["true", "false", "\"5\"", "r\"\"", "b\"5\"", "b64\"\""]).to_string()
        }
        _ if numbers.below(3) == 0 => {
            let items = (0..numbers.below(3)).map(|_| value(numbers, 1)).collect();
            let brackets = [["{", "}"], ["[", "]"], ["(", ")"]][1 + numbers.below(2) as usize];
            let height = container(numbers, brackets, items);
            return object(numbers, 2, Some(height));
        }
        _ if numbers.below(3) == 0 => {
            let height = object(numbers, 1, None);
            return object(numbers, 2, Some(height));
        }
        _ => unfit_number(numbers),
    };
    let height = Written { text: perhaps_named(numbers, scalar), nodes: 1 };
    object(numbers, 2, Some(height))
}

#[test]
fn made_up_texts() {
    let mut numbers = Numbers(0x0123_4567_89AB_CDEF);
    let (mut total, mut with, mut without) = ([0; 4], 0, 0);
    for _ in 0..1_500 {
        let (mut counts, mut micrometres) = ([0; 4], Vec::new());
        let records: Vec<Written> = (0..numbers.below(12))
            .map(|_| record(&mut numbers, &mut counts, &mut micrometres))
            .collect();
        let written = container(&mut numbers, ["[", "]"], records);
        let text = written.text.as_bytes();
        assert!(text.len() <= MAX_TEXT);
        let mut reading = vec![0; written.nodes as usize * ROW];
        assert_eq!(read(text, &mut reading), Ok(written.nodes as usize), "{}", written.text);
        micrometres.sort();
        let heights = micrometres.first().zip(micrometres.last()).map(|(&least, &greatest)| {
            let mean = micrometres.iter().sum::<u64>() as f64 / micrometres.len() as f64;
            [least as f64, greatest as f64, mean]
        });
        let mut table = vec![RUBBISH; reading.len()];
        let answer = summary(text, &mut table);
        assert_eq!(answer, Ok(of(counts, heights)), "{}", written.text);
        assert_eq!(table, reading);
        *if heights.is_some() { &mut with } else { &mut without } += 1;
        total = [0, 1, 2, 3].map(|sort| total[sort] + counts[sort]);
    }
    assert!(total.iter().all(|&count| count > 1_000), "{total:?}");
    assert!(with > 100 && without > 100, "{with} {without}");
}

#[test]
fn made_up_texts_with_an_element_that_is_no_object() {
    let mut numbers = Numbers(0xFEDC_BA98_7654_3210);
    let mut not_its_index = 0;
    for _ in 0..1_500 {
        let (mut counts, mut micrometres) = ([0; 4], Vec::new());
        let mut elements: Vec<Written> = (0..numbers.below(8))
            .map(|_| record(&mut numbers, &mut counts, &mut micrometres))
            .collect();
        // One or two of them; only the first counts.
        let at = numbers.below(elements.len() as u64 + 1) as usize;
        for at in [at, elements.len() + 1].into_iter().take(1 + numbers.below(2) as usize) {
            let other = match numbers.below(3) {
                0 => Written { text: numbers.one_of(&SCALARS).to_string(), nodes: 1 },
                1 => {
                    let item = object(&mut numbers, 1, None);
                    container(&mut numbers, ["[", "]"], vec![item])
                }
                _ => {
                    let item = value(&mut numbers, 1);
                    container(&mut numbers, ["(", ")"], vec![item])
                }
            };
            elements.insert(at.min(elements.len()), other);
        }
        let node = 1 + elements[..at].iter().map(|element| element.nodes).sum::<u64>();
        let written = container(&mut numbers, ["[", "]"], elements);
        let text = written.text.as_bytes();
        let mut reading = vec![0; written.nodes as usize * ROW];
        assert_eq!(read(text, &mut reading), Ok(written.nodes as usize), "{}", written.text);
        let mut table = vec![RUBBISH; reading.len()];
        let refused = summary(text, &mut table);
        assert_eq!(refused, Err(Refusal { number: 21, place: node }), "{}", written.text);
        assert_eq!(table, reading);
        not_its_index += u32::from(node != at as u64 + 1);
    }
    assert!(not_its_index > 500, "{not_its_index}");
}
