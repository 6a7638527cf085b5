//! Least, greatest and mean.

use super::*;

/// Records of these heights, as they are written.
fn all(written: &[&str]) -> String {
    let records: Vec<String> = written.iter().map(|it| format!("{{height_mm:{it}}}")).collect();
    format!("[{}]", records.join(","))
}

#[test]
fn least_and_greatest() {
    // In any order, and not by how they are written: 9 is less than 10.
    for written in [["9", "10", "2.5"], ["10", "2.5", "9"], ["2.5", "9", "10"]] {
        let mean = 21_500.0 / 3.0;
        holds(all(&written), [3, 0, 0, 0], Some([2_500.0, 10_000.0, mean]));
    }
    let written = ["1e3", "9e-1", "0x63", "25_00e-1", "+0.99"];
    // 1,000,000, 900, 99,000, 250,000 and 990.
    let heights = [900.0, 1_000_000.0, 270_178.0];
    holds(all(&written), [5, 0, 0, 0], Some(heights));
    // The bounds themselves.
    holds(all(&["0", "10000"]), [2, 0, 0, 0], Some([0.0, 10_000_000.0, 5_000_000.0]));
    holds(all(&["1e4", "0.001"]), [2, 0, 0, 0], Some([1.0, 10_000_000.0, 5_000_000.5]));
    // What isn't measured is neither the least nor the greatest.
    let written = ["-5", "5", "null", "\"0\"", "10001", "6", "0.0001"];
    holds(all(&written), [2, 1, 0, 4], Some([5_000.0, 6_000.0, 5_500.0]));
}

#[test]
fn means_that_are_no_whole_number() {
    for (written, least, greatest, mean) in [
        // 3 by 2, 1 by 3, 2 by 3, 7 by 3, 1 by 10, 10 by 7.
        (&["0.001", "0.002"][..], 1.0, 2.0, 1.5),
        (&["0.001", "0", "0"], 0.0, 1.0, 0.3333333333333333),
        (&["0", "0.002", "0"], 0.0, 2.0, 0.6666666666666666),
        (&["0.001", "0.002", "0.004"], 1.0, 4.0, 2.3333333333333335),
        (&["0", "0", "0", "0", "0", "0", "0", "0", "0", "0.001"], 0.0, 1.0, 0.1),
        (&["0.004", "0.001", "0.001", "0.001", "0.001", "0.001", "0.001"], 1.0, 4.0, 10.0 / 7.0),
        (&["9999.999", "10000"], 9_999_999.0, 10_000_000.0, 9_999_999.5),
    ] {
        holds(all(written), [written.len() as u64, 0, 0, 0], Some([least, greatest, mean]));
    }
}

/// "the exact sum as a float divided once": neither are parts divided, nor are
/// floats of millimetres added up.
#[test]
fn the_sum_is_exact_and_divided_once() {
    // A tenth taken ten times is not 1 as floats go.
    assert_ne!([0.1; 10].iter().sum::<f64>(), 1.0);
    holds(all(&["0.001"; 10]), [10, 0, 0, 0], Some([1.0; 3]));
    holds(all(&["0.1"; 10]), [10, 0, 0, 0], Some([100.0; 3]));
    // Nor is 1.001 a thousand times.
    assert_ne!(1.001 * 1000.0, 1001.0);
    holds(all(&["1.001"; 3]), [3, 0, 0, 0], Some([1_001.0; 3]));
    // 49 by 49: a mean by the count's reciprocal is less than 1.
    assert_ne!(49.0 * (1.0 / 49.0), 1.0);
    holds(all(&["0.001"; 49]), [49, 0, 0, 0], Some([1.0; 3]));
}

#[test]
fn as_many_records_as_there_can_be() {
    // A root and 4,095 records.
    let text = format!("[{}{{}}]", "{},".repeat(4_094));
    holds(text, [0, 0, 4_095, 0], None);
    // A root and 2,047 records with a height each are 4,095 nodes.
    let text = format!("[{}]", "{height_mm:1e4},".repeat(2_047));
    holds(text, [2_047, 0, 0, 0], Some([10_000_000.0; 3]));
    // With one a micrometre less the sum is 20,469,999,999.
    let text = format!("[{}{{height_mm:9999.999}}]", "{height_mm:1e4},".repeat(2_046));
    let heights = [9_999_999.0, 10_000_000.0, 20_469_999_999.0 / 2_047.0];
    holds(text, [2_047, 0, 0, 0], Some(heights));
    // The 4,096th node is one more record.
    let text = format!("[{}{{}}]", "{height_mm:null},".repeat(2_047));
    holds(text, [0, 2_047, 1, 0], None);
    let text = format!("[{}{{}},{{}}]", "{height_mm:null},".repeat(2_047));
    // `[`, 2,047 times 17 bytes, and three for `{},`.
    refused_with((MAX_NODES + 1) * ROW, text, 10, 34_803);
}

#[test]
fn as_long_and_as_deep_as_can_be() {
    // 12 bytes before the number and 2 behind it, and 3 that are no such zero.
    let text = alone(&format!("0x{}5", "0".repeat(65_519)));
    assert_eq!(text.len(), MAX_TEXT);
    holds(&text, [1, 0, 0, 0], Some([5_000.0; 3]));
    refused(format!("{text} "), 1, 65_536);
    // 65,514 fraction digits: p at 400 and -400, and around what is measured.
    let zeros = "0".repeat(65_513);
    for (written, micrometres) in [
        (format!("0.{zeros}0e65914"), 0),
        (format!("0.{zeros}0e65114"), 0),
        (format!("0.{zeros}1e65518"), 10_000_000),
        (format!("0.{zeros}1e65511"), 1),
    ] {
        assert_eq!(alone(&written).len(), MAX_TEXT);
        measured(&written, micrometres);
    }
    for exponent in ["65914", "65519", "65510", "65114"] {
        unfit(&format!("0.{zeros}1e{exponent}"));
    }
    // Root and record are two containers, and 30 more may be in them.
    let inner = "[".repeat(30) + &"]".repeat(30);
    holds(format!("[{{a:{inner},height_mm:5}}]"), [1, 0, 0, 0], Some([5_000.0; 3]));
    holds(format!("[{{height_mm:{inner}}}]"), [0, 0, 0, 1], None);
    // The 31st is at 4 and 30 more, or at 12 and 30 more.
    refused(format!("[{{a:[{inner}],height_mm:5}}]"), 9, 34);
    refused(format!("[{{height_mm:[{inner}]}}]"), 9, 42);
}
