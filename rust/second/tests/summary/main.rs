//! Document 02's request 05: what is counted as measured, null, absent and
//! unfit, the least, greatest and mean of what is measured, and where 21 is
//! given, on both sides of each clause. Expected numbers are worked out by hand
//! from the papers: the key's number is one of millimetres, and a millimetre is
//! 1,000 micrometres.

#[path = "../common/mod.rs"]
mod common;
mod made_up;
mod means;
mod numbers;
mod records;
mod refusals;
mod tables;

use common::{Numbers, Row, NONE, RUBBISH};
use second::summary::{summary, Counts, Heights, Summary};
use second::{read, Refusal, MAX_NODES, MAX_TEXT, ROW};

/// How a text is named where a test fails; a long one by its ends.
fn named(text: &[u8]) -> String {
    match text.len() {
        0..=120 => text.escape_ascii().to_string(),
        length => {
            let (front, back) = (&text[..40], &text[length - 40..]);
            format!("{}..{} ({length} bytes)", front.escape_ascii(), back.escape_ascii())
        }
    }
}

/// The answer for a text that reads, from tables of several sizes that start
/// out full of rubbish. Each is the text's reading afterwards, whatever the
/// answer.
#[track_caller]
fn answer(text: &[u8]) -> Result<Summary, Refusal> {
    let mut reading = vec![7; (MAX_NODES + 3) * ROW];
    let nodes = read(text, &mut reading).unwrap_or_else(|e| panic!("{e:?}: {}", named(text)));
    let mut table = vec![RUBBISH; reading.len()];
    let answer = summary(text, &mut table);
    assert_eq!(table, reading, "{}", named(text));
    for further in [0, 5, ROW, 2 * ROW + 7] {
        let words = nodes * ROW + further;
        let mut table = vec![RUBBISH; words];
        assert_eq!(summary(text, &mut table), answer, "{}", named(text));
        // "Words after the last node are 0", so what is cut off is zeros.
        assert_eq!(table, reading[..words], "{}", named(text));
    }
    answer
}

/// A summary of these counts, measured, null, absent and unfit, and of these
/// heights, least, greatest and mean.
fn of([measured, null, absent, unfit]: [u64; 4], heights: Option<[f64; 3]>) -> Summary {
    let counts = Counts { measured, null, absent, unfit };
    let heights = heights.map(|[least, greatest, mean]| Heights { least, greatest, mean });
    Summary { counts, heights }
}

/// The heights to the last bit: 0 and -0 are equal as floats.
fn bits(summary: Summary) -> Option<[u64; 3]> {
    let Heights { least, greatest, mean } = summary.heights?;
    Some([least, greatest, mean].map(f64::to_bits))
}

/// The text has these counts and these heights.
#[track_caller]
fn holds(text: impl AsRef<[u8]>, counts: [u64; 4], heights: Option<[f64; 3]>) {
    let text = text.as_ref();
    let expected = of(counts, heights);
    let answer = answer(text);
    assert_eq!(answer, Ok(expected), "{}", named(text));
    assert_eq!(answer.ok().and_then(bits), bits(expected), "{}", named(text));
}

/// The text reads, and this node of it is the first that has another shape.
#[track_caller]
fn misshapen(text: impl AsRef<[u8]>, node: u64) {
    let text = text.as_ref();
    assert_eq!(answer(text), Err(Refusal { number: 21, place: node }), "{}", named(text));
}

/// The text doesn't read; a table of so many words is all zeros afterwards.
#[track_caller]
fn refused_with(words: usize, text: impl AsRef<[u8]>, number: u32, place: u64) {
    let text = text.as_ref();
    let mut table = vec![RUBBISH; words];
    let answer = summary(text, &mut table);
    assert_eq!(answer, Err(Refusal { number, place }), "{}", named(text));
    assert_eq!(table, vec![0; words], "{}", named(text));
}

/// The text doesn't read, however large the table.
#[track_caller]
fn refused(text: impl AsRef<[u8]>, number: u32, place: u64) {
    refused_with(40 * ROW, &text, number, place);
    refused_with((MAX_NODES + 1) * ROW + 5, &text, number, place);
}

/// One record with nothing but this height, which stands at 12.
fn alone(written: &str) -> String {
    format!("[{{height_mm:{written}}}]")
}

/// The height is so many micrometres.
#[track_caller]
fn measured(written: &str, micrometres: u32) {
    let height = f64::from(micrometres);
    holds(alone(written), [1, 0, 0, 0], Some([height; 3]));
}

/// The height is null.
#[track_caller]
fn null(written: &str) {
    holds(alone(written), [0, 1, 0, 0], None);
}

/// The height is unfit.
#[track_caller]
fn unfit(written: &str) {
    holds(alone(written), [0, 0, 0, 1], None);
}

// The request's own cases.

#[test]
fn the_request() {
    // "0.250e1 is 2.5, and -0.0 is 0."
    let mut table = [RUBBISH; 5 * ROW];
    let answer = summary(b"[{height_mm:0.250e1},{height_mm:-0.0}]", &mut table);
    let counts = Counts { measured: 2, null: 0, absent: 0, unfit: 0 };
    // The sum is 2500 + 0, and the count 2.
    let heights = Heights { least: 0.0, greatest: 2500.0, mean: 1250.0 };
    assert_eq!(answer, Ok(Summary { counts, heights: Some(heights) }));
    measured("0.250e1", 2_500);
    measured("2.5", 2_500);
    measured("-0.0", 0);
    measured("0", 0);
}

#[test]
fn one_of_each() {
    let text = "[{height_mm:712},{height_mm:null},{},{height_mm:\"712\"}]";
    holds(text, [1, 1, 1, 1], Some([712_000.0; 3]));
    // Different counts, so that none can be taken for another.
    let text = "[{height_mm:1},{height_mm:null},{a:1},{height_mm:true},{height_mm:2},\
                {height_mm:null},{},{height_mm:6},{height_mm:null},{height_mm:4}]";
    holds(text, [4, 3, 2, 1], Some([1_000.0, 6_000.0, 3_250.0]));
    let text = "[{height_mm:-1},{},{height_mm:0.0001},{},{height_mm:null},{height_mm:1e5},\
                {height_mm:()},{},{height_mm:null},{height_mm:0.001}]";
    holds(text, [1, 2, 3, 4], Some([1.0; 3]));
}
