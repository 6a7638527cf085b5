//! The season's summary over the real archive: document 02's request 05. Counts,
//! heights and numbers of nodes are worked out by hand. The key's number is one
//! of millimetres, and a millimetre is 1,000 micrometres.

use duper::{read, summary, Counts, Document, Heights, Reason, Refusal, Summary};
use duper::{MAX_NODES, MAX_TEXT, ROW};

fn refusal(number: u32, place: u32) -> Refusal {
    Refusal { number, place }
}

/// A summary of these counts, measured, null, absent and unfit, and of these
/// heights, least, greatest and mean.
fn of([measured, null, absent, unfit]: [u64; 4], heights: Option<[f64; 3]>) -> Summary {
    let counts = Counts { measured, null, absent, unfit };
    let heights = heights.map(|[least, greatest, mean]| Heights { least, greatest, mean });
    Summary { counts, heights }
}

/// To the last bit, as 0 and -0 are equal as floats.
fn bits(summary: Summary) -> Option<[u64; 3]> {
    let Heights { least, greatest, mean } = summary.heights?;
    Some([least, greatest, mean].map(f64::to_bits))
}

/// The answer for a text that reads. The table is its reading afterwards,
/// whatever the answer; and a document answers the same.
#[track_caller]
fn answer(text: &[u8]) -> Result<Summary, Refusal> {
    let mut reading = vec![9; (MAX_NODES + 3) * ROW];
    let nodes = read(text, &mut reading).expect("it reads");
    let mut table = vec![7; reading.len()];
    let answer = summary(text, &mut table);
    assert_eq!(table, reading, "{}", text.escape_ascii());
    for further in [0, 1, 2 * ROW + 5] {
        let mut table = vec![7; nodes * ROW + further];
        assert_eq!(summary(text, &mut table), answer, "{}", text.escape_ascii());
        assert_eq!(table, reading[..table.len()], "{}", text.escape_ascii());
    }
    let document = Document::read(text).expect("it reads");
    assert_eq!(document.summary(), answer, "{}", text.escape_ascii());
    answer
}

/// The text has these counts and these heights.
#[track_caller]
fn holds(text: impl AsRef<[u8]>, counts: [u64; 4], heights: Option<[f64; 3]>) {
    let text = text.as_ref();
    let expected = of(counts, heights);
    let answer = answer(text);
    assert_eq!(answer, Ok(expected), "{}", text.escape_ascii());
    assert_eq!(answer.ok().and_then(bits), bits(expected), "{}", text.escape_ascii());
    assert_eq!(expected.counts.records(), counts.iter().sum::<u64>());
}

/// The text reads, and this node of it is the first that has another shape.
#[track_caller]
fn misshapen(text: impl AsRef<[u8]>, node: usize) {
    let text = text.as_ref();
    let refused = answer(text).expect_err("another shape");
    assert_eq!((refused.number, refused.node()), (21, Some(node)), "{}", text.escape_ascii());
    assert_eq!((refused.reason(), refused.step()), (Some(Reason::NotRecords), None));
}

/// One record with nothing but this height.
fn alone(written: &str) -> String {
    format!("[{{height_mm:{written}}}]")
}

#[track_caller]
fn measured(written: &str, micrometres: u32) {
    holds(alone(written), [1, 0, 0, 0], Some([f64::from(micrometres); 3]));
}

#[track_caller]
fn unfit(written: &str) {
    holds(alone(written), [0, 0, 0, 1], None);
}

/// Two measured, one of each other sort, and one absent more.
const SEASON: &str = r#"
    // "missing heights counted apart from measured ones"
    Season([
        {ball: 1, height_mm: 412.5},
        Ball({ball: 2, height_mm: null}), // lost sight of it
        {ball: 3, "height\u005Fmm": Millimetres(0)}, /* it did not rise */
        {},
        {ball: 5, height_mm: "tall"},
        {ball: 6, height: 398},
    ])
"#;

#[test]
fn one_of_each_sort() {
    // The sum of 412,500 and 0 micrometres, divided by 2.
    holds(SEASON, [2, 1, 2, 1], Some([0.0, 412_500.0, 206_250.0]));
    // Different counts, so that none can be taken for another.
    let text = "[{height_mm:1},{height_mm:null},{a:1},{height_mm:true},{height_mm:2},\
                {height_mm:null},{},{height_mm:6},{height_mm:null},{height_mm:4}]";
    holds(text, [4, 3, 2, 1], Some([1_000.0, 6_000.0, 3_250.0]));
}

#[test]
fn the_request_s_own_numbers() {
    // "0.250e1 is 2.5, and -0.0 is 0."
    measured("0.250e1", 2_500);
    measured("2.5", 2_500);
    measured("-0.0", 0);
    let text = "[{height_mm:0.250e1},{height_mm:-0.0}]";
    holds(text, [2, 0, 0, 0], Some([0.0, 2_500.0, 1_250.0]));
}

#[test]
fn whole_micrometres_from_0_to_10_000_000() {
    for (written, micrometres) in [
        ("0", 0),
        ("-0", 0),
        ("+1", 1_000),
        ("412.5", 412_500),
        ("1_2.3_4_5", 12_345),
        ("0.001", 1),
        ("1e-3", 1),
        ("0.000000001e6", 1),
        ("1000000000000000000e-21", 1),
        ("9999.999", 9_999_999),
        ("9.999999e3", 9_999_999),
        ("10000", 10_000_000),
        ("10000.000", 10_000_000),
        ("1e4", 10_000_000),
        ("1e0_4", 10_000_000),
        ("0x2710", 10_000_000),
        ("0o23420", 10_000_000),
        ("0b10011100010000", 10_000_000),
        ("0e400", 0),
        ("-0.00e-398", 0),
    ] {
        measured(written, micrometres);
    }
    for written in [
        "10001",
        "10000.001",
        "10000001e-3",
        "1e5",
        "1e400",
        "0x2711",
        "9223372036854775807",
        "9223372036854775807e-400",
        "-1",
        "-0.001",
        "-1e-400",
        "-9223372036854775808",
        "0.0001",
        "0.0005",
        "0.0011",
        "1e-4",
        "9999.9999",
        // As floats these are whole.
        "1.000000000000000001",
        "9999.99900000000001",
        // 2^32 and 2^64 micrometres, and some more.
        "4294967.296",
        "4294968",
        "18446744073709552",
        "1e61",
        "1e64",
    ] {
        unfit(written);
    }
}

#[test]
fn what_is_no_number() {
    for written in [
        "true",
        "false",
        "\"\"",
        "\"412.5\"",
        "r\"0\"",
        "b\"0\"",
        "b64\"MA\"",
        "[]",
        "[412.5]",
        "(0,)",
        "{}",
        "{height_mm:412.5}",
        "\"null\"",
    ] {
        unfit(written);
        unfit(&format!("Height({written})"));
    }
    holds(alone("null"), [0, 1, 0, 0], None);
    holds(alone("Lost(null)"), [0, 1, 0, 0], None);
    measured("Millimetres( 2.5 )", 2_500);
}

#[test]
fn the_key_is_known_by_its_content() {
    for key in [
        "height_mm",
        "\"height_mm\"",
        "r\"height_mm\"",
        "r##\"height_mm\"##",
        r#""h\x65ight_mm""#,
        r#""height\u005fmm""#,
        r#""\U00000068eight_m\x6D""#,
    ] {
        holds(format!("[{{{key}:2.5}}]"), [1, 0, 0, 0], Some([2_500.0; 3]));
        holds(format!("[{{a:1, {key} : null, b:2}}]"), [0, 1, 0, 0], None);
    }
    for key in [
        "height",
        "height_m",
        "height_mmm",
        "height-mm",
        "Height_mm",
        "HEIGHT_MM",
        "a_height_mm",
        "\"\"",
        "\" height_mm\"",
        "\"height_mm \"",
        r#""height_mm\0""#,
        r#""h\\x65ight_mm""#,
        r#"r"h\x65ight_mm""#,
    ] {
        holds(format!("[{{{key}:2.5}}]"), [0, 0, 1, 0], None);
    }
    // Neither a value, an identifier, nor a key further in.
    for record in [
        r#"{a:"height_mm"}"#,
        "Height-mm({a:1})",
        "{a:{height_mm:2.5}}",
        "{a:[{height_mm:2.5}]}",
        "{a:({height_mm:null},)}",
    ] {
        holds(format!("[{record}]"), [0, 0, 1, 0], None);
    }
    let text = "[{a:{height_mm:1},height_mm:2,b:{height_mm:3}}]";
    holds(text, [1, 0, 0, 0], Some([2_000.0; 3]));
}

#[test]
fn no_measured_height_is_no_height_at_all() {
    holds("[]", [0; 4], None);
    holds("Season([,])", [0; 4], None);
    holds("[{},{}]", [0, 0, 2, 0], None);
    holds("[{height_mm:null},{height_mm:-1},{}]", [0, 1, 1, 1], None);
    // One is enough, and 0 is one.
    holds("[{height_mm:null},{height_mm:-1},{},{height_mm:0}]", [1, 1, 1, 1], Some([0.0; 3]));
}

#[test]
fn the_mean_is_rounded_once() {
    // 1 + 1 + 2 micrometres: 4 as a float divided by 3 as a float.
    let text = "[{height_mm:0.001},{height_mm:0.001},{height_mm:0.002}]";
    holds(text, [3, 0, 0, 0], Some([1.0, 2.0, 4.0 / 3.0]));
    // Null, absent and unfit are no part of it.
    let text = "[{height_mm:0.001},{height_mm:null},{height_mm:0.002},{},{height_mm:9e9}]";
    holds(text, [2, 1, 1, 1], Some([1.0, 2.0, 1.5]));
    // The most records with a height: 1,024 of the greatest and 1,023 of 0.
    let [high, low] = ["{height_mm:1e4},", "{height_mm:0},"];
    let text = format!("[{}{}]", high.repeat(1_024), low.repeat(1_023));
    let mean = 10_240_000_000.0 / 2_047.0;
    holds(text, [2_047, 0, 0, 0], Some([0.0, 10_000_000.0, mean]));
    // The most records.
    holds(format!("[{}]", "{},".repeat(4_095)), [0, 0, 4_095, 0], None);
}

#[test]
fn a_root_or_element_of_another_shape() {
    for root in ["{}", "()", "(,)", "Season({})", "({height_mm:1},)", "{height_mm:1}", "{a:[{}]}"] {
        misshapen(root, 0);
    }
    for element in ["1", "null", "2.5", "\"{}\"", "true", "[]", "[{}]", "()", "({},)", "A(null)"] {
        misshapen(format!("[{element}]"), 1);
        misshapen(format!("A([{element},{{}}])"), 1);
        misshapen(format!("[{{}},{element},null]"), 2);
        // A record of four nodes before it.
        misshapen(format!("[{{height_mm:1,a:[2]}},{element}]"), 5);
    }
    // A node's number, and neither the element's nor a place in the text.
    misshapen("[{a:[1,2,3]},{b:{c:null}},{},4]", 10);
}

#[test]
fn a_text_that_does_not_read() {
    for (text, number, place) in [
        (&b""[..], 7, 0),
        (b"[{height_mm:00}]", 3, 12),
        (b"[{height_mm:\"\\q\"}]", 4, 12),
        (b"[{height_mm:9223372036854775808}]", 5, 12),
        (b"[{height_mm:1e401}]", 5, 12),
        (b"[{height_mm:'12'}]", 6, 12),
        (b"[{height_mm:1}", 7, 14),
        (br#"[{height_mm:1,"h\x65ight_mm":2}]"#, 8, 14),
        (b"[{},{},{},{}]", 10, 10),
        (b"[{}]\xFF", 2, 4),
        (&[b' '; MAX_TEXT + 1], 1, 65_536),
        // Also where 21 would follow: "after 1 to 10".
        (b"{a:1,a:2}", 8, 5),
        (b"[1,2,3,4]", 10, 7),
        (b"(00)", 3, 1),
    ] {
        // Room for four nodes.
        let mut table = [9; 4 * ROW + 7];
        let answer = summary(text, &mut table);
        assert_eq!(answer, Err(refusal(number, place)), "{}", text.escape_ascii());
        assert_eq!(table, [0; 4 * ROW + 7]);
    }
    let mut table = [9; 40 * ROW];
    assert_eq!(summary(&[b'['; 33], &mut table), Err(refusal(9, 32)));
    assert_eq!(table, [0; 40 * ROW]);
}

#[test]
fn empty_slices_are_fine() {
    assert_eq!(summary(b"", &mut []), Err(refusal(7, 0)));
    assert_eq!(summary(&[], &mut [5; 3]), Err(refusal(7, 0)));
    assert_eq!(summary(b"[]", &mut []), Err(refusal(10, 0)));
    assert_eq!(summary(b"[]", &mut [5; ROW]), Ok(of([0; 4], None)));
}

#[test]
fn a_document_s_summary_follows_its_corrections() {
    let mut document = Document::read(SEASON).unwrap();
    let before = document.summary().unwrap();
    let lost = document.find("1.height_mm").unwrap().number();
    document.correct(lost, "398").unwrap();
    // 412,500, 398,000 and 0 micrometres: the sum is 810,500.
    let heights = Some([0.0, 412_500.0, 810_500.0 / 3.0]);
    assert_eq!(document.summary(), Ok(of([3, 0, 2, 1], heights)));

    // A record that is no longer one: node 4, as the root is 0, and the record
    // before it has nodes 1 to 3.
    let record = document.find("1").unwrap().number();
    assert_eq!(record, 4);
    document.correct(record, "[398]").unwrap();
    let refused = document.summary().unwrap_err();
    assert_eq!(refused, refusal(21, 4));
    assert_eq!(refused.to_string(), "the root is not an array of objects (refusal 21 at node 4)");
    document.undo_all().unwrap();
    assert_eq!(document.summary(), Ok(before));
}
