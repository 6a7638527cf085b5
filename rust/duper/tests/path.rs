//! Asking by path over the real archive: document 02's request 09. The numbers
//! of nodes and steps are worked out by hand.

use duper::{find, read, Document, Kind, Reason, Refusal, ROW};

fn refusal(number: u32, place: u32) -> Refusal {
    Refusal { number, place }
}

/// No child for this step.
fn stuck(step: u32) -> Result<usize, Refusal> {
    Err(refusal(23, step))
}

/// Asks for each path; the table must be the reading each time.
fn asked(text: &[u8], answers: &[(&[u8], Result<usize, Refusal>)]) {
    let words = 40 * ROW + 5;
    let mut reading = vec![9; words];
    read(text, &mut reading).unwrap();
    for (path, expected) in answers {
        let mut table = vec![7; words];
        let answer = find(text, &mut table, path);
        let path = path.escape_ascii();
        assert_eq!(answer, *expected, "{}: {path}", text.escape_ascii());
        assert_eq!(table, reading, "{}: {path}", text.escape_ascii());
    }
}

/// Nodes: 0 the root; 1 balls; 2 `{}`; 3 the ball with 4, 5; 6 null; 7 the ball
/// with 8; 9 the tuple with 10, 11; 12 rig.
const SEASON: &[u8] = br#"
    // "Staff want `balls.3.height_mm`."
    Season({
        balls: [
            {},
            Ball({height_mm: 412.5, "n": 2}),
            null,
            { "height\u005Fmm": Millimetres(398), },
        ],
        at: (53.5, -1.75,),
        rig: "north",
    })
"#;

#[test]
fn the_request_s_own_path() {
    asked(
        SEASON,
        &[
            (b"balls.3.height_mm", Ok(8)),
            (b"balls.1.height_mm", Ok(4)),
            (b"balls.1.n", Ok(5)),
            (b"balls.2", Ok(6)),
            (b"balls.0", Ok(2)),
            (b"balls", Ok(1)),
            (b"", Ok(0)),
            (b"at.1", Ok(11)),
            (b"rig", Ok(12)),
        ],
    );
}

#[test]
fn the_first_step_without_a_child() {
    asked(
        SEASON,
        &[
            (b"ball", stuck(0)),
            (b"ball.3.height_mm", stuck(0)),
            (b"balls.4.height_mm", stuck(1)),
            (b"balls.3.height", stuck(2)),
            (b"balls.3.height_mm.0", stuck(3)),
            (b"balls.2.height_mm", stuck(2)),
            (b"balls.0.height_mm", stuck(2)),
            (b"rig.0", stuck(1)),
            (b"rig.north", stuck(1)),
            (b"at.2", stuck(1)),
            // An identifier is no step.
            (b"Season", stuck(0)),
            (b"Season.balls", stuck(0)),
            (b"balls.1.Ball", stuck(2)),
            (b"balls.3.height_mm.Millimetres", stuck(3)),
            // Neither a number of a node nor a key of another object.
            (b"balls.n", stuck(1)),
            (b"balls.7", stuck(1)),
            (b"0", stuck(0)),
            (b"height_mm", stuck(0)),
            // Dots before, behind and between.
            (b".", stuck(0)),
            (b".balls", stuck(0)),
            (b"balls.", stuck(1)),
            (b"balls..3", stuck(1)),
            (b"balls.3.", stuck(2)),
            (b"balls.3.height_mm.", stuck(3)),
            (b"balls.3..", stuck(2)),
        ],
    );
}

#[test]
fn a_step_in_an_array_is_a_decimal_index() {
    // The root's children are 1 to 12.
    for text in [&b"[0,1,2,3,4,5,6,7,8,9,10,11]"[..], b"A((0,1,2,3,4,5,6,7,8,9,10,11,))"] {
        asked(
            text,
            &[
                (b"0", Ok(1)),
                (b"1", Ok(2)),
                (b"9", Ok(10)),
                (b"10", Ok(11)),
                (b"11", Ok(12)),
                (b"12", stuck(0)),
                // "without leading zeros"
                (b"00", stuck(0)),
                (b"01", stuck(0)),
                (b"010", stuck(0)),
                (b"000000000000000000000000000000", stuck(0)),
                (b"+1", stuck(0)),
                (b"-0", stuck(0)),
                (b"-1", stuck(0)),
                (b"1_0", stuck(0)),
                (b"1 ", stuck(0)),
                (b" 1", stuck(0)),
                (b"1\0", stuck(0)),
                (b"0x1", stuck(0)),
                (b"1e0", stuck(0)),
                (b"a", stuck(0)),
                (b"\xFF", stuck(0)),
                // The bytes beside the digits: `1/` is not 9, nor `:` 10.
                (b":", stuck(0)),
                (b"1/", stuck(0)),
                ("\u{661}".as_bytes(), stuck(0)),
                // 2^8, 2^16, 2^32, 2^64 and 2^128, and one more.
                (b"256", stuck(0)),
                (b"257", stuck(0)),
                (b"65536", stuck(0)),
                (b"4294967295", stuck(0)),
                (b"4294967296", stuck(0)),
                (b"4294967297", stuck(0)),
                (b"18446744073709551615", stuck(0)),
                (b"18446744073709551616", stuck(0)),
                (b"18446744073709551617", stuck(0)),
                (b"340282366920938463463374607431768211457", stuck(0)),
                (b".", stuck(0)),
                (b".0", stuck(0)),
                (b"0.", stuck(1)),
                (b"0.0", stuck(1)),
            ],
        );
    }
    asked(b"[]", &[(b"", Ok(0)), (b"0", stuck(0)), (b".", stuck(0))]);
    asked(b"(,)", &[(b"", Ok(0)), (b"0", stuck(0)), (b".", stuck(0))]);
}

#[test]
fn an_index_counts_children_alone() {
    // 0 the root; 1 [; 2 [; 3, 4; 5 {; 6, 7; 8; 9 (; 10 (
    asked(
        b"[[[1, 2], {a: 3, b: 4}], 5, (())]",
        &[
            (b"0", Ok(1)),
            (b"0.0", Ok(2)),
            (b"0.0.1", Ok(4)),
            (b"0.1", Ok(5)),
            (b"0.1.b", Ok(7)),
            (b"1", Ok(8)),
            (b"2", Ok(9)),
            (b"2.0", Ok(10)),
            (b"2.0.0", stuck(2)),
            (b"3", stuck(0)),
            (b"0.2", stuck(1)),
        ],
    );
}

#[test]
fn a_step_in_an_object_is_the_content_of_a_key() {
    // Members 1 to 7.
    let text = br##"{a: 1, "b\x63": 2, r#"d"e"#: 3, "\u00e9": 4, "0": 5, "01": 6, "f\0": 7}"##;
    asked(
        text,
        &[
            (b"a", Ok(1)),
            (b"bc", Ok(2)),
            (b"d\"e", Ok(3)),
            ("é".as_bytes(), Ok(4)),
            (b"0", Ok(5)),
            (b"01", Ok(6)),
            (b"f\0", Ok(7)),
            (b"b\\x63", stuck(0)),
            (b"\"b\\x63\"", stuck(0)),
            (b"\"a\"", stuck(0)),
            (br##"r#"d"e"#"##, stuck(0)),
            (b"\\u00e9", stuck(0)),
            (b"\xC3", stuck(0)),
            (b"f", stuck(0)),
            (b"f\0\0", stuck(0)),
            (b"A", stuck(0)),
            (b"aa", stuck(0)),
            (b"b", stuck(0)),
            (b"1", stuck(0)),
            (b"a ", stuck(0)),
        ],
    );
}

#[test]
fn empty_keys_and_keys_with_dots() {
    // 0 the root; 1 the value of the empty key; 2 that of its empty key; 3 c; 4
    // a.b; 5 a; 6 b.
    let text = br#"{"": {"": 1, c: 2}, "a.b": 3, a: {b: 4}, ".": 5}"#;
    asked(
        text,
        &[
            // "the empty path is the root", and not the empty key.
            (b"", Ok(0)),
            (b".", Ok(2)),
            (b".c", Ok(3)),
            (b"..", stuck(2)),
            (b"...", stuck(2)),
            (b".c.", stuck(2)),
            // A key with a dot in it can't be reached.
            (b"a.b", Ok(6)),
            (b"a", Ok(5)),
            (b"a.b.", stuck(2)),
        ],
    );
    asked(br#"{"a.b": 1, ".": 2, "": 3}"#, &[(b"a.b", stuck(0)), (b".", stuck(1))]);
}

#[test]
fn comments_and_spaces_change_no_answer() {
    let plain = b"{a:[1,{b:2}]}";
    let annotated = b"/*0*/{ a // 1.\n:[1,/*.*/A( {\tb: 2\r} ) ] } // .";
    for text in [&plain[..], annotated] {
        asked(text, &[(b"a.0", Ok(2)), (b"a.1", Ok(3)), (b"a.1.b", Ok(4)), (b"a.2", stuck(1))]);
    }
}

#[test]
fn a_text_that_does_not_read() {
    for (text, number, place) in [
        (&b""[..], 7, 0),
        (b"[,,]", 7, 2),
        (br#"{a:1,"\x61":2}"#, 8, 5),
        (b"[1, 00]", 3, 4),
        (b"['", 6, 1),
        (b"[1] x", 7, 4),
        (b"[1,2,3]", 10, 5),
        (b"\xFF", 2, 0),
        (&[b' '; 65_537], 1, 65_536),
    ] {
        for path in [&b""[..], b"0", b".", b"a", b"9.9"] {
            let mut table = [9; 40];
            assert_eq!(find(text, &mut table, path), Err(refusal(number, place)));
            assert_eq!(table, [0; 40]);
        }
    }
    // With just enough room it is read.
    let mut table = [9; 36];
    assert_eq!(find(b"[1,2]", &mut table, b"1"), Ok(2));
    assert_eq!(find(b"[1,2]", &mut table[..35], b"0"), Err(refusal(10, 3)));
    assert_eq!(table[..35], [0; 35]);
}

#[test]
fn empty_slices_are_fine() {
    assert_eq!(find(b"", &mut [], b""), Err(refusal(7, 0)));
    assert_eq!(find(b"[]", &mut [], b""), Err(refusal(10, 0)));
    assert_eq!(find(b"[]", &mut [0; ROW], b""), Ok(0));
    assert_eq!(find(&[], &mut [5; 3], b"0"), Err(refusal(7, 0)));
    // Text and path may be the same bytes.
    let text = b"{\"[\": 1}";
    let mut table = [0; 24];
    assert_eq!(find(text, &mut table, &text[2..3]), Ok(1));
    assert_eq!(find(text, &mut table, text), stuck(0));
}

#[test]
fn long_paths() {
    // "of any length": the depth of the text ends each of them early.
    let mut table = [0; 3 * ROW];
    let digits = "9".repeat(100_000);
    assert_eq!(find(b"[[1]]", &mut table, digits.as_bytes()), stuck(0));
    assert_eq!(find(b"[[1]]", &mut table, format!("0.{digits}").as_bytes()), stuck(1));
    let zeros = "0".repeat(100_000);
    assert_eq!(find(b"[[1]]", &mut table, zeros.as_bytes()), stuck(0));
    assert_eq!(find(b"[[1]]", &mut table, "0.".repeat(100_000).as_bytes()), stuck(2));
    assert_eq!(find(b"[[1]]", &mut table, &[b'.'; 100_000]), stuck(0));
    // A key as long as a text lets it be.
    let key = "k".repeat(65_536 - 4);
    let text = format!("{{{key}:1}}");
    assert_eq!(find(text.as_bytes(), &mut table, key.as_bytes()), Ok(1));
    assert_eq!(find(text.as_bytes(), &mut table, &key.as_bytes()[1..]), stuck(0));
    assert_eq!(find(text.as_bytes(), &mut table, format!("{key}k").as_bytes()), stuck(0));
}

#[test]
fn the_last_node_there_can_be() {
    let text = format!("[{}]", ["0"; 4_095].join(","));
    let mut table = vec![0; 4_096 * ROW];
    assert_eq!(find(text.as_bytes(), &mut table, b"4094"), Ok(4_095));
    assert_eq!(find(text.as_bytes(), &mut table, b"4095"), stuck(0));
    assert_eq!(find(text.as_bytes(), &mut table, b"04094"), stuck(0));
}

#[test]
fn the_greatest_depth() {
    let text = format!("{}1{}", "[".repeat(32), "]".repeat(32));
    let mut table = vec![0; 33 * ROW];
    for steps in 1..=32 {
        let path = vec!["0"; steps].join(".");
        assert_eq!(find(text.as_bytes(), &mut table, path.as_bytes()), Ok(steps));
    }
    for steps in [33, 34, 300] {
        let path = vec!["0"; steps].join(".");
        assert_eq!(find(text.as_bytes(), &mut table, path.as_bytes()), stuck(32));
    }
}

#[test]
fn a_document_is_asked() {
    let mut document = Document::read(SEASON).unwrap();
    let height = document.find("balls.3.height_mm").unwrap();
    assert_eq!((height.number(), height.kind()), (8, Kind::Integer));
    assert_eq!(Some(height), document.node(8));
    assert_eq!(document.find("").unwrap(), document.root().unwrap());
    assert_eq!(document.find(b"at.0").unwrap().number(), 10);

    let refused = document.find("balls.4.height_mm").unwrap_err();
    assert_eq!(refused, refusal(23, 1));
    assert_eq!((refused.reason(), refused.step()), (Some(Reason::NoChild), Some(1)));
    assert_eq!(
        refused.to_string(),
        "a step of the path has no child to go to (refusal 23 at step 1, counted from 0)"
    );
    assert_eq!(document.find("rig.0").unwrap_err().step(), Some(1));

    // Each node is found by the way to it, and the answers follow a correction.
    document.correct(height.number(), "[1, (2, 3)]").unwrap();
    assert_eq!(document.find("balls.3.height_mm.1.0").unwrap().integer(), Some(2));
    assert_eq!(document.find("rig").unwrap().number(), 16);
    document.undo().unwrap();
    assert_eq!(document.find("balls.3.height_mm.1.0"), Err(refusal(23, 3)));
    assert_eq!(document.find("rig").unwrap().number(), 12);
}
