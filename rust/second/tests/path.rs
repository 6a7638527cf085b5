//! Document 02's request 09: the node that a path leads to, or the first of its
//! steps that leads nowhere, on both sides of each clause. Expected numbers are
//! worked out by hand from the papers.

mod common;

use common::{Numbers, Row, NONE, RUBBISH};
use second::path::find;
use second::{read, Refusal, MAX_NODES, MAX_TEXT, ROW};

/// The answer for a text that reads, from tables of several sizes that start
/// out full of rubbish. Each is the text's reading afterwards, whatever the
/// answer.
#[track_caller]
fn answer(text: &[u8], path: &[u8]) -> Result<usize, Refusal> {
    let shown = || format!("{} in {}", path.escape_ascii(), text.escape_ascii());
    let mut reading = vec![7; (MAX_NODES + 3) * ROW];
    let nodes = read(text, &mut reading).unwrap_or_else(|e| panic!("{e:?}: {}", shown()));
    let mut table = vec![RUBBISH; reading.len()];
    let answer = find(text, &mut table, path);
    assert_eq!(table, reading, "{}", shown());
    for further in [0, 5, ROW, 2 * ROW + 7] {
        let words = nodes * ROW + further;
        let mut table = vec![RUBBISH; words];
        assert_eq!(find(text, &mut table, path), answer, "{}", shown());
        // "Words after the last node are 0", so what is cut off is zeros.
        assert_eq!(table, reading[..words], "{}", shown());
        assert!(table[nodes * ROW..].iter().all(|&word| word == 0), "{}", shown());
    }
    answer
}

/// The path leads to the node of this number.
#[track_caller]
fn leads(text: impl AsRef<[u8]>, path: impl AsRef<[u8]>, node: usize) {
    let (text, path) = (text.as_ref(), path.as_ref());
    let shown = format!("{} in {}", path.escape_ascii(), text.escape_ascii());
    assert_eq!(answer(text, path), Ok(node), "{shown}");
}

/// The step of this number, from 0, is the first "that has no child to go to".
#[track_caller]
fn stops(text: impl AsRef<[u8]>, path: impl AsRef<[u8]>, step: u64) {
    let (text, path) = (text.as_ref(), path.as_ref());
    let shown = format!("{} in {}", path.escape_ascii(), text.escape_ascii());
    assert_eq!(answer(text, path), Err(Refusal { number: 23, place: step }), "{shown}");
}

// The root, and one step from it.

#[test]
fn the_empty_path_is_the_root() {
    for text in [
        "{}",
        "[]",
        "()",
        "[,]",
        "(,)",
        "A({})",
        "A([])",
        "A(())",
        "[1]",
        "{a:1}",
        " /**/ [1] // end",
        // Not the child with the empty key.
        r#"{"":1}"#,
        r#"{"":{"":1}}"#,
    ] {
        leads(text, "", 0);
    }
}

#[test]
fn one_step_in_an_object() {
    let text = "{a:10,bb:20,c-c:30}";
    leads(text, "a", 1);
    leads(text, "bb", 2);
    leads(text, "c-c", 3);
    for path in ["b", "bbb", "A", "aa", "c", "c-", "c_c", "0", "1", "10", " a", "a ", "a:", "{a"] {
        stops(text, path, 0);
    }
    leads("{a:1,}", "a", 1);
    stops("{}", "a", 0);
    stops("{}", "0", 0);
}

#[test]
fn one_step_in_an_array_or_tuple() {
    for text in ["[10,20,30]", "(10,20,30)", "[10,20,30,]", "(10,20,30,)"] {
        leads(text, "0", 1);
        leads(text, "1", 2);
        leads(text, "2", 3);
        stops(text, "3", 0);
        // The item itself is no step.
        stops(text, "10", 0);
    }
    for text in ["[]", "()", "[,]", "(,)", "A([])", "A(())"] {
        stops(text, "0", 0);
        stops(text, "1", 0);
        stops(text, "a", 0);
    }
    // A tuple of one.
    leads("(1)", "0", 1);
    leads("(1,)", "0", 1);
    stops("(1)", "1", 0);
    stops("(1,)", "1", 0);
}

// Further steps.

#[test]
fn balls_3_height_mm() {
    let text = "{balls:[null,null,null,{height_mm:12.5}]}";
    leads(text, "balls", 1);
    leads(text, "balls.0", 2);
    leads(text, "balls.1", 3);
    leads(text, "balls.2", 4);
    leads(text, "balls.3", 5);
    leads(text, "balls.3.height_mm", 6);
    stops(text, "ball.3.height_mm", 0);
    stops(text, "balls.4.height_mm", 1);
    stops(text, "balls.2.height_mm", 2);
    stops(text, "balls.3.height", 2);
    stops(text, "balls.3.height_mm.0", 3);
    stops(text, "3.height_mm", 0);
    stops(text, "height_mm", 0);
    stops(text, "balls.height_mm", 1);
}

#[test]
fn past_the_descendants_of_earlier_children() {
    let text = "{over:{ball:1,n:[2,3]},\
                balls:[[4],(5,6),{height_mm:7,x:8},{x:9,height_mm:10}],\
                z:11}";
    for (path, node) in [
        ("over", 1),
        ("over.ball", 2),
        ("over.n", 3),
        ("over.n.0", 4),
        ("over.n.1", 5),
        ("balls", 6),
        ("balls.0", 7),
        ("balls.0.0", 8),
        ("balls.1", 9),
        ("balls.1.0", 10),
        ("balls.1.1", 11),
        ("balls.2", 12),
        ("balls.2.height_mm", 13),
        ("balls.2.x", 14),
        ("balls.3", 15),
        ("balls.3.x", 16),
        ("balls.3.height_mm", 17),
        ("z", 18),
    ] {
        leads(text, path, node);
    }
    stops(text, "over.n.2", 2);
    stops(text, "balls.0.1", 2);
    stops(text, "balls.4", 1);
}

#[test]
fn only_children_count() {
    let text = "{a:{k:1},b:{k:2},k:3}";
    leads(text, "a.k", 2);
    leads(text, "b.k", 4);
    leads(text, "k", 5);
    stops("{a:{b:1}}", "b", 0);
    stops("{a:{b:1},c:{}}", "c.b", 1);
    // Indices count children, not nodes.
    let text = "[[1,2],[3,4]]";
    leads(text, "0", 1);
    leads(text, "0.0", 2);
    leads(text, "0.1", 3);
    leads(text, "1", 4);
    leads(text, "1.0", 5);
    leads(text, "1.1", 6);
    stops(text, "2", 0);
    stops(text, "0.2", 1);
}

#[test]
fn spaces_and_comments_are_no_part_of_a_step() {
    let text = "/*a.0*/ { // b\n a /*.*/ : /*c*/ [ 1 , /*,*/ 2 ] , \"b\"\t:\r\n3 } //.a";
    leads(text, "a", 1);
    leads(text, "a.0", 2);
    leads(text, "a.1", 3);
    leads(text, "b", 4);
    stops(text, " a", 0);
    stops(text, "c", 0);
    stops(text, "a.2", 1);
}

// Identifiers.

#[test]
fn identifiers_are_ignored() {
    let text = "Match({balls:Over([Ball({height_mm:Mm(712)}),Ball({})])})";
    leads(text, "", 0);
    leads(text, "balls", 1);
    leads(text, "balls.0", 2);
    leads(text, "balls.0.height_mm", 3);
    leads(text, "balls.1", 4);
    // Their names are no steps.
    stops(text, "Match", 0);
    stops(text, "Match.balls", 0);
    stops(text, "balls.Over", 1);
    stops(text, "balls.Over.0", 1);
    stops(text, "balls.0.Ball", 2);
    stops(text, "balls.0.height_mm.Mm", 3);
    stops(text, "balls.0.height_mm.0", 3);
    // A key may look like one.
    leads("A({A:B(1)})", "A", 1);
    stops("A({A:B(1)})", "B", 0);
    stops("A({A:B(1)})", "A.B", 1);
}

#[test]
fn an_identifiers_brackets_are_no_tuple() {
    let text = "{c:RGB((255,0,128)),d:RGB(255)}";
    leads(text, "c", 1);
    leads(text, "c.0", 2);
    leads(text, "c.1", 3);
    leads(text, "c.2", 4);
    stops(text, "c.0.0", 2);
    leads(text, "d", 5);
    stops(text, "d.0", 1);
    leads("A((1))", "0", 1);
    stops("A((1))", "0.0", 1);
    leads("((1))", "0", 1);
    leads("((1))", "0.0", 2);
    stops("A([])", "0", 0);
}

// Keys.

#[test]
fn every_word_may_be_a_key() {
    let text = "{true:1,false:2,null:3,A:4,a:5,_1:6,r:7,b:8,br:9,b64:10,a-b_c:11,Z9:12}";
    for (path, node) in [
        ("true", 1),
        ("false", 2),
        ("null", 3),
        ("A", 4),
        ("a", 5),
        ("_1", 6),
        ("r", 7),
        ("b", 8),
        ("br", 9),
        ("b64", 10),
        ("a-b_c", 11),
        ("Z9", 12),
    ] {
        leads(text, path, node);
    }
    for path in ["True", "z9", "_", "1", "a-b", "c"] {
        stops(text, path, 0);
    }
}

#[test]
fn keys_by_content_and_not_as_written() {
    // One content, however it is written.
    for text in [
        "{balls:1}",
        r#"{"balls":1}"#,
        r#"{"\x62alls":1}"#,
        r#"{"\u0062\x61\U0000006Cls":1}"#,
        r#"{"\x62\x61\x6c\x6C\x73":1}"#,
        r#"{r"balls":1}"#,
        r##"{r#"balls"#:1}"##,
        r####"{r###"balls"###:1}"####,
    ] {
        leads(text, "balls", 1);
        for path in [r#""balls""#, r"\x62alls", r#"r"balls""#, "#balls#", "r", "ball", "ballss"] {
            stops(text, path, 0);
        }
    }
    // What is written is no content.
    let text = r#"{"\x62alls":1}"#;
    stops(text, r#""\x62alls""#, 0);
    stops(text, r"\x62alls", 0);
    // Unless it is a raw string, which knows no escapes.
    let text = r#"{r"\x62alls":1}"#;
    leads(text, r"\x62alls", 1);
    stops(text, "balls", 0);
    // And so these are two keys.
    let text = r#"{"\x61":1,r"\x61":2}"#;
    leads(text, "a", 1);
    leads(text, r"\x61", 2);
    // A path knows no escapes, in quotes or out of them.
    stops("{a:1}", r"\x61", 0);
    stops("{a:1}", r"\a", 0);
    stops("{a:1}", r#""a""#, 0);
    stops("{a:1}", "'a'", 0);
}

#[test]
fn quotes_and_backslashes_in_keys() {
    let text = r#"{"a\"b\\c":1}"#;
    leads(text, r#"a"b\c"#, 1);
    stops(text, r#"a\"b\\c"#, 0);
    let text = r##"{r#"quoted "value""#:1,r#"""#:2}"##;
    leads(text, r#"quoted "value""#, 1);
    leads(text, r#"""#, 2);
    stops(text, "quoted value", 0);
    // "A raw string with k hashes ends at the first quote followed by k hashes."
    let text = r###"{r##"a"#b"##:1}"###;
    leads(text, r##"a"#b"##, 1);
    // A key of a quote with quotes around it.
    leads(r#"{"\"a\"":1}"#, r#""a""#, 1);
    stops(r#"{"\"a\"":1}"#, "a", 0);
}

#[test]
fn every_escape_in_a_key() {
    let text = r#"{"\0":1,"\b":2,"\t":3,"\n":4,"\f":5,"\r":6,"\"":7,"\\":8,"\x7F":9}"#;
    for (byte, node) in [
        (0x00, 1),
        (0x08, 2),
        (0x09, 3),
        (0x0A, 4),
        (0x0C, 5),
        (0x0D, 6),
        (0x22, 7),
        (0x5C, 8),
        (0x7F, 9),
    ] {
        leads(text, [byte], node);
        stops(text, [byte, byte], 0);
    }
    for path in ["0", "b", "t", "n", "f", "r", "x7F", r"\0", r"\b", r"\\", r#"\""#] {
        stops(text, path, 0);
    }
}

#[test]
fn zero_bytes() {
    for text in [r#"{"\0":1}"#, r#"{"\x00":1}"#, r#"{"\u0000":1}"#, r#"{"\U00000000":1}"#] {
        leads(text, [0], 1);
        leads(text, [], 0);
        stops(text, "0", 0);
        stops(text, r"\0", 0);
        stops(text, [0, 0], 0);
    }
    // They end nothing.
    let text = r#"{"a\0b":{"\0":1},"a\0":2,"a":3}"#;
    leads(text, "a\0b", 1);
    leads(text, "a\0b.\0", 2);
    leads(text, "a\0", 3);
    leads(text, "a", 4);
    stops(text, "a\0c", 0);
    stops(text, "a\0b.", 1);
    stops(text, "a\0b\0.\0", 0);
    stops("[1]", "0\0", 0);
    stops("[1]", "\0", 0);
}

#[test]
fn bare_spaces_and_line_feeds_in_keys() {
    let text = "{\" a \":1,\"\n\":2,r\"b\nc\":3,\" \":4}";
    leads(text, " a ", 1);
    leads(text, "\n", 2);
    leads(text, "b\nc", 3);
    leads(text, " ", 4);
    for path in ["a", " a", "a ", "  ", "\r\n", "\\n", "b", "b c"] {
        stops(text, path, 0);
    }
}

#[test]
fn keys_outside_ascii() {
    let maca = "maçã";
    assert_eq!(maca.as_bytes(), b"ma\xC3\xA7\xC3\xA3");
    for text in [
        r#"{"maçã":1}"#,
        r#"{r"maçã":1}"#,
        r#"{"ma\u00E7\u00e3":1}"#,
        r#"{"ma\xC3\xA7\xc3\xa3":1}"#,
        r#"{"ma\xC3\xA7ã":1}"#,
    ] {
        leads(text, maca, 1);
        leads(text, b"ma\xC3\xA7\xC3\xA3", 1);
        stops(text, "maca", 0);
        stops(text, "MAÇÃ", 0);
        // The same to the eye, in other characters.
        stops(text, "mac\u{327}a\u{303}", 0);
        // Latin-1, and the name cut inside a character.
        stops(text, b"ma\xE7\xE3", 0);
        stops(text, b"ma\xC3\xA7\xC3", 0);
    }
    leads(r#"{a:0,"😀":{"€":1}}"#, "😀.€", 3);
    leads(r#"{a:0,"\U0001F600":{"\u20AC":1}}"#, "😀.€", 3);
    leads("{\"\u{FEFF}a\":1}", "\u{FEFF}a", 1);
    stops("{\"\u{FEFF}a\":1}", "a", 0);
    stops("{a:1}", "\u{FEFF}a", 0);
    // Other dots than the separator.
    leads("{\"a\u{2024}b\":1,\"\u{FF0E}\":2}", "a\u{2024}b", 1);
    leads("{\"a\u{2024}b\":1,\"\u{FF0E}\":2}", "\u{FF0E}", 2);
}

#[test]
fn keys_that_look_like_indices() {
    leads(r#"{"0":1}"#, "0", 1);
    stops(r#"{"0":1}"#, "00", 0);
    stops(r#"{"0":1}"#, "1", 0);
    leads(r#"{"00":1}"#, "00", 1);
    stops(r#"{"00":1}"#, "0", 0);
    // In an object no step is an index, and none is a bad one.
    stops("{a:1}", "0", 0);
    let text = r#"{"1":0,"+1":0,"-0":0,"1_0":0,"01":0," 1":0,"0x1":0,"1e0":0,_1:0}"#;
    for (path, node) in [
        ("1", 1),
        ("+1", 2),
        ("-0", 3),
        ("1_0", 4),
        ("01", 5),
        (" 1", 6),
        ("0x1", 7),
        ("1e0", 8),
        ("_1", 9),
    ] {
        leads(text, path, node);
    }
    stops(text, "0", 0);
    let wide = "9".repeat(100);
    leads(format!("{{\"{wide}\":1}}"), &wide, 1);
    leads(format!("{{\"{wide}\":[5,6]}}"), wide + ".1", 3);
}

#[test]
fn empty_keys() {
    // At the root it takes something behind it to be reached.
    let text = r#"{"":{a:7,"":[8]}}"#;
    leads(text, "", 0);
    leads(text, ".a", 2);
    leads(text, ".", 3);
    leads(text, "..0", 4);
    stops(text, "a", 0);
    stops(text, "..", 2);
    stops(text, "...", 2);
    stops(text, ".b", 1);
    // Elsewhere a separator behind its parent is enough.
    let text = r#"{a:{"":7}}"#;
    leads(text, "a", 1);
    leads(text, "a.", 2);
    stops(text, "a..", 2);
    stops(text, ".", 0);
    stops(text, ".a", 0);
    let text = r#"{"":{"":{"":1}}}"#;
    leads(text, "", 0);
    leads(text, ".", 2);
    leads(text, "..", 3);
    stops(text, "...", 3);
    stops(text, "....", 3);
    // Two empty steps, of which a scalar has no child for the second.
    stops(r#"{"":1}"#, ".", 1);
    stops(r#"{"":1}"#, "..", 1);
    leads(r###"{r"":{r##""##:1}}"###, ".", 2);
    leads(r#"[{"":5}]"#, "0.", 2);
}

// Indices.

/// Twelve items in an array and as many in a tuple, and nothing but that.
const TWELVES: &str = "{l:[0,1,2,3,4,5,6,7,8,9,10,11],t:(0,1,2,3,4,5,6,7,8,9,10,11)}";

/// The step is no index of either.
#[track_caller]
fn no_index(step: impl AsRef<[u8]>) {
    for list in ["l.", "t."] {
        stops(TWELVES, [list.as_bytes(), step.as_ref()].concat(), 1);
        stops(TWELVES, [list.as_bytes(), step.as_ref(), b".0"].concat(), 1);
    }
}

#[test]
fn indices_of_one_digit_and_of_two() {
    for (index, in_list, in_tuple) in [
        ("0", 2, 15),
        ("1", 3, 16),
        ("2", 4, 17),
        ("3", 5, 18),
        ("4", 6, 19),
        ("5", 7, 20),
        ("6", 8, 21),
        ("7", 9, 22),
        ("8", 10, 23),
        ("9", 11, 24),
        ("10", 12, 25),
        ("11", 13, 26),
    ] {
        leads(TWELVES, format!("l.{index}"), in_list);
        leads(TWELVES, format!("t.{index}"), in_tuple);
    }
    leads(TWELVES, "l", 1);
    leads(TWELVES, "t", 14);
}

#[test]
fn indices_past_the_end() {
    for index in ["12", "13", "20", "99", "100", "101", "110", "255", "256", "65536"] {
        no_index(index);
    }
}

#[test]
fn what_is_no_index() {
    no_index("");
    // Signs.
    for step in ["+1", "-1", "+0", "-0", "+", "-", "--1", "1-", "1+"] {
        no_index(step);
    }
    // Leading zeros.
    for step in ["00", "01", "000", "001", "010", "0011", "0000000000000000000000000001"] {
        no_index(step);
    }
    // Joiners, and numbers of other shapes that 000 has.
    for step in ["1_0", "1_1", "_1", "1_", "0_1", "0x1", "0xA", "0o1", "0b1", "1e0", "1e1", "1E0"] {
        no_index(step);
    }
    // Spaces and other bytes around it.
    for step in [" 1", "1 ", " 1 ", " ", "\t1", "1\n", "1\r", "\n1", "1\0", "\x001", "1,", ",1"] {
        no_index(step);
    }
    for step in ["\"1\"", "'1'", "[1]", "(1)", "#1", "1a", "a1", "a", "0a", "l", "t", "-1_0", "1/1"]
    {
        no_index(step);
    }
    // The bytes beside the digits, and a digit's value for the digit.
    for step in ["/", ":", "1/", "1:", "/1", "\u{1}", "\u{B}"] {
        no_index(step);
    }
    // Digits that aren't ASCII, and bytes that aren't UTF-8.
    for step in ["１", "٣", "१", "²", "Ⅷ"] {
        no_index(step);
    }
    for step in [&b"\xB1"[..], b"\xFF", b"1\xFF", b"\xFF1", b"\x80"] {
        no_index(step);
    }
    // A point makes two steps of it.
    stops(TWELVES, "l.1.0", 2);
    stops(TWELVES, "l.1.", 2);
    stops(TWELVES, "l..1", 1);
}

#[test]
fn all_one_byte_steps() {
    for byte in (0x00..=0xFF).filter(|&byte| byte != b'.') {
        let path = [b'l', b'.', byte];
        match byte {
            b'0'..=b'9' => leads(TWELVES, path, usize::from(byte - b'0') + 2),
            _ => stops(TWELVES, path, 1),
        }
    }
}

#[test]
fn wide_indices() {
    for step in [
        // Around 2 to the 31, 32, 63, 64 and 128, and each with 1 and 11 more.
        "2147483647",
        "2147483648",
        "2147483649",
        "4294967295",
        "4294967296",
        "4294967297",
        "4294967307",
        "9223372036854775807",
        "9223372036854775808",
        "18446744073709551615",
        "18446744073709551616",
        "18446744073709551617",
        "18446744073709551627",
        "340282366920938463463374607431768211455",
        "340282366920938463463374607431768211456",
        "340282366920938463463374607431768211457",
    ] {
        no_index(step);
    }
    // A hundred digits, and some thousands.
    for digits in [100, 5_000] {
        no_index("9".repeat(digits));
        no_index("1".to_string() + &"0".repeat(digits - 1));
        no_index("1".to_string() + &"0".repeat(digits - 2) + "1");
        no_index("0".repeat(digits));
        no_index("0".repeat(digits - 1) + "1");
    }
}

#[test]
fn as_many_items_as_there_can_be() {
    // 4,095 items below the root.
    let text = format!("[{}0]", "0,".repeat(4_094));
    for (path, node) in [("0", 1), ("9", 10), ("10", 11), ("999", 1_000), ("1000", 1_001)] {
        leads(&text, path, node);
    }
    leads(&text, "4093", 4_094);
    leads(&text, "4094", 4_095);
    for path in ["4095", "4096", "04094", "4094 ", "40940", "409_4"] {
        stops(&text, path, 0);
    }
    stops(&text, "4094.0", 1);
}

// Where it stops.

#[test]
fn scalars_have_no_child() {
    let text = r#"[1,1.5,"a",b"a",true,false,null,S("a"),b64"ZHVwZXI"]"#;
    for index in 0..9 {
        leads(text, format!("{index}"), index + 1);
        for step in ["0", "", "a", "1", "length", "true", "S"] {
            stops(text, format!("{index}.{step}"), 1);
            stops(text, format!("{index}.{step}.0"), 1);
        }
    }
    // A string's content is no path further down.
    stops(r#"{a:"{b:1}"}"#, "a.b", 1);
    stops(r#"{a:"[1]"}"#, "a.0", 1);
    // Empty containers have none either.
    let text = "[{},[],(),[,],(,)]";
    for index in 0..5 {
        leads(text, format!("{index}"), index + 1);
        for step in ["0", "", "a"] {
            stops(text, format!("{index}.{step}"), 1);
        }
    }
}

#[test]
fn the_first_step_that_has_no_child_to_go_to() {
    let text = "{a:{b:{c:{d:1}}}}";
    leads(text, "a.b.c.d", 4);
    stops(text, "x.b.c.d", 0);
    stops(text, "a.x.c.d", 1);
    stops(text, "a.b.x.d", 2);
    stops(text, "a.b.c.x", 3);
    stops(text, "a.b.c.d.x", 4);
    stops(text, "a.b.c.d.x.y", 4);
    // Only the first counts.
    stops(text, "x.y.z", 0);
    stops(text, "a.x.y.z", 1);
    stops(text, "a.x.c.y", 1);
    // Steps that would lead on elsewhere don't.
    stops(text, "b", 0);
    stops(text, "b.c.d", 0);
    stops(text, "a.c.d", 1);
    stops(text, "a.a", 1);
}

#[test]
fn separators_at_the_ends_and_doubled() {
    let text = "{a:{b:1}}";
    stops(text, "a.", 1);
    stops(text, ".a", 0);
    stops(text, ".", 0);
    stops(text, "..", 0);
    stops(text, "a..", 1);
    stops(text, "a..b", 1);
    stops(text, "..a", 0);
    stops(text, ".a.b", 0);
    stops(text, "a.b.", 2);
    stops(text, "a.b..", 2);
    for text in ["[[1]]", "((1))"] {
        leads(text, "0.0", 2);
        stops(text, "0.", 1);
        stops(text, ".0", 0);
        stops(text, ".", 0);
        stops(text, "..", 0);
        stops(text, "0..0", 1);
        stops(text, "0.0.", 2);
    }
    for text in ["{}", "[]", "()"] {
        stops(text, ".", 0);
        stops(text, "..", 0);
    }
}

#[test]
fn other_separators_are_none() {
    for path in ["a/b", "a:b", "a,b", "a[b]", "a b", "a\0b", "a\nb", "a\u{3002}b", "a->b"] {
        stops("{a:{b:1}}", path, 0);
    }
}

#[test]
fn keys_with_a_dot_are_out_of_reach() {
    for path in ["a.b", r"a\.b", r#""a.b""#, "a..b", r"a\x2Eb", "[a.b]", "a", "b", "ab"] {
        stops(r#"{"a.b":1}"#, path, 0);
        stops(r#"{"a\x2Eb":1}"#, path, 0);
        stops(r#"{r"a.b":1}"#, path, 0);
    }
    let text = r#"{"a.b":1,a:{c:2}}"#;
    stops(text, "a.b", 1);
    leads(text, "a.c", 3);
    // What the path does lead to is another.
    let text = r#"{"a.b":1,a:{b:2}}"#;
    leads(text, "a.b", 3);
    // And nothing below such a key is in reach.
    stops(r#"{"a.b":{c:1}}"#, "a.b.c", 0);
    stops(r#"{"a.b":{c:1}}"#, "c", 0);
    for path in [".", "..", "...", r"\x2E"] {
        stops(r#"{".":1}"#, path, 0);
        stops(r#"{"\x2E":1}"#, path, 0);
        stops(r#"{"\u002e":1}"#, path, 0);
    }
    stops(r#"{"":{".":1}}"#, "..", 1);
    stops(r#"{"1.5":1}"#, "1.5", 0);
    stops(r#"{"127.0.0.1":1}"#, "127.0.0.1", 0);
}

#[test]
fn paths_that_are_not_utf_8() {
    let text = r#"{a:{"é":1},"\u00FF":2}"#;
    leads(text, b"a.\xC3\xA9", 2);
    leads(text, b"\xC3\xBF", 3);
    stops(text, b"\xFF", 0);
    stops(text, b"a\xFF", 0);
    stops(text, b"\xFF.a", 0);
    stops(text, b"a.\xE9", 1);
    stops(text, b"a.\xC3", 1);
    stops(text, b"a.\xA9", 1);
    stops(text, b"a.\xC3.\xA9", 1);
    stops(text, b"a.\xC3\xA9.\xFF", 2);
    stops(text, b"\xC3.\xBF", 0);
    // Overlong, for `a`, `.` and the null character; and a surrogate.
    stops(text, b"\xC1\xA1", 0);
    stops("{a:{b:1}}", b"a\xC0\xAEb", 0);
    stops(r#"{"\0":1}"#, b"\xC0\x80", 0);
    stops(r#"{"\uD7FF":1}"#, b"\xED\xA0\x80", 0);
    // A byte string's content may be no UTF-8, but is no key.
    stops(r#"[b"\xFF"]"#, b"\xFF", 0);
    stops(r#"[b"\xFF"]"#, b"0.\xFF", 1);
}

// As deep and as long as can be.

#[test]
fn through_32_containers() {
    let arrays = "[".repeat(32) + "7" + &"]".repeat(32);
    let objects = "{k:".repeat(32) + "7" + &"}".repeat(32);
    let unnamed = "{\"\":".repeat(32) + "7" + &"}".repeat(32);
    for steps in 0..=32 {
        leads(&arrays, vec!["0"; steps].join("."), steps);
        leads(&objects, vec!["k"; steps].join("."), steps);
        if steps != 1 {
            leads(&unnamed, vec![""; steps].join("."), steps);
        }
    }
    for steps in [33, 34, 100] {
        stops(&arrays, vec!["0"; steps].join("."), 32);
        stops(&objects, vec!["k"; steps].join("."), 32);
        stops(&unnamed, vec![""; steps].join("."), 32);
    }
    stops(&arrays, vec!["0"; 32].join(".") + ".", 32);
    stops(&arrays, vec!["0"; 31].join(".") + ".1", 31);
    stops(&arrays, vec!["0"; 16].join(".") + ".1.0.0", 16);
}

#[test]
fn a_key_as_long_as_can_be() {
    // A quoted one with two quotes and four marks and digits besides.
    let key = "k".repeat(65_530);
    let text = format!("{{\"{key}\":1}}");
    assert_eq!(text.len(), MAX_TEXT);
    leads(&text, &key, 1);
    stops(&text, &key[1..], 0);
    stops(&text, key.clone() + "k", 0);
    stops(&text, key.clone() + ".", 1);
    // A plain one, and paths with it that are longer than any text.
    let key = "k".repeat(65_532);
    let text = format!("{{{key}:1}}");
    assert_eq!(text.len(), MAX_TEXT);
    leads(&text, &key, 1);
    stops(&text, format!("{key}kkkkk"), 0);
    stops(&text, format!("{key}....."), 1);
    stops(&text, format!("{key}.{key}"), 1);
    stops(&text, format!("x.{key}.{key}"), 0);
}

#[test]
fn paths_longer_than_any_text() {
    let text = "{a:{b:[1]}}";
    for length in [65_536, 65_537, 200_000] {
        stops(text, "a".repeat(length), 0);
        stops(text, ".".repeat(length), 0);
        stops(text, format!("a.{}", "b".repeat(length)), 1);
        stops(text, format!("a.b.{}", "0".repeat(length)), 2);
        stops(text, format!("a.b.0{}", ".0".repeat(length)), 3);
        stops(text, format!("a.b.0{}", ".".repeat(length)), 3);
        stops(text, vec![0xFF; length], 0);
        stops(r#"{"":{"":1}}"#, ".".repeat(length), 2);
        stops("[1]", "1".repeat(length), 0);
        stops("[1]", format!("{}0", "0.".repeat(length)), 1);
    }
}

// The table.

/// `{a:[1]}`: the root, the array from 3 to 6 and the number from 4 to 5.
const ROWS: [Row; 3] = [
    [1, NONE, 0, 7, 0, 0, 0, 0, 3, 1, 0, 0],
    [2, 0, 3, 6, 1, 2, 0, 0, 3, 1, 0, 0],
    [6, 1, 4, 5, 0, 0, 0, 0, 3, 1, 0, 0],
];

#[test]
fn afterwards_the_table_is_the_reading() {
    let refused = |step| Err(Refusal { number: 23, place: step });
    for (path, answer) in [
        ("", Ok(0)),
        ("a", Ok(1)),
        ("a.0", Ok(2)),
        ("b", refused(0)),
        (".", refused(0)),
        ("a.1", refused(1)),
        ("a.", refused(1)),
        ("a.0.0", refused(2)),
    ] {
        // Just large enough, and with room to spare.
        for further in [0, 1, 11, 12, 13, 24, 4_096 * ROW] {
            let mut table = vec![RUBBISH; 3 * ROW + further];
            assert_eq!(find(b"{a:[1]}", &mut table, path.as_bytes()), answer, "{path}");
            assert_eq!(table[..3 * ROW], ROWS.concat(), "{path}");
            assert_eq!(table[3 * ROW..], vec![0; further], "{path}");
        }
    }
}

#[test]
fn what_the_table_held_does_not_matter() {
    // The reading of another text, in which the path leads elsewhere.
    let mut table = vec![0; 8 * ROW];
    assert_eq!(find(b"[[0],[1,[2]],3]", &mut table, b"1.1.0"), Ok(6));
    assert_eq!(find(b"[0,(1,2)]", &mut table, b"1.1"), Ok(4));
    assert_eq!(find(b"[0,(1,2)]", &mut table, b"1.1.0"), Err(Refusal { number: 23, place: 2 }));
    assert_eq!(find(b"{a:[1]}", &mut table, b"1"), Err(Refusal { number: 23, place: 0 }));
    assert_eq!(table[..3 * ROW], ROWS.concat());
    assert_eq!(table[3 * ROW..], [0; 5 * ROW]);
}

#[test]
fn too_small_a_table_is_10() {
    // Where the first value without a node opens: the root, the array, the 1.
    for (words, place) in [(0, 0), (1, 0), (11, 0), (12, 3), (23, 3), (24, 4), (35, 4)] {
        for path in ["", "a", "a.0", "b", ".", "a.0.0"] {
            let mut table = vec![RUBBISH; words];
            let refused = find(b"{a:[1]}", &mut table, path.as_bytes());
            assert_eq!(refused, Err(Refusal { number: 10, place }), "{words} {path}");
            assert_eq!(table, vec![0; words]);
        }
    }
    let mut table = [RUBBISH; 2 * ROW];
    // "if only by an identifier"
    let refused = find(b"{a:1,b:A(2)}", &mut table, b"a");
    assert_eq!(refused, Err(Refusal { number: 10, place: 7 }));
    assert_eq!(table, [0; 2 * ROW]);
    // "at most the smaller of 4,096": the 4,097th value opens at 8,191.
    let text = format!("[{}0]", "0,".repeat(4_095));
    let mut table = vec![RUBBISH; 5_000 * ROW];
    let refused = find(text.as_bytes(), &mut table, b"0");
    assert_eq!(refused, Err(Refusal { number: 10, place: 8_191 }));
    assert_eq!(table, vec![0; 5_000 * ROW]);
}

#[test]
fn refused_readings_go_first() {
    let long = [b"[", &[b' '; 65_535][..], b"]"].concat();
    let deep = "[".repeat(33) + &"]".repeat(33);
    let cases: [(&[u8], u32, u64); 17] = [
        (&long, 1, 65_536),
        (b"[\xFF]", 2, 1),
        (b"{a:1}\x80", 2, 5),
        (b"[00]", 3, 1),
        (b"[] /*", 3, 3),
        (b"{a.b:1}", 3, 2),
        (br#"["\q"]"#, 4, 1),
        (br#"{"Jos\xE9":1}"#, 4, 1),
        (b"[9223372036854775808]", 5, 1),
        (b"['x']", 6, 1),
        (b"", 7, 0),
        (b"[,,]", 7, 2),
        (b"{a:1", 7, 4),
        (b"{a:{b:[0]}} 1", 7, 12),
        (br#"{b"a":1}"#, 7, 1),
        (br#"{a:1,"\x61":2}"#, 8, 5),
        (deep.as_bytes(), 9, 32),
    ];
    for (text, number, place) in cases {
        // Paths that lead to what stands before the fault, and that don't.
        for path in [&b""[..], b"0", b"a", b"a.b", b"a.b.0", b"x", b".", b"a..b", b"00", b"\xFF"] {
            for words in [40 * ROW, 64 * ROW + 7] {
                let mut table = vec![RUBBISH; words];
                let refused = find(text, &mut table, path);
                let shown = text[..text.len().min(40)].escape_ascii();
                assert_eq!(refused, Err(Refusal { number, place }), "{shown}");
                assert_eq!(table, vec![0; words], "{shown}");
            }
        }
    }
}

// Many paths.

/// Every list of up to four of these steps, in a text whose nodes are listed by
/// hand with the steps that lead to them.
#[test]
fn all_lists_of_some_steps() {
    let text = r#"{a:[5,{a:6}],"":{"":7,"0":8},"0":9,"1":(10),"00":{"01":[]}}"#;
    let listed: [(&[&str], usize); 13] = [
        (&[], 0),
        (&["a"], 1),
        (&["a", "0"], 2),
        (&["a", "1"], 3),
        (&["a", "1", "a"], 4),
        (&[""], 5),
        (&["", ""], 6),
        (&["", "0"], 7),
        (&["0"], 8),
        (&["1"], 9),
        (&["1", "0"], 10),
        (&["00"], 11),
        (&["00", "01"], 12),
    ];
    let node = |steps: &[&str]| listed.iter().find(|(to, _)| *to == steps).map(|&(_, node)| node);
    let mut reading = vec![0; 13 * ROW];
    assert_eq!(read(text.as_bytes(), &mut reading), Ok(13));
    let mut lists = vec![vec![]];
    let (mut led, mut stopped) = (0, 0);
    while let Some(list) = lists.pop() {
        // One empty step is written as the empty path is, which is the root.
        if list != [""] {
            let expected = match node(&list) {
                Some(node) => Ok(node),
                None => {
                    let some = (0..list.len()).find(|&step| node(&list[..=step]).is_none());
                    Err(Refusal { number: 23, place: some.unwrap() as u64 })
                }
            };
            let mut table = vec![RUBBISH; 13 * ROW];
            assert_eq!(find(text.as_bytes(), &mut table, list.join(".").as_bytes()), expected);
            assert_eq!(table, reading);
            *if expected.is_ok() { &mut led } else { &mut stopped } += 1;
        }
        if list.len() < 4 {
            let steps = ["", "0", "1", "a", "00", "01", "aa", " "];
            lists.extend(steps.map(|step| [&list[..], &[step]].concat()));
        }
    }
    // All that are listed but node 5; all other lists.
    assert_eq!(led, 12);
    assert_eq!(stopped, 1 + 8 + 64 + 512 + 4_096 - 12 - 1);
}

// Made-up texts.

/// A value without its text: identifiers, spaces, comments and the spelling of
/// keys are put in when it is written.
enum Value {
    Object(Vec<(String, Value)>),
    Array(Vec<Value>),
    Tuple(Vec<Value>),
    Scalar(&'static str),
}

const SCALARS: [&str; 12] = [
    "0",
    "-7",
    "1.5",
    "6.626e-34",
    "0x1F",
    "true",
    "false",
    "null",
    "\"a.b\"",
    "r#\"0\"#",
    "b\"\\xFF\"",
    "b64\"ZHVwZXI\"",
];

const PARTS: [&str; 32] = [
    "a", "b", "balls", "h_mm", "true", "Null", "_", "-", "0", "1", "2", "00", "01", "10", "+1",
    "-0", "1_0", " ", "é", "ã", "😀", "\0", "\u{1}", "\u{7F}", "\"", "\\", "#", "\n", "\t", ".",
    "\\x61", "\"#",
];

const GAPS: [&str; 9] = ["", "", "", " ", "\n", "\t\r", "/*.*/", "//0.a\n", "/**/"];

const NAMES: [&str; 4] = ["A", "Over", "Ball-2", "X_y"];

impl Value {
    /// A container with others up to so deep in it.
    fn container(numbers: &mut Numbers, depth: usize) -> Value {
        // Now and then enough for indices of two digits.
        let length = if numbers.index(16) == 0 { 9 + numbers.index(6) } else { numbers.index(6) };
        let kind = numbers.index(4);
        let items = (0..length).map(|_| Value::any(numbers, depth - 1)).collect::<Vec<_>>();
        match kind {
            0 => Value::Array(items),
            1 => Value::Tuple(items),
            _ => {
                let mut pairs: Vec<(String, Value)> = Vec::new();
                for value in items {
                    let parts = numbers.index(4).min(2);
                    let key: String = (0..parts).map(|_| numbers.one_of(&PARTS)).collect();
                    // "Two keys of one object are equal when their contents
                    // are equal bytes."
                    if pairs.iter().all(|(other, _)| *other != key) {
                        pairs.push((key, value));
                    }
                }
                Value::Object(pairs)
            }
        }
    }

    fn any(numbers: &mut Numbers, depth: usize) -> Value {
        if depth == 0 || numbers.index(2) == 0 {
            Value::Scalar(SCALARS[numbers.index(SCALARS.len())])
        } else {
            Value::container(numbers, depth)
        }
    }

    /// Its children, each with the step that goes to it.
    fn children(&self) -> Vec<(Vec<u8>, &Value)> {
        match self {
            Value::Object(pairs) => {
                pairs.iter().map(|(key, value)| (key.clone().into_bytes(), value)).collect()
            }
            Value::Array(items) | Value::Tuple(items) => {
                (0..).zip(items).map(|(index, item)| (decimal(index), item)).collect()
            }
            Value::Scalar(_) => Vec::new(),
        }
    }

    /// Itself and what is in it, in the order in which it is written, each with
    /// the steps that lead to it: so a node's number is its place in this list.
    fn nodes(&self) -> Vec<(Vec<Vec<u8>>, &Value)> {
        let mut nodes = vec![(Vec::new(), self)];
        for (step, child) in self.children() {
            for (further, value) in child.nodes() {
                nodes.push(([vec![step.clone()], further].concat(), value));
            }
        }
        nodes
    }

    fn write(&self, numbers: &mut Numbers, text: &mut String) {
        gap(numbers, text);
        let named = numbers.index(4) == 0;
        if named {
            text.push_str(numbers.one_of(&NAMES));
            gap(numbers, text);
            text.push('(');
            gap(numbers, text);
        }
        match self {
            Value::Object(pairs) => {
                text.push('{');
                for (number, (key, value)) in (1..).zip(pairs) {
                    gap(numbers, text);
                    text.push_str(&spelled(numbers, key));
                    gap(numbers, text);
                    text.push(':');
                    value.write(numbers, text);
                    comma(numbers, text, number == pairs.len());
                }
                gap(numbers, text);
                text.push('}');
            }
            Value::Array(items) | Value::Tuple(items) => {
                let (open, close) =
                    if matches!(self, Value::Array(_)) { ('[', ']') } else { ('(', ')') };
                text.push(open);
                for (number, item) in (1..).zip(items) {
                    item.write(numbers, text);
                    comma(numbers, text, number == items.len());
                }
                gap(numbers, text);
                text.push(close);
            }
            Value::Scalar(written) => text.push_str(written),
        }
        gap(numbers, text);
        if named {
            text.push(')');
            gap(numbers, text);
        }
    }
}

/// By hand, digit for digit.
fn decimal(mut index: usize) -> Vec<u8> {
    let mut digits = vec![b'0' + (index % 10) as u8];
    while index >= 10 {
        index /= 10;
        digits.insert(0, b'0' + (index % 10) as u8);
    }
    digits
}

fn gap(numbers: &mut Numbers, text: &mut String) {
    text.push_str(numbers.one_of(&GAPS));
}

/// "commas between, one trailing comma allowed"
fn comma(numbers: &mut Numbers, text: &mut String, last: bool) {
    if !last || numbers.index(3) == 0 {
        text.push(',');
    }
}

/// A key of this content, in one of the ways in which it can be spelled.
fn spelled(numbers: &mut Numbers, content: &str) -> String {
    match numbers.index(3) {
        0 if is_plain(content) => content.to_string(),
        1 if !content.chars().any(|c| c != '\n' && c.is_ascii_control()) => {
            // More hashes than it holds, or none if it holds no quote.
            let some = if content.contains('"') { 1 } else { 0 };
            let hashes = "#".repeat(some * (content.matches('#').count() + 1));
            format!("r{hashes}\"{content}\"{hashes}")
        }
        _ => {
            let spelled: String = content.chars().map(|c| character(numbers, c)).collect();
            format!("\"{spelled}\"")
        }
    }
}

/// "Its shape: a letter, or `_` and a letter or digit; then any number of
/// groups of at most one joiner and one letter or digit."
fn is_plain(content: &str) -> bool {
    let solid = |c: char| c.is_ascii_alphanumeric();
    let mut rest = content.chars().peekable();
    match rest.next() {
        Some('_') if rest.next().is_some_and(solid) => {}
        Some(c) if c.is_ascii_alphabetic() => {}
        _ => return false,
    }
    while rest.peek().is_some() {
        let _ = rest.next_if(|&c| c == '_' || c == '-');
        if !rest.next().is_some_and(solid) {
            return false;
        }
    }
    true
}

/// A character as it may stand in quotes.
fn character(numbers: &mut Numbers, c: char) -> String {
    let short = match c {
        '\0' => "\\0",
        '\t' => "\\t",
        '\n' => "\\n",
        '"' => "\\\"",
        '\\' => "\\\\",
        _ => "",
    };
    let number = c as u32;
    match numbers.index(8) {
        0 => c.to_string().bytes().map(|byte| format!("\\x{byte:02X}")).collect(),
        1 if number <= 0xFFFF => format!("\\u{number:04x}"),
        2 => format!("\\U{number:08X}"),
        _ if !short.is_empty() => short.to_string(),
        _ if c.is_ascii_control() => format!("\\u{number:04X}"),
        _ => c.to_string(),
    }
}

/// A text with its value, and its reading in a table that just holds it.
struct Made {
    value: Value,
    text: String,
    reading: Vec<u32>,
}

impl Made {
    fn new(numbers: &mut Numbers) -> Made {
        let value = Value::container(numbers, 4);
        let mut text = String::new();
        value.write(numbers, &mut text);
        assert!(text.len() <= MAX_TEXT);
        let nodes = value.nodes().len();
        let mut reading = vec![0; nodes * ROW];
        assert_eq!(read(text.as_bytes(), &mut reading), Ok(nodes), "{text}");
        Made { value, text, reading }
    }

    /// The answer; the table is the reading whatever it is.
    #[track_caller]
    fn answer(&self, path: &[u8]) -> Result<usize, Refusal> {
        let mut table = vec![RUBBISH; self.reading.len()];
        let answer = find(self.text.as_bytes(), &mut table, path);
        assert!(table == self.reading, "{} in {}", path.escape_ascii(), self.text);
        answer
    }
}

/// Whether these steps can be written as a path at all: none holds the
/// separator, and they aren't one empty step alone.
fn can_be_written(steps: &[Vec<u8>]) -> bool {
    let alone = steps.len() == 1 && steps[0].is_empty();
    !alone && !steps.iter().any(|step| step.contains(&b'.'))
}

#[test]
fn every_node_of_made_up_texts_by_its_path() {
    let mut numbers = Numbers(0x0123_4567_89AB_CDEF);
    let (mut led, mut out_of_reach) = (0, 0);
    for _ in 0..600 {
        let made = Made::new(&mut numbers);
        for (number, (steps, _)) in made.value.nodes().into_iter().enumerate() {
            let path = steps.join(&b'.');
            let answer = made.answer(&path);
            let shown = path.escape_ascii();
            if can_be_written(&steps) {
                assert_eq!(answer, Ok(number), "{shown} in {}", made.text);
                led += 1;
            } else {
                // What its steps with a separator between lead to is another
                // node, if any.
                assert_ne!(answer, Ok(number), "{shown} in {}", made.text);
                out_of_reach += 1;
            }
        }
    }
    assert!(led > 5_000 && out_of_reach > 200, "{led} {out_of_reach}");
}

/// Steps that are like a good one, or like what is good elsewhere.
fn wrong_steps(numbers: &mut Numbers, good: &[u8], children: usize) -> Vec<Vec<u8>> {
    let zeros = vec![b'0'; 1 + numbers.index(30)];
    vec![
        Vec::new(),
        [good, b"x"].concat(),
        [b"x", good].concat(),
        [good, b" "].concat(),
        [b" ", good].concat(),
        [b"+", good].concat(),
        [b"-", good].concat(),
        [&zeros, good].concat(),
        [good, &zeros].concat(),
        [good, b"_0"].concat(),
        [b"\"", good, b"\""].concat(),
        [b"\\", good].concat(),
        [good, b"\0"].concat(),
        [good, b"\xFF"].concat(),
        good[..good.len().saturating_sub(1)].to_vec(),
        good.to_ascii_uppercase(),
        decimal(children),
        decimal(children + 1),
        b"18446744073709551616".to_vec(),
        b"4294967296".to_vec(),
        numbers.one_of(&PARTS).as_bytes().to_vec(),
        numbers.one_of(&NAMES).as_bytes().to_vec(),
    ]
}

#[test]
fn every_path_of_made_up_texts_with_a_step_made_wrong() {
    let mut numbers = Numbers(0xFEDC_BA98_7654_3210);
    let mut stopped = [0; 6];
    for _ in 0..120 {
        let made = Made::new(&mut numbers);
        let nodes = made.value.nodes();
        for (steps, _) in &nodes {
            // The step behind the last one is made wrong too.
            for at in 0..=steps.len() {
                let parent = nodes.iter().find(|(to, _)| to[..] == steps[..at]).unwrap().1;
                let children = parent.children();
                let good = steps.get(at).cloned().unwrap_or(b"0".to_vec());
                let wrong = wrong_steps(&mut numbers, &good, children.len());
                let wrong = &wrong[numbers.index(wrong.len())];
                let behind = steps.get(at + 1..).unwrap_or(&[]);
                let list = [&steps[..at], std::slice::from_ref(wrong), behind].concat();
                let is_wrong = children.iter().all(|(step, _)| step != wrong);
                if is_wrong && can_be_written(&list) {
                    let path = list.join(&b'.');
                    let expected = Err(Refusal { number: 23, place: at as u64 });
                    let shown = path.escape_ascii();
                    assert_eq!(made.answer(&path), expected, "{shown} in {}", made.text);
                    stopped[at] += 1;
                }
            }
        }
    }
    // At each of the steps that a text four deep has, and at the one behind.
    assert!(stopped[..5].iter().all(|&count| count > 100), "{stopped:?}");
    assert_eq!(stopped[5], 0);
}

/// The same by a walk over the value, which makes a number of an index.
fn walked(value: &Value, steps: &[&[u8]]) -> Result<usize, usize> {
    let Some((step, behind)) = steps.split_first() else { return Ok(0) };
    let at = match value {
        Value::Object(pairs) => pairs.iter().position(|(key, _)| key.as_bytes() == *step),
        Value::Array(items) | Value::Tuple(items) => {
            let digits = step.iter().all(u8::is_ascii_digit);
            let leading = step.len() > 1 && step[0] == b'0';
            let number = std::str::from_utf8(step).ok().and_then(|step| step.parse().ok());
            number.filter(|&index| digits && !leading && index < items.len())
        }
        Value::Scalar(_) => None,
    };
    let children = value.children();
    let at = at.ok_or(0usize)?;
    let before: usize = children[..at].iter().map(|(_, earlier)| earlier.nodes().len()).sum();
    match walked(children[at].1, behind) {
        Ok(number) => Ok(1 + before + number),
        Err(step) => Err(1 + step),
    }
}

#[test]
fn any_paths_in_made_up_texts() {
    let mut numbers = Numbers(0x1357_9BDF_0246_8ACE);
    let (mut led, mut stopped) = (0, 0);
    for _ in 0..400 {
        let made = Made::new(&mut numbers);
        for _ in 0..12 {
            // Down the value for a while, mostly, and then by chance.
            let mut value = &made.value;
            let mut path = Vec::new();
            for number in 0..numbers.index(6) {
                if number > 0 {
                    path.push(b'.');
                }
                let children = value.children();
                if children.is_empty() || numbers.index(8) == 0 {
                    path.extend_from_slice(numbers.one_of(&PARTS).as_bytes());
                } else {
                    let (step, child) = &children[numbers.index(children.len())];
                    path.extend_from_slice(step);
                    value = child;
                }
            }
            // Steps by their separators; the empty path has none.
            let mut steps: Vec<&[u8]> = path.split(|&byte| byte == b'.').collect();
            if path.is_empty() {
                steps.clear();
            }
            let expected = walked(&made.value, &steps)
                .map_err(|step| Refusal { number: 23, place: step as u64 });
            let shown = path.escape_ascii();
            assert_eq!(made.answer(&path), expected, "{shown} in {}", made.text);
            *if expected.is_ok() { &mut led } else { &mut stopped } += 1;
        }
    }
    assert!(led > 1_000 && stopped > 1_000, "{led} {stopped}");
}
