//! Document 01's own examples, and the readings of it that docs/DECISIONS.md
//! lists; exponents by document 02. Expected values are taken from the papers.

use crate::*;

/// Reads with room for `nodes` nodes; the table starts out full of rubbish.
fn read_with(text: &[u8], nodes: usize) -> Result<Vec<[u32; ROW]>, (u32, u64)> {
    let mut table = vec![0xDEAD_BEEF; nodes * ROW + 5];
    match read(text, &mut table) {
        Ok(count) => {
            assert!(table[count * ROW..].iter().all(|&word| word == 0));
            let rows = table[..count * ROW].chunks_exact(ROW);
            Ok(rows.map(|row| row.try_into().unwrap()).collect())
        }
        Err(Refusal { number, place }) => {
            assert!(table.iter().all(|&word| word == 0));
            Err((number, place))
        }
    }
}

fn rows(text: impl AsRef<[u8]>) -> Result<Vec<[u32; ROW]>, (u32, u64)> {
    read_with(text.as_ref(), MAX_NODES)
}

#[track_caller]
fn taken(text: impl AsRef<[u8]>) -> Vec<[u32; ROW]> {
    let text = text.as_ref();
    rows(text).unwrap_or_else(|e| panic!("{:?}: {e:?}", String::from_utf8_lossy(text)))
}

#[track_caller]
fn refused(text: impl AsRef<[u8]>, number: u32, place: u64) {
    let text = text.as_ref();
    assert_eq!(rows(text).err(), Some((number, place)), "{:?}", String::from_utf8_lossy(text));
}

#[track_caller]
fn refused_with(nodes: usize, text: impl AsRef<[u8]>, number: u32, place: u64) {
    let text = text.as_ref();
    let answer = read_with(text, nodes).err();
    assert_eq!(answer, Some((number, place)), "{:?}", String::from_utf8_lossy(text));
}

/// The content of a part that is the whole text.
fn only(part: impl AsRef<[u8]>) -> Result<Vec<u8>, u32> {
    let part = part.as_ref();
    let mut out = vec![0xAA; part.len() + 3];
    match content(part, 0, part.len() as u64, &mut out) {
        Ok(count) => {
            assert!(out[count..].iter().all(|&byte| byte == 0xAA));
            Ok(out[..count].to_vec())
        }
        Err(refusal) => {
            assert_eq!(refusal.place, 0);
            assert!(out.iter().all(|&byte| byte == 0xAA));
            Err(refusal.number)
        }
    }
}

/// The single item of an array, as its words 0 and 9 to 11.
#[track_caller]
fn item(written: &str) -> (u32, [u32; 3]) {
    let rows = taken(format!("[{written}]"));
    assert_eq!(rows.len(), 2, "{written}");
    assert_eq!(rows[1][2..4], [1, 1 + written.len() as u32], "{written}");
    (rows[1][0], [rows[1][9], rows[1][10], rows[1][11]])
}

#[track_caller]
fn integer(written: &str, value: i64) {
    let halves = [value as u32, (value as u64 >> 32) as u32, 0];
    assert_eq!(item(written), (6, halves), "{written}");
}

#[track_caller]
fn decimal(written: &str, minus: bool, m: u64, p: i32) {
    let high = (m >> 32) as u32 | (minus as u32) << 31;
    assert_eq!(item(written), (7, [m as u32, high, (p + 1000) as u32]), "{written}");
}

/// A refused item of an array.
#[track_caller]
fn bad(written: &str, number: u32) {
    refused(format!("[{written}]"), number, 1);
}

fn nested(depth: usize) -> String {
    "[".repeat(depth) + &"]".repeat(depth)
}

const NONE: u32 = u32::MAX;

// Document 01, "Both sides of each line".

#[test]
fn both_sides_empty_and_commas() {
    refused("", 7, 0);
    assert_eq!(taken("[,]"), [[2, NONE, 0, 3, 0, 0, 0, 0, 1, 0, 0, 0]]);
    refused("[,,]", 7, 2);
    assert_eq!(taken("(,)")[0][0], 3);
    refused("{,}", 7, 1);
    taken("{a:1,}");
    taken("[1,]");
    taken("(1,)");
    taken("[]");
    taken("()");
    taken("{}");
    refused("(,,)", 7, 2);
    refused("[1,,2]", 7, 3);
    refused("[1,,]", 7, 3);
    refused("{a:1,,}", 7, 5);
    refused("[,1]", 7, 2);
}

#[test]
fn both_sides_keys_and_identifiers() {
    refused(r#"{a:1,"\x61":2}"#, 8, 5);
    refused("A(B([]))", 7, 2);
}

#[test]
fn both_sides_numbers() {
    let rows = taken("[6.626e-34]");
    assert_eq!(rows[1], [7, 0, 1, 10, 0, 0, 0, 0, 2, 6626, 0, 963]);
    let rows = taken("[-0.0]");
    assert_eq!(rows[1], [7, 0, 1, 5, 0, 0, 0, 0, 2, 0, 2_147_483_648, 999]);
    refused("[00]", 3, 1);
}

#[test]
fn both_sides_strings() {
    let rows = taken(r#"[b64"ZHVwZXI"]"#);
    assert_eq!(rows[1], [5, 0, 1, 13, 0, 0, 0, 0, 2, 1, 13, 5]);
    assert_eq!(only(r#"b64"ZHVwZXI""#).unwrap(), b"duper");
    assert_eq!(only(r#"b64"ZHVwZXI=""#).unwrap(), b"duper");
    refused(r#"[b64"ZHVwZXI=="]"#, 4, 1);
    refused(r###"[r#""##]"###, 3, 6);
}

#[test]
fn both_sides_depth() {
    assert_eq!(taken(nested(32)).len(), 32);
    refused(nested(33), 9, 32);
    refused("[".repeat(33), 9, 32);
    refused("[".repeat(32), 7, 32);
    // "an identifier's brackets don't count"
    let named = "A([".repeat(32) + &"])".repeat(32);
    assert_eq!(taken(&named).len(), 32);
    let named = "A([".repeat(33) + &"])".repeat(33);
    refused(&named, 9, 98);
    // Closing makes room again.
    let wide = "[".repeat(31) + "[],[]" + &"]".repeat(31);
    assert_eq!(taken(wide).len(), 33);
}

#[test]
fn both_sides_listing() {
    let listed: Vec<_> = taken("[1, null]").iter().map(|row| (row[0], row[2], row[3])).collect();
    assert_eq!(listed, [(2, 0, 9), (6, 1, 2), (10, 4, 8)]);
}

// Document 01, "Wrong turns".

#[test]
fn wrong_turns() {
    // "Null read as integer 0: kinds 10 and 6 differ."
    assert_eq!(item("null"), (10, [0; 3]));
    assert_eq!(item("0"), (6, [0; 3]));
    assert_eq!(item("false"), (8, [0; 3]));
    assert_eq!(item("true"), (9, [0; 3]));
    // "Keys compared as written, not by content."
    refused(r#"{"a":1,"\u0061":2}"#, 8, 7);
    refused(r##"{a:1,r#"a"#:2}"##, 8, 5);
    refused(r#"{"\u00e9":1,"\xC3\xA9":2}"#, 8, 12);
    refused("{\"\\u00e9\":1,\"é\":2}", 8, 12);
    taken(r#"{"\\x61":1,r"\x61x":2,a:3,r"x61":4}"#);
    refused(r#"{"\\x61":1,r"\x61":2}"#, 8, 11);
    // The same key in another object is another key.
    taken("{a:{a:{a:1}},b:[{a:1},{a:2}]}");
    refused("{a:{a:1},a:2}", 8, 9);
    // "A replacement `1, 2` or `1 // x` let in because the text around still
    // reads."
    assert!(!one_value(b"1, 2", false));
    assert!(!one_value(b"1 // x", false));
    assert!(!one_value(b"1//x", false));
    // "A raw string closed at the last fitting quote."
    refused(r#"[r"a"x"]"#, 7, 5);
    // Here `b"` opens another string, which isn't closed.
    refused(r#"[r"a"b"]"#, 3, 5);
    assert_eq!(taken(r##"[r#"a"#, r#"b"#]"##).len(), 3);
}

// Readings of document 01: cutting into tokens.

#[test]
fn reading_of_words_and_strings() {
    refused("[r#x]", 3, 1);
    refused("[br##]", 3, 1);
    refused("[r#", 3, 1);
    refused("r#", 3, 0);
    refused("{r#:1}", 3, 1);
    refused("{br#x:1}", 3, 1);
    assert_eq!(only("r#"), Err(19));
    refused(r##"{rr#"x"#:1}"##, 3, 3);
    refused(r##"{bar#"x"#:1}"##, 3, 4);
    refused(r#"[ab"c"]"#, 7, 1);
    refused(r#"{ab"c":1}"#, 7, 3);
    for word in ["xb64", "_r", "b640", "rb", "xb", "bb64"] {
        refused(format!("[{word}\"QQ\"]"), 7, 1);
        refused(format!("{{{word}\"QQ\":1}}"), 7, 1 + word.len() as u64);
    }
    // `B` could be an identifier's name, so it may stand there itself.
    refused(r#"[B"x"]"#, 7, 2);
    refused(r#"{B"x":1}"#, 7, 2);
    taken("{b64:1}");
    taken("{r:1,b:2,br:3}");
    refused(r#"{b64 "QQ":1}"#, 7, 5);
    refused(r#"[1b"a"]"#, 3, 1);
    refused(r#"[1r"a"]"#, 3, 1);
    refused(r#"[1"a"]"#, 7, 2);
    refused("[1'", 6, 2);
    refused("[1#]", 3, 2);
}

#[test]
fn reading_of_odd_bytes() {
    refused("[1/2]", 3, 2);
    refused("[1//2]", 7, 6);
    taken("[1//2\n]");
    refused("[]/", 3, 2);
    refused("[1/", 3, 2);
    refused("[.7]", 3, 1);
    refused("[+.7]", 3, 1);
    refused("[-.7]", 3, 1);
    refused("[_12]", 7, 1);
    refused("[_Test(2)]", 7, 1);
    refused("[aB(1)]", 7, 1);
    refused("[Foo-(3)]", 3, 1);
    refused("[X_-Y(4)]", 3, 1);
    refused("[_]", 3, 1);
    refused("{a--b:1}", 3, 1);
    refused("{__a:1}", 3, 1);
    refused("{_-a:1}", 3, 1);
    refused("{a_:1}", 3, 1);
    taken("{_1:1,_a:2,a-1_b:3,A:4,a1-b2:5,_12:6}");
    for run in ["-", "+", "--1", "+-1", "1-2", "1+2", "-a", "1e5E5", "0-"] {
        bad(run, 3);
    }
    for word in ["nulll", "null-x", "true1", "nul", "falsey"] {
        refused(format!("[{word}]"), 7, 1);
        taken(format!("{{{word}:1}}"));
    }
    refused("[True]", 7, 5);
    refused("[NaN]", 7, 4);
    refused("[Infinity]", 7, 9);
    refused("[-Infinity]", 3, 1);
    taken("{true:1,false:2,null:3,True:4}");
    for odd in ["\u{FEFF}", "\u{A0}", "\u{C}", "\u{B}", "\0", "\u{7F}"] {
        refused(format!("[{odd}]"), 3, 1);
        refused(format!("{odd}[]"), 3, 0);
        refused(format!("[]{odd}"), 3, 2);
    }
}

#[test]
fn reading_of_comments_and_ends() {
    taken("//x\r[]");
    taken("//x\n[]");
    taken("[]//x");
    taken("[]//");
    taken("/*\0\u{7F}\u{1}*/[]//\0\u{7F}");
    refused(b"/*\xFF*/[]", 2, 2);
    refused("[]/*/", 3, 2);
    taken("[]/**/");
    taken("[]/*/*/");
    refused("[]/**", 3, 2);
    taken("[]/***/");
    taken("[]/* **/");
    refused("[]/* */*/", 3, 7);
    refused("[]/*", 3, 2);
    refused("[1/*", 3, 2);
    refused("[1//x", 7, 5);
    refused(r#"["\"#, 3, 1);
    refused(r#"["abc\"#, 3, 1);
    refused("[\"\\é\"]", 4, 1);
    bad(r#""\x""#, 4);
    bad(r#""\u12""#, 4);
    bad(r#""\U0000004""#, 4);
    refused("[\"\\x01", 3, 1);
    refused("[\"\u{1}", 3, 1);
    refused("[r#\"\t", 3, 1);
    refused("[r#\"\t\"", 3, 1);
    assert_eq!(only("r##\"\" ##\"##").unwrap(), b"\" ##");
    assert_eq!(only(r##"r#"""#"##).unwrap(), b"\"");
    let many = "#".repeat(30_000);
    assert_eq!(only(format!("r{many}\"x\"{many}")).unwrap(), b"x");
    assert_eq!(only(r###"r##""#"##"###).unwrap(), b"\"#");
    refused("{'", 6, 1);
    refused("[]'", 6, 2);
    refused("'", 6, 0);
    refused("['2022-02-28T03:06:00Z']", 6, 1);
}

// Readings of document 01: order of faults.

#[test]
fn reading_of_one_token() {
    refused("{00:1}", 3, 1);
    refused(r#"{b"\q":1}"#, 4, 1);
    refused("{9223372036854775808:1}", 5, 1);
    refused(r#"[]"\q""#, 4, 2);
    refused("[]00", 3, 2);
    refused("[]1", 7, 2);
    refused("] ", 7, 0);
    refused(r#"{b"a":1}"#, 7, 1);
    refused("{1:1}", 7, 1);
    refused("{a:1,a}", 8, 5);
    refused("{a:1,a", 8, 5);
    refused("{a:1,a\0", 8, 5);
    refused("{a:1 a:2}", 7, 5);
    refused(r#"{a:1,"a\q":2}"#, 4, 5);
    // A fault further on doesn't count.
    refused("{a:1,a:00", 8, 5);
    refused("[1 1 \u{1}", 7, 3);
}

#[test]
fn reading_of_limits() {
    refused_with(32, nested(33), 9, 32);
    refused_with(33, nested(33), 9, 32);
    let deep = "[".repeat(32) + "A([";
    refused_with(32, &deep, 10, 32);
    refused_with(33, &deep, 9, 34);
    refused_with(1, "[A]", 10, 1);
    refused_with(2, "[A]", 7, 2);
    refused_with(0, "A", 10, 0);
    refused_with(0, "A(1)", 10, 0);
    refused_with(1, "A(1)", 7, 2);
    refused_with(1, "A", 7, 1);
    refused_with(1, "[00]", 3, 1);
    refused_with(1, "['", 6, 1);
    refused_with(1, "[x]", 7, 1);
    refused_with(1, "[9223372036854775808]", 5, 1);
    refused_with(1, "[\"\\q\"]", 4, 1);
    refused_with(0, "1", 7, 0);
    refused_with(0, "null", 7, 0);
    refused_with(0, "", 7, 0);
    refused_with(1, "{a:1}", 10, 3);
    refused_with(1, "{a:}", 7, 3);
    refused_with(2, "{a:1,a:1}", 8, 5);
    refused_with(2, "{a:1,b:1}", 10, 7);
    refused_with(0, "[]", 10, 0);
    refused_with(0, "]", 7, 0);
    // 10 "with no node left", and the smaller of the two limits.
    assert_eq!(read_with(b"[1,2]", 3).unwrap().len(), 3);
    refused_with(2, "[1,2]", 10, 3);
    let full = format!("[{}1]", "1,".repeat(4094));
    assert_eq!(read_with(full.as_bytes(), 5000).unwrap().len(), 4096);
    let over = format!("[{}1]", "1,".repeat(4095));
    refused_with(5000, over, 10, 1 + 2 * 4095);
}

#[test]
fn reading_of_first_token_not_allowed() {
    refused("A(1)", 7, 2);
    refused("A(B", 7, 2);
    refused("A(null)", 7, 2);
    refused("[A(1,", 7, 4);
    refused("[A()", 7, 3);
    refused("{A(", 7, 2);
    refused("A([],)", 7, 4);
    refused("A([])[]", 7, 5);
    refused("A[]", 7, 1);
    refused("[A(x)]", 7, 3);
    refused("[A(B(1))]", 7, 3);
    refused("A(", 7, 2);
    refused("A([]", 7, 4);
    refused("[1)", 7, 2);
    refused("(1]", 7, 2);
    refused("{a:1]", 7, 4);
    refused("{a}", 7, 2);
    refused("{a:}", 7, 3);
    refused("{a:,", 7, 3);
    refused("{:1}", 7, 1);
    refused("{[", 7, 1);
    refused("[:", 7, 1);
    refused("1", 7, 0);
    refused("\"a\"", 7, 0);
    refused("[] []", 7, 3);
    refused("[[1 2", 7, 4);
    taken("[A([]),A({}),A(()),A(1),A(null),A(\"\")]");
    taken("(((), (\"hi\")))");
}

#[test]
fn reading_of_ends_and_bytes() {
    refused("[1 //x", 7, 6);
    refused("   ", 7, 3);
    refused("//x", 7, 3);
    refused("[1 ", 7, 3);
    refused([0xFF; 65_537], 1, 65_536);
    refused([0xFF; 65_536], 2, 0);
    let mut cut = b"[]".to_vec();
    cut.resize(65_535, b' ');
    cut.push(0xC3);
    refused(&cut, 2, 65_535);
    *cut.last_mut().unwrap() = b' ';
    taken(&cut);
    cut.push(b' ');
    refused(&cut, 1, 65_536);
    refused(b"[\"\xE2\x82", 2, 2);
    refused(b"[\"\xE2\x82x", 2, 2);
    refused(b"00\xED\xA0\x80", 2, 2);
    refused(b"00\xC0\x80", 2, 2);
    refused(b"00\xF4\x90\x80\x80", 2, 2);
    refused(b"00\xF4\x8F\xBF\xBF", 3, 0);
    bad("1e99999999999999999999x", 3);
    bad("99999999999999999999_", 3);
    bad("99999999999999999999.e1", 3);
}

// Readings of document 01: numbers.

#[test]
fn reading_of_decimals() {
    for (written, p) in [("1e+0", 0), ("1e-0", 0), ("1e0", 0), ("1E5", 5), ("1e1_0", 10)] {
        decimal(written, false, 1, p);
    }
    // Document 02's request 02; tests/exponent.rs has the rest of it.
    for (written, p) in [("1e00", 0), ("1e06", 6), ("1e+06", 6), ("1e0_0", 0)] {
        decimal(written, false, 1, p);
    }
    for written in ["1e_5", "1e5_", "1e5__0", "1e", "1e+"] {
        bad(written, 3);
    }
    decimal("1.0e401", false, 10, 400);
    bad("1.0e-400", 5);
    decimal("1.0e-399", false, 10, -400);
    decimal(&format!("0.{}e500", "0".repeat(500)), false, 0, 0);
    bad("0e401", 5);
    decimal("0e400", false, 0, 400);
    decimal("0e-400", false, 0, -400);
    bad("0e-401", 5);
    bad("1e99999999999999999999999999999999999999999999999999", 5);
    bad("1e-99999999999999999999999999999999999999999999999999", 5);
    decimal(&format!("0.{}e60000", "0".repeat(60_000)), false, 0, 0);
    bad("9223372036854775807.0", 5);
    decimal("922337203685477580.7", false, i64::MAX as u64, -1);
    decimal("-922337203685477580.7", true, i64::MAX as u64, -1);
    bad("922337203685477580.8", 5);
    bad("-9223372036854775808e0", 5);
    bad("-9223372036854775808.0", 5);
    decimal("9223372036854775807e0", false, i64::MAX as u64, 0);
    decimal("224_617.445_991_228", false, 224_617_445_991_228, -9);
    decimal("+3.1415", false, 31_415, -4);
    decimal("-2E-2", true, 2, -2);
    decimal("5e+22", false, 5, 22);
    decimal("1e2_00", false, 1, 200);
}

#[test]
fn reading_of_integers() {
    integer("-9223372036854775808", i64::MIN);
    integer("9223372036854775807", i64::MAX);
    bad("9223372036854775808", 5);
    bad("-9223372036854775809", 5);
    bad("18446744073709551616", 5);
    bad(&"9".repeat(60_000), 5);
    bad("0x8000000000000000", 5);
    integer("0x7fffFFFFffffFFFF", i64::MAX);
    integer("0x1e5", 0x1e5);
    for written in ["0x1e+5", "0x1.0", "00x1", "-0x1", "+0x1", "0X1", "0O1", "0B1", "0x", "0xg"] {
        bad(written, 3);
    }
    for written in ["0o8", "0b2", "0x_1", "0x1_", "0x1__2", "0b", "0o", "-0b1", "00b1001"] {
        bad(written, 3);
    }
    integer("0o777777777777777777777", i64::MAX);
    bad("0o1000000000000000000000", 5);
    integer("0o01_234_567", 0o01_234_567);
    integer("0b0101_0101", 0b0101_0101);
    integer("0x2001_0db1", 0x2001_0db1);
    integer("-0", 0);
    integer("+0", 0);
    decimal("-0e0", true, 0, 0);
    decimal("-0.0", true, 0, -1);
    decimal("+0.0", false, 0, -1);
    integer(&format!("0x{}1", "0".repeat(60_000)), 1);
    for written in ["1_.0", "1._0", "1_e5", "0_0", "1__2", "12_", "01", "-01", "7.", "3.e+20"] {
        bad(written, 3);
    }
    for written in ["1.5_", "1.5__5", "1.2.3", "1e5.0", "0a", "1 .5"] {
        if written.contains(' ') {
            refused(format!("[{written}]"), 3, 3);
        } else {
            bad(written, 3);
        }
    }
    integer("1_2_3_4_5", 12_345);
    integer("+99", 99);
    integer("-17", -17);
}

// Readings of document 01: strings.

#[test]
fn reading_of_bytes_in_strings() {
    for odd in (0..=0x1Fu8).chain([0x7F]) {
        let odd = char::from(odd);
        for (open, close) in [("\"", "\""), ("b\"", "\""), ("r#\"", "\"#"), ("br\"", "\"")] {
            let written = format!("{open}{odd}{close}");
            if odd == '\n' {
                assert_eq!(only(&written).unwrap(), b"\n");
                taken(format!("[{written}]"));
            } else {
                bad(&written, 4);
                assert_eq!(only(&written), Err(19));
            }
        }
    }
    assert_eq!(only("\"\u{80}\u{9F}\"").unwrap(), "\u{80}\u{9F}".as_bytes());
    assert_eq!(only("b\"é\"").unwrap(), "é".as_bytes());
    assert_eq!(only("br\"ツ\"").unwrap(), "ツ".as_bytes());
    bad("b64\"é\"", 4);
    for written in [r#""\u0000""#, r#""\0""#, r#""\x00""#, r#""\U00000000""#] {
        assert_eq!(only(written).unwrap(), [0]);
        refused(format!("{{\"\\0\":1,{written}:2}}"), 8, 8);
    }
    assert_eq!(only(r#""\01""#).unwrap(), b"\x001");
}

#[test]
fn reading_of_escapes() {
    assert_eq!(only(r#""Jos\xC3\xA9""#).unwrap(), "José".as_bytes());
    for written in [r#""Jos\xE9""#, r#""\xC3\u00A9""#, "\"\\xC3é\"", r#""\xE2\x82""#] {
        bad(written, 4);
    }
    bad(r#""\xED\xA0\x80""#, 4);
    bad(r#""\xC0\x80""#, 4);
    assert_eq!(only(r#"b"Jos\xE9""#).unwrap(), b"Jos\xE9");
    assert_eq!(only(r#"b"\u00E9""#).unwrap(), "é".as_bytes());
    // "a surrogate pair is refused", "in byte strings too"
    for written in [r#""\uD83D\uDE00""#, r#"b"\uD800""#, r#""\uDFFF""#, r#""\U00110000""#] {
        bad(written, 4);
    }
    bad(r#"b"\UFFFFFFFF""#, 4);
    assert_eq!(only(r#""\U0010ffff""#).unwrap(), "\u{10FFFF}".as_bytes());
    assert_eq!(only(r#""\uE000\ud7ff""#).unwrap(), "\u{E000}\u{D7FF}".as_bytes());
    for written in [r#""\X41""#, r#""\u{41}""#, r#""\/""#, r#""\a""#, r#""\x4g""#, r#""\x+4""#] {
        bad(written, 4);
    }
    bad("\"\\\n\"", 4);
    assert_eq!(only(r#""\xaA\x41""#), Err(19));
    assert_eq!(only(r#"b"\xaA\x41""#).unwrap(), b"\xAA\x41");
    assert_eq!(only(r#""\0\b\t\n\f\r\"\\""#).unwrap(), b"\0\x08\t\n\x0C\r\"\\");
    // Word 11 is the content's length, not the token's.
    assert_eq!(item(r#""\u00e9\n""#), (4, [1, 11, 3]));
    assert_eq!(item(r##"r#"a\n"#"##), (4, [1, 9, 3]));
    assert_eq!(item(r#"b"\x00ab""#), (5, [1, 10, 3]));
}

#[test]
fn reading_of_base64() {
    // RFC 4648's vectors.
    let vectors = [
        ("", ""),
        ("Zg==", "f"),
        ("Zm8=", "fo"),
        ("Zm9v", "foo"),
        ("Zm9vYg==", "foob"),
        ("Zm9vYmE=", "fooba"),
        ("Zm9vYmFy", "foobar"),
    ];
    for (written, content) in vectors {
        assert_eq!(only(format!("b64\"{written}\"")).unwrap(), content.as_bytes());
        let bare = written.trim_end_matches('=');
        assert_eq!(only(format!("b64\"{bare}\"")).unwrap(), content.as_bytes());
        bad(&format!("b64\"{written}=\""), 4);
    }
    for written in ["=", "A", "QUFBQ", "QR", "QR==", "QUF", "Q=Q", "=QQ", "QQ=Q", "QQ===", "QUFB="]
    {
        bad(&format!("b64\"{written}\""), 4);
    }
    for written in ["QUFB-Q==", "QQ_", "\u{1}", "\u{B}", "\u{C}", "QQ\u{7F}", "\0"] {
        bad(&format!("b64\"{written}\""), 4);
    }
    assert_eq!(only("b64\"QQ=\"").unwrap(), b"A");
    assert_eq!(only("b64\" Q\tQ\n=\r= \"").unwrap(), b"A");
    assert_eq!(only("b64\"\r\n \"").unwrap(), b"");
    assert_eq!(only("b64\" +bo UO5 X/b YI= \"").unwrap(), [249, 186, 20, 59, 149, 255, 109, 130]);
    bad("b64\"\\\"", 4);
    assert_eq!(only("b64\"QQ"), Err(19));
    refused("[b64\"QQ", 3, 1);
}

// Readings of document 01: the table.

#[test]
fn reading_of_every_word() {
    for words in 0..40 {
        let mut table = vec![5; words];
        let answer = read(b"[]", &mut table);
        if words < 12 {
            assert_eq!(answer, Err(Refusal { number: 10, place: 0 }));
            assert!(table.iter().all(|&word| word == 0));
        } else {
            assert_eq!(answer, Ok(1));
            assert_eq!(table[..12], [2, NONE, 0, 2, 0, 0, 0, 0, 1, 0, 0, 0]);
            assert!(table[12..].iter().all(|&word| word == 0));
        }
    }
    let mut table = vec![5; 4100 * ROW];
    assert_eq!(read(b"{}", &mut table), Ok(1));
    assert!(table[12..].iter().all(|&word| word == 0));
}

#[test]
fn reading_of_spans() {
    let rows = taken("{ k : A /*x*/ ( \"v\" ) }");
    assert_eq!(rows[0], [1, NONE, 0, 23, 0, 0, 0, 0, 2, 1, 0, 0]);
    assert_eq!(rows[1], [4, 0, 6, 21, 2, 3, 6, 7, 2, 16, 19, 1]);
    let rows = taken(" A ( [] ) ");
    assert_eq!(rows, [[2, NONE, 1, 9, 0, 0, 1, 2, 1, 0, 0, 0]]);
    // 4's place is the token's start also within an identifier.
    refused("[A(\"\\q\")]", 4, 3);
    refused("[A(9223372036854775808)]", 5, 3);
    // Parents, children and the first node after the descendants.
    let rows = taken("{a:[1,(2,3),{}],\"b\":Z(null)}");
    let brief: Vec<_> = rows.iter().map(|r| (r[0], r[1], r[4], r[5], r[8], r[9])).collect();
    assert_eq!(
        brief,
        [
            (1, NONE, 0, 0, 8, 2),
            (2, 0, 1, 2, 7, 3),
            (6, 1, 0, 0, 3, 1),
            (3, 1, 0, 0, 6, 2),
            (6, 3, 0, 0, 5, 2),
            (6, 3, 0, 0, 6, 3),
            (1, 1, 0, 0, 7, 0),
            (10, 0, 16, 19, 8, 0),
        ]
    );
    assert_eq!(rows[7][2..4], [20, 27]);
    assert_eq!(rows[7][6..8], [20, 21]);
}

// Readings of document 01: the content call.

#[test]
fn reading_of_content() {
    let mut long = vec![0xFF; 70_000];
    long[69_990..69_993].copy_from_slice(b"\"a\"");
    let mut out = [0xAA; 3];
    assert_eq!(content(&long, 69_990, 69_993, &mut out), Ok(1));
    assert_eq!(out, [b'a', 0xAA, 0xAA]);
    let word = vec![b'a'; 70_000];
    let mut out = vec![0; 70_000];
    assert_eq!(content(&word, 100, 65_636, &mut out), Ok(65_536));
    assert_eq!(content(&word, 100, 65_637, &mut out), Err(Refusal { number: 19, place: 0 }));
    for part in [&b"\"\xFF\""[..], b"r\"\xFF\"", b"b\"\xC3\"", b"br\"\xC3\"", b"\"a", b"\"\\q\""] {
        assert_eq!(only(part), Err(19));
    }
    for word in ["r", "b", "br", "b64", "true", "A", "_1", "a-b_c", "null"] {
        assert_eq!(only(word).unwrap(), word.as_bytes());
    }
    for part in [
        "r#",
        "_",
        "a-",
        "1",
        "-1",
        "{",
        ",",
        "",
        " a",
        "a ",
        "a//",
        "/**/a",
        "\"a\"\"b\"",
        "\"a\" ",
        " \"a\"",
        "a b",
        "'a'",
        "//",
        "a:",
        "é",
        "r#\"a\"##",
    ] {
        assert_eq!(only(part), Err(19), "{part}");
    }
    assert_eq!(content(b"\"\"", 0, 2, &mut []), Ok(0));
    assert_eq!(content(b"\"a\"", 0, 3, &mut []), Err(Refusal { number: 20, place: 0 }));
    assert_eq!(content(b"\"\\q\"", 0, 4, &mut []), Err(Refusal { number: 19, place: 0 }));
    let mut out = [9; 2];
    assert_eq!(content(b"abc", 0, 3, &mut out), Err(Refusal { number: 20, place: 0 }));
    assert_eq!(out, [9; 2]);
    assert_eq!(content(b"abc", 1, 3, &mut out), Ok(2));
    assert_eq!(&out, b"bc");
    let mut out = [9; 8];
    for (start, end) in [
        (2, 1),
        (0, 4),
        (3, 4),
        (4, 4),
        (u64::MAX, u64::MAX),
        (0, u64::MAX),
        (1 << 32, (1 << 32) + 1),
        (u64::MAX, 1),
        (3, 3),
    ] {
        assert_eq!(content(b"abc", start, end, &mut out), Err(Refusal { number: 19, place: 0 }));
    }
    assert_eq!(out, [9; 8]);
}

// Readings of document 01: one value alone.

#[test]
fn reading_of_one_value() {
    for part in [" 1", "1 ", "/**/1", "1/**/", "1//", "", " ", "1,", "1 2", "//x\n1"] {
        assert!(!one_value(part.as_bytes(), false), "{part}");
    }
    for part in ["A /*x*/ ( 1 )", "[ 1 ]", "1", "null", "\"\"", "A(null)", "A([])", "{a:1}"] {
        assert!(one_value(part.as_bytes(), false), "{part}");
    }
    let mut wide = b"\"".to_vec();
    wide.resize(65_535, b'x');
    wide.push(b'"');
    assert!(one_value(&wide, false));
    wide.insert(1, b'x');
    assert!(!one_value(&wide, false));
    assert!(one_value(nested(32).as_bytes(), false));
    assert!(!one_value(nested(33).as_bytes(), false));
    assert!(one_value(format!("[{}1]", "1,".repeat(4094)).as_bytes(), false));
    assert!(!one_value(format!("[{}1]", "1,".repeat(4095)).as_bytes(), false));
    for part in ["1", "A(1)", "null", "\"\"", "", " []"] {
        assert!(!one_value(part.as_bytes(), true), "{part}");
    }
    for part in ["A([])", "[]", "(1)", "{}"] {
        assert!(one_value(part.as_bytes(), true), "{part}");
    }
    for part in
        [&b"\"\xFF\""[..], b"{a:1,a:2}", b"9223372036854775808", b"'", b"x", b"00", b"A(B(1))"]
    {
        assert!(!one_value(part, false));
    }
}

// Document 000's printed examples, as document 01 decides them.

#[test]
fn document_000() {
    taken("// This is a full-line comment\n{\nkey: \"value\", // at the end\nanother: \"// This is not a comment\"\n}");
    taken("/* fancier */{key: \"value\",another: \"/* This is not a comment,\ndespite spanning multiple lines */\"}");
    refused("{\nkey: \"value\" // INVALID\nfoo: \"bar\"\n}", 7, 26);
    refused("{ütf8: 1}", 3, 1);
    taken(r#"{"127.0.0.1": 1, "with space": 1, "maçã": 1, "_": 1, "": 1}"#);
    taken(r##"{r"key2": 1, r#"quoted "value""#: 1}"##);
    refused(r#"{name: "Eric","n\x61me": "Erik"}"#, 8, 14);
    taken("{str4: \" padded \", str5: \"𝓓𝓾𝓹𝓮𝓻\"}");
    taken(
        r###"{path: br"C:\Windows\System32",shrug: br#""Whatever." ¯\_(ツ)_/¯"#,rust_block: br##"{ let str = r#"meta string"#; }"##}"###,
    );
    taken(r#"{png_signature: b"\x89PNG\r\n\x1a\n",ansi_reset: b"\x1b[0m"}"#);
    taken("{color: RGB((255, 0, 128)), birthday: ISO-8601(\"2025-10-20\"), hash: SHA_256(b\"\\xde\")}");
    refused("{Wrong(use): null}", 7, 6);
    refused("{Of(\"identifiers\"): null}", 7, 3);
    // Document 01 refused it with 3; document 02's request 02 takes it.
    let rows = taken("{float5: 1e06}");
    assert_eq!(rows[1], [7, 0, 9, 13, 1, 7, 0, 0, 2, 1, 0, 1006]);
    taken("Items([\n\"item1\",\n\"item2\",\n])");
}
