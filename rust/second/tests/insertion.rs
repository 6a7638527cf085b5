//! Document 02's request 07: what may be inserted and where, and what becomes
//! of the table, on both sides of each clause. Expected values are worked out
//! by hand from the papers.

use second::insertion::{edges, inserted, moved, outside_parent, Gap, Insertion};
use second::{read, Refusal, MAX_TEXT, ROW};

type Row = [u32; ROW];

const NONE: u32 = u32::MAX;

fn space(byte: u8) -> Gap {
    Gap::Space(byte)
}

fn line(body: impl AsRef<[u8]>) -> Gap {
    Gap::Line(body.as_ref().to_vec())
}

fn line_return(body: impl AsRef<[u8]>) -> Gap {
    Gap::LineReturn(body.as_ref().to_vec())
}

fn block(body: impl AsRef<[u8]>) -> Gap {
    Gap::Block(body.as_ref().to_vec())
}

fn at(place: usize, gap: Gap) -> Insertion {
    Insertion { place, gap }
}

/// A table with these rows and so many words more.
fn table(rows: &[Row], further: usize) -> Vec<u32> {
    let mut table = rows.concat();
    table.resize(table.len() + further, 0);
    table
}

/// The old text has the old rows, and the insertions make the new text of it:
/// then the rule gives the new rows, and so does reading the new text.
#[track_caller]
fn holds(old: (&str, &[Row]), insertions: &[Insertion], new: (&str, &[Row])) {
    let nodes = old.1.len();
    assert_eq!(new.1.len(), nodes);
    let text = inserted(old.0.as_bytes(), insertions).map(|text| String::from_utf8(text).unwrap());
    assert_eq!(text.as_deref(), Some(new.0));
    // Tables that are just large enough, and larger ones with a remainder.
    for further in [0, 5, ROW, 2 * ROW + 7] {
        for (text, rows) in [old, new] {
            let mut read_into = vec![0xDEAD_BEEF; nodes * ROW + further];
            assert_eq!(read(text.as_bytes(), &mut read_into), Ok(nodes), "{text}");
            assert_eq!(read_into, table(rows, further), "{text}");
        }
        assert_eq!(moved(&table(old.1, further), nodes, insertions), table(new.1, further));
    }
    assert_eq!(outside_parent(&table(old.1, 0), nodes), None);
    assert_eq!(outside_parent(&table(new.1, 0), nodes), None);
}

// What may be inserted.

#[test]
fn bytes_of_gaps() {
    assert_eq!(space(b'\t').bytes(), b"\t");
    assert_eq!(line("").bytes(), b"//\n");
    assert_eq!(line(" low bounce").bytes(), b"// low bounce\n");
    assert_eq!(line_return(" low bounce").bytes(), b"// low bounce\r\n");
    assert_eq!(block("").bytes(), b"/**/");
    assert_eq!(block("*").bytes(), b"/***/");
    assert_eq!(block(" low bounce ").bytes(), b"/* low bounce */");
}

#[test]
fn spaces_are_those_of_the_class() {
    for byte in 0..=255 {
        let class = [0x09, 0x0A, 0x0D, 0x20].contains(&byte);
        assert_eq!(space(byte).is_allowed(), class, "{byte:02X}");
    }
    assert!(!space(0x0B).is_allowed());
}

#[test]
fn whole_comments() {
    // "Comments may hold any characters."
    for body in [
        "", "*", "**", "/", "/*", "//", "///", "x*", "/ *", "* /", "\"", "'", "[", "}", "\0",
        "\u{7F}", "\\", "\t", "\u{B}", "\u{85}", "\u{2028}", "é", "😀",
    ] {
        assert!(line(body).is_allowed(), "{body:?}");
        assert!(line_return(body).is_allowed(), "{body:?}");
        assert!(block(body).is_allowed(), "{body:?}");
    }
    // A line comment ends at any newline, a block comment at none.
    for body in ["\n", "\r", "\r\n", "x\r", "\rx", "a\nb"] {
        assert!(!line(body).is_allowed(), "{body:?}");
        assert!(!line_return(body).is_allowed(), "{body:?}");
        assert!(block(body).is_allowed(), "{body:?}");
    }
    // A block comment ends at the first `*/`, a line comment doesn't.
    for body in ["*/", "**/", "/*/", "x*/y", "*//*", "*/ "] {
        assert!(!block(body).is_allowed(), "{body:?}");
        assert!(line(body).is_allowed(), "{body:?}");
    }
    // Not UTF-8: no character's first byte, a character cut short, a
    // surrogate, an overlong form, one above U+10FFFF.
    for body in [&b"\xFF"[..], b"\x80", b"\xC3", b"\xED\xA0\x80", b"\xC0\x80", b"\xF4\x90\x80\x80"]
    {
        assert!(!line(body).is_allowed(), "{body:?}");
        assert!(!line_return(body).is_allowed(), "{body:?}");
        assert!(!block(body).is_allowed(), "{body:?}");
    }
}

/// Every body of up to five of these bytes, against document 01's sentences.
#[test]
fn whole_comments_by_where_they_end() {
    let mut bodies = vec![Vec::new()];
    let mut tried = 0;
    while let Some(body) = bodies.pop() {
        // "`/*` runs to the first `*/` after it".
        let bytes = [b"/*", &body[..], b"*/"].concat();
        let end = (2..).find(|&at| bytes[at..].starts_with(b"*/")).unwrap() + 2;
        assert_eq!(block(&body).is_allowed(), end == bytes.len(), "{}", bytes.escape_ascii());
        // "`//` runs to before the next 0A or 0D": here up to its line feed.
        let bytes = [b"//", &body[..], b"\n"].concat();
        let end = (2..).find(|&at| [0x0A, 0x0D].contains(&bytes[at])).unwrap();
        assert_eq!(line(&body).is_allowed(), end == bytes.len() - 1, "{}", bytes.escape_ascii());
        // What is whole stands between two brackets and touches neither.
        for gap in [block(&body), line(&body)].into_iter().filter(Gap::is_allowed) {
            let text = inserted(b"[]", &[at(1, gap)]).unwrap();
            let mut table = [7; ROW];
            assert_eq!(read(&text, &mut table), Ok(1), "{}", text.escape_ascii());
            assert_eq!(table, [2, NONE, 0, text.len() as u32, 0, 0, 0, 0, 1, 0, 0, 0]);
        }
        tried += 1;
        if body.len() < 5 {
            bodies.extend(b"*/x\n\r".map(|byte| [&body[..], &[byte]].concat()));
        }
    }
    assert_eq!(tried, 1 + 5 + 25 + 125 + 625 + 3125);
}

// Where.

#[test]
fn edges_of_tokens() {
    // Touching tokens share a place; there is none inside a token.
    assert_eq!(edges(b"[12]").unwrap(), [0, 1, 3, 4]);
    assert_eq!(edges(br#"{k:A("v")}"#).unwrap(), [0, 1, 2, 3, 4, 5, 8, 9, 10]);
    // Tokens apart have a place each, and none in what is between.
    assert_eq!(edges(b" A ( []  ) ").unwrap(), [1, 2, 3, 4, 5, 6, 7, 9, 10]);
    assert_eq!(edges(b"[/*[*/1//]\n]").unwrap(), [0, 1, 6, 7, 11, 12]);
    assert_eq!(edges(b"//x\r[]").unwrap(), [4, 5, 6]);
    // The text's own ends, only where a token is.
    assert_eq!(edges(b"[]").unwrap(), [0, 1, 2]);
    assert_eq!(edges(b" [] ").unwrap(), [1, 2, 3]);
    assert_eq!(edges(b"[]//x").unwrap(), [0, 1, 2]);
    // Strings are one token each, whatever they hold.
    assert_eq!(edges(br##"["a, \"b",r#"/*"#,b64"Q Q"]"##).unwrap(), [0, 1, 9, 10, 17, 18, 26, 27]);
    // What isn't tokens to its end doesn't read.
    for text in [&b"[00]"[..], b"[] /*", b"[\xFF]", b"[']", b"[]#"] {
        assert_eq!(edges(text), None, "{}", text.escape_ascii());
    }
}

#[test]
fn insertions_elsewhere_are_no_case() {
    let put = |text: &str, place| inserted(text.as_bytes(), &[at(place, space(b' '))]);
    // Inside a token.
    assert_eq!(put("[12]", 2), None);
    assert_eq!(put(r#"["a b"]"#, 3), None);
    assert_eq!(put("{null:1}", 4), None);
    // In a comment or among spaces, not next to a token.
    for place in 2..=5 {
        assert_eq!(put("[/*x*/]", place), None);
    }
    assert_eq!(put("[  ]", 2), None);
    // At the text's end, where no token is: a line comment may end there.
    assert_eq!(put("[]//x", 5), None);
    assert_eq!(put(" []", 0), None);
    // Past the text.
    assert_eq!(put("[]", 3), None);
    assert_eq!(put("[]", usize::MAX), None);
    // At an edge, but nothing that may stand there.
    for gap in [space(0x0B), space(b'x'), line("\r"), block("*/"), block(b"\xFF")] {
        assert_eq!(inserted(b"[]", &[at(1, gap)]), None);
    }
    // One that is no case makes the list none.
    assert_eq!(inserted(b"[12]", &[at(1, space(b' ')), at(2, space(b' '))]), None);
    assert_eq!(inserted(b"[00]", &[]), None);
}

// What becomes of the table.

#[test]
fn starts_move_with_what_is_put_right_before_and_ends_stay_with_what_is_put_right_behind() {
    let rows = |root: [u32; 2], item: [u32; 2]| -> [Row; 2] {
        [
            [2, NONE, root[0], root[1], 0, 0, 0, 0, 2, 1, 0, 0],
            [6, 0, item[0], item[1], 0, 0, 0, 0, 2, 1, 0, 0],
        ]
    };
    let old = rows([0, 3], [1, 2]);
    for (place, gap, text, root, item) in [
        (0, space(b' '), " [1]", [1, 4], [2, 3]),
        (1, space(b'\t'), "[\t1]", [0, 4], [2, 3]),
        (2, space(b'\n'), "[1\n]", [0, 4], [1, 2]),
        (3, space(b'\r'), "[1]\r", [0, 3], [1, 2]),
        (0, line("x"), "//x\n[1]", [4, 7], [5, 6]),
        (1, block("x"), "[/*x*/1]", [0, 8], [6, 7]),
        (2, line("x"), "[1//x\n]", [0, 7], [1, 2]),
        (1, line_return("x"), "[//x\r\n1]", [0, 8], [6, 7]),
        (2, line_return(""), "[1//\r\n]", [0, 7], [1, 2]),
        (3, block(""), "[1]/**/", [0, 3], [1, 2]),
    ] {
        holds(("[1]", &old), &[at(place, gap)], (text, &rows(root, item)));
    }
}

#[test]
fn nothing_inserted_moves_nothing() {
    let rows = [[2, NONE, 0, 3, 0, 0, 0, 0, 2, 1, 0, 0], [6, 0, 1, 2, 0, 0, 0, 0, 2, 1, 0, 0]];
    holds(("[1]", &rows), &[], ("[1]", &rows));
}

#[test]
fn words_after_the_last_node_are_0() {
    // Whatever the old table holds there, and however much it looks like rows.
    let root = [2, NONE, 0, 2, 0, 0, 0, 0, 1, 0, 0, 0];
    let old = [root, [4, 0, 1, 2, 1, 2, 1, 2, 2, 1, 2, 0], [9; ROW]].concat();
    let new = table(&[[2, NONE, 1, 3, 0, 0, 0, 0, 1, 0, 0, 0]], 2 * ROW);
    assert_eq!(moved(&old, 1, &[at(0, space(b' '))]), new);
}

#[test]
fn touching_tokens() {
    let rows = |root: u32, one: [u32; 2], inner: [u32; 2]| -> [Row; 3] {
        [
            [2, NONE, 0, root, 0, 0, 0, 0, 3, 2, 0, 0],
            [6, 0, one[0], one[1], 0, 0, 0, 0, 2, 1, 0, 0],
            [2, 0, inner[0], inner[1], 0, 0, 0, 0, 3, 0, 0, 0],
        ]
    };
    let old = rows(6, [1, 2], [3, 5]);
    for (place, text, one, inner) in [
        (1, "[/**/1,[]]", [5, 6], [7, 9]),
        (2, "[1/**/,[]]", [1, 2], [7, 9]),
        (3, "[1,/**/[]]", [1, 2], [7, 9]),
        // "an end moves with the last byte of its span"
        (4, "[1,[/**/]]", [1, 2], [3, 9]),
        (5, "[1,[]/**/]", [1, 2], [3, 5]),
    ] {
        holds(("[1,[]]", &old), &[at(place, block(""))], (text, &rows(10, one, inner)));
    }
}

/// The spans of the root, and of the one value's whole, key, name and token.
fn one_pair([root, value, key, name, token]: [[u32; 2]; 5]) -> [Row; 2] {
    [
        [1, NONE, root[0], root[1], 0, 0, 0, 0, 2, 1, 0, 0],
        [4, 0, value[0], value[1], key[0], key[1], name[0], name[1], 2, token[0], token[1], 1],
    ]
}

#[test]
fn every_span_of_a_node() {
    let old = r#"{k:A("v")}"#;
    let old_rows = one_pair([[0, 10], [3, 9], [1, 2], [3, 4], [5, 8]]);
    for (place, text, spans) in [
        (0, r#" {k:A("v")}"#, [[1, 11], [4, 10], [2, 3], [4, 5], [6, 9]]),
        (1, r#"{ k:A("v")}"#, [[0, 11], [4, 10], [2, 3], [4, 5], [6, 9]]),
        (2, r#"{k :A("v")}"#, [[0, 11], [4, 10], [1, 2], [4, 5], [6, 9]]),
        (3, r#"{k: A("v")}"#, [[0, 11], [4, 10], [1, 2], [4, 5], [6, 9]]),
        (4, r#"{k:A ("v")}"#, [[0, 11], [3, 10], [1, 2], [3, 4], [6, 9]]),
        (5, r#"{k:A( "v")}"#, [[0, 11], [3, 10], [1, 2], [3, 4], [6, 9]]),
        (8, r#"{k:A("v" )}"#, [[0, 11], [3, 10], [1, 2], [3, 4], [5, 8]]),
        (9, r#"{k:A("v") }"#, [[0, 11], [3, 9], [1, 2], [3, 4], [5, 8]]),
        (10, r#"{k:A("v")} "#, [[0, 10], [3, 9], [1, 2], [3, 4], [5, 8]]),
    ] {
        holds((old, &old_rows), &[at(place, space(b' '))], (text, &one_pair(spans)));
    }
    // All of them at once, of lengths 1, 4, 4, 1, 6, 1, 3, 1 and 5.
    let all = [
        at(0, space(b'\t')),
        at(1, block("")),
        at(2, line("a")),
        at(3, space(b'\r')),
        at(4, block("é")),
        at(5, space(b'\n')),
        at(8, line("")),
        at(9, space(b' ')),
        at(10, block("*")),
    ];
    let new = "\t{/**/k//a\n:\rA/*é*/(\n\"v\"//\n) }/***/";
    let new_rows = one_pair([[1, 31], [13, 29], [6, 7], [13, 14], [22, 25]]);
    holds((old, &old_rows), &all, (new, &new_rows));
}

#[test]
fn keys_in_quotes() {
    let rows = |root: u32, key: [u32; 2], value: [u32; 2]| -> [Row; 2] {
        [
            [1, NONE, 0, root, 0, 0, 0, 0, 2, 1, 0, 0],
            [4, 0, value[0], value[1], key[0], key[1], 0, 0, 2, value[0], value[1], 0],
        ]
    };
    holds(
        (r#"{"":r""}"#, &rows(8, [1, 3], [4, 7])),
        &[at(1, block("\"")), at(3, space(b' '))],
        (r#"{/*"*/"" :r""}"#, &rows(14, [6, 8], [10, 13])),
    );
}

#[test]
fn a_missing_key_or_name_stays_0_0() {
    // A name that starts at 0 moves; the key that isn't there doesn't.
    let rows = |[start, end]: [u32; 2], name: [u32; 2]| {
        [[2, NONE, start, end, 0, 0, name[0], name[1], 1, 0, 0, 0]]
    };
    let old = rows([0, 5], [0, 1]);
    holds(("A([])", &old), &[at(0, line("x"))], ("//x\nA([])", &rows([4, 9], [4, 5])));
    holds(("A([])", &old), &[at(1, space(b' '))], ("A ([])", &rows([0, 6], [0, 1])));
    // A root that starts at 0 moves; key and name don't.
    let old = rows([0, 2], [0, 0]);
    holds(("[]", &old), &[at(0, block("x"))], ("/*x*/[]", &rows([5, 7], [0, 0])));
}

#[test]
fn the_words_of_numbers_and_constants_stay() {
    // 8589934593 is 2 * 4294967296 + 1, so words 9 and 10 are 1 and 2: they
    // look like the span of a byte that moves.
    let rows = |root: u32, whole: [u32; 2], decimal: [u32; 2]| -> [Row; 3] {
        [
            [2, NONE, 0, root, 0, 0, 0, 0, 3, 2, 0, 0],
            [6, 0, whole[0], whole[1], 0, 0, 0, 0, 2, 1, 2, 0],
            [7, 0, decimal[0], decimal[1], 0, 0, 0, 0, 3, 1, 2, 1000],
        ]
    };
    holds(
        ("[8589934593,8589934593e0]", &rows(25, [1, 11], [12, 24])),
        &[at(1, space(b' ')), at(11, block(""))],
        ("[ 8589934593/**/,8589934593e0]", &rows(30, [2, 12], [17, 29])),
    );
    // So does the count of children, and the 0, 0 of the rest.
    let rows = |[start, end]: [u32; 2], spans: [[u32; 2]; 3]| -> [Row; 4] {
        [
            [3, NONE, start, end, 0, 0, 0, 0, 4, 3, 0, 0],
            [9, 0, spans[0][0], spans[0][1], 0, 0, 0, 0, 2, 0, 0, 0],
            [8, 0, spans[1][0], spans[1][1], 0, 0, 0, 0, 3, 0, 0, 0],
            [10, 0, spans[2][0], spans[2][1], 0, 0, 0, 0, 4, 0, 0, 0],
        ]
    };
    holds(
        ("(true,false,null)", &rows([0, 17], [[1, 5], [6, 11], [12, 16]])),
        &[at(0, space(b' ')), at(1, space(b' '))],
        (" ( true,false,null)", &rows([1, 19], [[3, 7], [8, 13], [14, 18]])),
    );
}

#[test]
fn byte_strings_are_strings() {
    let rows = |root: u32, spans: [[u32; 2]; 3]| -> [Row; 4] {
        let item = |after: u32, [start, end]: [u32; 2]| {
            [5, 0, start, end, 0, 0, 0, 0, after, start, end, 0]
        };
        [
            [2, NONE, 0, root, 0, 0, 0, 0, 4, 3, 0, 0],
            item(2, spans[0]),
            item(3, spans[1]),
            item(4, spans[2]),
        ]
    };
    holds(
        (r#"[b"",br"",b64""]"#, &rows(16, [[1, 4], [5, 9], [10, 15]])),
        &[at(1, space(b' ')), at(9, block(""))],
        (r#"[ b"",br""/**/,b64""]"#, &rows(21, [[2, 5], [6, 10], [15, 20]])),
    );
}

#[test]
fn several_at_one_place_stand_in_the_order_of_the_list() {
    let rows = |[start, end]: [u32; 2]| [[2, NONE, start, end, 0, 0, 0, 0, 1, 0, 0, 0]];
    // The list itself is in no order of places.
    let list = [at(1, line("a")), at(0, space(b' ')), at(1, block("b")), at(1, space(b'\t'))];
    holds(("[]", &rows([0, 2])), &list, (" [//a\n/*b*/\t]", &rows([1, 13])));
    let list = [at(1, space(b'\t')), at(1, block("b")), at(0, space(b' ')), at(1, line("a"))];
    holds(("[]", &rows([0, 2])), &list, (" [\t/*b*///a\n]", &rows([1, 13])));
}

#[test]
fn beside_comments_of_its_own() {
    // Line comments that end with a lone 0D and with the text.
    let rows = |end: u32, one: [u32; 2], two: [u32; 2]| -> [Row; 3] {
        [
            [2, NONE, 1, end, 0, 0, 0, 0, 3, 2, 0, 0],
            [6, 0, one[0], one[1], 0, 0, 0, 0, 2, 1, 0, 0],
            [6, 0, two[0], two[1], 0, 0, 0, 0, 3, 2, 0, 0],
        ]
    };
    holds(
        (" [1//x\r,2] //end", &rows(10, [2, 3], [8, 9])),
        &[at(3, block("")), at(7, line("y")), at(10, space(b' '))],
        (" [1/**///x\r//y\n,2]  //end", &rows(18, [2, 3], [16, 17])),
    );
    // Behind a token, right before a comment of its own.
    holds(
        (" [1//x\r,2] //end", &rows(10, [2, 3], [8, 9])),
        &[at(10, line("")), at(10, block("/"))],
        (" [1//x\r,2]//\n/*/*/ //end", &rows(10, [2, 3], [8, 9])),
    );
}

#[test]
fn at_most_65_536_bytes() {
    let old = table(&[[2, NONE, 0, 2, 0, 0, 0, 0, 1, 0, 0, 0]], 5);
    // Two brackets, four bytes of marks, and the body.
    let list = [at(1, block(vec![b'x'; 65_530]))];
    let text = inserted(b"[]", &list).unwrap();
    assert_eq!(text.len(), MAX_TEXT);
    let new = table(&[[2, NONE, 0, 65_536, 0, 0, 0, 0, 1, 0, 0, 0]], 5);
    assert_eq!(moved(&old, 1, &list), new);
    let mut read_into = vec![7; ROW + 5];
    assert_eq!(read(&text, &mut read_into), Ok(1));
    assert_eq!(read_into, new);
    // One more.
    let text = inserted(b"[]", &[at(1, block(vec![b'x'; 65_531]))]).unwrap();
    assert_eq!(text.len(), MAX_TEXT + 1);
    let mut read_into = vec![7; ROW + 5];
    assert_eq!(read(&text, &mut read_into), Err(Refusal { number: 1, place: 65_536 }));
    assert_eq!(read_into, [0; ROW + 5]);
}

#[test]
fn as_many_nodes_and_edges_as_there_can_be() {
    // 4,095 zeros, one at each odd place; every place is an edge.
    let old = format!("[{}0]", "0,".repeat(4_094));
    assert_eq!(edges(old.as_bytes()).unwrap(), (0..=8_191).collect::<Vec<_>>());
    let list: Vec<_> = (0..=8_191).map(|place| at(place, block(""))).collect();
    let new = inserted(old.as_bytes(), &list).unwrap();
    assert_eq!(new.len(), 8_191 + 4 * 8_192);
    let mut table = vec![7; 4_096 * ROW];
    assert_eq!(read(old.as_bytes(), &mut table), Ok(4_096));
    let table = moved(&table, 4_096, &list);
    assert_eq!(table[..ROW], [2, NONE, 4, 40_955, 0, 0, 0, 0, 4_096, 4_095, 0, 0]);
    for (node, row) in (0..).zip(table.chunks_exact(ROW)).skip(1) {
        // Before place 2n - 1 and at it there are 2n of four bytes each.
        assert_eq!(row, [6, 0, 10 * node - 1, 10 * node, 0, 0, 0, 0, node + 1, 0, 0, 0]);
    }
    let mut read_into = vec![7; 4_096 * ROW];
    assert_eq!(read(&new, &mut read_into), Ok(4_096));
    assert_eq!(read_into, table);
}

#[test]
fn spans_inside_their_parents() {
    // `[[1]]`, with another span and parent of the innermost node.
    let outside = |parent: u32, start: u32, end: u32| {
        let rows = [
            [2, NONE, 0, 5, 0, 0, 0, 0, 3, 1, 0, 0],
            [2, 0, 1, 4, 0, 0, 0, 0, 3, 1, 0, 0],
            [6, parent, start, end, 0, 0, 0, 0, 3, 1, 0, 0],
        ];
        outside_parent(&table(&rows, 7), 3)
    };
    assert_eq!(outside(1, 2, 3), None);
    // From end to end is inside still: no byte is outside.
    assert_eq!(outside(1, 1, 4), None);
    assert_eq!(outside(1, 0, 3), Some(2));
    assert_eq!(outside(1, 2, 5), Some(2));
    assert_eq!(outside(0, 0, 5), None);
    // Backwards, though between the parent's ends.
    assert_eq!(outside(1, 3, 2), Some(2));
    // No such parent, and itself.
    assert_eq!(outside(3, 2, 3), Some(2));
    assert_eq!(outside(2, 2, 3), Some(2));
    assert_eq!(outside(NONE, 2, 3), Some(2));
    // The root has none, and words after the last node are no node's.
    assert_eq!(outside_parent(&[0; 2 * ROW], 1), None);
    assert_eq!(outside_parent(&[], 0), None);
}
