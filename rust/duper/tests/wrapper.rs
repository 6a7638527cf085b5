//! The wrapper over the real archive: document 01's examples and the edges of
//! the boundary.

use duper::{content, nodes, read, utf8, Decimal, Document, Kind, Refusal, Utf8Check, Value, ROW};

fn refusal(number: u32, place: u32) -> Refusal {
    Refusal { number, place }
}

#[test]
fn documents_of_the_paper() {
    let mut table = [9; 40];
    assert_eq!(read(b"[1, null]", &mut table), Ok(3));
    assert!(table[3 * ROW..].iter().all(|&word| word == 0));
    let listed: Vec<_> = nodes(&table).map(|node| (node.kind(), node.span())).collect();
    assert_eq!(listed, [(Kind::Array, 0..9), (Kind::Integer, 1..2), (Kind::Null, 4..8)]);
    for (text, number, place) in [
        (&b""[..], 7, 0),
        (b"[,,]", 7, 2),
        (br#"{a:1,"\x61":2}"#, 8, 5),
        (b"A(B([]))", 7, 2),
        (b"[00]", 3, 1),
        (br#"[b64"ZHVwZXI=="]"#, 4, 1),
        (b"[9223372036854775808]", 5, 1),
        (b"['", 6, 1),
        (b"[1,2,3]", 10, 5),
        (b"\xFF", 2, 0),
    ] {
        table.fill(9);
        assert_eq!(read(text, &mut table), Err(refusal(number, place)), "{}", text.escape_ascii());
        assert_eq!(table, [0; 40]);
    }
    assert_eq!(read(&[b' '; 65_537], &mut table), Err(refusal(1, 65_536)));
    assert_eq!(read(&[b'['; 33], &mut vec![0; 33 * ROW]), Err(refusal(9, 32)));
}

#[test]
fn exponents_with_leading_zeros() {
    // "From now an exponent is an optional sign and one or more digits, with a
    // single underscore allowed between digits, and leading zeros allowed."
    let mut table = [9; 24];
    assert_eq!(read(b"[1e06]", &mut table), Ok(2));
    let root = [2, u32::MAX, 0, 6, 0, 0, 0, 0, 2, 1, 0, 0];
    let number = [7, 0, 1, 5, 0, 0, 0, 0, 2, 1, 0, 1006];
    assert_eq!(table[..], [root, number].concat());
    for (text, power) in
        [(&b"[1e-06]"[..], -6), (b"[1E+0_6]", 6), (b"[1e-0_0]", 0), (b"[1e0400]", 400)]
    {
        let document = Document::read(text).unwrap();
        let expected = Decimal { minus: false, digits: 1, power };
        assert_eq!(document.node(1).unwrap().decimal(), Some(expected), "{}", text.escape_ascii());
    }
    for (text, number) in [
        (&b"[01e6]"[..], 3),
        (b"[1e]", 3),
        (b"[1e+]", 3),
        (b"[1e_0]", 3),
        (b"[1e0_]", 3),
        (b"[1e0__6]", 3),
        (b"[1e0x1]", 3),
        (b"[1e0401]", 5),
        (b"[0e-0401]", 5),
    ] {
        table.fill(9);
        assert_eq!(read(text, &mut table), Err(refusal(number, 1)), "{}", text.escape_ascii());
        assert_eq!(table, [0; 24]);
    }
}

#[test]
fn exponents_of_very_many_digits() {
    // "an exponent of very many zeros must not trip 5"
    let zeros = "0".repeat(60_000);
    let document = Document::read(format!("[1e{zeros}6]")).unwrap();
    let number = document.node(1).unwrap();
    assert_eq!(number.decimal(), Some(Decimal { minus: false, digits: 1, power: 6 }));
    assert_eq!(number.span(), 1..60_004);
    let document = Document::read(format!("[-1.5e-{zeros}]")).unwrap();
    let number = document.node(1).unwrap();
    assert_eq!(number.decimal(), Some(Decimal { minus: true, digits: 15, power: -1 }));
    assert_eq!(number.span(), 1..60_007);
    let nines = "9".repeat(60_000);
    for (text, number) in [
        (format!("[1e{nines}]"), 5),
        (format!("[1e-{nines}]"), 5),
        (format!("[1e{zeros}401]"), 5),
        (format!("[1e{zeros}__6]"), 3),
        // 3 goes before 5.
        (format!("[1e{nines}x]"), 3),
        (format!("[1e{nines}_]"), 3),
        (format!("[1e{nines}__6]"), 3),
    ] {
        assert_eq!(Document::read(text).unwrap_err(), refusal(number, 1));
    }
}

#[test]
fn empty_slices_are_fine() {
    assert_eq!(read(b"", &mut []), Err(refusal(7, 0)));
    assert_eq!(read(b"[]", &mut []), Err(refusal(10, 0)));
    assert_eq!(read(&[], &mut [5; 3]), Err(refusal(7, 0)));
    assert_eq!(content(b"", 0, 0, &mut []), Err(refusal(19, 0)));
    assert_eq!(content(b"\"\"", 0, 2, &mut []), Ok(0));
    assert_eq!(content(b"\"a\"", 0, 3, &mut []), Err(refusal(20, 0)));
    assert_eq!(utf8(&[]), Utf8Check { front: 0, eights: 0 });
}

#[test]
fn contents() {
    let mut out = [7; 6];
    assert_eq!(content(br#"b64"ZHVwZXI""#, 0, 12, &mut out), Ok(5));
    assert_eq!(&out, b"duper\x07");
    for (start, end) in
        [(1, 0), (0, 13), (usize::MAX, usize::MAX), (usize::MAX, 0), (0, usize::MAX)]
    {
        assert_eq!(content(br#"b64"ZHVwZXI""#, start, end, &mut out), Err(refusal(19, 0)));
    }
    assert_eq!(content(br#"b64"ZHVwZXI""#, 0, 12, &mut out[..4]), Err(refusal(20, 0)));
    assert_eq!(&out, b"duper\x07");
}

#[test]
fn utf8_of_any_bytes() {
    // "Wherever the UTF-8 check stands at a character's start and the next
    // eight bytes are all below 80 hex, it shall pass over them in one step,
    // else over one character."
    for (bytes, front, eights) in [
        (&b"1234567"[..], 7, 0),
        (b"12345678", 8, 1),
        (b"123456789", 9, 1),
        ("é12345678".as_bytes(), 10, 1),
        ("1234567é12345678".as_bytes(), 17, 1),
        ("1234é5678".as_bytes(), 10, 0),
        (&[0x00, 0x7F, 0x00, 0x7F, 0x00, 0x7F, 0x00, 0x7F], 8, 1),
        (b"12345678\x80", 8, 1),
        (b"1234567\x8012345678", 7, 0),
        (b"12345678\xE212345678", 8, 1),
        (b"1234567812345678\xF0\x9F\x98", 16, 2),
        (b"\xED\x9F\xBF12345678\xED\xA0\x80", 11, 1),
        (b"\xF4\x8F\xBF\xBF\xF4\x90\x80\x80", 4, 0),
        (b"\xC1\xBF", 0, 0),
        (b"\xFF12345678", 0, 0),
    ] {
        assert_eq!(utf8(bytes), Utf8Check { front, eights }, "{}", bytes.escape_ascii());
    }
    // A text that is refused with 2 is refused where the front ends.
    assert_eq!(read(b"[\"12345678\xC3\"]", &mut []), Err(refusal(2, 10)));
    assert_eq!(utf8(b"[\"12345678\xC3\"]"), Utf8Check { front: 10, eights: 1 });
}

#[test]
fn utf8_of_more_bytes_than_a_text_may_have() {
    let mut bytes = vec![b' '; 65_537];
    assert_eq!(utf8(&bytes), Utf8Check { front: 65_537, eights: 8_192 });
    // 65,537 spaces are 8,192 eights and one character; then é and two eights.
    bytes.extend_from_slice("é1234567812345678".as_bytes());
    assert_eq!(utf8(&bytes), Utf8Check { front: 65_555, eights: 8_194 });
    bytes.extend_from_slice(b"\xFF12345678");
    assert_eq!(utf8(&bytes), Utf8Check { front: 65_555, eights: 8_194 });
    assert_eq!(utf8("é".repeat(100_000).as_bytes()), Utf8Check { front: 200_000, eights: 0 });
}

#[test]
fn a_document() {
    let text =
        br#"Top({ "k\x31": [-0.5, -9223372036854775808], b: B("\u00e9"), c: null, d: true })"#;
    let document = Document::read(text).unwrap();
    assert_eq!(document.len(), 7);
    let root = document.root().unwrap();
    assert_eq!(document.name(root), Some("Top"));
    assert_eq!(root.value(), Value::Container { children: 4 });
    assert_eq!((root.parent(), root.next()), (None, 7));
    assert_eq!(document.written(root), Some(&text[..]));
    let list = document.member(root, b"k1").unwrap();
    let numbers: Vec<_> = document.children(list).map(|node| node.value()).collect();
    let half = Decimal { minus: true, digits: 5, power: -1 };
    assert_eq!(numbers, [Value::Decimal(half), Value::Integer(i64::MIN)]);
    let b = document.member(root, b"b").unwrap();
    assert_eq!(document.string(b).unwrap(), "é".as_bytes());
    assert_eq!((document.name(b), b.content_length()), (Some("B"), Some(2)));
    assert_eq!(document.written(b), Some(&br#"B("\u00e9")"#[..]));
    let c = document.member(root, b"c").unwrap();
    assert!(c.is_null());
    assert_eq!((c.integer(), c.decimal(), c.bool(), document.string(c)), (None, None, None, None));
    assert_eq!(document.member(root, b"d").unwrap().bool(), Some(true));
    assert_eq!(document.member(root, b"e"), None);
    assert_eq!(document.member(c, b"e"), None);
    assert_eq!(document.node(7), None);
    assert_eq!(document.node(usize::MAX), None);
    assert_eq!(document.nodes().filter(|node| node.parent() == Some(0)).count(), 4);
}

#[test]
fn comments_touch_no_data() {
    // "Each changed place is the old one plus the bytes inserted before the
    // byte it names, and an end moves with the last byte of its span."
    let plain = "T({a:I(\"x\"),b:+1})//e";
    let annotated = "/***/\tT({a:I/*/*/(\"x\"//q/*\n), b:+1//é\r\n})/**///e";
    let rows = |text: &str| Document::read(text).unwrap().table().to_vec();
    let root = u32::MAX;
    assert_eq!(
        rows(plain),
        [
            [1, root, 0, 18, 0, 0, 0, 1, 3, 2, 0, 0],
            [4, 0, 5, 11, 3, 4, 5, 6, 2, 7, 10, 1],
            [6, 0, 14, 16, 12, 13, 0, 0, 3, 1, 0, 0],
        ]
        .concat()
    );
    assert_eq!(
        rows(annotated),
        [
            [1, root, 6, 42, 0, 0, 6, 7, 3, 2, 0, 0],
            [4, 0, 11, 28, 9, 10, 11, 12, 2, 18, 21, 1],
            [6, 0, 32, 34, 30, 31, 0, 0, 3, 1, 0, 0],
        ]
        .concat()
    );
}

#[test]
fn nodes_of_another_document_do_no_harm() {
    let long = Document::read(br#"[{ "a long key": "a long string" }, [1, 2, 3]]"#).unwrap();
    let short = Document::read(b"[]").unwrap();
    for node in long.nodes() {
        assert_eq!(short.key(node), None);
        assert_eq!(short.string(node), None);
        assert_eq!(short.children(node).count(), 0);
        short.written(node);
        short.name(node);
        short.member(node, b"a long key");
    }
}

#[test]
fn refusals_speak() {
    let refused = Document::read(b"[1,,2]").unwrap_err();
    assert_eq!(
        refused.to_string(),
        "a token is not allowed here, or the text ends early (refusal 7 at byte 3)"
    );
    let boxed: Box<dyn std::error::Error> = Box::new(refused);
    assert!(boxed.to_string().contains("byte 3"));
    // As many rows as bytes are always enough: nothing else becomes a 10.
    assert_eq!(Document::read(b"[[[[").unwrap_err(), refusal(7, 4));
    assert_eq!(Document::read_within(b"[[[[", 3).unwrap_err(), refusal(10, 3));
}
