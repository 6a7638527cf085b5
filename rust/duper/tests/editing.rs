//! Corrections and undo over the real archive: document 01's example, every
//! refusal of the raw calls, and what a document keeps.

use duper::{correct, read, undo, Answer, Decimal, Document, Limits, Reason, Refusal, ROW};

fn refusal(number: u32, place: u32) -> Refusal {
    Refusal { number, place }
}

/// An entry of a journal: old bytes, then the trailer.
fn entry(old: &[u8], start: u32, replacement: u32, third: u32) -> Vec<u8> {
    let numbers = [start, replacement, third].map(u32::to_le_bytes);
    [old, &numbers.concat()].concat()
}

#[test]
fn the_example_of_the_paper() {
    let mut text = *b"[1, null]";
    let mut journal = [0x55; 20];
    let mut table = [7; 40];
    let answer = correct(&mut text, 9, &mut journal, 0, &mut table, 2, b"12.5");
    assert_eq!(answer, Answer { outcome: Ok(()), nodes: 3, used: 9, kept: 16 });
    assert_eq!(&text, b"[1, 12.5]");
    assert_eq!(&journal, b"null\x04\0\0\0\x04\0\0\0\x10\0\0\0\x55\x55\x55\x55");
    let mut reading = [9; 40];
    assert_eq!(read(&text, &mut reading), Ok(3));
    assert_eq!(table, reading);
    let before = journal;
    let answer = undo(&mut text, 9, &mut journal, 16, &mut table);
    assert_eq!(answer, Answer { outcome: Ok(()), nodes: 3, used: 9, kept: 0 });
    assert_eq!((&text, journal), (b"[1, null]", before));
}

#[test]
fn every_refusal_of_the_raw_calls() {
    let text = b"[1, null]";
    // The lengths in use of text and journal, the words of the table, the node
    // and the replacement.
    for (used, kept, words, node, replacement, expected) in [
        (10, 0, 36, 2, &b"1"[..], refusal(11, 0)),
        (usize::MAX, 0, 36, 2, b"1", refusal(11, 0)),
        (9, 17, 36, 2, b"1", refusal(11, 0)),
        (9, usize::MAX, 36, 2, b"1", refusal(11, 0)),
        (8, 0, 36, 2, b"1", refusal(7, 8)),
        (9, 0, 35, 2, b"1", refusal(10, 4)),
        (9, 0, 36, 3, b"1", refusal(12, 0)),
        (9, 0, 36, usize::MAX, b"1", refusal(12, 0)),
        (9, 0, 36, 2, b"1, 2", refusal(13, 0)),
        (9, 0, 36, 2, b"12345", refusal(14, 0)),
        (9, 1, 36, 2, b"12", refusal(15, 0)),
    ] {
        let (mut text, mut journal, mut table) = (*text, [3; 16], vec![5; words]);
        let answer = correct(&mut text, used, &mut journal, kept, &mut table, node, replacement);
        let nodes = if expected.number > 11 { 3 } else { 0 };
        assert_eq!(answer, Answer { outcome: Err(expected), nodes, used, kept });
        assert_eq!((&text, journal), (b"[1, null]", [3; 16]));
        let mut reading = vec![0; words];
        if nodes > 0 {
            assert_eq!(read(&text, &mut reading), Ok(nodes));
        }
        assert_eq!(table, reading);
    }
    for (journal, expected) in [
        (Vec::new(), 17),
        (vec![0; 11], 18),
        (entry(b"", 1, 1, 11), 18),
        (entry(b"2", 1, 1, 14), 18),
        (entry(b"2", u32::MAX, 2, 13), 18),
        (entry(b"2", 8, 2, 13), 18),
        (entry(b"22", 1, 1, 14), 14),
        (entry(b"", 1, 0, 12), 0),
        (entry(b"", 0, 1, 12), 16),
    ] {
        let (mut text, mut lent, mut table) = (*text, journal.clone(), [5; 40]);
        let kept = journal.len();
        let answer = undo(&mut text, 9, &mut lent, kept, &mut table);
        let outcome = if expected == 0 { Ok(()) } else { Err(refusal(expected, 0)) };
        let left = if expected == 0 { 0 } else { kept };
        assert_eq!(answer, Answer { outcome, nodes: 3, used: 9, kept: left });
        assert_eq!((&text, lent), (b"[1, null]", journal));
    }
}

#[test]
fn empty_slices_are_fine() {
    for used in [0, 1, usize::MAX] {
        for kept in [0, 1, usize::MAX] {
            let number = if (used, kept) == (0, 0) { 7 } else { 11 };
            let outcome = Err(refusal(number, 0));
            let expected = Answer { outcome, nodes: 0, used, kept };
            assert_eq!(correct(&mut [], used, &mut [], kept, &mut [], 0, &[]), expected);
            assert_eq!(undo(&mut [], used, &mut [], kept, &mut []), expected);
        }
    }
}

#[test]
fn a_document_is_corrected_and_goes_back() {
    let first = br#" A({ height: null /*c*/, "b": [1, 2] }) // end"#;
    let mut document = Document::read(first).unwrap();
    let as_read = document.clone();
    assert!(!document.is_corrected());
    assert_eq!(document.undo(), Err(refusal(17, 0)));
    assert_eq!(document, as_read);

    let height = document.member(document.root().unwrap(), "height").unwrap();
    assert!(height.is_null());
    document.correct(height.number(), "Millimetres(38.5)").unwrap();
    let height = document.member(document.root().unwrap(), "height").unwrap();
    assert_eq!(document.name(height), Some("Millimetres"));
    assert_eq!(height.decimal().map(|decimal| (decimal.digits, decimal.power)), Some((385, -1)));
    assert!(document.is_corrected());
    assert_eq!(document.journal(), entry(b"null", 13, 17, 16));

    // A refusal changes nothing.
    let before = document.clone();
    for (node, replacement, number) in
        [(9, "1", 12), (1, "1 ", 13), (0, "1", 13), (1, "", 13), (0, &"[".repeat(33), 13)]
    {
        assert_eq!(document.correct(node, replacement), Err(refusal(number, 0)));
        assert_eq!(document, before);
    }

    // A longer text, more nodes, a shorter text.
    let long = format!("[{}null]", "null, ".repeat(900));
    document.correct(2, &long).unwrap();
    assert_eq!(document.len(), 904);
    document.correct(0, "()").unwrap();
    assert_eq!((document.text(), document.len()), (&b" () // end"[..], 1));
    assert_eq!(document.root().and_then(|root| root.children()), Some(0));

    assert_eq!(document.undo_all(), Ok(3));
    assert_eq!(document, as_read);
    assert_eq!(document.text(), first);
    assert_eq!(document.undo_all(), Ok(0));
}

#[test]
fn a_document_is_corrected_with_leading_zeros_in_the_exponent() {
    // Document 02's request 02: "Demands 2 and 3 read with this rule".
    let mut document = Document::read("[412.5, null]").unwrap();
    let as_read = document.clone();
    document.correct(2, "1e06").unwrap();
    assert_eq!(document.text(), b"[412.5, 1e06]");
    assert_eq!(document.journal(), entry(b"null", 8, 4, 16));
    let decimal = |document: &Document| document.node(2).and_then(|node| node.decimal());
    assert_eq!(decimal(&document), Some(Decimal { minus: false, digits: 1, power: 6 }));
    let before = document.clone();
    for slip in ["01e6", "1e", "1e0_", "1e_0", "1e0__6", "1e0401"] {
        assert_eq!(document.correct(2, slip), Err(refusal(13, 0)), "{slip}");
        assert_eq!(document, before);
    }
    let zeros = "0".repeat(60_000);
    document.correct(2, format!("-1e-{zeros}6")).unwrap();
    assert_eq!(decimal(&document), Some(Decimal { minus: true, digits: 1, power: -6 }));
    document.undo().unwrap();
    assert_eq!(document, before);
    document.undo().unwrap();
    assert_eq!(document, as_read);
    assert_eq!(document.text(), b"[412.5, null]");
}

#[test]
fn a_document_keeps_its_limits() {
    let limits = Limits { text: 12, journal: 33, nodes: 3 };
    let mut document = Document::read_with("[1, null]", limits).unwrap();
    document.correct(2, "12.5").unwrap();
    assert_eq!(document.correct(2, "12345678"), Err(refusal(14, 0)));
    assert_eq!(document.correct(1, "[[]]"), Err(refusal(16, 0)));
    document.correct(1, "2222").unwrap();
    assert_eq!(document.text(), b"[2222, 12.5]");
    assert_eq!(document.correct(1, "3"), Err(refusal(15, 0)));
    assert_eq!(document.undo_all(), Ok(2));
    assert_eq!(document.text(), b"[1, null]");

    // A text may stay as long as it is, and no longer.
    let limits = Limits { text: 0, ..Limits::default() };
    let mut document = Document::read_with("[1, null]", limits).unwrap();
    assert_eq!(document.correct(1, "22"), Err(refusal(14, 0)));
    document.correct(2, "3").unwrap();
    document.correct(1, "2222").unwrap();
    assert_eq!(document.text(), b"[2222, 3]");

    // Without limits of its own, the reader's.
    let mut document = Document::read("[1, null]").unwrap();
    let string = |length: usize| format!("\"{}\"", "x".repeat(length - 2));
    assert_eq!(document.correct(1, string(65_529)), Err(refusal(14, 0)));
    document.correct(1, string(65_528)).unwrap();
    assert_eq!(document.text().len(), 65_536);
    for _ in 0..100 {
        document.correct(1, string(65_528)).unwrap();
    }
    assert_eq!(document.journal().len(), 13 + 100 * 65_540);
    assert_eq!(document.undo_all(), Ok(101));
    let array = |nodes: usize| format!("[{}1]", "1,".repeat(nodes - 2));
    assert_eq!(document.correct(1, array(4097)), Err(refusal(13, 0)));
    assert_eq!(document.correct(1, array(4096)), Err(refusal(16, 0)));
    assert_eq!(document.correct(1, array(4095)), Err(refusal(16, 0)));
    document.correct(1, array(4094)).unwrap();
    assert_eq!(document.len(), 4096);
    assert_eq!(document.correct(4095, "[1]"), Err(refusal(16, 0)));
    document.correct(4095, "[]").unwrap();

    let none = Limits { text: 0, journal: 0, nodes: 0 };
    assert_eq!(Document::read_with("[]", none).unwrap_err(), refusal(10, 0));
    let one = Limits { nodes: 1, ..none };
    let mut document = Document::read_with("[]", one).unwrap();
    assert_eq!(document.correct(0, "{}").unwrap_err().reason(), Some(Reason::NoRoomInJournal));
}

#[test]
fn a_journal_is_kept_and_gone_on_with() {
    let mut document = Document::read("[412.5, null]").unwrap();
    document.correct(2, "398").unwrap();
    document.correct(1, "[412.5, 413]").unwrap();
    let (text, journal) = document.clone().into_parts();
    assert_eq!(text, b"[[412.5, 413], 398]");

    let limits = Limits { journal: 0, ..Limits::default() };
    let mut later = Document::read_with_journal(text.clone(), journal.clone(), limits).unwrap();
    assert_eq!((later.text(), later.table()), (document.text(), document.table()));
    assert_eq!(later.correct(1, "1"), Err(refusal(15, 0)));
    later.undo().unwrap();
    later.correct(2, "7").unwrap();
    assert_eq!(later.undo_all(), Ok(2));
    assert_eq!(later.text(), b"[412.5, null]");

    // Journals from elsewhere are refused or undone, as document 01 has it,
    // and do no harm.
    let with = |journal: &[u8]| {
        Document::read_with_journal(text.clone(), journal, Limits::default()).unwrap()
    };
    assert_eq!(with(b"rubbish").undo(), Err(refusal(18, 0)));
    assert_eq!(with(&journal[..journal.len() - 1]).undo(), Err(refusal(18, 0)));
    let foreign = [entry(b"2", 99, 1, 13), entry(b"1", 1, 12, 13)].concat();
    let mut document = with(&foreign);
    assert_eq!(document.undo_all(), Err(refusal(18, 0)));
    assert_eq!((document.text(), document.journal()), (&b"[1, 398]"[..], &foreign[..13]));
    let long = entry(&[b' '; 65_536], 1, 0, 65_548);
    assert_eq!(with(&long).undo(), Err(refusal(14, 0)));
    assert_eq!(with(&entry(b"[", 0, 0, 13)).undo(), Err(refusal(16, 0)));
}

#[test]
fn an_importer_finds_its_way() {
    let text = r#"[{ ball: 1, height: 412.5, rig: "north \u0065nd" }, (b"\xFF", null)]"#;
    let document = Document::read(text).unwrap();
    let root = document.root().unwrap();
    let records: Vec<_> = document.children(root).collect();
    let keys: Vec<_> = document.members(records[0]).map(|(key, _)| key).collect();
    assert_eq!(keys, [&b"ball"[..], b"height", b"rig"]);
    assert_eq!(document.members(records[1]).count(), 0);
    assert_eq!(document.members(root).count(), 0);
    let rig = document.member(records[0], "rig").unwrap();
    assert_eq!(document.text_string(rig).as_deref(), Some("north end"));
    assert_eq!(document.parent(rig), Some(records[0]));
    assert_eq!(document.parent(root), None);
    let bytes = document.children(records[1]).next().unwrap();
    assert_eq!((document.string(bytes), document.text_string(bytes)), (Some(vec![0xFF]), None));
    assert_eq!(document.content(rig.string_span().unwrap()), Ok(b"north end".to_vec()));
    for (start, end) in [(0, 0), (0, usize::MAX), (usize::MAX, 0), (0, 1), (3, 9)] {
        assert_eq!(document.content(start..end), Err(refusal(19, 0)));
    }
    assert_eq!(document.len() * ROW, document.table().len());
}
