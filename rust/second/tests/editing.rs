//! Corrections, undo and the plain book: document 01's own example, where its
//! lines run, and the calls held against the book. Expected values are taken
//! from the papers.

use second::book::{self, pages, Call};
use second::{correct, read, undo, Answer, Refusal, ROW};

fn nested(depth: usize) -> String {
    "[".repeat(depth) + &"]".repeat(depth)
}

#[test]
fn both_sides_correction() {
    let mut text = *b"[1, null]";
    let mut journal = [0x55; 20];
    let mut table = [7; 40];
    let answer = correct(&mut text, 9, &mut journal, 0, &mut table, 2, b"12.5");
    assert_eq!(answer, Answer { refusal: None, nodes: 3, used: 9, kept: 16 });
    assert_eq!(&text, b"[1, 12.5]");
    assert_eq!(
        journal,
        [0x6E, 0x75, 0x6C, 0x6C, 4, 0, 0, 0, 4, 0, 0, 0, 0x10, 0, 0, 0, 0x55, 0x55, 0x55, 0x55]
    );
    let mut expected = [9; 40];
    assert_eq!(read(b"[1, 12.5]", &mut expected), Ok(3));
    assert_eq!(table, expected);
    let answer = undo(&mut text, 9, &journal, 16, &mut table);
    assert_eq!(answer, Answer { refusal: None, nodes: 3, used: 9, kept: 0 });
    assert_eq!(&text, b"[1, null]");
    assert_eq!(journal[..4], *b"null");
}

// Readings of document 01: corrections.

/// Buffers as a caller lends them, with the lengths in use.
#[derive(Clone, Debug, PartialEq)]
struct Lent {
    text: Vec<u8>,
    used: usize,
    journal: Vec<u8>,
    kept: usize,
    table: Vec<u32>,
}

impl Lent {
    fn new(
        text: &[u8],
        text_room: usize,
        journal: &[u8],
        journal_room: usize,
        nodes: usize,
    ) -> Self {
        let mut lent = Lent {
            text: text.to_vec(),
            used: text.len(),
            journal: journal.to_vec(),
            kept: journal.len(),
            table: vec![77; nodes * ROW + 3],
        };
        lent.text.resize(text_room, 0xEE);
        lent.journal.resize(journal_room, 0xEE);
        lent
    }

    fn correct(&mut self, node: usize, replacement: &[u8]) -> Answer {
        let Lent { text, used, journal, kept, table } = self;
        correct(text, *used, journal, *kept, table, node, replacement)
    }

    fn undo(&mut self) -> Answer {
        let Lent { text, used, journal, kept, table } = self;
        undo(text, *used, journal, *kept, table)
    }

    /// Checks a refusal: buffers and lengths stay, and the table is the
    /// present text's reading, or zeros after 1 to 11.
    #[track_caller]
    fn stays(&self, before: &Lent, answer: Answer, number: u32, place: u64) {
        assert_eq!(answer.refusal, Some(Refusal { number, place }));
        assert_eq!((answer.used, answer.kept), (before.used, before.kept));
        assert_eq!(self.text, before.text);
        assert_eq!(self.journal, before.journal);
        let mut table = vec![1; self.table.len()];
        let nodes = if number <= 11 {
            table.fill(0);
            0
        } else {
            read(&self.text[..self.used], &mut table).unwrap()
        };
        assert_eq!(answer.nodes, nodes);
        assert_eq!(self.table, table);
    }

    #[track_caller]
    fn correct_refused(&mut self, node: usize, replacement: &[u8], number: u32, place: u64) {
        let before = self.clone();
        let answer = self.correct(node, replacement);
        self.stays(&before, answer, number, place);
    }

    #[track_caller]
    fn undo_refused(&mut self, number: u32, place: u64) {
        let before = self.clone();
        let answer = self.undo();
        self.stays(&before, answer, number, place);
    }
}

#[test]
fn reading_of_sizes_alone_and_in_the_whole() {
    // 32 deep alone under a node that isn't the root.
    let mut lent = Lent::new(b"[1]", 300, b"", 300, 100);
    lent.correct_refused(1, nested(32).as_bytes(), 16, 0);
    lent.correct_refused(1, nested(33).as_bytes(), 13, 0);
    assert_eq!(lent.correct(1, nested(31).as_bytes()).refusal, None);
    // Nodes: alone they are fine, in the lent table they aren't.
    let mut lent = Lent::new(b"[1]", 300, b"", 300, 3);
    lent.correct_refused(1, b"[1,2]", 16, 0);
    assert_eq!(lent.correct(1, b"[1]").nodes, 3);
    let full = format!("[{}1]", "1,".repeat(4094));
    let mut lent = Lent::new(b"[1]", 65_536, b"", 300, 4096);
    lent.correct_refused(1, full.as_bytes(), 16, 0);
    lent.correct_refused(1, format!("[1,{}", &full[1..]).as_bytes(), 13, 0);
    assert_eq!(lent.correct(0, full.as_bytes()).nodes, 4096);
}

#[test]
fn reading_of_the_root() {
    // What stands around the root stays, and its identifier goes too.
    let mut lent = Lent::new(b" /*a*/ A([1]) // b", 40, b"", 99, 9);
    for part in ["1", "A(1)", "null", "", " []", "[] ", "[]//", "[],", "A(B([]))"] {
        lent.correct_refused(0, part.as_bytes(), 13, 0);
    }
    let answer = lent.correct(0, b"{}");
    assert_eq!(answer, Answer { refusal: None, nodes: 1, used: 14, kept: 18 });
    assert_eq!(lent.text[..18], *b" /*a*/ {} // b\0\0\0\0");
    assert_eq!(lent.text[18..], [0xEE; 22]);
    assert_eq!(lent.journal[..18], *b"A([1])\x07\0\0\0\x02\0\0\0\x12\0\0\0");
    (lent.used, lent.kept) = (answer.used, answer.kept);
    assert_eq!(lent.correct(0, b"B((1,2))").nodes, 3);
}

#[test]
fn reading_of_buffers_after_a_correction() {
    // The identifier goes too, what surrounds the value stays, bytes
    // no longer used become 0 and later ones stay.
    let mut lent = Lent::new(b"[ /*a*/ A(1) /*b*/ ,2]", 30, b"", 40, 9);
    let answer = lent.correct(1, b"x");
    assert_eq!(answer.refusal, Some(Refusal { number: 13, place: 0 }));
    let answer = lent.correct(1, b"7");
    assert_eq!(answer, Answer { refusal: None, nodes: 3, used: 19, kept: 16 });
    assert_eq!(lent.text[..19], *b"[ /*a*/ 7 /*b*/ ,2]");
    assert_eq!(lent.text[19..], [0, 0, 0, 0xEE, 0xEE, 0xEE, 0xEE, 0xEE, 0xEE, 0xEE, 0xEE]);
    assert_eq!(lent.journal[..16], *b"A(1)\x08\0\0\0\x01\0\0\0\x10\0\0\0");
    assert_eq!(lent.journal[16..], [0xEE; 24]);
    (lent.used, lent.kept) = (answer.used, answer.kept);
    let answer = lent.correct(1, b"B({})");
    assert_eq!(answer, Answer { refusal: None, nodes: 3, used: 23, kept: 29 });
    assert_eq!(lent.text[..23], *b"[ /*a*/ B({}) /*b*/ ,2]");
    assert_eq!(lent.text[23..], [0xEE; 7]);
    // The place of 1 to 10 is the reading's own.
    let mut long = Lent::new(&[b' '; 65_537], 70_000, b"", 9, 2);
    long.correct_refused(0, b"[]", 1, 65_536);
    long.undo_refused(1, 65_536);
    let mut lent = Lent::new(b"[00]", 9, b"", 9, 2);
    lent.correct_refused(0, b"[]", 3, 1);
    lent.undo_refused(3, 1);
    // 11 goes before everything else.
    let mut lent = Lent::new(b"[00]", 4, b"", 9, 2);
    lent.used = 5;
    lent.correct_refused(9, b"", 11, 0);
    lent.undo_refused(11, 0);
    (lent.used, lent.kept) = (4, 10);
    lent.correct_refused(9, b"", 11, 0);
    lent.undo_refused(11, 0);
    // `stays` looks at the table and the count after 12 to 18 too.
    let mut lent = Lent::new(b"[1, null]", 9, b"", 15, 3);
    lent.correct_refused(3, b"", 12, 0);
    lent.correct_refused(usize::MAX, b"1", 12, 0);
    lent.correct_refused(2, b"", 13, 0);
    lent.correct_refused(2, b"1, 2", 13, 0);
    lent.correct_refused(2, b"1 // x", 13, 0);
    lent.correct_refused(0, b"1", 13, 0);
    lent.correct_refused(2, b"12345", 14, 0);
    lent.correct_refused(2, b"12", 15, 0);
    lent.undo_refused(17, 0);
    let mut lent = Lent::new(b"[1, null]", 99, b"", 99, 3);
    lent.correct_refused(2, b"[2]", 16, 0);
}

#[test]
fn reading_of_rooms() {
    let mut lent = Lent::new(b"[1, null]", 9, b"", 15, 3);
    lent.correct_refused(2, b"[[]] ", 13, 0);
    lent.correct_refused(2, b"[[]][", 13, 0);
    lent.correct_refused(2, b"[[ ]]", 14, 0);
    lent.correct_refused(2, b"[[]]", 15, 0);
    let mut lent = Lent::new(b"[1, null]", 9, b"", 16, 3);
    lent.correct_refused(2, b"[[]]", 16, 0);
    assert_eq!(lent.correct(2, b"[ ,]").kept, 16);
    // 14 by the text's own limit.
    let mut lent = Lent::new(b"[1]", 70_000, b"", 99, 3);
    let string = format!("\"{}\"", "x".repeat(65_533));
    lent.correct_refused(1, string.as_bytes(), 14, 0);
    let string = format!("\"{}\"", "x".repeat(65_532));
    assert_eq!(lent.correct(1, string.as_bytes()).used, 65_536);
}

// Readings of document 01: undo.

fn entry(old: &[u8], start: u32, replacement: u32, third: u32) -> Vec<u8> {
    let mut bytes = old.to_vec();
    for number in [start, replacement, third] {
        bytes.extend(number.to_le_bytes());
    }
    bytes
}

#[test]
fn reading_of_undo() {
    // The reading goes before 17 and 18.
    Lent::new(b"[", 9, b"", 9, 3).undo_refused(7, 1);
    Lent::new(b"[", 9, b"abc", 9, 3).undo_refused(7, 1);
    // 17 is for a length of 0 alone.
    Lent::new(b"[1]", 9, b"", 9, 3).undo_refused(17, 0);
    for length in 1..12 {
        Lent::new(b"[1]", 9, &vec![0; length], 20, 3).undo_refused(18, 0);
    }
    Lent::new(b"[1]", 9, &entry(b"", 1, 1, 11), 20, 3).undo_refused(18, 0);
    Lent::new(b"[1]", 9, &entry(b"", 1, 1, 13), 20, 3).undo_refused(18, 0);
    Lent::new(b"[1]", 9, &entry(b"2", 1, 1, 14), 20, 3).undo_refused(18, 0);
    Lent::new(b"[1]", 9, &entry(b"2", 1, 1, u32::MAX), 20, 3).undo_refused(18, 0);
    // Sums are exact: this one is no wrapped 1.
    Lent::new(b"[1]", 9, &entry(b"2", u32::MAX, 2, 13), 20, 3).undo_refused(18, 0);
    // "the text's": its length in use, not the buffer's.
    Lent::new(b"[1]", 9, &entry(b"2", 1, 3, 13), 20, 3).undo_refused(18, 0);
    Lent::new(b"[1]", 9, &entry(b"2", 1, 2, 13), 20, 3).undo_refused(16, 0);
    Lent::new(b"[1]", 9, &entry(b"2", 4, 0, 13), 20, 3).undo_refused(18, 0);
    // Old bytes may be none, and an entry may name no value: what comes of it
    // decides.
    let mut lent = Lent::new(b"[1]", 9, &entry(b"", 1, 1, 12), 20, 3);
    assert_eq!(lent.undo(), Answer { refusal: None, nodes: 1, used: 2, kept: 0 });
    assert_eq!(lent.text, b"[]\0\xEE\xEE\xEE\xEE\xEE\xEE");
    Lent::new(b"[1]", 9, &entry(b"", 0, 1, 12), 20, 3).undo_refused(16, 0);
    let mut lent = Lent::new(b"[1]", 9, &entry(b"1,(2", 1, 0, 16), 20, 9);
    lent.undo_refused(16, 0);
    let mut lent = Lent::new(b"[1]", 9, &entry(b"12,", 1, 0, 15), 20, 3);
    let before = lent.clone();
    assert_eq!(lent.undo(), Answer { refusal: None, nodes: 3, used: 6, kept: 0 });
    assert_eq!(lent.text[..6], *b"[12,1]");
    assert_eq!(lent.text[6..], before.text[6..]);
    // The journal's bytes all stay.
    assert_eq!(lent.journal, before.journal);
    // 14 goes before 16.
    Lent::new(b"[1]", 4, &entry(b"12,", 1, 0, 15), 20, 3).undo_refused(14, 0);
    Lent::new(b"[1]", 5, &entry(b"]]]", 1, 0, 15), 20, 3).undo_refused(14, 0);
    Lent::new(b"[1]", 6, &entry(b"]]]", 1, 0, 15), 20, 3).undo_refused(16, 0);
    // 14 by the text's own limit, in a longer buffer.
    let entry_of = |length: usize| entry(&vec![b' '; length], 3, 0, length as u32 + 12);
    Lent::new(b"[1]", 70_000, &entry_of(65_534), 70_000, 3).undo_refused(14, 0);
    let mut lent = Lent::new(b"[1]", 70_000, &entry_of(65_533), 70_000, 3);
    assert_eq!(lent.undo(), Answer { refusal: None, nodes: 2, used: 65_536, kept: 0 });
    // Only the last entry is looked at.
    let two = [entry(b"zz", 9, 9, 1), entry(b"2", 1, 1, 13)].concat();
    let mut lent = Lent::new(b"[1]", 3, &two, two.len(), 3);
    assert_eq!(lent.undo(), Answer { refusal: None, nodes: 2, used: 3, kept: 14 });
    assert_eq!(lent.text, b"[2]");
}

// Document 02's request 02: "Demands 2 and 3 read with this rule".

#[test]
fn exponents_with_leading_zeros() {
    let mut lent = Lent::new(b"[1, null]", 14, b"", 40, 3);
    // `null` goes from 4 to 8, and four bytes come.
    let answer = lent.correct(2, b"1e06");
    assert_eq!(answer, Answer { refusal: None, nodes: 3, used: 9, kept: 16 });
    assert_eq!(lent.text, b"[1, 1e06]\xEE\xEE\xEE\xEE\xEE");
    assert_eq!(lent.journal[..16], entry(b"null", 4, 4, 16));
    let mut rows = [
        [2, u32::MAX, 0, 9, 0, 0, 0, 0, 3, 2, 0, 0],
        [6, 0, 1, 2, 0, 0, 0, 0, 2, 1, 0, 0],
        [7, 0, 4, 8, 0, 0, 0, 0, 3, 1, 0, 1006],
    ];
    assert_eq!(lent.table[..36], rows.concat());
    (lent.used, lent.kept) = (answer.used, answer.kept);
    // What isn't one value stays 13, and so does a number that is too wide.
    for slip in ["01e6", "1e0_", "1e_0", "1e", "1e+", "1e0__6", "1e06 ", "1e0401", "1e-0401"] {
        lent.correct_refused(2, slip.as_bytes(), 13, 0);
    }
    lent.correct_refused(0, b"1e06", 13, 0);
    // Four bytes go, seven come: p is -6.
    let answer = lent.correct(2, b"1e-0_06");
    assert_eq!(answer, Answer { refusal: None, nodes: 3, used: 12, kept: 32 });
    assert_eq!(lent.text, b"[1, 1e-0_06]\xEE\xEE");
    assert_eq!(lent.journal[16..32], entry(b"1e06", 4, 7, 16));
    (rows[0][3], rows[2][3], rows[2][11]) = (12, 11, 994);
    assert_eq!(lent.table[..36], rows.concat());
    (lent.used, lent.kept) = (answer.used, answer.kept);
    // Back to `1e06`, which reads, and to the first text.
    let answer = lent.undo();
    assert_eq!(answer, Answer { refusal: None, nodes: 3, used: 9, kept: 16 });
    assert_eq!(lent.text, b"[1, 1e06]\0\0\0\xEE\xEE");
    (rows[0][3], rows[2][3], rows[2][11]) = (9, 8, 1006);
    assert_eq!(lent.table[..36], rows.concat());
    (lent.used, lent.kept) = (answer.used, answer.kept);
    let answer = lent.undo();
    assert_eq!(answer, Answer { refusal: None, nodes: 3, used: 9, kept: 0 });
    assert_eq!(lent.text, b"[1, null]\0\0\0\xEE\xEE");
    (lent.used, lent.kept) = (answer.used, answer.kept);
    lent.undo_refused(17, 0);

    // An undo may bring such a number back; one that brings back `01e6` is 16.
    let mut lent = Lent::new(b"[1e06]", 9, b"", 40, 3);
    let answer = lent.correct(1, b"null");
    assert_eq!(answer, Answer { refusal: None, nodes: 2, used: 6, kept: 16 });
    (lent.used, lent.kept) = (answer.used, answer.kept);
    assert_eq!(lent.undo(), Answer { refusal: None, nodes: 2, used: 6, kept: 0 });
    assert_eq!(lent.text, b"[1e06]\xEE\xEE\xEE");
    Lent::new(b"[null]", 9, &entry(b"01e6", 1, 4, 16), 20, 3).undo_refused(16, 0);
    // A present text that doesn't read.
    Lent::new(b"[01e6]", 9, b"", 40, 3).correct_refused(1, b"1", 3, 1);
    Lent::new(b"[1e0401]", 9, b"", 40, 3).undo_refused(5, 1);
}

#[test]
fn exponents_of_very_many_zeros() {
    let number = |back: &str| format!("1e{}{back}", "0".repeat(60_000)).into_bytes();
    let mut lent = Lent::new(b"[1, null]", 65_536, b"", 100, 3);
    for slip in ["_", "x", "401", "__6"] {
        lent.correct_refused(2, &number(slip), 13, 0);
    }
    // 9 - 4 + 60,003 bytes.
    let answer = lent.correct(2, &number("6"));
    assert_eq!(answer, Answer { refusal: None, nodes: 3, used: 60_008, kept: 16 });
    assert_eq!(lent.table[24..36], [7, 0, 4, 60_007, 0, 0, 0, 0, 3, 1, 0, 1006]);
    assert_eq!(lent.journal[..16], entry(b"null", 4, 60_003, 16));
    (lent.used, lent.kept) = (answer.used, answer.kept);
    let answer = lent.undo();
    assert_eq!(answer, Answer { refusal: None, nodes: 3, used: 9, kept: 0 });
    assert_eq!(lent.text[..9], *b"[1, null]");
    assert!(lent.text[9..60_008].iter().all(|&byte| byte == 0));
    assert!(lent.text[60_008..].iter().all(|&byte| byte == 0xEE));
}

// Document 01's plain book.

#[test]
fn the_book_on_exponents() {
    let correct =
        |node, replacement: &[u8]| Call::Correct { node, replacement: replacement.to_vec() };
    let lent = book::Lengths { text: 12, journal: 60, table: 40 };
    let calls = [
        correct(1, b"01e6"),
        correct(1, b"1e06"),
        correct(1, b"1e0_"),
        correct(0, b"[0e-0_0]"),
        correct(1, b"1e000401"),
        Call::Undo,
        Call::Undo,
        Call::Undo,
    ];
    let pages = pages(b"[1e00]", lent, &calls).unwrap();
    let brief: Vec<_> = pages
        .iter()
        .map(|page| (page.refusal, &page.text[..], page.table[23], page.journal.len()))
        .collect();
    // Word 23 is word 11 of node 1. An entry is the old bytes and 12.
    assert_eq!(
        brief,
        [
            (Some(13), &b"[1e00]"[..], 1000, 0),
            (None, b"[1e06]", 1006, 16),
            (Some(13), b"[1e06]", 1006, 16),
            (None, b"[0e-0_0]", 1000, 34),
            (Some(13), b"[0e-0_0]", 1000, 34),
            (None, b"[1e06]", 1006, 16),
            (None, b"[1e00]", 1000, 0),
            (Some(17), b"[1e00]", 1000, 0),
        ]
    );
    assert!(book::Book::new(b"[01e6]", lent).is_none());
}

#[test]
fn the_plain_book() {
    let correct =
        |node, replacement: &[u8]| Call::Correct { node, replacement: replacement.to_vec() };
    let lent = book::Lengths { text: 12, journal: 33, table: 40 };
    let calls = [
        Call::Undo,
        correct(2, b"12.5"),
        correct(3, b"1"),
        correct(2, b"1, 2"),
        correct(2, b"12345678"),
        correct(1, b"[[]]"),
        correct(1, b"2222"),
        correct(1, b"3"),
        Call::Undo,
        Call::Undo,
        Call::Undo,
    ];
    let pages = pages(b"[1, null]", lent, &calls).unwrap();
    let brief: Vec<_> = pages
        .iter()
        .map(|page| (page.refusal, page.nodes, &page.text[..], page.journal.len()))
        .collect();
    assert_eq!(
        brief,
        [
            (Some(17), 3, &b"[1, null]"[..], 0),
            (None, 3, b"[1, 12.5]", 16),
            (Some(12), 3, b"[1, 12.5]", 16),
            (Some(13), 3, b"[1, 12.5]", 16),
            (Some(14), 3, b"[1, 12.5]", 16),
            (Some(16), 3, b"[1, 12.5]", 16),
            (None, 3, b"[2222, 12.5]", 29),
            (Some(15), 3, b"[2222, 12.5]", 29),
            (None, 3, b"[1, 12.5]", 16),
            (None, 3, b"[1, null]", 0),
            (Some(17), 3, b"[1, null]", 0),
        ]
    );
    assert_eq!(pages[1].journal, b"null\x04\0\0\0\x04\0\0\0\x10\0\0\0");
    let mut table = vec![3; 40];
    read(b"[2222, 12.5]", &mut table).unwrap();
    assert_eq!(pages[6].table, table);
    assert!(book::Book::new(b"[", lent).is_none());
    assert!(book::Book::new(b"[1, 1234567890]", lent).is_none());
}

/// The same list through `correct` and `undo`, with buffers and lengths as the
/// last call left them, gives what the book says.
#[test]
fn the_book_and_the_calls_agree() {
    let mut state = 0x1234_5678_9ABC_DEFFu64;
    let mut below = |most: usize| {
        state ^= state << 13;
        state ^= state >> 7;
        state ^= state << 17;
        (state >> 11) as usize % most
    };
    let replacements: [&[u8]; 20] = [
        b"1e06",
        b"-0.5E-0_0",
        b"01e6",
        b"1e0_",
        b"1",
        b"null",
        b"[]",
        b"{a:1}",
        b"A([1,2])",
        b"\"\\n\"",
        b"1, 2",
        b"",
        b"(((1)))",
        b"-0.0",
        b"[1,2,3,4,5,6]",
        b"b64\"QQ\"",
        b"{a:1,a:2}",
        b"\"long enough to leave no room\"",
        b"{}",
        b"[ /*c*/ ]",
    ];
    for _ in 0..300 {
        let first = b"{a:[1,2], b : X(null) /*c*/, c:(true,)}";
        let room = book::Lengths {
            text: first.len() + below(40),
            journal: below(200),
            table: 8 * ROW + below(60),
        };
        let calls: Vec<_> = (0..20)
            .map(|_| match below(3) {
                0 => Call::Undo,
                _ => Call::Correct {
                    node: below(9),
                    replacement: replacements[below(replacements.len())].to_vec(),
                },
            })
            .collect();
        let pages = pages(first, room, &calls).unwrap();
        let mut lent = Lent::new(first, room.text, b"", room.journal, 0);
        lent.table = vec![0xABCD; room.table];
        for (call, page) in calls.iter().zip(&pages) {
            let answer = match call {
                Call::Correct { node, replacement } => lent.correct(*node, replacement),
                Call::Undo => lent.undo(),
            };
            assert_eq!(answer.refusal, page.refusal.map(|number| Refusal { number, place: 0 }));
            assert_eq!(answer.nodes, page.nodes);
            (lent.used, lent.kept) = (answer.used, answer.kept);
            assert_eq!(lent.text[..lent.used], page.text);
            assert_eq!(lent.journal[..lent.kept], page.journal);
            assert_eq!(lent.table, page.table);
        }
    }
}
