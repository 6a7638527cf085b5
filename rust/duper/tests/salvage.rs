//! Salvaging logs through the wrapper. What is expected was worked out by hand from
//! document 02's request 14.

use duper::{Document, Reason, Refusal, MAX_NODES, MAX_TEXT, ROW};

const FULL: usize = MAX_NODES * ROW;

/// What a call on lent buffers answers and leaves. They hold something before: the
/// table 9, the output dots, the list 99.
struct Called {
    answer: Result<(usize, usize), (u32, u32)>,
    out: Vec<u8>,
    verdicts: Vec<u8>,
}

/// Calls with a table of so many words, an output of so many bytes and a list of so
/// many; "in a lent table (all zeros afterwards)", whatever the answer.
fn call(log: &[u8], words: usize, room: usize, list: usize) -> Called {
    let (mut table, mut out, mut verdicts) = (vec![9; words], vec![b'.'; room], vec![99; list]);
    let answer = duper::salvage_into(log, &mut table, &mut out, &mut verdicts);
    assert!(table.iter().all(|&word| word == 0), "{}", log.escape_ascii());
    let answer = answer.map(|written| (written.bytes, written.lines));
    Called { answer: answer.map_err(|refusal| (refusal.number, refusal.place)), out, verdicts }
}

/// The refusal, which leaves output and list as they were.
fn refused(log: &[u8], words: usize, room: usize, list: usize) -> Option<(u32, u32)> {
    let Called { answer, out, verdicts } = call(log, words, room, list);
    if answer.is_err() {
        assert_eq!((out, verdicts), (vec![b'.'; room], vec![99; list]));
    }
    answer.err()
}

/// The text and the verdicts, with buffers that the wrapper lends.
fn salvaged(log: &[u8]) -> (String, Vec<u8>) {
    let salvaged = duper::salvage(log).expect("within all limits");
    (String::from_utf8(salvaged.text).expect("it reads"), salvaged.verdicts)
}

fn nested(depth: usize, open: &str, close: &str) -> String {
    open.repeat(depth) + &close.repeat(depth)
}

#[test]
fn a_rig_that_died_mid_line() {
    let log = b"{ball: 1, height_mm: 412.5}\n{ball: 2, height_mm: null}\r\n{ball: 3, heig";
    let (text, verdicts) = salvaged(log);
    let kept = "[\n{ball: 1, height_mm: 412.5}\n,\n{ball: 2, height_mm: null}\r\n,\n]";
    assert_eq!((&text[..], &verdicts[..]), (kept, &[0, 0, 7][..]));
    let document = Document::read(text).expect("what is written always reads");
    assert_eq!(document.len(), 7);
    assert!(document.find("1.height_mm").expect("it was kept").is_null());
    let lost: Vec<_> = duper::salvage(log).expect("it was").lost().collect();
    assert_eq!(lost, [duper::Lost { line: 3, number: 7 }]);
}

#[test]
fn lines_are_split_at_0a_alone() {
    for (log, verdicts) in [
        (&b""[..], &[][..]),
        (b"\n", &[7]),
        (b"\n\n\n", &[7, 7, 7]),
        (b"[]", &[0]),
        (b"[]\n", &[0]),
        (b"[]\n\n", &[0, 7]),
        (b"\n[]", &[7, 0]),
        // 0D is a space in its line, even at the end of the log.
        (b"[]\r[]", &[7]),
        (b"[]\r\n[]\r\n", &[0, 0]),
        (b"[]\r\n\r", &[0, 7]),
        (b"\r", &[7]),
        // A value over two lines is two lines, and neither reads.
        (b"[1,\n2]\n", &[7, 7]),
        (b"[\"a\nb\"]", &[3, 3]),
        (b"[] /*\n*/ []", &[3, 3]),
    ] {
        let kept =
            log.split(|&byte| byte == b'\n').zip(verdicts).filter(|(_, &number)| number == 0);
        let kept: Vec<_> = kept.map(|(line, _)| [line, b"\n,\n"].concat()).collect();
        let text = [b"[\n", &kept.concat()[..], b"]"].concat();
        let lent = call(log, FULL, text.len() + 2, verdicts.len() + 2);
        assert_eq!(lent.answer, Ok((text.len(), verdicts.len())), "{}", log.escape_ascii());
        assert_eq!(lent.out, [&text[..], b".."].concat(), "{}", log.escape_ascii());
        assert_eq!(lent.verdicts, [verdicts, &[99, 99]].concat(), "{}", log.escape_ascii());
        let own = duper::salvage(log).expect("within all limits");
        assert_eq!((&own.text, &own.verdicts[..]), (&text, verdicts), "{}", log.escape_ascii());
    }
}

#[test]
fn each_line_is_read_by_itself() {
    let lines: &[(&[u8], u8)] = &[
        (b"{height_mm: 412.5}", 0),
        (b" Ball(()) // its comment ends with the line", 0),
        (b"[] /* closed */", 0),
        (b"[] /* open", 3),
        (b"   ", 7),
        (b"// nothing else", 7),
        (b"412.5", 7),
        (b"null", 7),
        (b"[] []", 7),
        (b"[],", 7),
        (b"{ball: 1, heig", 7),
        (b"{ball: 1, rig: \"nor", 3),
        (b"\0\0\0\0", 3),
        (b"[00]", 3),
        (b"[\"\\q\"]", 4),
        (b"[9223372036854775808]", 5),
        (b"['2025-06-01']", 6),
        (b"{a: 1, \"\\x61\": 2}", 8),
        (b"[\"\xC3", 2),
        (b"[\xFF]", 2),
    ];
    let log = lines.iter().map(|(line, _)| *line).collect::<Vec<_>>().join(&b'\n');
    let (text, verdicts) = salvaged(&log);
    assert_eq!(verdicts, lines.iter().map(|(_, number)| *number).collect::<Vec<_>>());
    let kept = "[\n{height_mm: 412.5}\n,\n Ball(()) // its comment ends with the line\n,\n\
                [] /* closed */\n,\n]";
    assert_eq!(text, kept);
    // The array, the object and its height, the tuple, the array.
    assert_eq!(Document::read(text).map(|document| document.len()), Ok(5));
}

#[test]
fn thirty_one_containers_may_be_open() {
    for (open, close) in [("[", "]"), ("A([", "])"), ("{a:(", ")}")] {
        let each = open.matches(['[', '{']).count() + open.matches(":(").count();
        let depths = [30 / each, 31 / each, 31 / each + 1, 33 / each + 1];
        let lines: Vec<_> = depths.iter().map(|&depth| nested(depth, open, close)).collect();
        let (text, verdicts) = salvaged(lines.join("\n").as_bytes());
        assert_eq!(verdicts, [0, 0, 9, 9], "{open}");
        assert_eq!(text, format!("[\n{}\n,\n{}\n,\n]", lines[0], lines[1]));
        assert!(Document::read(text).is_ok());
        // As a text of its own the third, of 32, is taken.
        assert!(Document::read(&lines[2][..]).is_ok());
    }
}

#[test]
fn nodes_are_the_array_and_the_kept_lines() {
    // Two nodes, four, two; with the array 9.
    let log = b"[1]\n[1,2,3]\n[4]";
    let words = |nodes: usize| nodes * ROW;
    assert_eq!(call(log, words(9), 99, 3).verdicts, [0, 0, 0]);
    for nodes in [8, 7, 6, 5, 4] {
        assert_eq!(refused(log, words(nodes + 1) - 1, 99, 3), Some((28, 0)), "{nodes}");
    }
    // A line that has no room by itself is lost with 10; the others make 5 nodes.
    let log = b"[1]\n[1,2,3,4,5]\n[4]";
    assert_eq!(call(log, words(6) - 1, 99, 3).verdicts, [0, 10, 0]);
    assert_eq!(refused(log, words(5) - 1, 99, 3), Some((28, 0)));
    // The array alone needs a node too.
    assert_eq!(call(b"\n", words(1), 3, 1).out, b"[\n]");
    assert_eq!(refused(b"\n", words(1) - 1, 3, 1), Some((28, 0)));
    assert_eq!(refused(b"", 0, 3, 0), Some((28, 0)));
    // Empty slices are fine.
    assert_eq!(refused(b"", 0, 0, 0), Some((28, 0)));
    // 4,096 however long the table.
    let log = "[]\n".repeat(MAX_NODES - 1);
    let full = call(log.as_bytes(), FULL + 24, MAX_TEXT, MAX_NODES);
    assert_eq!(full.answer, Ok((5 * (MAX_NODES - 1) + 3, MAX_NODES - 1)));
    let log = "[]\n".repeat(MAX_NODES);
    assert_eq!(refused(log.as_bytes(), FULL + 24, MAX_TEXT, MAX_NODES), Some((28, 0)));
    assert_eq!(duper::salvage(log.as_bytes()), Err(Refusal { number: 28, place: 0 }));
}

#[test]
fn the_outputs_room_and_65_536_bytes() {
    // 2 + 5 + 6 + 1.
    let log = b"[]\n[1]\n";
    assert_eq!(call(log, FULL, 14, 2).answer, Ok((14, 2)));
    assert_eq!(call(log, FULL, 14, 2).out, b"[\n[]\n,\n[1]\n,\n]");
    assert_eq!(refused(log, FULL, 13, 2), Some((28, 0)));
    assert_eq!(refused(b"", FULL, 2, 0), Some((28, 0)));
    // A line of 65,530 bytes makes a text of 65,536, and one of 65,531 is over.
    let mut line = b"[]".to_vec();
    line.resize(MAX_TEXT - 6, b' ');
    assert_eq!(call(&line, FULL, MAX_TEXT + 9, 1).answer, Ok((MAX_TEXT, 1)));
    line.push(b' ');
    assert_eq!(refused(&line, FULL, MAX_TEXT + 9, 1), Some((28, 0)));
    assert_eq!(duper::salvage(&line).unwrap_err().reason(), Some(Reason::NoRoomForKept));
    // A lost one takes no room.
    line[0] = b' ';
    assert_eq!(call(&line, FULL, 3, 1).answer, Ok((3, 1)));
}

#[test]
fn refusals_come_in_their_order() {
    let long = vec![b'\n'; MAX_TEXT + 1];
    // All of them, then without the first, then without the second.
    assert_eq!(refused(&long, 0, 0, 0), Some((1, 65_536)));
    assert_eq!(refused(&long[1..], 0, 0, 0), Some((27, 0)));
    assert_eq!(refused(&long[1..], 12, 3, MAX_TEXT - 1), Some((27, 0)));
    assert_eq!(refused(&long[1..], 0, 0, MAX_TEXT), Some((28, 0)));
    let lines = call(&long[1..], 12, 3, MAX_TEXT);
    assert_eq!((lines.answer, lines.verdicts), (Ok((3, MAX_TEXT)), vec![7; MAX_TEXT]));
    assert_eq!(duper::salvage(&long), Err(Refusal { number: 1, place: 65_536 }));
    assert_eq!(refused(b"[]\n[]", 36, 13, 1), Some((27, 0)));
}

/// The wrapper lends enough: every log of up to six of these bytes is answered as
/// with buffers that are larger than any use.
#[test]
fn the_wrapper_lends_enough() {
    let bytes = b"[]{}1,\n";
    for number in 0..7usize.pow(6) {
        let digits = (0..6).map(|at| number / 7usize.pow(at) % 7);
        let log: Vec<_> = digits.map(|digit| bytes[digit]).collect();
        // A front of it, mostly as long as it is.
        let log = &log[..6 - number % 11 / 6 * (number % 6)];
        let own = duper::salvage(log).expect("no limit is near");
        let lent = call(log, 20 * ROW, 50, 10);
        let (bytes, lines) = lent.answer.expect("nor here");
        assert_eq!(own.text, lent.out[..bytes], "{}", log.escape_ascii());
        assert_eq!(own.verdicts, lent.verdicts[..lines], "{}", log.escape_ascii());
    }
}
