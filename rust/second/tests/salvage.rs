//! Document 02's request 14: which lines of a log are kept, what is written of
//! them and of the others, and when nothing is, on both sides of each clause.
//! Expected verdicts and bytes are worked out by hand from the papers.

mod common;

use common::{Numbers, Row, NONE, RUBBISH};
use second::salvage::{salvage, Salvaged};
use second::{read, Refusal, MAX_NODES, MAX_TEXT, ROW};

/// What output and list hold before a call: no UTF-8 text has this byte, and no
/// refusal this number.
const STALE: u8 = 0xFF;

/// The lengths of what is lent: words of the table, bytes of the output and
/// places of the list.
#[derive(Debug, Clone, Copy)]
struct Room {
    words: usize,
    out: usize,
    list: usize,
}

/// More than any log needs.
const AMPLE: Room =
    Room { words: (MAX_NODES + 3) * ROW + 5, out: MAX_TEXT + 9, list: MAX_TEXT + 9 };

/// So much room, with a table of just so many nodes.
fn with_nodes(nodes: usize) -> Room {
    Room { words: nodes * ROW, ..AMPLE }
}

/// What is written and the verdicts, or the refusal. Either way the table is
/// all zeros afterwards and everything else is as it was.
#[track_caller]
fn answer(log: &[u8], room: Room) -> Result<(Vec<u8>, Vec<u8>), Refusal> {
    let mut table = vec![RUBBISH; room.words];
    let mut out = vec![STALE; room.out];
    let mut list = vec![STALE; room.list];
    let answer = salvage(log, &mut table, &mut out, &mut list);
    assert!(table.iter().all(|&word| word == 0), "table, {room:?}");
    // "It answers the bytes written and the number of lines, 0 and 0 if
    // refused."
    let Salvaged { bytes, lines } = answer.unwrap_or(Salvaged { bytes: 0, lines: 0 });
    assert!(out[bytes..].iter().all(|&byte| byte == STALE), "output, {room:?}");
    assert!(list[lines..].iter().all(|&verdict| verdict == STALE), "list, {room:?}");
    out.truncate(bytes);
    list.truncate(lines);
    answer.map(|_| (out, list))
}

/// The log is salvaged as this text, with these verdicts.
#[track_caller]
fn gives(log: impl AsRef<[u8]>, room: Room, text: impl AsRef<[u8]>, verdicts: &[u8]) {
    let (log, text) = (log.as_ref(), text.as_ref());
    let expected = Ok((text.to_vec(), verdicts.to_vec()));
    assert!(answer(log, room) == expected, "{}, {room:?}", shown(log));
}

/// The log is refused.
#[track_caller]
fn refused(log: impl AsRef<[u8]>, room: Room, number: u32) {
    let log = log.as_ref();
    // 1's place is document 01's.
    let place = if number == 1 { 65_536 } else { 0 };
    let answer = answer(log, room);
    assert!(answer == Err(Refusal { number, place }), "{}, {room:?}", shown(log));
}

/// The front of a log.
fn shown(log: &[u8]) -> String {
    log[..log.len().min(200)].escape_ascii().to_string()
}

/// "Write `[` and 0A, then each kept line, 0A, a comma and 0A, then `]`."
fn array_of(kept: &[&[u8]]) -> Vec<u8> {
    let mut text = b"[\n".to_vec();
    for line in kept {
        text.extend_from_slice(line);
        text.extend_from_slice(b"\n,\n");
    }
    text.push(b']');
    text
}

/// The rows of a text that reads.
#[track_caller]
fn rows(text: &[u8]) -> Vec<Row> {
    let mut table = vec![RUBBISH; (text.len() + 1).min(MAX_NODES) * ROW];
    let nodes = read(text, &mut table).unwrap_or_else(|e| panic!("{e:?}: {}", shown(text)));
    table.chunks_exact(ROW).take(nodes).map(|row| row.try_into().unwrap()).collect()
}

/// "its children are the kept lines' values in order": the rows of each line
/// read by itself, moved to where the line then stands, under one array.
fn rows_of_array(kept: &[&[u8]]) -> Vec<Row> {
    let mut all = vec![[0; ROW]];
    // The first line stands behind `[` and 0A.
    let mut place = 2;
    for line in kept {
        let before = all.len() as u32;
        all.extend(rows(line).into_iter().map(|row| moved(row, before, place)));
        // Behind it stand 0A, a comma and 0A.
        place += line.len() as u32 + 3;
    }
    // It runs from the first byte to the last, which is the `]`.
    all[0] = [2, NONE, 0, place + 1, 0, 0, 0, 0, all.len() as u32, kept.len() as u32, 0, 0];
    all
}

/// A row with so many nodes and so many bytes before its line.
fn moved(mut row: Row, nodes: u32, bytes: u32) -> Row {
    row[1] = if row[1] == NONE { 0 } else { row[1] + nodes };
    row[8] += nodes;
    let is_string = row[0] == 4 || row[0] == 5;
    for (at, is_span) in [(2, true), (4, row[5] > 0), (6, row[7] > 0), (9, is_string)] {
        if is_span {
            row[at] += bytes;
            row[at + 1] += bytes;
        }
    }
    row
}

/// The log of these lines gets these verdicts, and what is written reads: with
/// ample room, with just enough, and not with one less of anything.
#[track_caller]
fn holds<L: AsRef<[u8]>>(lines: &[(L, u8)]) {
    let mut log = Vec::new();
    for (line, _) in lines {
        log.extend_from_slice(line.as_ref());
        log.push(b'\n');
    }
    let verdicts: Vec<u8> = lines.iter().map(|(_, verdict)| *verdict).collect();
    let kept = lines.iter().filter(|(_, verdict)| *verdict == 0);
    let kept: Vec<&[u8]> = kept.map(|(line, _)| line.as_ref()).collect();
    let (text, rows_expected) = (array_of(&kept), rows_of_array(&kept));
    // "What is written always reads"
    assert!(rows(&text) == rows_expected, "{}", shown(&log));

    gives(&log, AMPLE, &text, &verdicts);
    let enough = Room { words: rows_expected.len() * ROW, out: text.len(), list: verdicts.len() };
    // With so few nodes another line may have run out of them before its fault.
    let (again, others) = answer(&log, enough).expect("enough");
    assert!(again == text, "{}", shown(&log));
    assert!(others.iter().map(|&verdict| verdict == 0).eq(verdicts.iter().map(|&v| v == 0)));
    refused(&log, Room { words: enough.words - 1, ..enough }, 28);
    refused(&log, Room { out: enough.out - 1, ..enough }, 28);
    if let Some(list) = enough.list.checked_sub(1) {
        refused(&log, Room { list, ..AMPLE }, 27);
        // "a last line without one counts"
        if !lines[list].0.as_ref().is_empty() {
            gives(&log[..log.len() - 1], AMPLE, &text, &verdicts);
        }
    }
}

/// A line with this verdict, alone and among others.
#[track_caller]
fn line(line: impl AsRef<[u8]>, verdict: u8) {
    let line = line.as_ref();
    holds(&[(line, verdict)]);
    holds(&[(&b"[1]"[..], 0), (line, verdict), (b"{a:\"b\"}", 0)]);
    holds(&[(line, verdict), (b"", 7), (line, verdict)]);
}

/// Several lines with this verdict.
#[track_caller]
fn lines(list: &[&str], verdict: u8) {
    list.iter().for_each(|it| line(it, verdict));
}

// The request's own sentences.

#[test]
fn a_root_value_per_line_and_the_last_one_broken_off() {
    let log = "{h:1}\n{h:null}\n{h:";
    gives(log, AMPLE, "[\n{h:1}\n,\n{h:null}\n,\n]", &[0, 0, 7]);
    // 2 bytes, then 5 + 3 and 8 + 3, then 1; the nodes are 1 + 2 + 2.
    let answer = salvage(log.as_bytes(), &mut [RUBBISH; 60], &mut [STALE; 22], &mut [STALE; 3]);
    assert_eq!(answer, Ok(Salvaged { bytes: 22, lines: 3 }));
    holds(&[("{h:1}", 0), ("{h:null}", 0), ("{h:", 7)]);
}

#[test]
fn the_rows_of_what_is_written() {
    let text = "[\n{k:A(\"x\")}\n,\n[1]\n,\n]";
    gives("{k:A(\"x\")}\n[1]\n", with_nodes(5), text, &[0, 0]);
    let expected = [
        [2, NONE, 0, 22, 0, 0, 0, 0, 5, 2, 0, 0],
        [1, 0, 2, 12, 0, 0, 0, 0, 3, 1, 0, 0],
        [4, 1, 5, 11, 3, 4, 5, 6, 3, 7, 10, 1],
        [2, 0, 15, 18, 0, 0, 0, 0, 5, 1, 0, 0],
        [6, 3, 16, 17, 0, 0, 0, 0, 5, 1, 0, 0],
    ];
    assert_eq!(rows(text.as_bytes()), expected);
    assert_eq!(rows_of_array(&[b"{k:A(\"x\")}", b"[1]"]), expected);
}

// Lines.

#[test]
fn split_at_0a() {
    for (log, text, verdicts) in [
        // "an empty last piece does not" count, "a last line without one" does.
        ("", "[\n]", &[][..]),
        ("\n", "[\n]", &[7]),
        ("\n\n", "[\n]", &[7, 7]),
        ("[]", "[\n[]\n,\n]", &[0]),
        ("[]\n", "[\n[]\n,\n]", &[0]),
        ("[]\n\n", "[\n[]\n,\n]", &[0, 7]),
        ("\n[]", "[\n[]\n,\n]", &[7, 0]),
        ("\n\n[]\n", "[\n[]\n,\n]", &[7, 7, 0]),
        ("[]\n()", "[\n[]\n,\n()\n,\n]", &[0, 0]),
        ("[]\n\n()\n", "[\n[]\n,\n()\n,\n]", &[0, 7, 0]),
        ("[]\nx\n()\n[", "[\n[]\n,\n()\n,\n]", &[0, 7, 0, 7]),
        // 0D is a space of the line, and ends none.
        ("[]\r\n()\r\n", "[\n[]\r\n,\n()\r\n,\n]", &[0, 0]),
        ("\r\n[]\n\r", "[\n[]\n,\n]", &[7, 0, 7]),
        ("[]\r()\n", "[\n]", &[7]),
        // A last piece of spaces isn't empty.
        ("[]\n ", "[\n[]\n,\n]", &[0, 7]),
        // A value over two lines is in neither.
        ("[1,\n2]", "[\n]", &[7, 7]),
        ("[\n]", "[\n]", &[7, 7]),
    ] {
        gives(log, AMPLE, text, verdicts);
    }
    holds::<&str>(&[]);
    holds(&[("", 7)]);
    holds(&[("", 7), ("[]", 0), ("", 7)]);
}

#[test]
fn kept_as_they_are() {
    // Each form of root and each kind of value.
    lines(&["{}", "[,]", "(,)", "A({a:1,})", r#"{"a":B((1)),c:{a:[{}]}}"#], 0);
    line(r##"Log-1([null,true,false,-1,1.5,1e06,"é\n",b"\xFF",r"\",br#"""#,b64"AA=="])"##, 0);
    // Spaces and comments before, inside and after it.
    lines(&[" [1]", "[1] ", "\t[ 1\r]\r", "/* a */[1]", "[1]/* b\r*/", "[\"//\"]"], 0);
    lines(&["/**/ A /**/ ( /**/ [1 /* é */ ] ) /**/", "// c\r[1]", "[1 // c\r]"], 0);
    // A line comment ends with the line, and doesn't take the comma in.
    lines(&["[1]//", "[1] // c", "[1] // c\r", "[1] // /*"], 0);
    gives("[1] // c", AMPLE, "[\n[1] // c\n,\n]", &[0]);
}

#[test]
fn the_refusals_number_otherwise() {
    // A byte of no character, and characters cut off by the 0A; 2 goes before
    // the rest.
    for not_utf8 in [&b"[\"\xFF\"]"[..], b"[1] // \xC3", b"\xE2\x82", b"\xAC]", b"'\0\x80"] {
        line(not_utf8, 2);
    }
    // What a lost part of a file is often filled with.
    line([0; 512], 3);
    line([b"[1]", &[0; 9][..]].concat(), 3);
    // Tokens and comments over two lines, which are whole in neither.
    holds(&[("[\"a", 3), ("b\"]", 3), ("[r#\"", 3), ("\"#]", 3), ("[1 /* c", 3), ("*/]", 3)]);
    lines(&["\u{FEFF}[1]", "[01]", "[1.]", "/*/ [1]", "[1] /"], 3);
    lines(&["[\"\\/\"]", "[\"\t\"]", "[b64\"A\"]"], 4);
    lines(&["[9223372036854775808]", "[1e401]"], 5);
    lines(&["['x']"], 6);
    // No root, one that doesn't end, and more than one.
    lines(&["1", "null", "\"a\"", "A(1)", "A(B([]))", " \t\r", "// [1]", "{,}", "[,,]", "]"], 7);
    lines(&["{a:1", "[1 // ]", "[1)", "[1],", "[1] [2]"], 7);
    lines(&["{a:1,\"\\x61\":2}"], 8);
    // "Among 3 to 10 the smallest place counts".
    holds(&[("] 01", 7), ("[01 ]]", 3), ("{a:1,a:01}", 8)]);
}

// Depth.

/// So many containers in one another.
fn nested(depth: usize, [open, innermost, close]: [&str; 3]) -> String {
    [&open.repeat(depth - 1), innermost, &close.repeat(depth - 1)].concat()
}

#[test]
fn thirty_one_deep() {
    for form in [["[", "[]", "]"], ["(", "()", ")"], ["{a:", "{}", "}"], ["[1,", "{}", ",[]]"]] {
        let [open, innermost, close] = form;
        // "an identifier's brackets don't count"
        let named = format!("A({innermost})");
        let all_named = ["A([", &named, "])"];
        for (depth, verdict) in [(30, 0), (31, 0), (32, 9), (33, 9)] {
            line(nested(depth, form), verdict);
            line(nested(depth, [open, &named, close]), verdict);
            line(nested(depth, all_named), verdict);
            line(format!("A({})", nested(depth, form)), verdict);
        }
    }
    let arrays = |depth| nested(depth, ["[", "[]", "]"]);
    // The 32nd bracket, or the end.
    holds(&[("[".repeat(32), 9), ("[".repeat(31), 7), (format!("[{}", arrays(31)), 9)]);
    // A text may be 32 deep. Such a line would be too deep in the array.
    assert_eq!(rows(arrays(32).as_bytes()).len(), 32);
    let whole = array_of(&[arrays(32).as_bytes()]);
    // Its 32nd bracket, behind `[` and 0A.
    assert_eq!(read(&whole, &mut [0; 40 * ROW]), Err(Refusal { number: 9, place: 33 }));
}

// Nodes.

#[test]
fn tables_of_few_nodes() {
    // With no node not even the empty array can be written.
    for words in [0, 1, 11] {
        for log in ["", "\n", "x", "[]", "[1]\n[]\n"] {
            refused(log, Room { words, ..AMPLE }, 28);
        }
    }
    for words in [12, 13, 23] {
        let room = Room { words, ..AMPLE };
        gives("", room, "[\n]", &[]);
        gives("x\n'x'", room, "[\n]", &[7, 6]);
        // This one reads by itself, and then there is none left for the array.
        refused("[]", room, 28);
        refused("A([])\nx", room, 28);
        // This one doesn't.
        gives("[1]", room, "[\n]", &[10]);
        gives("[A([])]\n[[", room, "[\n]", &[10, 10]);
        gives("[1,,]\n[}1]", room, "[\n]", &[10, 7]);
    }
    for (nodes, log, text, verdicts) in [
        (2, "[]", "[\n[]\n,\n]", &[0][..]),
        (2, "[]\n[1,2]", "[\n[]\n,\n]", &[0, 10]),
        (3, "[]\n[]", "[\n[]\n,\n[]\n,\n]", &[0, 0]),
        (3, "A([B(1)])", "[\nA([B(1)])\n,\n]", &[0]),
        (3, "[1,2,3]\n[]\n[1,2,3]", "[\n[]\n,\n]", &[10, 0, 10]),
        (4, "{a:1}\n[]", "[\n{a:1}\n,\n[]\n,\n]", &[0, 0]),
    ] {
        gives(log, with_nodes(nodes), text, verdicts);
        gives(log, Room { words: nodes * ROW + 11, ..AMPLE }, text, verdicts);
    }
    // No line is left out for the sake of others, first or last.
    for (nodes, logs) in [
        (2, ["[1]", "[]\n[]"]),
        (3, ["[1,2]", "[1]\n[]"]),
        (3, ["A([])\n{a:1}", "[]\n[]\n[]"]),
        (4, ["[]\n[1,2,3]", "[1,2,3]\n[]"]),
    ] {
        for log in logs {
            refused(log, Room { words: nodes * ROW + 11, ..AMPLE }, 28);
        }
    }
}

#[test]
fn four_thousand_and_ninety_six_nodes() {
    // An array of so many nodes, itself included.
    let array = |nodes: usize| format!("[{}]", "1,".repeat(nodes - 1));
    line(array(4097), 10);
    holds(&[(array(4095), 0)]);
    refused(array(4096), AMPLE, 28);
    holds(&[(array(2000), 0), (array(2095), 0)]);
    refused(format!("{}\n{}", array(2000), array(2096)), AMPLE, 28);
    holds(&vec![("[]", 0); 4095]);
    refused("[]\n".repeat(4096), AMPLE, 28);
    // The one of 4,097 doesn't read and so takes none.
    holds(&[(array(4097), 10), (array(4095), 0)]);
}

// Bytes.

/// An array of so many bytes.
fn wide(bytes: usize) -> String {
    format!("[{}]", " ".repeat(bytes - 2))
}

#[test]
fn an_input_of_65_536_bytes() {
    let log = format!("{}\n{}\n", wide(65_498), "x".repeat(36));
    assert_eq!(log.len(), 65_536);
    gives(&log, AMPLE, format!("[\n{}\n,\n]", wide(65_498)), &[0, 7]);
    refused(log + "\n", AMPLE, 1);
    holds(&vec![("", 7); 65_536]);
    refused("\n".repeat(65_537), AMPLE, 1);
    gives([0; 65_536], AMPLE, "[\n]", &[3]);
    refused([0; 65_537], AMPLE, 1);
}

#[test]
fn an_output_of_65_536_bytes() {
    // 3 bytes, and 3 more with each line.
    holds(&[(wide(65_530), 0)]);
    holds(&[("x".to_string(), 7), (wide(65_530), 0), (String::new(), 7)]);
    for bytes in [65_531, 65_532, 65_535, 65_536] {
        refused(wide(bytes), AMPLE, 28);
    }
    holds(&[(wide(30_000), 0), (wide(35_527), 0)]);
    refused(format!("{}\n{}", wide(30_000), wide(35_528)), AMPLE, 28);
}

// Refusals.

#[test]
fn in_this_order() {
    let none = Room { words: 0, out: 0, list: 0 };
    let long = "\n".repeat(65_537);
    for room in [none, Room { list: 0, ..AMPLE }, Room { out: 0, ..AMPLE }, with_nodes(0)] {
        refused(&long, room, 1);
    }
    // 3 + 3 * (2 + 3) bytes and 1 + 3 nodes.
    let log = "[]\n[]\n[]";
    for list in 0..3 {
        refused(log, Room { list, ..AMPLE }, 27);
        refused(log, Room { list, ..none }, 27);
        refused(log, Room { list, out: 17, ..AMPLE }, 27);
        refused(log, Room { list, ..with_nodes(3) }, 27);
    }
    refused(wide(65_531), Room { list: 0, ..AMPLE }, 27);
    for list in [3, 4] {
        refused(log, Room { list, ..none }, 28);
        refused(log, Room { list, out: 17, ..AMPLE }, 28);
        refused(log, Room { list, ..with_nodes(3) }, 28);
        let room = Room { list, out: 18, words: 48 };
        gives(log, room, "[\n[]\n,\n[]\n,\n[]\n,\n]", &[0, 0, 0]);
    }
    // A log of no lines needs no list, but 3 bytes and a node.
    let least = Room { words: 12, out: 3, list: 0 };
    gives("", least, "[\n]", &[]);
    refused("", Room { out: 2, ..least }, 28);
    refused("", Room { words: 11, ..least }, 28);
    refused("\n", least, 27);
}

// Many logs.

/// Whether a line of `[ ] , 1` is an array by document 01, found by putting one
/// value for each part that is one, the innermost first.
fn is_array(line: &str) -> bool {
    let mut row = line.to_string();
    while row.contains("11") {
        row = row.replace("11", "1");
    }
    // From here on a 1 is any value, and two of them in a row are two values.
    loop {
        let items = row.replace("[1,1", "[1").replace("[1,]", "[1]").replace("[,]", "[]");
        let shorter = items.replace("[1]", "1").replace("[]", "1");
        if shorter == row {
            return row == "1" && line.starts_with('[');
        }
        row = shorter;
    }
}

/// Every row of up to so many of `[ ] , 1` and 0A. Rust's lines are those of
/// the request where there is no 0D.
fn all_logs(longest: usize, mut each: impl FnMut(&str, &[&str])) -> usize {
    let (mut logs, mut tried) = (vec![String::new()], 0);
    while let Some(log) = logs.pop() {
        each(&log, &log.lines().collect::<Vec<_>>());
        tried += 1;
        if log.len() < longest {
            logs.extend(["[", "]", ",", "1", "\n"].map(|byte| log.clone() + byte));
        }
    }
    tried
}

#[test]
fn all_short_logs() {
    let tried = all_logs(7, |log, lines| {
        // Every token of these bytes is well formed, and no limit is near.
        let verdict = |line: &&str| if is_array(line) { 0 } else { 7 };
        let verdicts: Vec<u8> = lines.iter().map(verdict).collect();
        let kept = lines.iter().filter(|line| is_array(line));
        let kept: Vec<&[u8]> = kept.map(|line| line.as_bytes()).collect();
        let text = array_of(&kept);
        gives(log, Room { words: 12 * ROW, out: 40, list: 9 }, &text, &verdicts);
        assert!(kept.is_empty() || rows(&text) == rows_of_array(&kept), "{log:?}");
    });
    assert_eq!(tried, 1 + 5 + 25 + 125 + 625 + 3125 + 15_625 + 78_125);
}

#[test]
fn all_shorter_logs_with_little_room() {
    all_logs(5, |log, lines| {
        for words in [0, 11, 12, 23, 24, 36, 48] {
            // No line is deep, so that the whole reader answers the same.
            let read_alone = |line: &&str| read(line.as_bytes(), &mut vec![RUBBISH; words]);
            let results: Vec<_> = lines.iter().map(read_alone).collect();
            let verdict = |result: &Result<usize, Refusal>| result.err().map_or(0, |e| e.number);
            let verdicts: Vec<u8> = results.iter().map(|result| verdict(result) as u8).collect();
            let kept = lines.iter().zip(&results).filter(|(_, result)| result.is_ok());
            let text = array_of(&kept.map(|(line, _)| line.as_bytes()).collect::<Vec<_>>());
            let nodes = 1 + results.iter().flatten().sum::<usize>();
            for room in [0, 1, 2, 5].map(|list| Room { words, out: 0, list }) {
                for room in [2, 3, 7, 8, 12, 13].map(|out| Room { out, ..room }) {
                    if room.list < lines.len() {
                        refused(log, room, 27);
                    } else if room.out < text.len() || words / 12 < nodes {
                        refused(log, room, 28);
                    } else {
                        gives(log, room, &text, &verdicts);
                    }
                }
            }
        }
    });
}

#[test]
fn made_up_logs() {
    // Two containers at a time.
    let form = ["[A({a:", "[A({})]", "})]"];
    let (deep, too_deep) = (format!("[{}]", nested(15, form)), nested(16, form));
    let lines = [
        ("", 7),
        ("[]", 0),
        ("{a:1,b:[2,\"é\"]} // end", 0),
        ("Ball({\"height_mm\":712.5,at:b\"\\x00\"})\r", 0),
        ("/* \u{1F3CF} */ (null,true,r#\"\"\"#)", 0),
        ("{a:1,b:[2,\"é", 3),
        ("{a:1,b:[2", 7),
        ("\0\0\0\0", 3),
        ("{a:1,a:2}", 8),
        ("[1] /*", 3),
        ("['x']", 6),
        ("[1e999]", 5),
        (&deep, 0),
        (&too_deep, 9),
    ];
    let mut numbers = Numbers(0x5A17_A6E5);
    for _ in 0..300 {
        let chosen = (0..numbers.index(20)).map(|_| lines[numbers.index(lines.len())]);
        let chosen: Vec<(&str, u8)> = chosen.collect();
        holds(&chosen);
    }
}
