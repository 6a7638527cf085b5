//! The stack that the archive says it needs is enough, at the greatest depth:
//! a thread that runs out of stack is aborted, and the test with it.

use std::thread;

/// Runs this on a thread with so many KiB of stack.
fn with_stack(kib: usize, run: impl FnOnce() + Send + 'static) {
    let thread = thread::Builder::new().stack_size(kib * 1024).spawn(run);
    thread.expect("a thread").join().expect("no panic");
}

/// A text of the greatest depth, 32 objects, each in an identifier and with a
/// second key that is compared by its content; it has 65 nodes, and the last
/// is its innermost value.
fn deepest() -> Vec<u8> {
    let open = r#"A({"\x61":0,"\u0061b":"#;
    format!("{}{}{}", open.repeat(32), 1, "})".repeat(32)).into_bytes()
}

const NODES: usize = 32 * 2 + 1;

fn table() -> Vec<u32> {
    vec![0; NODES * duper::ROW]
}

#[test]
fn a_reading_needs_64_kib() {
    with_stack(64, || {
        let text = deepest();
        assert_eq!(duper::read(&text, &mut table()), Ok(NODES));
    });
}

#[test]
fn one_deeper_is_refused_there_too() {
    with_stack(64, || {
        let text = [b"[".as_slice(), &deepest(), b"]"].concat();
        let refusal = duper::read(&text, &mut table()).expect_err("depth 33");
        assert_eq!(refusal.number, 9);
    });
}

#[test]
fn a_content_needs_64_kib() {
    with_stack(64, || {
        let mut out = [0; 8];
        let text = br#"["\u00e9\x41"]"#;
        assert_eq!(duper::content(text, 1, 13, &mut out), Ok(3));
        assert_eq!(&out[..3], "éA".as_bytes());
    });
}

#[test]
fn a_utf8_check_needs_64_kib() {
    // Each round is one eight and one character of two bytes. However many
    // there are, the stack must not grow with them.
    let bytes = "12345678é".repeat(200_000).into_bytes();
    with_stack(64, move || {
        let check = duper::utf8(&bytes);
        assert_eq!((check.front, check.eights), (2_000_000, 200_000));
    });
}

#[test]
fn a_path_needs_64_kib() {
    with_stack(64, || {
        let text = deepest();
        // 32 steps lead to the innermost value, and it has no children.
        let way = ["ab"; 32].join(".");
        assert_eq!(duper::find(&text, &mut table(), way.as_bytes()), Ok(NODES - 1));
        let further = ["ab"; 33].join(".");
        let refusal = duper::find(&text, &mut table(), further.as_bytes()).expect_err("no child");
        assert_eq!((refusal.number, refusal.step()), (23, Some(32)));
    });
}

#[test]
fn a_path_of_any_length_needs_no_more() {
    // 32 objects, in each the empty key; of the steps beyond them none is taken.
    let text = format!("{}1{}", r#"A({"":"#.repeat(32), "})".repeat(32)).into_bytes();
    let dots = vec![b'.'; 70_000];
    with_stack(64, move || {
        let refusal = duper::find(&text, &mut table(), &dots).expect_err("no child");
        assert_eq!((refusal.number, refusal.step()), (23, Some(32)));
        assert_eq!(duper::find(&text, &mut table(), &dots[..31]), Ok(32));
        let refusal = duper::find(&deepest(), &mut table(), &dots).expect_err("no child");
        assert_eq!((refusal.number, refusal.step()), (23, Some(0)));
        let nines = vec![b'9'; 70_000];
        let refusal = duper::find(b"[1]", &mut table(), &nines).expect_err("no child");
        assert_eq!((refusal.number, refusal.step()), (23, Some(0)));
    });
}

/// 30 objects inside a record, so that with the record and the root's array as
/// many containers are open as can be; 64 nodes, the record's own height last.
fn deepest_record() -> Vec<u8> {
    let open = r#"A({"\x61":0,"\u0061b":"#;
    let inside = format!("{}{}{}", open.repeat(30), 1, "})".repeat(30));
    format!(r#"A([A({{"\x61":{inside},"h\u0065ight_mm":A(0.250e1)}})])"#).into_bytes()
}

#[test]
fn a_summary_needs_64_kib() {
    with_stack(64, || {
        let mut table = table();
        let season = duper::summary(&deepest_record(), &mut table).expect("one record");
        assert_eq!(season.counts.records(), 1);
        assert_eq!(season.heights.map(|heights| heights.mean), Some(2500.0));
        assert_eq!(duper::nodes(&table).count(), 64);
        // The root is no array.
        let refusal = duper::summary(&deepest(), &mut table).expect_err("an object");
        assert_eq!((refusal.number, refusal.node()), (21, Some(0)));
        let deeper = [b"[".as_slice(), &deepest(), b"]"].concat();
        let refusal = duper::summary(&deeper, &mut table).expect_err("depth 33");
        assert_eq!(refusal.number, 9);
    });
}

/// However many records there are, and however long the text, the stack must
/// not grow with them.
#[test]
fn a_summary_of_any_length_needs_no_more() {
    // A node for the root and two for each record: one less than there can be.
    let records = [r#"{"h\u0065ight_mm":2.5}"#; 2_047].join(",");
    let mut measured = format!("[{records}]").into_bytes();
    measured.resize(duper::MAX_TEXT, b' ');
    let absent = format!("[{}]", ["{}"; 4_095].join(","));
    let open = r#"[{""#;
    let close = r#"":0,height_mm:1}]"#;
    let key = "k".repeat(duper::MAX_TEXT - open.len() - close.len());
    let long_key = [open, &key, close].concat();
    with_stack(64, move || {
        let mut table = vec![0; duper::MAX_NODES * duper::ROW];
        let season = duper::summary(&measured, &mut table).expect("2,047 records");
        assert_eq!((season.counts.measured, season.counts.records()), (2_047, 2_047));
        let season = duper::summary(absent.as_bytes(), &mut table).expect("4,095 records");
        assert_eq!((season.counts.absent, season.counts.records()), (4_095, 4_095));
        let season = duper::summary(long_key.as_bytes(), &mut table).expect("one record");
        assert_eq!((season.counts.measured, season.counts.records()), (1, 1));
    });
}

/// Corrects the last of so many nodes with 256 KiB, and takes that back with 128.
fn corrects_and_undoes(text: &[u8], nodes: usize, table: Vec<u32>) {
    let used = text.len();
    let mut buffers = (text.to_vec(), vec![0; 100], table);
    buffers.0.resize(used + 100, 0);
    let (send, corrected) = std::sync::mpsc::channel();
    with_stack(256, move || {
        let (text, journal, table) = &mut buffers;
        let answer = duper::correct(text, used, journal, 0, table, nodes - 1, b"null");
        assert_eq!(answer.outcome, Ok(()));
        assert_eq!((answer.nodes, answer.used), (nodes, used + 3));
        send.send((buffers, answer)).expect("the test listens");
    });
    let (mut buffers, answer) = corrected.recv().expect("it was corrected");
    let text = text.to_vec();
    with_stack(128, move || {
        let (buffer, journal, table) = &mut buffers;
        let answer = duper::undo(buffer, answer.used, journal, answer.kept, table);
        assert_eq!(answer.outcome, Ok(()));
        assert_eq!(&buffer[..answer.used], &text[..]);
    });
}

#[test]
fn a_correction_needs_256_kib_and_an_undo_128() {
    corrects_and_undoes(&deepest(), NODES, table());
}

/// What opens the 31 outer objects, and their count of nodes without the value that
/// is inside.
const OUTER: (&str, usize) = (r#"A({"\x61":0,"\u0061b":"#, 2);

/// Objects of 40 keys, the inner one being the last.
fn forty() -> (String, usize) {
    let keys: Vec<_> = (0..39).map(|n| format!("k{n}:0,")).collect();
    (format!(r#"A({{{}"\x61":"#, keys.concat()), 40)
}

/// A text of the greatest depth, each object in an identifier. The innermost has
/// these members and then this, which comes last; with the count of its nodes, if
/// so many are inside the innermost.
fn deepest_of_many(
    outer: (&str, usize),
    members: &[String],
    last: &str,
    inside: usize,
) -> (Vec<u8>, usize) {
    of_many(31, outer, members, last, inside)
}

/// The same with so many objects around the innermost.
fn of_many(
    around: usize,
    (open, nodes): (&str, usize),
    members: &[String],
    last: &str,
    inside: usize,
) -> (Vec<u8>, usize) {
    let innermost = format!("A({{{},{last}}})", members.join(","));
    let text = format!("{}{innermost}{}", open.repeat(around), "})".repeat(around)).into_bytes();
    assert!(text.len() <= duper::MAX_TEXT, "{}", text.len());
    (text, around * nodes + 1 + inside)
}

/// So many members, one of them with an escape in its key.
fn many(count: usize) -> Vec<String> {
    let key = |n: usize| if n == 17 { format!(r#""\x6b{n}""#) } else { format!("k{n}") };
    (0..count).map(|n| format!("{}:0", key(n))).collect()
}

/// A key of over 3,000 bytes: the index has no room for its content.
fn long_key() -> String {
    format!(r#""\u0061{}":0"#, "b".repeat(3_000))
}

/// The texts whose innermost object has many keys, with their count of nodes; the
/// last node is the innermost's last value.
fn texts_of_many() -> Vec<(Vec<u8>, usize)> {
    let (open, nodes) = forty();
    let mut with_long = many(3_998);
    with_long.insert(1_000, long_key());
    let escaped: Vec<_> = (0..3_999).map(|n| format!(r#""\x6b{n:04}":0"#)).collect();
    vec![
        deepest_of_many(OUTER, &many(3_999), "last:0", 4_000),
        deepest_of_many(OUTER, &escaped, "last:0", 4_000),
        deepest_of_many(OUTER, &with_long, "last:0", 4_000),
        deepest_of_many(OUTER, &many(3_998), &format!("{},last:0", long_key()), 4_000),
        deepest_of_many((&open, nodes), &many(2_799), "last:0", 2_800),
        // As few as are compared by pairs, and about as many.
        deepest_of_many((&open, nodes), &many(15), "last:0", 16),
        deepest_of_many((&open, nodes), &many(16), "last:0", 17),
    ]
}

fn full_table() -> Vec<u32> {
    vec![0; duper::MAX_NODES * duper::ROW]
}

#[test]
fn a_reading_of_many_keys_needs_no_more() {
    for (text, nodes) in texts_of_many() {
        with_stack(64, move || {
            assert_eq!(duper::read(&text, &mut full_table()), Ok(nodes));
        });
    }
}

/// The duplicate or the fault is the last thing in the innermost object, so that
/// every object around it has been read up to there.
#[test]
fn a_refusal_at_the_end_of_many_keys_needs_no_more() {
    let (open, nodes) = forty();
    let mut with_long = many(3_998);
    with_long.insert(1_000, long_key());
    let refused = [
        // The last key has come before: as it stands, in another spelling, and with
        // a content that the index has no room for.
        (OUTER, many(3_999), "k3998:0".to_string(), "", 8),
        (OUTER, many(3_999), r#""\u006b0":0"#.to_string(), "", 8),
        (OUTER, with_long.clone(), long_key().replace(r"\u0061", "a"), "", 8),
        ((&open[..], nodes), many(2_700), r#""\x6b17":0"#.to_string(), "", 8),
        ((&open[..], nodes), many(16), "k3:0".to_string(), "", 8),
        // Another fault: malformed, content, too wide, a tick, not allowed, too deep.
        (OUTER, many(3_999), "last:00".to_string(), "last:", 3),
        (OUTER, many(3_999), r#"last:"\q""#.to_string(), "last:", 4),
        (OUTER, with_long, "last:9223372036854775808".to_string(), "last:", 5),
        ((&open[..], nodes), many(2_700), "last:'".to_string(), "last:", 6),
        (OUTER, many(3_999), "last:}".to_string(), "last:", 7),
        (OUTER, many(3_999), "last:[]".to_string(), "last:", 9),
    ];
    for ((open, nodes), members, last, before, number) in refused {
        let (text, _) = deepest_of_many((open, nodes), &members, &last, 0);
        let close = format!("{last}}})") + &"})".repeat(31);
        let place = (text.len() - close.len() + before.len()) as u32;
        with_stack(64, move || {
            let refusal = duper::read(&text, &mut full_table()).expect_err("a fault");
            assert_eq!((refusal.number, refusal.place), (number, place));
        });
    }
}

/// The text ends, or there is no node left, in the innermost object.
#[test]
fn an_end_in_many_keys_needs_no_more() {
    for (text, nodes) in texts_of_many() {
        with_stack(64, move || {
            // Before all brackets that close.
            let length = text.len() - 2 * 32;
            let refusal = duper::read(&text[..length], &mut full_table()).expect_err("cut");
            assert_eq!((refusal.number, refusal.place), (7, length as u32));
            // The last value, a zero, is all that stands behind.
            let mut table = vec![0; (nodes - 1) * duper::ROW];
            let refusal = duper::read(&text, &mut table).expect_err("no node");
            assert_eq!((refusal.number, refusal.place), (10, length as u32 - 1));
        });
    }
}

#[test]
fn a_correction_and_an_undo_of_many_keys_need_no_more() {
    for (text, nodes) in texts_of_many() {
        corrects_and_undoes(&text, nodes, full_table());
    }
}

/// A replacement is read by itself, with a stack of its own below the correction's.
#[test]
fn a_replacement_of_many_keys_needs_no_more() {
    let members = many(3_000).join(",");
    let replacement = format!("A({{{members}}})").into_bytes();
    let doubled = format!(r#"A({{{members},"\x6b0":0}})"#).into_bytes();
    with_stack(256, move || {
        let first = format!("{}0{}", OUTER.0.repeat(31), "})".repeat(31)).into_bytes();
        let used = first.len();
        let (mut text, mut journal, mut table) = (first, vec![0; 100], full_table());
        text.resize(duper::MAX_TEXT, 0);
        let node = 31 * OUTER.1;
        let answer = duper::correct(&mut text, used, &mut journal, 0, &mut table, node, &doubled);
        assert_eq!(answer.outcome.map_err(|refusal| refusal.number), Err(13));
        let answer =
            duper::correct(&mut text, used, &mut journal, 0, &mut table, node, &replacement);
        assert_eq!(answer.outcome, Ok(()));
        assert_eq!(answer.nodes, node + 1 + 3_000);
        let answer = duper::undo(&mut text, answer.used, &mut journal, answer.kept, &mut table);
        assert_eq!((answer.outcome, answer.used), (Ok(()), used));
    });
}

/// Salvages these lines with a full table and 64 KiB: the verdicts must be these, and
/// what is kept must read with so many nodes.
fn salvages(lines: Vec<Vec<u8>>, verdicts: Vec<u8>, nodes: usize) {
    with_stack(64, move || {
        let log = lines.join(&b'\n');
        let mut table = full_table();
        let (mut out, mut list) = (vec![0; duper::MAX_TEXT], vec![99; lines.len()]);
        let written = duper::salvage_into(&log, &mut table, &mut out, &mut list);
        let written = written.expect("within all limits");
        assert_eq!(list, verdicts);
        assert_eq!(duper::read(&out[..written.bytes], &mut table), Ok(nodes));
    });
}

/// With the array around it, 31 objects in a line are the greatest depth.
#[test]
fn a_salvage_needs_64_kib() {
    let line = |objects: usize| {
        let text = format!("{}1{}", OUTER.0.repeat(objects), "})".repeat(objects));
        text.into_bytes()
    };
    let cut = line(31)[..31 * OUTER.0.len()].to_vec();
    let lines = vec![line(31), line(32), cut, Vec::new(), line(33), line(31)];
    salvages(lines, vec![0, 9, 7, 7, 9, 0], 1 + 2 * (31 * OUTER.1 + 1));
}

/// The innermost of 31 objects has many keys; then the same with the last one doubled,
/// and cut off before all brackets that close.
#[test]
fn a_salvage_of_many_keys_needs_no_more() {
    let (open, forty_nodes) = forty();
    let mut with_long = many(1_500);
    with_long.insert(1_000, long_key());
    for (outer, members) in [
        (OUTER, many(3_000)),
        (OUTER, with_long),
        ((&open[..], forty_nodes), many(1_000)),
        ((&open[..], forty_nodes), many(16)),
    ] {
        let count = members.len() + 1;
        let (kept, nodes) = of_many(30, outer, &members, "last:0", count);
        let (doubled, _) = of_many(30, outer, &members, r#""\x6b3":0"#, count);
        let log = [&kept[..], &doubled, &kept[..kept.len() - 2 * 31]];
        // As many of the three as a log has room for.
        let fit = (1..=3).rev().find(|&lines| log[..lines].concat().len() + 9 <= duper::MAX_TEXT);
        let fit = fit.expect("one does");
        assert!(fit > 1, "{} bytes", kept.len());
        let lines = log[..fit].iter().map(|line| line.to_vec()).collect();
        salvages(lines, [0, 8, 7][..fit].to_vec(), 1 + nodes);
    }
}

/// However many lines there are, and however long one is, the stack must not grow
/// with them.
#[test]
fn a_salvage_of_many_lines_needs_no_more() {
    salvages(vec![b"[]".to_vec(); 4_095], vec![0; 4_095], 4_096);
    let mut long = b"[]//".to_vec();
    long.resize(duper::MAX_TEXT - 6, b'/');
    salvages(vec![long], vec![0], 2);
    with_stack(64, || {
        let log = vec![b'\n'; duper::MAX_TEXT];
        let mut table = vec![0; duper::ROW];
        let (mut out, mut list) = (vec![0; 3], vec![99; duper::MAX_TEXT]);
        let written = duper::salvage_into(&log, &mut table, &mut out, &mut list);
        let written = written.expect("as many lines as can be");
        assert_eq!((written.bytes, written.lines), (3, duper::MAX_TEXT));
        assert_eq!(list, vec![7; duper::MAX_TEXT]);
    });
}
