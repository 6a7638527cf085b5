//! What is null, absent and unfit; identifiers, keys and records.

use super::*;

// Null, absent, unfit.

#[test]
fn null_and_0_are_not_the_same() {
    null("null");
    measured("0", 0);
    unfit("false");
    unfit("\"\"");
    // Nor are null and absent.
    holds("[{}]", [0, 0, 1, 0], None);
    holds("[{null:null}]", [0, 0, 1, 0], None);
    holds("[{a:null}]", [0, 0, 1, 0], None);
    // And no null goes into the mean.
    let text = "[{height_mm:4},{height_mm:null},{height_mm:null},{height_mm:8}]";
    holds(text, [2, 2, 0, 0], Some([4_000.0, 8_000.0, 6_000.0]));
    let text = "[{height_mm:4},{height_mm:0},{height_mm:0},{height_mm:8}]";
    holds(text, [4, 0, 0, 0], Some([0.0, 8_000.0, 3_000.0]));
}

#[test]
fn absent() {
    for record in [
        "{}",
        "{ }",
        "{/*height_mm:5*/}",
        "{//height_mm:5\n}",
        "{a:5}",
        "{a:5,}",
        "{mm:5,height:5}",
        "{a:null}",
        "{a:\"height_mm\"}",
        "{a:\"height_mm\",b:5}",
        "{a:r\"height_mm\",b:5}",
        "{a:[\"height_mm\",5]}",
        "{a:\"height_mm:5\"}",
        "{a:\",height_mm:5,\"}",
        "{a:r#\"{\"height_mm\":5}\"#}",
    ] {
        holds(format!("[{record}]"), [0, 0, 1, 0], None);
    }
    // A word that is no key is nothing.
    refused("[{a:height_mm}]", 7, 4);
}

#[test]
fn unfit_by_each_kind() {
    for written in [
        "{}",
        "{a:5}",
        "{height_mm:5}",
        "[]",
        "[,]",
        "[5]",
        "[null]",
        "[{height_mm:5}]",
        "()",
        "(,)",
        "(5)",
        "(5,)",
        "(null)",
        "((5))",
        "\"\"",
        "\"5\"",
        "\"null\"",
        "\"\\x35\"",
        "r\"5\"",
        "r#\"5\"#",
        "b\"\"",
        "b\"5\"",
        "br\"5\"",
        "b64\"NQ==\"",
        "false",
        "true",
        "10001",
        "-1",
        "0x2711",
        "0.0001",
        "1e5",
        "-0.001",
    ] {
        unfit(written);
        unfit(&format!("A({written})"));
    }
}

// Identifiers.

#[test]
fn identifiers_of_a_height() {
    for (written, micrometres) in [
        ("Cm(5)", 5_000),
        ("Mm(5)", 5_000),
        ("Inches(-0.0)", 0),
        ("A(-0)", 0),
        ("A(0x2710)", 10_000_000),
        ("A(0.250e1)", 2_500),
        ("A ( 5 )", 5_000),
        ("A/*1*/(//2\n5/*3*/)", 5_000),
        ("A-1_b(1_0)", 10_000),
        ("PlainDate(5)", 5_000),
        ("Duration(5)", 5_000),
        ("Null(5)", 5_000),
        ("E5(1e1)", 10_000),
    ] {
        measured(written, micrometres);
    }
    for written in ["A(null)", "Mm ( null )", "A(/*5*/null//5\n)", "Instant(null)", "Null(null)"] {
        null(written);
    }
    // Its brackets are no tuple, and those of a tuple are.
    unfit("A((5))");
    unfit("A((null))");
    unfit("A(())");
    unfit("(5)");
    unfit("(A(5))");
}

#[test]
fn identifiers_of_a_record_and_of_the_root() {
    let heights = Some([5_000.0; 3]);
    for text in [
        "[{height_mm:5}]",
        "[Ball({height_mm:5})]",
        "[Ball ( {height_mm:5} ) ]",
        "Over([{height_mm:5}])",
        "Over ( [{height_mm:5}] )",
        "Over([Ball({height_mm:5})])",
        "Over([Ball({height_mm:Mm(5)})])",
        "Over([Ball({height_mm:Mm(5),}),])",
        "[A/*{*/(/*[*/{height_mm:5}/*]*/)]",
    ] {
        holds(text, [1, 0, 0, 0], heights);
    }
    let text = "A([A({height_mm:A(null)}),A({}),A({A:A(5)}),A({height_mm:A(A)})])";
    refused(text, 7, 59);
    let text = "A([A({height_mm:A(null)}),A({}),A({A:A(5)}),A({height_mm:A((5))})])";
    holds(text, [0, 1, 2, 1], None);
    // Names that look like the key are none.
    holds("Height_mm([Height_mm({a:Height_mm(5)})])", [0, 0, 1, 0], None);
}

#[test]
fn identifiers_beside_the_height() {
    let heights = Some([5_000.0; 3]);
    for pair in [
        "a:A(1)",
        "a:A((1,2))",
        "a:A(())",
        "a:A(([1]))",
        "a:A({b:B(1)})",
        "a:A([B({c:C((D(1)))}),E(())])",
        // Capitals before a colon are keys, whatever their value is.
        "A:1",
        "A:(1)",
        "A:()",
        "A:A(1)",
        "A:A((1))",
        "A:{B:(C((2)))}",
        "A:[(1),B((1)),(B(1))]",
        "\"A\":(\"A\",(1))",
    ] {
        for record in [
            format!("{{{pair},height_mm:5}}"),
            format!("{{height_mm:5,{pair}}}"),
            format!("{{{pair},height_mm:Mm(5)}}"),
            format!("R({{{pair},height_mm:Mm(5),}})"),
        ] {
            holds(format!("[{record}]"), [1, 0, 0, 0], heights);
            holds(format!("A([{record},])"), [1, 0, 0, 0], heights);
            // What comes behind such a record is still an element.
            let text = format!("[{record},{{}},{{height_mm:null}}]");
            holds(text, [1, 1, 1, 0], heights);
        }
        holds(format!("[{{{pair}}}]"), [0, 0, 1, 0], None);
    }
}

// Keys.

#[test]
fn the_key_in_every_spelling() {
    for key in [
        "height_mm",
        "\"height_mm\"",
        "r\"height_mm\"",
        "r#\"height_mm\"#",
        "r###\"height_mm\"###",
        r#""height\x5fmm""#,
        r#""height\x5Fmm""#,
        r#""height\u005fmm""#,
        r#""height\u005Fmm""#,
        r#""height\U0000005fmm""#,
        r#""\x68eight_mm""#,
        r#""height_m\x6D""#,
        r#""\x68\x65\x69\x67\x68\x74\x5f\x6d\x6d""#,
        r#""\u0068\x65\U00000069ght_\u006d\x6d""#,
    ] {
        let text = format!("[{{{key}:5}},{{{key}:null}},{{{key} : true}},{{ {key}\n:\t7 }}]");
        holds(text, [2, 1, 0, 1], Some([5_000.0, 7_000.0, 6_000.0]));
        let text = format!("[{{a:1,{key}:5,b:2}}]");
        holds(text, [1, 0, 0, 0], Some([5_000.0; 3]));
    }
    // Different spellings in different records.
    let text = r#"[{height_mm:1},{"height\x5fmm":2},{r"height_mm":6}]"#;
    holds(text, [3, 0, 0, 0], Some([1_000.0, 6_000.0, 3_000.0]));
    // In one record they are the same key twice.
    refused(r#"[{height_mm:1,"height\x5fmm":2}]"#, 8, 14);
    refused(r##"[{r#"height_mm"#:null,height_mm:2}]"##, 8, 22);
}

#[test]
fn other_keys() {
    for key in [
        "height-mm",
        "heightmm",
        "height_m",
        "height_mmm",
        "height_mm1",
        "height_mm_1",
        "_height_mm",
        "height_cm",
        "Height_mm",
        "height_Mm",
        "HEIGHT_MM",
        "height",
        "mm",
        "null",
        "\"\"",
        "\"height mm\"",
        "\"height.mm\"",
        "\" height_mm\"",
        "\"height_mm \"",
        "\"height_mm\n\"",
        "\"height__mm\"",
        r#""height_mm\0""#,
        r#""\0height_mm""#,
        r#""height_mm\n""#,
        r#""\"height_mm\"""#,
        r#""height\\x5fmm""#,
        r#"r"height\x5fmm""#,
        r##"r#""height_mm""#"##,
        "\"height\u{FF3F}mm\"",
        "\"height_m\u{FF4D}\"",
        "\"\u{FEFF}height_mm\"",
    ] {
        holds(format!("[{{{key}:5}}]"), [0, 0, 1, 0], None);
        holds(format!("[{{{key}:null}}]"), [0, 0, 1, 0], None);
        holds(format!("[{{{key}:\"x\"}}]"), [0, 0, 1, 0], None);
        // Beside the key itself they are nothing to it.
        holds(format!("[{{{key}:5,height_mm:null}}]"), [0, 1, 0, 0], None);
        holds(format!("[{{height_mm:true,{key}:5}}]"), [0, 0, 0, 1], None);
        let heights = Some([2_500.0; 3]);
        holds(format!("[{{{key}:5,height_mm:2.5}}]"), [1, 0, 0, 0], heights);
        holds(format!("[{{height_mm:2.5,{key}:null}}]"), [1, 0, 0, 0], heights);
    }
}

#[test]
fn the_key_further_in() {
    for inner in [
        "{height_mm:5}",
        "[{height_mm:5}]",
        "({height_mm:5})",
        "[{height_mm:5},{height_mm:null}]",
        "A({height_mm:5})",
        "{a:{height_mm:5}}",
        "{b:1,height_mm:null,c:[{height_mm:true}]}",
    ] {
        holds(format!("[{{a:{inner}}}]"), [0, 0, 1, 0], None);
        holds(format!("[{{height_mm:{inner}}}]"), [0, 0, 0, 1], None);
        for (pair, counts, heights) in [
            ("height_mm:null", [0, 1, 0, 0], None),
            ("height_mm:false", [0, 0, 0, 1], None),
            ("height_mm:0.25", [1, 0, 0, 0], Some([250.0; 3])),
        ] {
            holds(format!("[{{a:{inner},{pair}}}]"), counts, heights);
            holds(format!("[{{{pair},a:{inner}}}]"), counts, heights);
            holds(format!("[{{b:[{inner}],{pair},a:({inner})}}]"), counts, heights);
        }
    }
    // Nor is it that of the record before or behind.
    let text = "[{height_mm:1},{a:{height_mm:2,b:{height_mm:3}}},{height_mm:4}]";
    holds(text, [2, 0, 1, 0], Some([1_000.0, 4_000.0, 2_500.0]));
    holds("[{a:{height_mm:5}},{height_mm:1}]", [1, 0, 1, 0], Some([1_000.0; 3]));
    holds("[{height_mm:1},{a:{height_mm:5}}]", [1, 0, 1, 0], Some([1_000.0; 3]));
    holds("[{height_mm:{height_mm:5}},{}]", [0, 0, 1, 1], None);
    holds("[{},{height_mm:[{height_mm:5}]},{}]", [0, 0, 2, 1], None);
}

// Records.

#[test]
fn no_records() {
    for text in ["[]", "[,]", "[ ]", "A([])", "A([,])", " /*{}*/ [ // {}\n ] ", "A ( [ , ] ) //x"] {
        holds(text, [0, 0, 0, 0], None);
    }
}

#[test]
fn no_measured_height() {
    for (text, counts) in [
        ("[{}]", [0, 0, 1, 0]),
        ("[{},{},]", [0, 0, 2, 0]),
        ("[{height_mm:null}]", [0, 1, 0, 0]),
        ("[{height_mm:null},{height_mm:null}]", [0, 2, 0, 0]),
        ("[{height_mm:\"5\"}]", [0, 0, 0, 1]),
        ("[{height_mm:-5},{height_mm:1e9}]", [0, 0, 0, 2]),
        ("[{},{height_mm:null},{height_mm:()},{height_mm:null},{},{}]", [0, 2, 3, 1]),
    ] {
        holds(text, counts, None);
    }
    // With one of 0 there are heights, and all are 0.
    holds("[{},{height_mm:0},{height_mm:null}]", [1, 1, 1, 0], Some([0.0; 3]));
}

#[test]
fn spaces_comments_and_commas() {
    let heights = Some([5_000.0; 3]);
    for text in [
        "[{height_mm:5},]",
        "[{height_mm:5,}]",
        "[{height_mm:5,},]",
        " [ { height_mm : 5 } ] ",
        "\t[\r{\nheight_mm\r\n:\t5 }\n]\n",
        "//{height_mm:1}\n[{height_mm:5}]//{height_mm:2}",
        "[{height_mm/*:1*/:/*2*/5/*3*/}/*,{height_mm:4}*/]",
        "[//[\n{//{\rheight_mm//:6\n://7\n5//8\n}//,{}\n]",
        "[{/*\"*/height_mm:5/*\"*/}]",
    ] {
        holds(text, [1, 0, 0, 0], heights);
    }
    // Brackets and marks in strings are none.
    let text = "[{a:\"}],[{\",height_mm:5},{b:r\"{height_mm:1}\"},{\"}{:,[\":b\"[\"}]";
    holds(text, [1, 0, 2, 0], heights);
}

/// Every list of up to five of these records, each of which is looked at by
/// hand.
#[test]
fn all_lists_of_some_records() {
    #[derive(Clone, Copy, PartialEq)]
    enum Is {
        Measured(u64),
        Null,
        Absent,
        Unfit,
    }
    let records = [
        ("{height_mm:0}", Is::Measured(0)),
        ("{height_mm:0.001}", Is::Measured(1)),
        ("A({a:(1),height_mm:B(2.5)})", Is::Measured(2_500)),
        ("{height_mm:null}", Is::Null),
        ("{}", Is::Absent),
        ("{a:{height_mm:9}}", Is::Absent),
        ("{height_mm:-1}", Is::Unfit),
        (r#"{"height\x5fmm":[{}]}"#, Is::Unfit),
    ];
    let mut lists = vec![Vec::new()];
    let mut tried = 0;
    while let Some(list) = lists.pop() {
        let written: Vec<&str> = list.iter().map(|&at: &usize| records[at].0).collect();
        let (mut counts, mut micrometres) = ([0; 4], Vec::new());
        for &at in &list {
            match records[at].1 {
                Is::Measured(height) => {
                    counts[0] += 1;
                    micrometres.push(height);
                }
                Is::Null => counts[1] += 1,
                Is::Absent => counts[2] += 1,
                Is::Unfit => counts[3] += 1,
            }
        }
        micrometres.sort();
        let heights = micrometres.first().zip(micrometres.last()).map(|(&least, &greatest)| {
            let mean = micrometres.iter().sum::<u64>() as f64 / micrometres.len() as f64;
            [least as f64, greatest as f64, mean]
        });
        let mut table = vec![RUBBISH; 30 * ROW];
        let text = format!("[{}]", written.join(","));
        assert_eq!(summary(text.as_bytes(), &mut table), Ok(of(counts, heights)), "{text}");
        tried += 1;
        if list.len() < 5 {
            lists.extend((0..records.len()).map(|at| [&list[..], &[at]].concat()));
        }
    }
    assert_eq!(tried, 1 + 8 + 64 + 512 + 4_096 + 32_768);
}
