//! 21, and that 1 to 10 go first.

use super::*;

#[test]
fn a_root_of_another_shape() {
    for text in [
        "{}",
        "{a:1}",
        "{height_mm:5}",
        "{a:[{height_mm:5}]}",
        "A({})",
        "A({height_mm:5})",
        " // [\n {} ",
        "()",
        "(,)",
        "(1)",
        "({})",
        "({height_mm:5})",
        "({height_mm:5},{})",
        "([{height_mm:5}])",
        "A(())",
        "A(({}))",
        "A(({height_mm:5}))",
        // The root goes before its elements.
        "(1,{})",
        "({},1)",
        "{a:1,b:[]}",
    ] {
        misshapen(text, 0);
    }
}

/// "Root: object, array or tuple": of other values 7 is given, before 21 could.
#[test]
fn other_values_are_no_roots() {
    for text in [
        "1",
        "-0.0",
        "0x1",
        "null",
        "true",
        "false",
        "\"\"",
        "\"[]\"",
        "r\"\"",
        "b\"\"",
        "br\"\"",
        "b64\"\"",
        "height_mm",
        "",
    ] {
        refused(text, 7, 0);
    }
    for text in ["A(1)", "A(null)", "A(\"\")", "A(true)", "A()"] {
        refused(text, 7, 2);
    }
    refused("   ", 7, 3);
    refused("'2025-06-01'", 6, 0);
}

#[test]
fn an_element_of_each_other_kind() {
    for written in [
        "[]",
        "[{}]",
        "[{height_mm:5}]",
        "()",
        "({})",
        "({height_mm:5})",
        "\"\"",
        "\"{}\"",
        "r\"{}\"",
        "b\"{}\"",
        "br\"\"",
        "b64\"\"",
        "0",
        "5",
        "0x5",
        "2.5",
        "1e0",
        "false",
        "true",
        "null",
    ] {
        for element in
            [written.to_string(), format!("A({written})"), format!("A /*{{*/ ( {written} )")]
        {
            misshapen(format!("[{element}]"), 1);
            misshapen(format!("[{element},]"), 1);
            misshapen(format!("A([{element}])"), 1);
            misshapen(format!("[{element},{{}}]"), 1);
            misshapen(format!("[{{}},{element}]"), 2);
            misshapen(format!("[{{}},{{}},{element},{{}}]"), 3);
            misshapen(format!("[{{height_mm:5}},{element}]"), 3);
            misshapen(format!("[R({{height_mm:Mm(5)}}),{element}]"), 3);
            misshapen(format!("[{{a:[{{}}]}},{element}]"), 4);
            // In a record it is no element.
            let text = format!("[{{a:{element}}},{{height_mm:2}}]");
            holds(text, [1, 0, 1, 0], Some([2_000.0; 3]));
        }
    }
}

#[test]
fn the_nodes_number_and_not_its_index() {
    for (text, node) in [
        ("[1]", 1),
        ("[{},1]", 2),
        ("[{a:1},2]", 3),
        // 1 is the record, 2 `a`, 3 and 4 its items, 5 `b` and 6 `c`.
        ("[{a:[1,2],b:{c:3}},4]", 7),
        // 1 to 4 are the record, `a`, `b` and `c`, 5 to 7 the items, 8 a record.
        ("[{a:{b:{c:[{},(),null]}}},{},[]]", 9),
        // An identifier is no node of its own.
        ("[A({height_mm:B(5)}),C({}),D([])]", 4),
        ("A([A({height_mm:A(5)}),A({}),A([A({})])])", 4),
        // 2 to 8 are `a`, 1, the tuple, 2, 3, the array and 4; then `b` and `c`.
        ("[{a:(1,(2,3),[4]),\"b\":X({c:Y(null)})},{},\"x\",1]", 12),
        // Keys are no nodes either, however they are written.
        ("[{\"a\":1,r\"b\":2,C:3,\"{\":\"[\"},\"{}\"]", 6),
        ("[{A:(1),B:B((1))},()]", 6),
    ] {
        misshapen(text, node);
    }
    // 4,094 records, then the 4,096th node.
    misshapen(format!("[{}1]", "{},".repeat(4_094)), 4_095);
    misshapen(format!("[{}[]]", "{height_mm:1},".repeat(2_047)), 4_095);
    // The record is 1, and 30 arrays are 2 to 31.
    let inner = "[".repeat(30) + &"]".repeat(30);
    misshapen(format!("[{{a:{inner}}},0]"), 32);
}

#[test]
fn the_smallest_such() {
    for (text, node) in [
        ("[1,2]", 1),
        ("[1,{},2]", 1),
        ("[{},1,[],2]", 2),
        ("[[1],2]", 1),
        ("[[{}],{}]", 1),
        ("[{a:1},[2],3]", 3),
        ("[{a:[[],()]},{b:1},(),[],null]", 7),
        // Not what is of another shape in a record, before it or in it.
        ("[{a:[]},1]", 3),
        ("[[[],()],1]", 1),
    ] {
        misshapen(text, node);
    }
    // Heights don't matter then, measured, null or unfit.
    misshapen("[{height_mm:5},{height_mm:null},{height_mm:-5},{},5]", 8);
}

#[test]
fn one_to_ten_go_first() {
    let long = [b"[1", &[b' '; 65_534][..], b"]"].concat();
    assert_eq!(long.len(), MAX_TEXT + 1);
    let deep = "[1,".to_string() + &"[".repeat(32) + &"]".repeat(33);
    // All have a root or an element, before the fault, that is no such.
    let cases: [(&[u8], u32, u64); 24] = [
        (&long, 1, 65_536),
        (b"[1,\xFF]", 2, 3),
        (b"{}\x80", 2, 2),
        (b"[1,00]", 3, 3),
        (b"{a:1} /*", 3, 6),
        (b"(1.)", 3, 1),
        (br#"[1,"\q"]"#, 4, 3),
        (br#"{"Jos\xE9":1}"#, 4, 1),
        (b"[1,9223372036854775808]", 5, 3),
        (b"(1e401)", 5, 1),
        (b"[1,'x']", 6, 3),
        (b"[1 2]", 7, 3),
        (b"[1,,2]", 7, 3),
        (b"[1,", 7, 3),
        (b"{a:1", 7, 4),
        (b"{} 1", 7, 3),
        (b"[1] []", 7, 4),
        (b"(1]", 7, 2),
        (b"A((1),)", 7, 5),
        (b"[1,height_mm]", 7, 3),
        (b"{a:1,a:2}", 8, 5),
        (br#"[1,{a:1,"\x61":2}]"#, 8, 8),
        (br#"({height_mm:1,"height\x5fmm":2})"#, 8, 14),
        // The root is the first, and the 33rd is at 3 and 31 more.
        (deep.as_bytes(), 9, 34),
    ];
    for (text, number, place) in cases {
        refused(text, number, place);
    }
    refused_with(2 * ROW, "[1,2]", 10, 3);
    refused_with(ROW, "{a:1}", 10, 3);
    refused_with(ROW - 1, "()", 10, 0);
    refused_with(2 * ROW + 11, "[null,{height_mm:5}]", 10, 6);
    // A fault behind good records.
    refused("[{height_mm:1},{height_mm:1e401}]", 5, 26);
    refused("[{height_mm:1},{height_mm:2}", 7, 28);
    refused("[{height_mm:1} {height_mm:2}]", 7, 15);
}
