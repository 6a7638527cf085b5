//! What the table holds afterwards.

use super::*;

/// `[{height_mm:5}]`: the root, the record from 1 to 14, and the 5 at 12.
const ROWS: [Row; 3] = [
    [2, NONE, 0, 15, 0, 0, 0, 0, 3, 1, 0, 0],
    [1, 0, 1, 14, 0, 0, 0, 0, 3, 1, 0, 0],
    [6, 1, 12, 13, 2, 11, 0, 0, 3, 5, 0, 0],
];

#[test]
fn afterwards_the_table_is_the_reading() {
    let good = Ok(of([1, 0, 0, 0], Some([5_000.0; 3])));
    for further in [0, 1, 11, 12, 13, 24, 4_096 * ROW] {
        let mut table = vec![RUBBISH; 3 * ROW + further];
        assert_eq!(summary(b"[{height_mm:5}]", &mut table), good);
        assert_eq!(table[..3 * ROW], ROWS.concat());
        assert_eq!(table[3 * ROW..], vec![0; further]);
    }
}

#[test]
fn after_21_as_well() {
    // The null with its identifier is node 3, from 15 to 22.
    let rows: [Row; 4] = [
        [2, NONE, 0, 23, 0, 0, 0, 0, 4, 2, 0, 0],
        ROWS[1],
        ROWS[2],
        [10, 0, 15, 22, 0, 0, 15, 16, 4, 0, 0, 0],
    ];
    for further in [0, 1, 11, 12, 13, 4_096 * ROW] {
        let mut table = vec![RUBBISH; 4 * ROW + further];
        let refused = summary(b"[{height_mm:5},A(null)]", &mut table);
        assert_eq!(refused, Err(Refusal { number: 21, place: 3 }));
        assert_eq!(table[..4 * ROW], rows.concat());
        assert_eq!(table[4 * ROW..], vec![0; further]);
    }
    let mut table = [RUBBISH; 2 * ROW + 3];
    assert_eq!(summary(b"(5)", &mut table), Err(Refusal { number: 21, place: 0 }));
    let root = [3, NONE, 0, 3, 0, 0, 0, 0, 2, 1, 0, 0];
    let item = [6, 0, 1, 2, 0, 0, 0, 0, 2, 5, 0, 0];
    assert_eq!(table[..], [&root[..], &item, &[0; 3]].concat());
}

#[test]
fn too_small_a_table_is_10() {
    // Where the first value without a node opens: the root, the record, the 5.
    for (words, place) in [(0, 0), (1, 0), (11, 0), (12, 1), (23, 1), (24, 12), (35, 12)] {
        refused_with(words, "[{height_mm:5}]", 10, place);
    }
    // "if only by an identifier"
    for (words, place) in [(11, 0), (12, 1), (24, 14), (35, 14)] {
        refused_with(words, "[A({height_mm:B(5)})]", 10, place);
    }
    // Room for the root alone is enough for no records.
    let mut table = [RUBBISH; ROW];
    assert_eq!(summary(b"[]", &mut table), Ok(of([0; 4], None)));
    assert_eq!(table, [2, NONE, 0, 2, 0, 0, 0, 0, 1, 0, 0, 0]);
    // "at most the smaller of 4,096": the 4,097th value is the 4,096th record.
    let text = format!("[{}{{}}]", "{},".repeat(4_095));
    refused_with(5_000 * ROW, text, 10, 1 + 3 * 4_095);
}

#[test]
fn what_the_table_held_does_not_matter() {
    let mut table = vec![0; 8 * ROW];
    let text = b"[{height_mm:1},{height_mm:2},{height_mm:3}]";
    let three = of([3, 0, 0, 0], Some([1_000.0, 3_000.0, 2_000.0]));
    assert_eq!(summary(text, &mut table), Ok(three));
    assert_eq!(summary(b"[]", &mut table), Ok(of([0; 4], None)));
    assert_eq!(summary(text, &mut table), Ok(three));
    assert_eq!(summary(b"[1", &mut table), Err(Refusal { number: 7, place: 2 }));
    assert_eq!(table, vec![0; 8 * ROW]);
    assert_eq!(summary(text, &mut table), Ok(three));
    assert_eq!(summary(b"{a:1}", &mut table), Err(Refusal { number: 21, place: 0 }));
    let one = of([1, 0, 0, 0], Some([5_000.0; 3]));
    assert_eq!(summary(b"[{height_mm:5}]", &mut table), Ok(one));
    assert_eq!(table[..3 * ROW], ROWS.concat());
    assert_eq!(table[3 * ROW..], [0; 5 * ROW]);
}
