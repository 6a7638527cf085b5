//! Wrong about the table, the reading or the answer.

use second::ROW;

use crate::check::second_read;
use crate::heights::Summary;
use crate::summarizing::{second_summary, Summarizer};

pub(super) const CALLS: &[(&str, Summarizer)] = &[
    ("12 in place of 21", |text, table| {
        let answer = second_summary(text, table);
        answer.map_err(|(number, place)| (if number == 21 { 12 } else { number }, place))
    }),
    ("no records in place of 21", |text, table| match second_summary(text, table) {
        Err((21, _)) => Ok(Summary { counts: [0; 4], heights: None }),
        answer => answer,
    }),
    ("no records in a text that is refused", |text, table| match second_summary(text, table) {
        Err((1..=10, _)) => Ok(Summary { counts: [0; 4], heights: None }),
        answer => answer,
    }),
    ("a refusal's place is lost", |text, table| {
        let answer = second_summary(text, table);
        answer.map_err(|(number, place)| (number, if number == 21 { place } else { 0 }))
    }),
    ("the table is zeros after 21", |text, table| {
        let answer = second_summary(text, table);
        if answer.is_err() {
            table.fill(0);
        }
        answer
    }),
    ("the table is left alone after 21", |text, table| {
        let before = table.to_vec();
        let answer = second_summary(text, table);
        if answer.is_err_and(|(number, _)| number == 21) {
            table.copy_from_slice(&before);
        }
        answer
    }),
    ("the table is left alone after a refusal of the text", |text, table| {
        let before = table.to_vec();
        let answer = second_summary(text, table);
        if answer.is_err_and(|(number, _)| number != 21) {
            table.copy_from_slice(&before);
        }
        answer
    }),
    ("the table is zeros after a success", |text, table| {
        let answer = second_summary(text, table);
        if answer.is_ok() {
            table.fill(0);
        }
        answer
    }),
    ("the last word is left alone", |text, table| {
        let last = table.last().copied();
        let answer = second_summary(text, table);
        if let (Some(word), Some(last)) = (table.last_mut(), last) {
            *word = last;
        }
        answer
    }),
    ("21 goes before the reading's 10", |text, table| {
        let answer = second_summary(text, table);
        let mut roomy = vec![0; ROW * second::MAX_NODES];
        match (answer, second_summary(text, &mut roomy)) {
            (Err((10, _)), Err((21, node))) => Err((21, node)),
            _ => answer,
        }
    }),
    ("a table of its own", |text, table| {
        let mut roomy = vec![0; ROW * second::MAX_NODES];
        let answer = second_summary(text, &mut roomy);
        let _ = second_read(text, table);
        answer
    }),
];
