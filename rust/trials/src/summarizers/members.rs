//! Wrong about the key of a height.

use super::{keyed, member, Member};
use crate::finders::content;
use crate::records::KEY;

pub(super) const MEMBERS: &[(&str, Member)] = &[
    ("keys are compared as written", |view, node| {
        view.first(node, |child| view.key_as_written(child) == KEY.as_bytes())
    }),
    ("keys in quotes are compared as written", |view, node| {
        view.first(node, |child| {
            let written = view.key_as_written(child);
            let inner = written.strip_prefix(b"\"").and_then(|key| key.strip_suffix(b"\""));
            inner.map_or(view.key(child) == KEY.as_bytes(), |inner| inner == KEY.as_bytes())
        })
    }),
    ("a plain word isn't found", |view, node| {
        member(view, node).filter(|&child| view.key_as_written(child) != KEY.as_bytes())
    }),
    ("raw keys aren't found", |view, node| {
        member(view, node).filter(|&child| !view.key_as_written(child).starts_with(b"r"))
    }),
    ("escapes are read twice", |view, node| {
        keyed(view, node, |key| {
            let quoted = [b"\"", key, b"\""].concat();
            content(&quoted, 0, quoted.len() as u64) == KEY.as_bytes()
        })
    }),
    ("a key may go on", |view, node| keyed(view, node, |key| key.starts_with(KEY.as_bytes()))),
    ("a key's front will do", |view, node| {
        keyed(view, node, |key| key.len() > 7 && KEY.as_bytes().starts_with(key))
    }),
    ("a key's end will do", |view, node| {
        keyed(view, node, |key| key.len() > 7 && KEY.as_bytes().ends_with(key))
    }),
    ("capitals are small letters", |view, node| {
        keyed(view, node, |key| key.eq_ignore_ascii_case(KEY.as_bytes()))
    }),
    ("keys of one length are equal", |view, node| keyed(view, node, |key| key.len() == KEY.len())),
    ("the first byte isn't compared", |view, node| {
        keyed(view, node, |key| key.get(1..) == Some(&KEY.as_bytes()[1..]))
    }),
    ("the last byte isn't compared", |view, node| {
        keyed(view, node, |key| {
            key.len() == KEY.len() && key.starts_with(&KEY.as_bytes()[..KEY.len() - 1])
        })
    }),
    ("joiners are equal", |view, node| {
        keyed(view, node, |key| {
            let joined: Vec<u8> =
                key.iter().map(|&byte| if byte == b'-' { b'_' } else { byte }).collect();
            joined == KEY.as_bytes()
        })
    }),
    ("spaces around a key are dropped", |view, node| {
        keyed(view, node, |key| key.trim_ascii() == KEY.as_bytes())
    }),
    ("a NUL ends a key", |view, node| {
        keyed(view, node, |key| key.split(|&byte| byte == 0).next() == Some(KEY.as_bytes()))
    }),
    ("a key further in is found", |view, node| {
        let mut inside = node + 1..view.rows[node][8] as usize;
        inside.find(|&other| view.rows[other][5] > 0 && view.key(other) == KEY.as_bytes())
    }),
    ("a key further in is found if there is no other", |view, node| {
        let mut inside = node + 1..view.rows[node][8] as usize;
        let is_key = |&other: &usize| view.rows[other][5] > 0 && view.key(other) == KEY.as_bytes();
        member(view, node).or_else(|| inside.find(is_key))
    }),
    ("the first member isn't looked at", |view, node| {
        member(view, node).filter(|&child| child != node + 1)
    }),
    ("the last member isn't looked at", |view, node| {
        member(view, node).filter(|child| Some(child) != view.children(node).last())
    }),
    ("only the first member is looked at", |view, node| {
        member(view, node).filter(|&child| child == node + 1)
    }),
    ("a record in an identifier has no height", |view, node| {
        member(view, node).filter(|_| view.name(node).is_empty())
    }),
];
