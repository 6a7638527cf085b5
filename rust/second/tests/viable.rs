//! "7 is at the first token that no taken text could have there, limits and
//! doubled keys apart."
//!
//! The sentence is tried as it stands: all taken texts of up to twelve tokens are
//! made from the grammar, their beginnings are collected, and every row of up
//! to five tokens is read and held against that collection. One letter stands
//! for a token: `A` an identifier's name, `w` another word, `n` null, `1` a
//! number; the rest are themselves.

use std::collections::HashSet;

const TOKENS: &[u8] = b"{}[]():,Awn1";
/// Any beginning of up to five tokens can be ended within twelve, the worst
/// being `[[[[A`, which goes on `(1)]]]]`.
const LONGEST: usize = 12;
const TRIED: usize = 5;

/// All rows of exactly so many tokens, by length, for each part of the grammar.
#[derive(Default)]
struct Grammar {
    containers: Vec<Vec<Vec<u8>>>,
    /// Values without an identifier.
    bare: Vec<Vec<Vec<u8>>>,
    values: Vec<Vec<Vec<u8>>>,
    /// Values with commas between.
    items: Vec<Vec<Vec<u8>>>,
    /// Pairs with commas between.
    pairs: Vec<Vec<Vec<u8>>>,
}

fn around(open: &[u8], inner: &[Vec<u8>], close: &[u8]) -> Vec<Vec<u8>> {
    inner.iter().map(|inner| [open, inner, close].concat()).collect()
}

fn after(list: &[Vec<Vec<u8>>], length: usize, less: usize) -> &[Vec<u8>] {
    length.checked_sub(less).and_then(|at| list.get(at)).map_or(&[], |rows| rows)
}

impl Grammar {
    fn new() -> Self {
        let mut grammar = Grammar::default();
        for length in 0..=LONGEST {
            let mut containers = Vec::new();
            for (open, close) in [(b"[", b"]"), (b"(", b")")] {
                match length {
                    2 => containers.push([*open, *close].concat()),
                    3 => containers.push([&open[..], b",", close].concat()),
                    _ => {}
                }
                containers.extend(around(open, after(&grammar.items, length, 2), close));
                let comma = [b",", &close[..]].concat();
                containers.extend(around(open, after(&grammar.items, length, 3), &comma));
            }
            if length == 2 {
                containers.push(b"{}".to_vec());
            }
            containers.extend(around(b"{", after(&grammar.pairs, length, 2), b"}"));
            containers.extend(around(b"{", after(&grammar.pairs, length, 3), b",}"));

            let mut bare = containers.clone();
            if length == 1 {
                bare.extend([b"1".to_vec(), b"n".to_vec()]);
            }
            let mut values = bare.clone();
            values.extend(around(b"A(", after(&grammar.bare, length, 3), b")"));

            let mut items = values.clone();
            for first in 1..length {
                for row in &grammar.values[first] {
                    let open = [&row[..], b","].concat();
                    items.extend(around(&open, after(&grammar.items, length, first + 1), b""));
                }
            }
            let mut pairs = Vec::new();
            for key in [b"A:", b"w:", b"n:"] {
                pairs.extend(around(key, after(&grammar.values, length, 2), b""));
                for first in 1..length {
                    for row in &grammar.values[first] {
                        let open = [&key[..], row, b","].concat();
                        pairs.extend(around(&open, after(&grammar.pairs, length, first + 3), b""));
                    }
                }
            }
            grammar.containers.push(containers);
            grammar.bare.push(bare);
            grammar.values.push(values);
            grammar.items.push(items);
            grammar.pairs.push(pairs);
        }
        grammar
    }

    /// All roots.
    fn roots(&self) -> impl Iterator<Item = Vec<u8>> + '_ {
        let named = self.containers[..=LONGEST - 3].iter().flatten();
        let named = named.map(|row| [b"A(", &row[..], b")"].concat());
        self.containers.iter().flatten().cloned().chain(named)
    }
}

/// Writes a row of tokens with a space after each, no two words alike, and
/// gives where each starts.
fn written(row: &[u8]) -> (String, Vec<usize>) {
    let mut text = String::new();
    let mut starts = Vec::new();
    for (at, &token) in row.iter().enumerate() {
        starts.push(text.len());
        match token {
            b'A' => text.push_str(&format!("A{at}")),
            b'w' => text.push_str(&format!("w{at}")),
            b'n' => text.push_str("null"),
            other => text.push(char::from(other)),
        }
        text.push(' ');
    }
    (text, starts)
}

#[test]
fn seven_is_at_the_first_token_no_taken_text_could_have() {
    let grammar = Grammar::new();
    let mut beginnings = HashSet::new();
    let mut taken = HashSet::new();
    for root in grammar.roots() {
        for length in 0..=root.len().min(TRIED) {
            beginnings.insert(root[..length].to_vec());
        }
        if root.len() <= TRIED {
            taken.insert(root);
        }
    }
    let mut table = vec![0; 10 * second::ROW];
    let mut rows = vec![Vec::new()];
    let mut tried = 0;
    while let Some(row) = rows.pop() {
        let (text, starts) = written(&row);
        let fault = (1..=row.len()).find(|&length| !beginnings.contains(&row[..length]));
        let expected = match fault {
            Some(length) => Some((7, starts[length - 1] as u64)),
            None if taken.contains(&row) => None,
            None => Some((7, text.len() as u64)),
        };
        // `null` twice in one object is a doubled key, which is left apart.
        let answer = second::read(text.as_bytes(), &mut table).err();
        let answer = answer.map(|refusal| (refusal.number, refusal.place));
        assert_eq!(answer, expected, "{text}");
        tried += 1;
        if row.len() < TRIED {
            rows.extend(TOKENS.iter().map(|&token| [&row[..], &[token]].concat()));
        }
    }
    assert_eq!(tried, 1 + 12 + 144 + 1728 + 20736 + 248_832);
}
