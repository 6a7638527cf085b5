//! Comments on trial, which "must not touch data": the reader reads a text,
//! and that text with insertions. The new table is held against the one that
//! `second`'s rule makes of the old table.

use second::insertion::{inserted, moved, outside_parent, Gap, Insertion};
use second::{MAX_TEXT, ROW};

use crate::annotated::{annotated, Annotated};
use crate::check::{self, rubbish, second_read, Reader};
use crate::kind::Kind;
use crate::random::Random;
use crate::texts::{Case, Known};

/// What was compared, and what came up in it.
#[derive(Debug, Clone, Default, PartialEq, Eq)]
pub struct Seen {
    /// Texts, each read without and with its insertions.
    pub texts: u64,
    /// Texts without any insertion.
    pub bare: u64,
    /// New texts of over 65,536 bytes.
    pub over_long: u64,
    /// New texts of just that many.
    pub full: u64,
    /// Words of new tables that were held against the rule's; those of
    /// over-long texts, which are all 0, apart.
    pub words: u64,
    /// How many of these differ from the old table's.
    pub moved: u64,
    /// Insertions of spaces: 09, 0A, 0D and 20.
    pub spaces: [u64; 4],
    /// Insertions of line comments that end in a line feed.
    pub line: u64,
    /// Insertions of line comments that end in 0D and a line feed.
    pub line_return: u64,
    /// Insertions of block comments.
    pub block: u64,
    /// Insertions at a place that an earlier one in the list has too.
    pub again: u64,
    /// Nodes, by kind.
    pub kinds: [u64; 11],
    /// Nodes with a key.
    pub keyed: u64,
    /// Nodes with an identifier.
    pub named: u64,
}

impl Seen {
    /// All insertions.
    pub fn insertions(&self) -> u64 {
        self.spaces.iter().sum::<u64>() + self.line + self.line_return + self.block
    }

    fn count_insertions(&mut self, insertions: &[Insertion]) {
        let mut places = std::collections::HashSet::new();
        for Insertion { place, gap } in insertions {
            match gap {
                Gap::Space(0x09) => self.spaces[0] += 1,
                Gap::Space(0x0A) => self.spaces[1] += 1,
                Gap::Space(0x0D) => self.spaces[2] += 1,
                Gap::Space(_) => self.spaces[3] += 1,
                Gap::Line(_) => self.line += 1,
                Gap::LineReturn(_) => self.line_return += 1,
                Gap::Block(_) => self.block += 1,
            }
            self.again += u64::from(!places.insert(place));
        }
        self.bare += u64::from(insertions.is_empty());
    }

    fn count_words(&mut self, old: &[u32], new: &[u32], nodes: usize) {
        self.words += new.len() as u64;
        self.moved += old.iter().zip(new).filter(|(old, new)| old != new).count() as u64;
        for row in new.chunks_exact(ROW).take(nodes) {
            if let Some(kind) = self.kinds.get_mut(row[0] as usize) {
                *kind += 1;
            }
            self.keyed += u64::from(row[5] > 0);
            self.named += u64::from(row[7] > 0);
        }
    }
}

impl Kind for Seen {
    const PLURAL: &'static str = "insertions";
    const SINGULAR: &'static str = "insertion";
    const USUAL: u64 = 20_000;
    const TURN: u32 = 16;

    type OnTrial = Reader;
    const SECOND: Reader = second_read;
    #[cfg(feature = "against")]
    const DUPER: Reader = crate::against::duper_read;

    fn trial(&mut self, turned: u64, number: u64, reader: Reader) -> Result<(), String> {
        trial(&mut Random::for_case(turned, number), reader, self)
    }

    fn progress(&self) -> String {
        format!("texts with {} insertions", self.insertions())
    }

    fn compared(&self) -> String {
        format!(
            "texts with {} insertions, no difference in {} words, of which {} had moved",
            self.insertions(),
            self.words,
            self.moved
        )
    }

    fn details(&self) -> Vec<String> {
        let [tabs, feeds, returns, blanks] = self.spaces;
        vec![
            format!(
                "inserted: 09: {tabs}, 0A: {feeds}, 0D: {returns}, 20: {blanks}, \
                 line comments: {}, with 0D before the line feed: {}, block comments: {}; \
                 nothing: {} texts",
                self.line, self.line_return, self.block, self.bare
            ),
            format!(
                "new texts of over 65,536 bytes: {}, of just that many: {}",
                self.over_long, self.full
            ),
        ]
    }
}

/// Makes one text with its insertions and tries the reader on it; the error
/// tells the first difference, and all that is needed to see it again.
pub fn trial(random: &mut Random, reader: Reader, seen: &mut Seen) -> Result<(), String> {
    let annotated = annotated(random)?;
    hold(&annotated, reader, seen).map_err(|what| told(&annotated, &what))
}

/// Reads both texts and compares their tables.
fn hold(annotated: &Annotated, reader: Reader, seen: &mut Seen) -> Result<(), String> {
    let Annotated { old, insertions } = annotated;
    let text = inserted(&old.text, insertions).ok_or("no case: an insertion isn't allowed")?;
    let over_long = text.len() > MAX_TEXT;

    // Rubbish that differs, so that a word left alone by both readings shows.
    let mut old_table = rubbish(old.words);
    let mut new_table: Vec<u32> = old_table.iter().map(|word| word.rotate_left(9)).collect();
    let old_answer = reader(&old.text, &mut old_table);
    let new_answer = reader(&text, &mut new_table);

    let nodes = old_answer.map_err(|refusal| format!("the old text is refused: {refusal:?}"))?;
    // "If the new text is at most 65,536 bytes, it reads with the same table
    // size"; else 1 at 65536, and "A refused reading [...] leave[s] every table
    // word 0".
    let (expected_answer, expected) = if over_long {
        (Err((1, 65_536)), vec![0; old.words])
    } else {
        (Ok(nodes), moved(&old_table, nodes, insertions))
    };
    if new_answer != expected_answer {
        return Err(format!("the new text: expected {expected_answer:?}, read {new_answer:?}"));
    }
    let new_nodes = new_answer.unwrap_or(0);
    alike(&expected, &new_table, new_nodes)?;

    for (which, table, nodes) in [("old", &old_table, nodes), ("new", &new_table, new_nodes)] {
        if let Some(node) = outside_parent(table, nodes) {
            return Err(format!("the {which} text: the span of node {node} isn't in its parent's"));
        }
    }
    check::reading(old, old_answer, &old_table).map_err(|what| format!("the old text: {what}"))?;
    let known = if over_long { Known::Refused(1, 65_536) } else { Known::Nodes(nodes) };
    let new = Case { text, known, ..old.clone() };
    check::reading(&new, new_answer, &new_table).map_err(|what| format!("the new text: {what}"))?;

    seen.texts += 1;
    seen.count_insertions(insertions);
    if over_long {
        seen.over_long += 1;
    } else {
        seen.full += u64::from(new.text.len() == MAX_TEXT);
        seen.count_words(&old_table, &new_table, nodes);
    }
    Ok(())
}

/// Compares two tables whole.
fn alike(expected: &[u32], read: &[u32], nodes: usize) -> Result<(), String> {
    let Some(at) = (0..expected.len()).find(|&at| expected[at] != read[at]) else {
        return Ok(());
    };
    let (node, word) = (at / ROW, at % ROW);
    let which = if node < nodes {
        format!("word {word} of node {node}")
    } else {
        format!("word {at} of the table, after the last node")
    };
    Err(format!("{which}: expected {}, read {}", expected[at], read[at]))
}

/// How many insertions an error lists; a text can have tens of thousands, and
/// can be made again.
const LISTED: usize = 400;

/// Both texts, the insertions, and what is wrong.
fn told(annotated: &Annotated, what: &str) -> String {
    let Annotated { old, insertions } = annotated;
    let mut lines = vec![
        format!("table of {} words", old.words),
        format!("old text of {} bytes:\n{}", old.text.len(), old.text.escape_ascii()),
        format!("{} insertions:", insertions.len()),
    ];
    for Insertion { place, gap } in insertions.iter().take(LISTED) {
        lines.push(format!("  at {place}: {}", gap.bytes().escape_ascii()));
    }
    if insertions.len() > LISTED {
        lines.push(format!("  and {} more", insertions.len() - LISTED));
    }
    if let Some(text) = inserted(&old.text, insertions) {
        lines.push(format!("new text of {} bytes:\n{}", text.len(), text.escape_ascii()));
    }
    lines.push(what.to_string());
    lines.join("\n")
}

#[cfg(test)]
mod tests {
    use super::*;
    use crate::check::{second_read, Answer};

    #[test]
    fn second_keeps_the_rule() {
        let mut seen = Seen::default();
        for number in 0..600 {
            let random = &mut Random::for_case(13, number);
            if let Err(what) = trial(random, second_read, &mut seen) {
                panic!("insertion {number}: {what}");
            }
        }
        println!("{seen:#?}");
        let Seen { texts, bare, over_long, full, words, moved, spaces, line, block, .. } = seen;
        assert_eq!(texts, 600);
        let comments = [line, seen.line_return, block];
        assert!(comments.iter().all(|&count| count > 0), "{seen:?}");
        let came_up = [bare, over_long, full, words, moved, seen.again];
        assert!(came_up.iter().all(|&count| count > 0), "{seen:?}");
        assert!(spaces.iter().all(|&count| count > 0), "{seen:?}");
        // Every kind of node, and keys and names.
        assert_eq!(seen.kinds[0], 0);
        assert!(seen.kinds[1..].iter().all(|&count| count > 0), "{seen:?}");
        assert!(seen.keyed > 0 && seen.named > 0, "{seen:?}");
        // Most new texts are short enough for the rule to speak of them.
        assert!(over_long < 60, "{seen:?}");
    }

    /// The rule worked out another way: by writing the new text byte by byte,
    /// and noting where each byte of the old text comes to stand.
    #[test]
    fn the_rule_by_following_each_byte() {
        for number in 0..400 {
            let Annotated { old, insertions } =
                annotated(&mut Random::for_case(14, number)).unwrap();
            if insertions.len() > 2_000 {
                continue;
            }
            let mut text = Vec::new();
            let mut stands = Vec::new();
            for place in 0..=old.text.len() {
                for insertion in insertions.iter().filter(|insertion| insertion.place == place) {
                    text.extend(insertion.gap.bytes());
                }
                stands.push(text.len() as u32);
                text.extend(old.text.get(place));
            }
            assert_eq!(inserted(&old.text, &insertions), Some(text));
            let mut table = vec![0; old.words];
            let nodes = second::read(&old.text, &mut table).unwrap();
            let new = moved(&table, nodes, &insertions);
            for (at, (&word, &moved)) in table.iter().zip(&new).enumerate() {
                let row = &table[at / ROW * ROW..];
                let expected = match at % ROW {
                    _ if at >= nodes * ROW => 0,
                    4 | 5 if row[4..6] == [0, 0] => 0,
                    6 | 7 if row[6..8] == [0, 0] => 0,
                    2 | 4 | 6 => stands[word as usize],
                    3 | 5 | 7 => stands[word as usize - 1] + 1,
                    9 if is_string(row) => stands[word as usize],
                    10 if is_string(row) => stands[word as usize - 1] + 1,
                    _ => word,
                };
                assert_eq!(moved, expected, "insertion {number}, word {at}");
            }
        }
    }

    fn is_string(row: &[u32]) -> bool {
        matches!(row[0], 4 | 5)
    }

    fn is_space(byte: u8) -> bool {
        matches!(byte, b'\t' | b'\n' | b'\r' | b' ')
    }

    /// Takes the spaces right behind a span into it.
    fn behind(text: &[u8], end: &mut u32) {
        while text.get(*end as usize).is_some_and(|&byte| is_space(byte)) {
            *end += 1;
        }
    }

    /// Takes the spaces right before a span into it.
    fn before(text: &[u8], start: &mut u32) {
        while *start > 0 && is_space(text[*start as usize - 1]) {
            *start -= 1;
        }
    }

    /// How many spaces the text starts with.
    fn indent(text: &[u8]) -> u32 {
        text.iter().take_while(|&&byte| is_space(byte)).count() as u32
    }

    /// Reads as `second` does, then changes each node's row.
    fn changed(text: &[u8], table: &mut [u32], change: fn(&[u8], &mut [u32])) -> Answer {
        let answer = second_read(text, table);
        for row in table.chunks_exact_mut(ROW).take(answer.unwrap_or(0)) {
            change(text, row);
        }
        answer
    }

    fn refused(table: &mut [u32], number: u32, place: u64) -> Answer {
        table.fill(0);
        Err((number, place))
    }

    /// Readers that go wrong in one way each, and what the error then says.
    /// Those that take spaces into a span are right on a text that has none.
    #[test]
    fn differences_are_seen() {
        let readers: &[(&str, &str, Reader)] = &[
            ("a value's end moves with the byte behind it", "word 3 of", |text, table| {
                changed(text, table, |text, row| behind(text, &mut row[3]))
            }),
            ("a value's start stays behind", "word 2 of", |text, table| {
                changed(text, table, |text, row| before(text, &mut row[2]))
            }),
            ("a key's end moves with the byte behind it", "word 5 of", |text, table| {
                changed(text, table, |text, row| {
                    if row[5] > 0 {
                        behind(text, &mut row[5]);
                    }
                })
            }),
            ("a key's start stays behind", "word 4 of", |text, table| {
                changed(text, table, |text, row| before(text, &mut row[4]))
            }),
            ("a name's end moves with the byte behind it", "word 7 of", |text, table| {
                changed(text, table, |text, row| {
                    if row[7] > 0 {
                        behind(text, &mut row[7]);
                    }
                })
            }),
            ("a name's start stays behind", "word 6 of", |text, table| {
                changed(text, table, |text, row| before(text, &mut row[6]))
            }),
            ("a string's end moves with the byte behind it", "word 10 of", |text, table| {
                changed(text, table, |text, row| {
                    if is_string(row) {
                        behind(text, &mut row[10]);
                    }
                })
            }),
            ("a string's start stays behind", "word 9 of", |text, table| {
                changed(text, table, |text, row| {
                    if is_string(row) {
                        before(text, &mut row[9]);
                    }
                })
            }),
            ("an integer's words 9 and 10 move", "word 9 of", |text, table| {
                changed(text, table, |_, row| {
                    if row[0] == 6 {
                        (row[9], row[10]) = (row[2], row[3]);
                    }
                })
            }),
            ("a decimal's word 10 moves", "word 10 of", |text, table| {
                changed(text, table, |_, row| {
                    if row[0] == 7 {
                        row[10] = row[3];
                    }
                })
            }),
            ("a container's word 10 moves", "word 10 of", |text, table| {
                changed(text, table, |text, row| {
                    if row[0] <= 3 {
                        row[10] = indent(text);
                    }
                })
            }),
            ("a missing key moves", "word 4 of", |text, table| {
                changed(text, table, |text, row| {
                    if row[5] == 0 {
                        (row[4], row[5]) = (indent(text), indent(text));
                    }
                })
            }),
            ("a missing name moves", "word 6 of", |text, table| {
                changed(text, table, |text, row| {
                    if row[7] == 0 {
                        (row[6], row[7]) = (indent(text), indent(text));
                    }
                })
            }),
            ("word 11 counts the text's bytes", "word 11 of", |text, table| {
                changed(text, table, |text, row| {
                    if is_string(row) {
                        row[11] = text.len() as u32;
                    }
                })
            }),
            ("word 8 of the root moves", "word 8 of node 0", |text, table| {
                changed(text, table, |text, row| row[8] += indent(text))
            }),
            ("a word after the last node is left", "after the last node", |text, table| {
                let last = table.last().copied();
                let answer = second_read(text, table);
                if let (Ok(nodes), Some(last)) = (answer, last) {
                    table[nodes * ROW..]
                        .iter_mut()
                        .last()
                        .into_iter()
                        .for_each(|word| *word = last);
                }
                answer
            }),
            // These name the same byte in both texts, so that they move as they
            // should.
            ("the root starts in its first child", "isn't in its parent's", |text, table| {
                let answer = second_read(text, table);
                if answer.is_ok_and(|nodes| nodes > 1) {
                    table[2] = table[ROW + 3] - 1;
                }
                answer
            }),
            ("the root ends in its last descendant", "isn't in its parent's", |text, table| {
                let answer = second_read(text, table);
                if let Ok(nodes @ 2..) = answer {
                    table[3] = table[(nodes - 1) * ROW + 2] + 1;
                }
                answer
            }),
            ("a node more", "the new text: expected Ok", |text, table| {
                let answer = second_read(text, table);
                answer.map(|nodes| nodes + usize::from(text.first() == Some(&b' ')))
            }),
            ("a comment with a NUL is refused", "read Err((3", |text, table| {
                match text.iter().position(|&byte| byte == 0) {
                    Some(place) => refused(table, 3, place as u64),
                    None => second_read(text, table),
                }
            }),
            ("a text of 65,536 bytes is refused", "read Err((1", |text, table| {
                if text.len() == MAX_TEXT {
                    return refused(table, 1, 65_536);
                }
                second_read(text, table)
            }),
            ("a longer text is read in part", "expected Err((1", |text, table| {
                second_read(&text[..text.len().min(MAX_TEXT)], table)
            }),
            ("a longer text leaves a table", "after the last node", |text, table| {
                let answer = second_read(text, table);
                if text.len() > MAX_TEXT {
                    table.iter_mut().last().into_iter().for_each(|word| *word = 1);
                }
                answer
            }),
        ];
        for (name, sign, reader) in readers {
            let found = (0..800).any(|number| {
                let random = &mut Random::for_case(15, number);
                let outcome = trial(random, *reader, &mut Seen::default());
                outcome
                    .is_err_and(|what| what.lines().last().is_some_and(|line| line.contains(sign)))
            });
            assert!(found, "{name}");
        }
    }
}
