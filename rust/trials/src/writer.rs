//! Writes random texts that document 01 takes, and notes while writing what
//! the table must hold: so both readers are also held against something that
//! never reads.

use std::collections::HashSet;

use crate::random::Random;
use crate::trees::Tree;

/// A row of the table.
pub type Row = [u32; 12];

/// A text that must be taken, its table's rows, and the strings in it.
#[derive(Debug, Clone, Default)]
pub struct Written {
    /// The text.
    pub text: Vec<u8>,
    /// The rows its reading must have.
    pub rows: Vec<Row>,
    /// Spans of string tokens and keys, each with its content.
    pub contents: Vec<(usize, usize, Vec<u8>)>,
}

/// A writer at work.
struct Writer<'r> {
    random: &'r mut Random,
    done: Written,
    /// About how many more nodes to write.
    budget: usize,
    /// How many containers may still be opened inside each other.
    room: usize,
    /// Whether the next exponent has thousands of leading zeros. That is so
    /// once in a text at the most, or it would soon be too long.
    many_zeros: bool,
    /// Whether all is as short as can be: no spaces, comments or identifiers,
    /// and every scalar is `0`.
    terse: bool,
    /// In a quoted string about one character in so many is escaped; how many is
    /// chosen for each, within both ends.
    escapes: (usize, usize),
}

impl<'r> Writer<'r> {
    fn new(random: &'r mut Random, budget: usize, room: usize) -> Self {
        let many_zeros = random.one_in(200);
        let done = Written::default();
        Writer { random, done, budget, room, many_zeros, terse: false, escapes: (1, 12) }
    }
}

/// Writes a text of about so many nodes, at most 32 deep.
pub fn write(random: &mut Random, nodes: usize) -> Written {
    let mut writer = Writer::new(random, nodes, 32);
    writer.gap();
    writer.value(None, (0, 0), true);
    writer.gap();
    if writer.random.one_in(20) {
        writer.put(b"// no line end");
    }
    writer.done
}

/// Writes one value of about so many nodes from its first byte to its last, for
/// replacements; `root`: one that can be the root.
pub fn write_value(random: &mut Random, nodes: usize, root: bool) -> Written {
    let mut writer = Writer::new(random, nodes, 32);
    writer.value(None, (0, 0), root);
    writer.done
}

/// Writes a text of this value, which must be a container; scalars may be any.
/// `terse`: as short as can be.
pub fn write_tree(random: &mut Random, tree: &Tree, terse: bool) -> Written {
    write_keys(random, tree, terse, (1, 12))
}

/// The same, with escapes so far apart in quoted strings.
pub fn write_keys(
    random: &mut Random,
    tree: &Tree,
    terse: bool,
    escapes: (usize, usize),
) -> Written {
    let mut writer = Writer::new(random, 0, 0);
    (writer.many_zeros, writer.terse, writer.escapes) = (false, terse, escapes);
    writer.gap();
    writer.tree(None, (0, 0), tree);
    writer.gap();
    writer.done
}

/// One string alone, for replacements and content calls.
pub fn write_string(random: &mut Random) -> (Vec<u8>, Vec<u8>) {
    let mut writer = Writer::new(random, 1, 32);
    let content = if writer.random.one_in(2) { writer.text_string() } else { writer.byte_string() };
    (writer.done.text, content)
}

impl Writer<'_> {
    fn at(&self) -> usize {
        self.done.text.len()
    }

    fn put(&mut self, bytes: &[u8]) {
        self.done.text.extend_from_slice(bytes);
    }

    /// Spaces and comments, or mostly nothing.
    fn gap(&mut self) {
        while !self.terse && self.random.one_in(4) {
            match self.random.below(10) {
                0 => self.put(b"/**/"),
                1 => self.put("/* \"[{(' é \0\x7F **/".as_bytes()),
                2 => self.put(b"/*/*/"),
                3 => self.put(b"// \"x' */\n"),
                4 => self.put("//é\r".as_bytes()),
                5 => self.put(b"\r\n"),
                6 => self.put(b"\t"),
                _ => self.put(b" "),
            }
        }
    }

    /// A value, with its node; `root`: a container, bare or identified.
    fn value(&mut self, parent: Option<usize>, key: (usize, usize), root: bool) {
        self.budget = self.budget.saturating_sub(1);
        self.node(parent, key, |writer, node| {
            let container =
                writer.room > 0 && (root || writer.budget > 0 && writer.random.one_in(3));
            if container {
                writer.container(node);
            } else {
                writer.scalar(node);
            }
        });
    }

    /// This value, with its nodes.
    fn tree(&mut self, parent: Option<usize>, key: (usize, usize), tree: &Tree) {
        self.node(parent, key, |writer, node| {
            let (kind, children) = match tree {
                Tree::Scalar => return writer.scalar(node),
                Tree::Null => {
                    writer.put(b"null");
                    return writer.note(node, 10, [0; 3]);
                }
                Tree::Integer(value) => {
                    let last = writer.spell_integer(*value);
                    return writer.note(node, 6, last);
                }
                Tree::Decimal { minus, digits, power } => {
                    let last = writer.spell_decimal(Some(*minus), *digits, *power);
                    return writer.note(node, 7, last);
                }
                Tree::Object(members) => {
                    (1, members.iter().map(|(key, value)| (Some(key), value)).collect())
                }
                Tree::Array(items) => (2, items.iter().map(|item| (None, item)).collect()),
                Tree::Tuple(items) => (3, items.iter().map(|item| (None, item)).collect()),
            };
            writer.branch(node, kind, children);
        });
    }

    /// A container of these children, each with its key if it has one.
    fn branch(&mut self, node: usize, kind: usize, children: Vec<(Option<&String>, &Tree)>) {
        let [open, close] = [*b"{}", *b"[]", *b"()"][kind - 1];
        self.put(&[open]);
        self.gap();
        for (number, (key, value)) in children.iter().enumerate() {
            if number > 0 {
                self.put(b",");
                self.gap();
            }
            let start = self.at();
            let mut span = (0, 0);
            if let Some(key) = key {
                self.spell(key.as_bytes(), is_word(key));
                span = (start, self.at());
                self.done.contents.push((start, span.1, key.as_bytes().to_vec()));
                self.gap();
                self.put(b":");
                self.gap();
            }
            self.tree(Some(node), span, value);
            self.gap();
        }
        if self.random.one_in(3) && (!children.is_empty() || kind != 1) {
            self.put(b",");
            self.gap();
        }
        self.put(&[close]);
        self.done.rows[node][0] = kind as u32;
        self.done.rows[node][9] = children.len() as u32;
    }

    /// A node, in an identifier now and then, and what is inside of that.
    fn node(
        &mut self,
        parent: Option<usize>,
        key: (usize, usize),
        inside: impl FnOnce(&mut Self, usize),
    ) {
        let node = self.done.rows.len();
        let start = self.at() as u32;
        let mut row = [0; 12];
        row[1] = parent.map_or(u32::MAX, |number| number as u32);
        row[2] = start;
        row[4] = key.0 as u32;
        row[5] = key.1 as u32;
        self.done.rows.push(row);
        let identified = !self.terse && self.random.one_in(6);
        if identified {
            let name = self.name();
            self.done.rows[node][6] = start;
            self.done.rows[node][7] = start + name.len() as u32;
            self.put(name.as_bytes());
            self.gap();
            self.put(b"(");
            self.gap();
        }
        inside(self, node);
        if identified {
            self.gap();
            self.put(b")");
        }
        self.done.rows[node][3] = self.at() as u32;
        self.done.rows[node][8] = self.done.rows.len() as u32;
    }

    fn container(&mut self, node: usize) {
        let kind = self.random.between(1, 3);
        let [open, close] = [*b"{}", *b"[]", *b"()"][kind - 1];
        self.room -= 1;
        self.put(&[open]);
        self.gap();
        let most = match self.random.below(8) {
            0 => 0,
            1 => self.budget,
            _ => self.budget.min(6),
        };
        let mut children = 0;
        let mut keys = HashSet::new();
        while children < most && self.budget > 0 {
            if children > 0 {
                self.gap();
                self.put(b",");
                self.gap();
            }
            let mut key = (0, 0);
            if kind == 1 {
                key = self.key(&mut keys);
                self.gap();
                self.put(b":");
                self.gap();
            }
            self.value(Some(node), key, false);
            children += 1;
        }
        self.gap();
        if self.random.one_in(3) && (children > 0 || kind != 1) {
            self.put(b",");
            self.gap();
        }
        self.put(&[close]);
        self.room += 1;
        self.done.rows[node][0] = kind as u32;
        self.done.rows[node][9] = children as u32;
    }

    fn scalar(&mut self, node: usize) {
        let start = self.at();
        if self.terse {
            self.put(b"0");
            self.done.rows[node][0] = 6;
            return;
        }
        let (kind, last) = match self.random.below(10) {
            0 => {
                self.put(b"false");
                (8, [0; 3])
            }
            1 => {
                self.put(b"true");
                (9, [0; 3])
            }
            2 => {
                self.put(b"null");
                (10, [0; 3])
            }
            3 | 4 => (6, self.integer()),
            5 | 6 => (7, self.decimal()),
            choice => {
                let content = if choice == 9 { self.byte_string() } else { self.text_string() };
                let end = self.at();
                let last = [start as u32, end as u32, content.len() as u32];
                self.done.contents.push((start, end, content));
                (if choice == 9 { 5 } else { 4 }, last)
            }
        };
        self.note(node, kind, last);
    }

    /// Notes the kind of a value and its last three words.
    fn note(&mut self, node: usize, kind: u32, last: [u32; 3]) {
        self.done.rows[node][0] = kind;
        self.done.rows[node][9..].copy_from_slice(&last);
    }

    fn name(&mut self) -> String {
        let mut name = char::from(b'A' + self.random.below(26) as u8).to_string();
        self.groups(&mut name);
        name
    }

    fn word(&mut self) -> String {
        let fixed =
            ["r", "b", "br", "b64", "true", "false", "null", "_1", "_a", "A", "height", "e5", "rb"];
        if self.random.one_in(3) {
            return self.random.pick(&fixed).to_string();
        }
        let mut word = String::new();
        if self.random.one_in(5) {
            word.push('_');
            word.push(self.random.pick(&["a", "Z", "0", "9"]).chars().next().unwrap_or('a'));
        } else {
            let base = if self.random.one_in(4) { b'A' } else { b'a' };
            word.push(char::from(base + self.random.below(26) as u8));
        }
        self.groups(&mut word);
        word
    }

    /// "any number of groups of at most one joiner and one letter or digit"
    fn groups(&mut self, word: &mut String) {
        for _ in 0..self.random.below(6) {
            match self.random.below(8) {
                0 => word.push('_'),
                1 => word.push('-'),
                _ => {}
            }
            let all = b"abcxyzrABZ0189";
            word.push(char::from(all[self.random.below(all.len())]));
        }
    }

    /// A key whose content isn't among these yet.
    fn key(&mut self, keys: &mut HashSet<Vec<u8>>) -> (usize, usize) {
        loop {
            let start = self.at();
            let content = if self.random.one_in(2) {
                let word = self.word();
                let content = word.into_bytes();
                self.spell(&content, true);
                content
            } else {
                self.text_string()
            };
            if keys.insert(content.clone()) {
                let end = self.at();
                self.done.contents.push((start, end, content));
                return (start, end);
            }
            self.done.text.truncate(start);
        }
    }

    /// A text string with its content.
    fn text_string(&mut self) -> Vec<u8> {
        let pieces = [
            "a",
            "b",
            "\"",
            "\\",
            "#",
            "\"#",
            "\"##",
            "\n",
            "\r",
            "\t",
            "\0",
            "\u{7F}",
            "\u{1B}",
            "\u{8}",
            "\u{C}",
            "é",
            "\u{80}",
            "\u{7FF}",
            "\u{800}",
            "\u{D7FF}",
            "\u{E000}",
            "\u{FFFF}",
            "\u{10000}",
            "\u{10FFFF}",
            "//",
            "/*",
            "'",
            "x",
            "u",
            "{",
            "height",
            " ",
            "\u{FEFF}",
            "=",
            "0",
        ];
        let mut content = String::new();
        for _ in 0..self.random.below(7) {
            content.push_str(self.random.pick(&pieces));
        }
        self.spell(content.as_bytes(), false);
        content.into_bytes()
    }

    /// Writes a text content in one of its spellings. `word`: it has the shape
    /// of a word and stands where one may.
    fn spell(&mut self, content: &[u8], word: bool) {
        let raw_allowed = !content.iter().any(|b| b.is_ascii_control() && *b != b'\n');
        match self.random.below(3) {
            0 if word => self.put(content),
            1 if raw_allowed => self.raw("r", content),
            _ => self.quoted("\"", content, true),
        }
    }

    /// A raw string with at least as many hashes as its content needs.
    fn raw(&mut self, prefix: &str, content: &[u8]) {
        let mut hashes = 0;
        for (at, &byte) in content.iter().enumerate() {
            if byte == b'"' {
                let run = content[at + 1..].iter().take_while(|&&b| b == b'#').count();
                hashes = hashes.max(run + 1);
            }
        }
        if self.random.one_in(3) {
            hashes += self.random.between(1, 3);
        }
        let hashes = "#".repeat(hashes);
        self.put(format!("{prefix}{hashes}\"").as_bytes());
        self.put(content);
        self.put(format!("\"{hashes}").as_bytes());
    }

    /// A quoted string; each character or byte is written as itself where it
    /// may, or by one of its escapes.
    fn quoted(&mut self, open: &str, content: &[u8], text: bool) {
        self.put(open.as_bytes());
        let mut rest = content;
        let (least, most) = self.escapes;
        let dense = self.random.between(least, most);
        while !rest.is_empty() {
            // The next whole character, if there is one.
            let whole = (1..=4.min(rest.len()))
                .find_map(|n| std::str::from_utf8(&rest[..n]).ok())
                .and_then(|s| s.chars().next());
            let Some(c) = whole else {
                debug_assert!(!text);
                self.hex_byte(rest[0]);
                rest = &rest[1..];
                continue;
            };
            let own = &rest[..c.len_utf8()];
            rest = &rest[c.len_utf8()..];
            let must = matches!(c, '"' | '\\' | '\u{7F}') || (c < ' ' && c != '\n');
            if !must && !self.random.one_in(dense) {
                self.put(own);
                continue;
            }
            let short = match c {
                '\0' => Some(b'0'),
                '\u{8}' => Some(b'b'),
                '\t' => Some(b't'),
                '\n' => Some(b'n'),
                '\u{C}' => Some(b'f'),
                '\r' => Some(b'r'),
                '"' => Some(b'"'),
                '\\' => Some(b'\\'),
                _ => None,
            };
            match (self.random.below(4), short) {
                (0, Some(letter)) => self.put(&[b'\\', letter]),
                (1, _) if (c as u32) < 0x10000 => {
                    let digits = self.hex(c as u32, 4);
                    self.put(format!("\\u{digits}").as_bytes());
                }
                (2, _) => {
                    let digits = self.hex(c as u32, 8);
                    self.put(format!("\\U{digits}").as_bytes());
                }
                _ => {
                    for &byte in own {
                        self.hex_byte(byte);
                    }
                }
            }
        }
        self.put(b"\"");
    }

    fn hex(&mut self, value: u32, width: usize) -> String {
        if self.random.one_in(2) {
            format!("{value:0width$x}")
        } else {
            format!("{value:0width$X}")
        }
    }

    fn hex_byte(&mut self, byte: u8) {
        let digits = self.hex(u32::from(byte), 2);
        self.put(format!("\\x{digits}").as_bytes());
    }

    /// A byte string with its content.
    fn byte_string(&mut self) -> Vec<u8> {
        let length = self.random.below(8);
        match self.random.below(3) {
            0 => {
                let mut content = Vec::new();
                for _ in 0..length {
                    content.push(self.random.next() as u8);
                }
                self.base64(&content);
                content
            }
            1 => {
                let mut content = Vec::new();
                let pieces: [&[u8]; 10] = [
                    b"a",
                    b"\"",
                    b"\\",
                    b"#",
                    b"\n",
                    b"\xFF",
                    b"\xC3",
                    "é".as_bytes(),
                    b"\0",
                    b"Z",
                ];
                for _ in 0..length {
                    content.extend_from_slice(self.random.pick(&pieces));
                }
                self.quoted("b\"", &content, false);
                content
            }
            _ => {
                let mut content = String::new();
                let pieces = ["a", "\"", "\\", "#", "\"#", "\n", "ツ", "\\x41", "\u{80}"];
                for _ in 0..length {
                    content.push_str(self.random.pick(&pieces));
                }
                self.raw("br", content.as_bytes());
                content.into_bytes()
            }
        }
    }

    fn base64(&mut self, content: &[u8]) {
        const DIGITS: &[u8; 64] =
            b"ABCDEFGHIJKLMNOPQRSTUVWXYZabcdefghijklmnopqrstuvwxyz0123456789+/";
        let mut written = Vec::new();
        for three in content.chunks(3) {
            let mut bits = 0u32;
            for at in 0..3 {
                bits = bits << 8 | u32::from(three.get(at).copied().unwrap_or(0));
            }
            for at in 0..=three.len() {
                written.push(DIGITS[(bits >> (18 - 6 * at) & 63) as usize]);
            }
        }
        let pads = self.random.between(0, (4 - written.len() % 4) % 4);
        written.resize(written.len() + pads, b'=');
        let spaced = self.random.one_in(3);
        self.put(b"b64\"");
        for byte in written {
            self.put(&[byte]);
            if spaced && self.random.one_in(3) {
                let space = self.random.pick::<[u8]>(&[b" ", b"\t", b"\n", b"\r"]);
                self.put(space);
            }
        }
        self.put(b"\"");
    }

    /// Digits with single underscores between some of them.
    fn grouped(&mut self, digits: &str) -> String {
        let often = self.random.between(1, 8);
        let mut written = String::new();
        for digit in digits.chars() {
            if !written.is_empty() && often < 4 && self.random.one_in(often + 1) {
                written.push('_');
            }
            written.push(digit);
        }
        written
    }

    fn integer(&mut self) -> [u32; 3] {
        let value = match self.random.below(6) {
            0 => i64::MIN,
            1 => i64::MAX,
            2 => 0,
            3 => self.random.below(100) as i64,
            4 => -(self.random.below(100_000) as i64),
            _ => self.random.next() as i64 >> self.random.below(64),
        };
        self.spell_integer(value)
    }

    /// Writes an integer in one of its spellings, and gives its last words.
    fn spell_integer(&mut self, value: i64) -> [u32; 3] {
        let form = if value >= 0 { self.random.below(6) } else { 5 };
        let (prefix, digits) = match form {
            0 => ("0x", format!("{value:x}")),
            1 => ("0x", format!("{value:X}")),
            2 => ("0o", format!("{value:o}")),
            3 => ("0b", format!("{value:b}")),
            _ => ("", value.unsigned_abs().to_string()),
        };
        let mut written = prefix.to_string();
        if prefix.is_empty() {
            if value < 0 {
                written.push('-');
            } else if value == 0 {
                written.push_str(self.random.pick(&["", "-", "+"]));
            } else {
                written.push_str(self.random.pick(&["", "+"]));
            }
            written.push_str(&self.grouped(&digits));
        } else {
            let zeros = if self.random.one_in(3) { self.random.below(5) } else { 0 };
            written.push_str(&self.grouped(&("0".repeat(zeros) + &digits)));
        }
        self.put(written.as_bytes());
        [value as u32, (value as u64 >> 32) as u32, 0]
    }

    /// How many zeros are put before an exponent's digits.
    fn leading_zeros(&mut self) -> usize {
        if std::mem::take(&mut self.many_zeros) {
            return self.random.between(1_001, 30_000);
        }
        if self.random.one_in(3) {
            self.random.between(1, 4)
        } else {
            0
        }
    }

    fn decimal(&mut self) -> [u32; 3] {
        let m = match self.random.below(6) {
            0 => i64::MAX as u64,
            1 => 0,
            2 | 3 => self.random.below(100_000) as u64,
            _ => self.random.next() >> self.random.between(1, 63),
        };
        let p = match self.random.below(6) {
            0 => -400,
            1 => 400,
            2 => self.random.between(0, 800) as i64 - 400,
            _ => self.random.between(0, 12) as i64 - 9,
        };
        self.spell_decimal(None, m, p)
    }

    /// Writes the decimal of these digits and this power of ten in one of its
    /// spellings, with or without a minus, or by chance, and gives its last
    /// words.
    fn spell_decimal(&mut self, minus: Option<bool>, m: u64, p: i64) -> [u32; 3] {
        let fraction = match self.random.below(5) {
            0 => 0,
            1 if self.random.one_in(10) => self.random.below(700),
            _ => self.random.below(12),
        };
        let digits = format!("{m:0width$}", width = fraction + 1);
        let (whole, fraction_digits) = digits.split_at(digits.len() - fraction);
        let minus = minus.unwrap_or_else(|| self.random.one_in(3));
        let mut written = if minus { "-" } else { self.random.pick(&["", "", "+"]) }.to_string();
        written.push_str(&self.grouped(whole));
        if fraction > 0 {
            written.push('.');
            written.push_str(&self.grouped(fraction_digits));
        }
        let exponent = p + fraction as i64;
        if exponent != 0 || fraction == 0 || self.random.one_in(4) {
            written.push_str(self.random.pick(&["e", "E"]));
            if exponent < 0 {
                written.push('-');
            } else {
                written.push_str(self.random.pick(if exponent == 0 {
                    &["", "-", "+"]
                } else {
                    &["", "+"]
                }));
            }
            let digits = "0".repeat(self.leading_zeros()) + &exponent.unsigned_abs().to_string();
            written.push_str(&self.grouped(&digits));
        }
        self.put(written.as_bytes());
        let wide = m | u64::from(minus) << 63;
        [wide as u32, (wide >> 32) as u32, (p + 1000) as u32]
    }
}

/// "a letter, or `_` and a letter or digit; then any number of groups of at most
/// one joiner and one letter or digit"
fn is_word(key: &str) -> bool {
    let is_joiner = |byte: u8| byte == b'_' || byte == b'-';
    let bytes = key.as_bytes();
    let opens = match bytes {
        [b'_', next, ..] => next.is_ascii_alphanumeric(),
        [first, ..] => first.is_ascii_alphabetic(),
        [] => false,
    };
    opens
        && bytes.iter().all(|&byte| byte.is_ascii_alphanumeric() || is_joiner(byte))
        && bytes.windows(2).all(|two| !(is_joiner(two[0]) && is_joiner(two[1])))
        && bytes.last().is_some_and(|&last| !is_joiner(last))
}

/// An object in which some key comes again in another spelling, and the place
/// where refusal 8 must stand.
pub fn write_doubled(random: &mut Random) -> (Vec<u8>, usize) {
    let mut writer = Writer::new(random, 40, 4);
    writer.put(b"{");
    let mut keys = HashSet::new();
    for _ in 0..writer.random.between(1, 6) {
        writer.key(&mut keys);
        writer.put(b":");
        writer.value(Some(0), (0, 0), false);
        writer.put(b",");
    }
    // The outer keys are those kept in `keys`, whatever the values hold.
    let all: Vec<Vec<u8>> = {
        let mut all: Vec<_> = keys.into_iter().collect();
        all.sort();
        all
    };
    let again = &all[writer.random.below(all.len())];
    writer.gap();
    let place = writer.at();
    writer.spell(again, false);
    if writer.random.one_in(2) {
        writer.put(b":null}");
    }
    (writer.done.text, place)
}

#[cfg(test)]
mod tests {
    use super::is_word;
    use crate::check::{both, second_read};
    use crate::texts;
    use crate::zeros::Seen;

    #[test]
    fn words() {
        for word in ["a", "Z", "_1", "_a", "a-b", "a_1-Z", "height_mm", "r", "b64"] {
            assert!(is_word(word), "{word}");
        }
        for other in ["", "_", "-", "1", "-a", "a_", "a__b", "__a", "_-a", "a-", "a.b", "é", "a b"]
        {
            assert!(!is_word(other), "{other}");
        }
    }

    /// Numbers with thousands of leading zeros come up in valid texts.
    #[test]
    fn many_zeros_come_up() {
        let mut seen = Seen::default();
        let cases = (0..20_000).map(|number| texts::case(22, number));
        for case in cases.filter(|case| case.sort == "valid") {
            match both(&case, second_read) {
                Ok((answer, table)) => seen.count(&case.text, answer, &table),
                Err(what) => panic!("{what}\n{}", case.text.escape_ascii()),
            }
        }
        assert!(seen.thousand.taken > 5 && seen.ten_thousand.taken > 2, "{seen:?}");
        assert_eq!((seen.leading.too_wide, seen.leading.malformed), (0, 0), "{seen:?}");
        println!("{seen:?}");
    }
}
