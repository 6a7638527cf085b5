//! Document 02's request 07, "Comments must not touch data".
//!
//! "Take a text that reads, and insert spaces or whole UTF-8 comments right
//! before or after any token, a line comment with its line feed. If the new
//! text is at most 65,536 bytes, it reads with the same table size, and the
//! tables differ only in words 2 to 7 and, for strings and dates, 9 and 10."
//!
//! A [`Gap`] is what may be inserted, and [`edges`] are where. [`inserted`] is
//! the new text, and [`moved`] the table that it must then have. That table is
//! made from the old one and the insertions alone, without a look at either
//! text, so that a reading of the new text can be held against it.
//! [`outside_parent`] is for the request's last sentence.

use crate::{tokens, ROW};

/// What may be inserted at an edge, if it [is allowed](Gap::is_allowed).
#[derive(Debug, Clone, PartialEq, Eq)]
pub enum Gap {
    /// One space, by its byte.
    Space(u8),
    /// A line comment, by the bytes between its `//` and its line feed.
    Line(Vec<u8>),
    /// The same with 0D before the line feed, as some editors end a line.
    LineReturn(Vec<u8>),
    /// A block comment, by the bytes between its `/*` and its `*/`.
    Block(Vec<u8>),
}

impl Gap {
    /// The bytes that are inserted; "a line comment with its line feed".
    pub fn bytes(&self) -> Vec<u8> {
        match self {
            Gap::Space(byte) => vec![*byte],
            Gap::Line(body) => [b"//", &body[..], b"\n"].concat(),
            Gap::LineReturn(body) => [b"//", &body[..], b"\r\n"].concat(),
            Gap::Block(body) => [b"/*", &body[..], b"*/"].concat(),
        }
    }

    /// Whether it is a space of the class, "space (09, 0A, 0D, 20)", or a
    /// whole UTF-8 comment.
    ///
    /// A comment is whole if it ends behind its body. "`//` runs to before the
    /// next 0A or 0D", so its body holds neither; "`/*` runs to the first
    /// `*/` after it", so its body holds none. A body that only ends in `*`
    /// does no harm: the first `*/` is still the comment's own.
    pub fn is_allowed(&self) -> bool {
        let utf8 = |body| std::str::from_utf8(body).is_ok();
        match self {
            Gap::Space(byte) => matches!(byte, 0x09 | 0x0A | 0x0D | 0x20),
            Gap::Line(body) | Gap::LineReturn(body) => {
                utf8(body) && !body.iter().any(|byte| matches!(byte, 0x0A | 0x0D))
            }
            Gap::Block(body) => utf8(body) && !body.windows(2).any(|two| two == b"*/"),
        }
    }
}

/// A gap, and where in the old text it is inserted: right before the byte at
/// that place, or behind the last byte.
#[derive(Debug, Clone, PartialEq, Eq)]
pub struct Insertion {
    /// The place in the old text.
    pub place: usize,
    /// What is inserted there.
    pub gap: Gap,
}

/// The places "right before or after any token", in order and each once.
/// `None` if the text isn't tokens, spaces and comments to its end, as every
/// text that reads is.
///
/// Brackets and marks are tokens like any other. Where two tokens touch, one
/// place is behind the first and before the second. The text's own start and
/// end are such places only if a token starts or ends there: behind a last
/// line comment, for one, nothing may be inserted.
pub fn edges(text: &[u8]) -> Option<Vec<usize>> {
    let (tokens, fault) = tokens::cut(std::str::from_utf8(text).ok()?);
    if fault.is_some() {
        return None;
    }
    // Tokens come in order, so a place that comes twice does so in a row.
    let mut edges: Vec<usize> = tokens.iter().flat_map(|token| [token.start, token.end]).collect();
    edges.dedup();
    Some(edges)
}

/// The new text. `None` if the request doesn't speak of it, because a place is
/// no edge or a gap isn't allowed. It may be longer than a text that reads.
///
/// Places are those of the old text. Insertions may come in any order; those
/// at one place stand in the order of the list.
pub fn inserted(text: &[u8], insertions: &[Insertion]) -> Option<Vec<u8>> {
    let edges = edges(text)?;
    let allowed = |insertion: &Insertion| {
        edges.binary_search(&insertion.place).is_ok() && insertion.gap.is_allowed()
    };
    if !insertions.iter().all(allowed) {
        return None;
    }
    let mut ordered: Vec<&Insertion> = insertions.iter().collect();
    // This sort leaves those at one place in their order.
    ordered.sort_by_key(|insertion| insertion.place);
    let mut new = Vec::with_capacity(text.len());
    let mut copied = 0;
    for insertion in ordered {
        new.extend_from_slice(&text[copied..insertion.place]);
        new.extend_from_slice(&insertion.gap.bytes());
        copied = insertion.place;
    }
    new.extend_from_slice(&text[copied..]);
    Some(new)
}

/// The table that the new text must have, if it is at most 65,536 bytes: of
/// the old one's length, with so many nodes as that has.
///
/// "the tables differ only in words 2 to 7 and, for strings and dates, 9 and
/// 10": the spans of value, key and name, and that of a string's token. There
/// are no dates yet.
pub fn moved(table: &[u32], nodes: usize, insertions: &[Insertion]) -> Vec<u32> {
    let places = Places::new(insertions);
    // "Words after the last node are 0."
    let mut new = vec![0; table.len()];
    let rows = table.chunks_exact(ROW).zip(new.chunks_exact_mut(ROW));
    for (old, new) in rows.take(nodes) {
        new.copy_from_slice(old);
        let string = matches!(old[0], 4 | 5);
        let spans: &[usize] = if string { &[2, 4, 6, 9] } else { &[2, 4, 6] };
        for &word in spans {
            let [start, end] = places.span([old[word], old[word + 1]]);
            new[word] = start;
            new[word + 1] = end;
        }
    }
    new
}

/// Where the old text's bytes stand in the new one.
struct Places {
    /// For each insertion, by place: that place, and how many bytes are
    /// inserted there or further to the front, its own included.
    totals: Vec<(usize, u32)>,
}

impl Places {
    fn new(insertions: &[Insertion]) -> Self {
        let length = |gap: &Gap| gap.bytes().len() as u32;
        let mut totals: Vec<(usize, u32)> =
            insertions.iter().map(|insertion| (insertion.place, length(&insertion.gap))).collect();
        totals.sort_by_key(|&(place, _)| place);
        let mut total = 0;
        for (_, length) in &mut totals {
            total += *length;
            *length = total;
        }
        Places { totals }
    }

    /// "Each changed place is the old one plus the bytes inserted before the
    /// byte it names": what is inserted at its own place stands before it too.
    fn byte(&self, place: u32) -> u32 {
        let count = self.totals.partition_point(|&(at, _)| at <= place as usize);
        let before = if count == 0 { 0 } else { self.totals[count - 1].1 };
        // No sum of a right table wraps; a wrong one may hold any word.
        place.wrapping_add(before)
    }

    /// "an end moves with the last byte of its span. 0, 0 for a missing key or
    /// name stays 0, 0." An end of 0 is that of no other span, since there is
    /// no byte before it.
    fn span(&self, [start, end]: [u32; 2]) -> [u32; 2] {
        match end.checked_sub(1) {
            Some(last) => [self.byte(start), self.byte(last).wrapping_add(1)],
            None => [start, end],
        }
    }
}

/// "every node's span lies inside its parent's": the first node whose span,
/// words 2 and 3, doesn't, or runs backwards, or whose parent isn't an earlier
/// node of this table. The root has no parent.
pub fn outside_parent(table: &[u32], nodes: usize) -> Option<usize> {
    let rows: Vec<&[u32]> = table.chunks_exact(ROW).take(nodes).collect();
    (1..rows.len()).find(|&node| {
        let row = rows[node];
        // "nodes in order of their first byte": a parent comes before its child.
        let parent = rows[..node].get(row[1] as usize);
        !parent.is_some_and(|parent| parent[2] <= row[2] && row[2] <= row[3] && row[3] <= parent[3])
    })
}
