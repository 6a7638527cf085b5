//! A node: a view of one row of the table.

use std::ops::Range;

use crate::ROW;

/// The ten kinds of value; the numbers are word 0's.
#[derive(Debug, Clone, Copy, PartialEq, Eq, Hash)]
pub enum Kind {
    /// `{ }`
    Object = 1,
    /// `[ ]`
    Array = 2,
    /// `( )`
    Tuple = 3,
    /// A text string.
    Text = 4,
    /// A byte string.
    Bytes = 5,
    /// A signed 64-bit integer.
    Integer = 6,
    /// A number with a fraction or an exponent.
    Decimal = 7,
    /// `false`
    False = 8,
    /// `true`
    True = 9,
    /// `null`, which is no number.
    Null = 10,
}

impl Kind {
    /// The kind with this number, if there is one.
    pub fn from_word(word: u32) -> Option<Kind> {
        Some(match word {
            1 => Kind::Object,
            2 => Kind::Array,
            3 => Kind::Tuple,
            4 => Kind::Text,
            5 => Kind::Bytes,
            6 => Kind::Integer,
            7 => Kind::Decimal,
            8 => Kind::False,
            9 => Kind::True,
            10 => Kind::Null,
            _ => return None,
        })
    }

    /// Whether this is an object, an array or a tuple.
    pub fn is_container(self) -> bool {
        matches!(self, Kind::Object | Kind::Array | Kind::Tuple)
    }
}

/// A decimal: `digits` times ten to the power of `power`, with its sign. `2.50`
/// has the digits 250 and the power -2, and `1e06` has 1 and 6: an exponent may
/// have leading zeros, as in JSON.
///
/// ```
/// use duper::{Decimal, Document};
///
/// let document = Document::read("[2.50, 1e06]")?;
/// let decimal = |node| document.node(node).and_then(|node| node.decimal());
/// assert_eq!(decimal(1), Some(Decimal { minus: false, digits: 250, power: -2 }));
/// assert_eq!(decimal(2), Some(Decimal { minus: false, digits: 1, power: 6 }));
/// # Ok::<(), duper::Refusal>(())
/// ```
#[derive(Debug, Clone, Copy, PartialEq, Eq, Hash)]
pub struct Decimal {
    /// Whether a minus was written, `-0.0` included.
    pub minus: bool,
    /// All its digits as one whole number, at most 9223372036854775807.
    pub digits: u64,
    /// The power of ten, from -400 to 400.
    pub power: i32,
}

/// What a node holds.
#[derive(Debug, Clone, PartialEq, Eq)]
pub enum Value {
    /// A container with so many children.
    Container {
        /// How many values stand directly in it.
        children: usize,
    },
    /// A text or byte string.
    String {
        /// The string token's span, identifier and bracket left out.
        token: Range<usize>,
        /// The content's length in bytes.
        length: usize,
    },
    /// An integer.
    Integer(i64),
    /// A decimal.
    Decimal(Decimal),
    /// `true` or `false`.
    Bool(bool),
    /// `null`.
    Null,
}

/// One node of a table.
///
/// It is a view: nothing is copied, and every accessor answers whatever the
/// words are.
#[derive(Debug, Clone, Copy, PartialEq, Eq)]
pub struct Node<'t> {
    number: usize,
    kind: Kind,
    row: &'t [u32; ROW],
}

impl<'t> Node<'t> {
    /// A view of the node with this number; `None` past the last node.
    pub fn of_table(table: &'t [u32], number: usize) -> Option<Node<'t>> {
        let start = number.checked_mul(ROW)?;
        let row = table.get(start..)?.first_chunk::<ROW>()?;
        Some(Node { number, kind: Kind::from_word(row[0])?, row })
    }

    fn range(&self, word: usize) -> Range<usize> {
        self.row[word] as usize..self.row[word + 1] as usize
    }

    fn range_unless_none(&self, word: usize) -> Option<Range<usize>> {
        Some(self.range(word)).filter(|range| *range != (0..0))
    }

    /// Its number; the root's is 0.
    pub fn number(&self) -> usize {
        self.number
    }

    /// Its kind.
    pub fn kind(&self) -> Kind {
        self.kind
    }

    /// Its parent's number; `None` for the root.
    pub fn parent(&self) -> Option<usize> {
        (self.row[1] != u32::MAX).then_some(self.row[1] as usize)
    }

    /// Where the value stands, its identifier and bracket included.
    pub fn span(&self) -> Range<usize> {
        self.range(2)
    }

    /// Where its key stands, if it is a member of an object.
    pub fn key_span(&self) -> Option<Range<usize>> {
        self.range_unless_none(4)
    }

    /// Where its identifier's name stands, if it has one.
    pub fn name_span(&self) -> Option<Range<usize>> {
        self.range_unless_none(6)
    }

    /// The number of the first node after this one's descendants.
    pub fn next(&self) -> usize {
        self.row[8] as usize
    }

    /// How many children a container has; `None` for other kinds.
    pub fn children(&self) -> Option<usize> {
        self.kind.is_container().then_some(self.row[9] as usize)
    }

    /// The span of the string token; `None` if this is no string.
    pub fn string_span(&self) -> Option<Range<usize>> {
        matches!(self.kind, Kind::Text | Kind::Bytes).then(|| self.range(9))
    }

    /// A string's content length in bytes; `None` if this is no string.
    pub fn content_length(&self) -> Option<usize> {
        matches!(self.kind, Kind::Text | Kind::Bytes).then_some(self.row[11] as usize)
    }

    /// The integer; `None` for every other kind, so for `null` too.
    pub fn integer(&self) -> Option<i64> {
        (self.kind == Kind::Integer).then_some(self.wide() as i64)
    }

    /// The decimal; `None` for every other kind.
    pub fn decimal(&self) -> Option<Decimal> {
        (self.kind == Kind::Decimal).then(|| Decimal {
            minus: self.wide() >> 63 == 1,
            digits: self.wide() & u64::MAX >> 1,
            power: (self.row[11] as i32).wrapping_sub(1000),
        })
    }

    /// The truth value; `None` for every other kind.
    pub fn bool(&self) -> Option<bool> {
        match self.kind {
            Kind::False => Some(false),
            Kind::True => Some(true),
            _ => None,
        }
    }

    /// Whether this is `null`.
    pub fn is_null(&self) -> bool {
        self.kind == Kind::Null
    }

    /// What it holds.
    pub fn value(&self) -> Value {
        match self.kind {
            Kind::Object | Kind::Array | Kind::Tuple => {
                Value::Container { children: self.row[9] as usize }
            }
            Kind::Text | Kind::Bytes => {
                Value::String { token: self.range(9), length: self.row[11] as usize }
            }
            Kind::Integer => Value::Integer(self.wide() as i64),
            Kind::Decimal => self.decimal().map_or(Value::Null, Value::Decimal),
            Kind::False => Value::Bool(false),
            Kind::True => Value::Bool(true),
            Kind::Null => Value::Null,
        }
    }

    fn wide(&self) -> u64 {
        u64::from(self.row[10]) << 32 | u64::from(self.row[9])
    }
}

/// The nodes of a table as [`crate::read`] left it, in order.
pub fn nodes(table: &[u32]) -> Nodes<'_> {
    Nodes { table, number: 0 }
}

/// Lists a table's nodes; see [`nodes`].
#[derive(Debug, Clone)]
pub struct Nodes<'t> {
    table: &'t [u32],
    number: usize,
}

impl<'t> Iterator for Nodes<'t> {
    type Item = Node<'t>;

    fn next(&mut self) -> Option<Node<'t>> {
        let node = Node::of_table(self.table, self.number)?;
        self.number += 1;
        Some(node)
    }
}

#[cfg(test)]
mod tests {
    use super::*;

    #[test]
    fn rows_are_viewed() {
        let mut table = [0; 3 * ROW + 5];
        // `[-0.5, A(-2)]`
        table[..ROW].copy_from_slice(&[2, u32::MAX, 0, 13, 0, 0, 0, 0, 3, 2, 0, 0]);
        table[ROW..2 * ROW].copy_from_slice(&[7, 0, 1, 5, 0, 0, 0, 0, 2, 5, 1 << 31, 999]);
        let minus_two = [6, 0, 7, 12, 0, 0, 7, 8, 3, u32::MAX - 1, u32::MAX, 0];
        table[2 * ROW..3 * ROW].copy_from_slice(&minus_two);
        let all: Vec<_> = nodes(&table).collect();
        assert_eq!(all.len(), 3);
        assert_eq!(
            (all[0].kind(), all[0].parent(), all[0].children()),
            (Kind::Array, None, Some(2))
        );
        assert_eq!(all[1].decimal(), Some(Decimal { minus: true, digits: 5, power: -1 }));
        assert_eq!(all[1].integer(), None);
        assert_eq!(all[2].integer(), Some(-2));
        assert_eq!(
            (all[2].span(), all[2].name_span(), all[2].key_span()),
            (7..12, Some(7..8), None)
        );
    }

    #[test]
    fn any_words_are_viewed() {
        for kind in 0..13 {
            for filler in [0, 1, 999, u32::MAX] {
                let mut row = [filler; ROW];
                row[0] = kind;
                assert_eq!(Node::of_table(&row, 0).is_some(), (1..=10).contains(&kind));
                for node in nodes(&row) {
                    node.value();
                    node.parent();
                    node.key_span();
                }
                assert_eq!(Node::of_table(&row, 1), None);
                assert_eq!(Node::of_table(&row, usize::MAX), None);
                assert_eq!(Node::of_table(&row[1..], 0), None);
            }
        }
    }
}
