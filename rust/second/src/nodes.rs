//! One pass over the token list, with an explicit stack, into an arena of
//! nodes.

use std::borrow::Cow;
use std::collections::HashSet;

use crate::numbers::Number;
use crate::tokens::{Token, What};
use crate::ROW;

/// Word 1 of the root.
const NO_PARENT: u32 = 4_294_967_295;

/// What the whole text must be.
#[derive(Debug, Clone, Copy, PartialEq, Eq)]
pub(crate) enum Entry {
    /// "Root: object, array or tuple, bare or in one identifier."
    Root,
    /// Any value; for a replacement.
    AnyValue,
}

/// The three kinds of container; the numbers are word 0's.
#[derive(Debug, Clone, Copy, PartialEq, Eq)]
enum Container {
    Object = 1,
    Array = 2,
    Tuple = 3,
}

impl Container {
    fn closing(self) -> u8 {
        match self {
            Container::Object => b'}',
            Container::Array => b']',
            Container::Tuple => b')',
        }
    }
}

/// Something open: a container, or an identifier up to its closing bracket.
#[derive(Debug, Clone, Copy)]
enum Open {
    Container(Container, usize),
    Identifier(usize),
}

/// Which tokens may come next.
#[derive(Debug, Clone, Copy, PartialEq, Eq)]
enum Next {
    /// The outermost value.
    Outermost,
    /// After an identifier's name: its `(`.
    Bracket,
    /// After that: "one value without an identifier".
    Identified,
    /// After that: its `)`, "with no comma inside".
    ClosingBracket,
    /// After `{`, or a comma in an object: a key or the end. So "`{,}` is
    /// refused" and "one trailing comma allowed".
    KeyOrEnd,
    /// After a key.
    Colon,
    /// After a colon.
    Value,
    /// After `[` or `(`: a value, the end, or a comma, as "`[,]` and `(,)` are
    /// empty".
    ItemCommaOrEnd,
    /// After a comma that follows an item.
    ItemOrEnd,
    /// After a comma that follows no item.
    End,
    /// After an item or a pair.
    CommaOrEnd,
    /// After the outermost value.
    Nothing,
}

/// A node, with the fields of document 01's table in its order. Places fit 32
/// bits since a text has at most 65,536 bytes.
#[derive(Debug, Clone, Default)]
struct Node {
    kind: u32,
    parent: u32,
    /// Start and end of the value, "its identifier and bracket included".
    value: [u32; 2],
    key: [u32; 2],
    name: [u32; 2],
    /// "number of the first node after this one's descendants"
    after: u32,
    /// Words 9, 10 and 11.
    last: [u32; 3],
}

/// The nodes so far and what is open.
pub(crate) struct Arena<'t> {
    /// How many nodes there may be.
    limit: usize,
    /// How many containers may be open at once.
    deepest: usize,
    entry: Entry,
    nodes: Vec<Node>,
    open: Vec<Open>,
    /// How many of `open` are containers.
    depth: usize,
    next: Next,
    /// The key token that the next value belongs to.
    key: [u32; 2],
    /// Every key so far, by its object's number and its content: "Two keys of
    /// one object are equal when their contents are equal bytes."
    keys: HashSet<(usize, Cow<'t, [u8]>)>,
}

impl<'t> Arena<'t> {
    pub fn new(limit: usize, deepest: usize, entry: Entry) -> Self {
        Arena {
            limit,
            deepest,
            entry,
            nodes: Vec::new(),
            open: Vec::new(),
            depth: 0,
            next: Next::Outermost,
            key: [0, 0],
            keys: HashSet::new(),
        }
    }

    pub fn len(&self) -> usize {
        self.nodes.len()
    }

    /// Whether the outermost value has ended.
    pub fn is_whole(&self) -> bool {
        self.next == Next::Nothing
    }

    /// Whether the outermost value runs from the first byte to the last.
    pub fn covers(&self, length: usize) -> bool {
        self.nodes.first().is_some_and(|node| node.value == [0, length as u32])
    }

    /// Takes one more token; the error is its refusal number, 7 to 10, the
    /// smallest that applies.
    ///
    /// "7 is at the first token that no taken text could have there, limits
    /// and doubled keys apart": so it is judged by [`Next`] alone.
    pub fn take(&mut self, token: &Token<'t>, text: &'t str) -> Result<(), u32> {
        let mark = match token.what {
            What::Mark(mark) => Some(mark),
            _ => None,
        };
        match self.next {
            Next::Outermost => self.value(token, true, self.entry == Entry::AnyValue),
            Next::Value => self.value(token, true, true),
            Next::ItemCommaOrEnd if mark == Some(b',') => {
                self.next = Next::End;
                Ok(())
            }
            Next::ItemCommaOrEnd | Next::ItemOrEnd => match self.closed_by(mark) {
                Some(node) => self.close(node, token.end),
                None => self.value(token, true, true),
            },
            Next::End => {
                let node = self.closed_by(mark).ok_or(7u32)?;
                self.close(node, token.end)
            }
            Next::CommaOrEnd if mark == Some(b',') => {
                self.next = match self.open.last() {
                    Some(Open::Container(Container::Object, _)) => Next::KeyOrEnd,
                    _ => Next::ItemOrEnd,
                };
                Ok(())
            }
            Next::CommaOrEnd => {
                let node = self.closed_by(mark).ok_or(7u32)?;
                self.close(node, token.end)
            }
            Next::KeyOrEnd => match self.closed_by(mark) {
                Some(node) => self.close(node, token.end),
                None => self.key(token, text),
            },
            Next::Colon if mark == Some(b':') => {
                self.next = Next::Value;
                Ok(())
            }
            Next::Bracket if mark == Some(b'(') => {
                self.next = Next::Identified;
                Ok(())
            }
            Next::Identified => {
                // The outermost value's identifier stands alone in `open`.
                let any = self.open.len() > 1 || self.entry == Entry::AnyValue;
                self.value(token, false, any)
            }
            Next::ClosingBracket if mark == Some(b')') => match self.open.pop() {
                Some(Open::Identifier(node)) => {
                    self.end_value(node, token.end);
                    Ok(())
                }
                _ => Err(7),
            },
            Next::Colon | Next::Bracket | Next::ClosingBracket | Next::Nothing => Err(7),
        }
    }

    /// The number of the innermost open container, if this mark closes it.
    fn closed_by(&self, mark: Option<u8>) -> Option<usize> {
        match *self.open.last()? {
            Open::Container(container, node) if mark == Some(container.closing()) => Some(node),
            _ => None,
        }
    }

    /// "A key is any word of the shape, or a text string." Then 8: "key
    /// already in this object", at the "second key's start".
    fn key(&mut self, token: &Token<'t>, text: &'t str) -> Result<(), u32> {
        let Some(&Open::Container(_, object)) = self.open.last() else {
            return Err(7);
        };
        if !token.what.is_key() {
            return Err(7);
        }
        let content = match &token.what {
            What::Text(content) => content.clone(),
            _ => Cow::Borrowed(&text.as_bytes()[token.start..token.end]),
        };
        if !self.keys.insert((object, content)) {
            return Err(8);
        }
        self.key = token.span();
        self.next = Next::Colon;
        Ok(())
    }

    /// Takes a token that must open a value. `named`: it may open with an
    /// identifier. `any`: it may be other than a container.
    fn value(&mut self, token: &Token<'t>, named: bool, any: bool) -> Result<(), u32> {
        let (kind, last) = match &token.what {
            What::Mark(b'{') => return self.container(Container::Object, token),
            What::Mark(b'[') => return self.container(Container::Array, token),
            What::Mark(b'(') => return self.container(Container::Tuple, token),
            What::Name if named => {
                let node = self.add(token.start)?;
                self.nodes[node].name = token.span();
                self.open.push(Open::Identifier(node));
                self.next = Next::Bracket;
                return Ok(());
            }
            _ if !any => return Err(7),
            What::Text(content) => (4, string(token, content)),
            What::Bytes(content) => (5, string(token, content)),
            What::Number(Number::Integer(value)) => {
                let [low, high] = halves(*value as u64);
                (6, [low, high, 0])
            }
            What::Number(Number::Decimal { minus, m, p }) => {
                let [low, high] = halves(*m | u64::from(*minus) << 63);
                (7, [low, high, (p + 1000) as u32])
            }
            What::False => (8, [0; 3]),
            What::True => (9, [0; 3]),
            What::Null => (10, [0; 3]),
            What::Mark(_) | What::Name | What::Word => return Err(7),
        };
        let node = self.opened(token.start)?;
        self.nodes[node].kind = kind;
        self.nodes[node].last = last;
        self.end_inner(node, token.end);
        Ok(())
    }

    /// Opens a container; 9, "too deep", at "the opening bracket", goes before
    /// 10.
    fn container(&mut self, container: Container, token: &Token<'t>) -> Result<(), u32> {
        if self.depth == self.deepest {
            return Err(9);
        }
        let node = self.opened(token.start)?;
        self.nodes[node].kind = container as u32;
        self.open.push(Open::Container(container, node));
        self.depth += 1;
        self.next = match container {
            Container::Object => Next::KeyOrEnd,
            Container::Array | Container::Tuple => Next::ItemCommaOrEnd,
        };
        Ok(())
    }

    /// Closes the innermost container, which is this node's.
    fn close(&mut self, node: usize, end: usize) -> Result<(), u32> {
        self.open.pop();
        self.depth -= 1;
        self.end_inner(node, end);
        Ok(())
    }

    /// The node of a value whose own first token, after any identifier, is
    /// here: the identifier's, or a new one.
    fn opened(&mut self, start: usize) -> Result<usize, u32> {
        match self.open.last() {
            Some(&Open::Identifier(node)) => Ok(node),
            _ => self.add(start),
        }
    }

    /// Adds a node for a value that opens here. 10: "a value opens, if only by
    /// an identifier, with no node left".
    fn add(&mut self, start: usize) -> Result<usize, u32> {
        let number = self.nodes.len();
        if number >= self.limit {
            return Err(10);
        }
        let parent = match self.open.last() {
            Some(&Open::Container(_, parent)) => {
                self.nodes[parent].last[0] += 1;
                parent as u32
            }
            _ => NO_PARENT,
        };
        let key = std::mem::take(&mut self.key);
        self.nodes.push(Node { parent, value: [start as u32, 0], key, ..Node::default() });
        Ok(number)
    }

    /// A value has ended, but for the bracket of its identifier, if any.
    fn end_inner(&mut self, node: usize, end: usize) {
        match self.open.last() {
            Some(Open::Identifier(_)) => self.next = Next::ClosingBracket,
            _ => self.end_value(node, end),
        }
    }

    /// A value has ended, "its identifier and bracket included".
    fn end_value(&mut self, node: usize, end: usize) {
        self.nodes[node].value[1] = end as u32;
        self.nodes[node].after = self.nodes.len() as u32;
        self.next = if self.open.is_empty() { Next::Nothing } else { Next::CommaOrEnd };
    }

    /// Writes every word of the table: the rows, then zeros. The table must
    /// have room for [`Arena::len`] rows.
    pub fn write(&self, table: &mut [u32]) {
        let (rows, rest) = table.split_at_mut(self.nodes.len() * ROW);
        for (row, node) in rows.chunks_exact_mut(ROW).zip(&self.nodes) {
            let Node { kind, parent, value, key, name, after, last } = node;
            row.copy_from_slice(&[
                *kind, *parent, value[0], value[1], key[0], key[1], name[0], name[1], *after,
                last[0], last[1], last[2],
            ]);
        }
        rest.fill(0);
    }
}

/// Words 9 to 11 of a string: "span of the string token" and "content length
/// in bytes".
fn string(token: &Token<'_>, content: &[u8]) -> [u32; 3] {
    let [start, end] = token.span();
    [start, end, content.len() as u32]
}

/// The low and the high half.
fn halves(wide: u64) -> [u32; 2] {
    [wide as u32, (wide >> 32) as u32]
}
