//! Document 02's request 09, "Ask by path".
//!
//! "Staff want `balls.3.height_mm`. A path is bytes, steps separated by `.`;
//! the empty path is the root. In an object a step is the content of a key. In
//! an array or tuple it is a decimal index from 0 without leading zeros."
//!
//! So each child of a node has a name, which no other of them has: the content
//! of its key, or its index as it is written in decimal. A step goes to the
//! child of that very name. No step is ever made a number, and so none is too
//! long for one, and no other spelling of an index is one.
//!
//! A node is a value with its identifier, if any; names and children are the
//! same with one as without.

use crate::{read, tokens, Refusal, ROW};

/// Reads a text into the lent table and follows a path in it.
///
/// "The call reads the text into the lent table itself, then answers the
/// node's number, or 23 and the number of the first step, from 0, that has no
/// child to go to." A text that doesn't read is refused as [`read`] refuses it,
/// with the table all zeros; else the table is the text's reading, after 23 as
/// well.
pub fn find(text: &[u8], table: &mut [u32], path: &[u8]) -> Result<usize, Refusal> {
    let nodes = read(text, table)?;
    let rows: Vec<&[u32]> = table.chunks_exact(ROW).take(nodes).collect();
    // "the root being 0"
    let mut node = 0;
    // "Following a path takes one step off it each time."
    for (number, step) in steps(path).enumerate() {
        node = child(text, &rows, node, step).ok_or(Refusal::new(23, number))?;
    }
    Ok(node)
}

/// "A path is bytes, steps separated by `.`; the empty path is the root": it
/// has no step. In any other a step stands before, between and behind the
/// separators, and may be empty.
fn steps(path: &[u8]) -> impl Iterator<Item = &[u8]> {
    let stepped = if path.is_empty() { None } else { Some(path) };
    stepped.into_iter().flat_map(|path| path.split(|&byte| byte == b'.'))
}

/// The child that a step goes to. A value that is no container has none.
fn child(text: &[u8], rows: &[&[u32]], parent: usize, step: &[u8]) -> Option<usize> {
    match rows[parent][0] {
        // "In an object a step is the content of a key." No two are equal.
        1 => children(rows, parent).find(|&node| is_key(text, rows[node], step)),
        // "In an array or tuple it is a decimal index from 0"
        2 | 3 => (0..)
            .zip(children(rows, parent))
            .find(|&(index, _)| is_index(index, step))
            .map(|(_, node)| node),
        _ => None,
    }
}

/// The nodes with this "parent's number", which is word 1. They are in order,
/// as all nodes are: "in order of their first byte".
fn children<'r>(rows: &'r [&[u32]], parent: usize) -> impl Iterator<Item = usize> + 'r {
    (0..rows.len()).filter(move |&node| rows[node][1] as usize == parent)
}

/// Whether the step is "the content of a key": of this node's, whose "span of
/// the key token" is words 4 and 5.
fn is_key(text: &[u8], row: &[u32], step: &[u8]) -> bool {
    let key = &text[row[4] as usize..row[5] as usize];
    tokens::only_content(key).is_some_and(|content| *content == *step)
}

/// Whether the step is this index in decimal, "without leading zeros", as Rust
/// writes every number.
fn is_index(index: usize, step: &[u8]) -> bool {
    index.to_string().as_bytes() == step
}
