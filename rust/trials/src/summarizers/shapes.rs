//! Wrong about the shape of the root and its elements, or about the node that is
//! told of it.

use super::{is_array, shape, Shape};
use crate::finders::View;

/// The root, if it is no array, or its first element of which this holds.
fn told_if(view: &View, is_it: impl Fn(usize) -> bool) -> Option<usize> {
    if is_array(view) {
        view.first(0, is_it)
    } else {
        Some(0)
    }
}

/// The first element that has none of these kinds.
fn other_than(view: &View, kinds: &[u32]) -> Option<usize> {
    view.first(0, |element| !kinds.contains(&view.rows[element][0]))
}

/// What is told if elements of this kind will do as well.
fn also(view: &View, kind: u32) -> Option<usize> {
    told_if(view, |element| ![1, kind].contains(&view.rows[element][0]))
}

/// What is told if a root of this kind will do as well.
fn also_root(view: &View, kind: u32) -> Option<usize> {
    if view.rows[0][0] == kind {
        other_than(view, &[1])
    } else {
        shape(view)
    }
}

/// The index of an element.
fn index(view: &View, node: usize) -> Option<usize> {
    view.children(0).iter().position(|&element| element == node)
}

pub(super) const SHAPES: &[(&str, Shape)] = &[
    ("any root will do", |view| other_than(view, &[1])),
    ("a tuple will do for a root", |view| also_root(view, 3)),
    ("an object will do for a root", |view| also_root(view, 1)),
    ("a root in an identifier is refused", |view| {
        shape(view).or((!view.name(0).is_empty()).then_some(0))
    }),
    ("a root without elements is refused", |view| {
        shape(view).or((view.rows.len() == 1).then_some(0))
    }),
    ("elements aren't looked at", |view| told_if(view, |_| false)),
    ("the first element isn't looked at", |view| shape(view).filter(|&node| node != 1)),
    ("the last element isn't looked at", |view| {
        let last = view.children(0).last().copied();
        shape(view).filter(|&node| node == 0 || Some(node) != last)
    }),
    ("an array will do for a record", |view| also(view, 2)),
    ("a tuple will do for a record", |view| also(view, 3)),
    ("null will do for a record", |view| also(view, 10)),
    ("a record in an identifier is refused", |view| {
        told_if(view, |element| view.rows[element][0] != 1 || !view.name(element).is_empty())
    }),
    ("an empty record is refused", |view| {
        told_if(view, |element| view.rows[element][0] != 1 || view.rows[element][9] == 0)
    }),
    ("the element's index is told", |view| shape(view).map(|node| index(view, node).unwrap_or(0))),
    ("the element's index from 1 is told", |view| {
        shape(view).map(|node| index(view, node).map_or(0, |index| index + 1))
    }),
    ("the place in the text is told", |view| shape(view).map(|node| view.rows[node][2] as usize)),
    ("the root is told", |view| shape(view).map(|_| 0)),
    ("the first element is told", |view| shape(view).map(|node| node.min(1))),
    ("nodes are counted from 1", |view| shape(view).map(|node| node + 1)),
    ("the last such element is told", |view| {
        let mut elements = view.children(0).into_iter().rev();
        let last = elements.find(|&element| view.rows[element][0] != 1);
        shape(view).and_then(|node| if is_array(view) { last } else { Some(node) })
    }),
];
