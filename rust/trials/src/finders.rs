//! Finders that are wrong in one way each. The cases must tell each of them from
//! the right one, by what is known from their making and by `second`.

use second::ROW;

use crate::check::{second_read, Answer};
use crate::finding::{by_known, by_second, call, known, second_find, trial};
use crate::finding::{Finder, OnTrial, Seen};
use crate::paths;
use crate::random::Random;
use crate::wrong;

/// A reading, as a finder sees it.
pub(crate) struct View<'t> {
    pub(crate) text: &'t [u8],
    pub(crate) rows: Vec<&'t [u32]>,
}

impl View<'_> {
    pub(crate) fn children(&self, node: usize) -> Vec<usize> {
        let is_child = |&other: &usize| self.rows[other][1] as usize == node;
        (node + 1..self.rows[node][8] as usize).filter(is_child).collect()
    }

    pub(crate) fn key_as_written(&self, node: usize) -> &[u8] {
        &self.text[self.rows[node][4] as usize..self.rows[node][5] as usize]
    }

    pub(crate) fn key(&self, node: usize) -> Vec<u8> {
        let [start, end] = [self.rows[node][4], self.rows[node][5]];
        content(self.text, start.into(), end.into())
    }

    pub(crate) fn name(&self, node: usize) -> &[u8] {
        &self.text[self.rows[node][6] as usize..self.rows[node][7] as usize]
    }

    fn is_tuple(&self, node: usize) -> bool {
        self.rows[node][0] == 3
    }

    /// The child with this index.
    fn item(&self, node: usize, index: usize) -> Option<usize> {
        self.children(node).get(index).copied()
    }

    /// The first child of which this holds.
    pub(crate) fn first(&self, node: usize, is_it: impl Fn(usize) -> bool) -> Option<usize> {
        self.children(node).into_iter().find(|&child| is_it(child))
    }
}

pub(crate) fn content(text: &[u8], start: u64, end: u64) -> Vec<u8> {
    let mut out = vec![0; text.len()];
    let length = second::content(text, start, end, &mut out).unwrap_or(0);
    out.truncate(length);
    out
}

/// Cuts a path into steps.
type Steps = fn(&[u8]) -> Vec<Vec<u8>>;

/// The child that a step leads to.
type Child = fn(&View, usize, &[u8]) -> Option<usize>;

/// How a finder ends, given the steps, the nodes that they led to from the root
/// on, and the reading.
type End = fn(&[Vec<u8>], &[usize], &View) -> Answer;

/// What a finder goes by.
#[derive(Clone, Copy)]
struct Rules {
    steps: Steps,
    /// A child of an object.
    member: Child,
    /// A child of an array or a tuple.
    item: Child,
    /// A child of any other value.
    scalar: Child,
}

const RIGHT: Rules = Rules { steps, member, item, scalar: |_, _, _| None };

const fn steps_by(steps: Steps) -> Rules {
    Rules { steps, ..RIGHT }
}

const fn members_by(member: Child) -> Rules {
    Rules { member, ..RIGHT }
}

const fn items_by(item: Child) -> Rules {
    Rules { item, ..RIGHT }
}

const fn scalars_by(scalar: Child) -> Rules {
    Rules { scalar, ..RIGHT }
}

fn steps(path: &[u8]) -> Vec<Vec<u8>> {
    if path.is_empty() {
        return Vec::new();
    }
    pieces(path)
}

fn pieces(path: &[u8]) -> Vec<Vec<u8>> {
    path.split(|&byte| byte == b'.').map(<[u8]>::to_vec).collect()
}

/// Cuts another path in place of this one.
fn cut(path: &[u8], otherwise: Option<&[u8]>) -> Vec<Vec<u8>> {
    steps(otherwise.unwrap_or(path))
}

/// The steps as they are, each with a change to it.
fn each(path: &[u8], change: fn(&[u8]) -> Vec<u8>) -> Vec<Vec<u8>> {
    steps(path).iter().map(|step| change(step)).collect()
}

fn member(view: &View, node: usize, step: &[u8]) -> Option<usize> {
    view.first(node, |child| view.key(child) == step)
}

fn item(view: &View, node: usize, step: &[u8]) -> Option<usize> {
    view.item(node, index(step)?)
}

fn is_number(step: &[u8]) -> bool {
    !step.is_empty() && step.iter().all(u8::is_ascii_digit)
}

fn index(step: &[u8]) -> Option<usize> {
    let is_index = is_number(step) && (step[0] != b'0' || step.len() == 1);
    is_index.then(|| value(step))
}

/// Digits, with leading zeros or not; the greatest number if that is too
/// wide.
fn value(digits: &[u8]) -> usize {
    let digits = std::str::from_utf8(digits).unwrap().trim_start_matches('0');
    if digits.is_empty() {
        0
    } else {
        digits.parse().unwrap_or(usize::MAX)
    }
}

/// What is left of digits in so many bits.
fn wrapped(step: &[u8], bits: u32) -> usize {
    let add =
        |sum: u128, digit: &u8| (sum * 10 + u128::from(digit.wrapping_sub(b'0'))) % (1u128 << bits);
    step.iter().fold(0, add) as usize
}

/// The item at the index that is kept in so many bits.
fn kept(view: &View, node: usize, step: &[u8], bits: u32) -> Option<usize> {
    index(step)?;
    view.item(node, wrapped(step, bits))
}

/// The item at the index that is left of a step.
fn left(view: &View, node: usize, step: Option<&[u8]>) -> Option<usize> {
    view.item(node, index(step?)?)
}

/// The finder that goes by these rules and ends so.
fn by(text: &[u8], table: &mut [u32], path: &[u8], rules: &Rules, end: End) -> Answer {
    let nodes = second_read(text, table)?;
    let view = View { text, rows: table.chunks_exact(ROW).take(nodes).collect() };
    let steps = (rules.steps)(path);
    let mut way = vec![0];
    for step in &steps {
        let node = way[way.len() - 1];
        let child = match view.rows[node][0] {
            1 => rules.member,
            2 | 3 => rules.item,
            _ => rules.scalar,
        };
        match child(&view, node, step) {
            Some(child) => way.push(child),
            None => break,
        }
    }
    end(&steps, &way, &view)
}

/// "the node's number, or 23 and the number of the first step, from 0, that
/// has no child to go to"
fn end(steps: &[Vec<u8>], way: &[usize], _: &View) -> Answer {
    match way.len() - 1 {
        taken if taken == steps.len() => Ok(way[taken]),
        taken => Err((23, taken as u64)),
    }
}

/// Finders that have a rule wrong in one way each.
const RULES: &[(&str, Rules)] = &[
    // Steps.
    ("the empty path has an empty step", steps_by(pieces)),
    ("a dot alone is the root", steps_by(|path| cut(path, (path == b".").then_some(b"")))),
    (
        "a dot alone is one step",
        steps_by(|path| if path == b"." { vec![Vec::new()] } else { steps(path) }),
    ),
    ("the last dot is dropped", steps_by(|path| cut(path, path.strip_suffix(b".")))),
    ("the first dot is dropped", steps_by(|path| cut(path, path.strip_prefix(b".")))),
    (
        "empty steps are passed over",
        steps_by(|path| steps(path).into_iter().filter(|step| !step.is_empty()).collect()),
    ),
    (
        "a doubled dot is one",
        steps_by(|path| {
            let mut path = path.to_vec();
            path.dedup_by(|one, other| *one == b'.' && *other == b'.');
            steps(&path)
        }),
    ),
    (
        "the last step is dropped",
        steps_by(|path| {
            let mut steps = steps(path);
            steps.pop();
            steps
        }),
    ),
    (
        "a slash separates too",
        steps_by(|path| match path {
            [] => Vec::new(),
            _ => path.split(|byte| b"./".contains(byte)).map(<[u8]>::to_vec).collect(),
        }),
    ),
    (
        "a backslash keeps a dot",
        steps_by(|path| {
            let mut kept: Vec<Vec<u8>> = Vec::new();
            for step in steps(path) {
                match kept.last_mut().filter(|last| last.ends_with(b"\\")) {
                    Some(last) => {
                        last.pop();
                        last.push(b'.');
                        last.extend(step);
                    }
                    None => kept.push(step),
                }
            }
            kept
        }),
    ),
    ("a NUL ends the path", steps_by(|path| cut(path, path.split(|&byte| byte == 0).next()))),
    ("32 steps at the most", steps_by(|path| steps(path).into_iter().take(32).collect())),
    ("31 steps at the most", steps_by(|path| steps(path).into_iter().take(31).collect())),
    (
        "spaces around a step are dropped",
        steps_by(|path| each(path, |step| step.trim_ascii().to_vec())),
    ),
    (
        "quotes around a step are dropped",
        steps_by(|path| {
            each(path, |step| {
                let inner = step.strip_prefix(b"\"").and_then(|step| step.strip_suffix(b"\""));
                inner.unwrap_or(step).to_vec()
            })
        }),
    ),
    (
        "a step's escapes are read",
        steps_by(|path| {
            each(path, |step| {
                let quoted = [b"\"", step, b"\""].concat();
                match content(&quoted, 0, quoted.len() as u64) {
                    content if content.is_empty() => step.to_vec(),
                    content => content,
                }
            })
        }),
    ),
    (
        "a step that isn't UTF-8 is empty",
        steps_by(|path| {
            each(path, |step| {
                let is_text = std::str::from_utf8(step).is_ok();
                if is_text {
                    step.to_vec()
                } else {
                    Vec::new()
                }
            })
        }),
    ),
    // Arrays and tuples.
    (
        "leading zeros are allowed",
        items_by(|view, node, step| is_number(step).then(|| view.item(node, value(step)))?),
    ),
    (
        "one leading zero is allowed",
        items_by(|view, node, step| {
            let bare = step.strip_prefix(b"0").filter(|bare| !bare.is_empty());
            left(view, node, Some(bare.unwrap_or(step)))
        }),
    ),
    (
        "zeros alone are 0",
        items_by(|view, node, step| {
            let is_zero = !step.is_empty() && step.iter().all(|&byte| byte == b'0');
            left(view, node, Some(if is_zero { b"0" } else { step }))
        }),
    ),
    (
        "a plus is allowed",
        items_by(|view, node, step| {
            left(view, node, Some(step.strip_prefix(b"+").unwrap_or(step)))
        }),
    ),
    (
        "-0 is 0",
        items_by(|view, node, step| {
            left(view, node, Some(if step == b"-0" { b"0" } else { step }))
        }),
    ),
    (
        "a minus counts from the end",
        items_by(|view, node, step| match step.strip_prefix(b"-") {
            Some(bare) => {
                let behind = index(bare).filter(|&behind| behind > 0)?;
                view.item(node, view.children(node).len().checked_sub(behind)?)
            }
            None => item(view, node, step),
        }),
    ),
    (
        "underscores between digits are allowed",
        items_by(|view, node, step| {
            let is_between = step.split(|&byte| byte == b'_').all(is_number);
            let bare: Vec<u8> = step.iter().copied().filter(|&byte| byte != b'_').collect();
            left(view, node, is_between.then_some(&bare))
        }),
    ),
    (
        "an empty step is 0",
        items_by(|view, node, step| {
            left(view, node, Some(if step.is_empty() { b"0" } else { step }))
        }),
    ),
    (
        "another byte ends the index",
        items_by(|view, node, step| {
            let digits = step.iter().take_while(|byte| byte.is_ascii_digit()).count();
            left(view, node, Some(&step[..digits]))
        }),
    ),
    (
        "bytes behind the digits are digits",
        items_by(|view, node, step| {
            let is_index = step.first().is_some_and(|&first| first > b'0') || step == b"0";
            let is_index = is_index && step.iter().all(|&byte| byte >= b'0');
            is_index.then(|| view.item(node, wrapped(step, 64)))?
        }),
    ),
    (
        "a slash is a digit",
        items_by(|view, node, step| match step.strip_suffix(b"/") {
            Some(tens) => view.item(node, index(tens)?.checked_mul(10)?.checked_sub(1)?),
            None => item(view, node, step),
        }),
    ),
    (
        "other digits are allowed",
        items_by(|view, node, step| {
            let digit = |c: char| match c as u32 {
                0x30..=0x39 => Some(c as u8),
                0x660..=0x669 => Some(b'0' + (c as u32 - 0x660) as u8),
                0xFF10..=0xFF19 => Some(b'0' + (c as u32 - 0xFF10) as u8),
                _ => None,
            };
            let text = std::str::from_utf8(step).ok()?;
            let digits: Option<Vec<u8>> = text.chars().map(digit).collect();
            left(view, node, digits.as_deref())
        }),
    ),
    (
        "hexadecimal is allowed",
        items_by(|view, node, step| {
            left(view, node, Some(step.strip_prefix(b"0x").unwrap_or(step)))
        }),
    ),
    (
        "an index is any whole decimal",
        items_by(|view, node, step| {
            let number = std::str::from_utf8(step).ok()?.parse::<f64>().ok()?;
            let is_whole = number.fract() == 0.0 && number >= 0.0;
            is_whole.then(|| view.item(node, number as usize))?
        }),
    ),
    (
        "one digit only",
        items_by(|view, node, step| left(view, node, (step.len() == 1).then_some(step))),
    ),
    (
        "two digits at the most",
        items_by(|view, node, step| left(view, node, (step.len() <= 2).then_some(step))),
    ),
    (
        "three digits at the most",
        items_by(|view, node, step| left(view, node, (step.len() <= 3).then_some(step))),
    ),
    ("kept in 8 bits", items_by(|view, node, step| kept(view, node, step, 8))),
    ("kept in 16 bits", items_by(|view, node, step| kept(view, node, step, 16))),
    ("kept in 31 bits", items_by(|view, node, step| kept(view, node, step, 31))),
    ("kept in 32 bits", items_by(|view, node, step| kept(view, node, step, 32))),
    ("kept in 63 bits", items_by(|view, node, step| kept(view, node, step, 63))),
    ("kept in 64 bits", items_by(|view, node, step| kept(view, node, step, 64))),
    (
        "past the end is the last",
        items_by(|view, node, step| {
            view.item(node, index(step)?.min(view.children(node).len().checked_sub(1)?))
        }),
    ),
    (
        "past the end is the first",
        items_by(|view, node, step| {
            view.item(node, index(step)?.checked_rem(view.children(node).len())?)
        }),
    ),
    (
        "one past the end is the next node",
        items_by(|view, node, step| {
            let next = view.rows[node][8] as usize;
            let is_next = index(step)? == view.children(node).len();
            let next = Some(next).filter(|&next| is_next && next < view.rows.len());
            item(view, node, step).or(next)
        }),
    ),
    (
        "an index counts all that is inside",
        items_by(|view, node, step| {
            let inside = node.checked_add(1)?.checked_add(index(step)?)?;
            (inside < view.rows[node][8] as usize).then_some(inside)
        }),
    ),
    (
        "an index counts from 1",
        items_by(|view, node, step| view.item(node, index(step)?.checked_sub(1)?)),
    ),
    (
        "an index counts from 1 in tuples",
        items_by(|view, node, step| {
            let from = usize::from(view.is_tuple(node));
            view.item(node, index(step)?.checked_sub(from)?)
        }),
    ),
    (
        "tuples aren't followed",
        items_by(|view, node, step| item(view, node, step).filter(|_| !view.is_tuple(node))),
    ),
    (
        "arrays aren't followed",
        items_by(|view, node, step| item(view, node, step).filter(|_| view.is_tuple(node))),
    ),
    (
        "the last item isn't there",
        items_by(|view, node, step| {
            let is_last = |child: &usize| Some(child) == view.children(node).last();
            item(view, node, step).filter(|child| !is_last(child))
        }),
    ),
    (
        "an array's only item needs no index",
        items_by(|view, node, step| {
            let only = view.children(node).len() == 1;
            item(view, node, step).or_else(|| view.item(node, 0).filter(|_| only))
        }),
    ),
    // Objects.
    (
        "keys are compared as written",
        members_by(|view, node, step| view.first(node, |child| view.key_as_written(child) == step)),
    ),
    (
        "a key as written will do too",
        members_by(|view, node, step| {
            let written = || view.first(node, |child| view.key_as_written(child) == step);
            member(view, node, step).or_else(written)
        }),
    ),
    (
        "keys are compared between their quotes",
        members_by(|view, node, step| {
            view.first(node, |child| {
                let written = view.key_as_written(child);
                let inner = written.strip_prefix(b"\"").and_then(|key| key.strip_suffix(b"\""));
                inner.map_or(view.key(child) == step, |inner| inner == step)
            })
        }),
    ),
    (
        "raw keys are compared as written",
        members_by(|view, node, step| {
            view.first(node, |child| match view.key_as_written(child) {
                written @ [b'r', b'#' | b'"', ..] => written == step,
                _ => view.key(child) == step,
            })
        }),
    ),
    (
        "a key's front will do",
        members_by(|view, node, step| {
            let front = || view.first(node, |child| view.key(child).starts_with(step));
            member(view, node, step).or_else(front)
        }),
    ),
    (
        "a key's end will do",
        members_by(|view, node, step| {
            let end = || view.first(node, |child| view.key(child).ends_with(step));
            member(view, node, step).or_else(end)
        }),
    ),
    (
        "a step may go on behind the key",
        members_by(|view, node, step| {
            let front = || view.first(node, |child| step.starts_with(&view.key(child)));
            member(view, node, step).or_else(front)
        }),
    ),
    (
        "capitals are small letters",
        members_by(|view, node, step| {
            let same = |child: usize| view.key(child).eq_ignore_ascii_case(step);
            member(view, node, step).or_else(|| view.first(node, same))
        }),
    ),
    (
        "the first byte of a key isn't compared",
        members_by(|view, node, step| {
            let same = |child: usize| {
                let key = view.key(child);
                key.len() == step.len() && key.get(1..) == step.get(1..)
            };
            member(view, node, step).or_else(|| view.first(node, same))
        }),
    ),
    (
        "the last byte of a key isn't compared",
        members_by(|view, node, step| {
            let same = |child: usize| {
                let key = view.key(child);
                let front = key.len().saturating_sub(1);
                key.len() == step.len() && key[..front] == step[..front]
            };
            member(view, node, step).or_else(|| view.first(node, same))
        }),
    ),
    (
        "the first 64 bytes of a key are compared",
        members_by(|view, node, step| {
            let front = |bytes: &[u8]| bytes[..bytes.len().min(64)].to_vec();
            let same = |child: usize| front(&view.key(child)) == front(step);
            member(view, node, step).or_else(|| view.first(node, same))
        }),
    ),
    (
        "a NUL ends a key",
        members_by(|view, node, step| {
            let front = |bytes: &[u8]| {
                let end = bytes.iter().position(|&byte| byte == 0);
                bytes[..end.unwrap_or(bytes.len())].to_vec()
            };
            let same = |child: usize| front(&view.key(child)) == front(step);
            member(view, node, step).or_else(|| view.first(node, same))
        }),
    ),
    (
        "keys of one length are equal",
        members_by(|view, node, step| {
            let same = |child: usize| view.key(child).len() == step.len();
            member(view, node, step).or_else(|| view.first(node, same))
        }),
    ),
    (
        "an empty key isn't found",
        members_by(|view, node, step| member(view, node, step).filter(|_| !step.is_empty())),
    ),
    (
        "a key of over 255 bytes isn't found",
        members_by(|view, node, step| member(view, node, step).filter(|_| step.len() <= 255)),
    ),
    (
        "the last member isn't there",
        members_by(|view, node, step| {
            let is_last = |child: &usize| Some(child) == view.children(node).last();
            member(view, node, step).filter(|child| !is_last(child))
        }),
    ),
    (
        "an index will do in an object",
        members_by(|view, node, step| member(view, node, step).or_else(|| item(view, node, step))),
    ),
    (
        "a key that is an index is one",
        members_by(|view, node, step| match index(step) {
            Some(index) => view.item(node, index),
            None => member(view, node, step),
        }),
    ),
    (
        "an identifier's name is a key",
        members_by(|view, node, step| {
            let same = |child: usize| !step.is_empty() && view.name(child) == step;
            member(view, node, step).or_else(|| view.first(node, same))
        }),
    ),
    (
        "the object's own name is a step",
        members_by(|view, node, step| {
            let own = !step.is_empty() && view.name(node) == step;
            member(view, node, step).or(own.then_some(node))
        }),
    ),
    (
        "an object in an identifier isn't followed",
        members_by(|view, node, step| {
            member(view, node, step).filter(|_| view.name(node).is_empty())
        }),
    ),
    (
        "an array in an identifier isn't followed",
        items_by(|view, node, step| item(view, node, step).filter(|_| view.name(node).is_empty())),
    ),
    (
        "a member in an identifier isn't found",
        members_by(|view, node, step| {
            member(view, node, step).filter(|&child| view.name(child).is_empty())
        }),
    ),
    (
        "members of members are members",
        members_by(|view, node, step| {
            let mut inside = node + 1..view.rows[node][8] as usize;
            member(view, node, step).or_else(|| {
                inside.find(|&other| view.rows[other][5] > 0 && view.key(other) == step)
            })
        }),
    ),
    (
        "an outer object's key is found",
        members_by(|view, node, step| {
            let outer = view.rows[node][1] as usize;
            let is_object = view.rows.get(outer).is_some_and(|row| row[0] == 1);
            let outer = || is_object.then(|| member(view, outer, step))?;
            member(view, node, step).or_else(outer)
        }),
    ),
    // Other values.
    ("a scalar leads to itself", scalars_by(|_, node, _| Some(node))),
    (
        "a null leads to itself",
        scalars_by(|view, node, _| (view.rows[node][0] == 10).then_some(node)),
    ),
    (
        "an empty step leads from a scalar to itself",
        scalars_by(|_, node, step| step.is_empty().then_some(node)),
    ),
    ("0 leads from a scalar to itself", scalars_by(|_, node, step| (step == b"0").then_some(node))),
    (
        "an empty step leads from an array to itself",
        items_by(|view, node, step| item(view, node, step).or(step.is_empty().then_some(node))),
    ),
    (
        "an empty step leads from an object to itself",
        members_by(|view, node, step| member(view, node, step).or(step.is_empty().then_some(node))),
    ),
];

/// Finders that end in a wrong way each.
const ENDS: &[(&str, End)] = &[
    ("steps are counted from 1", |steps, way, view| {
        end(steps, way, view).map_err(|(number, step)| (number, step + 1))
    }),
    ("the last step that has a child", |steps, way, view| {
        end(steps, way, view).map_err(|(number, step)| (number, step.saturating_sub(1)))
    }),
    ("steps are counted from the end", |steps, way, view| {
        let last = steps.len() as u64;
        end(steps, way, view).map_err(|(number, step)| (number, last - 1 - step))
    }),
    ("the count of all steps", |steps, way, view| {
        end(steps, way, view).map_err(|(number, _)| (number, steps.len() as u64))
    }),
    ("no step is told", |steps, way, view| {
        end(steps, way, view).map_err(|(number, _)| (number, 0))
    }),
    ("the step's place in the path is told", |steps, way, view| {
        end(steps, way, view).map_err(|(number, step)| {
            let before: usize = steps[..step as usize].iter().map(|step| step.len() + 1).sum();
            (number, before as u64)
        })
    }),
    ("the node before the step is told", |steps, way, view| {
        let node = way[way.len() - 1] as u64;
        end(steps, way, view).map_err(|(number, _)| (number, node))
    }),
    ("12 in place of 23", |steps, way, view| end(steps, way, view).map_err(|(_, step)| (12, step))),
    ("as far as there are children", |_, way, _| Ok(way[way.len() - 1])),
    ("the root in place of 23", |steps, way, view| end(steps, way, view).or(Ok(0))),
    ("nodes are counted from 1", |steps, way, view| end(steps, way, view).map(|node| node + 1)),
    ("the parent is answered", |steps, way, view| {
        end(steps, way, view).map(|_| way[way.len().saturating_sub(2)])
    }),
    ("the index is answered", |steps, way, view| {
        end(steps, way, view).map(|node| {
            let parent = way[way.len().saturating_sub(2)];
            view.children(parent).iter().position(|&child| child == node).unwrap_or(0)
        })
    }),
    ("the place in the text is answered", |steps, way, view| {
        end(steps, way, view).map(|node| view.rows[node][2] as usize)
    }),
    ("the count of steps is answered", |steps, way, view| {
        end(steps, way, view).map(|_| steps.len())
    }),
];

/// Finders that are wrong about the table, the reading or the whole path.
const CALLS: &[(&str, Finder)] = &[
    ("a key with a dot is reached", |text, table, path| {
        let answer = second_find(text, table, path);
        let nodes = second_read(text, table)?;
        let view = View { text, rows: table.chunks_exact(ROW).take(nodes).collect() };
        // One of the root's.
        let is_path = |child: usize| path.contains(&b'.') && view.key(child) == path;
        let dotted = view.first(0, is_path).filter(|_| view.rows[0][0] == 1);
        dotted.map_or(answer, Ok)
    }),
    ("the table is zeros after 23", |text, table, path| {
        let answer = second_find(text, table, path);
        if answer.is_err() {
            table.fill(0);
        }
        answer
    }),
    ("the table is left alone after 23", |text, table, path| {
        let before = table.to_vec();
        let answer = second_find(text, table, path);
        if answer.is_err_and(|(number, _)| number == 23) {
            table.copy_from_slice(&before);
        }
        answer
    }),
    ("the table is left alone after a refusal of the text", |text, table, path| {
        let before = table.to_vec();
        let answer = second_find(text, table, path);
        if answer.is_err_and(|(number, _)| number != 23) {
            table.copy_from_slice(&before);
        }
        answer
    }),
    ("the last word is left alone", |text, table, path| {
        let last = table.last().copied();
        let answer = second_find(text, table, path);
        if let (Some(word), Some(last)) = (table.last_mut(), last) {
            *word = last;
        }
        answer
    }),
    ("rows behind the node aren't written", |text, table, path| {
        let answer = second_find(text, table, path);
        if let Ok(node) = answer {
            table[(node + 1) * ROW..].fill(0);
        }
        answer
    }),
    ("the empty path needs no reading", |text, table, path| {
        if path.is_empty() {
            return Ok(0);
        }
        second_find(text, table, path)
    }),
    ("the empty path is the root of any text", |text, table, path| {
        let answer = second_find(text, table, path);
        answer.or_else(|refusal| if path.is_empty() { Ok(0) } else { Err(refusal) })
    }),
    ("23 goes before the reading's refusal", |text, table, path| {
        let answer = second_find(text, table, path);
        answer.map_err(|(number, place)| match number {
            1..=10 if !path.is_empty() => (23, 0),
            _ => (number, place),
        })
    }),
    ("a refusal's place is lost", |text, table, path| {
        let answer = second_find(text, table, path);
        answer.map_err(|(number, place)| (number, if number == 23 { place } else { 0 }))
    }),
    ("a table that is too small will do up to the node", |text, table, path| {
        let answer = second_find(text, table, path);
        let mut roomy = vec![0; ROW * second::MAX_NODES];
        match (answer, second_find(text, &mut roomy, path)) {
            (Err((10, _)), Ok(node)) if node < table.len() / ROW => Ok(node),
            _ => answer,
        }
    }),
    ("a table of its own", |text, table, path| {
        let mut roomy = vec![0; ROW * second::MAX_NODES];
        let answer = second_find(text, &mut roomy, path);
        let _ = second_read(text, table);
        answer
    }),
    ("a long path is refused with 1", |text, table, path| {
        let answer = second_find(text, table, path);
        answer.map_err(|refusal| if path.len() > 65_536 { (1, 65_536) } else { refusal })
    }),
    ("a path that isn't UTF-8 is refused with 2", |text, table, path| {
        let answer = second_find(text, table, path);
        match (answer, std::str::from_utf8(path)) {
            (Ok(_) | Err((23, _)), Err(error)) => Err((2, error.valid_up_to() as u64)),
            _ => answer,
        }
    }),
    ("a path of over 32 steps is 23 at 32", |text, table, path| {
        let answer = second_find(text, table, path);
        match answer {
            Err((23, _)) if steps(path).len() > 32 => Err((23, 32)),
            _ => answer,
        }
    }),
];

/// How many texts a wrong finder is tried on.
const TEXTS: u64 = 4_000;

/// A wrong finder is seen by what is known from the making alone, and by what
/// `second` answers.
fn is_seen(name: &str, finder: impl Fn(&[u8], &mut [u32], &[u8]) -> Answer) {
    wrong::is_seen(name, TEXTS, |number| {
        let case = paths::case(&mut Random::for_case(21, number)).unwrap();
        let [mut by_making, mut by_other] = [false; 2];
        for asked in &case.asked {
            let ours = call(&case, asked, &finder);
            let known = known(&case, asked);
            by_making |= known.is_making && by_known(asked, &known, &ours).is_err();
            by_other |= by_second(&ours, &call(&case, asked, second_find)).is_err();
        }
        [by_making, by_other]
    });
}

/// What the wrong finders are made of is right.
#[test]
fn the_right_rules_show_no_difference() {
    for number in 0..1_000 {
        let random = &mut Random::for_case(22, number);
        let right =
            |text: &[u8], table: &mut [u32], path: &[u8]| by(text, table, path, &RIGHT, end);
        if let Err(what) = trial(random, OnTrial::only(right), &mut Seen::default()) {
            panic!("path {number}: {what}");
        }
    }
}

#[test]
fn wrong_rules_are_seen() {
    for (name, rules) in RULES {
        is_seen(name, |text, table, path| by(text, table, path, rules, end));
    }
}

#[test]
fn wrong_ends_are_seen() {
    for (name, end) in ENDS {
        is_seen(name, |text, table, path| by(text, table, path, &RIGHT, *end));
    }
}

#[test]
fn wrong_calls_are_seen() {
    for (name, finder) in CALLS {
        is_seen(name, finder);
    }
}
