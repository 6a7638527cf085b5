//! Readers that have the rule on doubled keys wrong in one way each. The texts of
//! [`crate::keys`] must tell each of them from the right one, by what is known from
//! their making and by `second`. A wrong reader goes by the keys and the fault that
//! the making notes: so it is right in all else.

use std::collections::{HashMap, HashSet};

use crate::check::{reading, second_read, Answer};
use crate::keys::{keyed, Key, Keyed};
use crate::random::Random;
use crate::texts::Known;
use crate::wrong;

/// The keys that a reader says are doubled, in any order.
type Doubled = fn(&Keyed) -> Vec<u64>;

/// What a reader answers of these keys and the first other fault: a place and a
/// number.
type Choice = fn(&Keyed, Vec<u64>) -> Option<(u64, u32)>;

/// The keys that come again, if two are equal when this makes the same of them.
fn alike<F: Eq + std::hash::Hash>(keyed: &Keyed, form: impl Fn(&Key) -> F) -> Vec<u64> {
    let mut seen = HashSet::new();
    let again = |key: &Key| (!seen.insert((key.object, form(key)))).then_some(key.start as u64);
    keyed.keys.iter().filter_map(again).collect()
}

fn right(keyed: &Keyed) -> Vec<u64> {
    alike(keyed, |key| key.content.clone())
}

/// The right ones but for those of which this holds, given the first key of that
/// content as well.
fn but(keyed: &Keyed, is_lost: impl Fn(&Key, &Key) -> bool) -> Vec<u64> {
    let mut seen = HashMap::new();
    let mut doubled = Vec::new();
    for key in &keyed.keys {
        let first = *seen.entry((key.object, &key.content)).or_insert(key);
        if first != key && !is_lost(first, key) {
            doubled.push(key.start as u64);
        }
    }
    doubled
}

/// How many keys its object has before this one.
fn earlier(keyed: &Keyed, key: &Key) -> usize {
    let before = keyed.keys.iter().take_while(|other| other.start < key.start);
    before.filter(|other| other.object == key.object).count()
}

fn front(content: &[u8], most: usize) -> Vec<u8> {
    content[..content.len().min(most)].to_vec()
}

fn trimmed(content: &[u8]) -> Vec<u8> {
    let length = content.iter().rposition(|&byte| byte != 0).map_or(0, |last| last + 1);
    content[..length].to_vec()
}

/// Two contents are equal if their lengths agree in a byte, and the bytes as far
/// as the shorter one goes.
fn length_in_a_byte(keyed: &Keyed) -> Vec<u64> {
    let mut by_length: HashMap<_, Vec<&Key>> = HashMap::new();
    let mut doubled = Vec::new();
    for key in &keyed.keys {
        let earlier = by_length.entry((key.object, key.content.len() as u8)).or_default();
        let is_front = |other: &&Key| {
            other.content.starts_with(&key.content) || key.content.starts_with(&other.content)
        };
        if earlier.iter().any(is_front) {
            doubled.push(key.start as u64);
        }
        earlier.push(key);
    }
    doubled
}

/// The keys of the objects around count too.
fn outer_too(keyed: &Keyed) -> Vec<u64> {
    let mut seen = HashSet::new();
    let mut doubled = Vec::new();
    for key in &keyed.keys {
        let has = |object: &usize| seen.contains(&(*object, &key.content));
        if has(&key.object) || keyed.outer[&key.object].iter().any(has) {
            doubled.push(key.start as u64);
        }
        seen.insert((key.object, &key.content));
    }
    doubled
}

/// What an object around has already isn't looked at inside.
fn hidden_by_outer(keyed: &Keyed) -> Vec<u64> {
    let has = |object: usize, key: &Key| {
        let before = keyed.keys.iter().take_while(|other| other.start < key.start);
        before.filter(|other| other.object == object).any(|other| other.content == key.content)
    };
    but(keyed, |_, key| keyed.outer[&key.object].iter().any(|&outer| has(outer, key)))
}

/// Readers that have it wrong which keys are equal.
const EQUAL: &[(&str, Doubled)] = &[
    ("keys are compared as written", |keyed| {
        alike(keyed, |key| keyed.case.text[key.start..key.end].to_vec())
    }),
    ("no key is doubled", |_| Vec::new()),
    ("keys of one length are equal", |keyed| alike(keyed, |key| key.content.len())),
    ("keys of two lengths may be equal", |keyed| alike(keyed, |key| key.content.first().copied())),
    ("up to 255 bytes are compared", |keyed| alike(keyed, |key| front(&key.content, 255))),
    ("up to 2,046 bytes are compared", |keyed| alike(keyed, |key| front(&key.content, 2_046))),
    ("up to 2,046 bytes and the length", |keyed| {
        alike(keyed, |key| (front(&key.content, 2_046), key.content.len()))
    }),
    ("up to 4,096 bytes are compared", |keyed| alike(keyed, |key| front(&key.content, 4_096))),
    ("the last byte isn't compared", |keyed| {
        let length = |key: &Key| key.content.len();
        alike(keyed, |key| (front(&key.content, length(key).saturating_sub(1)), length(key)))
    }),
    ("the first byte isn't compared", |keyed| {
        alike(keyed, |key| (key.content.get(1..).map(<[u8]>::to_vec), key.content.len()))
    }),
    ("00 at the end is ignored", |keyed| alike(keyed, |key| trimmed(&key.content))),
    ("00 ends a key", |keyed| {
        alike(keyed, |key| key.content.split(|&byte| byte == 0).next().map(<[u8]>::to_vec))
    }),
    ("lengths are compared in a byte", length_in_a_byte),
    ("the low bit isn't compared", |keyed| {
        alike(keyed, |key| key.content.iter().map(|byte| byte | 1).collect::<Vec<_>>())
    }),
    ("the top bit isn't compared", |keyed| {
        alike(keyed, |key| key.content.iter().map(|byte| byte & 0x7F).collect::<Vec<_>>())
    }),
    ("capitals are small letters", |keyed| alike(keyed, |key| key.content.to_ascii_lowercase())),
    ("bytes are compared in any order", |keyed| {
        alike(keyed, |key| {
            let mut bytes = key.content.clone();
            bytes.sort_unstable();
            bytes
        })
    }),
    ("four bytes at both ends and the length", |keyed| {
        alike(keyed, |key| {
            let content = &key.content;
            let end = content[content.len().saturating_sub(4)..].to_vec();
            (front(content, 4), end, content.len())
        })
    }),
    ("long keys are compared as written", |keyed| {
        alike(keyed, |key| match key.content.len() > 2_046 {
            true => keyed.case.text[key.start..key.end].to_vec(),
            false => key.content.clone(),
        })
    }),
    ("an empty key is never doubled", |keyed| but(keyed, |_, key| key.content.is_empty())),
    ("a key of over 2,046 bytes is never doubled", |keyed| {
        but(keyed, |_, key| key.content.len() > 2_046)
    }),
    ("a key of 20,000 bytes is never doubled", |keyed| {
        but(keyed, |_, key| key.content.len() >= 20_000)
    }),
    ("what is doubled in another spelling", |keyed| {
        let written = |key: &Key| keyed.case.text[key.start..key.end].to_vec();
        but(keyed, |first, key| written(first) == written(key))
    }),
    ("an outer object's keys count too", outer_too),
    ("a key that an outer object has is hidden", hidden_by_outer),
    ("all objects are one", |keyed| {
        let mut seen = HashSet::new();
        let again = |key: &Key| (!seen.insert(key.content.clone())).then_some(key.start as u64);
        keyed.keys.iter().filter_map(again).collect()
    }),
    ("only the first 16 keys are compared", |keyed| but(keyed, |_, key| earlier(keyed, key) >= 16)),
    ("with over 16 keys none is doubled", |keyed| {
        let mut sizes: HashMap<_, usize> = HashMap::new();
        keyed.keys.iter().for_each(|key| *sizes.entry(key.object).or_default() += 1);
        but(keyed, |_, key| sizes[&key.object] > 16)
    }),
    ("the first key isn't looked for", |keyed| but(keyed, |first, _| earlier(keyed, first) == 0)),
    ("the key before isn't looked at", |keyed| {
        but(keyed, |first, key| earlier(keyed, first) + 1 == earlier(keyed, key))
    }),
    ("only the key before is looked at", |keyed| {
        but(keyed, |first, key| earlier(keyed, first) + 1 != earlier(keyed, key))
    }),
    ("an object that doesn't end isn't looked at", |keyed| {
        // Of those that hold the fault not one ends.
        match (keyed.other, keyed.keys.last()) {
            (Some(_), Some(last)) => {
                let open = &keyed.outer[&last.object];
                but(keyed, |_, key| key.object == last.object || open.contains(&key.object))
            }
            _ => right(keyed),
        }
    }),
];

fn choose(keyed: &Keyed, doubled: Vec<u64>) -> Option<(u64, u32)> {
    let eighth = doubled.into_iter().min().map(|place| (place, 8));
    eighth.into_iter().chain(keyed.other).min()
}

/// The key at a place.
fn at(keyed: &Keyed, place: u64) -> Option<&Key> {
    keyed.keys.iter().find(|key| key.start as u64 == place)
}

/// Changes what is told of a doubled key.
fn told(
    keyed: &Keyed,
    doubled: Vec<u64>,
    change: impl Fn(&Key) -> (u64, u32),
) -> Option<(u64, u32)> {
    let refusal = choose(keyed, doubled);
    refusal.map(|(place, number)| match at(keyed, place) {
        Some(key) if number == 8 => change(key),
        _ => (place, number),
    })
}

/// Readers that tell the wrong one of several faults, or tell it wrongly.
const CHOICES: &[(&str, Choice)] = &[
    ("the last doubled key", |keyed, doubled| {
        choose(keyed, doubled.into_iter().max().into_iter().collect())
    }),
    ("a later fault", |keyed, doubled| keyed.other.or_else(|| choose(keyed, doubled))),
    ("an inner object's, which ends first", |keyed, doubled| {
        let depth = |&place: &u64| {
            let depth = at(keyed, place).map_or(0, |key| keyed.outer[&key.object].len());
            (std::cmp::Reverse(depth), place)
        };
        choose(keyed, doubled.into_iter().min_by_key(depth).into_iter().collect())
    }),
    ("an outer object's first", |keyed, doubled| {
        let depth = |&place: &u64| {
            (at(keyed, place).map_or(0, |key| keyed.outer[&key.object].len()), place)
        };
        choose(keyed, doubled.into_iter().min_by_key(depth).into_iter().collect())
    }),
    ("8 before a fault that comes first", |keyed, doubled| {
        let earliest = doubled.into_iter().chain(keyed.behind).min();
        earliest.map(|place| (place, 8)).or(keyed.other)
    }),
    ("no node left before 8", |keyed, doubled| {
        keyed.other.filter(|&(_, number)| number == 10).or_else(|| choose(keyed, doubled))
    }),
    ("too deep before 8", |keyed, doubled| {
        keyed.other.filter(|&(_, number)| number == 9).or_else(|| choose(keyed, doubled))
    }),
    ("the first key's place", |keyed, doubled| {
        told(keyed, doubled, |key| {
            let same = |other: &&Key| (other.object, &other.content) == (key.object, &key.content);
            (keyed.keys.iter().find(same).map_or(0, |first| first.start as u64), 8)
        })
    }),
    ("the key's end", |keyed, doubled| told(keyed, doubled, |key| (key.end as u64, 8))),
    ("no place", |keyed, doubled| told(keyed, doubled, |_| (0, 8))),
    ("7 in place of 8", |keyed, doubled| told(keyed, doubled, |key| (key.start as u64, 7))),
];

/// A reader's answer with its table, by these rules. Where it takes a text that it
/// should refuse there is no telling what the table would be; any will do.
fn read(keyed: &Keyed, doubled: Doubled, choice: Choice) -> (Answer, Vec<u32>) {
    let mut table = vec![0; keyed.case.words];
    let answer = second_read(&keyed.case.text, &mut table);
    // It is right in all that comes before the keys.
    if matches!(answer, Err((1 | 2, _))) {
        return (answer, table);
    }
    match choice(keyed, doubled(keyed)) {
        Some((place, number)) => (Err((number, place)), vec![0; keyed.case.words]),
        None => (Ok(answer.unwrap_or(1)), table),
    }
}

/// How many texts a wrong reader is tried on.
const TEXTS: u64 = 6_000;

fn is_seen(name: &str, doubled: Doubled, choice: Choice) {
    wrong::is_seen(name, TEXTS, |number| {
        let keyed = keyed(&mut Random::for_case(32, number));
        let (answer, table) = read(&keyed, doubled, choice);
        let mut theirs = vec![0; keyed.case.words];
        let their_answer = second_read(&keyed.case.text, &mut theirs);
        let by_making = reading(&keyed.case, answer, &table).is_err();
        [by_making, (answer, table) != (their_answer, theirs)]
    });
}

/// What the wrong readers are made of is right.
#[test]
fn the_right_rules_show_no_difference() {
    for number in 0..2_000 {
        let keyed = keyed(&mut Random::for_case(33, number));
        let (answer, table) = read(&keyed, right, choose);
        let mut theirs = vec![0; keyed.case.words];
        let their_answer = second_read(&keyed.case.text, &mut theirs);
        assert_ne!(keyed.case.known, Known::Nothing);
        assert_eq!((answer, &table), (their_answer, &theirs), "text {number}");
        assert_eq!(reading(&keyed.case, answer, &table), Ok(()), "text {number}");
    }
}

#[test]
fn wrong_equals_are_seen() {
    for (name, doubled) in EQUAL {
        is_seen(name, *doubled, choose);
    }
}

#[test]
fn wrong_choices_are_seen() {
    for (name, choice) in CHOICES {
        is_seen(name, right, *choice);
    }
}
