//! Document 02's request 06: where the UTF-8 check stops, and how many eights
//! it passes over up to there. Expected numbers are worked out by hand from the
//! request and from RFC 3629's grammar.

mod common;

use common::Numbers;
use second::utf8::{check, Checked};
use second::{read, Refusal, MAX_TEXT};

#[track_caller]
fn holds(bytes: impl AsRef<[u8]>, front: usize, eights: usize) {
    let bytes = bytes.as_ref();
    assert_eq!(check(bytes), Checked { front, eights }, "{}", bytes.escape_ascii());
}

/// So many letters.
fn letters(count: usize) -> Vec<u8> {
    vec![b'a'; count]
}

enum Part<'a> {
    /// So many letters.
    Letters(usize),
    /// These bytes.
    Bytes(&'a [u8]),
}

use Part::{Bytes, Letters};

/// The parts one after the other.
fn joined(parts: &[Part]) -> Vec<u8> {
    let bytes = |part: &Part| match part {
        Letters(count) => letters(*count),
        Bytes(bytes) => bytes.to_vec(),
    };
    parts.iter().flat_map(bytes).collect()
}

// Eights.

#[test]
fn letters_alone() {
    for (count, eights) in
        [(0, 0), (1, 0), (7, 0), (8, 1), (9, 1), (15, 1), (16, 2), (17, 2), (23, 2), (24, 3)]
    {
        holds(letters(count), count, eights);
    }
}

#[test]
fn an_eight_counts_from_wherever_the_check_stands() {
    holds("é12345678", 10, 1);
    holds("€12345678", 11, 1);
    holds("😀12345678", 12, 1);
    holds("1234567é12345678", 17, 1);
    holds("12345678é12345678", 18, 2);
    // One eight and one character, é, one eight.
    holds("123456789é12345678", 19, 2);
    holds("123é12345678é1234567", 22, 1);
    // This eight stands at 3, which is no multiple of eight.
    holds("1é12345678é", 13, 1);
    holds("éééé12345678", 16, 1);
}

#[test]
fn eight_bytes_with_a_character_among_them_are_none() {
    holds("1234é5678", 10, 0);
    holds("1234567é", 9, 0);
    holds("1234567é1", 10, 0);
    holds("é1234567", 9, 0);
    holds("1234567é1234567é1234567", 25, 0);
    holds("éééé", 8, 0);
    holds("éééééééé", 16, 0);
}

#[test]
fn all_bytes_below_80_hex_are_plain() {
    for byte in 0x00..=0x7F {
        holds([byte; 8], 8, 1);
        holds([byte; 7], 7, 0);
    }
    holds([0x00, 0x7F, 0x00, 0x7F, 0x7F, 0x00, 0x7F, 0x00, 0x7F], 9, 1);
    holds("\r\n\t\u{1B}\"\\/ ", 8, 1);
}

#[test]
fn a_later_byte_as_each_of_the_eight() {
    for at in 0..8 {
        let mut eight = [b'a'; 8];
        eight[at] = 0x80;
        holds(eight, at, 0);
        // Of the eights around it those behind it don't count.
        holds([&letters(16), &eight[..], &letters(16)].concat(), 16 + at, 2);
    }
}

#[test]
fn a_character_as_each_of_the_eight() {
    for at in 0..8 {
        let parts = [Letters(8), Letters(at), Bytes("é".as_bytes()), Letters(8)];
        holds(joined(&parts), 18 + at, 2);
    }
}

// Faults.

#[test]
fn at_a_fault_the_eights_before_it_count() {
    holds(joined(&[Letters(7), Bytes(b"\x80")]), 7, 0);
    holds(joined(&[Letters(8), Bytes(b"\x80")]), 8, 1);
    holds(joined(&[Letters(9), Bytes(b"\x80")]), 9, 1);
    holds(joined(&[Letters(15), Bytes(b"\xFF")]), 15, 1);
    holds(joined(&[Letters(16), Bytes(b"\xFF")]), 16, 2);
    holds(joined(&[Letters(8), Bytes(b"\xE2"), Letters(8)]), 8, 1);
    holds(joined(&[Letters(8), Bytes(b"\xFF"), Letters(16)]), 8, 1);
    holds(joined(&[Bytes(b"\x80"), Letters(8)]), 0, 0);
    // The fault is the whole character, from its first byte.
    holds(joined(&[Letters(8), Bytes(b"\xE2\x82"), Letters(8)]), 8, 1);
    holds(joined(&[Letters(3), Bytes(b"\xF0\x9F\x98"), Letters(8)]), 3, 0);
    holds(joined(&[Bytes("é".as_bytes()), Letters(8), Bytes(b"\xC3"), Letters(8)]), 10, 1);
}

#[test]
fn a_character_that_the_end_cuts_off_is_no_part_of_the_front() {
    for cut in [
        &b"\xC3"[..],
        b"\xE2",
        b"\xE2\x82",
        b"\xF0",
        b"\xF0\x9F",
        b"\xF0\x9F\x98",
        b"\xF4\x8F\xBF",
        b"\xED\x9F",
    ] {
        holds(cut, 0, 0);
        holds(joined(&[Letters(16), Bytes(cut)]), 16, 2);
        holds(joined(&[Letters(9), Bytes(cut)]), 9, 1);
        holds(joined(&[Bytes("é".as_bytes()), Bytes(cut)]), 2, 0);
    }
}

/// Both sides of each bound, as one character or as none.
#[test]
fn both_sides_of_each_row_of_the_grammar() {
    // UTF8-2 = %xC2-DF UTF8-tail; UTF8-tail = %x80-BF
    both(true, &[b"\xC2\x80", b"\xC2\xBF", b"\xDF\x80", b"\xDF\xBF"]);
    both(false, &[b"\x80\x80", b"\xBF\x80", b"\xC0\x80", b"\xC0\xBF", b"\xC1\x80", b"\xC1\xBF"]);
    both(false, &[b"\xC2\x7F", b"\xC2\xC0", b"\xDF\x7F", b"\xDF\xC0", b"\xC2\x00", b"\xC2\xFF"]);
    // UTF8-3 = %xE0 %xA0-BF UTF8-tail
    both(true, &[b"\xE0\xA0\x80", b"\xE0\xA0\xBF", b"\xE0\xBF\x80", b"\xE0\xBF\xBF"]);
    both(false, &[b"\xE0\x80\x80", b"\xE0\x9F\x80", b"\xE0\x9F\xBF", b"\xE0\xC0\x80"]);
    both(false, &[b"\xE0\xA0\x7F", b"\xE0\xA0\xC0", b"\xE0\x7F\x80"]);
    // / %xE1-EC 2( UTF8-tail )
    both(true, &[b"\xE1\x80\x80", b"\xE1\xBF\xBF", b"\xEC\x80\x80", b"\xEC\xBF\xBF"]);
    both(false, &[b"\xE1\x7F\x80", b"\xE1\xC0\x80", b"\xEC\x80\x7F", b"\xEC\x80\xC0"]);
    // / %xED %x80-9F UTF8-tail
    both(true, &[b"\xED\x80\x80", b"\xED\x9F\x80", b"\xED\x9F\xBF"]);
    both(false, &[b"\xED\xA0\x80", b"\xED\xBF\xBF", b"\xED\xAF\xBF", b"\xED\xB0\x80"]);
    both(false, &[b"\xED\x7F\x80", b"\xED\x9F\x7F", b"\xED\x9F\xC0"]);
    // / %xEE-EF 2( UTF8-tail )
    both(true, &[b"\xEE\x80\x80", b"\xEF\x80\x80", b"\xEF\xBB\xBF", b"\xEF\xBF\xBF"]);
    both(false, &[b"\xEE\x7F\x80", b"\xEF\xC0\x80", b"\xEF\xBF\x7F", b"\xEF\xBF\xC0"]);
    // UTF8-4 = %xF0 %x90-BF 2( UTF8-tail )
    both(true, &[b"\xF0\x90\x80\x80", b"\xF0\xBF\xBF\xBF", b"\xF0\x90\xBF\xBF"]);
    both(false, &[b"\xF0\x80\x80\x80", b"\xF0\x8F\x80\x80", b"\xF0\x8F\xBF\xBF"]);
    both(false, &[b"\xF0\xC0\x80\x80", b"\xF0\x90\x7F\x80", b"\xF0\x90\x80\xC0"]);
    // / %xF1-F3 3( UTF8-tail )
    both(true, &[b"\xF1\x80\x80\x80", b"\xF1\xBF\xBF\xBF", b"\xF3\x80\x80\x80"]);
    both(true, &[b"\xF3\xBF\xBF\xBF"]);
    both(false, &[b"\xF1\x7F\x80\x80", b"\xF3\xC0\x80\x80", b"\xF3\x80\xC0\x80"]);
    both(false, &[b"\xF3\x80\x80\x7F", b"\xF3\x80\x80\xC0"]);
    // / %xF4 %x80-8F 2( UTF8-tail )
    both(true, &[b"\xF4\x80\x80\x80", b"\xF4\x8F\x80\x80", b"\xF4\x8F\xBF\xBF"]);
    both(false, &[b"\xF4\x90\x80\x80", b"\xF4\xBF\xBF\xBF", b"\xF4\x7F\x80\x80"]);
    both(false, &[b"\xF4\x8F\x7F\x80", b"\xF4\x8F\xBF\xC0"]);
    // No row has these.
    both(false, &[b"\xF5\x80\x80\x80", b"\xF7\xBF\xBF\xBF", b"\xF8\x88\x80\x80\x80"]);
    both(false, &[b"\xFC\x84\x80\x80\x80\x80", b"\xFE", b"\xFF", b"\xFF\xFF\xFF\xFF"]);
}

/// Alone, and with nine letters before and eight behind.
#[track_caller]
fn both(is_character: bool, sequences: &[&[u8]]) {
    for &bytes in sequences {
        let among = joined(&[Letters(9), Bytes(bytes), Letters(8)]);
        if is_character {
            holds(bytes, bytes.len(), 0);
            holds(among, bytes.len() + 17, 2);
        } else {
            holds(bytes, 0, 0);
            holds(among, 9, 1);
        }
    }
}

// Any length.

#[test]
fn there_is_no_limit_of_65_536() {
    holds(letters(65_536), 65_536, 8_192);
    holds(letters(65_537), 65_537, 8_192);
    holds(letters(65_544), 65_544, 8_193);
    holds(letters(1_000_000), 1_000_000, 125_000);
    holds("é".repeat(40_000), 80_000, 0);
    holds(joined(&[Letters(70_000), Bytes(b"\xFF"), Letters(70_000)]), 70_000, 8_750);
    // 65,535 letters are 8,191 eights and seven characters.
    let parts = [Letters(65_535), Bytes("é".as_bytes()), Letters(16), Bytes(b"\xE2")];
    holds(joined(&parts), 65_553, 8_193);
}

// Against Rust's own check, which has the same longest front.

#[track_caller]
fn front_is_rusts(bytes: &[u8]) {
    let front = match std::str::from_utf8(bytes) {
        Ok(_) => bytes.len(),
        Err(error) => error.valid_up_to(),
    };
    assert_eq!(check(bytes).front, front, "{}", bytes.escape_ascii());
}

/// Every first and second byte. The third and the fourth have the same bounds
/// in every row, so both sides of these will do.
#[test]
fn fronts_of_all_sequences() {
    front_is_rusts(&[]);
    let later = [0x7F, 0x80, 0xBF, 0xC0];
    for first in 0x00..=0xFF {
        front_is_rusts(&[first]);
        for second in 0x00..=0xFF {
            front_is_rusts(&[first, second]);
            for third in later {
                front_is_rusts(&[first, second, third]);
                for fourth in later {
                    front_is_rusts(&[first, second, third, fourth]);
                }
            }
        }
    }
}

#[test]
fn fronts_of_many_bytes() {
    let characters = ["é", "\u{7FF}", "€", "\u{D7FF}", "\u{E000}", "😀", "\u{10FFFF}"];
    let mut numbers = Numbers(0x0123_4567_89AB_CDEF);
    let (mut whole, mut faulty) = (0, 0);
    for _ in 0..60_000 {
        let mut bytes = Vec::new();
        for _ in 0..numbers.below(8) {
            match numbers.below(8) {
                0..=3 => bytes.extend(letters(numbers.below(19) as usize)),
                4..=6 => {
                    let character = characters[numbers.below(7) as usize].as_bytes();
                    // Now and then without its last byte.
                    let kept = character.len() - usize::from(numbers.below(8) == 0);
                    bytes.extend_from_slice(&character[..kept]);
                }
                _ => bytes.push(numbers.below(256) as u8),
            }
        }
        front_is_rusts(&bytes);
        let Checked { front, .. } = check(&bytes);
        if front == bytes.len() {
            whole += 1;
            continue;
        }
        faulty += 1;
        // "Nothing else it answers or states changes": 2's place is the same.
        assert!(bytes.len() <= MAX_TEXT);
        let refused = read(&bytes, &mut []);
        assert_eq!(refused, Err(Refusal { number: 2, place: front as u64 }));
    }
    assert!(whole > 10_000 && faulty > 10_000, "{whole} {faulty}");
}
