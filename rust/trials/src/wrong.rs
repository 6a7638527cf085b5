//! What is wrong must be seen.

/// Tries something that is wrong in one way on so many texts: what is known from
/// the making of a text must tell it, and so must what `second` answers. For the
/// text of a number `look` gives whether each of the two does.
pub(crate) fn is_seen(name: &str, texts: u64, look: impl Fn(u64) -> [bool; 2]) {
    let mut first = [None, None];
    for number in 0..texts {
        for (first, told) in first.iter_mut().zip(look(number)) {
            *first = first.or(told.then_some(number));
        }
        if let [Some(making), Some(other)] = first {
            println!("{name}: seen in text {making} by its making, in {other} by second");
            return;
        }
    }
    panic!("{name}: by the making {:?}, by second {:?}", first[0], first[1]);
}

#[cfg(test)]
mod tests {
    use super::*;

    #[test]
    fn in_different_texts_is_seen_too() {
        is_seen("seen", 3, |number| [number == 2, number == 0]);
    }

    #[test]
    #[should_panic(expected = "by the making None, by second Some(1)")]
    fn by_one_of_the_two_alone_is_not_seen() {
        is_seen("half seen", 3, |number| [false, number == 1]);
    }
}
