//! Refusals.

use std::error::Error;
use std::fmt;

/// Why a call was refused: one of document 01's numbers, or 21, 23, 27 or 28 of
/// document 02, and its place.
///
/// As an error it says both in words:
///
/// ```
/// let refusal = duper::Document::read("{height: 410, height: 420}").unwrap_err();
/// assert_eq!((refusal.number, refusal.place), (8, 14));
/// assert_eq!(refusal.reason(), Some(duper::Reason::DoubledKey));
/// assert_eq!(refusal.to_string(), "the key is already in this object (refusal 8 at byte 14)");
/// ```
#[derive(Debug, Clone, Copy, PartialEq, Eq, Hash)]
pub struct Refusal {
    /// The number, from 1 on.
    pub number: u32,
    /// The place in the text, in bytes; 0 from number 11 on, but for 21, where
    /// it is a node's number, and 23, where it is that of a step of the path: see
    /// [`node`](Refusal::node) and [`step`](Refusal::step).
    pub place: u32,
}

/// What a [`Refusal`]'s number means. The discriminants are the numbers.
#[derive(Debug, Clone, Copy, PartialEq, Eq, Hash)]
#[non_exhaustive]
pub enum Reason {
    /// The text, or the log, is over 65,536 bytes; the place is 65536.
    TextTooLong = 1,
    /// The text is not UTF-8; the place is the length of its longest valid
    /// front.
    NotUtf8 = 2,
    /// A token or comment is malformed or not closed; the place is its start.
    Malformed = 3,
    /// The content of a string is not allowed; the place is the string's
    /// start.
    StringContent = 4,
    /// A number is too wide; the place is its start.
    NumberTooWide = 5,
    /// Temporal values are not served; the place is the tick.
    Temporal = 6,
    /// A token is not allowed here, at its start; or the text ends early, at
    /// its length.
    NotAllowedHere = 7,
    /// The key is already in this object; the place is the second key's start.
    DoubledKey = 8,
    /// Over 32 containers are open at once, or over 31 in a line of a log; the
    /// place is the opening bracket.
    TooDeep = 9,
    /// A value opens and no node is left for it; the place is its start.
    NoNodeLeft = 10,
    /// A length in use exceeds its buffer. A [`crate::Document`] never gives
    /// this.
    LengthInUse = 11,
    /// There is no node with this number.
    NoSuchNode = 12,
    /// The replacement is not one value from its first byte to its last, or
    /// not one that can be the root.
    NotOneValue = 13,
    /// The new text is longer than its buffer, or over 65,536 bytes.
    NoRoomInText = 14,
    /// The correction's entry does not fit into the journal.
    NoRoomInJournal = 15,
    /// The resulting text does not read: it is too deep or has too many nodes.
    /// After an undo with a journal from elsewhere it may be any other fault.
    DoesNotRead = 16,
    /// No correction is in force.
    NothingToUndo = 17,
    /// The journal's last entry is none that a correction of this text wrote.
    BadEntry = 18,
    /// The span is not one string or key.
    NotAString = 19,
    /// The content is longer than the output.
    ContentTooLong = 20,
    /// The root is not an array, or an element of it is not an object; the place
    /// is the number of that node.
    NotRecords = 21,
    /// A step of the path has no child to go to; the place is the step's
    /// number, from 0.
    NoChild = 23,
    /// The list of verdicts is shorter than the log has lines.
    /// [`salvage`](crate::salvage()) never gives this.
    NoRoomInList = 27,
    /// What is kept of the log would make a text that is longer than the output or
    /// over 65,536 bytes, or that has more nodes than the lent table has room for.
    NoRoomForKept = 28,
}

impl Reason {
    /// All reasons, by number.
    const ALL: [Reason; 24] = [
        Reason::TextTooLong,
        Reason::NotUtf8,
        Reason::Malformed,
        Reason::StringContent,
        Reason::NumberTooWide,
        Reason::Temporal,
        Reason::NotAllowedHere,
        Reason::DoubledKey,
        Reason::TooDeep,
        Reason::NoNodeLeft,
        Reason::LengthInUse,
        Reason::NoSuchNode,
        Reason::NotOneValue,
        Reason::NoRoomInText,
        Reason::NoRoomInJournal,
        Reason::DoesNotRead,
        Reason::NothingToUndo,
        Reason::BadEntry,
        Reason::NotAString,
        Reason::ContentTooLong,
        Reason::NotRecords,
        Reason::NoChild,
        Reason::NoRoomInList,
        Reason::NoRoomForKept,
    ];

    /// The reason with this number, if there is one.
    pub fn from_number(number: u32) -> Option<Reason> {
        Reason::ALL.into_iter().find(|reason| reason.number() == number)
    }

    /// Its number: from 1 to 21, or 23, 27 or 28.
    pub fn number(self) -> u32 {
        self as u32
    }

    /// What it means, in words.
    fn words(self) -> &'static str {
        match self {
            Reason::TextTooLong => "the text is over 65,536 bytes",
            Reason::NotUtf8 => "the text is not UTF-8",
            Reason::Malformed => "a token or comment is malformed or not closed",
            Reason::StringContent => "a string's content is not allowed",
            Reason::NumberTooWide => "a number is too wide",
            Reason::Temporal => "Temporal values are not served",
            Reason::NotAllowedHere => "a token is not allowed here, or the text ends early",
            Reason::DoubledKey => "the key is already in this object",
            Reason::TooDeep => "over 32 containers are open at once",
            Reason::NoNodeLeft => "a value opens and no node is left for it",
            Reason::LengthInUse => "a length in use exceeds its buffer",
            Reason::NoSuchNode => "there is no node with this number",
            Reason::NotOneValue => "the replacement is not one value",
            Reason::NoRoomInText => "there is no room in the text",
            Reason::NoRoomInJournal => "there is no room in the journal",
            Reason::DoesNotRead => "the resulting text does not read",
            Reason::NothingToUndo => "there is nothing to undo",
            Reason::BadEntry => "the journal's last entry is bad",
            Reason::NotAString => "the span is not one string or key",
            Reason::ContentTooLong => "the content is longer than the output",
            Reason::NotRecords => "the root is not an array of objects",
            Reason::NoChild => "a step of the path has no child to go to",
            Reason::NoRoomInList => "the list is shorter than the log has lines",
            Reason::NoRoomForKept => {
                "what is kept has no room in the output, in 65,536 bytes or in the table"
            }
        }
    }
}

impl fmt::Display for Reason {
    fn fmt(&self, f: &mut fmt::Formatter<'_>) -> fmt::Result {
        f.write_str(self.words())
    }
}

impl Refusal {
    /// Takes an answer apart: "refusal times 4294967296 plus" a count or place.
    pub(crate) fn from_answer(answer: u64) -> Result<usize, Refusal> {
        let (number, low) = ((answer >> 32) as u32, answer as u32);
        if number == 0 {
            // On a target with narrower addresses a count still fits: it is
            // at most a slice's length.
            Ok(low as usize)
        } else {
            Err(Refusal { number, place: low })
        }
    }

    /// What the number means; `None` for a number that this wrapper doesn't
    /// know.
    pub fn reason(&self) -> Option<Reason> {
        Reason::from_number(self.number)
    }

    /// The number of the node that has another shape than a summary asks for: 0,
    /// the root, if it is no array, else the first element of it that is no
    /// object. `None` for a refusal other than 21.
    ///
    /// ```
    /// let document = duper::Document::read("[{height_mm: 398}, null]")?;
    /// let refusal = document.summary().unwrap_err();
    /// assert_eq!(refusal.node(), Some(3));
    /// assert_eq!(
    ///     refusal.to_string(),
    ///     "the root is not an array of objects (refusal 21 at node 3)"
    /// );
    /// # Ok::<(), duper::Refusal>(())
    /// ```
    pub fn node(&self) -> Option<usize> {
        (self.reason() == Some(Reason::NotRecords)).then_some(self.place as usize)
    }

    /// The number of the first step of the path, counted from 0, that has no
    /// child to go to; `None` for a refusal other than 23.
    ///
    /// ```
    /// let document = duper::Document::read("{balls: [{height_mm: 398}]}")?;
    /// let refusal = document.find("balls.0.height").unwrap_err();
    /// assert_eq!(refusal.step(), Some(2));
    /// assert_eq!(
    ///     refusal.to_string(),
    ///     "a step of the path has no child to go to (refusal 23 at step 2, counted from 0)"
    /// );
    /// # Ok::<(), duper::Refusal>(())
    /// ```
    pub fn step(&self) -> Option<usize> {
        (self.reason() == Some(Reason::NoChild)).then_some(self.place as usize)
    }
}

impl fmt::Display for Refusal {
    fn fmt(&self, f: &mut fmt::Formatter<'_>) -> fmt::Result {
        match self.reason() {
            Some(reason) => reason.fmt(f)?,
            None => f.write_str("refused for a reason this wrapper does not know")?,
        }
        write!(f, " (refusal {}", self.number)?;
        if (1..=10).contains(&self.number) {
            write!(f, " at byte {}", self.place)?;
        } else if let Some(node) = self.node() {
            write!(f, " at node {node}")?;
        } else if let Some(step) = self.step() {
            write!(f, " at step {step}, counted from 0")?;
        }
        f.write_str(")")
    }
}

impl Error for Refusal {}

#[cfg(test)]
mod tests {
    use super::*;

    #[test]
    fn answers_are_taken_apart() {
        assert_eq!(Refusal::from_answer(3), Ok(3));
        assert_eq!(Refusal::from_answer(7 << 32), Err(Refusal { number: 7, place: 0 }));
        let refusal = Refusal { number: 1, place: 65_536 };
        assert_eq!(Refusal::from_answer((1 << 32) + 65_536), Err(refusal));
        assert_eq!(refusal.to_string(), "the text is over 65,536 bytes (refusal 1 at byte 65536)");
        let refusal = Refusal { number: 20, place: 0 };
        assert_eq!(refusal.to_string(), "the content is longer than the output (refusal 20)");
        let refusal = Refusal { number: 21, place: 3 };
        assert_eq!(Refusal::from_answer((21 << 32) + 3), Err(refusal));
        let said = "the root is not an array of objects (refusal 21 at node 3)";
        assert_eq!(refusal.to_string(), said);
        let refusal = Refusal { number: 27, place: 0 };
        assert_eq!(Refusal::from_answer(27 << 32), Err(refusal));
        assert_eq!(refusal.to_string(), "the list is shorter than the log has lines (refusal 27)");
    }

    #[test]
    fn every_number_has_a_reason_of_its_own() {
        let mut words = std::collections::HashSet::new();
        for number in (1..=21).chain([23, 27, 28]) {
            let refusal = Refusal { number, place: 3 };
            let reason = refusal.reason().expect("it is one of the documents'");
            assert_eq!(reason.number(), number);
            assert!(words.insert(reason.to_string()), "{reason}");
            let said = refusal.to_string();
            assert!(said.starts_with(&reason.to_string()), "{said}");
            assert!(said.contains(&format!("(refusal {number}")), "{said}");
            assert_eq!(said.contains(" at byte 3"), number <= 10, "{said}");
            assert_eq!(said.contains(" at node 3"), number == 21, "{said}");
            assert_eq!(said.contains(" at step 3"), number == 23, "{said}");
            assert_eq!(refusal.node(), (number == 21).then_some(3));
            assert_eq!(refusal.step(), (number == 23).then_some(3));
        }
        for number in [0, 22, 24, 26, 29, u32::MAX] {
            let refusal = Refusal { number, place: 0 };
            assert_eq!(refusal.reason(), None);
            assert_eq!((refusal.node(), refusal.step()), (None, None));
            assert!(refusal.to_string().contains(&number.to_string()));
        }
    }
}
