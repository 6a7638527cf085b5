//! The season's summary.

use crate::{sys, Refusal};

/// How many records have a height of each sort.
///
/// ```
/// use duper::Counts;
///
/// let document = duper::Document::read("[{height_mm: 398}, {height_mm: null}, {}, {}]")?;
/// let counts = document.summary()?.counts;
/// assert_eq!(counts, Counts { measured: 1, null: 1, absent: 2, unfit: 0 });
/// assert_eq!(counts.records(), 4);
/// # Ok::<(), duper::Refusal>(())
/// ```
#[derive(Debug, Clone, Copy, PartialEq, Eq, Hash)]
pub struct Counts {
    /// An integer or decimal that is an exact whole number of micrometres from 0
    /// to 10,000,000.
    pub measured: u64,
    /// `null`, which is not 0.
    pub null: u64,
    /// The record has no key `height_mm`.
    pub absent: u64,
    /// Anything else.
    pub unfit: u64,
}

impl Counts {
    /// How many records there are: every record is counted once, so this is the
    /// sum of the four.
    pub fn records(&self) -> u64 {
        let Counts { measured, null, absent, unfit } = *self;
        // At most 4,095, one less than there are nodes.
        measured.saturating_add(null).saturating_add(absent).saturating_add(unfit)
    }
}

/// The least, the greatest and the mean of the measured heights, in
/// micrometres: 412.5 mm are 412500.
///
/// ```
/// let document = duper::Document::read("[{height_mm: 412.5}, {height_mm: 398}, {}]")?;
/// let heights = document.summary()?.heights.expect("two are measured");
/// assert_eq!((heights.least, heights.greatest), (398_000.0, 412_500.0));
/// assert_eq!(heights.mean, 405_250.0);
/// # Ok::<(), duper::Refusal>(())
/// ```
#[derive(Debug, Clone, Copy, PartialEq)]
pub struct Heights {
    /// The least measured height.
    pub least: f64,
    /// The greatest measured height.
    pub greatest: f64,
    /// The exact sum of the measured heights as a float, divided once by their
    /// count as a float.
    pub mean: f64,
}

/// What is known of the heights of a season.
#[derive(Debug, Clone, Copy, PartialEq)]
pub struct Summary {
    /// How many records there are of each sort.
    pub counts: Counts,
    /// Of the measured heights alone; `None` if there is none.
    pub heights: Option<Heights>,
}

impl Summary {
    /// By what the call writes. It leaves the heights alone if none is measured.
    pub(crate) fn new(counts: [u64; 4], heights: [f64; 3]) -> Summary {
        let [measured, null, absent, unfit] = counts;
        let [least, greatest, mean] = heights;
        Summary {
            counts: Counts { measured, null, absent, unfit },
            heights: (measured > 0).then_some(Heights { least, greatest, mean }),
        }
    }
}

/// Reads a text into the lent table, as [`read`](crate::read) does, and
/// summarizes the heights of its records. The root must be an array, and each of
/// its elements, a record, an object. Identifiers are ignored, around these and
/// around a height.
///
/// The height of a record is the value of its key `height_mm`, a number of
/// millimetres. The key is known by its content, however it is written; a key
/// further in, in one of the record's values, is none of its own. The height is
///
/// - measured, if it is an integer or decimal, and an exact whole number of
///   micrometres from 0 to 10,000,000: `0.250e1` is 2500, and `-0.0` is 0;
/// - null, if it is `null`, which is not 0;
/// - absent, if the record has no such key;
/// - unfit, if it is anything else: `0.0001`, `-1`, `10000.001`, `"412.5"`.
///
/// If the text is refused, with 1 to 10, the whole table is zeros. If the root
/// is no array, or an element of it no object, the refusal is 21, and
/// [`Refusal::node`] is the number of the root, 0, or of the first such element;
/// the table then is the text's reading, as it is after a success.
///
/// [`Document::summary`](crate::Document::summary) does the lending.
///
/// ```
/// let text = br#"[
///     {height_mm: 0.250e1},
///     Ball({"height\u005Fmm": Millimetres(-0.0)}),
///     {height_mm: null},
///     {height_mm: "2.5"},
///     {height: 2.5},
/// ]"#;
/// let mut table = [0; 20 * duper::ROW];
/// let season = duper::summary(text, &mut table)?;
/// let counts = duper::Counts { measured: 2, null: 1, absent: 1, unfit: 1 };
/// let heights = duper::Heights { least: 0.0, greatest: 2500.0, mean: 1250.0 };
/// assert_eq!(season, duper::Summary { counts, heights: Some(heights) });
///
/// // Without a measured height there is no height at all.
/// let season = duper::summary(b"[{height_mm: null}, {}]", &mut table)?;
/// assert_eq!(season.heights, None);
///
/// // The elements are nodes 1 and 3, and the second is no object.
/// let refusal = duper::summary(b"[{height_mm: 2.5}, 2.5]", &mut table).unwrap_err();
/// assert_eq!((refusal.number, refusal.node()), (21, Some(3)));
/// assert_eq!(duper::nodes(&table).count(), 4);
/// # Ok::<(), duper::Refusal>(())
/// ```
pub fn summary(text: &[u8], table: &mut [u32]) -> Result<Summary, Refusal> {
    sys::summary(text, table)
}

#[cfg(test)]
mod tests {
    use super::*;

    #[test]
    fn without_a_measured_height_there_is_none() {
        let counts = Counts { measured: 0, null: 2, absent: 3, unfit: 4 };
        // Whatever the three numbers were.
        let summary = Summary::new([0, 2, 3, 4], [1.0, 2.0, 3.0]);
        assert_eq!(summary, Summary { counts, heights: None });
        assert_eq!(counts.records(), 9);

        let counts = Counts { measured: 1, ..counts };
        let heights = Heights { least: 1.0, greatest: 2.0, mean: 3.0 };
        let summary = Summary::new([1, 2, 3, 4], [1.0, 2.0, 3.0]);
        assert_eq!(summary, Summary { counts, heights: Some(heights) });
    }

    #[test]
    fn any_counts_have_a_sum() {
        let counts = Counts { measured: u64::MAX, null: 1, absent: u64::MAX, unfit: 0 };
        assert_eq!(counts.records(), u64::MAX);
    }
}
