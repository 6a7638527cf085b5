//! Asking by path.

use crate::{sys, Refusal};

/// Reads a text into the lent table, as [`read`](crate::read) does, and answers
/// the number of the node that a path leads to.
///
/// A path is any bytes, of any length: steps with a dot after each but the last.
/// The empty path has no step and leads to the root; any other has one step more
/// than it has dots, and a step may be empty: `.` is two empty steps.
///
/// - In an object a step is the content of a key, byte for byte, however the key
///   is written. A key with a dot in it can't be reached, nor the value of an
///   empty key at the root.
/// - In an array or tuple it is an index from 0, in decimal digits without
///   leading zeros. `00`, `+1`, `-0` and `1_0` lead nowhere, nor does an index
///   past the last child, however long.
/// - Other values have no children. Identifiers are ignored.
///
/// If the text is refused, with 1 to 10, the whole table is zeros. If a step has
/// no child to go to, the refusal is 23, and [`Refusal::step`] is the number of
/// the first such step, from 0; the table then is the text's reading, as it is
/// after a success.
///
/// [`Document::find`](crate::Document::find) does the lending.
///
/// ```
/// let text = br#"{balls: [{height_mm: 412.5}, Lost({height_mm: null})]}"#;
/// let mut table = [0; 10 * duper::ROW];
/// assert_eq!(duper::find(text, &mut table, b"balls.1.height_mm"), Ok(5));
/// assert_eq!(duper::find(text, &mut table, b""), Ok(0));
///
/// // There is no third ball: step 1, from 0, has no child to go to.
/// let refusal = duper::find(text, &mut table, b"balls.2.height_mm").unwrap_err();
/// assert_eq!((refusal.number, refusal.step()), (23, Some(1)));
/// assert_eq!(duper::nodes(&table).count(), 6);
/// ```
pub fn find(text: &[u8], table: &mut [u32], path: &[u8]) -> Result<usize, Refusal> {
    sys::find(text, table, path)
}
