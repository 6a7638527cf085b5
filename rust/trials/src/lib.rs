//! Holds the reader of crate `duper` against the independent `second` one.
//!
//! [`random`], [`writer`], [`exponents`] and [`texts`] make the cases and depend
//! on no reader. [`check`] looks at one reader's answers alone: invariants, and
//! what the making of a case tells beforehand; and it holds them against
//! `second`'s. [`zeros`] counts the exponents with leading zeros that were
//! compared, and [`reading`] holds a reader against `second` on the texts.
//! [`histories`] makes lists of corrections and undos, with what the plain book
//! says of them, [`single`] makes calls on any buffers, and [`editing`] holds
//! both against the book and `second`. [`annotated`] makes texts with spaces and
//! comments to be inserted, and [`insertions`] holds a reader against what they
//! may do to its table. [`bytes`] makes any bytes, and [`eights`] holds the UTF-8
//! check against `second`'s on them. [`trees`] makes documents of which every
//! node is known, [`paths`] makes paths for them, and [`finding`] holds asking by
//! path against what is known and `second`'s. [`heights`] makes heights,
//! [`records`] makes texts of records with them, and [`summarizing`] holds the
//! season's summary against what is known and `second`'s. [`keys`] makes texts
//! with objects of many keys, and [`keying`] holds a reader against what is known
//! of them and `second`. [`hostile`] has the texts that take such a reader
//! longest, for `bench`. [`logs`] makes logs of lines, and [`salvaging`] holds
//! salvaging them against what is known and `second`'s.
//! [`kind`] has what all these kinds of trials have in common, for the program
//! that runs them. `against` has the archive's calls for each kind; it needs the
//! feature of that name, on unless turned off, since it links the archive.

#![forbid(unsafe_code)]

#[cfg(feature = "against")]
pub mod against;
pub mod annotated;
pub mod bytes;
pub mod check;
pub mod editing;
pub mod eights;
pub mod exponents;
#[cfg(test)]
mod finders;
pub mod finding;
pub mod heights;
pub mod histories;
pub mod hostile;
pub mod insertions;
#[cfg(test)]
mod keyers;
pub mod keying;
pub mod keys;
pub mod kind;
pub mod logs;
pub mod paths;
pub mod random;
pub mod reading;
pub mod records;
#[cfg(test)]
mod salvagers;
pub mod salvaging;
pub mod single;
#[cfg(test)]
mod summarizers;
pub mod summarizing;
pub mod texts;
pub mod trees;
pub mod writer;
#[cfg(test)]
mod wrong;
pub mod zeros;
