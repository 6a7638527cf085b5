//! Wrong about the counts, or the least, the greatest and the mean.

use super::{sum, Sum};
use crate::heights::{Height, Summary};

/// The summary with another height in place of each.
fn each(heights: &[Height], other: fn(Height) -> Height) -> Summary {
    Summary::of(heights.iter().map(|&height| other(height)))
}

fn measured(heights: &[Height]) -> Vec<u64> {
    let amount = |height: &Height| match height {
        Height::Measured(amount) => Some(*amount),
        _ => None,
    };
    heights.iter().filter_map(amount).collect()
}

/// The right counts with other heights, if there are any.
fn heights_by(heights: &[Height], other: impl FnOnce([f64; 3]) -> [f64; 3]) -> Summary {
    let right = sum(heights);
    let other = right.heights.map(|bits| other(bits.map(f64::from_bits)).map(f64::to_bits));
    Summary { heights: other, ..right }
}

/// The right summary with another mean of the measured heights.
fn mean_by(heights: &[Height], mean: impl FnOnce(&[u64]) -> f64) -> Summary {
    let measured = measured(heights);
    heights_by(heights, |[least, greatest, _]| [least, greatest, mean(&measured)])
}

/// The right summary with other counts.
fn counts_by(heights: &[Height], other: impl FnOnce([u64; 4]) -> [u64; 4]) -> Summary {
    let right = sum(heights);
    Summary { counts: other(right.counts), ..right }
}

pub(super) const SUMS: &[(&str, Sum)] = &[
    ("null and absent are swapped", |heights| counts_by(heights, |[a, b, c, d]| [a, c, b, d])),
    ("absent and unfit are swapped", |heights| counts_by(heights, |[a, b, c, d]| [a, b, d, c])),
    ("absent is null", |heights| counts_by(heights, |[a, b, c, d]| [a, b + c, 0, d])),
    ("unfit isn't counted", |heights| counts_by(heights, |[a, b, c, _]| [a, b, c, 0])),
    ("measured is the number of records", |heights| {
        let all = heights.len() as u64;
        counts_by(heights, |[a, b, c, d]| [if a > 0 { all } else { 0 }, b, c, d])
    }),
    ("the mean is over all records", |heights| {
        let all = heights.len() as f64;
        mean_by(heights, |measured| measured.iter().sum::<u64>() as f64 / all)
    }),
    ("absent is 0", |heights| {
        each(heights, |height| match height {
            Height::Absent => Height::Measured(0),
            height => height,
        })
    }),
    ("the least is the first", |heights| {
        let first = measured(heights).first().map_or(0.0, |&first| first as f64);
        heights_by(heights, |[_, greatest, mean]| [first, greatest, mean])
    }),
    ("the greatest is the last", |heights| {
        let last = measured(heights).last().map_or(0.0, |&last| last as f64);
        heights_by(heights, |[least, _, mean]| [least, last, mean])
    }),
    ("the least is always 0", |heights| {
        heights_by(heights, |[_, greatest, mean]| [0.0, greatest, mean])
    }),
    ("0 is no least", |heights| {
        let least = measured(heights).into_iter().filter(|&height| height > 0).min();
        let least = least.unwrap_or(0) as f64;
        heights_by(heights, |[_, greatest, mean]| [least, greatest, mean])
    }),
    ("least and greatest are swapped", |heights| {
        heights_by(heights, |[least, greatest, mean]| [greatest, least, mean])
    }),
    ("0 is -0", |heights| {
        let signed = |height: f64| if height == 0.0 { -0.0 } else { height };
        heights_by(heights, |heights| heights.map(signed))
    }),
    ("heights are in millimetres", |heights| {
        heights_by(heights, |heights| heights.map(|height| height / 1_000.0))
    }),
    ("the mean is a whole number", |heights| {
        mean_by(heights, |all| (all.iter().sum::<u64>() / all.len() as u64) as f64)
    }),
    ("the mean is halfway between the ends", |heights| {
        heights_by(heights, |[least, greatest, _]| [least, greatest, (least + greatest) / 2.0])
    }),
    ("the mean is the median", |heights| {
        mean_by(heights, |all| {
            let mut all = all.to_vec();
            all.sort_unstable();
            all[all.len() / 2] as f64
        })
    }),
    ("the mean is the sum of quotients", |heights| {
        mean_by(heights, |all| all.iter().map(|&height| height as f64 / all.len() as f64).sum())
    }),
    ("the mean is kept up to date", |heights| {
        mean_by(heights, |all| {
            let counted = all.iter().zip(1..);
            counted.fold(0.0, |mean, (&height, count)| {
                mean + (height as f64 - mean) / f64::from(count)
            })
        })
    }),
    ("the mean is a product", |heights| {
        mean_by(heights, |all| all.iter().sum::<u64>() as f64 * (1.0 / all.len() as f64))
    }),
    ("the mean is rounded twice, in millimetres first", |heights| {
        mean_by(heights, |all| {
            let sum: f64 = all.iter().map(|&height| height as f64 / 1_000.0).sum();
            sum / all.len() as f64 * 1_000.0
        })
    }),
    ("the mean is of 32 bits", |heights| {
        mean_by(heights, |all| {
            f64::from((all.iter().sum::<u64>() as f64 / all.len() as f64) as f32)
        })
    }),
    ("the sum is kept in 32 bits", |heights| {
        mean_by(heights, |all| f64::from(all.iter().sum::<u64>() as u32) / all.len() as f64)
    }),
    ("heights are 0 if none is measured", |heights| {
        let right = sum(heights);
        Summary { heights: right.heights.or(Some([0; 3])), ..right }
    }),
    ("one height has no mean", |heights| {
        let right = sum(heights);
        Summary { heights: right.heights.filter(|_| right.counts[0] > 1), ..right }
    }),
    ("0 alone is no height", |heights| {
        let right = sum(heights);
        Summary { heights: right.heights.filter(|bits| bits[1] > 0), ..right }
    }),
    ("the first record isn't counted", |heights| sum(heights.get(1..).unwrap_or(&[]))),
    ("the last record isn't counted", |heights| sum(&heights[..heights.len().saturating_sub(1)])),
    ("records up to the first that is unfit", |heights| {
        let end = heights.iter().position(|&height| height == Height::Unfit);
        sum(&heights[..end.unwrap_or(heights.len())])
    }),
    ("255 records at the most", |heights| sum(&heights[..heights.len().min(255)])),
    ("1,023 records at the most", |heights| sum(&heights[..heights.len().min(1_023)])),
    ("counts of one byte", |heights| counts_by(heights, |counts| counts.map(|count| count % 256))),
];
