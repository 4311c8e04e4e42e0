//! The two totals beside a table, a second time: from the request's sentences, row by row, in numbers that can fall below 0
//! and pass 2^64.

use super::{INLINE, PLACE, ROW, SIZE};
use crate::case::Refusal;
use crate::lent::Number;

/// Rows read from large headers, and the sum of the size words.
pub type Totals = [u64; 2];

/// The greatest that a total may be after a row is added.
pub const MOST: u64 = (1 << 63) - 1;

/// What a row counts for in each: 1 if its 17th word isn't 2^32 - 1, and its size word.
pub fn shares(row: &[u32]) -> [i128; 2] {
    [(row[PLACE] != INLINE).into(), row[SIZE].into()]
}

/// Those that are true of the first `count` rows of a table, or of all where there are fewer.
pub fn of(table: &[u32], count: u32) -> Totals {
    let mut sums = [0; 2];
    for row in table.chunks_exact(ROW).take(count as usize) {
        let [large, size] = shares(row);
        sums = [sums[0] + large, sums[1] + size];
    }
    sums.map(|sum| sum.try_into().expect("a sum of fewer than 2^32 rows"))
}

/// A row that a refresh rewrites: its number, as it was lent, and as it is read again.
pub type Rewritten<'a> = (u32, &'a [u32], &'a [u32]);

/// Each old row taken out before its new one is added; refused at the first where a total falls below 0 by taking out, or is
/// above 2^63 - 1 after adding.
pub fn carried<'a>(
    lent: Totals,
    rewritten: impl Iterator<Item = Rewritten<'a>>,
) -> Result<Totals, Refusal> {
    let mut totals = lent.map(i128::from);
    for (id, old, new) in rewritten {
        let (out, back) = (shares(old), shares(new));
        let rest = [totals[0] - out[0], totals[1] - out[1]];
        totals = [rest[0] + back[0], rest[1] + back[1]];
        let below = rest.iter().any(|&rest| rest < 0);
        let above = totals.iter().any(|&total| total > MOST.into());
        if below || above {
            return Err((16, id));
        }
    }
    Ok(totals.map(|total| total.try_into().expect("a total that is neither too low nor too high")))
}

/// Both as they are lent, each between two numbers that no call may touch.
pub struct Lent([Number<u64>; 2]);

impl Lent {
    pub fn new(totals: Totals) -> Self {
        Lent(totals.map(|total| Number::new(total, !total)))
    }

    pub fn lent(&mut self) -> [*mut u64; 2] {
        self.0.each_mut().map(Number::lent)
    }

    /// What they hold; an error where a number beside them was written.
    pub fn held(&self) -> Result<Totals, String> {
        let [large, sizes] = &self.0;
        Ok([large.held()?, sizes.held()?])
    }
}
