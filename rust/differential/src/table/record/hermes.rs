//! A sample of what is right in Hermes mode, by the second implementation of this comparison.

use harness::Random;

use super::super::case::hermes::Hermes;
use super::super::case::strings::{Case, ROW};
use super::super::groups::hermes::{any_case, long, WORKED};
use super::super::groups::{small, IDENTIFIER};
use super::decoded;
use crate::record::{Sample, DECODE_STRINGS_HERMES};

/// Its group among those of the string tables.
pub const GROUP: usize = 4;

fn add(sample: &mut Sample, case: Case) {
    let right = Hermes(case).decoded();
    decoded(sample, (GROUP, DECODE_STRINGS_HERMES), case, right);
}

pub fn write(sample: &mut Sample, random: &mut Random) {
    for worked in WORKED {
        let right = worked.rows.map(|rows| rows.as_flattened().to_vec());
        assert_eq!(Hermes(worked.case).decoded(), right);
        add(sample, worked.case);
    }
    runs(sample);
    pairs(sample);
    rows(sample);
    let mut left = 60;
    while left > 0 {
        let made = any_case(random);
        let case = made.case();
        if case.lent <= 50 && case.storage.len() <= 60 {
            add(sample, case);
            left -= 1;
        }
    }
}

const PLAIN: Case<'_> =
    Case { count: 4, kinds: &[], small: &[], overflow: &[], storage: b"abcdefgh", lent: 4 * ROW };

/// Empty runs at each place, runs that name too few or too many strings, lengths whose sums pass 2^32.
fn runs(sample: &mut Sample) {
    let four = [small(false, 0, 1), small(true, 1, 1), small(false, 2, 1), small(false, 3, 9)];
    let most = IDENTIFIER - 1;
    let runs: [&[u32]; 14] = [
        &[0],
        &[IDENTIFIER],
        &[IDENTIFIER; 8],
        &[IDENTIFIER + 4],
        &[IDENTIFIER + 3, IDENTIFIER],
        &[0, IDENTIFIER + 2, 1, IDENTIFIER + 1],
        &[IDENTIFIER + 2, 0, IDENTIFIER, 0, 1, IDENTIFIER + 1],
        &[1, IDENTIFIER, 1, IDENTIFIER, IDENTIFIER + 1],
        &[2, IDENTIFIER + 2, 0],
        &[2, 0, 0, 0, IDENTIFIER + 1, IDENTIFIER],
        &[IDENTIFIER, 1, IDENTIFIER + most],
        &[u32::MAX, most, most, 1],
        &[1, u32::MAX, u32::MAX, 1],
        &[most, u32::MAX],
    ];
    for kinds in runs {
        for count in [2, 4] {
            add(sample, Case { count, kinds, small: &four, ..PLAIN });
        }
    }
}

/// Two entries with each number around the pairs, which are none to three, and half a pair more; far numbers.
fn pairs(sample: &mut Sample) {
    let overflow = [5, 1, 0, 2, 2, 3, 1];
    for words in [0, 1, 2, 3, 5, 6, 7] {
        for [first, second] in [[0, 0], [1, 0], [0, 1], [2, 0], [2, 2], [0, 3]] {
            let entries = &[long(false, first), small(false, 1, 254), long(true, second)];
            let overflow = &overflow[..words];
            add(sample, Case { small: entries, overflow, kinds: &[0, IDENTIFIER + 1], ..PLAIN });
        }
    }
    for number in [4, 1 << 8, 1 << 16, 1 << 22, (1 << 23) - 1] {
        let entries = &[long(false, 0), long(false, number)];
        add(sample, Case { small: entries, overflow: &overflow[..6], ..PLAIN });
    }
}

/// Rows that are too few, just enough and more; the pair of the last string missing or not.
fn rows(sample: &mut Sample) {
    for lent in [0, 3, 4, 7, 8, 9, 12] {
        for number in [1, 2] {
            let entries = &[long(true, 1), long(false, number)];
            let overflow = &[0, 1, 1, 2];
            add(sample, Case { small: entries, overflow, lent, ..PLAIN });
        }
    }
}
