//! A sample of what is right of bundles, by the second implementation of this comparison.

use std::collections::BTreeMap;

use harness::Random;

use super::case::*;
use super::groups::made::{point, Made};
use super::groups::{LONG, WORKED};
use crate::case::code;
use crate::function::case::LAYOUTS;
use crate::record::{Record, Sample, CHECK_BUNDLE, FILL};

const NAMES: [&str; 3] =
    ["check_bundle, no functions", "check_bundle legacy16", "check_bundle modern12"];
const NO_FUNCTIONS: usize = 0;

/// The words of each table for which the program has room, and the bytes of a file that are few enough.
const MOST_GIVEN: usize = 64;
const MOST_BYTES: usize = 150;

fn answers(group: usize) -> &'static [u32] {
    match group {
        NO_FUNCTIONS => &[0, 2, 3, 7, 8, 12],
        _ => &[0, 2, 3],
    }
}

/// The records, and how many have each answer: 0 clean, and the rules.
struct Bundles {
    sample: Sample,
    seen: BTreeMap<u32, usize>,
}

impl Bundles {
    fn add(&mut self, group: usize, case: &Case) {
        let right = case.right();
        let number = right.map_or_else(|why| why.0, |_| 0);
        let given = [case.kinds, case.small, case.overflow, case.series];
        assert!(given.iter().all(|words| words.len() <= MOST_GIVEN));
        if let Ok(found) = right {
            *self.seen.entry(found.map_or(0, |(rule, _)| rule)).or_default() += 1;
        }
        let Answer { code: _, place } = answer(right, FILL);
        let code = code(right.map(|found| found.map_or(0, |(rule, _)| rule)));
        let numbers = [case.layout, case.count, case.strings];
        let record = Record::new(CHECK_BUNDLE, &[case.start as u64], &numbers, case.file)
            .answer(&[code, place.into()])
            .words(case.kinds)
            .words(case.small)
            .words(case.overflow)
            .given(case.storage)
            .given(case.keys)
            .given(case.values)
            .words(case.series);
        self.sample.add(group, number, record);
    }
}

pub fn write(mut random: Random) -> (Vec<u8>, Vec<String>) {
    let mut bundles = Bundles { sample: Sample::new("clean", &NAMES), seen: BTreeMap::new() };
    for (case, right) in WORKED {
        assert_eq!(case.right(), *right);
        bundles.add(NO_FUNCTIONS, case);
    }
    series(&mut bundles);
    larges(&mut bundles, &mut random);
    while bundles.sample.fewer(200) {
        any(&mut bundles, &mut random);
    }
    // Last ones with a place: they are spoiled in every way.
    for (group, layout) in [(NO_FUNCTIONS, 0), (1, 0), (2, 1)] {
        bundles.add(group, &Case { layout, kinds: &[1, 1, 0], file: &[0; 16], ..NONE });
    }
    let all: Vec<u32> =
        bundles.seen.iter().filter(|(_, &of)| of > 9).map(|(&rule, _)| rule).collect();
    assert!(all.into_iter().eq(0..=5), "not each answer is in the sample: {:?}", bundles.seen);
    bundles.sample.done(answers)
}

/// Three series of which each two are an empty tag's, a high number's, or tidy.
fn series(bundles: &mut Bundles) {
    const ROWS: [[u32; 3]; 4] = [[0, 2, 1], [0, 0, 2], [1, 0, 1], [1, 2, 1]];
    let (keys, values) = (&[0x61, 1, 0x00, 0x51, 0, 1], &[0x01, 0x80, 0x00, 0x01]);
    for first in ROWS {
        for second in ROWS {
            let series = [[0, 0, 1], first, second].concat();
            let case = Case { kinds: &[1], strings: 1, keys, values, series: &series, ..NONE };
            bundles.add(NO_FUNCTIONS, &case);
        }
    }
}

/// Two large headers that touch, share a byte, or start before the table's end, in either order; and a file that is cut.
fn larges(bundles: &mut Bundles, random: &mut Random) {
    for (i, layout) in LAYOUTS.into_iter().enumerate() {
        let (own, large) = (layout.own(), layout.large());
        let end = 1 + 2 * own;
        let mut file = vec![0; end + 2 * large];
        for places in [
            [end, end + large],
            [end + large, end],
            [end + large - 1, end],
            [end, end + large - 1],
            [end + 7, end + 7],
            [end + large, end - 1],
            [end - 1, end + large],
            [end, end - 1],
            [0, end],
            [end, end + large + 1],
            [end + 2 * large + 1, end],
        ] {
            for (id, place) in places.into_iter().enumerate() {
                point(random, layout, &mut file, 1, id, place);
            }
            let case = Case { file: &file, layout: layout as u32, start: 1, count: 2, ..NONE };
            bundles.add(1 + i, &case);
            bundles.add(1 + i, &Case { kinds: &[0], small: &[LONG], ..case });
        }
        let case = Case { file: &file, layout: layout as u32, start: 1, count: 2, ..NONE };
        bundles.add(1 + i, &Case { file: &file[..end - 1], ..case });
        bundles.add(1 + i, &Case { start: file.len() + 1, ..case });
    }
}

/// A small bundle that is clean, and the same with some things changed, until it is not; those that break rules 3 to 5 more
/// often than others.
fn any(bundles: &mut Bundles, random: &mut Random) {
    let mut made = Made::clean(random);
    if made.file.len() > MOST_BYTES || made.series.len() > 9 {
        return;
    }
    let group = 1 + made.layout as usize;
    if random.below(4) == 0 {
        bundles.add(group, &made.case());
    }
    while made.case().right() == Ok(None) {
        made.damage(random);
    }
    let kept = match made.case().right() {
        Ok(Some((STRINGS.., _))) => true,
        Ok(_) => random.below(4) == 0,
        Err((number, _)) => answers(group).contains(&number) && random.below(4) == 0,
    };
    if kept {
        bundles.add(group, &made.case());
    }
}
