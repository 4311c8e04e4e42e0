//! A sample of what is right of why a function has no handlers.

use std::collections::BTreeMap;

use harness::Random;

use super::super::case::handlers::{function, FLAGS, FUNCTION, HAS, INFO_OFFSET};
use super::super::case::why::{Why, CUT, SHOWN};
use super::super::groups;
use super::super::groups::why::{worked_file, WORKED};
use super::MOST_GIVEN;
use crate::case::code;
use crate::function::groups::{around_rows, FIRST_PAST};
use crate::inputs::{any_bytes, any_words};
use crate::record::{Record, Sample, FILL, WHY_NO_HANDLERS};

/// Its group among those of handlers and sections.
pub const GROUP: usize = 3;

/// The records, and how many have each answer.
struct Whys<'a> {
    sample: &'a mut Sample,
    seen: BTreeMap<u32, usize>,
}

impl Whys<'_> {
    fn add(&mut self, file: &[u8], functions: &[u32], id: u32) {
        assert!(functions.len() <= MOST_GIVEN);
        let right = Why { file, functions, id }.right();
        let number = right.map_or_else(|why| why.0, |_| 0);
        if let Ok((why, _)) = right {
            *self.seen.entry(why).or_default() += 1;
        }
        let shown = right.ok().filter(|&(why, _)| why == SHOWN);
        let handlers = shown.map_or(FILL, |(_, handlers)| handlers);
        let record = Record::new(WHY_NO_HANDLERS, &[], &[id], file)
            .answer(&[code(right.map(|(why, _)| why)), handlers.into()])
            .words(functions);
        self.sample.add(GROUP, number, record);
    }
}

pub fn write(sample: &mut Sample, random: &mut Random) {
    let mut whys = Whys { sample, seen: BTreeMap::new() };
    // Of the long files one is enough: a thousand handlers, all of them there.
    for (len, count, info, flags, told) in WORKED {
        if len < 100 || told.0 == SHOWN {
            whys.add(&worked_file(len, count), &function(info, flags), 0);
        }
    }
    cut(&mut whys, random);
    rows(&mut whys, random);
    while whys.sample.fewer(600) {
        any(&mut whys, random);
    }
    // Last one with a number: it is spoiled in every way.
    whys.add(&worked_file(36, (4, 2)), &function(3, HAS), 0);
    let all: Vec<u32> = whys.seen.iter().filter(|(_, &of)| of > 3).map(|(&why, _)| why).collect();
    assert!(all.into_iter().eq(SHOWN..=CUT), "not each answer is in the sample: {:?}", whys.seen);
}

/// Two handlers at 4, cut at every byte; every place around them.
fn cut(whys: &mut Whys, random: &mut Random) {
    let mut file = any_bytes(random, 33);
    file[4..8].copy_from_slice(&2u32.to_le_bytes());
    for len in 3..=33 {
        whys.add(&file[..len], &function(3, HAS), 0);
    }
    for info in (28..=34).chain([1 << 30, 1 << 31, u32::MAX - 3, u32::MAX - 2, u32::MAX]) {
        whys.add(&file, &function(info, !0), 0);
    }
}

/// One function of three, of rows whose other words are any; functions that are not there, and words that make no row.
fn rows(whys: &mut Whys, random: &mut Random) {
    let mut file = any_bytes(random, 24);
    file[4..8].copy_from_slice(&1u32.to_le_bytes());
    file[20..].fill(0);
    let mut functions = any_words(random, 3 * FUNCTION);
    for (i, (info, flags)) in [(4, HAS), (20, !0), (4, !HAS)].into_iter().enumerate() {
        let row = &mut functions[i * FUNCTION..][..FUNCTION];
        (row[INFO_OFFSET], row[FLAGS]) = (info, flags);
    }
    for words in around_rows(3) {
        for id in 0..=(words / FUNCTION) as u32 + 1 {
            whys.add(&file, &functions[..words], id);
        }
    }
    for id in [FIRST_PAST, FIRST_PAST + 1, 1 << 28, (1 << 28) + 1, 1 << 31, u32::MAX] {
        whys.add(&file, &functions, id);
    }
}

fn any(whys: &mut Whys, random: &mut Random) {
    let made = groups::handlers::any(random);
    if made.file.len() <= 90 && (1..=3).contains(&made.count) {
        let id = random.below(made.count as usize) as u32;
        whys.add(&made.file, &made.functions, id);
    }
}
