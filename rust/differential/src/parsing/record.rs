//! A sample of what is right of handlers and trailing sections.

mod why;

use harness::Random;

use super::case::handlers::{self, function, FUNCTION, HAS};
use super::case::sections;
use super::groups;
use crate::case::code;
use crate::function::groups::around_rows;
use crate::inputs::{any_bytes, any_words};
use crate::record::{Record, Sample, FILL, READ_HANDLERS, TRAILING_SECTIONS};

const NAMES: [&str; 4] = [
    "read_handlers",
    "trailing_sections, sources given",
    "trailing_sections, no sources",
    "why_no_handlers",
];

/// The words for which the program has room, besides those that are not lent; and those of functions.
const MOST_LENT: usize = 120;
const MOST_GIVEN: usize = 112;

fn answers(group: usize) -> &'static [u32] {
    match group {
        0 => &[0, 4, 11],
        why::GROUP => &[0, 11],
        _ => &[0, 2, 3, 4],
    }
}

fn listed(sample: &mut Sample, file: &[u8], functions: &[u32], count: u32, lent: usize) {
    assert!(lent <= MOST_LENT && functions.len() <= MOST_GIVEN);
    let mut rows = vec![FILL; lent];
    let right = handlers::right(&handlers::Case { file, functions, count, rows: &rows });
    if let Ok(found) = &right {
        let words = found.concat();
        rows[..words.len()].copy_from_slice(&words);
    }
    let number = right.as_ref().map_or_else(|why| why.0, |_| 0);
    let total = right.as_ref().map_or(0, |found| found.len());
    let record = Record::new(READ_HANDLERS, &[lent as u64], &[count], file)
        .answer(&[code(right.map(|_| 0)), total as u64])
        .table(&rows)
        .words(functions);
    sample.add(0, number, record);
}

/// The sections from a start, by how many regexps, bytes of storage, CJS modules and sources there are, with up to three
/// words over; the refusal's number.
fn found(
    sample: &mut Sample,
    file: &[u8],
    start: usize,
    counts: [u32; 3],
    sources: Option<u32>,
) -> u32 {
    found_in(sample, file, start, counts, sources, sections::ROWS * sections::ROW + start % 4)
}

fn found_in(
    sample: &mut Sample,
    file: &[u8],
    start: usize,
    counts: [u32; 3],
    sources: Option<u32>,
    lent: usize,
) -> u32 {
    let [regexps, storage, cjs] = counts;
    let mut words = vec![FILL; lent];
    // Beside sources that are not given stands a count that must not be looked at.
    let aside = 1 << 20;
    let right = sections::right(&sections::Case {
        file,
        start,
        regexps,
        storage,
        cjs,
        sources,
        aside,
        rows: &vec![FILL; lent],
    });
    let number = right.as_ref().map_or_else(|why| why.0, |_| 0);
    if let Ok((rows, _)) = &right {
        words[..sections::ROWS * sections::ROW].copy_from_slice(&rows.concat());
    }
    let asked = [start as u64, sources.is_some().into(), lent as u64];
    let counts = [regexps, storage, cjs, sources.unwrap_or(aside)];
    let record = Record::new(TRAILING_SECTIONS, &asked, &counts, file)
        .answer(&[code(right.map(|_| sections::ROWS as u32)), 0])
        .table(&words);
    sample.add(1 + sources.is_none() as usize, number, record);
    number
}

pub fn write(mut random: Random) -> (Vec<u8>, Vec<String>) {
    let mut sample = Sample::new("parsing", &NAMES);
    worked(&mut sample);
    most(&mut sample, &mut random);
    places(&mut sample, &mut random);
    tables(&mut sample, &mut random);
    counts(&mut sample, &mut random);
    while sample.fewer(440) {
        any(&mut sample, &mut random);
    }
    why::write(&mut sample, &mut random);
    sample.done(answers)
}

/// The cases of docs/FORMAT.md, section 10.2: no handler where one of two is cut; a section whose padding leaves the
/// file.
fn worked(sample: &mut Sample) {
    let mut file = [0; 64];
    for (count, rows) in [(2, 0), (1, 1), (0, 0)] {
        file[48] = count;
        assert_eq!(handlers::published(&file, &function(45, HAS)).len(), rows);
        listed(sample, &file, &function(45, HAS), 1, 8);
    }
    let padded = found(sample, &[0; 10], 8, [0, 1, 0], None);
    assert_eq!(padded, 2);
    found(sample, &[0; 12], 9, [0, 0, 0], None);
    for sources in [None, Some(0)] {
        for lent in [0, 4, 19, 20] {
            found_in(sample, &[0; 12], 0, [0, 0, 0], sources, lent);
        }
        // 2 comes before 4, and 4 before the data.
        found_in(sample, &[0; 12], 13, [0, 0, 0], sources, 19);
        found_in(sample, &[0; 12], 0, [0, 13, 0], sources, 19);
    }
}

/// A thousand handlers, for which no rows are lent, and one more, which are not shown; each with room in the file.
fn most(sample: &mut Sample, random: &mut Random) {
    for (count, rows) in [(1000u32, 1000), (1001, 0)] {
        let mut file = any_bytes(random, 8 + 12 * count as usize);
        file[4..8].copy_from_slice(&count.to_le_bytes());
        assert_eq!(handlers::published(&file, &function(4, HAS)).len(), rows);
        listed(sample, &file, &function(4, HAS), 1, 8);
    }
}

/// A table of handlers at every place, cut at every byte, with every reason why none is shown.
fn places(sample: &mut Sample, random: &mut Random) {
    let mut file = any_bytes(random, 36);
    file[4..8].copy_from_slice(&2u32.to_le_bytes());
    for len in 0..=file.len() {
        listed(sample, &file[..len], &function(3, HAS), 1, 9);
    }
    let far = [1 << 30, u32::MAX - 3, u32::MAX - 2, u32::MAX];
    for info in (0..=9).chain(30..=38).chain(far) {
        listed(sample, &file, &function(info, HAS), 1, 12);
    }
    for flags in [0, 1, 7, 8, 16, 247, 255, 256, 264, u32::MAX, u32::MAX - 8] {
        listed(sample, &file, &function(1, flags), 1, 8);
    }
    for count in [0, 1, 2, 3, 999, 1000, 1001, u32::MAX] {
        file[4..8].copy_from_slice(&count.to_le_bytes());
        listed(sample, &file, &function(4, HAS), 1, 8);
    }
}

/// Rows a word short, exact and over; fewer functions than the count says.
fn tables(sample: &mut Sample, random: &mut Random) {
    let mut file = any_bytes(random, 40);
    file[4..8].copy_from_slice(&2u32.to_le_bytes());
    file[36..40].fill(0);
    let mut functions = any_words(random, 3 * FUNCTION);
    for (i, info) in [4, 36, 1].into_iter().enumerate() {
        let row = &mut functions[i * FUNCTION..][..FUNCTION];
        (row[handlers::INFO_OFFSET], row[handlers::FLAGS]) = (info, HAS);
    }
    for lent in 0..=18 {
        listed(sample, &file, &functions, 3, lent);
    }
    for words in around_rows(3) {
        for count in [0, 1, 2, 3, 4, u32::MAX] {
            listed(sample, &file, &functions[..words], count, 16);
        }
    }
}

/// All small counts, from starts at every remainder by 4; counts and starts that no file has.
fn counts(sample: &mut Sample, random: &mut Random) {
    let file = any_bytes(random, 39);
    for start in 0..=4 {
        for regexps in [0, 1, 2] {
            for storage in [0, 1, 4, 7] {
                for cjs in [0, 1] {
                    let sources = [Some(0), Some(1), None][random.below(3)];
                    found(sample, &file, start, [regexps, storage, cjs], sources);
                }
            }
        }
    }
    for end in 0..=file.len() {
        found(sample, &file[..end], 1, [1, 3, 1], Some(1));
        found(sample, &file[..end], 2, [1, 5, 0], None);
    }
    let far = [39, 40, 1 << 30, 1 << 32, 1 << 63, usize::MAX];
    for start in far {
        for storage in [0, 1] {
            found(sample, &file, start, [0, storage, 0], Some(0));
            found(sample, &file, start, [0, storage, 0], None);
        }
    }
    for many in [1 << 27, 1 << 29, 1 << 31, u32::MAX] {
        for place in 0..4 {
            let mut counts = [0; 4];
            counts[place] = many;
            let [regexps, storage, cjs, sources] = counts;
            found(sample, &file, 3, [regexps, storage, cjs], Some(sources));
        }
        found(sample, &file, 3, [1, 1, many], None);
    }
}

fn any(sample: &mut Sample, random: &mut Random) {
    let made = groups::handlers::any(random);
    let total = handlers::published(&made.file, &made.functions).len();
    if made.file.len() <= 90 && made.count <= 3 && total <= 8 {
        let over = random.below(5);
        let lent = 4 * total + over;
        let short = random.below(lent + 1);
        let lent = random.pick(&[lent, lent, lent, short]);
        listed(sample, &made.file, &made.functions, made.count, lent);
    }
    let len = random.below(60);
    let file = any_bytes(random, len);
    let rows = [FILL; sections::ROWS * sections::ROW];
    let case = groups::sections::any(random, &file, &rows);
    let counts = [case.regexps, case.storage, case.cjs];
    found(sample, &file, case.start, counts, case.sources);
}
