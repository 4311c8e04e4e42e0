//! A sample of what is right of rows that are written, by the second writer of this comparison.

use harness::Random;

use super::super::case::write::{plain, OVERFLOW};
use super::super::case::{Layout, FLAGS, INFO_OFFSET, INLINE, LAYOUTS, PLACE, ROW};
use super::super::groups::write::{any_draft, inline_row, large_row, Draft};
use super::super::groups::{around_rows, FIRST_PAST};
use super::{MOST_ROWS, WORKED};
use crate::case::code;
use crate::inputs::bytes_of;
use crate::record::{Record, Sample, FILL_BYTE, WRITE_FUNCTIONS};

/// The bytes of buffer for which the program has room.
const MOST_BUFFER: usize = 256;

/// The refusals of a group; no buffer of 2^30 bytes is in the sample, nor a layout that there is not.
pub fn answers(layout: usize) -> &'static [u32] {
    match layout {
        0 => &[0, 2, 4, 11, 13, 15],
        _ => &[0, 2, 4, 11, 13, 14, 15],
    }
}

/// The first of the two groups.
pub const GROUP: usize = 12;

fn add(sample: &mut Sample, draft: &Draft) {
    let (case, len) = (draft.case(), draft.buffer.len());
    assert!(case.rows.len() <= MOST_ROWS * ROW && len <= MOST_BUFFER);
    let mut buffer = vec![FILL_BYTE; len];
    let answer = plain(&case, len).map(|plain| {
        for (at, piece) in &plain.pieces {
            buffer[*at..][..piece.len()].copy_from_slice(piece);
        }
        plain.end
    });
    let asked = [case.start, case.large, 0, len].map(|n| n as u64);
    let record =
        Record::new(WRITE_FUNCTIONS, &asked, &[case.layout, case.count], &bytes_of(case.rows));
    let record = record.answer(&[code(answer), 0]).part(&buffer);
    let number = answer.map_or_else(|why| why.0, |_| 0);
    sample.add(GROUP + case.layout as usize, number, record);
}

pub fn write(sample: &mut Sample, random: &mut Random) {
    for layout in LAYOUTS {
        worked(sample, random, layout);
        edges(sample, random, layout);
        last_words(sample, random, layout);
        wrong(sample, random, layout);
    }
    let mut left = 60;
    while left > 0 {
        let draft = any_draft(random);
        if draft.count <= 3 && draft.buffer.len() <= 200 {
            add(sample, &draft);
            left -= 1;
        }
    }
}

/// P1, P2 and P5 of docs/FORMAT.md, section 10.1, as they are written; and each kind of row at 1, rounded up.
fn worked(sample: &mut Sample, random: &mut Random, layout: Layout) {
    let row = WORKED[layout as usize].to_vec();
    add(sample, &Draft::new(random, layout, row, 0));
    let mut row = vec![0; ROW];
    (row[0], row[FLAGS]) = (layout as u32, OVERFLOW);
    let mut draft = Draft::new(random, layout, row, 0);
    assert_eq!(draft.end(), layout.own() + layout.large());
    add(sample, &draft);
    draft.large += 1;
    add(sample, &draft);
    draft.settle();
    add(sample, &draft);
    draft.buffer.resize(draft.end(), 0);
    add(sample, &draft);
    // Each refusal of a row in so few bytes that it is spoiled in every field.
    let end = draft.buffer.len();
    add(sample, &Draft { start: end + 1, ..draft.clone() });
    add(sample, &Draft { count: 2, ..draft.clone() });
    let mut early = Draft { large: layout.own() - 1, ..draft.clone() };
    early.settle();
    add(sample, &early);
    draft.rows[INFO_OFFSET] ^= 4;
    add(sample, &draft);
    draft.rows[1] = 1;
    add(sample, &draft);
}

/// Starts, counts, places and lengths around what is written, and far from it.
fn edges(sample: &mut Sample, random: &mut Random, layout: Layout) {
    let mut rows = inline_row(random, layout, 0).to_vec();
    rows.extend(large_row(random, layout, 1));
    let good = Draft::new(random, layout, rows, 3);
    let len = good.buffer.len();
    let far = [1 << 30, 1 << 32, 1 << 63, usize::MAX - 3, usize::MAX];
    for large in [0, good.large - 1, good.large + 1].into_iter().chain(far) {
        let mut draft = Draft { large, ..good.clone() };
        draft.settle();
        add(sample, &draft);
        draft.count = 1;
        add(sample, &draft);
    }
    for start in [0, 2, len, len + 1].into_iter().chain(far) {
        add(sample, &Draft { start, ..good.clone() });
    }
    for count in [0, 1, 3, FIRST_PAST, 1 << 28, u32::MAX] {
        add(sample, &Draft { count, ..good.clone() });
    }
    for less in [1, layout.large(), len - 3, len] {
        let mut draft = good.clone();
        draft.buffer.truncate(len - less);
        add(sample, &draft);
    }
    for words in around_rows(2).into_iter().filter(|&words| words < 2 * ROW) {
        let mut draft = good.clone();
        draft.rows.truncate(words);
        add(sample, &draft);
    }
}

/// An inline row and a large one: whatever their last words are, the bytes are the same.
fn last_words(sample: &mut Sample, random: &mut Random, layout: Layout) {
    let mut rows = inline_row(random, layout, 0).to_vec();
    rows.extend(large_row(random, layout, 1));
    let mut draft = Draft::new(random, layout, rows, 0);
    let place = draft.large.next_multiple_of(4) as u32;
    for (inline, large) in [(INLINE, place), (place, INLINE), (0, 0), (1 << 30, INLINE - 1)] {
        (draft.rows[PLACE], draft.rows[ROW + PLACE]) = (inline, large);
        add(sample, &draft);
    }
}

/// One word of the second row wrong, and of two rows that are wrong the first.
fn wrong(sample: &mut Sample, random: &mut Random, layout: Layout) {
    let mut rows = inline_row(random, layout, 0).to_vec();
    rows.extend(inline_row(random, layout, 1));
    let good = Draft::new(random, layout, rows, 0);
    for word in 0..ROW {
        let mut draft = good.clone();
        draft.rows[ROW + word] ^= 1 << 8;
        add(sample, &draft);
    }
    let mut both = good.clone();
    both.rows[0] = 2;
    both.rows[ROW + 1] = 0;
    add(sample, &both);
    // A wide size, and the info_offset that would be right, 4 more, and none.
    let mut wide = good.clone();
    wide.rows[ROW + 4] = 1 << 15;
    wide.buffer = vec![0; 90];
    wide.settle();
    add(sample, &wide);
    wide.rows[ROW + INFO_OFFSET] += 4;
    add(sample, &wide);
    wide.rows[ROW + INFO_OFFSET] = 0;
    add(sample, &wide);
}
