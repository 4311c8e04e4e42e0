//! The groups of inputs on which the two sides of the function tables are compared.

pub mod panes;
pub mod totals;
pub mod write;

use std::collections::BTreeSet;

use bisquepond::function::FunctionRow;
use bisquepond::sys::LIMIT;
use bisquepond::Row as _;
use harness::Random;

use super::case::Op::*;
use super::case::{fresh, Case, Layout, Op, INLINE, LAYOUTS, OPS, PLACE, RECORD, ROW};
use super::differences;
use crate::case::{code, Compared, Difference, Refusal};
use crate::inputs::{any_bytes as bytes, any_words as words};
use crate::run::Run;

pub fn compare(run: &mut Run) -> Compared {
    run.group("worked cases of docs/FORMAT.md", worked)?;
    run.group("every bit of a header", bits)?;
    run.group("every flags byte, inline and large", flags)?;
    run.group("lengths, starts, counts and tables", edges)?;
    run.group("every number of words lent", lent)?;
    run.group("packed places around the end, and far", places)?;
    run.group("the place in the row", place_in_row)?;
    run.group("every span over small files", spans)?;
    run.group("edits, any table lent, and fresh reads", |run| {
        let mut random = run.random(7);
        (0..20_000).try_for_each(|_| edit(run, &mut random))
    })?;
    totals::compare(run)?;
    panes::compare(run)?;
    write::compare(run)?;
    run.group("a file of 2^30 bytes", longest)?;
    run.group("2^30 + 1 bytes, against docs/FORMAT.md", too_long)?;
    if run.full {
        run.group("10^6 functions over 2^30 bytes", many)?;
    }
    run.group("the differences that docs list", differences::listed)?;
    run.group("random", random)
}

/// A file, and where its table is said to be.
#[derive(Clone)]
pub struct Table {
    pub file: Vec<u8>,
    pub layout: Layout,
    pub start: usize,
    pub count: u32,
}

impl Table {
    pub fn new(layout: Layout, file: Vec<u8>, start: usize, count: u32) -> Self {
        Table { file, layout, start, count }
    }

    pub fn case<'a>(&'a self, op: Op, table: &'a [u32]) -> Case<'a> {
        Case {
            op,
            file: &self.file,
            layout: self.layout as u32,
            start: self.start,
            count: self.count,
            low: 0,
            high: 0,
            table,
            totals: None,
        }
    }

    pub fn refresh<'a>(&'a self, (low, high): (usize, usize), table: &'a [u32]) -> Case<'a> {
        Case { low, high, ..self.case(Refresh, table) }
    }

    fn header(&mut self, id: u32) -> &mut [u8] {
        let at = self.start + id as usize * self.layout.own();
        &mut self.file[at..][..self.layout.own()]
    }

    /// The packed place of function `id`, if it is flagged.
    pub fn place(&self, id: u32) -> Option<u64> {
        let (_, header) = self.layout.header(&self.file, self.start, id)?;
        self.layout.place(header)
    }

    /// Flags function `id` and packs a place into its header. What the fields have in common is split by chance.
    pub fn point(&mut self, random: &mut Random, id: u32, place: u64) {
        let layout = self.layout;
        let any = random.word();
        let mut set = |first: usize, width: usize, value: u64| {
            let header = self.header(id);
            for bit in 0..width {
                let (byte, mask) = ((first + bit) / 8, 1 << ((first + bit) % 8));
                header[byte] &= !mask;
                if value >> bit & 1 != 0 {
                    header[byte] |= mask;
                }
            }
        };
        match layout {
            Layout::Legacy => {
                // Bits 16 to 24 of the place may stand in the offset, in info_offset or in both.
                let offset = place & (0xFFFF | any << 16) & 0x1FF_FFFF;
                let info = place >> 16 & !(offset >> 16 & any >> 9);
                set(0, 25, offset);
                set(64, 25, info);
                set(125, 1, 1);
            }
            Layout::Modern => {
                // Bit 24 of the offset is no part of the place.
                set(0, 25, place & 0xFF_FFFF | (any & 1) << 24);
                set(46, 8, place >> 24);
                set(93, 1, 1);
            }
        }
        assert_eq!(self.place(id), Some(place));
    }
}

/// Compares, and sees that both sides answer what docs/FORMAT.md prints: one row, which begins with these words, or a
/// refusal, which leaves all as it was.
fn says(run: &mut Run, case: Case, told: Result<&[u32], Refusal>) -> Compared {
    let answer = run.compare(&case)?;
    let first = told.unwrap_or(case.table);
    assert_eq!(answer.code, code(told.map(|_| 1)));
    assert_eq!(answer.table[..first.len()], *first);
    Ok(())
}

fn worked(run: &mut Run) -> Compared {
    let mut random = run.random(1);
    let lent = words(&mut random, 3 * ROW + 5);
    let mut table = Table::new(
        Layout::Legacy,
        vec![0, 1, 0, 4, 0x0A, 0x80, 1, 0, 0, 0, 0, 0x0A, 1, 2, 3, 4],
        0,
        1,
    );
    let p1 = [0, 0, 256, 2, 10, 3, 0, 5, 4, 1, 2, 3, 0, 0, 0, 0, INLINE];
    says(run, table.case(Read, &lent), Ok(&p1))?;
    says(run, table.case(One, &lent).of(One, 0), Ok(&p1))?;
    table.layout = Layout::Modern;
    table.file = vec![0, 1, 0, 0x44, 0x0A, 0xC0, 0, 0x29, 6, 7, 0x48, 4];
    let p2 = [1, 0, 256, 2, 10, 3, 0, 6, 4, 1, 4, 5, 7, 8, 1, 0, INLINE];
    says(run, table.case(Read, &lent), Ok(&p2))?;
    says(run, table.case(One, &lent).of(One, 0), Ok(&p2))?;

    // P3: a large header where the packed parts or-ed lead, another where their sum would.
    table.layout = Layout::Legacy;
    table.file = vec![0; 131_088 + 31];
    table.file[..16].copy_from_slice(&[0x10, 0, 1, 0, 0, 0, 0, 0, 1, 0, 0, 0, 0, 0, 0, 0x20]);
    table.file[65_552] = 7;
    table.file[131_088] = 9;
    let mut p3 = [0; ROW];
    (p3[2], p3[PLACE]) = (7, 65_552);
    says(run, table.case(Read, &lent), Ok(&p3))?;

    // P4: the same beyond 2^24, in the modern layout.
    table.layout = Layout::Modern;
    table.file = vec![0; 16_777_248 + 37];
    table.file[..12].copy_from_slice(&[0x20, 0, 0, 1, 0, 0x40, 0, 0, 0, 0, 0, 0x20]);
    table.file[16_777_248] = 7;
    let mut p4 = [0; ROW];
    (p4[0], p4[2], p4[6], p4[PLACE]) = (1, 7, 16_777_248 + 40, 16_777_248);
    says(run, table.case(Read, &lent), Ok(&p4))?;

    // P5: a large header that just fits, and one cut by a byte.
    for layout in LAYOUTS {
        let place = layout.own();
        table.layout = layout;
        table.file = vec![0; place + layout.large()];
        table.point(&mut random, 0, place as u64);
        let mut p5 = [0; ROW];
        p5[0] = layout as u32;
        p5[6] = 52 * layout as u32;
        p5[PLACE] = place as u32;
        says(run, table.case(Read, &lent), Ok(&p5))?;
        says(run, table.case(One, &lent).of(One, 0), Ok(&p5))?;
        table.file.pop();
        says(run, table.case(Read, &lent), Err((3, 0)))?;
    }

    // The large header of function 0 cut, and header 1 cut: a fresh read names the first, a refresh the second.
    for layout in LAYOUTS {
        let mut table = Table::new(layout, vec![0; 2 * layout.own() - 1], 0, 2);
        table.point(&mut random, 0, 1);
        says(run, table.case(Read, &lent), Err((3, 0)))?;
        let span = (0, table.file.len());
        says(run, table.refresh(span, &lent), Err((3, 1)))?;
        says(run, table.refresh((0, 0), &lent), Err((3, 1)))?;
    }
    Ok(())
}

/// Headers and large headers with one bit set, with one bit clear, and at random.
fn bits(run: &mut Run) -> Compared {
    let mut random = run.random(2);
    let lent = words(&mut random, 2 * ROW);
    for layout in LAYOUTS {
        let (own, large) = (layout.own(), layout.large());
        let mut table = Table::new(layout, bytes(&mut random, own + large + 3), 0, 1);
        for (from, size) in [(0, own), (own, large)] {
            for bit in 0..8 * size {
                for fill in [0, 0xFF] {
                    table.file[..own].fill(0);
                    if from > 0 {
                        table.point(&mut random, 0, from as u64);
                    }
                    table.file[from..][..size].fill(fill);
                    table.file[from + bit / 8] ^= 1 << (bit % 8);
                    run.compare(&table.case(Read, &lent))?;
                    run.compare(&table.case(One, &lent))?;
                }
            }
        }
        for _ in 0..20_000 {
            table.file = bytes(&mut random, own + large + 3);
            if random.below(2) == 0 {
                table.file[own - 1] &= !0x20;
            } else {
                let place = random.below(8) + own - 4;
                table.point(&mut random, 0, place as u64);
            }
            run.compare(&table.case(Read, &lent))?;
        }
    }
    Ok(())
}

/// Only bit 5 of the header's own flags leads to a large header, whose flags are never followed.
fn flags(run: &mut Run) -> Compared {
    let mut random = run.random(3);
    let lent = words(&mut random, ROW);
    for layout in LAYOUTS {
        let (own, large) = (layout.own(), layout.large());
        let mut table = Table::new(layout, bytes(&mut random, own + large), 0, 1);
        table.point(&mut random, 0, own as u64);
        for inline in 0..=255 {
            table.file[own - 1] = inline;
            for flags in 0..=255 {
                table.file[own + large - 1] = flags;
                run.compare(&table.case(Read, &lent))?;
            }
        }
    }
    Ok(())
}

/// Starts that no file here has.
const FAR: [usize; 8] = [
    LIMIT,
    LIMIT + 1,
    (1 << 32) - 1,
    1 << 32,
    1 << 63,
    usize::MAX - 15,
    usize::MAX - 1,
    usize::MAX,
];

/// The first row that begins at 2^32 words or past them: counted in 32 bits it begins at word 0, or at one of the first.
pub const FIRST_PAST: u32 = ((1u64 << 32).div_ceil(ROW as u64)) as u32;

/// Numbers of words up to so many rows: none, one; those of each number of rows, and of as many records, which make a row
/// less; and of both a word less.
pub fn around_rows(rows: usize) -> BTreeSet<usize> {
    let each = |row: usize| [row * ROW - 1, row * ROW, row * RECORD - 1, row * RECORD];
    (1..=rows).flat_map(each).chain([0, 1]).collect()
}

/// Counts and numbers that no table here has.
const MANY: [u32; 7] =
    [1 << 26, FIRST_PAST, FIRST_PAST + 1, 1 << 28, 1 << 31, u32::MAX - 1, u32::MAX];

/// Every start in and behind short files, counts up to the file's end and past it, and tables with too few words, just
/// enough, and some over; every call, also with layouts that there are not.
fn edges(run: &mut Run) -> Compared {
    let mut random = run.random(4);
    let lent = words(&mut random, 8 * ROW);
    for layout in LAYOUTS {
        for len in 0..=5 * layout.own() + 2 {
            let mut file = bytes(&mut random, len);
            if len % 3 > 0 {
                file.iter_mut().for_each(|byte| *byte &= 0xDF);
            }
            for start in (0..=len + 2).chain(FAR) {
                let fit = len.saturating_sub(start) / layout.own();
                for count in (0..=fit as u32 + 1).chain([random.pick(&MANY)]) {
                    let rows = (count as usize).min(7);
                    let (records, rows) = (rows * RECORD, rows * ROW);
                    let over = rows + random.below(ROW);
                    for words in [records, rows.saturating_sub(1), rows, over] {
                        let mut table = Case {
                            op: Read,
                            file: &file,
                            layout: layout as u32,
                            start,
                            count,
                            low: random.below(len + 1),
                            high: random.below(len + 2),
                            table: &lent[..words],
                            totals: None,
                        };
                        for op in OPS {
                            table.op = op;
                            run.compare(&table)?;
                        }
                        table.op = random.pick(&OPS);
                        table.layout = random.pick(&[2, 3, 1 << 31, u32::MAX]);
                        run.compare(&table)?;
                    }
                }
            }
        }
    }
    Ok(())
}

/// No words to some more than five rows, for each count around those that they are: a table has as many rows as a row's
/// words go into it, and what is left over stays.
fn lent(run: &mut Run) -> Compared {
    let mut random = run.random(11);
    for layout in LAYOUTS {
        let mut table = any_table(&mut random, Some(layout));
        (table.start, table.count) = (0, 6);
        table.file = bytes(&mut random, 6 * layout.own() + layout.large());
        for id in 0..6 {
            table.header(id)[layout.own() - 1] &= !0x20;
        }
        table.point(&mut random, 2, 6 * layout.own() as u64);
        let (lent, span) = (words(&mut random, 5 * ROW + RECORD), (0, table.file.len()));
        for words in 0..=lent.len() {
            let rows = (words / ROW) as u32;
            let lent = &lent[..words];
            for count in (0..=rows + 1).chain([(words / RECORD) as u32, u32::MAX]) {
                for op in [Read, Refresh, One] {
                    let answer = run.compare(&table.refresh(span, lent).of(op, count))?;
                    let few = if op == One { rows == 0 } else { count > rows };
                    assert_eq!(answer.code == code(Err((4, 0))), few);
                }
            }
        }
    }
    Ok(())
}

/// The last word of row 1 after a refresh of the rows lent, which is a fresh read's; and all words.
fn last_word(
    run: &mut Run,
    table: &Table,
    span: (usize, usize),
    rows: &[u32],
    place: Option<u32>,
) -> Result<Vec<u32>, Difference> {
    let answer = table.refresh(span, rows).compare_fresh()?;
    run.equal();
    let rows = answer.table[..rows.len()].to_vec();
    let last = [0, 1, 2].map(|id| FunctionRow::rows(&rows)[id].large_place());
    match (rows[ROW + PLACE], last) == (place.unwrap_or(INLINE), [None, place, None]) {
        true => Ok(rows),
        false => {
            Err(format!("the places of a table are {last:?}, of which one is {place:?}").into())
        }
    }
}

/// Function 1 of three with a large header at every byte that it can have, by both layouts: its last word is the place that
/// was packed, and 2^32 - 1 where the flag is clear. By a read, by one function, and by refreshes of the flag and of the
/// place; by a refresh within the large header too, which leaves the word.
fn place_in_row(run: &mut Run) -> Compared {
    let mut random = run.random(12);
    for layout in LAYOUTS {
        let (own, large) = (layout.own(), layout.large());
        let len = 3 * own + large + 9;
        for place in 0..=len - large {
            for start in [0, 1, len - 3 * own] {
                let mut table = Table::new(layout, bytes(&mut random, len), start, 3);
                for id in 0..3 {
                    table.header(id)[own - 1] &= !0x20;
                }
                let (header, flag) = (start + own, start + 2 * own - 1);
                let rows = fresh(&table.file, layout, start, 3).expect("inline headers").concat();
                let rows = last_word(run, &table, (flag, flag + 1), &rows, None)?;
                // The flag and the place, another place, the first one again, and the flag alone, cleared and set.
                let other = random.below(len - large + 1);
                let mut lent = rows;
                for to in [place, other, place] {
                    table.point(&mut random, 1, to as u64);
                    let span = (header, header + own);
                    lent = last_word(run, &table, span, &lent, Some(to as u32))?;
                }
                let all = words(&mut random, 3 * ROW);
                run.compare(&table.case(Read, &all))?;
                let one = run.compare(&table.case(One, &all).of(One, 1))?;
                assert_eq!(one.table[PLACE], place as u32);
                table.file[flag] ^= 0x20;
                lent = last_word(run, &table, (flag, flag + 1), &lent, None)?;
                table.file[flag] ^= 0x20;
                lent = last_word(run, &table, (flag, flag + 1), &lent, Some(place as u32))?;
                // A byte of the large header that is none of a header's.
                let apart = |at: &usize| !(start..start + 3 * own).contains(at);
                if let Some(at) = (place..place + large).find(apart) {
                    table.file[at] ^= random.byte();
                    last_word(run, &table, (at, at + 1), &lent, Some(place as u32))?;
                }
            }
        }
    }
    Ok(())
}

/// Large headers at every byte, up to the end and past it, and at the edges of what can be packed.
fn places(run: &mut Run) -> Compared {
    let mut random = run.random(5);
    for layout in LAYOUTS {
        let (own, large) = (layout.own(), layout.large());
        for len in [2 * own, 2 * own + large - 1, 2 * own + large, 120] {
            let far = [(1 << 24) - 1, 1 << 24, 1 << 25, 1 << 30, (1 << 32) - 1];
            let farther = [1 << 32, (1 << 40) + 3, (1 << 41) - 1];
            let packed = (0..=len as u64 + 3).chain(far);
            let packed = packed.chain(farther.into_iter().filter(|_| layout == Layout::Legacy));
            for place in packed {
                let mut table =
                    Table::new(layout, bytes(&mut random, len), random.below(len - 2 * own + 1), 2);
                table.header(0)[own - 1] &= !0x20;
                table.point(&mut random, 1, place);
                let lent = words(&mut random, 3 * ROW);
                run.compare(&table.case(Read, &lent))?;
                run.compare(&table.case(One, &lent).of(One, 1))?;
                run.compare(&table.case(Ground, &lent).of(Ground, 1))?;
                // Spans that end before it, at its first byte, at its last and behind it; also past the file's end.
                let place = place as usize;
                for at in [place.saturating_sub(1), place, place + large - 1, place + large] {
                    for span in [(at, at), (at, at + 1), (at, at + 9), (0, at), (at + 1, at)] {
                        run.compare(&table.refresh(span, &lent))?;
                        for id in [0, 1, 2] {
                            run.compare(&table.refresh(span, &[]).of(Meets, id))?;
                        }
                    }
                }
            }
        }
    }
    Ok(())
}

/// Every span over files of three functions, reversed ones and those past the end too.
fn spans(run: &mut Run) -> Compared {
    let mut random = run.random(6);
    for round in 0..8 {
        let layout = LAYOUTS[round % 2];
        let mut table = any_table(&mut random, Some(layout));
        table.count = 3;
        table.start = random.below(40);
        let len = table.start + 3 * layout.own() + layout.large() + random.below(12);
        table.file = bytes(&mut random, len);
        for id in 0..3 {
            let place = any_place(&mut random, &table);
            table.point(&mut random, id, place);
            if random.below(4) == 0 {
                table.header(id)[layout.own() - 1] &= !0x20;
            }
        }
        let lent = words(&mut random, 3 * ROW + 1);
        for low in 0..=len + 1 {
            for high in 0..=len + 1 {
                run.compare(&table.refresh((low, high), &lent))?;
            }
        }
    }
    Ok(())
}

/// Mostly a place from which a large header can be read: before the table, in it or behind it.
fn any_place(random: &mut Random, table: &Table) -> u64 {
    let (len, large) = (table.file.len(), table.layout.large());
    let last = len.saturating_sub(large);
    (match random.below(24) {
        0 => last + 1 + random.below(large + 2),
        1 => last,
        2 => 0,
        3 => random.pick(&[1 << 24, (1 << 25) - 1, (1 << 32) - 1]),
        _ => random.below(last + 1),
    }) as u64
}

/// A table of up to 14 functions, half of them flagged, somewhere in a file of random bytes.
pub fn any_table(random: &mut Random, layout: Option<Layout>) -> Table {
    let layout = layout.unwrap_or_else(|| random.pick(&LAYOUTS));
    let count = random.pick(&[0, 1, 1, 2, 2, 3, 4, 6, 9, 14]);
    let near = random.below(90);
    let start = random.pick(&[0, 0, 1, 4, near, near]);
    let len = start + count as usize * layout.own();
    let behind = random.below(200);
    let behind = random.pick(&[0, behind, behind, behind]);
    let mut table = Table::new(layout, bytes(random, len + behind), start, count);
    for id in 0..count {
        if random.below(2) == 0 || table.file.len() < layout.large() {
            table.header(id)[layout.own() - 1] &= !0x20;
        } else {
            let place = any_place(random, &table);
            table.point(random, id, place);
        }
    }
    table
}

/// An edit of a file, and the span that it stays in.
pub fn edited(random: &mut Random, before: &Table) -> (Table, (usize, usize)) {
    let mut after = before.clone();
    let len = before.file.len();
    let (own, large) = (before.layout.own(), before.layout.large());
    let id = random.below(before.count.max(1) as usize) as u32;
    let at = before.start + id as usize * own;
    let place = match before.place(id) {
        Some(place) if before.count > 0 && place < len as u64 => place as usize,
        _ => random.below(len + 1),
    };
    let few = 1 + random.below(4);
    let kind = random.below(12);
    let (low, high) = match kind {
        // The flag alone, or the packed place with its flag.
        0 if before.count > 0 => (at + own - 1, at + own),
        1 | 2 if before.count > 0 => (at, at + own),
        // Within a large header, wherever it is; touching it by one byte at either end; next to it.
        3 => (place + random.below(large), place + large),
        4 => (place.saturating_sub(few), place + 1),
        5 => (place + large - 1, place + large - 1 + few),
        6 => random.pick(&[(place.saturating_sub(few), place), (place + large, len)]),
        // Touching a header by one byte.
        7 => random.pick(&[(at.saturating_sub(few), at + 1), (at + own - 1, at + own)]),
        // Both ends, everything, nothing.
        8 => random.pick(&[(0, few), (len.saturating_sub(few), len), (0, len)]),
        9 => random.pick(&[(at, at), (place, place), (0, 0), (len, len)]),
        _ => (random.below(len + 1), random.below(len + 1)),
    };
    let (low, high) = (low.min(high).min(len), low.max(high).min(len));
    match kind {
        0 if before.count > 0 => after.file[low] ^= 0x20,
        1 | 2 if before.count > 0 => {
            let place = any_place(random, before);
            after.point(random, id, place);
        }
        _ if random.below(4) > 0 => {
            let chance = random.pick(&[1, 1, 4]);
            for byte in &mut after.file[low..high] {
                if random.below(chance) == 0 {
                    *byte = random.byte();
                }
            }
        }
        _ => {}
    }
    (after, (low, high))
}

/// One edit: the table read before it brought up to date, any other table lent, one that is a row short, and each
/// function by itself.
fn edit(run: &mut Run, random: &mut Random) -> Compared {
    let before = any_table(random, None);
    let (after, span) = edited(random, &before);
    let rows = before.count as usize * ROW;
    let over = random.below(2 * ROW);
    let lent = words(random, rows + over);
    run.compare(&after.refresh(span, &lent))?;
    run.compare(&after.case(Read, &lent))?;
    if before.count > 0 {
        let short = rows - 1 - random.below(ROW);
        run.compare(&after.refresh(span, &lent[..short]))?;
    }
    if let Ok(read) = fresh(&before.file, before.layout, before.start, before.count) {
        let mut table = read.concat();
        table.extend(words(random, over));
        after.refresh(span, &table).compare_fresh()?;
        run.equal();
    }
    for id in 0..=before.count {
        for op in [One, Ground, Meets] {
            run.compare(&after.refresh(span, &lent).of(op, id))?;
        }
    }
    Ok(())
}

/// The longest file that is read: zeros, with random bytes and the table near its end, large headers at both ends.
fn longest(run: &mut Run) -> Compared {
    let mut random = run.random(8);
    let mut file = vec![0; LIMIT];
    let tail = LIMIT - 4096;
    for layout in LAYOUTS {
        let (own, large) = (layout.own(), layout.large());
        for round in 0..60 {
            file[tail..].copy_from_slice(&bytes(&mut random, 4096));
            let count = random.below(5);
            let behind = random.pick(&[0, 0, 1, own - 1, own, 100]);
            let mut table = Table::new(layout, file, LIMIT - behind - count * own, count as u32);
            for id in 0..count as u32 {
                let last = LIMIT - large;
                let near = tail + random.below(4096 - large);
                let place = random.pick(&[0, 5, near, near, last, last + round % 2, LIMIT]);
                table.point(&mut random, id, place as u64);
            }
            let lent = words(&mut random, 6 * ROW);
            run.compare(&table.case(Read, &lent))?;
            for count in [0, table.count + 1] {
                run.compare(&table.case(Read, &lent).of(Read, count))?;
            }
            for low in [0, 4, tail, table.start, LIMIT - 1, LIMIT, LIMIT + 1] {
                for high in [0, 1, 6, table.start + 1, LIMIT - 1, LIMIT, LIMIT + 1] {
                    let refresh = table.refresh((low, high), &lent);
                    run.compare(&refresh)?;
                    for id in 0..=table.count {
                        run.compare(&refresh.of(Meets, id))?;
                        run.compare(&refresh.of(One, id))?;
                    }
                }
            }
            for start in [LIMIT - 1, LIMIT, LIMIT + 1] {
                for op in OPS {
                    run.compare(&Case { start, ..table.case(op, &lent) })?;
                }
            }
            file = table.file;
        }
    }
    Ok(())
}

fn too_long(run: &mut Run) -> Compared {
    let table = Table::new(Layout::Legacy, vec![0; LIMIT + 1], 0, 1);
    let lent = [7; ROW];
    for layout in 0..=2 {
        for start in [0, 1, LIMIT, LIMIT + 1, LIMIT + 2] {
            for count in [0, 1, 2] {
                for span in [(0, 0), (0, 1), (1, 0), (0, LIMIT + 1), (0, LIMIT + 2)] {
                    for op in OPS {
                        let long = table.refresh(span, &lent).of(op, count);
                        run.compare(&Case { layout, start, ..long })?;
                    }
                }
            }
        }
    }
    Ok(())
}

/// As many functions as a large file has, with their large headers all over 2^30 bytes.
fn many(run: &mut Run) -> Compared {
    let mut random = run.random(9);
    const COUNT: u32 = 1_000_000;
    for layout in LAYOUTS {
        let mut before = Table::new(layout, vec![0; LIMIT], 128, COUNT);
        for id in 0..COUNT {
            let header = bytes(&mut random, layout.own());
            before.header(id).copy_from_slice(&header);
            before.header(id)[layout.own() - 1] &= !0x20;
            if random.below(16) == 0 {
                let place = random.below(LIMIT - layout.large());
                before.point(&mut random, id, place as u64);
            }
        }
        for _ in 0..24 {
            let read = fresh(&before.file, layout, 128, COUNT).expect("a good file");
            let table = read.concat();
            // Within the table, in a large header, between them; of a few bytes and of a megabyte.
            let flagged =
                (random.below(COUNT as usize) as u32..COUNT).find_map(|id| before.place(id));
            let at = match random.below(3) {
                0 => 128 + random.below(COUNT as usize * layout.own()),
                1 => flagged.unwrap_or(128) as usize + random.below(layout.large()),
                _ => random.below(LIMIT),
            };
            let high = LIMIT.min(at + random.pick(&[4, 4, 4, 100, 1 << 20]));
            for byte in &mut before.file[at..high] {
                // Flags stay, so that no function is lost.
                *byte ^= random.byte() & 0x0F;
            }
            before.refresh((at, high), &table).compare_fresh()?;
            run.equal();
            if fresh(&before.file, layout, 128, COUNT).is_err() {
                break;
            }
        }
    }
    Ok(())
}

/// Edits as above, one by one, one after another and two at once, each call with numbers of any size, any totals, and rows
/// that are written.
fn random(run: &mut Run) -> Compared {
    let mut random = run.random(10);
    let (mut seen, mut pairs) = (totals::Seen::default(), panes::Seen::default());
    while run.more() {
        edit(run, &mut random)?;
        panes::any(run, &mut random, &mut pairs)?;
        totals::any(run, &mut random)?;
        totals::sequence(run, &mut random, 32, &mut seen)?;
        let table = any_table(&mut random, None);
        let lent = words(&mut random, 15 * ROW);
        let len = table.file.len();
        for op in OPS {
            let near = [0, 1, len - len / 2, len, len + 1];
            let number = |random: &mut Random| match random.below(8) {
                0 => random.pick(&FAR),
                1 => random.pick(&near),
                _ => random.below(len + 1),
            };
            let any = Case {
                layout: random.pick(&[0, 0, 0, 1, 1, 1, 2, u32::MAX]),
                start: match random.below(3) {
                    0 => number(&mut random),
                    _ => table.start,
                },
                count: match random.below(4) {
                    0 => random.pick(&MANY),
                    1 => random.below(16) as u32,
                    _ => table.count,
                },
                low: number(&mut random),
                high: number(&mut random),
                totals: match random.below(4) {
                    0 => None,
                    _ => Some(totals::any_totals(&mut random, &lent, table.count)),
                },
                ..table.case(op, &lent[..random.below(15 * ROW)])
            };
            run.compare(&any)?;
        }
        write::any(run, &mut random)?;
    }
    Ok(())
}
