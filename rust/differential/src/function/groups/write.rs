//! The groups of rows that are written.

use bisquepond::function::{renew_info_offsets, FunctionRow};
use bisquepond::sys::{number, LIMIT};
use bisquepond::Row as _;
use harness::Random;

use super::super::case::write::{fields, inline, placed, plain, read_back, settle};
use super::super::case::write::{Case, Written, OVERFLOW};
use super::super::case::{fresh, Layout};
use super::super::case::{FLAGS, INFO_OFFSET, INLINE, LAYOUTS, PLACE, RECORD, ROW};
use super::{any_table, FIRST_PAST};
use crate::case::{code, Compare as _, Compared, Difference, Refusal};
use crate::inputs::{any_bytes as bytes, any_words as words};
use crate::lent::Reserved;
use crate::run::Run;

pub fn compare(run: &mut Run) -> Compared {
    run.group("written: worked cases of docs/FORMAT.md", worked)?;
    run.group("written: every bit of a row", bits)?;
    run.group("written: every field around its width", widths)?;
    run.group("written: small tables of every kind", small)?;
    run.group("written: any last word", last_words)?;
    run.group("written: refusals, alone and in pairs", refusals)?;
    run.group("written: far places, counts and starts", far)?;
    run.group("written: tables that were read", |run| {
        let mut random = run.random(24);
        (0..20_000).try_for_each(|_| again(run, &mut random))
    })?;
    run.group("written: any rows", |run| {
        let mut random = run.random(25);
        (0..20_000).try_for_each(|_| any(run, &mut random))
    })?;
    run.group("written: a buffer of 2^30 bytes", longest)?;
    run.group("written: 2^30 + 1 bytes", too_long)
}

/// Rows, where they go, and the buffer before.
#[derive(Clone)]
pub struct Draft {
    pub rows: Vec<u32>,
    pub layout: Layout,
    pub start: usize,
    pub count: u32,
    pub large: usize,
    pub buffer: Vec<u8>,
}

impl Draft {
    /// All rows, large headers from the table's end on, which modern rows know of; a buffer that just holds them.
    pub fn new(random: &mut Random, layout: Layout, rows: Vec<u32>, start: usize) -> Draft {
        let count = rows.len() / ROW;
        let large = start + count * layout.own();
        let mut draft =
            Draft { rows, layout, start, count: count as u32, large, buffer: Vec::new() };
        draft.settle();
        draft.buffer = bytes(random, draft.end());
        draft
    }

    pub fn case(&self) -> Case<'_> {
        Case {
            rows: &self.rows,
            layout: self.layout as u32,
            start: self.start,
            count: self.count,
            large: self.large,
            buffer: &self.buffer,
        }
    }

    /// Gives modern rows the info_offset that they must have.
    pub fn settle(&mut self) {
        settle(self.layout, &mut self.rows, self.large);
    }

    /// Where what is to be written ends.
    pub fn end(&self) -> usize {
        let written = plain(&self.case(), LIMIT);
        written.map(|written| written.end).expect("rows that can be written") as usize
    }

    fn row(&mut self, id: usize) -> &mut [u32] {
        &mut self.rows[id * ROW..][..ROW]
    }
}

/// A number of so many bits: the least, the greatest, or any.
fn within(random: &mut Random, bits: u32) -> u32 {
    let most = (1u64 << bits) - 1;
    let any = random.word() & most;
    random.pick(&[0, most, any, any]) as u32
}

/// A row that goes inline. Its last word, which no writer looks at, is any.
pub fn inline_row(random: &mut Random, layout: Layout, id: usize) -> [u32; ROW] {
    let mut row = [0; ROW];
    (row[0], row[1]) = (layout as u32, id as u32);
    for &(word, bits, _) in fields(layout) {
        row[word] = within(random, bits);
    }
    row[FLAGS] &= !OVERFLOW;
    let (near, any) = (random.below(400) as u32, random.word() as u32);
    row[PLACE] = random.pick(&[0, near, any, INLINE]);
    row
}

/// A row that goes to a large header: by a field that is too wide, by its overflow bit, or by some of them. A modern one
/// has an info_offset only if it is given one.
pub fn large_row(random: &mut Random, layout: Layout, id: usize) -> [u32; ROW] {
    let mut row = inline_row(random, layout, id);
    for _ in 0..=random.below(3) {
        let &(word, bits, size) = &fields(layout)[random.below(fields(layout).len())];
        let most = if size == 1 { 255 } else { u32::MAX };
        let first = 1u64 << bits;
        let any = (first + random.below((u32::MAX as usize) >> 1) as u64).min(most.into());
        if word == FLAGS {
            row[FLAGS] |= OVERFLOW;
        } else if first <= most.into() {
            row[word] = random.pick(&[first as u32, most, any as u32]);
        }
    }
    if inline(layout, &row) {
        row[FLAGS] |= OVERFLOW;
    }
    row
}

/// So many rows, each of one kind or of both.
fn any_rows(random: &mut Random, layout: Layout, count: usize) -> Vec<u32> {
    let large = random.pick(&[0, 1, 2, 4]);
    let mut rows = Vec::new();
    for id in 0..count {
        rows.extend(match random.below(4) < large {
            true => large_row(random, layout, id),
            false => inline_row(random, layout, id),
        });
    }
    rows
}

/// Compares, and sees that the answer is the one that is given.
fn says(run: &mut Run, case: Case, told: Result<u32, Refusal>) -> Result<Written, Difference> {
    let answer = run.compare(&case)?;
    match answer.code == code(told) {
        true => Ok(answer),
        false => Err(case.difference(&format!("{told:?}"), &case.said(&answer, None))),
    }
}

/// P1 to P5, and what their rows are written as.
fn worked(run: &mut Run) -> Compared {
    let mut random = run.random(20);
    let p1 = [0, 1, 0, 4, 0x0A, 0x80, 1, 0, 0, 0, 0, 0x0A, 1, 2, 3, 4];
    let p2 = [0, 1, 0, 0x44, 0x0A, 0xC0, 0, 0x29, 6, 7, 0x48, 4];
    let mut p5 = vec![0; 49];
    (p5[0], p5[11]) = (12, 0x20);
    for (layout, file) in
        [(Layout::Legacy, p1.to_vec()), (Layout::Modern, p2.to_vec()), (Layout::Modern, p5)]
    {
        let rows = fresh(&file, layout, 0, 1).expect("a row").concat();
        let draft = Draft::new(&mut random, layout, rows, 0);
        let written = says(run, draft.case(), Ok(file.len() as u32))?;
        assert_eq!(written.buffer(), file);
    }
    // P5's legacy row is all 0, and goes inline; with the overflow bit in its own flags it doesn't.
    let mut file = vec![0; 47];
    (file[0], file[15]) = (16, 0x20);
    let rows = fresh(&file, Layout::Legacy, 0, 1).expect("a row").concat();
    let mut draft = Draft::new(&mut random, Layout::Legacy, rows, 0);
    assert_eq!(says(run, draft.case(), Ok(16))?.buffer(), [0; 16]);
    draft.row(0)[FLAGS] = OVERFLOW;
    draft.buffer = vec![7; 47];
    file[46] = 0x20;
    assert_eq!(says(run, draft.case(), Ok(47))?.buffer(), file);
    // P3 and P4: the same places by other bytes, since the offset holds the remainder alone.
    let p3 = [0x10, 0, 0, 0, 0, 0, 0, 0, 1, 0, 0, 0, 0, 0, 0, 0x20];
    let p4 = [0x20, 0, 0, 0, 0, 0x40, 0, 0, 0, 0, 0, 0x20];
    for (layout, place, header) in
        [(Layout::Legacy, 65_552, &p3[..]), (Layout::Modern, 16_777_248, &p4[..])]
    {
        let row = large_row(&mut random, layout, 0);
        let mut draft = Draft::new(&mut random, layout, row.to_vec(), 0);
        draft.large = place;
        draft.settle();
        draft.buffer = bytes(&mut random, draft.end());
        let written = says(run, draft.case(), Ok((place + layout.large()) as u32))?;
        assert_eq!(written.buffer()[..layout.own()], *header);
        assert_eq!(layout.place(header), Some(place as u64));
    }
    Ok(())
}

/// A row of three with one bit of one word changed, whatever word it is.
fn bits(run: &mut Run) -> Compared {
    let mut random = run.random(21);
    for layout in LAYOUTS {
        for large in [false, true] {
            let mut rows = Vec::new();
            for id in 0..3 {
                rows.extend(match large && id == 1 {
                    true => large_row(&mut random, layout, id),
                    false => inline_row(&mut random, layout, id),
                });
            }
            let good = Draft::new(&mut random, layout, rows, 5);
            for word in 0..ROW {
                for bit in 0..32 {
                    let mut draft = good.clone();
                    draft.row(1)[word] ^= 1 << bit;
                    // Too short, now that it is large; with room and as its info_offset is; and with the right one.
                    run.compare(&draft.case())?;
                    draft.buffer = bytes(&mut random, 200);
                    run.compare(&draft.case())?;
                    draft.settle();
                    run.compare(&draft.case())?;
                }
            }
        }
    }
    Ok(())
}

/// Each field of a row with numbers around its width, beside every kind of flags and info_offset.
fn widths(run: &mut Run) -> Compared {
    let mut random = run.random(22);
    let fixed = [0, 1, 255, 256, 257, 65_535, 65_536, 1 << 24, 1 << 31, u32::MAX - 1, u32::MAX];
    for layout in LAYOUTS {
        for &(word, bits, _) in fields(layout) {
            let first = 1 << bits;
            let near = [first - 1, first, first + 1, first + (first >> 1)];
            for value in fixed.into_iter().chain(near) {
                for flags in [0, OVERFLOW, 0xDF, 0xFF] {
                    let mut rows = any_rows(&mut random, layout, 2);
                    rows.extend(inline_row(&mut random, layout, 2));
                    rows[2 * ROW + FLAGS] = flags;
                    let good = Draft::new(&mut random, layout, rows, 0);
                    for id in [0, 2] {
                        let mut draft = good.clone();
                        draft.row(id)[word] = value;
                        draft.large += random.below(6);
                        draft.buffer = bytes(&mut random, 300);
                        run.compare(&draft.case())?;
                        draft.settle();
                        run.compare(&draft.case())?;
                        // One byte too few, if it can be written at all.
                        if let Ok(written) = plain(&draft.case(), LIMIT) {
                            draft.buffer.truncate(written.end as usize);
                            says(run, draft.case(), Ok(written.end))?;
                            draft.buffer.pop();
                            says(run, draft.case(), Err((4, 0)))?;
                        }
                        for off in [1u32, 3, 4, 40, 1 << 31] {
                            let row = draft.row(id);
                            row[INFO_OFFSET] = row[INFO_OFFSET].wrapping_add(off);
                            run.compare(&draft.case())?;
                        }
                    }
                }
            }
        }
    }
    Ok(())
}

/// Tables of up to four rows, each inline, large by a field or large by its flag; every place around the table's end; a
/// buffer a byte short, exact, and over.
fn small(run: &mut Run) -> Compared {
    let mut random = run.random(23);
    for layout in LAYOUTS {
        for count in 0..=4 {
            for kinds in 0..3usize.pow(count) {
                let mut rows = Vec::new();
                for id in 0..count {
                    let mut row = inline_row(&mut random, layout, id as usize);
                    match kinds / 3usize.pow(id) % 3 {
                        0 => (),
                        1 => row[3] = 128 + random.below(1 << 20) as u32,
                        _ => row[FLAGS] |= OVERFLOW,
                    }
                    rows.extend(row);
                }
                for start in [0, 1, 2, 7] {
                    let good = Draft::new(&mut random, layout, rows.clone(), start);
                    for over in 0..6 {
                        let mut draft = good.clone();
                        draft.large += over;
                        draft.settle();
                        let end = draft.end();
                        for len in [end, end + 1, end + 40] {
                            draft.buffer = bytes(&mut random, len);
                            says(run, draft.case(), Ok(end as u32))?;
                        }
                        for len in start..end {
                            draft.buffer.truncate(len);
                            says(run, draft.case(), Err((4, 0)))?;
                        }
                        draft.large = good.large.saturating_sub(over);
                        draft.settle();
                        run.compare(&draft.case())?;
                    }
                }
            }
        }
    }
    Ok(())
}

/// The last words of rows: all 0, all 2^32 - 1, those that are read back, those of another order, and others: whatever they
/// are, the answer and the buffer are the same, of rows that are accepted and of such as are refused.
fn last_words(run: &mut Run) -> Compared {
    let mut random = run.random(30);
    for round in 0..3_000 {
        let mut draft = any_draft(&mut random);
        if round % 4 == 0 && !draft.rows.is_empty() {
            // Such as may be refused.
            let at = random.below(draft.rows.len());
            draft.rows[at] ^= 1 << random.below(32);
        }
        let read_back = placed(&draft.case());
        let places: Vec<u32> = read_back.chunks_exact(ROW).map(|row| row[PLACE]).collect();
        let mut others = places.clone();
        others.rotate_left(places.len().min(1));
        let mut all = vec![places, others, words(&mut random, draft.count as usize)];
        let same = [0, INLINE, INLINE - 1, LIMIT as u32];
        all.extend(same.map(|word| vec![word; draft.count as usize]));
        let first = run.compare(&draft.case())?;
        for last in all {
            for (row, word) in draft.rows.chunks_exact_mut(ROW).zip(last) {
                row[PLACE] = word;
            }
            let answer = run.compare(&draft.case())?;
            if (answer.code, answer.buffer()) != (first.code, first.buffer()) {
                let case = draft.case();
                let [a, b] = [&first, &answer].map(|answer| case.said(answer, None));
                return Err(case.difference(&format!("{a}, as with other last words"), &b));
            }
        }
    }
    Ok(())
}

/// One thing that is wrong, by the refusal's number.
#[derive(Clone, Copy, PartialEq, Debug)]
enum Fault {
    NoLayout(u32),
    FarStart(usize),
    FewRows(usize),
    Many(u32),
    /// A word of a row, and what it is.
    BadWord(usize, usize, u32),
    /// What is added to a row's info_offset.
    BadInfo(usize, u32),
    /// How far before the table's end.
    LowPlace(usize),
    ShortBy(usize),
}

use Fault::*;

impl Fault {
    fn refusal(self) -> Refusal {
        match self {
            NoLayout(_) => (12, 0),
            FarStart(_) => (2, 0),
            FewRows(_) | Many(_) => (11, 0),
            BadWord(id, ..) => (13, id as u32),
            BadInfo(id, _) => (14, id as u32),
            LowPlace(_) => (15, 0),
            ShortBy(_) => (4, 0),
        }
    }
}

/// The refusals in their order.
const ORDER: [u32; 8] = [12, 1, 2, 11, 13, 14, 15, 4];

fn order(refusal: Refusal) -> (usize, u32) {
    let (number, place) = refusal;
    (ORDER.iter().position(|&one| one == number).expect("a writer's refusal"), place)
}

/// Rows of which 1 and 3 are large, with these faults and no others.
fn faulty(random: &mut Random, layout: Layout, faults: &[Fault]) -> (Draft, u32) {
    let mut rows = Vec::new();
    for id in 0..4 {
        let mut row = inline_row(random, layout, id);
        if id % 2 == 1 {
            row[4] = 1 << 15;
        }
        rows.extend(row);
    }
    let mut draft = Draft::new(random, layout, rows, 8);
    let (mut asked, end) = (layout as u32, draft.buffer.len());
    // Where large headers go is decided before what rows say of it, and rows are cut last.
    for fault in faults {
        if let LowPlace(before) = *fault {
            draft.large = draft.large.saturating_sub(before);
            draft.settle();
        }
    }
    let settled = draft.rows.clone();
    let right = |id: usize| settled[id * ROW + INFO_OFFSET];
    for fault in faults {
        match *fault {
            BadWord(id, word, value) => draft.row(id)[word] = value,
            BadInfo(id, off) => draft.row(id)[INFO_OFFSET] = right(id).wrapping_add(off),
            _ => (),
        }
    }
    for fault in faults {
        match *fault {
            NoLayout(number) => asked = number,
            FarStart(start) => draft.start = start,
            FewRows(fewer) => draft.rows.truncate(4 * ROW - fewer),
            Many(count) => draft.count = count,
            ShortBy(fewer) => draft.buffer.truncate(end - fewer),
            BadWord(..) | BadInfo(..) | LowPlace(_) => (),
        }
    }
    (draft, asked)
}

fn faults(layout: Layout) -> Vec<Fault> {
    let other = 1 - layout as u32;
    let mut all = vec![
        NoLayout(2),
        NoLayout(u32::MAX),
        FarStart(1 << 20),
        FarStart(usize::MAX),
        FewRows(1),
        FewRows(ROW),
        Many(5),
        Many(u32::MAX),
        LowPlace(1),
        LowPlace(60),
        ShortBy(1),
        ShortBy(80),
    ];
    for id in [0, 1, 2, 3] {
        all.extend([
            BadWord(id, 0, other),
            BadWord(id, 0, 7),
            BadWord(id, 1, id as u32 + 1),
            BadWord(id, 1, u32::MAX),
        ]);
        for &(word, _, size) in fields(layout) {
            if size == 1 {
                all.extend([BadWord(id, word, 256), BadWord(id, word, 1 << 31)]);
            }
        }
        if layout == Layout::Legacy {
            all.extend((12..RECORD).map(|word| BadWord(id, word, 1)));
        }
    }
    if layout == Layout::Modern {
        for id in [1, 3] {
            all.extend([1, 4, 40, 1 << 31, u32::MAX].map(|off| BadInfo(id, off)));
        }
    }
    all
}

/// Every fault alone is refused with its number, and of two the one whose number comes first, at the lower row.
fn refusals(run: &mut Run) -> Compared {
    let mut random = run.random(26);
    for layout in LAYOUTS {
        let (good, _) = faulty(&mut random, layout, &[]);
        says(run, good.case(), Ok(good.end() as u32))?;
        let all = faults(layout);
        for &one in &all {
            for &two in &all {
                let (draft, asked) = faulty(&mut random, layout, &[one, two]);
                let [a, b] = [one, two].map(Fault::refusal);
                let first = if order(a) <= order(b) { a } else { b };
                says(run, Case { layout: asked, ..draft.case() }, Err(first))?;
            }
        }
    }
    Ok(())
}

/// Numbers that no buffer here has.
const FAR: [usize; 14] = [
    LIMIT - 64,
    LIMIT - 1,
    LIMIT,
    LIMIT + 1,
    (1 << 32) - 40,
    (1 << 32) - 1,
    1 << 32,
    1 << 40,
    (1 << 41) - 4,
    1 << 41,
    1 << 63,
    usize::MAX - 64,
    usize::MAX - 3,
    usize::MAX,
];

/// Counts that no table here has; times 16, or times the words of a row, some would wrap in 32 bits.
const MANY: [u32; 8] =
    [1 << 26, FIRST_PAST, FIRST_PAST + 1, 1 << 28, (1 << 28) + 1, 1 << 31, u32::MAX - 1, u32::MAX];

fn far(run: &mut Run) -> Compared {
    let mut random = run.random(27);
    for layout in LAYOUTS {
        for rows in 0..=3 {
            for kind in 0..3 {
                let mut made = Vec::new();
                for id in 0..rows {
                    made.extend(match kind == 2 || kind == 1 && id == 1 {
                        true => large_row(&mut random, layout, id),
                        false => inline_row(&mut random, layout, id),
                    });
                }
                let good = Draft::new(&mut random, layout, made, 3);
                let (len, table) = (good.buffer.len(), good.large);
                let near =
                    [0, 1, 2, table - 1, table, table + 1, table + 3, table + 4, len, len + 1];
                let last = (0..=64).map(|off| usize::MAX - off);
                for large in near.into_iter().chain(FAR).chain(last) {
                    for settled in [false, true] {
                        let mut draft = Draft { large, ..good.clone() };
                        if settled {
                            draft.settle();
                        }
                        for (start, count) in [
                            (3, rows as u32),
                            (0, rows as u32),
                            (3, rows as u32 + 1),
                            (3, random.pick(&MANY)),
                            (len, 0),
                            (len + 1, 0),
                            (random.pick(&FAR), 0),
                            (random.pick(&FAR), random.pick(&MANY)),
                        ] {
                            let asked = Case { start, count, ..draft.case() };
                            run.compare(&asked)?;
                            run.compare(&Case { count: count.saturating_sub(1), ..asked })?;
                        }
                    }
                }
            }
        }
    }
    Ok(())
}

/// A file is read by the Rust, and its rows are written: into the file itself, or into any other buffer. Modern rows with
/// large headers fit the new place only after they are told so, by the Rust crate's own call.
fn again(run: &mut Run, random: &mut Random) -> Compared {
    let table = any_table(random, None);
    let (layout, count) = (table.layout, table.count);
    let Ok(rows) = fresh(&table.file, layout, table.start, count) else {
        return Ok(());
    };
    let mut draft = Draft::new(random, layout, rows.concat(), table.start);
    let file = table.file.len();
    let near = random.below(9);
    let end = draft.large;
    draft.large = random.pick(&[end, end + near, file.max(end), file.max(end) + near]);
    // As they are: a modern row keeps its old place.
    draft.rows = rows.concat();
    draft.buffer = table.file.clone();
    run.compare(&draft.case())?;
    renew_info_offsets(FunctionRow::rows_mut(&mut draft.rows), draft.large);
    let end = draft.end();
    let over = random.below(20);
    let mut longer = table.file.clone();
    longer.resize(file.max(end) + over, random.byte());
    let other = bytes(random, end + over);
    draft.buffer = random.pick(&[&longer, &other]).clone();
    says(run, draft.case(), Ok(end as u32))?;
    // What is inline by our crate's own rule is so by this one.
    for row in draft.rows.chunks_exact(ROW) {
        assert_eq!(FunctionRow::rows(row)[0].goes_inline(), inline(layout, row));
    }
    Ok(())
}

/// Rows of any kind with any numbers beside them; mostly such as can be written.
pub fn any(run: &mut Run, random: &mut Random) -> Compared {
    let mut draft = any_draft(random);
    let (rows, len, layout) = (draft.count, draft.buffer.len(), draft.layout as u32);
    let over = random.below(2 * ROW);
    draft.rows.extend(words(random, over));
    run.compare(&draft.case())?;
    if !draft.rows.is_empty() {
        // Any word of any row another one, of all bits or of one.
        let (at, word) = (random.below(draft.rows.len()), random.word());
        let off = random.pick(&[1, 4, 256, u32::MAX]);
        draft.rows[at] = match random.below(3) {
            0 => word as u32,
            1 => draft.rows[at] ^ 1 << (word % 32),
            _ => draft.rows[at].wrapping_add(off),
        };
    }
    run.compare(&draft.case())?;
    let (far, near) = (random.pick(&FAR), random.below(len + 2));
    let many = random.pick(&MANY);
    run.compare(&Case {
        layout: random.pick(&[layout, layout, 1 - layout, 2, u32::MAX]),
        start: random.pick(&[draft.start, draft.start, near, len, far]),
        count: random.pick(&[rows, rows / 2, rows + 1, many]),
        large: random.pick(&[draft.large, draft.large, near, len, far]),
        ..draft.case()
    })?;
    Ok(())
}

/// Up to nine rows that can be written, and a buffer that mostly holds them.
pub fn any_draft(random: &mut Random) -> Draft {
    let layout = random.pick(&LAYOUTS);
    let count = random.pick(&[0, 1, 1, 2, 3, 5, 9]);
    let near = random.below(40);
    let start = random.pick(&[0, 0, 1, near]);
    let rows = any_rows(random, layout, count);
    let mut draft = Draft::new(random, layout, rows, start);
    let (near, far) = (random.below(9), random.below(200));
    draft.large += random.pick(&[0, 0, near, far]);
    draft.settle();
    let end = draft.end();
    let (over, short) = (random.below(50), random.below(end - start + 1));
    let len = random.pick(&[end, end, end + over, end - short]);
    draft.buffer = bytes(random, len);
    draft
}

/// The longest buffer: the table and its large headers at its very end, or a byte too far.
fn longest(run: &mut Run) -> Compared {
    let mut random = run.random(28);
    let mut buffer = vec![0; LIMIT];
    for layout in LAYOUTS {
        let (own, large) = (layout.own(), layout.large());
        for _ in 0..60 {
            let count = random.below(4);
            let rows = any_rows(&mut random, layout, count);
            let mut draft = Draft::new(&mut random, layout, rows, 0);
            // As if the buffer began with the table: moved so that it ends where the buffer does.
            let end = draft.end();
            let space = LIMIT - end;
            draft.start = random.pick(&[0, 5, space, space - 1, space - space % 4]);
            let table = draft.start + count * own;
            let last = LIMIT - count.max(1) * large.next_multiple_of(4);
            for place in
                [table, last, last + 1, last + 4, LIMIT - large, LIMIT - 1, LIMIT, LIMIT + 1]
            {
                draft.large = place;
                draft.settle();
                in_place(run, &draft.case(), &mut buffer)?;
            }
        }
    }
    match buffer.iter().position(|&byte| byte != 0) {
        None => Ok(()),
        Some(at) => Err(format!("byte {at} of 2^30 is none of a header, and was written").into()),
    }
}

/// Compares a call on a long buffer of zeros, which are all that it holds afterwards.
fn in_place(run: &mut Run, case: &Case, buffer: &mut [u8]) -> Compared {
    let given = case.make(buffer.as_mut_ptr(), buffer.len());
    let right = plain(case, buffer.len());
    let told = right.as_ref().map(|right| right.end).map_err(|refusal| *refusal);
    case.told(given, told)?;
    if let Ok(right) = &right {
        read_back(case, buffer)?;
        for (at, piece) in &right.pieces {
            let written = &mut buffer[*at..][..piece.len()];
            if written != piece {
                return Err(format!("{}: bytes from {at} on are {written:?}", case.call()).into());
            }
            written.fill(0);
        }
    }
    assert!(right.is_ok() || number(given) > 0);
    run.equal();
    Ok(())
}

/// A buffer that is too long, and cannot be written, is refused by its length, whatever else is wrong but the layout.
fn too_long(run: &mut Run) -> Compared {
    let mut random = run.random(29);
    let buffer =
        Reserved::<u8>::new(LIMIT + 1).expect("addresses for a buffer that is not written");
    for layout in LAYOUTS {
        for one in faults(layout) {
            let (draft, asked) = faulty(&mut random, layout, &[one]);
            let case = Case { layout: asked, ..draft.case() };
            let told = if asked > 1 { (12, 0) } else { (1, 0) };
            for start in [draft.start, 0, LIMIT + 1, LIMIT + 2] {
                let case = Case { start, ..case };
                case.told(case.make(buffer.as_mut_ptr(), buffer.len()), Err(told))?;
                assert!(plain(&case, buffer.len()).is_err_and(|refusal| refusal == told));
                run.equal();
            }
        }
    }
    Ok(())
}
