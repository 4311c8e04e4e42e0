//! A sample of what is right of function tables.

mod write;

use harness::Random;

use super::case::totals::{of, Totals, MOST};
use super::case::Op::*;
use super::case::{joined, right, Case, Layout, Op, INLINE, LAYOUTS, PLACE, ROW};
use super::groups::{any_table, around_rows, edited, Table};
use crate::case::code;
use crate::inputs::any_bytes;
use crate::record::{Record, Sample, FILL, FILL_BYTE, FILL_LONG};
use crate::record::{FUNCTION_GROUND, FUNCTION_MEETS, READ_FUNCTION, READ_FUNCTIONS};
use crate::record::{READ_THEN_REFRESHED, REFRESH_FUNCTIONS};

const NAMES: [&str; 14] = [
    "read_functions legacy16",
    "read_functions modern12",
    "read_function legacy16",
    "read_function modern12",
    "refresh_functions legacy16",
    "refresh_functions modern12",
    "read, then refreshed legacy16",
    "read, then refreshed modern12",
    "function_meets legacy16",
    "function_meets modern12",
    "function_ground legacy16",
    "function_ground modern12",
    "write_functions legacy16",
    "write_functions modern12",
];

/// The rows for which the program has room in its 256 words, besides one that is not lent.
const MOST_ROWS: usize = 256 / ROW - 1;

/// The call, and its group among those of the same layout.
fn call(op: Op) -> (u64, usize) {
    match op {
        Read => (READ_FUNCTIONS, 0),
        One => (READ_FUNCTION, 1),
        Refresh => (REFRESH_FUNCTIONS, 2),
        Meets => (FUNCTION_MEETS, 4),
        Ground => (FUNCTION_GROUND, 5),
    }
}

/// The group of tables that are read and then refreshed, among those of the same layout.
const BOTH: usize = 3;

fn answers(group: usize) -> &'static [u32] {
    match group / 2 {
        0 => &[0, 2, 3, 4],
        1 => &[0, 2, 3],
        2 => &[0, 2, 3, 4, 10, 16],
        BOTH => &[0, 2, 3],
        4 => &[0, 2, 3, 10],
        5 => &[0, 2, 3],
        _ => write::answers(group - write::GROUP),
    }
}

/// Adds a case with what is right: records and their refusals by the Rust, all else by docs/FORMAT.md.
fn add(sample: &mut Sample, case: Case) {
    assert!(case.table.len() <= MOST_ROWS * ROW);
    assert!(case.table.iter().all(|&word| word == FILL));
    let (mut table, lent) = (case.table.to_vec(), case.lent());
    let mut totals = lent;
    let answer = right(&case, &mut table, &mut totals);
    let (call, group) = call(case.op);
    let asked = [case.start, case.low, case.high, case.table.len()].map(|n| n as u64);
    let record = Record::new(call, &asked, &[case.layout, case.count], case.file);
    let told = code(answer);
    // Whether a span is met, and where a function is read from, are told, not written.
    let record = match case.op {
        Meets => record.answer(&[told, 0]),
        Ground if answer.is_ok() => {
            record.answer(&[told, joined(&table[..2]) as u64, joined(&table[2..]) as u64])
        }
        Ground => record.answer(&[told, 0, 0]),
        One => record.answer(&[told, 0]).table(&table),
        Read | Refresh => {
            let [large, sizes] = listed(totals);
            record.answer(&[told, large, sizes]).table(&table).given(&given(lent))
        }
    };
    let group = 2 * group + case.layout as usize;
    sample.add(group, answer.map_or_else(|why| why.0, |_| 0), record);
}

/// Totals as they are given: each eight bytes, the least first.
fn given(totals: Totals) -> Vec<u8> {
    totals.map(u64::to_le_bytes).concat()
}

/// Totals that can be listed in an answer.
fn listed(totals: Totals) -> Totals {
    assert!(!totals.contains(&FILL_LONG), "what stands for a number that there is not");
    totals
}

/// Adds a table that is read from one file, if it can be, with any totals lent, and refreshed from another with those that
/// the read left.
fn add_both(sample: &mut Sample, before: &Table, refresh: Case, lent: Totals) {
    let (mut table, mut totals) = (refresh.table.to_vec(), lent);
    let read = Case { totals: Some(lent), ..before.case(Read, refresh.table) };
    let Ok(first) = right(&read, &mut table, &mut totals) else {
        return;
    };
    let rows = table.clone();
    let refresh = Case { table: &rows, totals: Some(totals), ..refresh };
    let answer = right(&refresh, &mut table, &mut totals);
    let [large, sizes] = listed(totals);
    let asked = [refresh.start, refresh.low, refresh.high, rows.len()].map(|n| n as u64);
    let words = [refresh.layout, refresh.count];
    let record = Record::new(READ_THEN_REFRESHED, &asked, &words, refresh.file)
        .answer(&[code(answer), large, sizes, first.into()])
        .table(&table)
        .given(&given(lent))
        .given(&before.file);
    let group = 2 * BOTH + refresh.layout as usize;
    sample.add(group, answer.map_or_else(|why| why.0, |_| 0), record);
}

pub fn write(mut random: Random) -> (Vec<u8>, Vec<String>) {
    let mut sample = Sample::new("function", &NAMES);
    worked(&mut sample);
    for layout in LAYOUTS {
        edges(&mut sample, &mut random, layout);
        places(&mut sample, &mut random, layout);
        apart(&mut sample, &mut random, layout);
    }
    for layout in LAYOUTS {
        turned(&mut sample, &mut random, layout);
        totals(&mut sample, &mut random, layout);
        followed(&mut sample, &mut random, layout);
    }
    while sample.fewer(1_220) {
        edit(&mut sample, &mut random);
    }
    write::write(&mut sample, &mut random);
    sample.done(answers)
}

fn table(layout: Layout, file: &[u8], count: u32) -> Table {
    Table { file: file.to_vec(), layout, start: 0, count }
}

/// The lent words that a case of so many rows has, with some over.
fn lent(rows: usize, over: usize) -> Vec<u32> {
    vec![FILL; rows * ROW + over]
}

/// The rows of P1 and P2 of docs/FORMAT.md, section 10.1.
const WORKED: [[u32; ROW]; 2] = [
    [0, 0, 256, 2, 10, 3, 0, 5, 4, 1, 2, 3, 0, 0, 0, 0, INLINE],
    [1, 0, 256, 2, 10, 3, 0, 6, 4, 1, 4, 5, 7, 8, 1, 0, INLINE],
];

/// P1, P2 and P5 of docs/FORMAT.md, section 10.1, and the function that a fresh read and a refresh name each by itself.
fn worked(sample: &mut Sample) {
    let p1 = [0, 1, 0, 4, 0x0A, 0x80, 1, 0, 0, 0, 0, 0x0A, 1, 2, 3, 4];
    let p2 = [0, 1, 0, 0x44, 0x0A, 0xC0, 0, 0x29, 6, 7, 0x48, 4];
    let mut random = Random::new(1);
    for layout in LAYOUTS {
        let header: &[u8] = if layout == Layout::Legacy { &p1 } else { &p2 };
        let read = table(layout, header, 1);
        let (mut words, mut totals) = (lent(1, 0), [7; 2]);
        assert_eq!(right(&read.case(Read, &lent(1, 0)), &mut words, &mut totals), Ok(1));
        assert_eq!((&words[..], totals), (&WORKED[layout as usize][..], [0, 10]));
        add(sample, read.case(Read, &lent(1, 3)));
        // Cut at every byte.
        for len in 0..header.len() {
            add(sample, table(layout, &header[..len], 1).case(Read, &lent(1, 0)));
        }
        // A large header that just fits, and one cut by a byte.
        let mut large = table(layout, &vec![0; layout.own() + layout.large()], 1);
        large.point(&mut random, 0, layout.own() as u64);
        let read = |large: &Table, words: &mut [u32]| {
            right(&large.case(Read, &lent(1, 0)), words, &mut [7; 2])
        };
        let mut words = lent(1, 0);
        assert_eq!(read(&large, &mut words), Ok(1));
        assert_eq!(words[PLACE], layout.own() as u32);
        add(sample, large.case(Read, &lent(1, 0)));
        add(sample, Case { count: 0, ..large.case(One, &lent(1, 0)) });
        large.file.pop();
        assert_eq!(read(&large, &mut words), Err((3, 0)));
        add(sample, large.case(Read, &lent(1, 0)));
        // The large header of function 0 cut, and header 1 cut.
        let mut both = table(layout, &vec![0; 2 * layout.own() - 1], 2);
        both.point(&mut random, 0, 1);
        add(sample, both.case(Read, &lent(2, 0)));
        for high in [0, both.file.len()] {
            add(sample, both.refresh((0, high), &lent(2, 0)));
        }
    }
}

/// Starts, counts, numbers and spans around the file's end and far behind it; tables a word short, exact and over.
fn edges(sample: &mut Sample, random: &mut Random, layout: Layout) {
    let own = layout.own();
    let mut made = table(layout, &any_bytes(random, 2 * own + 5), 2);
    for at in [own - 1, 2 * own - 1, 2 * own + 4] {
        made.file[at] &= 0xDF;
    }
    let len = made.file.len();
    let table = lent(2, 1);
    let far = [1 << 30, 1 << 32, 1 << 63, usize::MAX];
    for start in [0, 5, 6, len - 1, len, len + 1].into_iter().chain(far) {
        for op in [Read, One, Refresh, Ground, Meets] {
            let high = if op == Refresh || op == Meets { len } else { 0 };
            let table = if op == Ground { &lent(0, 4) } else { &table };
            for count in [0, 1, 2] {
                let case = Case { start, count, high, ..made.case(op, table) };
                add(sample, case);
            }
        }
    }
    for words in around_rows(2) {
        for count in [0, 1, 2, 3, u32::MAX] {
            for op in [Read, Refresh] {
                let case = Case {
                    count,
                    high: if op == Refresh { len } else { 0 },
                    ..made.case(op, &table[..words])
                };
                add(sample, case);
            }
        }
    }
    for (low, high) in [(1, 0), (0, len + 1), (len, len), (len + 1, len + 1)] {
        add(sample, made.refresh((low, high), &table));
        add(sample, made.refresh((low, high), &[]));
        let meets = made.refresh((low, high), &table);
        add(sample, Case { op: Meets, count: 0, ..meets });
    }
    for low in far {
        add(sample, made.refresh((0, low), &table));
    }
    for id in [1 << 26, u32::MAX] {
        for op in [One, Meets] {
            let case = Case {
                count: id,
                high: if op == Meets { len } else { 0 },
                ..made.case(op, &table[..ROW])
            };
            add(sample, case);
        }
    }
}

/// Large headers around the file's end and far behind it, and spans at both of their ends.
fn places(sample: &mut Sample, random: &mut Random, layout: Layout) {
    let (own, large) = (layout.own(), layout.large());
    let len = own + large + 4;
    let last = (len - large) as u64;
    let far = [1 << 24, 1 << 25, (1 << 32) - 1];
    let farther = [1 << 32, (1 << 41) - 1];
    let farther = farther.into_iter().filter(|_| layout == Layout::Legacy);
    for place in [0, 3, last - 1, last, last + 1, len as u64 - 1, len as u64, len as u64 + 1]
        .into_iter()
        .chain(far)
        .chain(farther)
    {
        let mut made = table(layout, &any_bytes(random, len), 1);
        made.point(random, 0, place);
        for op in [Read, One, Ground] {
            let count = if op == Read { 1 } else { 0 };
            let table = if op == Ground { lent(0, 4) } else { lent(1, 0) };
            add(sample, Case { count, ..made.case(op, &table) });
        }
        let place = place as usize;
        let ends = [place, place + large];
        for at in ends {
            for span in [(at.saturating_sub(1), at), (at, at + 1)] {
                let refresh = made.refresh(span, &[FILL; ROW]);
                if at <= len {
                    add(sample, refresh);
                }
                add(sample, Case { op: Meets, count: 0, ..refresh });
            }
        }
    }
}

/// Functions 0, 2 and 4 meet a span by their large headers, 1 and 3 don't.
fn apart(sample: &mut Sample, random: &mut Random, layout: Layout) {
    let (own, large) = (layout.own(), layout.large());
    let mut made = table(layout, &any_bytes(random, 5 * own + large + 2), 5);
    for id in 0..5 {
        made.file[(id + 1) * own - 1] &= 0xDF;
    }
    for (id, place) in [(0, 5 * own), (2, 5 * own + 2), (4, 5 * own + 1)] {
        made.point(random, id, place as u64);
    }
    for at in [5 * own, 5 * own + 1, 5 * own + 2, 5 * own + large, 2 * own] {
        add(sample, made.refresh((at, at + 1), &lent(5, 1)));
    }
}

/// A function whose large header comes, moves and goes, between two others: read, and refreshed over the words that are
/// lent, whose last one it changes.
fn turned(sample: &mut Sample, random: &mut Random, layout: Layout) {
    let (own, large) = (layout.own(), layout.large());
    let mut made = table(layout, &any_bytes(random, 3 * own + large + 4), 3);
    for id in 0..3 {
        made.file[(id + 1) * own - 1] &= 0xDF;
    }
    for place in [Some(3 * own), Some(3 * own + 4), None, Some(0)] {
        match place {
            Some(place) => made.point(random, 1, place as u64),
            None => made.file[2 * own - 1] &= 0xDF,
        }
        add(sample, made.refresh((own, 2 * own), &lent(3, 1)));
        add(sample, made.case(Read, &lent(3, 0)));
        add(sample, Case { count: 1, ..made.case(One, &lent(1, 0)) });
    }
}

/// The totals of rows of fill, as they are lent: each is large, and has the fill as its size.
fn filled(count: u64) -> Totals {
    [count, count * u64::from(FILL)]
}

/// Totals that are true, and such as are too low or too high by one at the first row, at a later one or nowhere: of three
/// functions, of which the second is large, all of them, the last two, the last one and none read again; and of a read.
fn totals(sample: &mut Sample, random: &mut Random, layout: Layout) {
    let (own, large) = (layout.own(), layout.large());
    let mut made = table(layout, &any_bytes(random, 3 * own + large), 3);
    for id in 0..3 {
        made.file[(id + 1) * own - 1] &= 0xDF;
    }
    made.point(random, 1, 3 * own as u64);
    let (table, len) = (lent(3, 2), made.file.len());
    let mut read = vec![0; 3 * ROW];
    right(&made.case(Read, &table), &mut read, &mut [7; 2]).expect("a good file");
    let (one, rest) = (u64::from(FILL), of(&read, 3));
    // What the first row, the first two, and all three add, less what they take out.
    let first = MOST - of(&read, 1)[1] + one;
    let all = MOST - rest[1] + 3 * one;
    let [larges, sizes] = filled(3);
    for lent in [
        filled(3),
        [larges + 5, sizes + 7],
        [larges - 1, sizes - 1],
        [0, sizes],
        [0, 0],
        [1, one],
        [1, one - 1],
        [2, sizes],
        [larges, one],
        [larges, 2 * one],
        [larges, first],
        [larges, first + 1],
        [larges, all],
        [larges, all + 1],
        [MOST, sizes],
        [MOST + 1, sizes],
        [MOST + 2, sizes],
        [MOST + 3, sizes],
        [larges, MOST],
        [larges, MOST + 1],
        [u64::MAX, sizes],
        [larges, u64::MAX],
        [u64::MAX; 2],
    ] {
        for span in [(0, len), (2 * own - 1, 2 * own + 1), (3 * own - 1, 3 * own), (len, len)] {
            add(sample, Case { totals: Some(lent), ..made.refresh(span, &table) });
        }
        add(sample, Case { totals: Some(lent), ..made.case(Read, &table) });
    }
    // One row alone, which counts as much as before, or more.
    for fill in [FILL_BYTE, 0xFF] {
        made.file[3 * own..].fill(fill);
        for lent in [
            [1, one],
            [0, one],
            [1, one - 1],
            [MOST, one],
            [MOST + 1, one],
            [1, MOST],
            [1, MOST + 1],
            [1, u64::MAX],
        ] {
            let totals = Some(lent);
            add(sample, Case { totals, ..made.refresh((own, own + 1), &table) });
        }
    }
    // What is refused before all reads, with totals that are too high.
    let high = Case { totals: Some([u64::MAX; 2]), ..made.refresh((0, len), &table) };
    for case in [
        Case { start: len + 1, ..high },
        Case { low: len, high: 0, ..high },
        Case { high: len + 1, ..high },
        Case { count: 4, ..high },
        Case { start: len - own, ..high },
    ] {
        add(sample, case);
    }
    // A read that is refused comes before, at a function behind that of the totals.
    made.point(random, 2, len as u64);
    add(sample, Case { totals: Some([0, 0]), ..made.refresh((0, len), &table) });
    made.point(random, 2, len as u64 + 1);
    add(sample, Case { totals: Some([MOST + 1; 2]), ..made.refresh((0, len), &table) });
    // No function, and fewer than the rows lent.
    for count in [0, 1, 2] {
        for lent in [filled(count.into()), [0, 0], [u64::MAX; 2]] {
            let case = Case { totals: Some(lent), ..made.refresh((0, len), &table) };
            add(sample, Case { count, ..case });
        }
    }
}

/// A table that is read once and then follows edits: a size, a flag that is set, a place that changes, a byte of the large
/// header, the flag cleared, nothing at all; a place past the end and one where the large header is cut are refused, and
/// undone.
fn followed(sample: &mut Sample, random: &mut Random, layout: Layout) {
    let (own, large) = (layout.own(), layout.large());
    let mut made = table(layout, &any_bytes(random, 3 * own + large + 4), 3);
    for id in 0..3 {
        made.file[(id + 1) * own - 1] &= 0xDF;
    }
    let (len, header, words) = (made.file.len(), (own, 2 * own), lent(3, 1));
    let last = len - large;
    let mut follow = |edit: &dyn Fn(&mut Table, &mut Random), span| {
        let mut after = made.clone();
        edit(&mut after, random);
        let any = [random.word(), random.word() >> 1];
        add_both(sample, &made, after.refresh(span, &words), any);
        if right(&after.case(Read, &words), &mut words.clone(), &mut [0; 2]).is_ok() {
            made = after;
        }
    };
    follow(&|table, _| table.file[4] ^= 0x55, (4, 5));
    follow(&|table, random| table.point(random, 1, last as u64), header);
    follow(&|table, random| table.point(random, 1, last as u64 - 4), header);
    follow(&|table, _| table.file[last + 8..last + 16].fill(0xEE), (last + 8, last + 16));
    follow(&|table, random| table.point(random, 1, len as u64 + 1), header);
    follow(&|table, random| table.point(random, 1, last as u64 + 1), header);
    follow(&|table, random| table.point(random, 0, 3), (0, own));
    follow(&|table, _| table.file[2 * own - 1] &= 0xDF, (2 * own - 1, 2 * own));
    follow(&|_, _| (), (0, len));
    follow(&|_, _| (), (len, len));
    follow(&|table, _| table.file[3 * own..].fill(0), (3 * own, len));
}

/// An edited table of a few functions: read before the edit, if it can be, and then refreshed; refreshed over words that are
/// lent, read, and each function by itself.
fn edit(sample: &mut Sample, random: &mut Random) {
    let before = any_table(random, None);
    if before.count > 5 || before.file.len() > 160 {
        return;
    }
    let (after, span) = edited(random, &before);
    let over = random.below(ROW);
    let table = lent(before.count as usize, over);
    let any = [random.word() >> 1, random.word()];
    add_both(sample, &before, after.refresh(span, &table), any);
    add(sample, after.refresh(span, &table));
    add(sample, Case { totals: Some(any), ..after.case(Read, &table) });
    let id = random.below(before.count as usize + 1) as u32;
    let one = after.case(One, &table);
    if table.len() >= ROW {
        add(sample, Case { count: id, ..one });
    }
    let meets = after.refresh(span, &table);
    add(sample, Case { op: Meets, count: id, ..meets });
}
