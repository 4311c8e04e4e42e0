//! The groups of why a function has no handlers.

use std::collections::BTreeSet;

use bisquepond::function::FunctionRow;
use bisquepond::parsing::count_handlers;
use bisquepond::sys::{hbc_read_functions, LIMIT};
use bisquepond::Row as _;
use harness::Random;

use super::handlers::{any, FAR};
use crate::case::{code, Compare, Compared, Refusal};
use crate::function::case::{Layout, LAYOUTS};
use crate::function::groups::{Table, FIRST_PAST};
use crate::inputs::{any_bytes, any_words};
use crate::lent::{Number, Reserved};
use crate::parsing::case::handlers::{
    self, function, published, FLAGS, FUNCTION, HAS, INFO_OFFSET, ROW,
};
use crate::parsing::case::why::{self, *};
use crate::run::Run;

pub fn compare(run: &mut Run) -> Compared {
    run.group("why: each reason at its boundary", worked)?;
    run.group("why: counts to 2^32 - 1, cut at each byte", counts)?;
    run.group("why: every place in short files", places)?;
    run.group("why: places around the end, rounded up", around)?;
    run.group("why: every flags byte, wide words", flags)?;
    run.group("why: functions and words lent", lent)?;
    run.group("why: both layouts, inline and large", layouts)?;
    run.group("why: 2^30 and 2^30 + 1 bytes", longest)?;
    run.group("why: any rows, beside those listed", |run| {
        let mut random = run.random(31);
        (0..750_000).try_for_each(|_| table(run, &mut random))
    })
}

/// Compares, and sees what both sides say: the answer, and how many handlers, or the refusal.
pub fn says(run: &mut Run, case: &Why, told: Result<(u32, u32), Refusal>) -> Compared {
    let answer = run.compare(case)?;
    assert_eq!(answer.code, code(told.map(|(why, _)| why)));
    if let Ok((SHOWN, handlers)) = told {
        assert_eq!(answer.handlers, handlers);
    }
    Ok(())
}

/// A file of so many bytes, the count in four of them, and of one function info_offset and flags; what is right.
pub type Worked = (usize, (usize, u32), u32, u32, (u32, u32));

/// Each reason and the numbers next to it; and where several hold the first.
pub const WORKED: [Worked; 38] = [
    // Length 64, info 45, count 2 at 48: the second triple is cut.
    (64, (48, 2), 45, HAS, (CUT, 0)),
    (64, (48, 1), 45, HAS, (SHOWN, 1)),
    (76, (48, 2), 45, HAS, (SHOWN, 2)),
    (75, (48, 2), 45, HAS, (CUT, 0)),
    (63, (48, 1), 48, HAS, (CUT, 0)),
    // The flag is bit 3, whatever stands beside it.
    (20, (4, 1), 4, HAS, (SHOWN, 1)),
    (20, (4, 1), 4, !0, (SHOWN, 1)),
    (20, (4, 1), 4, !HAS, (FLAG_CLEAR, 0)),
    (20, (4, 1), 4, 0, (FLAG_CLEAR, 0)),
    (20, (4, 1), 4, 4, (FLAG_CLEAR, 0)),
    (20, (4, 1), 4, 16, (FLAG_CLEAR, 0)),
    (20, (4, 1), 4, HAS << 8, (FLAG_CLEAR, 0)),
    (20, (4, 1), 4, HAS << 24, (FLAG_CLEAR, 0)),
    // info_offset 0 is no place, also where a table would begin there.
    (16, (0, 1), 0, HAS, (INFO_ZERO, 0)),
    (16, (0, 0), 0, HAS, (INFO_ZERO, 0)),
    (20, (4, 1), 1, HAS, (SHOWN, 1)),
    // At the end, before it and behind it.
    (20, (4, 1), 20, HAS, (INFO_PAST, 0)),
    (20, (4, 1), 21, HAS, (INFO_PAST, 0)),
    (20, (4, 1), 19, HAS, (NO_ROOM, 0)),
    (20, (4, 1), u32::MAX, HAS, (INFO_PAST, 0)),
    (20, (4, 1), u32::MAX - 3, HAS, (INFO_PAST, 0)),
    // Four bytes are left, or three.
    (8, (4, 1), 4, HAS, (CUT, 0)),
    (8, (4, 0), 1, HAS, (COUNT_ZERO, 0)),
    (8, (0, 1), 5, HAS, (NO_ROOM, 0)),
    (7, (0, 1), 4, HAS, (NO_ROOM, 0)),
    (7, (0, 1), 1, HAS, (NO_ROOM, 0)),
    // Counts, with room for all and for none.
    (20, (4, 0), 4, HAS, (COUNT_ZERO, 0)),
    (12_008, (4, 1000), 4, HAS, (SHOWN, 1000)),
    (12_007, (4, 1000), 4, HAS, (CUT, 0)),
    (12_020, (4, 1001), 4, HAS, (COUNT_HIGH, 0)),
    (8, (4, 1001), 4, HAS, (COUNT_HIGH, 0)),
    (8, (4, u32::MAX), 4, HAS, (COUNT_HIGH, 0)),
    (8, (4, 1000), 4, HAS, (CUT, 0)),
    // Several at once.
    (4, (0, 0), 0, 0, (FLAG_CLEAR, 0)),
    (4, (0, 0), 9, 0, (FLAG_CLEAR, 0)),
    (0, (0, 0), 0, HAS, (INFO_ZERO, 0)),
    (0, (0, 0), 1, HAS, (INFO_PAST, 0)),
    (1, (0, 0), 1, HAS, (INFO_PAST, 0)),
];

/// The file of a worked case: the count, if it fits, and else bytes that are none of its numbers.
pub fn worked_file(len: usize, (at, count): (usize, u32)) -> Vec<u8> {
    let mut file = vec![0x77; len];
    if let Some(bytes) = file.get_mut(at..at + 4) {
        bytes.copy_from_slice(&count.to_le_bytes());
    }
    file
}

fn worked(run: &mut Run) -> Compared {
    let mut random = run.random(21);
    let mut seen = BTreeSet::new();
    for (len, count, info, flags, told) in WORKED {
        let file = worked_file(len, count);
        seen.insert(told.0);
        // Alone, and as each of three rows whose other words are any.
        says(run, &Why { file: &file, functions: &function(info, flags), id: 0 }, Ok(told))?;
        for id in 0..3 {
            let mut functions = any_words(&mut random, 3 * FUNCTION);
            let row = &mut functions[id * FUNCTION..][..FUNCTION];
            (row[INFO_OFFSET], row[FLAGS]) = (info, flags);
            says(run, &Why { file: &file, functions: &functions, id: id as u32 }, Ok(told))?;
        }
    }
    assert!(seen.into_iter().eq(SHOWN..=CUT));
    Ok(())
}

/// Counts that are right, too high, and as high as can be.
const COUNTS: [u32; 11] = [0, 1, 2, 3, 999, 1000, 1001, 1002, 65_536, 1 << 31, u32::MAX];

/// Each count in files with room for all of them, for a triple less and more, and cut at each byte between.
fn counts(run: &mut Run) -> Compared {
    let mut random = run.random(22);
    for count in COUNTS {
        let shown = count.min(1002) as usize;
        for places in shown.saturating_sub(1)..=shown + 1 {
            for short in 0..=13 {
                for info in [13, 14, 15, 16] {
                    let mut file =
                        any_bytes(&mut random, (20 + 12 * places).max(20 + short) - short);
                    file[16..20].copy_from_slice(&count.to_le_bytes());
                    let told = match count {
                        0 => (COUNT_ZERO, 0),
                        1001.. => (COUNT_HIGH, 0),
                        _ if (file.len() - 20) / 12 < shown => (CUT, 0),
                        _ => (SHOWN, count),
                    };
                    let functions = function(info, HAS | random.word() as u32);
                    says(run, &Why { file: &file, functions: &functions, id: 0 }, Ok(told))?;
                }
            }
        }
    }
    Ok(())
}

/// Every length to 68, every place in it and behind it, and every count to 6 there.
fn places(run: &mut Run) -> Compared {
    let mut random = run.random(23);
    for len in 0..=68 {
        let mut file = any_bytes(&mut random, len);
        for info in (0..=len as u32 + 9).chain(FAR) {
            for count in [0, 1, 2, 3, 4, 5, 6, 1000, 1001, u32::MAX] {
                let at = info.next_multiple_of(4) as usize;
                if info <= len as u32 && at + 4 <= len {
                    file[at..at + 4].copy_from_slice(&count.to_le_bytes());
                } else if count > 1 {
                    break;
                }
                for flags in [HAS, random.word() as u32] {
                    let functions = &function(info, flags);
                    run.compare(&Why { file: &file, functions, id: 0 })?;
                }
            }
        }
    }
    Ok(())
}

/// Files of any length, places from 9 before the end to 9 behind it, all counts there.
fn around(run: &mut Run) -> Compared {
    let mut random = run.random(24);
    for len in (0..=40).chain(250..=260).chain(1020..=1030).chain(65_530..=65_540) {
        for count in [0, 1, 2, 1000, 1001, u32::MAX] {
            let word = count.to_le_bytes();
            let file: Vec<u8> = (0..len).map(|i: usize| word[i % 4]).collect();
            for info in len.saturating_sub(21)..=len + 9 {
                let told = match info {
                    0 => (INFO_ZERO, 0),
                    _ if info >= len => (INFO_PAST, 0),
                    _ if info.next_multiple_of(4) + 4 > len => (NO_ROOM, 0),
                    _ => match count {
                        0 => (COUNT_ZERO, 0),
                        1001.. => (COUNT_HIGH, 0),
                        _ if info.next_multiple_of(4) + 4 + 12 * count as usize > len => (CUT, 0),
                        _ => (SHOWN, count),
                    },
                };
                let functions = function(info as u32, HAS | random.word() as u32);
                says(run, &Why { file: &file, functions: &functions, id: 0 }, Ok(told))?;
            }
        }
    }
    Ok(())
}

/// Only bit 3 of the flags counts, also where the word is wider than a byte; and no other word of the row is looked at.
fn flags(run: &mut Run) -> Compared {
    let mut random = run.random(25);
    let mut file = any_bytes(&mut random, 40);
    file[4..8].copy_from_slice(&2u32.to_le_bytes());
    let wide = (0..24).map(|bit| 1 << (8 + bit)).chain([0, !0xFF]);
    for wide in wide.collect::<Vec<u32>>() {
        for flags in 0..=255 {
            let mut row = any_words(&mut random, FUNCTION);
            (row[INFO_OFFSET], row[FLAGS]) = (1 + flags % 4, flags | wide);
            let told = if flags & HAS == 0 { (FLAG_CLEAR, 0) } else { (SHOWN, 2) };
            says(run, &Why { file: &file, functions: &row, id: 0 }, Ok(told))?;
        }
    }
    // Every other word with every bit, and all bits, while these two lead to two handlers.
    for word in (0..FUNCTION).filter(|&word| word != INFO_OFFSET && word != FLAGS) {
        for value in (0..32).map(|bit| 1 << bit).chain([0, u32::MAX]) {
            let mut row = function(4, HAS);
            row[word] = value;
            says(run, &Why { file: &file, functions: &row, id: 0 }, Ok((SHOWN, 2)))?;
        }
    }
    Ok(())
}

/// Numbers of functions that few tables have; of some, the words of a row times it is 0 or little in 32 bits, or 16 times.
const FAR_IDS: [u32; 12] = [
    1 << 16,
    FIRST_PAST - 1,
    FIRST_PAST,
    FIRST_PAST + 1,
    (1 << 28) - 1,
    1 << 28,
    (1 << 28) + 1,
    1 << 29,
    1 << 31,
    (1 << 31) + 1,
    u32::MAX - 1,
    u32::MAX,
];

/// No words to some more than four rows, each number of a function around those; files of 0 to 8 bytes and longer; then
/// tables of so many words that they cannot be written, and can hardly be counted in 32 bits.
fn lent(run: &mut Run) -> Compared {
    let mut random = run.random(26);
    let mut files: Vec<Vec<u8>> = (0..=8).map(|len| any_bytes(&mut random, len)).collect();
    files.push(worked_file(20, (4, 1)));
    files.push(worked_file(8, (4, 0)));
    for words in 0..=4 * FUNCTION + 2 {
        let mut functions = any_words(&mut random, words);
        for row in functions.chunks_exact_mut(FUNCTION) {
            (row[INFO_OFFSET], row[FLAGS]) = (random.below(11) as u32, random.word() as u32 | HAS);
        }
        let rows = (words / FUNCTION) as u32;
        for file in &files {
            for id in (0..rows + 3).chain(FAR_IDS) {
                let case = Why { file, functions: &functions, id };
                let refused = run.compare(&case)?.code == code(Err((11, 0)));
                assert_eq!(refused, id >= rows);
            }
        }
    }
    // Around 2^32 words and 2^33, and around the rows that are there.
    let near = |words: usize| {
        let whole = words / FUNCTION * FUNCTION;
        let next = whole + FUNCTION;
        [whole - 1, whole, whole + 1, words - 1, words, words + FUNCTION - 1, next - 1, next]
    };
    let all = [near(1 << 32), near(1 << 33)].concat();
    let most = *all.iter().max().expect("some");
    let many = Reserved::<u32>::new(most).expect("addresses for a table of zeros");
    for words in all {
        let rows = (words / FUNCTION) as u64;
        for id in (0..3).chain(FAR_IDS).chain([rows as u32 - 1, rows as u32]) {
            for file in &files {
                let mut handlers = Number::new(7, 9);
                let given = why::make(file, (many.as_mut_ptr(), words), id, handlers.lent());
                // Every row is zeros.
                let known = u64::from(id) < rows;
                let right = code(if known { Ok(FLAG_CLEAR) } else { Err((11, 0)) });
                if given != right || handlers.held()? != 7 {
                    let case = Why { file, functions: &[], id };
                    return Err(case.difference(
                        &format!("{right:#x} of {words} words of zeros, no number"),
                        &format!("{given:#x}, and {:?}", handlers.held()),
                    ));
                }
                run.equal();
            }
        }
    }
    Ok(())
}

/// Three functions of a layout, of which number 1 has its own flags and, where it can, its own info_offset; inline, or in
/// a large header behind the table. What follows the headers begins at `info`.
struct Headers {
    layout: Layout,
    large: bool,
    start: usize,
    flags: u8,
    /// Bytes between the headers and what follows them.
    gap: usize,
}

impl Headers {
    /// The headers, and where function 1's info_offset leads; 0 of an inline modern one.
    fn made(&self, random: &mut Random) -> (Table, u32) {
        let Headers { layout, large, start, flags, gap } = *self;
        let end = start + 3 * layout.own();
        let place = end + random.below(4);
        let behind = if large { place + layout.large() } else { end };
        let mut table = Table::new(layout, any_bytes(random, behind + gap), start, 3);
        // Of the others only one thing is asked: that they can be read.
        for id in 0..3 {
            table.file[start + (id + 1) * layout.own() - 1] &= !0x20;
        }
        let info = match (layout, large) {
            (Layout::Legacy, _) => behind + gap,
            (Layout::Modern, true) => behind.next_multiple_of(4),
            (Layout::Modern, false) => 0,
        } as u32;
        if large {
            table.point(random, 1, place as u64);
            table.file[place + layout.large() - 1] = flags;
            if layout == Layout::Legacy {
                table.file[place + 16..place + 20].copy_from_slice(&info.to_le_bytes());
            }
        } else {
            let header = &mut table.file[start + layout.own()..][..layout.own()];
            header[layout.own() - 1] = flags & !0x20;
            if layout == Layout::Legacy {
                // 25 bits, with those of frame_size above.
                let above = header[11] & 0xFE;
                header[8..12].copy_from_slice(&info.to_le_bytes());
                header[11] |= above;
            }
        }
        (table, info)
    }
}

/// Generated files: the rows are read by the archive, and so are what function 1 is asked for; the file is cut around its
/// info_offset, its count and its last triple.
fn layouts(run: &mut Run) -> Compared {
    let mut random = run.random(27);
    for (layout, large) in LAYOUTS.into_iter().flat_map(|layout| [(layout, false), (layout, true)])
    {
        let mut seen = BTreeSet::new();
        for (start, gap) in [(0, 0), (0, 1), (3, 2), (5, 3), (16, 70)] {
            for flags in [HAS as u8, 0, 0xFF, !(HAS as u8)] {
                let headers = Headers { layout, large, start, flags, gap };
                for count in COUNTS {
                    let (table, info) = headers.made(&mut random);
                    lengths(run, &mut random, table, info, count, &mut seen)?;
                }
            }
        }
        // An inline modern header has no info_offset, and a large one has one that is not 0.
        let known: Vec<u32> = match (layout, large) {
            (Layout::Legacy, _) => {
                vec![SHOWN, FLAG_CLEAR, INFO_PAST, NO_ROOM, COUNT_ZERO, COUNT_HIGH, CUT]
            }
            (Layout::Modern, false) => vec![FLAG_CLEAR, INFO_ZERO],
            (Layout::Modern, true) => {
                vec![SHOWN, FLAG_CLEAR, INFO_PAST, NO_ROOM, COUNT_ZERO, COUNT_HIGH, CUT]
            }
        };
        assert!(seen.into_iter().eq(known), "{layout:?}, large: {large}");
    }
    zero(run)
}

/// A legacy header of each kind with info_offset 0.
fn zero(run: &mut Run) -> Compared {
    let mut random = run.random(28);
    for large in [false, true] {
        for flags in [HAS as u8, 0] {
            let headers = Headers { layout: Layout::Legacy, large, start: 0, flags, gap: 40 };
            let (mut table, _) = headers.made(&mut random);
            match large {
                true => {
                    let place = table.place(1).expect("it is flagged") as usize;
                    table.file[place + 16..place + 20].fill(0);
                }
                false => {
                    table.file[16 + 8..16 + 11].fill(0);
                    table.file[16 + 11] &= 0xFE;
                }
            }
            let told = if flags == 0 { FLAG_CLEAR } else { INFO_ZERO };
            let rows = read(&table);
            assert_eq!(rows[FUNCTION + INFO_OFFSET], 0);
            says(run, &Why { file: &table.file, functions: &rows, id: 1 }, Ok((told, 0)))?;
        }
    }
    Ok(())
}

/// The rows of a table, by the archive.
fn read(table: &Table) -> Vec<u32> {
    let (file, count) = (&table.file, table.count);
    let mut rows = vec![7; count as usize * FUNCTION];
    let (lent, words) = (rows.as_mut_ptr(), rows.len());
    let (s, len, layout) = (file.as_ptr(), file.len(), table.layout as u32);
    let (start, [mut large, mut sizes]) = (table.start, [0; 2]);
    let code = unsafe {
        hbc_read_functions(s, len, layout, start, count, lent, words, &mut large, &mut sizes)
    };
    assert_eq!(code, count.into(), "the headers can be read");
    rows
}

/// The count at info_offset rounded up, and room for a triple more than it says, up to 1003; then every length that cuts
/// something off.
fn lengths(
    run: &mut Run,
    random: &mut Random,
    mut table: Table,
    info: u32,
    count: u32,
    seen: &mut BTreeSet<u32>,
) -> Compared {
    let headers = table.file.len();
    let at = (info as usize).next_multiple_of(4).max(headers);
    let all = at + 4 + 12 * (1 + count.min(1002) as usize);
    let more = any_bytes(random, all - headers);
    table.file.extend(more);
    if info > 0 {
        table.file[at..at + 4].copy_from_slice(&count.to_le_bytes());
    }
    let whole = std::mem::take(&mut table.file);
    let cut = all.saturating_sub(27).max(headers)..=all;
    for len in (headers..=at + 20).chain(cut).filter(|&len| len <= all) {
        table.file = whole[..len].to_vec();
        let rows = read(&table);
        assert_eq!(rows[FUNCTION + INFO_OFFSET], info);
        let case = Why { file: &table.file, functions: &rows, id: 1 };
        seen.insert(run.compare(&case)?.code as u32);
    }
    Ok(())
}

fn longest(run: &mut Run) -> Compared {
    let mut file = vec![0; LIMIT + 1];
    for from_end in [4, 16, 17, 28, 29, 30, 31, 32, 40] {
        let at = LIMIT - from_end;
        for count in [1, 2, 3] {
            let aligned = at.next_multiple_of(4);
            file[aligned] = count;
            for info in [0, 1, at - 1, at, at + 1, LIMIT - 4, LIMIT - 3, LIMIT - 1, LIMIT] {
                let functions = [function(info as u32, HAS), function(aligned as u32, !0)];
                let functions = functions.as_flattened();
                for len in [LIMIT - 1, LIMIT, LIMIT + 1] {
                    for id in [0, 1, 2, u32::MAX] {
                        let case = Why { file: &file[..len], functions, id };
                        let answer = run.compare(&case)?;
                        assert_eq!(answer.code == code(Err((1, 0))), len > LIMIT);
                    }
                }
            }
            file[aligned] = 0;
        }
    }
    Ok(())
}

/// Every function of a table, and some that there are not; each has as many rows as the archive lists for it, and all
/// together have as many as the Rust crate counts.
pub fn table(run: &mut Run, random: &mut Random) -> Compared {
    let made = any(random);
    let (file, functions) = (&made.file, &made.functions);
    let total = published(file, functions).len();
    let lent = vec![7; (total + 1) * ROW];
    let all = handlers::Case { file, functions, count: made.count, rows: &lent };
    let rows = all.ours()?;
    let mut sum = 0;
    for id in 0..made.count {
        let case = Why { file, functions, id };
        let answer = run.compare(&case)?;
        let handlers = if answer.code == SHOWN.into() { answer.handlers as usize } else { 0 };
        let listed = rows.rows().iter().filter(|row| row[0] == id).count();
        if handlers != listed {
            let (listed, handlers) = (format!("{listed} rows listed"), format!("{handlers}"));
            return Err(case.difference(&listed, &handlers));
        }
        sum += handlers;
    }
    let absent = [made.count, made.count + 1, random.word() as u32 | 8, u32::MAX];
    run.compare(&Why { file, functions, id: random.pick(&absent) })?;
    let counted = count_handlers(file, FunctionRow::rows(functions), made.count);
    match counted {
        Ok(counted) if (counted, rows.total) == (sum, sum) => Ok(()),
        other => Err(format!("{sum} handlers, {} listed, counted {other:?}", rows.total).into()),
    }
}
