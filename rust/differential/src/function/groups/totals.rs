//! The groups of the totals beside a table.

use bisquepond::function::{read_functions, FunctionTable};
use bisquepond::sys::{number, place, LIMIT};
use harness::Random;

use super::super::case::totals::{of, shares, Totals, MOST};
use super::super::case::write::{header, large_header, leading};
use super::super::case::Op::*;
use super::super::case::{fresh, Answer, Case, Layout, INLINE, LAYOUTS, PLACE, ROW, SIZE};
use super::{any_table, edited, Table};
use crate::case::{code, Compared, Difference, Refusal};
use crate::inputs::any_words as words;
use crate::run::Run;

pub fn compare(run: &mut Run) -> Compared {
    run.group("totals: worked cases", worked)?;
    run.group("totals: reads, any before", reads)?;
    run.group("totals: all small rows and totals", small)?;
    run.group("totals: at 0 and 2^63 - 1, by each row", bounds)?;
    run.group("totals: shares of every word", every_word)?;
    run.group("totals: what is refused before them", order)?;
    run.group("totals: nothing read again", untouched)?;
    run.group("totals: counts below the rows lent", counts)?;
    run.group("totals: many functions", many)?;
    run.group("totals: any table, any totals", |run| {
        let mut random = run.random(37);
        (0..100_000).try_for_each(|_| any(run, &mut random))
    })?;
    run.group("totals: edits one after another", |run| {
        let mut random = run.random(38);
        let mut seen = Seen::default();
        (0..20_000).try_for_each(|_| sequence(run, &mut random, 100, &mut seen))?;
        seen.enough()
    })
}

/// A function of this size, read from a large header or from its own.
type Kind = (u32, bool);

/// A file of such functions, their large headers behind the table.
fn file_of(layout: Layout, start: usize, kinds: &[Kind]) -> Table {
    let own = layout.own();
    let mut file = vec![0; start + kinds.len() * own];
    for (id, &(size, large)) in kinds.iter().enumerate() {
        let (mut row, place) = ([0; ROW], file.len());
        row[SIZE] = size;
        let bytes = match large {
            true => leading(layout, place as u128),
            false => header(layout, &row),
        };
        file[start + id * own..][..own].copy_from_slice(&bytes);
        if large {
            file.extend(large_header(layout, &row));
        }
    }
    Table::new(layout, file, start, kinds.len() as u32)
}

/// Rows of any words, but for those that count: as they may be lent.
fn rows_of(random: &mut Random, kinds: &[Kind]) -> Vec<u32> {
    let mut rows = words(random, kinds.len() * ROW);
    for (row, &(size, large)) in rows.chunks_exact_mut(ROW).zip(kinds) {
        let any = random.word() as u32 >> 1;
        row[SIZE] = size;
        row[PLACE] = if large { random.pick(&[0, any, INLINE - 1]) } else { INLINE };
    }
    rows
}

impl Table {
    /// A refresh of all bytes.
    fn whole<'a>(&'a self, rows: &'a [u32], totals: Totals) -> Case<'a> {
        Case { totals: Some(totals), ..self.refresh((0, self.file.len()), rows) }
    }
}

/// Compares, and sees that both sides answer what is written out: a count and the totals, or a refusal, which leaves rows
/// and totals.
fn says(run: &mut Run, case: Case, told: Result<(u32, Totals), Refusal>) -> Compared {
    let Answer { code: given, table, totals } = run.compare(&case)?;
    assert_eq!(given, code(told.map(|(rows, _)| rows)));
    assert_eq!(totals, told.map_or(case.lent(), |(_, totals)| totals));
    assert!(told.is_ok() || table[..case.table.len()] == *case.table);
    Ok(())
}

/// Answers that are written out, of functions of three kinds: inline, inline of size 0, and large.
fn worked(run: &mut Run) -> Compared {
    let mut random = run.random(30);
    for layout in LAYOUTS {
        let table = file_of(layout, 3, &[(10, false), (0, false), (70_000, true)]);
        let lent = words(&mut random, 3 * ROW + 5);
        let read = |count, totals| Case { count, totals: Some(totals), ..table.case(Read, &lent) };
        for any in [[0, 0], [7, 9], [MOST + 1, u64::MAX]] {
            says(run, read(3, any), Ok((3, [1, 70_010])))?;
            says(run, read(2, any), Ok((2, [0, 10])))?;
            says(run, read(0, any), Ok((0, [0, 0])))?;
            says(run, read(4, any), Err((4, 0)))?;
        }
        // Row 0 was large, row 2 inline, of size 5 each; row 1 is as it was.
        let rows = rows_of(&mut random, &[(5, true), (0, false), (5, false)]);
        let again = |totals| table.whole(&rows, totals);
        says(run, again([1, 10]), Ok((3, [1, 70_010])))?;
        says(run, again([4, 1000]), Ok((3, [4, 71_000])))?;
        // Row 0 takes out 1 and 5: both fall short alone, and both together.
        for low in [[0, 10], [1, 4], [0, 4], [0, 0]] {
            says(run, again(low), Err((16, 0)))?;
        }
        says(run, again([1, 5]), Ok((3, [1, 70_005])))?;
        // Row 2 adds 1, and 70,000 in the place of 5; row 0 takes out 1, and adds 10 in the place of 5.
        says(run, again([MOST, 10]), Ok((3, [MOST, 70_010])))?;
        says(run, again([MOST + 1, 10]), Err((16, 2)))?;
        says(run, again([MOST + 2, 10]), Err((16, 0)))?;
        says(run, again([1, MOST - 70_000]), Ok((3, [1, MOST])))?;
        says(run, again([1, MOST - 69_999]), Err((16, 2)))?;
        says(run, again([1, MOST - 5]), Err((16, 2)))?;
        says(run, again([1, MOST - 4]), Err((16, 0)))?;
        // A total that no row changes, above 2^63 - 1: at the first row that is read again, which is row 1.
        let span = (3 + layout.own(), 3 + layout.own() + 1);
        for high in [[MOST + 1, 10], [1, MOST + 1], [u64::MAX; 2]] {
            let case = Case { totals: Some(high), ..table.refresh(span, &rows) };
            says(run, case, Err((16, 1)))?;
            says(run, Case { low: span.1, ..case }, Ok((0, high)))?;
        }
        let case = Case { totals: Some([0, 0]), ..table.refresh(span, &rows) };
        says(run, case, Ok((1, [0, 0])))?;
        // The rows as they are read: nothing changes, and yet each row is taken out and added.
        let rows = fresh(&table.file, layout, 3, 3).expect("a good file").concat();
        let again = |totals| table.whole(&rows, totals);
        says(run, again([1, 70_010]), Ok((3, [1, 70_010])))?;
        says(run, again([1, 70_000]), Ok((3, [1, 70_000])))?;
        says(run, again([1, 69_999]), Err((16, 2)))?;
        says(run, again([0, 70_010]), Err((16, 2)))?;
        says(run, again([1, 9]), Err((16, 0)))?;
        says(run, again([MOST + 1, 70_010]), Err((16, 0)))?;
        says(run, again([MOST, MOST]), Ok((3, [MOST, MOST])))?;
    }
    Ok(())
}

/// Totals that a caller may lend, whatever is true: the edges, and such as are near what is true.
pub fn any_totals(random: &mut Random, rows: &[u32], count: u32) -> Totals {
    let mut any = |near: u64| {
        let few = random.below(4) as u64;
        let row = random.word() >> 32;
        match random.below(16) {
            0 => 0,
            1 => 1,
            2 => MOST,
            3 => MOST + 1,
            4 => u64::MAX,
            5 => near.wrapping_add(1),
            6 => near.wrapping_sub(1),
            7 => near.wrapping_add(few),
            8 => near.wrapping_sub(few),
            9 => MOST - few,
            10 => MOST - near - few,
            11 => MOST - row,
            12 => row,
            13 => random.word(),
            _ => near,
        }
    };
    of(rows, count).map(&mut any)
}

/// Reads set the totals, whatever they were; refused ones leave them.
fn reads(run: &mut Run) -> Compared {
    let mut random = run.random(31);
    for _ in 0..40_000 {
        let table = any_table(&mut random, None);
        let over = random.below(3);
        let lent = words(&mut random, (table.count as usize + over) * ROW);
        let all = any_totals(&mut random, &lent, table.count);
        let count = random.below(table.count as usize + 2) as u32;
        let answer = run.compare(&Case { count, totals: Some(all), ..table.case(Read, &lent) })?;
        let right = match number(answer.code) {
            0 => of(&answer.table, count),
            _ => all,
        };
        assert_eq!(answer.totals, right);
    }
    Ok(())
}

const SMALL: [Kind; 6] = [(0, false), (1, false), (2, false), (0, true), (1, true), (2, true)];

/// All sequences of so many of these.
fn sequences(of: &[Kind], len: usize) -> Vec<Vec<Kind>> {
    (0..len).fold(vec![Vec::new()], |all, _| {
        let longer = |first: Vec<Kind>| of.iter().map(move |&kind| [&first[..], &[kind]].concat());
        all.into_iter().flat_map(longer).collect()
    })
}

/// All tables of one and of two rows that were and are inline or large, of size 0, 1 or 2, with totals around 0 and around
/// 2^63 - 1, whatever is true; by both rows, and by one of them. Of three rows those of four kinds, and fewer totals.
fn small(run: &mut Run) -> Compared {
    let mut random = run.random(32);
    let both = |each: &[u64]| -> Vec<Totals> {
        each.iter().flat_map(|&large| each.iter().map(move |&sizes| [large, sizes])).collect()
    };
    let all = both(&[0, 1, 2, 3, 4, MOST - 2, MOST - 1, MOST, MOST + 1, MOST + 2, u64::MAX]);
    let few = both(&[0, 1, 2, MOST, MOST + 1]);
    for layout in LAYOUTS {
        for (kinds, totals) in [
            (sequences(&SMALL, 1), &all),
            (sequences(&SMALL, 2), &all),
            (sequences(&SMALL[1..5], 3), &few),
        ] {
            for now in &kinds {
                let (table, own) = (file_of(layout, 0, now), layout.own());
                for was in &kinds {
                    let rows = rows_of(&mut random, was);
                    for &totals in totals {
                        run.compare(&table.whole(&rows, totals))?;
                    }
                    for at in [0, own * random.below(now.len())] {
                        let totals = Some(random.pick(totals));
                        run.compare(&Case { totals, ..table.refresh((at, at + 1), &rows) })?;
                    }
                }
            }
        }
    }
    Ok(())
}

/// Sizes as they may be.
fn any_size(random: &mut Random, most: u32) -> u32 {
    let any = random.below(most as usize + 1) as u32;
    random.pick(&[0, 1, any, any, most])
}

/// A row's kind. Inline sizes have as many bits as both layouts have for them.
fn any_kind(random: &mut Random) -> Kind {
    let large = random.below(2) == 0;
    let most = if large { u32::MAX } else { (1 << 14) - 1 };
    (any_size(random, most), large)
}

/// Up to six functions and any rows, or such as are read again without a change. For each function, and for each total, the
/// totals with which it just stays at 0 or above, falls just below, just stays at 2^63 - 1, or is just above, by this very
/// function.
fn bounds(run: &mut Run) -> Compared {
    let mut random = run.random(33);
    let (mut refused, mut kept) = ([0; 6], 0);
    for round in 0..2_500 {
        let layout = random.pick(&LAYOUTS);
        let count = 1 + random.below(6);
        let kinds: Vec<Kind> = (0..count).map(|_| any_kind(&mut random)).collect();
        let lent: Vec<Kind> =
            (0..count).map(|_| (any_size(&mut random, u32::MAX), random.below(2) == 0)).collect();
        let table = file_of(layout, random.below(3), &kinds);
        let read = fresh(&table.file, layout, table.start, table.count).expect("a good file");
        let rows = match round % 3 {
            0 => read.concat(),
            _ => rows_of(&mut random, &lent),
        };
        for which in 0..2 {
            // What is added to the total before a row is taken out.
            let mut before = 0;
            for (row, new) in rows.chunks_exact(ROW).zip(&read) {
                let (out, back) = (shares(row)[which], shares(new)[which]);
                let least = out - before;
                let most = i128::from(MOST) - (before - out + back);
                for total in [least - 1, least, most, most + 1] {
                    let Ok(total) = u64::try_from(total) else {
                        continue;
                    };
                    let mut totals = of(&rows, table.count);
                    totals[which] = total;
                    let answer = run.compare(&table.whole(&rows, totals))?;
                    match number(answer.code) {
                        0 => kept += 1,
                        _ => refused[place(answer.code) as usize] += 1,
                    }
                }
                before += back - out;
            }
        }
    }
    assert!(kept > 5_000 && refused.iter().all(|&seen| seen > 500), "{kept} {refused:?}");
    Ok(())
}

/// What a row counts for, of the old row and of the new one: its size word, each bit of it, and whether its last word is
/// 2^32 - 1; no other word, whatever it is, and no flag.
fn every_word(run: &mut Run) -> Compared {
    let mut random = run.random(34);
    for layout in LAYOUTS {
        for large in [false, true] {
            let table = file_of(layout, 0, &[(9, large)]);
            for word in 0..ROW {
                for bit in 0..32 {
                    for fill in [0, INLINE] {
                        let mut row = [fill; ROW];
                        row[word] ^= 1 << bit;
                        for totals in [of(&row, 1), any_totals(&mut random, &row, 1)] {
                            run.compare(&table.whole(&row, totals))?;
                        }
                    }
                }
            }
            // A large header's own flag, and its size, bit by bit; the header's own, too, where it is not large.
            for bit in 0..8 * table.file.len() {
                let mut table = table.clone();
                table.file[bit / 8] ^= 1 << (bit % 8);
                let row = rows_of(&mut random, &[(9, large)]);
                run.compare(&table.whole(&row, of(&row, 1)))?;
                run.compare(&Case { totals: Some([MOST, 3]), ..table.case(Read, &row) })?;
            }
        }
    }
    Ok(())
}

/// Everything that a refresh is refused for, alone and with all others, beside totals that are wrong at the first row, at a
/// later one or nowhere.
fn order(run: &mut Run) -> Compared {
    let mut random = run.random(35);
    let long = vec![0; LIMIT + 1];
    for layout in LAYOUTS {
        let own = layout.own();
        let kinds = [(3, false), (4, true), (5, false), (6, true)];
        let table = file_of(layout, 1, &kinds);
        let mut past = table.clone();
        past.point(&mut random, 3, table.file.len() as u64 + 1);
        let [mut cut, mut both] = [table.clone(), past.clone()];
        for table in [&mut cut, &mut both] {
            table.point(&mut random, 2, table.file.len() as u64 - 1);
        }
        let rows = rows_of(&mut random, &kinds);
        let more = [&rows[..], &rows_of(&mut random, &[(7, true); 60])].concat();
        let [large, sizes] = of(&rows, 4);
        let wrong = [[0, 0], [large, 0], [large - 1, sizes], [MOST + 1, sizes], [u64::MAX; 2]];
        for totals in wrong.into_iter().chain([[large, sizes], [MOST - 1, sizes]]) {
            for set in 0..1 << 7 {
                let has = |bit: u32| set >> bit & 1 == 1;
                let made = match (has(0), has(1)) {
                    (false, false) => &table,
                    (true, false) => &past,
                    (false, true) => &cut,
                    (true, true) => &both,
                };
                let len = made.file.len();
                let case = Case {
                    layout: if has(6) { 2 } else { layout as u32 },
                    start: if has(4) { len + 1 } else { 1 },
                    count: if has(2) { (len / own) as u32 + 1 } else { 4 },
                    low: if has(3) { len } else { 0 },
                    high: if has(3) { len - 1 } else { len },
                    // Enough rows for a count whose headers are not all there, or a word too few.
                    table: match (has(2), has(5)) {
                        (false, false) => &rows,
                        (false, true) => &rows[..4 * ROW - 1],
                        (true, false) => &more,
                        (true, true) => &more[..ROW],
                    },
                    ..made.whole(&rows, totals)
                };
                let refusal = number(run.compare(&case)?.code);
                assert_eq!(matches!(refusal, 0 | 16), set == 0, "{set}");
                run.compare(&Case { op: Read, ..case })?;
            }
            // A file that is too long is looked at before all of them but the layout.
            for (layout, start) in [(0, 0), (1, LIMIT + 2), (2, 0)] {
                let case = table.whole(&rows, totals);
                run.compare(&Case { file: &long, layout, start, ..case })?;
                run.compare(&Case { op: Read, file: &long, layout, start, ..case })?;
            }
        }
    }
    Ok(())
}

/// Where no row is read again no total is looked at: empty spans, spans that no function has a part in, no functions.
fn untouched(run: &mut Run) -> Compared {
    let mut random = run.random(36);
    for layout in LAYOUTS {
        let mut table = file_of(layout, 5, &[(1, true), (2, false)]);
        let end = table.file.len();
        table.file.extend([0; 9]);
        let len = table.file.len();
        let rows = words(&mut random, 3 * ROW);
        let empty = (0..=len).map(|at| (at, at));
        let apart = [(0, 5), (4, 5), (end, end + 1), (end, len), (len - 1, len)];
        let mut accepted = |case: Case| says(run, case, Ok((0, case.lent())));
        for totals in [[0, 0], [1, 1], [MOST; 2], [MOST + 1; 2], [u64::MAX; 2], [0, u64::MAX]] {
            for span in empty.clone().chain(apart) {
                accepted(Case { totals: Some(totals), ..table.refresh(span, &rows) })?;
            }
            for low in 0..=len {
                accepted(Case { count: 0, low, ..table.whole(&rows, totals) })?;
                accepted(Case { count: 0, low, ..table.whole(&[], totals) })?;
            }
        }
    }
    Ok(())
}

/// Counts below the rows lent: rows behind them are neither read nor counted. With the totals of the first so many rows, and
/// with those of all.
fn counts(run: &mut Run) -> Compared {
    let mut random = run.random(39);
    for _ in 0..2_000 {
        let layout = random.pick(&LAYOUTS);
        let kinds: Vec<Kind> = (0..6).map(|_| any_kind(&mut random)).collect();
        let table = file_of(layout, 0, &kinds);
        let rows = words(&mut random, 8 * ROW);
        for count in 0..=7 {
            let case = Case { count, ..table.whole(&rows, [0; 2]) };
            for totals in [of(&rows, count), of(&rows, 8)] {
                run.compare(&Case { totals: Some(totals), ..case })?;
            }
            run.compare(&Case { op: Read, ..case })?;
        }
    }
    Ok(())
}

/// Around 2^8 and 2^16 large headers, all of the greatest size, and as many that are inline; read, and read again over rows
/// that are none of them, by the last byte and by all.
fn many(run: &mut Run) -> Compared {
    let mut random = run.random(40);
    for layout in LAYOUTS {
        for count in [255, 256, 257, 65_536, 65_537] {
            for kind in [(u32::MAX, true), (1, false)] {
                let table = file_of(layout, 0, &vec![kind; count]);
                let was = (random.word() as u32, !kind.1);
                let rows = rows_of(&mut random, &vec![was; count]);
                let read = run.compare(&table.case(Read, &rows))?;
                let all = count as u64;
                assert_eq!(read.totals, [all * u64::from(kind.1), all * u64::from(kind.0)]);
                run.compare(&table.whole(&rows, of(&rows, count as u32)))?;
                run.compare(&table.whole(&rows, read.totals))?;
                run.compare(&table.whole(&read.table[..rows.len()], read.totals))?;
                let len = table.file.len();
                run.compare(&table.refresh((len - 1, len), &rows))?;
            }
        }
    }
    Ok(())
}

/// A refresh after any edit, of any rows, with any totals.
pub fn any(run: &mut Run, random: &mut Random) -> Compared {
    let before = any_table(random, None);
    let (after, span) = edited(random, &before);
    let over = random.below(ROW + 2);
    let mut rows = words(random, before.count as usize * ROW + over);
    for row in rows.chunks_exact_mut(ROW) {
        // Rows that are inline, and rows of few bytes.
        if random.below(2) == 0 {
            row[PLACE] = INLINE;
        }
        if random.below(2) == 0 {
            row[SIZE] %= 16;
        }
    }
    let count = before.count - random.below(before.count.min(1) as usize + 1) as u32;
    let whole = random.below(3) == 0;
    for _ in 0..4 {
        let totals = Some(any_totals(random, &rows, count));
        let span = if whole { (0, after.file.len()) } else { span };
        run.compare(&Case { count, totals, ..after.refresh(span, &rows) })?;
    }
    run.compare(&Case { count, ..after.refresh(span, &rows) })?;
    Ok(())
}

/// How many edits were taken in, of which some met no function, and how many were refused.
#[derive(Default, Debug)]
pub struct Seen {
    accepted: u64,
    met: u64,
    refused: u64,
}

impl Seen {
    /// A group that sees too few of one kind tells nothing of it.
    fn enough(&self) -> Compared {
        let Seen { accepted, met, refused } = *self;
        match met > accepted / 4 && met < accepted && refused > accepted / 100 {
            true => Ok(()),
            false => Err(format!("too few edits of one kind: {self:?}").into()),
        }
    }
}

/// A table that is read once, by the archive, and then follows so many edits. After each of them rows and totals are those
/// of a fresh read by the Rust, and the totals are added up anew; an edit that is refused is undone. The Rust crate's own
/// table follows too.
pub fn sequence(run: &mut Run, random: &mut Random, steps: usize, seen: &mut Seen) -> Compared {
    let mut table = any_table(random, None);
    let over = random.below(4);
    let lent = words(random, table.count as usize * ROW + over);
    let totals = any_totals(random, &lent, table.count);
    let read = Case { totals: Some(totals), ..table.case(Read, &lent) };
    let Answer { code, table: rows, mut totals } = run.compare(&read)?;
    if number(code) != 0 {
        return Ok(());
    }
    let mut rows = rows[..lent.len()].to_vec();
    let mut in_rust = match random.below(4) {
        0 => read_functions(&table.file, table.layout.ours(), table.start, table.count).ok(),
        _ => None,
    };
    for _ in 0..steps {
        let (after, span) = edited(random, &table);
        let refresh = Case { totals: Some(totals), ..after.refresh(span, &rows) };
        let answer = refresh.compare_fresh()?;
        run.equal();
        let kept = number(answer.code) == 0;
        if let Some(in_rust) = &mut in_rust {
            follow(in_rust, &after, span, &answer)?;
        }
        if !kept {
            seen.refused += 1;
            continue;
        }
        seen.accepted += 1;
        seen.met += u64::from(place(answer.code) > 0);
        rows.copy_from_slice(&answer.table[..lent.len()]);
        (table, totals) = (after, answer.totals);
        if totals != of(&rows, table.count) {
            let sums = of(&rows, table.count);
            return Err(format!("the totals are {totals:?}, and added up anew {sums:?}").into());
        }
    }
    Ok(())
}

/// The Rust crate's table takes the same edit, or is refused for the same; its totals are those of the rows.
fn follow(
    table: &mut FunctionTable,
    after: &Table,
    (low, high): (usize, usize),
    answer: &Answer,
) -> Compared {
    let refreshed = table.refresh(&after.file, low..high).map(|again| again.len() as u32);
    let given = code(refreshed.map(|_| place(answer.code)).map_err(|why| (why.number, why.place)));
    let totals = [table.totals().large(), table.totals().sizes()];
    let rows = &answer.table[..table.words().len()];
    let same = (table.words(), totals) == (rows, answer.totals);
    match given == answer.code && same {
        true => Ok(()),
        false => Err(Difference(vec![
            format!("the Rust crate's table: {totals:?}, answer {given:#x}"),
            format!("the archive's:          {:?}, answer {:#x}", answer.totals, answer.code),
        ])),
    }
}
