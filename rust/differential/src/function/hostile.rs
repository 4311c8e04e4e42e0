//! Hostile inputs for the function tables.

mod write;

use bisquepond::sys::LIMIT;
use harness::Random;
use published::format::FLAG_OVERFLOWED;

use super::case::totals::{of, Lent, Totals, MOST};
use super::case::{one, Case, Layout, Op, INLINE, LAYOUTS, OPS, PLACE, RECORD, ROW};
use super::groups::any_table;
use super::groups::totals::any_totals;
use crate::case::{Compare, Compared, Difference, Refusal};
use crate::hostile::{file_of, rows_are, size, Soak};
use crate::inputs::{any_words, fill};
use crate::lent::Reserved;

pub fn soak(soak: &mut Soak) -> Compared {
    for layout in LAYOUTS {
        let named = |name: &str| format!("{layout:?}, {name}");
        overlapping(soak, layout)?;
        let count = (LIMIT / layout.own()) as u32;
        // All headers flagged, all large headers at byte 0, and the last one where a byte is missing.
        let cut = |file: &mut Vec<u8>| {
            fill(file, LIMIT, &flagged(layout));
            let last = (count as usize - 1) * layout.own();
            let place = (LIMIT - layout.large() + 1) as u32;
            point(&mut file[last..last + layout.own()], layout, place);
        };
        for (name, op, asked, refusal) in [
            ("read of 2^30 bytes, the last large header cut", Op::Read, count, (3, count - 1)),
            ("refresh of 2^30 bytes, the last one cut", Op::Refresh, count, (3, count - 1)),
        ] {
            soak.case(&named(name), file_of(LIMIT), |file| {
                cut(file);
                told(file, layout, op, asked, asked as usize, refusal)
            })?;
        }
        for (name, op) in [("read", Op::Read), ("refresh", Op::Refresh)] {
            soak.case(
                &named(&format!("{name}, count 2^32 - 1, 2^30 bytes")),
                file_of(LIMIT),
                |file| {
                    fill(file, LIMIT, &flagged(layout));
                    let rows = u32::MAX as usize;
                    told(file, layout, op, u32::MAX, rows, (3, count))
                },
            )?;
            soak.case(
                &named(&format!("{name}, a row short, 2^30 bytes")),
                file_of(LIMIT),
                |file| {
                    fill(file, LIMIT, &flagged(layout));
                    told(file, layout, op, count, count as usize - 1, (4, 0))
                },
            )?;
        }
        most(soak, layout)?;
        write::soak(soak, layout)?;
    }
    soak.at_random(1 << 16, |random| {
        any(random)?;
        write::any(random)
    })
}

/// A header that is flagged and names byte 0.
fn flagged(layout: Layout) -> Vec<u8> {
    let mut header = vec![0; layout.own()];
    header[layout.own() - 1] = FLAG_OVERFLOWED;
    header
}

/// Packs a place into a header that is 0 but for its flags.
fn point(header: &mut [u8], layout: Layout, place: u32) {
    let [a, b, c, d] = place.to_le_bytes();
    match layout {
        Layout::Legacy => {
            header[..2].copy_from_slice(&[a, b]);
            header[8..10].copy_from_slice(&[c, d]);
        }
        Layout::Modern => {
            header[..3].copy_from_slice(&[a, b, c]);
            (header[5], header[6]) = (d << 6, d >> 2);
        }
    }
    assert_eq!(layout.place(header), Some(place.into()));
}

/// Totals that no table has.
const FAR: Totals = [u64::MAX; 2];

/// A call that must be refused, into a table of so many rows that can't be written, with totals that are far too high.
fn told(
    file: &[u8],
    layout: Layout,
    op: Op,
    count: u32,
    rows: usize,
    refusal: Refusal,
) -> Result<String, Difference> {
    let table = Reserved::new(rows * ROW).expect("addresses for a table that is not written");
    let (case, mut totals) = (case(file, layout, op, count, &[]), Lent::new(FAR));
    let code = case.make(table.as_mut_ptr(), table.len(), &mut totals);
    totals_are(&totals, FAR)?;
    case.told(code, Err(refusal))
}

/// Sees that the totals are as they were worked out beside.
fn totals_are(given: &Lent, right: Totals) -> Compared {
    match given.held()? {
        held if held == right => Ok(()),
        held => Err(format!("the totals are {held:?}, not {right:?}").into()),
    }
}

/// A call on a table at byte 0, with the whole file as span.
fn case<'a>(file: &'a [u8], layout: Layout, op: Op, count: u32, table: &'a [u32]) -> Case<'a> {
    let (layout, high) = (layout as u32, file.len());
    Case { op, file, layout, start: 0, count, low: 0, high, table, totals: None }
}

/// Four million functions, all flagged, whose large headers overlap in the table itself, byte by byte. Read, and read again
/// over rows that were large and over rows that were inline, with totals that just do, or that are wrong at one end.
fn overlapping(soak: &mut Soak, layout: Layout) -> Compared {
    const COUNT: usize = 1 << 22;
    let size = size(COUNT * (layout.own() + 4 * ROW), COUNT * 4 * ROW * 8);
    let (all, high) = (COUNT as u32, MOST - COUNT as u64);
    for (op, name, inline, totals, told) in [
        (Op::Read, "read, large headers that overlap", false, None, Ok(all)),
        (Op::Refresh, "refresh, large headers that overlap", false, None, Ok(all)),
        (Op::Refresh, "refresh, a total just 2^63 - 1", true, Some([high, 1 << 40]), Ok(all)),
        (
            Op::Refresh,
            "refresh, a total too high at the last",
            true,
            Some([high + 1, 1 << 40]),
            Err((16, all - 1)),
        ),
        (
            Op::Refresh,
            "refresh, a total too low at the first",
            false,
            Some([0, 1 << 40]),
            Err((16, 0)),
        ),
    ] {
        let mut random = soak.random(4);
        soak.case(&format!("{layout:?}, {name}"), size, |file| {
            fill(file, COUNT * layout.own(), &flagged(layout));
            for header in file.chunks_exact_mut(layout.own()) {
                point(header, layout, random.below(COUNT) as u32);
            }
            let mut table = vec![7; COUNT * ROW];
            if inline {
                table.chunks_exact_mut(ROW).for_each(|row| row[PLACE] = INLINE);
            }
            let case = Case { totals, ..case(file, layout, op, all, &table) };
            case.told(case.compare()?.code, told)
        })?;
    }
    Ok(())
}

/// As many functions as 2^30 bytes hold, all by the large header at byte 0: rows by the Rust's record for one, with its
/// number and the place 0.
fn most(soak: &mut Soak, layout: Layout) -> Compared {
    let count = LIMIT / layout.own();
    let size = file_of(LIMIT + 4 * ROW * count);
    for (op, name) in [(Op::Read, "read"), (Op::Refresh, "refresh")] {
        soak.case(&format!("{layout:?}, {name}, 2^30 bytes of headers"), size, |file| {
            fill(file, LIMIT, &flagged(layout));
            let mut table = vec![7; count * ROW];
            let asked = case(file, layout, op, count as u32, &[]);
            // A read sets the totals; a refresh is lent those of the rows as they are.
            let mut totals = Lent::new(match op {
                Op::Read => FAR,
                _ => [count as u64, 7 * count as u64],
            });
            let code = asked.make(table.as_mut_ptr(), table.len(), &mut totals);
            let row = one(file, layout, 0, 0).expect("a large header at byte 0");
            let [large, size] = of(&row, 1).map(|share| share * count as u64);
            totals_are(&totals, [large, size])?;
            rows_are(&table, ROW, |i, given| {
                given[1] == i as u32 && given[0] == row[0] && given[2..] == row[2..]
            })?;
            asked.told(code, Ok(count as u32))
        })?;
    }
    Ok(())
}

/// Small tables with counts, ids and spans of any size.
fn any(random: &mut Random) -> Compared {
    let table = any_table(random, None);
    let words = random.pick(&[0, RECORD - 1, RECORD, ROW - 1, ROW, 40 * RECORD, 40 * ROW]);
    let lent = any_words(random, words);
    let far = [0, 1, u32::MAX as usize, LIMIT, usize::MAX];
    for op in OPS {
        let asked = Case {
            count: random.pick(&[u32::MAX, u32::MAX - 1, table.case(op, &lent).count]),
            low: random.pick(&far),
            high: random.pick(&far),
            totals: Some(any_totals(random, &lent, table.count)),
            ..table.case(op, &lent)
        };
        asked.compare()?;
    }
    Ok(())
}
