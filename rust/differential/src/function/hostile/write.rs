//! Hostile rows to be written.

use bisquepond::sys::LIMIT;
use harness::Random;

use super::super::case::write::{header, large_header, leading, Case, OVERFLOW};
use super::super::case::{Layout, FLAGS, INFO_OFFSET, PLACE, ROW};
use super::super::groups::write::any_draft;
use crate::case::{Compare, Compared, Difference, Refusal};
use crate::hostile::{file_of, size, Soak};
use crate::inputs::fill;
use crate::lent::Reserved;

pub fn soak(soak: &mut Soak, layout: Layout) -> Compared {
    most(soak, layout, false)?;
    most(soak, layout, true)?;
    // Rows that are all 0, as many as a count can say: in legacy the second has not its own number, in modern the first
    // not its layout.
    let rows = u32::MAX as usize * ROW;
    let bad = 1 - layout as u32;
    for (name, words, refusal) in
        [("all rows lent", rows, (13, bad)), ("a word of its rows short", rows - 1, (11, 0))]
    {
        let name = format!("{layout:?}, write, count 2^32 - 1, {name}");
        soak.case(&name, file_of(LIMIT), |_| {
            let rows = Reserved::<u32>::new(words).expect("addresses for rows that are all 0");
            let case = Case { count: u32::MAX, large: usize::MAX, ..nothing(layout) };
            refused(&case, (rows.as_mut_ptr(), rows.len()), LIMIT, refusal)
        })?;
    }
    Ok(())
}

/// No rows, to no place.
fn nothing(layout: Layout) -> Case<'static> {
    Case { rows: &[], layout: layout as u32, start: 0, count: 0, large: 0, buffer: &[] }
}

/// A call that must be refused, into a buffer of so many bytes that can't be written.
fn refused(
    case: &Case,
    (rows, words): (*const u32, usize),
    len: usize,
    refusal: Refusal,
) -> Result<String, Difference> {
    let buffer = Reserved::new(len).expect("addresses for a buffer that is not written");
    case.told(case.lending(rows, words, buffer.as_mut_ptr(), len), Err(refusal))
}

/// As many rows as 2^30 bytes hold, all inline or all large; then with the last row wrong, and with a byte too few.
fn most(soak: &mut Soak, layout: Layout, large: bool) -> Compared {
    let (own, far) = (layout.own(), layout.large().next_multiple_of(4));
    let count = LIMIT / if large { own + far } else { own };
    let place = (count * own).next_multiple_of(4);
    let name = if large { "large headers" } else { "headers" };
    let bytes = LIMIT + 4 * ROW * count;
    soak.case(&format!("{layout:?}, write, 2^30 bytes of {name}"), size(bytes, bytes), |file| {
        let mut rows = vec![0; count * ROW];
        for (id, row) in rows.chunks_exact_mut(ROW).enumerate() {
            (row[0], row[1], row[2]) = (layout as u32, id as u32, id as u32 % (1 << 25));
            row[PLACE] = !(id as u32);
            if large {
                row[FLAGS] = OVERFLOW;
                row[INFO_OFFSET] = (place + far * (id + 1)) as u32;
            }
        }
        fill(file, LIMIT, &[0xA5]);
        let end = if large { place + far * (count - 1) + layout.large() } else { count * own };
        let case = Case { count: count as u32, large: place, ..nothing(layout) };
        let lent = (rows.as_ptr(), rows.len());
        let code = case.lending(lent.0, lent.1, file.as_mut_ptr(), LIMIT);
        let answer = case.told(code, Ok(end as u32))?;
        for (id, row) in rows.chunks_exact(ROW).enumerate() {
            let at = place + far * id;
            let right = match large {
                true => leading(layout, at as u128),
                false => header(layout, row),
            };
            let wide = large.then(|| large_header(layout, row));
            let second = wide.as_ref().is_none_or(|wide| file[at..][..wide.len()] == *wide);
            if file[id * own..][..own] != right || !second {
                return Err(format!("row {id} is not written as it should be").into());
            }
        }
        // Between the large headers, and behind all.
        let gaps = (0..if large { count - 1 } else { 0 }).flat_map(|id| {
            let at = place + far * id;
            at + layout.large()..at + far
        });
        if let Some(at) = gaps.chain(end..LIMIT).find(|&at| file[at] != 0xA5) {
            return Err(format!("byte {at}, of no header, was written").into());
        }
        refused(&case, lent, end - 1, (4, 0))?;
        rows[(count - 1) * ROW + FLAGS] = 256;
        let lent = (rows.as_ptr(), rows.len());
        refused(&case, lent, LIMIT, (13, count as u32 - 1))?;
        Ok(answer)
    })
}

/// A few rows with numbers of any size.
pub fn any(random: &mut Random) -> Compared {
    let draft = any_draft(random);
    let far = [0, 1, u32::MAX as usize, LIMIT, usize::MAX - 3, usize::MAX];
    let asked = Case {
        count: random.pick(&[draft.count, draft.count, u32::MAX]),
        large: random.pick(&far),
        start: random.pick(&[draft.start, draft.start, draft.start, LIMIT, usize::MAX]),
        ..draft.case()
    };
    draft.case().compare()?;
    asked.compare()?;
    Ok(())
}
