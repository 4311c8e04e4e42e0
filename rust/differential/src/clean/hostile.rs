//! Bundles that are made to take long: large headers in no order, each of which must be held against all others; runs, tags
//! and series by the million. What is right is known from how they are made.

use bisquepond::sys::LIMIT;
use harness::{count, Random};

use super::case::*;
use super::groups::made::{point, shuffled, Made};
use crate::case::{Compare as _, Compared, Difference, Refusal};
use crate::function::case::{Layout, LAYOUTS};
use crate::hostile::{file_of, size, Soak};
use crate::inputs::fill;
use crate::lent::Number;

pub fn soak(soak: &mut Soak) -> Compared {
    for layout in LAYOUTS {
        larges(soak, layout)?;
    }
    runs(soak)?;
    strings(soak)?;
    series(soak)?;
    soak.at_random(1 << 12, any)
}

/// What is answered, of which it is known what it must be.
fn known(case: &Case, told: Result<Found, Refusal>) -> Result<String, Difference> {
    let mut place = Number::new(LENT, !LENT);
    let code = case.make(place.lent());
    let (given, right) = (Answer { code, place: place.held()? }, answer(told, LENT));
    match given == right {
        true => Ok(case.said(&given, None)),
        false => Err(case.difference(&case.said(&right, None), &case.said(&given, None))),
    }
}

/// Functions of a file of so many bytes, each with its large header at the place that `place` names.
fn functions(file: &mut Vec<u8>, layout: Layout, len: usize, places: impl Iterator<Item = usize>) {
    let (mut random, mut header) = (Random::new(1), vec![0; layout.own()]);
    fill(file, len, &[0]);
    for (id, place) in places.enumerate() {
        point(&mut random, layout, &mut header, 0, 0, place);
        file[id * layout.own()..][..layout.own()].copy_from_slice(&header);
    }
}

/// Large headers that fall, are in no order, or are all one, dense and over 2^30 bytes.
fn larges(soak: &mut Soak, layout: Layout) -> Compared {
    let (own, large) = (layout.own(), layout.large());
    let mut random = soak.random(60);
    let million = 1_000_000;
    for (functions_of, apart, in_order, told) in [
        (million, large, true, None),
        (million, large, false, None),
        (million, LIMIT / million - own, true, None),
        (million, LIMIT / million - own, false, None),
        (4 * million, LIMIT / (4 * million) - own, true, None),
        (4 * million, large - 1, true, Some((LARGE_HEADERS, 0))),
        (4 * million, 0, true, Some((LARGE_HEADERS, 0))),
    ] {
        let end = functions_of * own;
        let len = end + functions_of * apart + large;
        let order = if in_order { "falling" } else { "in no order" };
        let name = format!(
            "{layout:?}, {} large headers, {order}, {apart} apart",
            count(functions_of as u64)
        );
        // The passes over the table are those of the windows.
        let passes = 3 + (len - end) / (65_535 * large);
        soak.case(&name, size(end * passes + len, len + 16 * functions_of), |file| {
            let mut places: Vec<usize> = (0..functions_of).rev().map(|i| end + i * apart).collect();
            if !in_order {
                shuffled(&mut random, &mut places);
            }
            functions(file, layout, len, places.into_iter());
            let case = Case { file, layout: layout as u32, count: functions_of as u32, ..NONE };
            known(&case, Ok(told))
        })?;
    }
    // As many functions as a file holds, each in its own header: one pass.
    let most = LIMIT / own;
    soak.filled(&format!("{layout:?}, 2^30 bytes of headers"), (LIMIT, &[0]), |file| {
        known(&Case { file, layout: layout as u32, count: most as u32, ..NONE }, Ok(None))
    })?;
    // Half of a file headers, whose large ones fall through the other half: as many functions by as many windows as can be.
    let functions_of = LIMIT / 2 / own;
    let apart = LIMIT / 2 / functions_of;
    let shown = count(functions_of as u64);
    let name = format!("{layout:?}, {shown} large headers, falling, in 2^30 bytes");
    if !soak.full {
        println!(
            "clean    {name:<60} not run without --full: see docs/PERFORMANCE.md for its bound"
        );
        return Ok(());
    }
    soak.case(&name, file_of(LIMIT), |file| {
        let end = functions_of * own;
        let places = (0..functions_of).rev().map(|i| (end + i * apart).min(LIMIT - large));
        functions(file, layout, LIMIT, places);
        let case = Case { file, layout: layout as u32, count: functions_of as u32, ..NONE };
        known(&case, Ok(Some((LARGE_HEADERS, 0))))
    })
}

fn runs(soak: &mut Soak) -> Compared {
    const RUNS: usize = LIMIT / 4;
    for (name, last, strings, told) in [
        ("2^28 runs of one string", 1, RUNS as u32, None),
        ("2^28 runs, the last one empty", 1 << 31, RUNS as u32, Some((KIND_RUNS, RUNS - 1))),
        ("2^28 runs, one string too many", 2, RUNS as u32, Some((KIND_RUNS, RUNS))),
    ] {
        soak.case(name, file_of(LIMIT), |_| {
            let mut kinds = vec![1; RUNS];
            kinds[RUNS - 1] = last;
            known(&Case { kinds: &kinds, strings, ..NONE }, Ok(told))
        })?;
    }
    soak.case("2^28 runs of 2^31 - 1 strings", file_of(LIMIT), |_| {
        let kinds = vec![u32::MAX; RUNS];
        known(&Case { kinds: &kinds, strings: u32::MAX, ..NONE }, Ok(Some((KIND_RUNS, RUNS))))
    })
}

/// Strings that share one pair of 2^30 bytes: they are looked at by their place alone.
fn strings(soak: &mut Soak) -> Compared {
    const ENTRIES: usize = 1 << 26;
    for (name, last, told) in [
        ("2^26 strings of 2^30 bytes each", 0, Ok(None)),
        ("2^26 strings, the last one invalid", 1, Ok(Some((STRINGS, ENTRIES - 1)))),
        ("2^26 strings, the last one without its pair", 2, Err((8, ENTRIES as u32 - 1))),
    ] {
        soak.filled(name, (LIMIT, b"a"), |storage| {
            let mut small = vec![255 << 24; ENTRIES];
            small[ENTRIES - 1] |= last << 1;
            let overflow = &[0, LIMIT as u32, LIMIT as u32, 0];
            let (kinds, strings) = (&[ENTRIES as u32], ENTRIES as u32);
            known(&Case { kinds, strings, small: &small, overflow, storage, ..NONE }, told)
        })?;
    }
    Ok(())
}

fn series(soak: &mut Soak) -> Compared {
    soak.filled("2^30 tags of length 0, and no value", (LIMIT, &[0]), |values| {
        known(&Case { values, series: &[0, 0, 1], ..NONE }, Err((3, 0)))
    })?;
    soak.filled("2^30 - 1 tags of length 0 before a value", (LIMIT, &[0x70]), |keys| {
        keys[LIMIT - 1] = 1;
        known(&Case { keys, series: &[9, 0, 1], ..NONE }, Ok(Some((EMPTY_TAGS, 0))))
    })?;
    // 4,095 nulls in two bytes, until there are 2^32 - 1 of them.
    soak.filled("2^32 - 1 values", (LIMIT, &[0x8F, 0xFF]), |values| {
        known(&Case { values, series: &[0, 0, u32::MAX], ..NONE }, Ok(None))
    })?;
    let run = [&[0xEF, 0xFF][..], &[6; 4_095]].concat();
    for (name, strings, told) in [
        ("2^30 string numbers, all below the count", 7, None),
        ("2^30 string numbers, the last one not", 7, Some((LITERAL_STRINGS, 0))),
        ("2^30 string numbers, all of them not", 6, Some((LITERAL_STRINGS, 0))),
    ] {
        let all = LIMIT / run.len();
        soak.filled(name, (all * run.len(), &run), |values| {
            if strings == 7 && told.is_some() {
                *values.last_mut().expect("a byte") = 7;
            }
            let series = &[0, 0, (all * 4_095) as u32];
            known(&Case { kinds: &[strings], strings, values, series, ..NONE }, Ok(told))
        })?;
    }
    const ROWS: usize = 1 << 24;
    for (name, last, told) in [
        ("2^24 series of one value", [0, 1, 1], Ok(None)),
        (
            "2^24 series, the last one with a tag of length 0",
            [0, 0, 1],
            Ok(Some((EMPTY_TAGS, ROWS - 1))),
        ),
        ("2^24 series, the last one past the end", [0, 2, 1], Err((7, 0))),
    ] {
        soak.case(name, file_of(12 * ROWS), |_| {
            let mut series = [7, 1, 1].repeat(ROWS);
            series[ROW * (ROWS - 1)..].copy_from_slice(&last);
            let both = &[0, 1];
            known(&Case { keys: both, values: both, series: &series, ..NONE }, told)
        })?;
    }
    Ok(())
}

/// Small bundles, and with numbers of any size.
fn any(random: &mut Random) -> Compared {
    let mut made = Made::clean(random);
    for _ in 0..4 {
        made.damage(random);
        made.case().compare()?;
    }
    let far = |random: &mut Random| random.pick(&[0, 1, 1 << 28, 1 << 31, u32::MAX]);
    if let Some(last) = made.series.last_mut() {
        *last = far(random);
    }
    (made.strings, made.count) = (far(random), far(random));
    made.case().compare()?;
    Ok(())
}
