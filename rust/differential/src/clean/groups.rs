//! The groups of bundles on which the archive and the second implementation are compared.

pub mod made;
mod parts;
mod windows;

use bisquepond::sys::LIMIT;
use harness::Random;

use self::made::{point, shuffled, Made};
use super::case::*;
use crate::case::{Compare as _, Compared, Refusal};
use crate::function::case::LAYOUTS;
use crate::inputs::any_bytes;
use crate::run::Run;

pub fn compare(run: &mut Run) -> Compared {
    run.group("worked cases", worked)?;
    run.group("all small bundles", parts::bundles)?;
    run.group("large headers at every few places", parts::larges)?;
    run.group("all short kind runs, sums past 2^32", parts::runs)?;
    run.group("all short series", parts::series)?;
    run.group("each rule broken, and each two", parts::broken)?;
    run.group("refusals in their order, before the rules", parts::refusals)?;
    run.group("files that are clean, then damaged", |run| {
        let mut random = run.random(41);
        (0..4_000).try_for_each(|_| damaged(run, &mut random))
    })?;
    run.group("large headers near each other", |run| {
        let mut random = run.random(42);
        (0..60_000).try_for_each(|_| near(run, &mut random))
    })?;
    run.group("pairs at the edges of windows", windows::edges)?;
    run.group("many large headers, over several windows", windows::many)?;
    run.group("nothing, and numbers of any size", numbers)?;
    run.group("2^30 and 2^30 + 1 bytes", longest)?;
    run.group("random", |run| {
        let mut random = run.random(50);
        while run.more() {
            near(run, &mut random)?;
            damaged(run, &mut random)?;
        }
        Ok(())
    })
}

/// Compares, and sees what both sides say.
pub fn says(run: &mut Run, case: &Case, told: Result<Found, Refusal>) -> Compared {
    let given = run.compare(case)?;
    let told = answer(told, given.place);
    match given == told {
        true => Ok(()),
        false => Err(case.difference(&case.said(&told, None), &case.said(&given, None))),
    }
}

/// An entry that takes a pair; its number is added, shifted by one.
pub const LONG: u32 = 255 << 24;

/// Two strings in two runs, and no functions or series.
const TWO: Case<'_> = Case {
    kinds: &[1, 1 << 31 | 1],
    strings: 2,
    small: &[1 << 24, 1 << 25],
    storage: b"ab",
    ..NONE
};

/// A bundle, and what must come of it, written out by hand.
pub type Worked = (Case<'static>, Result<Found, Refusal>);

/// Without functions: rules 2 to 5, and refusals.
pub const WORKED: &[Worked] = &[
    (NONE, Ok(None)),
    (TWO, Ok(None)),
    // Kind runs: the sum, an empty one, and which of the two is told; lengths alone count.
    (Case { strings: 1, ..NONE }, Ok(Some((KIND_RUNS, 0)))),
    (Case { kinds: &[0], ..NONE }, Ok(Some((KIND_RUNS, 0)))),
    (Case { kinds: &[1, 2], ..TWO }, Ok(Some((KIND_RUNS, 2)))),
    (Case { kinds: &[1], ..TWO }, Ok(Some((KIND_RUNS, 1)))),
    (Case { kinds: &[1, 0, 1], ..TWO }, Ok(Some((KIND_RUNS, 1)))),
    (Case { kinds: &[1, 2, 1 << 31], ..TWO }, Ok(Some((KIND_RUNS, 2)))),
    (Case { kinds: &[u32::MAX, 1 << 31 | 1], ..NONE }, Ok(Some((KIND_RUNS, 2)))),
    // The count is the one given, also with fewer entries; and entries past it are not looked at.
    (Case { small: &[1 << 24], ..TWO }, Ok(None)),
    (Case { small: &[0, 0, 2 << 1, LONG], ..TWO }, Ok(None)),
    // Strings: at the end, past it, in UTF-16, by a pair that two share.
    (Case { small: &[1 << 1, 2 << 1], ..TWO }, Ok(Some((STRINGS, 1)))),
    (Case { small: &[2 << 1, 2 << 1], ..TWO }, Ok(Some((STRINGS, 0)))),
    (Case { small: &[0, 1 | 1 << 1 | 1 << 24], ..TWO }, Ok(Some((STRINGS, 1)))),
    (Case { small: &[LONG | 2, LONG | 2], overflow: &[9, 9, 0, 2], ..TWO }, Ok(None)),
    (Case { small: &[LONG | 2, LONG], overflow: &[9, 9, 0, 2], ..TWO }, Ok(Some((STRINGS, 1)))),
    (Case { small: &[LONG, LONG | 2], overflow: &[9, 9, 0], ..TWO }, Err((8, 1))),
    // Series: a tag of length 0 before the last value, right behind it, before the first; in two bytes.
    (Case { values: &[1, 0, 1], series: &[0, 0, 2], ..TWO }, Ok(Some((EMPTY_TAGS, 0)))),
    (Case { values: &[1, 0, 1], series: &[0, 0, 1], ..TWO }, Ok(None)),
    (Case { values: &[1, 0, 1], series: &[0, 1, 1], ..TWO }, Ok(Some((EMPTY_TAGS, 0)))),
    (Case { keys: &[0x80, 0, 1], series: &[7, 0, 1], ..TWO }, Ok(Some((EMPTY_TAGS, 0)))),
    (Case { values: &[1, 0, 1], series: &[0, 1, 0], ..TWO }, Ok(None)),
    (
        Case { values: &[1, 0, 1], series: &[0, 0, 1, 0, 0, 0, 0, 0, 2], ..TWO },
        Ok(Some((EMPTY_TAGS, 2))),
    ),
    // String numbers 1 and 2 of two strings.
    (Case { values: &[0x62, 1, 2], series: &[0, 0, 1], ..TWO }, Ok(None)),
    (
        Case { values: &[0x62, 1, 2], series: &[0, 0, 1, 0, 0, 2], ..TWO },
        Ok(Some((LITERAL_STRINGS, 1))),
    ),
    (Case { keys: &[0x52, 1, 0, 2, 0], series: &[1, 0, 2], ..TWO }, Ok(Some((LITERAL_STRINGS, 0)))),
    (Case { keys: &[0x41, 0, 0, 0, 1], series: &[1, 0, 1], ..TWO }, Ok(Some((LITERAL_STRINGS, 0)))),
    (Case { keys: &[0x71, 9, 9, 9, 9], series: &[1, 0, 1], ..TWO }, Ok(None)),
    // Rule 4 of a later series comes before rule 5 of an earlier one.
    (
        Case { values: &[0x61, 9, 0, 1], series: &[0, 0, 1, 0, 2, 1], ..TWO },
        Ok(Some((EMPTY_TAGS, 1))),
    ),
    // A series that is past the end, cut, or of none; words that make no row.
    (Case { values: &[1], series: &[0, 1, 1], ..TWO }, Err((7, 0))),
    (Case { values: &[1], series: &[0, 9, 0], ..TWO }, Ok(None)),
    (Case { values: &[0x63, 0, 0], series: &[0, 0, 2, 0, 0, 3], ..TWO }, Err((3, 2))),
    (Case { values: &[1], series: &[0, 0, 1, 0, 1], ..TWO }, Ok(None)),
    // What is refused is refused before a rule.
    (Case { kinds: &[0], small: &[9 << 1, LONG], ..TWO }, Err((8, 1))),
    (Case { kinds: &[0], values: &[1], series: &[1, 0, 1], ..TWO }, Err((7, 0))),
    (Case { start: 1, small: &[LONG], ..TWO }, Err((2, 0))),
    (Case { count: 1, small: &[LONG], ..TWO }, Err((3, 0))),
    (Case { layout: 2, start: 1, ..TWO }, Err((12, 0))),
];

/// Of four functions the places of their large headers from the table's end on, a place past 2^30 being none; what is
/// right, by the bytes of a large header.
type Places = (fn(isize) -> [isize; 4], Option<usize>);

const NO: isize = 1 << 31;

const PLACES: &[Places] = &[
    (|_| [NO; 4], None),
    (|l| [0, l, 2 * l, 3 * l], None),
    (|l| [3 * l, 2 * l, l, 0], None),
    (|l| [NO, 2 * l, NO, 0], None),
    // One byte is shared, or all of them.
    (|l| [0, l, 2 * l - 1, 3 * l], Some(1)),
    (|l| [3 * l, 2 * l, l, 1], Some(2)),
    (|l| [5 * l, 0, NO, 0], Some(1)),
    (|_| [7; 4], Some(0)),
    // The lowest of all that share, though others share more.
    (|l| [9 * l, 4 * l, l, l + 1], Some(2)),
    (|l| [9 * l, 4 * l, l, 3 * l + 1], Some(1)),
    // Before the table's end by a byte, alone and into another.
    (|l| [-1, l, 2 * l, 3 * l], Some(0)),
    (|l| [l, 3 * l, 5 * l, -1], Some(3)),
    (|l| [l, 0, 5 * l, -1], Some(1)),
    (|l| [l, l - 1, 5 * l, -1], Some(0)),
    (|l| [l, 3 * l, -2, -1], Some(2)),
];

fn worked(run: &mut Run) -> Compared {
    for (case, told) in WORKED {
        says(run, case, *told)?;
    }
    let mut random = run.random(40);
    for layout in LAYOUTS {
        let (own, large) = (layout.own(), layout.large());
        for (places, told) in PLACES {
            for start in [0, 3, 40] {
                let end = start + 4 * own;
                let mut file = vec![0; end + 10 * large];
                for (id, place) in places(large as isize).into_iter().enumerate() {
                    if place < NO {
                        point(
                            &mut random,
                            layout,
                            &mut file,
                            start,
                            id,
                            end.strict_add_signed(place),
                        );
                    }
                }
                let case = Case { file: &file, layout: layout as u32, start, count: 4, ..TWO };
                says(run, &case, Ok(told.map(|id| (LARGE_HEADERS, id))))?;
            }
        }
    }
    Ok(())
}

/// A clean bundle, and then the same with some bytes and words changed, one after the other.
fn damaged(run: &mut Run, random: &mut Random) -> Compared {
    let mut made = Made::clean(random);
    says(run, &made.case(), Ok(None))?;
    for _ in 0..1 + random.below(8) {
        made.damage(random);
        run.compare(&made.case())?;
    }
    Ok(())
}

/// Up to fourteen functions with their large headers on and beside a few places, in any order, near the table's end.
fn near(run: &mut Run, random: &mut Random) -> Compared {
    let layout = random.pick(&LAYOUTS);
    let (own, large) = (layout.own(), layout.large());
    let (start, count) = (random.below(40), random.below(15));
    let end = start + count * own;
    // Those that touch, in an order of their own; then some are moved by a byte or two, or to another's place.
    let mut places: Vec<usize> = (0..count).map(|i| end + i * large).collect();
    shuffled(random, &mut places);
    for i in 0..count {
        let other = places[random.below(count)];
        match random.below(4 * count) {
            0 => places[i] = other,
            1 => places[i] = other.saturating_sub(large - 1),
            2 => places[i] += 1,
            3 => places[i] -= 1,
            4 => places[i] = random.below(end + 1),
            5 => places[i] += large / 2,
            _ => {}
        }
    }
    let len = end + count * large + random.below(3);
    let mut file = any_bytes(random, len);
    for (id, &place) in places.iter().enumerate() {
        match random.below(6) {
            0 => file[start + (id + 1) * own - 1] &= !0x20,
            _ => point(random, layout, &mut file, start, id, place),
        }
    }
    let case = Case { file: &file, layout: layout as u32, start, count: count as u32, ..NONE };
    run.compare(&case)?;
    Ok(())
}

const FAR: [usize; 6] = [LIMIT + 1, 1 << 32, 1 << 63, usize::MAX - 15, usize::MAX - 1, usize::MAX];
const FAR_COUNTS: [u32; 6] = [1 << 16, 1 << 28, 1 << 31, (1 << 31) + 1, u32::MAX - 1, u32::MAX];

/// Numbers of any size beside tables of none and of few; words that make no row, and layouts that there are not.
fn numbers(run: &mut Run) -> Compared {
    let file = [0; 50];
    for layout in [0, 1, 2, 3, 1 << 31, u32::MAX] {
        for file in [&[][..], &file] {
            for start in (0..3).chain([file.len(), file.len() + 1]).chain(FAR) {
                for count in (0..6).chain(FAR_COUNTS) {
                    run.compare(&Case { file, layout, start, count, ..TWO })?;
                }
            }
        }
    }
    let entries: [&[u32]; 5] = [&[], &[0], &[0, 0], &[0, LONG], &[LONG | 2, LONG | 0xFF_FFFE]];
    for strings in (0..4).chain(FAR_COUNTS) {
        for small in entries {
            for kinds in [&[][..], &[strings & 0x7FFF_FFFF], &[2, u32::MAX, 1 << 31 | 7], TWO.kinds]
            {
                for overflow in [&[][..], &[0], &[0, 1], &[0, 1, 0], &[0, 1, u32::MAX, u32::MAX]] {
                    run.compare(&Case { kinds, strings, small, overflow, ..TWO })?;
                }
            }
        }
    }
    let (keys, values) =
        (&[0x62, 0, 1, 0x8F, 0xFF], &[0x8F, 0xFF, 0x00, 0x31, 1, 2, 3, 4, 5, 6, 7, 8]);
    for offset in (0..14).chain(FAR_COUNTS) {
        for count in (0..4).chain([4095, 4096, 4097]).chain(FAR_COUNTS) {
            let words = [random_side(offset, count), offset, count, 0, 2, 1, 9, 0, 2];
            for len in 0..=words.len() {
                run.compare(&Case { keys, values, series: &words[..len], ..TWO })?;
            }
        }
    }
    Ok(())
}

/// All but 0 names the keys.
fn random_side(offset: u32, count: u32) -> u32 {
    [0, 1, 2, u32::MAX][(offset ^ count) as usize % 4]
}

/// Each part with as many bytes as are allowed, and one more; large headers at the end of such a file, in falling order.
fn longest(run: &mut Run) -> Compared {
    let mut random = run.random(43);
    let mut long = vec![0; LIMIT + 1];
    for len in [LIMIT, LIMIT + 1] {
        let part = &long[..len];
        let told = if len > LIMIT { Err((1, 0)) } else { Ok(None) };
        says(run, &Case { file: part, ..TWO }, told)?;
        says(run, &Case { file: part, count: 3, ..TWO }, told)?;
        says(run, &Case { file: part, start: usize::MAX, ..TWO }, told.and(Err((2, 0))))?;
        says(run, &Case { file: part, layout: 2, ..TWO }, Err((12, 0)))?;
        says(run, &Case { storage: part, ..TWO }, told)?;
        says(run, &Case { storage: part, kinds: &[], ..TWO }, told.and(Ok(Some((KIND_RUNS, 0)))))?;
        // A buffer is looked at where a series names it, also one of no values.
        let two = Case { keys: part, values: part, ..TWO };
        says(run, &two, Ok(None))?;
        says(run, &Case { values: &[1], series: &[0, 0, 1], ..two }, Ok(None))?;
        for which in [0, 1] {
            says(run, &Case { series: &[which, 0, 0], ..two }, told)?;
            says(run, &Case { series: &[which, u32::MAX, 1], ..two }, told.and(Err((7, 0))))?;
        }
        // Strings come before series.
        says(run, &Case { small: &[LONG], series: &[0, 0, 0], ..two }, Err((8, 0)))?;
    }
    for layout in LAYOUTS {
        let (own, large) = (layout.own(), layout.large());
        for (last, told) in [(0, None), (1, Some((LARGE_HEADERS, 1)))] {
            let places =
                [LIMIT - large, LIMIT - 2 * large, LIMIT / 2, LIMIT - 3 * large + last, 4 * own];
            for (id, place) in places.into_iter().enumerate() {
                point(&mut random, layout, &mut long, 0, id, place);
            }
            let case = Case { file: &long[..LIMIT], layout: layout as u32, count: 4, ..TWO };
            says(run, &case, Ok(told))?;
            says(run, &Case { file: &long[..LIMIT - 1], ..case }, Err((3, 0)))?;
            long[..5 * own].fill(0);
        }
    }
    Ok(())
}
