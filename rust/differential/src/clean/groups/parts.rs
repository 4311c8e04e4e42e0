//! Small bundles, part by part and all together.

use super::super::case::*;
use super::made::point;
use super::{says, LONG, TWO};
use crate::case::{Compared, Refusal};
use crate::function::case::{Layout, LAYOUTS};
use crate::run::Run;

/// A table of functions with these places for large headers, and so many bytes behind it.
fn table(
    run: &mut Run,
    layout: Layout,
    start: usize,
    places: &[Option<usize>],
    behind: usize,
) -> Vec<u8> {
    let mut random = run.random(44);
    let mut file = vec![0; start + places.len() * layout.own() + behind];
    for (id, place) in places.iter().enumerate() {
        if let Some(place) = *place {
            point(&mut random, layout, &mut file, start, id, place);
        }
    }
    file
}

/// At 0 the string 1, at 2 a tag of length 0 between two nulls, at 5 the string 7.
const VALUES: &[u8] = &[0x61, 1, 0x01, 0x00, 0x01, 0x61, 7];
const KEYS: &[u8] = &[0x00, 0x01];

/// Two functions in eight ways each, seven kinds of runs, four counts, six of entries and ten of series: every combination.
pub fn bundles(run: &mut Run) -> Compared {
    let runs: [&[u32]; 7] = [&[], &[2], &[1, 1 << 31 | 1], &[0, 2], &[1], &[3], &[2, 1 << 31]];
    let entries: [&[u32]; 6] =
        [&[], &[1 << 24], &[1 << 24, LONG], &[2 << 24, 3 << 24], &[LONG | 2], &[9 << 1, LONG | 2]];
    let rows: [&[u32]; 10] = [
        &[],
        &[0, 0, 1],
        &[0, 2, 1],
        &[0, 2, 2],
        &[0, 5, 1],
        &[0, 5, 9],
        &[0, 7, 1],
        &[0, 9, 0],
        &[0, 2, 2, 0, 5, 1],
        &[0, 5, 1, 1, 0, 1],
    ];
    for layout in LAYOUTS {
        let (start, large) = (1, layout.large());
        let end = start + 2 * layout.own();
        let behind = 3 * large;
        let places = [
            None,
            Some(end - 1),
            Some(end),
            Some(end + large - 1),
            Some(end + large),
            Some(end + 2 * large),
            Some(end + 2 * large + 1),
            Some(end + 3 * large + 1),
        ];
        for first in places {
            for second in places {
                let file = &table(run, layout, start, &[first, second], behind);
                for (kinds, strings) in
                    runs.into_iter().flat_map(|kinds| (0..4).map(move |n| (kinds, n)))
                {
                    for small in entries {
                        for series in rows {
                            let (storage, overflow) = (b"ab", &[0, 1]);
                            let (keys, values, layout) = (KEYS, VALUES, layout as u32);
                            run.compare(&Case {
                                file,
                                layout,
                                start,
                                count: 2,
                                kinds,
                                strings,
                                small,
                                overflow,
                                storage,
                                keys,
                                values,
                                series,
                            })?;
                        }
                    }
                }
            }
        }
    }
    Ok(())
}

/// Four functions with their large headers at the table's end, at its start, and on and beside the places that touch;
/// and two at each two places.
pub fn larges(run: &mut Run) -> Compared {
    let mut random = run.random(45);
    for layout in LAYOUTS {
        let (own, large) = (layout.own(), layout.large());
        for start in [0, 7] {
            let end = start + 4 * own;
            let len = end + 4 * large;
            let at = |place: usize| [end + place - 1, end + place, end + place + 1].map(Some);
            let places = [&[None, Some(start)][..], &at(0), &at(large), &at(2 * large)].concat();
            let headers: Vec<Vec<u8>> = places
                .iter()
                .map(|&place| {
                    let mut file = vec![0; own];
                    if let Some(place) = place {
                        point(&mut random, layout, &mut file, 0, 0, place);
                    }
                    file
                })
                .collect();
            let mut file = vec![0; len];
            let each = places.len();
            for way in 0..each.pow(4) {
                for id in 0..4u32 {
                    let header = &headers[way / each.pow(id) % each];
                    file[start + id as usize * own..][..own].copy_from_slice(header);
                }
                run.compare(&Case { file: &file, layout: layout as u32, start, count: 4, ..NONE })?;
            }
        }
        let end = 2 * own;
        let mut file = vec![0; end + 4 * large];
        for first in 0..=end + 3 * large {
            point(&mut random, layout, &mut file, 0, 0, first);
            for second in first.saturating_sub(large + 2)..=(first + large + 2).min(end + 3 * large)
            {
                point(&mut random, layout, &mut file, 0, 1, second);
                run.compare(&Case { file: &file, layout: layout as u32, count: 2, ..NONE })?;
            }
        }
    }
    Ok(())
}

/// All sequences of up to five runs of 0 to 2 strings, with up to eleven strings; and of up to four long ones.
pub fn runs(run: &mut Run) -> Compared {
    let mut each = |lengths: &[u32], most: u32, counts: &[u32]| -> Compared {
        let n = lengths.len();
        for len in 0..=most {
            for way in 0..n.pow(len) {
                let length = |place: u32| lengths[way / n.pow(place) % n];
                let kinds: Vec<u32> = (0..len).map(length).collect();
                for &strings in counts {
                    run.compare(&Case { kinds: &kinds, strings, ..NONE })?;
                }
            }
        }
        Ok(())
    };
    const NAMES: u32 = 1 << 31;
    each(&[0, NAMES + 1, 2], 5, &(0..12).collect::<Vec<_>>())?;
    let most = NAMES - 1;
    let counts = [0, 1, 2, most - 1, most, NAMES, NAMES + 1, u32::MAX - 1, u32::MAX];
    each(&[0, 1, 2, most - 1, most, NAMES, NAMES + 1, u32::MAX - 1, u32::MAX], 4, &counts)
}

/// Every buffer of up to four bytes of these, from each byte on, one to three values, of no string, one and two.
pub fn series(run: &mut Run) -> Compared {
    const BYTES: [u8; 10] = [0x00, 0x01, 0x02, 0x50, 0x51, 0x61, 0x62, 0x80, 0xE0, 0x41];
    for len in 0..=4u32 {
        for way in 0..BYTES.len().pow(len) {
            let byte = |place: u32| BYTES[way / BYTES.len().pow(place) % BYTES.len()];
            let buffer: Vec<u8> = (0..len).map(byte).collect();
            for offset in 0..=len {
                for count in 1..=3 {
                    // From either buffer; behind one of no values, and one that is tidy.
                    let which = way as u32 % 2;
                    let [keys, values] =
                        if which == 0 { [&[0x01][..], &buffer] } else { [&buffer[..], &[0x01]] };
                    let series = [which, offset, 0, 1 - which, 0, 1, which, offset, count];
                    let strings = (way as u32 / 2 + offset) % 3;
                    let kinds = &[strings][..(strings > 0) as usize];
                    run.compare(&Case { kinds, strings, keys, values, series: &series, ..NONE })?;
                }
            }
        }
    }
    Ok(())
}

/// Every set of broken rules, each at the first place, in the middle and at the last one, and rules 1 and 2 in both of their
/// ways: the first rule and its place are known.
pub fn broken(run: &mut Run) -> Compared {
    let mut random = run.random(46);
    const AT: [Option<usize>; 4] = [None, Some(0), Some(3), Some(5)];
    // Tidy, with an empty tag, with a string number that is too high, and with both.
    const BUFFER: &[u8] = &[0x01, 0x00, 0x01, 0x61, 9, 0x00, 0x61, 9];
    for layout in LAYOUTS {
        let (own, large) = (layout.own(), layout.large());
        for way in 0..4usize.pow(6) {
            let at = |rule: u32| AT[way / 4usize.pow(rule - 1) % 4];
            let other = way / 4usize.pow(5);
            let (start, end) = (2, 2 + 6 * own);
            let mut file = vec![0; end + 9 * large];
            for id in 0..6 {
                point(&mut random, layout, &mut file, start, id, end + (8 - id) * large);
            }
            if let Some(id) = at(LARGE_HEADERS) {
                // Before the end by a byte, or into the one of the function before it or behind it.
                let place = if other % 2 == 0 { end - 1 } else { end + (8 - id) * large - 1 };
                point(&mut random, layout, &mut file, start, id, place);
            }
            let mut kinds = vec![1; 6];
            if let Some(run) = at(KIND_RUNS) {
                kinds[run] = if other / 2 == 0 { 1 << 31 } else { 2 };
            }
            let mut small = [1 << 24; 6];
            if let Some(string) = at(STRINGS) {
                small[string] = 2 << 1;
            }
            let mut series = [[0, 0, 1]; 6];
            if let Some(row) = at(EMPTY_TAGS) {
                series[row] = [0, 1, 1];
            }
            if let Some(row) = at(LITERAL_STRINGS) {
                series[row] = if at(EMPTY_TAGS) == Some(row) { [0, 5, 1] } else { [0, 3, 1] };
            }
            let place = |rule, place| match (rule, other) {
                // The function behind the last one is none, so that it then shares nothing.
                (LARGE_HEADERS, 1 | 3) if place == 5 => None,
                (KIND_RUNS, 2 | 3) => Some(6),
                _ => Some(place),
            };
            let told = (LARGE_HEADERS..=LITERAL_STRINGS)
                .find_map(|rule| Some((rule, place(rule, at(rule)?)?)));
            let case = Case {
                file: &file,
                layout: layout as u32,
                start,
                count: 6,
                kinds: &kinds,
                strings: 6,
                small: &small,
                storage: b"ab",
                values: BUFFER,
                series: series.as_flattened(),
                ..NONE
            };
            says(run, &case, Ok(told))?;
        }
    }
    Ok(())
}

/// Each refusal of headers, of strings and of the first and the second series, and every set of them, beside tidy tables and
/// beside such as break every rule.
pub fn refusals(run: &mut Run) -> Compared {
    // Values that are cut before the first and after two; three that are not, of which one is too high and one tag is empty.
    const VALUES: &[u8] = &[0x03, 0x00, 0x61, 9, 0x61];
    const SERIES: [([u32; 3], Result<(), Refusal>); 6] = [
        ([0, 0, 3], Ok(())),
        ([0, 0, 4], Ok(())),
        ([0, 9, 0], Ok(())),
        ([0, 5, 1], Err((7, 0))),
        ([0, 4, 1], Err((3, 0))),
        ([0, 0, 5], Err((3, 4))),
    ];
    for layout in LAYOUTS {
        let (own, large) = (layout.own(), layout.large());
        let end = 2 * own;
        let headers = [
            (0, [None, Some(end)], Ok(())),
            (0, [Some(1), Some(end)], Ok(())),
            (end + 2 * large + 1, [None; 2], Err((2, 0))),
            (0, [Some(0), Some(end + 2 * large + 1)], Err((2, 1))),
            (0, [Some(end + large + 1), Some(end + 2 * large + 1)], Err((3, 0))),
            (0, [Some(0), Some(end + large + 1)], Err((3, 1))),
        ];
        for (start, places, headers) in headers {
            let file = table(run, layout, 0, &places, 2 * large);
            for (small, strings) in [
                ([0, 0], Ok(())),
                ([9 << 1, 0], Ok(())),
                ([LONG, 9 << 1], Err((8, 0))),
                ([9 << 1, LONG | 2], Err((8, 1))),
            ] {
                for kinds in [&[2][..], &[0]] {
                    for (first, one) in SERIES {
                        for (second, two) in SERIES {
                            let series = [first, second].concat();
                            let case = Case {
                                file: &file,
                                layout: layout as u32,
                                start,
                                count: 2,
                                kinds,
                                small: &small,
                                values: VALUES,
                                series: &series,
                                ..TWO
                            };
                            let told = headers.and(strings).and(one).and(two);
                            let given = run.compare(&case)?;
                            let right =
                                told.map_or_else(|(number, place)| (number, place), |()| (0, 0));
                            let code = (given.code >> 32) as u32;
                            assert_eq!(code, right.0, "what is refused first");
                            assert!(code == 0 || given.code as u32 == right.1, "and where");
                        }
                    }
                }
            }
        }
    }
    Ok(())
}
