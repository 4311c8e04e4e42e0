//! Large headers far apart. The archive looks at them by slots of one large header's length, in windows of 65,536 slots of
//! which each begins with the last one of the window before it, from the slot before the table's end on.

use harness::Random;

use super::super::case::*;
use super::made::{point, shuffled};
use super::says;
use crate::case::Compared;
use crate::function::case::{Layout, LAYOUTS};
use crate::run::Run;

const SLOTS: usize = 65_536;

/// The first slot of the first window.
fn first_slot(end: usize, large: usize) -> usize {
    (end / large).saturating_sub(1)
}

/// Two large headers around the first and the last slots of each window, at each few bytes, touching and sharing; one far
/// before them and one far behind, so that they are not in rising order.
pub fn edges(run: &mut Run) -> Compared {
    let mut random = run.random(47);
    for layout in LAYOUTS {
        let (own, large) = (layout.own(), layout.large());
        let mut file = vec![0; (2 * SLOTS + 400) * large];
        for start in [0, large - 1, 5_000] {
            let end = start + 4 * own;
            let first = first_slot(end, large);
            let last = file.len() - large;
            for edge in
                [first + SLOTS - 1, first + SLOTS, first + 2 * (SLOTS - 1), first + 2 * SLOTS - 1]
            {
                for slot in edge - 1..=edge + 1 {
                    for byte in [0, 1, large - 1] {
                        let low = slot * large + byte;
                        for apart in [0, 1, large - 1, large, large + 1, 2 * large - 1] {
                            let pair = [low, low + apart];
                            let swapped = random.below(2) == 1;
                            let pair = if swapped { [pair[1], pair[0]] } else { pair };
                            // Functions 0 and 3, or 1 and 2.
                            let outer = random.below(2) == 0;
                            let places = match outer {
                                true => [pair[0], last, end, pair[1]],
                                false => [last, pair[0], pair[1], end],
                            };
                            for (id, place) in places.into_iter().enumerate() {
                                point(&mut random, layout, &mut file, start, id, place);
                            }
                            let case = Case {
                                file: &file,
                                layout: layout as u32,
                                start,
                                count: 4,
                                ..NONE
                            };
                            let shares = apart < large;
                            let told = shares.then_some((LARGE_HEADERS, if outer { 0 } else { 1 }));
                            says(run, &case, Ok(told))?;
                            file[start..end].fill(0);
                        }
                    }
                }
            }
        }
    }
    Ok(())
}

/// Headers of so many functions, each with its large header at a place of these.
pub fn spread(
    random: &mut Random,
    layout: Layout,
    file: &mut Vec<u8>,
    start: usize,
    places: &[usize],
) {
    for (id, &place) in places.iter().enumerate() {
        point(random, layout, file, start, id, place);
    }
}

/// More functions than a window has slots, side by side, and fewer over four windows; falling and in any order; with
/// none that share, and with two of them that do, by a byte or wholly, anywhere.
pub fn many(run: &mut Run) -> Compared {
    let mut random = run.random(48);
    for layout in LAYOUTS {
        let (own, large) = (layout.own(), layout.large());
        for (count, apart) in [(70_000, large), (12_000, 20 * large + 7)] {
            let end = 9 + count * own;
            let mut file = vec![0; end + count * apart + large];
            let falling: Vec<usize> = (0..count).rev().map(|i| end + i * apart).collect();
            let mut any = falling.clone();
            shuffled(&mut random, &mut any);
            for mut places in [falling, any] {
                spread(&mut random, layout, &mut file, 9, &places);
                let case = Case { layout: layout as u32, start: 9, count: count as u32, ..NONE };
                says(run, &Case { file: &file, ..case }, Ok(None))?;
                // One more moved each time, on top of another or into its first or last byte, or before the table's end.
                for _ in 0..3 {
                    let (id, other) = (random.below(count), random.below(count));
                    let place = match random.below(4) {
                        0 => places[other],
                        1 => places[other] + large - 1,
                        2 => places[other].saturating_sub(large - 1),
                        _ => end - 1,
                    };
                    places[id] = place;
                    point(&mut random, layout, &mut file, 9, id, place);
                    run.compare(&Case { file: &file, ..case })?;
                }
            }
        }
    }
    Ok(())
}
