//! The groups of trailing sections.

use bisquepond::sys::LIMIT;
use harness::Random;

use crate::case::{code, Compared};
use crate::inputs::{any_bytes, any_words};
use crate::parsing::case::sections::{Case, NONE, ROW, ROWS};
use crate::run::Run;

pub fn compare(run: &mut Run) -> Compared {
    run.group("sections: worked cases", worked)?;
    run.group("sections: all small counts in short files", small)?;
    run.group("sections: counts of any size", large)?;
    run.group("sections: tables lent", tables)?;
    run.group("sections: 2^30 + 1 bytes, docs/FORMAT.md", too_long)?;
    if run.full {
        run.group("sections: 2^30 bytes", longest)?;
    }
    Ok(())
}

/// Twenty words lent, and some behind them.
fn lent(random: &mut Random) -> Vec<u32> {
    any_words(random, ROWS * ROW + 3)
}

fn worked(run: &mut Run) -> Compared {
    let mut random = run.random(11);
    let rows = lent(&mut random);
    // Length 10, start 8, storage 1, other counts 0: refused 2.
    let padded = Case { file: &[0; 10], start: 8, storage: 1, rows: &rows, ..NONE };
    assert_eq!(run.compare(&padded)?.code, code(Err((2, 0))));
    // An empty first section at 9 is 3 bytes of padding.
    let empty = Case { file: &[0; 12], start: 9, storage: 0, ..padded };
    assert_eq!(run.compare(&empty)?.table[..4], [9, 3, 0, 0]);
    Ok(())
}

fn small(run: &mut Run) -> Compared {
    let mut random = run.random(12);
    let rows = lent(&mut random);
    for len in 0..=34 {
        let file = any_bytes(&mut random, len);
        for start in 0..=len + 1 {
            for regexps in 0..3 {
                for storage in [0, 1, 2, 3, 4, 5, 8, 9] {
                    for cjs in 0..3 {
                        for sources in [None, Some(0), Some(1), Some(2)] {
                            let small = Case {
                                file: &file,
                                start,
                                regexps,
                                storage,
                                cjs,
                                sources,
                                aside: random.below(3) as u32,
                                rows: &rows,
                            };
                            run.compare(&small)?;
                        }
                    }
                }
            }
        }
    }
    Ok(())
}

/// Counts that no file here has.
const MANY: [u32; 8] =
    [1 << 27, 1 << 28, 1 << 29, 1 << 30, 1 << 31, u32::MAX - 7, u32::MAX - 1, u32::MAX];

const FAR: [usize; 6] = [LIMIT, LIMIT + 1, 1 << 32, 1 << 63, usize::MAX - 3, usize::MAX];

/// Small counts with one that no file has, in each place; and starts that none has.
fn large(run: &mut Run) -> Compared {
    let mut random = run.random(13);
    let rows = lent(&mut random);
    for len in 0..=40 {
        let file = any_bytes(&mut random, len);
        for place in 0..5 {
            for many in MANY {
                let mut counts: [u32; 4] = std::array::from_fn(|_| random.below(3) as u32);
                if place < 4 {
                    counts[place] = many;
                }
                let [regexps, storage, cjs, sources] = counts;
                let start = match place {
                    4 => random.pick(&FAR),
                    _ => random.below(len + 1),
                };
                for sources in [Some(sources), None] {
                    let large = Case {
                        file: &file,
                        start,
                        regexps,
                        storage,
                        cjs,
                        sources,
                        aside: counts[3],
                        rows: &rows,
                    };
                    run.compare(&large)?;
                }
            }
        }
    }
    Ok(())
}

/// Every number of words lent, for sections that are found and such that are not.
fn tables(run: &mut Run) -> Compared {
    let mut random = run.random(14);
    let rows = any_words(&mut random, ROWS * ROW + 9);
    let file = any_bytes(&mut random, 40);
    for words in 0..=rows.len() {
        for start in [0, 1, 38, 40, 41] {
            for storage in [0, 1, 4, 41] {
                let found = Case {
                    file: &file,
                    start,
                    storage,
                    sources: Some(0),
                    rows: &rows[..words],
                    ..NONE
                };
                run.compare(&found)?;
            }
        }
    }
    Ok(())
}

fn too_long(run: &mut Run) -> Compared {
    let file = vec![0; LIMIT + 1];
    let rows = [7; ROWS * ROW];
    for start in [0, 1, LIMIT, LIMIT + 1, LIMIT + 2] {
        for words in [0, ROWS * ROW] {
            let long = Case { file: &file, start, rows: &rows[..words], ..NONE };
            run.compare(&long)?;
        }
    }
    Ok(())
}

/// The longest file that is read. The Rust makes two copies of it for each case.
fn longest(run: &mut Run) -> Compared {
    let mut random = run.random(15);
    let rows = lent(&mut random);
    let mut file = vec![0; LIMIT];
    let tail = any_bytes(&mut random, 4096);
    file[LIMIT - 4096..].copy_from_slice(&tail);
    for (start, storage, cjs) in [
        (LIMIT, 0, 0),
        (LIMIT, 1, 0),
        (LIMIT - 1, 1, 0),
        (LIMIT - 1, 0, 0),
        (LIMIT - 9, 1, 1),
        (0, LIMIT as u32, 0),
        (0, LIMIT as u32 - 8, 1),
        (0, LIMIT as u32 - 7, 1),
        (1, LIMIT as u32 - 1, 0),
        (1, LIMIT as u32, 0),
    ] {
        for sources in [None, Some(0), Some(1)] {
            let long = Case { file: &file, start, storage, cjs, sources, rows: &rows, ..NONE };
            run.compare(&long)?;
        }
    }
    Ok(())
}

pub fn any<'a>(random: &mut Random, file: &'a [u8], rows: &'a [u32]) -> Case<'a> {
    let len = file.len();
    let start = match random.below(16) {
        0 => random.pick(&FAR),
        1 => len + 1,
        2 => len,
        _ => random.below(len / 2 + 1),
    };
    let mut count = |most: usize| match random.below(24) {
        0 => random.pick(&MANY),
        1 => random.below(len + 2) as u32,
        _ => random.below(most) as u32,
    };
    let (regexps, storage, cjs) = (count(4), count(20), count(4));
    let sources = Some(count(4)).filter(|_| random.below(3) > 0);
    Case { file, start, regexps, storage, cjs, sources, aside: random.word() as u32, rows }
}

/// One call on a file of any kind.
pub fn random(run: &mut Run, random: &mut Random) -> Compared {
    let len = random.below(120);
    let file = any_bytes(random, len);
    let words = random.pick(&[19, 20, 20, 20, 20, 23]);
    let rows = any_words(random, words);
    run.compare(&any(random, &file, &rows)).map(drop)
}
