//! The groups of handlers.

use bisquepond::sys::LIMIT;
use harness::Random;

use crate::case::{Compare, Compared, Difference};
use crate::inputs::{any_bytes, any_words};
use crate::parsing::case::handlers::{
    function, published, Case, FLAGS, FUNCTION, HAS, INFO_OFFSET, ROW,
};
use crate::run::Run;

pub fn compare(run: &mut Run) -> Compared {
    run.group("handlers: worked cases, counts to 1001", worked)?;
    run.group("handlers: every place in short files", places)?;
    run.group("handlers: every flags byte, wide words", flags)?;
    run.group("handlers: tables lent", tables)?;
    run.group("handlers: 2^30 and 2^30 + 1 bytes", longest)?;
    if run.full {
        run.group("handlers: 2^32 + 704 rows", total)?;
    }
    Ok(())
}

/// Compares, and sees how many rows there are.
fn gives(run: &mut Run, file: &[u8], functions: &[u32], rows: usize) -> Compared {
    let case = Case {
        file,
        functions,
        count: (functions.len() / FUNCTION) as u32,
        rows: &vec![7; rows * ROW + 3],
    };
    assert_eq!(run.compare(&case)?.total, rows);
    Ok(())
}

fn worked(run: &mut Run) -> Compared {
    // Length 64, info 45, count 2 at 48: no handler, not one.
    let mut file = [0; 64];
    file[48] = 2;
    gives(run, &file, &function(45, HAS), 0)?;
    file[48] = 1;
    gives(run, &file, &function(45, HAS), 1)?;
    // Counts around the limit, in files with room for all, for all but a byte, and for a triple less.
    let mut random = run.random(1);
    for count in [0, 1, 2, 999, 1000, 1001, 1002, 65_536, u32::MAX] {
        for places in [999, 1000, 1001, 1002] {
            for short in 0..=13 {
                let mut file = any_bytes(&mut random, 16 + 4 + 12 * places - short);
                file[16..20].copy_from_slice(&count.to_le_bytes());
                let fits = count as usize <= (file.len() - 20) / 12;
                let rows = if count <= 1000 && fits { count } else { 0 };
                gives(run, &file, &function(13, HAS), rows as usize)?;
            }
        }
    }
    Ok(())
}

/// Places that no file here has.
pub const FAR: [u32; 7] =
    [LIMIT as u32, u32::MAX - 4, u32::MAX - 3, u32::MAX - 2, u32::MAX - 1, u32::MAX, 1 << 31];

/// Every length to 68, every place in it and behind it, and every count to 6 there.
fn places(run: &mut Run) -> Compared {
    let mut random = run.random(2);
    let lent = any_words(&mut random, 8 * ROW);
    for len in 0..=68 {
        let mut file = any_bytes(&mut random, len);
        for info in (0..=len as u32 + 5).chain(FAR) {
            for count in [0, 1, 2, 3, 4, 5, 6, 1000, 1001, u32::MAX] {
                let at = info.next_multiple_of(4) as usize;
                if info <= len as u32 && at + 4 <= len {
                    file[at..at + 4].copy_from_slice(&count.to_le_bytes());
                } else if count > 1 {
                    break;
                }
                for flags in [HAS, random.word() as u32] {
                    let lone = Case {
                        file: &file,
                        functions: &function(info, flags),
                        count: 1,
                        rows: &lent,
                    };
                    run.compare(&lone)?;
                }
            }
        }
    }
    Ok(())
}

/// Only bit 3 of the flags counts, also where the word is wider than a byte.
fn flags(run: &mut Run) -> Compared {
    let mut random = run.random(3);
    let mut file = any_bytes(&mut random, 40);
    file[4..8].copy_from_slice(&2u32.to_le_bytes());
    for flags in 0..=255 {
        for wide in [0, 1 << 8, 1 << 11, 1 << 31, random.word() as u32 & !0xFF] {
            let mut row: [u32; FUNCTION] = any_words(&mut random, FUNCTION).try_into().unwrap();
            (row[INFO_OFFSET], row[FLAGS]) = (1 + flags % 4, flags | wide);
            gives(run, &file, &row, if flags & HAS == 0 { 0 } else { 2 })?;
        }
    }
    Ok(())
}

/// Fewer function rows than the count says, and too few, enough and more rows for the handlers, word by word.
fn tables(run: &mut Run) -> Compared {
    let mut random = run.random(4);
    for _ in 0..40 {
        let made = any(&mut random);
        let (functions, count) = (&made.functions, made.count);
        let total = published(&made.file, functions).len();
        let lent = any_words(&mut random, (total + 2) * ROW);
        for words in (0..=lent.len()).rev() {
            let rows = &lent[..words];
            let all = Case { file: &made.file, functions, count, rows };
            run.compare(&all)?;
        }
        for words in (0..functions.len()).rev() {
            for count in [count, random.below(count as usize + 2) as u32, u32::MAX] {
                let fewer =
                    Case { file: &made.file, functions: &functions[..words], count, rows: &lent };
                run.compare(&fewer)?;
            }
        }
    }
    Ok(())
}

fn longest(run: &mut Run) -> Compared {
    let mut file = vec![0; LIMIT + 1];
    let lent = [7; 12 * ROW];
    for from_end in [4, 16, 17, 28, 29, 30, 31, 32, 40] {
        let at = LIMIT - from_end;
        for count in [1, 2, 3] {
            let aligned = at.next_multiple_of(4);
            file[aligned] = count;
            for info in [0, 1, at - 1, at, at + 1, LIMIT - 4, LIMIT - 1, LIMIT] {
                let functions = [function(info as u32, HAS), function(aligned as u32, HAS)];
                for len in [LIMIT - 1, LIMIT, LIMIT + 1] {
                    for count in 0..=3 {
                        let near = Case {
                            file: &file[..len],
                            functions: &functions.concat(),
                            count,
                            rows: &lent,
                        };
                        run.compare(&near)?;
                    }
                }
            }
            file[aligned] = 0;
        }
    }
    Ok(())
}

fn total(run: &mut Run) -> Compared {
    past_counting()?;
    run.equal();
    Ok(())
}

/// So many functions share a thousand handlers that their rows cannot be counted in 32 bits. The Rust would need 51
/// gigabytes for them; what is right follows from its rows for one.
pub fn past_counting() -> Result<String, Difference> {
    let mut file = vec![0; 4 + 4 + 12_000];
    file[4..8].copy_from_slice(&1000u32.to_le_bytes());
    let row = function(4, HAS);
    assert_eq!(published(&file, &row).len(), 1000);
    const COUNT: u32 = 4_294_968;
    let lent = vec![7; 704 * ROW];
    let many =
        Case { file: &file, functions: &row.repeat(COUNT as usize), count: COUNT, rows: &lent };
    let answer = many.same(many.ours(), &many.refused((4, 0)))?;
    Ok(many.said(&answer, None))
}

/// A file, and functions whose words are mostly of use in it.
pub struct Made {
    pub file: Vec<u8>,
    pub functions: Vec<u32>,
    pub count: u32,
}

pub fn any(random: &mut Random) -> Made {
    let len = random.below(200);
    let mut file = any_bytes(random, len);
    let count = random.below(7) as u32;
    let mut functions = any_words(random, count as usize * FUNCTION);
    for row in functions.chunks_exact_mut(FUNCTION) {
        let info = match random.below(12) {
            0 => random.word() as u32,
            1 => random.pick(&FAR),
            2 => (len + random.below(3)) as u32,
            _ => random.below(len + 1) as u32,
        };
        row[INFO_OFFSET] = info;
        if random.below(8) > 0 {
            row[FLAGS] |= HAS;
        }
        let at = (info as usize).next_multiple_of(4);
        if at + 4 <= len {
            let room = (len - at - 4) / 12;
            let handlers = match random.below(8) {
                0 => random.pick(&[0, 1000, 1001, u32::MAX]),
                1 => room as u32 + 1,
                2 => room as u32,
                _ => random.below(room + 1) as u32,
            };
            file[at..at + 4].copy_from_slice(&handlers.to_le_bytes());
        }
    }
    Made { file, functions, count }
}

/// Two calls on functions and a file of any kind.
pub fn random(run: &mut Run, random: &mut Random) -> Compared {
    let made = any(random);
    let words = match random.below(3) {
        0 => random.below(40 * ROW),
        _ => 100 * ROW,
    };
    let any = Case {
        file: &made.file,
        functions: &made.functions,
        count: match random.below(16) {
            0 => made.count + 1,
            1 => random.word() as u32,
            _ => random.below(made.count as usize + 1) as u32,
        },
        rows: &any_words(random, words),
    };
    run.compare(&any)?;
    let count = made.count;
    run.compare(&Case { count, ..any }).map(drop)
}
