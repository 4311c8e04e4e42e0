//! Hostile inputs for the string tables.

mod hermes;
mod text;

use bisquepond::sys::LIMIT;
use harness::Random;

use super::case::reads::{read, Op, OPS};
use super::case::strings::{Case as Strings, ROW};
use crate::case::{Compare, Compared, Difference};
use crate::hostile::{file_of, rows_are, size, Soak};
use crate::inputs::{any_words, bytes_of, fill};
use crate::lent::Reserved;

/// An entry that takes a pair, and one that takes a pair as UTF-16.
const LONG: [u32; 2] = [0xFF00_0000, 0xFF00_0001];

pub fn soak(soak: &mut Soak) -> Compared {
    reads(soak)?;
    strings(soak)?;
    hermes::soak(soak)?;
    text::soak(soak)?;
    let (mut other, mut texts) = (soak.random(98), soak.random(97));
    soak.at_random(1 << 14, |random| {
        any(random)?;
        hermes::any(&mut other)?;
        text::any(&mut texts)
    })
}

fn reads(soak: &mut Soak) -> Compared {
    // The Rust makes a vector of all that is there before it refuses.
    let size = size(LIMIT, 4 * LIMIT);
    for op in OPS {
        let all = LIMIT / 4 / op.width();
        let far = format!("{op:?}, count 2^32 - 1, 2^30 bytes");
        soak.case(&far, size, |file| {
            fill(file, LIMIT, &[7]);
            refused(op, file, u32::MAX, u32::MAX as usize * op.width())
        })?;
        let short = format!("{op:?}, a row short, 2^30 bytes");
        soak.filled(&short, (LIMIT, &[7]), |file| {
            refused(op, file, all as u32, all * op.width() - 1)
        })?;
        soak.case(&format!("{op:?}, all of 2^30 bytes"), size, |file| {
            fill(file, LIMIT, &[7]);
            read(op, file, 0, all as u32, all * op.width()).compared()
        })?;
    }
    Ok(())
}

/// A read into a table of so many words, none of which may be written.
fn refused(op: Op, input: &[u8], count: u32, lent: usize) -> Result<String, Difference> {
    let table = Reserved::new(lent).expect("addresses for a table that is not written");
    read(op, input, 0, count, lent).compare_refused(&table)
}

/// Strings that all take a pair, where every run is empty: with all that they need, a pair short and a row short.
fn strings(soak: &mut Soak) -> Compared {
    const COUNT: usize = 1 << 22;
    let size = size(COUNT * (4 + 4 + 8 + 16), COUNT * 400);
    for (name, pairs, lent) in [
        ("strings all by pairs, runs empty", COUNT, COUNT * ROW),
        ("strings all by pairs, the last missing", COUNT - 1, COUNT * ROW),
        ("strings all by pairs, a row short", COUNT, COUNT * ROW - 1),
    ] {
        let mut random = soak.random(2);
        soak.case(name, size, |_| {
            let case = Strings {
                count: u32::MAX,
                kinds: &[0, 1 << 31].repeat(COUNT / 2),
                small: &LONG.repeat(COUNT / 2),
                overflow: &(0..2 * pairs).map(|_| random.below(900) as u32).collect::<Vec<_>>(),
                storage: &[b'a'; 1_000],
                lent,
            };
            case.compared()
        })?;
    }
    most(soak)
}

/// As many strings as the tables of a file of 2^30 bytes name, worked out beside: each takes an empty run and a pair.
fn most(soak: &mut Soak) -> Compared {
    const COUNT: usize = LIMIT / 16;
    let name = "strings of 2^30 bytes of tables, runs empty";
    soak.case(name, file_of(2 * LIMIT), |_| {
        let case = Strings {
            count: u32::MAX,
            kinds: &[0, 1 << 31].repeat(COUNT / 2),
            small: &vec![LONG[0]; COUNT],
            overflow: &[3, 4].repeat(COUNT),
            storage: &[b'a'; 7],
            lent: COUNT * ROW,
        };
        // String i is held by run i + 1, of which every second one is of identifiers.
        let marks = |i: usize| {
            if i + 1 < COUNT {
                (i as u32 + 1) % 2 * 2
            } else {
                0
            }
        };
        let ours = case.ours()?;
        rows_are(&ours.table[..case.lent], ROW, |i, row| row == [3, 4, 0, marks(i)])?;
        case.told(ours.code, Ok(COUNT as u32))
    })
}

/// Up to 500 strings, most of them long, in runs most of which are empty; and tables read with counts as large.
fn any(random: &mut Random) -> Compared {
    let count = random.below(500);
    let small: Vec<u32> =
        (0..count).map(|_| random.pick(&LONG) | random.word() as u32 & 0xFF_FFFF).collect();
    let kinds: Vec<u32> = (0..count).map(|_| random.word() as u32 & 0x8000_0001).collect();
    let pairs = count.saturating_sub(random.below(3));
    let overflow = (0..2 * pairs).map(|_| random.below(300) as u32).collect::<Vec<_>>();
    let case = Strings {
        count: random.pick(&[u32::MAX, count as u32]),
        kinds: &kinds,
        small: &small,
        overflow: &overflow,
        storage: &[b'a'; 256],
        lent: (count * ROW).saturating_sub(random.below(2)),
    };
    case.compare()?;
    let words = any_words(random, count);
    for op in OPS {
        let at = random.below(4);
        let asked = random.pick(&[u32::MAX, count as u32, count as u32 / 2]);
        let lent = random.pick(&[0, count, 2 * count]);
        read(op, &bytes_of(&words), at, asked, lent).compare()?;
    }
    Ok(())
}
