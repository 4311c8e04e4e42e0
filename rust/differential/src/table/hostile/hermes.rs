//! Hostile inputs for Hermes mode: empty runs, as many as a file holds, and pairs that all strings share.

use bisquepond::sys::LIMIT;
use harness::Random;

use super::super::case::hermes::Hermes;
use super::super::case::strings::{Case, ROW};
use super::super::groups::hermes::long;
use super::super::groups::IDENTIFIER;
use crate::case::{Compare, Compared, Difference};
use crate::hostile::{file_of, rows_are, size, Soak};

pub fn soak(soak: &mut Soak) -> Compared {
    shared(soak)?;
    runs(soak)?;
    most(soak)
}

/// An empty run between any two strings, all of which take one pair: with all that they need, the last one's number past
/// the pairs, and a row short.
fn shared(soak: &mut Soak) -> Compared {
    const COUNT: usize = 1 << 22;
    let size = size(COUNT * (8 + 4 + 16), COUNT * 100);
    for (name, last, lent) in [
        ("Hermes, one pair for all, an empty run between any two", 0, COUNT * ROW),
        ("Hermes, one pair for all, the last number past it", 1, COUNT * ROW),
        ("Hermes, one pair for all, a row short", 0, COUNT * ROW - 1),
    ] {
        soak.case(name, size, |_| {
            let mut small = vec![long(true, 0); COUNT];
            small[COUNT - 1] = long(true, last);
            let case = Case {
                count: u32::MAX,
                kinds: &[1, IDENTIFIER, IDENTIFIER + 1, 0].repeat(COUNT / 2),
                small: &small,
                overflow: &[3, 4, 5],
                storage: &[b'a'; 1_000],
                lent,
            };
            Hermes(case).compared()
        })?;
    }
    Ok(())
}

/// As many empty runs as 2^30 bytes hold before one string: its run is the last, or there is none.
fn runs(soak: &mut Soak) -> Compared {
    for (name, last, mark) in [
        ("Hermes, 2^28 - 1 empty runs before one string", IDENTIFIER + 1, 2),
        ("Hermes, 2^28 empty runs before one string", IDENTIFIER, 0),
    ] {
        soak.case(name, file_of(LIMIT), |_| {
            let mut kinds = vec![0; LIMIT / 4];
            *kinds.last_mut().expect("a run") = last;
            let small = &[1 << 24];
            let case = Case { kinds: &kinds, small, lent: ROW, ..plain() };
            rows_of(&Hermes(case), |_, row| row == [0, 1, 0, mark])
        })?;
    }
    Ok(())
}

/// As many strings as 2^30 bytes of tables name, each with an empty run in front of its own, all by one pair.
fn most(soak: &mut Soak) -> Compared {
    const COUNT: usize = LIMIT / 16;
    let name = "Hermes, strings of 2^30 bytes of tables, runs empty between";
    soak.case(name, file_of(2 * LIMIT), |_| {
        let case = Case {
            kinds: &[IDENTIFIER, 1, 0, IDENTIFIER + 1].repeat(COUNT / 2),
            small: &vec![long(false, 1); COUNT],
            overflow: &[9, 9, 3, 4],
            lent: COUNT * ROW,
            ..plain()
        };
        rows_of(&Hermes(case), |i, row| row == [3, 4, 0, i as u32 % 2 * 2])
    })
}

/// All strings there are, of a short storage.
fn plain() -> Case<'static> {
    Case { count: u32::MAX, kinds: &[], small: &[], overflow: &[], storage: b"abcdefg", lent: 0 }
}

/// Our answer, with rows that are worked out beside.
fn rows_of(case: &Hermes, right: impl Fn(usize, &[u32]) -> bool) -> Result<String, Difference> {
    let ours = case.ours()?;
    rows_are(ours.rows(), ROW, right)?;
    case.told(ours.code, Ok(case.0.small.len() as u32))
}

/// Up to 500 strings, most of them by one of three pairs, in runs most of which are empty; sometimes one is missing.
pub fn any(random: &mut Random) -> Compared {
    let count = random.below(500);
    let pairs = random.below(3) + 1;
    let entry = |random: &mut Random| match random.below(8) {
        0 => random.word() as u32 & 0x7FFF_FFFF,
        _ => long(random.below(2) == 1, random.below(pairs) as u32),
    };
    let mut small: Vec<u32> = (0..count).map(|_| entry(random)).collect();
    if let (0, Some(last)) = (random.below(4), small.last_mut()) {
        *last = long(false, random.pick(&[pairs as u32, (1 << 23) - 1]));
    }
    let runs = random.pick(&[count, 4 * count]);
    let run = |random: &mut Random| match random.below(4) {
        0 => random.word() as u32 & (IDENTIFIER | 3),
        _ => random.word() as u32 & IDENTIFIER,
    };
    let kinds: Vec<u32> = (0..runs).map(|_| run(random)).collect();
    let overflow: Vec<u32> = (0..2 * pairs).map(|_| random.below(300) as u32).collect();
    let case = Case {
        count: random.pick(&[u32::MAX, count as u32]),
        kinds: &kinds,
        small: &small,
        overflow: &overflow,
        storage: &[b'a'; 256],
        lent: (count * ROW).saturating_sub(random.below(2)),
    };
    Hermes(case).compare().map(drop)
}
