//! Hostile inputs for handlers and trailing sections.

use bisquepond::sys::LIMIT;
use harness::Random;

use super::case::handlers::{self, function, FUNCTION, HAS, ROW};
use super::case::sections;
use super::case::why::{self, Why, COUNT_HIGH, COUNT_ZERO, FLAG_CLEAR, SHOWN};
use super::groups::handlers::{any as any_handlers, past_counting};
use crate::case::{Compare, Compared, Difference, Refusal};
use crate::hostile::{file_of, size, Soak};
use crate::inputs::fill;
use crate::lent::{Number, Reserved};

/// Functions of the cases that have many.
const FUNCTIONS: usize = 1 << 20;

pub fn soak(soak: &mut Soak) -> Compared {
    let (own, row) = (4 * FUNCTION, 4 * ROW);
    let many = "handlers, 2^32 + 704 rows, 704 lent";
    soak.case(many, file_of(4_294_968 * own), |_| past_counting())?;
    let (ones, all) = ([1, 0, 0, 0], "handlers of 2^32 - 1 functions");
    soak.filled(all, (LIMIT, &ones), |file| read(file, &function(4, HAS), u32::MAX, 1))?;
    // In a file of ones every fourth byte has one handler, in one of 0xFF every count is 2^32 - 1.
    let size = size(FUNCTIONS * (own + row + 64), LIMIT + FUNCTIONS * 1024);
    for (name, piece, rows) in [
        ("handlers anywhere in 2^30 bytes", ones, FUNCTIONS),
        ("handlers anywhere, a row short", ones, FUNCTIONS - 1),
        ("handler counts of 2^32 - 1 anywhere", [0xFF; 4], 0),
    ] {
        let mut random = soak.random(5);
        soak.case(name, size, |file| {
            fill(file, LIMIT, &piece);
            let info = |random: &mut Random| 4 + random.below(LIMIT - 24) as u32;
            let functions = (0..FUNCTIONS).map(|_| function(info(&mut random), HAS));
            let functions: Vec<_> = functions.collect();
            read(file, functions.as_flattened(), FUNCTIONS as u32, rows)
        })?;
    }
    shared(soak)?;
    asked(soak)?;
    trailing(soak)?;
    soak.at_random(1 << 16, any)
}

fn read(file: &[u8], functions: &[u32], count: u32, rows: usize) -> Result<String, Difference> {
    let case = handlers::Case { file, functions, count, rows: &vec![7; rows * ROW] };
    case.compared()
}

/// Functions that share one table of a thousand handlers: a small file, and very many rows.
fn shared(soak: &mut Soak) -> Compared {
    const COUNT: usize = 1 << 13;
    let bytes = COUNT * 1000 * 4 * ROW;
    let size = size(bytes, 8 * bytes);
    soak.case("handlers, 8,192 functions share a thousand", size, |file| {
        fill(file, 4 + 4 + 12_000, &[0xE8, 3, 0, 0]);
        let functions = function(4, HAS).repeat(COUNT);
        read(file, &functions, COUNT as u32, COUNT * 1000)
    })
}

/// Why of each of many functions anywhere in 2^30 bytes, one by one: what all of them answer, and one handler if any. Then
/// functions that there are not, of no words, of 2^33, and of a file that is too long.
fn asked(soak: &mut Soak) -> Compared {
    let size = size(LIMIT, LIMIT + FUNCTIONS * 4 * FUNCTION);
    for (name, piece, told) in [
        ("why of each, one handler anywhere in 2^30 bytes", [1, 0, 0, 0], SHOWN),
        ("why of each, counts of 2^32 - 1 anywhere", [0xFF; 4], COUNT_HIGH),
        ("why of each, counts of 0 anywhere", [0; 4], COUNT_ZERO),
    ] {
        let mut random = soak.random(6);
        soak.case(name, size, |file| {
            fill(file, LIMIT, &piece);
            let info = |random: &mut Random| 4 + random.below(LIMIT - 24) as u32;
            let functions = (0..FUNCTIONS).map(|_| function(info(&mut random), HAS));
            let functions: Vec<_> = functions.collect();
            let words = functions.as_flattened();
            for id in 0..FUNCTIONS as u32 {
                of_many(file, (words.as_ptr(), words.len()), id, Ok(told))?;
            }
            Ok(format!("{told} of each"))
        })?;
    }
    let words = 1 << 33;
    let many = Reserved::<u32>::new(words).expect("addresses for a table of zeros");
    let (last, many) = ((words / FUNCTION) as u32 - 1, (many.as_mut_ptr().cast_const(), words));
    let (ones, none) = ([1, 0, 0, 0], <[u32; 0]>::default());
    for (name, len, functions, id, told) in [
        ("why of function 2^32 - 1 of 2^33 words", LIMIT, many, u32::MAX, Err((11, 0))),
        ("why of the last of 2^33 words", LIMIT, many, last, Ok(FLAG_CLEAR)),
        ("why of one past the last of 2^33 words", LIMIT, many, last + 1, Err((11, 0))),
        ("why of function 0 of no words", LIMIT, (none.as_ptr(), 0), 0, Err((11, 0))),
        ("why of function 0 of no words, no bytes", 0, (none.as_ptr(), 0), 0, Err((11, 0))),
        ("why, 2^30 + 1 bytes, no words", LIMIT + 1, (none.as_ptr(), 0), 0, Err((1, 0))),
        ("why, 2^30 + 1 bytes, 2^33 words", LIMIT + 1, many, last, Err((1, 0))),
    ] {
        soak.filled(name, (len, &ones), |file| of_many(file, functions, id, told))?;
    }
    Ok(())
}

/// One call on a table that is not copied, and what must be answered.
fn of_many(
    file: &[u8],
    functions: (*const u32, usize),
    id: u32,
    told: Result<u32, Refusal>,
) -> Result<String, Difference> {
    let mut handlers = Number::new(7, 9);
    let given = why::make(file, functions, id, handlers.lent());
    let case = Why { file, functions: &[], id };
    let said = case.told(given, told)?;
    match handlers.held()? == if told == Ok(SHOWN) { 1 } else { 7 } {
        true => Ok(said),
        false => Err(case.difference("the number of handlers, where they are shown", "another")),
    }
}

/// The Rust copies the file twice, and makes vectors of as many entries as there are.
fn trailing(soak: &mut Soak) -> Compared {
    let size = size(LIMIT, 6 * LIMIT);
    let (some, far) = ((LIMIT / 32) as u32, u32::MAX);
    let whole = [some, LIMIT as u32 / 4, some, some / 2];
    for (name, counts, words) in [
        ("sections of 2^30 bytes", whole, 20),
        ("sections of 2^30 bytes, a row short", [some; 4], 19),
        ("sections, 2^32 - 1 regexps", [far, 0, 0, 0], 20),
        ("sections, storage of 2^32 - 1 bytes", [0, far, 0, 0], 20),
        ("sections, 2^32 - 1 CJS pairs", [0, 0, far, 0], 20),
        ("sections, 2^32 - 1 sources", [0, 0, 0, far], 20),
        ("sections, all of 2^32 - 1", [far; 4], 20),
    ] {
        soak.case(name, size, |file| {
            fill(file, LIMIT, &[7]);
            find(file, 1, counts, &vec![7; words])
        })?;
    }
    Ok(())
}

fn find(file: &[u8], start: usize, counts: [u32; 4], rows: &[u32]) -> Result<String, Difference> {
    let [regexps, storage, cjs, sources] = counts;
    let case = sections::Case {
        file,
        start,
        regexps,
        storage,
        cjs,
        sources: Some(sources),
        aside: 0,
        rows,
    };
    case.compared()
}

/// Small files with counts of any size.
fn any(random: &mut Random) -> Compared {
    let made = any_handlers(random);
    let count = random.pick(&[made.count, u32::MAX]);
    read(&made.file, &made.functions, count, random.below(40))?;
    let (file, functions) = (&made.file, &made.functions);
    for id in (0..made.count + 1).chain([u32::MAX]) {
        Why { file, functions, id }.compare()?;
    }
    let counts = [0; 4].map(|_| random.pick(&[0, 1, 2, u32::MAX, 1 << 29]));
    find(&made.file, random.below(12), counts, &[7; 20])?;
    Ok(())
}
