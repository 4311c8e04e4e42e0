//! Handlers and trailing sections.

use bisquepond::function::FunctionRow;
use bisquepond::parsing::HandlerRow;
use bisquepond::sys::*;
use bisquepond::Row as _;
use published::format::FLAG_HAS_EXCEPTION_HANDLER;

use super::{calls, refused, row, scattered};
use crate::table::Bench;

const FUNCTION: usize = FunctionRow::WORDS;
const ROW: usize = HandlerRow::WORDS;

/// The most handlers that a function has.
const MOST: usize = 1_000;

/// Bytes of the file in which handlers are anywhere.
const FAR: usize = 64 << 20;

pub fn rows(bench: &Bench) {
    row(
        bench,
        "read_handlers",
        "functions share a table of 1,000; rows",
        |n| {
            let mut file = vec![0; 4 + 4 + 12 * MOST];
            file[4..8].copy_from_slice(&(MOST as u32).to_le_bytes());
            handlers(file, n / MOST, |_| 4, n)
        },
    );
    row(
        bench,
        "read_handlers",
        "one each, anywhere in 64 MiB; functions",
        |n| handlers(ones(), n, anywhere, n),
    );
    row(
        bench,
        "read_handlers",
        "one or none, anywhere in 64 MiB; functions",
        |n| {
            let mut file = ones();
            for i in (0..n).filter(|i| scattered(i ^ 1, 2) == 0) {
                file[anywhere(i)] = 0;
            }
            let shown = (0..n).filter(|&i| file[anywhere(i)] == 1).count();
            handlers(file, n, anywhere, shown)
        },
    );
    row(
        bench,
        "read_handlers",
        "one each, a row short; functions",
        |n| {
            let (_, read) = handlers(ones(), n, anywhere, n - 1);
            (refused(4, 0), read)
        },
    );
    row(
        bench,
        "why_no_handlers",
        "any function, one handler anywhere in 64 MiB",
        |n| why(ones(), n, anywhere, move |i| scattered(i, n), 0, 1),
    );
    row(
        bench,
        "why_no_handlers",
        "one function in turn, file and table grow",
        |n| {
            // The last of so many functions, with a thousand handlers at the end of so many times 64 bytes.
            let mut file = vec![0; 64 * n];
            let at = file.len() - 4 - 12 * MOST;
            file[at..at + 4].copy_from_slice(&(MOST as u32).to_le_bytes());
            why(file, n, move |_| at, move |_| n - 1, 0, MOST)
        },
    );
    row(
        bench,
        "why_no_handlers",
        "the same, a byte too short for the last one",
        |n| {
            let mut file = vec![0; 64 * n];
            let at = file.len() - 4 - 12 * MOST;
            file[at..at + 4].copy_from_slice(&(MOST as u32).to_le_bytes());
            file.pop();
            why(file, n, move |_| at, move |_| n - 1, 7, 0)
        },
    );
    row(bench, "trailing_sections", "counts of any size", |n| {
        let file = vec![0; 64 * n];
        let mut rows = [0; 5 * ROW];
        let read = move || {
            calls(n, |i| {
                let [a, b, c, d] = [0, 1, 2, 3].map(|k| scattered(i ^ k, n) as u32);
                let (s, len, lent) = (file.as_ptr(), file.len(), rows.as_mut_ptr());
                unsafe { hbc_trailing_sections(s, len, i, a, b, c, true, d, lent, 5 * ROW) }
            })
        };
        (5 * n as u64, read)
    });
}

/// A file full of the number 1, at every place a table of one handler.
fn ones() -> Vec<u8> {
    [1, 0, 0, 0].repeat(FAR / 4)
}

fn anywhere(i: usize) -> usize {
    4 + scattered(i, FAR / 4 - 8) * 4
}

/// Rows of functions whose handlers are at the places that `info` names.
fn functions(count: usize, info: impl Fn(usize) -> usize) -> Vec<u32> {
    let mut functions = vec![0; FUNCTION * count];
    for (i, row) in functions.chunks_exact_mut(FUNCTION).enumerate() {
        (row[6], row[8]) = (info(i) as u32, FLAG_HAS_EXCEPTION_HANDLER.into());
    }
    functions
}

/// As many calls as there are functions, each on the one that `id` names; every one answers this, and so many handlers.
fn why(
    file: Vec<u8>,
    count: usize,
    info: impl Fn(usize) -> usize,
    id: impl Fn(usize) -> usize,
    answer: u64,
    handlers: usize,
) -> (u64, impl FnMut() -> u64) {
    let functions = functions(count, info);
    let ask = move || {
        let (s, len) = (file.as_ptr(), file.len());
        let (rows, words) = (functions.as_ptr(), functions.len());
        let mut shown = 0;
        let sum = calls(count, |i| {
            let mut number = 0;
            let code =
                unsafe { hbc_why_no_handlers(s, len, rows, words, id(i) as u32, &mut number) };
            shown += number as usize;
            code
        });
        assert_eq!(shown, handlers * count);
        sum
    };
    (answer * count as u64, ask)
}

/// Functions whose handlers are at the places that `info` names, and so many rows, all of them used.
fn handlers(
    file: Vec<u8>,
    count: usize,
    info: impl Fn(usize) -> usize,
    rows: usize,
) -> (u64, impl FnMut() -> u64) {
    let functions = functions(count, info);
    let mut lent = vec![0; ROW * rows];
    let read = move || {
        let mut total = rows;
        let code = unsafe {
            hbc_read_handlers(
                file.as_ptr(),
                file.len(),
                functions.as_ptr(),
                functions.len(),
                count as u32,
                lent.as_mut_ptr(),
                lent.len(),
                &mut total,
            )
        };
        assert_eq!(total, rows);
        code
    };
    (0, read)
}
