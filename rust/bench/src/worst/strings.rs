//! The string tables.

use bisquepond::sys::*;
use bisquepond::table::StringRow;
use bisquepond::Row as _;
use harness::Random;

use super::io::any_bytes;
use super::{calls, refused, row, scattered};
use crate::strings::Decode;
use crate::table::Bench;

const ROW: usize = StringRow::WORDS;

pub fn rows(bench: &Bench) {
    for (name, width) in [("read_u32_table", 1), ("read_pair_table", 2)] {
        row(bench, name, "from an odd byte on", |n| {
            let file = any_bytes(4 * width * n + 1);
            let mut table = vec![0; width * n];
            let read = move || {
                let call = match width {
                    1 => hbc_read_u32_table,
                    _ => hbc_read_pair_table,
                };
                let (s, lent) = (file.as_ptr(), table.as_mut_ptr());
                unsafe { call(s, file.len(), &mut 1, n as u32, lent, table.len()) }
            };
            (0, read)
        });
    }
    row(
        bench,
        "decode_strings",
        "all by pairs, all runs empty",
        |n| decode(vec![0; n], vec![0xFF00_0001; n], n),
    );
    row(
        bench,
        "decode_strings",
        "any entry, runs of 0 or 1, any pair",
        |n| {
            let mut random = Random::new(1);
            let runs = (0..n).map(|_| random.word() as u32 & 0x8000_0001);
            let runs = runs.collect();
            // One in two by a pair, one in two as UTF-16; many outside the storage.
            let entry = |word: u64| word as u32 | if word >> 32 & 1 == 0 { 0 } else { 0xFF00_0000 };
            let small = (0..n).map(|_| entry(random.word())).collect();
            decode(runs, small, n)
        },
    );
    row(
        bench,
        "decode_strings",
        "all by pairs, the last one missing",
        |n| {
            let (_, decode) = decode(vec![0; n], vec![0xFF00_0000; n], n - 1);
            (refused(8, n - 1), decode)
        },
    );
    hermes(bench);
    row(bench, "string_bytes", "any row", |n| {
        let storage = vec![0; n];
        let words: Vec<u32> = (0..n)
            .flat_map(|i| [i as u32, 1, i as u32 & 1, 0])
            .collect();
        let read = move || {
            calls(n, |i| {
                let (mut start, mut len) = (0, 0);
                let (s, rows, index) = (storage.as_ptr(), words.as_ptr(), scattered(i, n));
                unsafe { hbc_string_bytes(s, n, rows, ROW * n, index, &mut start, &mut len) };
                (start > n || len > 1) as u64
            })
        };
        (0, read)
    });
    texts(bench);
}

/// One text of so many bytes, each of them ill-formed or all of them in parts that end too soon; and in too little room.
fn texts(bench: &Bench) {
    let pieces: [(&str, &[u8], u32, usize); 5] = [
        ("FF", b"\xFF", 0, 3),
        ("F0 90 80, no fourth byte", b"\xF0\x90\x80", 0, 3),
        ("E1 80 and a letter, again and again", b"\xE1\x80a", 0, 4),
        (
            "letters of one and of three bytes in turn",
            b"a\xE6\x97\xA5",
            0,
            4,
        ),
        (
            "UTF-16, a lone half and a pair in turn",
            b"\x00\xD8\x3D\xD8\x00\xDE",
            1,
            7,
        ),
    ];
    for (name, piece, marks, text) in pieces {
        row(bench, "string_text", name, |n| {
            let storage = piece.repeat(n / piece.len() + 1);
            let bytes = text * (n / piece.len() + 1);
            string_text(storage, marks, bytes, bytes as u64)
        });
    }
    row(bench, "string_text", "FF, room for all but one byte", |n| {
        string_text(vec![0xFF; n], 0, 3 * n - 1, refused(4, 0))
    });
    row(bench, "string_text", "any row, of four letters", |n| {
        let (storage, mut out) = (vec![b'a'; 4 * n], [0; 4]);
        let words: Vec<u32> = (0..n).flat_map(|i| [4 * i as u32, 4, 0, 0]).collect();
        let read = move || {
            calls(n, |i| {
                let (s, len, index) = (storage.as_ptr(), storage.len(), scattered(i, n));
                let (rows, lent) = (words.as_ptr(), out.as_mut_ptr());
                unsafe { hbc_string_text(s, len, rows, ROW * n, index, lent, 4) }
            })
        };
        (4 * n as u64, read)
    });
}

/// All bytes of a storage as one string, into so many bytes.
fn string_text(
    storage: Vec<u8>,
    marks: u32,
    room: usize,
    answer: u64,
) -> (u64, impl FnMut() -> u64) {
    let (rows, mut out) = ([0, storage.len() as u32, 0, marks], vec![0; room]);
    let read = move || {
        let (s, len, rows) = (storage.as_ptr(), storage.len(), rows.as_ptr());
        unsafe { hbc_string_text(s, len, rows, ROW, 0, out.as_mut_ptr(), room) }
    };
    (answer, read)
}

/// Hermes mode: runs that name no string, and pairs that many share.
fn hermes(bench: &Bench) {
    let name = "decode_strings_hermes";
    row(bench, name, "so many empty runs before one string", |n| {
        let mut runs = vec![1 << 31; n];
        runs[n - 1] |= 1;
        decode_hermes(runs, vec![1 << 24], 0)
    });
    let between = |n: usize| [1, 1 << 31, 1 << 31 | 1, 0].repeat(n / 2);
    row(
        bench,
        name,
        "an empty run between any two, one pair for all",
        |n| decode_hermes(between(n), vec![0xFF00_0001; n], 1),
    );
    row(
        bench,
        name,
        "the same, a pair far from the one before",
        |n| {
            let number = |i| (scattered(i, n) as u32) << 1;
            let small = (0..n).map(|i| 0xFF00_0001 | number(i)).collect();
            decode_hermes(between(n), small, n)
        },
    );
    row(
        bench,
        name,
        "any entry, runs of 0 or 1, any of 1,000 pairs",
        |n| {
            let mut random = Random::new(1);
            let runs = (0..2 * n).map(|_| random.word() as u32 & 0x8000_0001);
            let runs = runs.collect();
            let mut entry = || match random.below(2) {
                0 => random.word() as u32 & 0x7FFF_FFFF,
                _ => 0xFF00_0000 | (random.below(1_000) as u32) << 1 | random.below(2) as u32,
            };
            let small = (0..n).map(|_| entry()).collect();
            decode_hermes(runs, small, 1_000)
        },
    );
    row(
        bench,
        name,
        "one pair for all, the last number past it",
        |n| {
            let mut small = vec![0xFF00_0000; n];
            small[n - 1] |= 1 << 1;
            let (_, decode) = decode_hermes(between(n), small, 1);
            (refused(8, n - 1), decode)
        },
    );
}

fn decode_hermes(runs: Vec<u32>, small: Vec<u32>, pairs: usize) -> (u64, impl FnMut() -> u64) {
    decoded(hbc_decode_strings_hermes, runs, small, pairs)
}

fn decode(runs: Vec<u32>, small: Vec<u32>, pairs: usize) -> (u64, impl FnMut() -> u64) {
    decoded(hbc_decode_strings, runs, small, pairs)
}

/// Strings of a storage of 1,000 bytes, by these runs and entries and so many pairs.
fn decoded(
    call: Decode,
    runs: Vec<u32>,
    small: Vec<u32>,
    pairs: usize,
) -> (u64, impl FnMut() -> u64) {
    let mut random = Random::new(2);
    let overflow: Vec<u32> = (0..2 * pairs).map(|_| random.below(1_000) as u32).collect();
    let storage = [0; 1_000];
    let mut rows = vec![0; ROW * small.len()];
    let answer = small.len() as u64;
    let decode = move || unsafe {
        call(
            u32::MAX,
            runs.as_ptr(),
            runs.len(),
            small.as_ptr(),
            small.len(),
            overflow.as_ptr(),
            overflow.len(),
            storage.as_ptr(),
            storage.len(),
            rows.as_mut_ptr(),
            rows.len(),
        )
    };
    (answer, decode)
}
