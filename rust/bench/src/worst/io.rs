//! The cursor layer. A call looks at ten bytes at most, but for a zero-ended string.

use std::hint::black_box;

use bisquepond::sys::*;
use harness::Random;

use super::{calls, refused, row, scattered};
use crate::table::Bench;

/// Bytes of the file for each call.
const EACH: usize = 16;

/// A row for a plain read: its call, its name and the type of its number.
macro_rules! plain {
    ($bench:ident, $call:ident, $name:literal, $zero:expr) => {
        row($bench, $name, "anywhere, at odd places", |n| {
            let file = any_bytes(n * EACH);
            let mut value = $zero;
            let read = move || {
                calls(n, |i| {
                    let mut at = scattered(i, n * EACH - 8) | 1;
                    unsafe { $call(file.as_ptr(), file.len(), &mut at, &mut value) }
                })
            };
            (0, read)
        })
    };
}

/// A row for a call that reads one thing of ten bytes after the other: here `name`, there what it leaves.
macro_rules! walk {
    ($bench:ident, $name:expr, $input:literal, $byte:expr, $last:expr, $call:expr) => {
        row($bench, $name, $input, |n| {
            let file: Vec<u8> = [[$byte; 9].as_slice(), &[$last]].concat().repeat(n);
            let read = move || {
                let mut at = 0;
                calls(n, |_| $call(file.as_ptr(), file.len(), &mut at))
            };
            (0, read)
        })
    };
}

pub fn rows(bench: &Bench) {
    row(
        bench,
        "no call",
        "a byte looked at where the reads are",
        |n| {
            let file = any_bytes(n * EACH);
            let look = move || {
                let place = |i| scattered(i, n * EACH - 8) | 1;
                black_box(calls(n, |i| file[place(i)].into()));
                0
            };
            (0, look)
        },
    );
    plain!(bench, hbc_read_u8, "read_u8", 0);
    plain!(bench, hbc_read_i8, "read_i8", 0);
    plain!(bench, hbc_read_u16, "read_u16", 0);
    plain!(bench, hbc_read_u32, "read_u32", 0);
    plain!(bench, hbc_read_u64, "read_u64", 0);
    plain!(bench, hbc_read_i32, "read_i32", 0);
    plain!(bench, hbc_read_f64, "read_f64", 0.0);
    moves(bench);
    let unsigned = |s, len, at: &mut usize| {
        let (mut value, mut exact) = (0, 0);
        unsafe { hbc_read_uleb128(s, len, at, &mut value, &mut exact) }
    };
    let signed = |s, len, at: &mut usize| {
        let (mut value, mut exact) = (0, 0);
        unsafe { hbc_read_sleb128(s, len, at, &mut value, &mut exact) }
    };
    let prefixed = |s, len, at: &mut usize| {
        let (mut start, mut size, mut exact) = (0, 0, 0);
        unsafe { hbc_read_length_prefixed_string(s, len, at, &mut start, &mut size, &mut exact) }
    };
    walk!(bench, "read_uleb128", "ten bytes each", 0xFF, 0, unsigned);
    walk!(
        bench,
        "read_uleb128",
        "ten bytes each, bits lost",
        0xFF,
        0x7E,
        unsigned
    );
    walk!(bench, "read_sleb128", "ten bytes each", 0xFF, 0, signed);
    walk!(
        bench,
        "read_sleb128",
        "ten bytes each, bits lost",
        0xFF,
        0x7E,
        signed
    );
    let name = "read_length_prefixed_string";
    walk!(
        bench,
        name,
        "empty, prefixes of ten bytes",
        0x80,
        0,
        prefixed
    );
    walk!(
        bench,
        name,
        "empty, prefixes that lost bits",
        0x80,
        0x7E,
        prefixed
    );
    row(bench, "read_cstring", "no zero; bytes", |n| {
        let file = vec![b'a'; n];
        let read = move || {
            let (mut at, mut start, mut size) = (0, 0, 0);
            let (s, len) = (file.as_ptr(), file.len());
            unsafe { hbc_read_cstring(s, len, &mut at, &mut start, &mut size) }
        };
        (refused(9, 0), read)
    });
}

/// Calls that look at no byte.
fn moves(bench: &Bench) {
    row(bench, "bits", "any field", |n| {
        let read = move || {
            black_box(calls(n, |i| {
                let first = scattered(i, 70) as u32;
                unsafe { hbc_bits(i as u64, first, 64 - first / 2) }
            }));
            0
        };
        (0, read)
    });
    row(bench, "remaining", "any cursor", |n| {
        let file = vec![0; n];
        let read = move || {
            black_box(calls(n, |i| unsafe {
                hbc_remaining(file.as_ptr(), file.len(), scattered(i, 2 * n)) as u64
            }));
            0
        };
        (0, read)
    });
    row(bench, "seek", "anywhere", |n| {
        let file = vec![0; n];
        let seek = move || {
            let mut at = 0;
            let to = |i| scattered(i, n);
            calls(n, |i| unsafe {
                hbc_seek(file.as_ptr(), file.len(), &mut at, to(i))
            })
        };
        (0, seek)
    });
    row(bench, "align", "any cursor, any alignment", |n| {
        let file = vec![0; 2 * n];
        let align = move || {
            calls(n, |i| {
                let mut at = scattered(i, n);
                let alignment = 1 + scattered(i ^ 1, n);
                unsafe { hbc_align(file.as_ptr(), file.len(), &mut at, alignment) }
            })
        };
        (0, align)
    });
    row(bench, "read_bytes", "anywhere, as many as there are", |n| {
        let file = vec![0; n];
        let read = move || {
            calls(n, |i| {
                let (mut at, mut start, mut size) = (scattered(i, n), 0, 0);
                let (s, left) = (file.as_ptr(), n - at);
                unsafe { hbc_read_bytes(s, n, &mut at, left, &mut start, &mut size) }
            })
        };
        (0, read)
    });
}

pub fn any_bytes(len: usize) -> Vec<u8> {
    let mut random = Random::new(1);
    (0..len).map(|_| random.byte()).collect()
}
