//! The literals.

use bisquepond::sys::*;
use harness::Random;

use super::io::any_bytes;
use super::{calls, refused, row, scattered};
use crate::table::Bench;

/// Bytes of a value, by bits 4 to 6 of its tag.
const WIDTHS: [usize; 8] = [0, 0, 0, 8, 4, 2, 1, 4];

pub fn rows(bench: &Bench) {
    row(bench, "read_literal", "any tag, anywhere", |n| {
        let file = any_bytes(16 * n);
        let read = move || {
            let (mut kind, mut number, mut word) = (0, 0.0, 0);
            calls(n, |i| {
                let mut at = scattered(i, 16 * n - 8);
                let (s, tag) = (file.as_ptr(), scattered(i ^ 1, 256) as u8);
                let kind = &mut kind;
                unsafe { hbc_read_literal(s, 16 * n, &mut at, tag, kind, &mut number, &mut word) }
            })
        };
        (0, read)
    });
    row(bench, "read_series", "empty tags of one kind", |n| {
        one_after(vec![0x70; n])
    });
    row(
        bench,
        "read_series",
        "empty tags of two kinds in turn",
        |n| one_after([0x70, 0x30].repeat(n / 2)),
    );
    row(bench, "read_series", "empty tags of any kind", |n| {
        let mut random = Random::new(1);
        one_after((0..n).map(|_| random.byte() & 0x70).collect())
    });
    row(
        bench,
        "read_series",
        "empty tags of two bytes, any kind",
        |n| {
            let mut random = Random::new(1);
            one_after(
                (0..n)
                    .flat_map(|_| [random.byte() & 0x70 | 0x80, 0])
                    .collect(),
            )
        },
    );
    row(bench, "read_series", "runs of one, any kind", |n| {
        let buffer = runs(n, |bits| vec![bits << 4 | 1]);
        series(buffer, n)
    });
    row(
        bench,
        "read_series",
        "runs of one, 12-bit lengths, any kind",
        |n| {
            let buffer = runs(n, |bits| vec![bits << 4 | 0x80, 1]);
            series(buffer, n)
        },
    );
    row(bench, "read_series", "the same, the last value cut", |n| {
        let mut buffer = runs(n - 1, |bits| vec![bits << 4 | 0x80, 1]);
        buffer.extend([0xF0, 1, 0, 0, 0]);
        let (_, read) = series(buffer, n);
        (refused(3, n - 1), read)
    });
    row(
        bench,
        "read_object",
        "runs of one, 12-bit lengths, any kind",
        |n| {
            let buffer = runs(n, |bits| vec![bits << 4 | 0x80, 1]);
            let (mut kinds, mut payloads) = (vec![0; n], vec![0; n]);
            let answer = buffer.len() as u64;
            let read = move || unsafe {
                hbc_read_object(
                    [].as_ptr(),
                    0,
                    buffer.as_ptr(),
                    buffer.len(),
                    0,
                    0,
                    n as u32,
                    kinds.as_mut_ptr(),
                    n,
                    payloads.as_mut_ptr(),
                    n,
                )
            };
            (answer, read)
        },
    );
}

/// So many values of any kind, each in a run of its own behind the tag that is made for it.
fn runs(values: usize, tag: impl Fn(u8) -> Vec<u8>) -> Vec<u8> {
    let mut random = Random::new(1);
    let mut buffer = Vec::new();
    for _ in 0..values {
        let bits = random.byte() & 7;
        buffer.extend(tag(bits));
        buffer.extend(&random.word().to_le_bytes()[..WIDTHS[bits as usize]]);
    }
    buffer
}

/// One value behind these tags.
fn one_after(mut tags: Vec<u8>) -> (u64, impl FnMut() -> u64) {
    tags.push(0x11);
    series(tags, 1)
}

/// A series that uses all of its buffer.
fn series(buffer: Vec<u8>, values: usize) -> (u64, impl FnMut() -> u64) {
    let (mut kinds, mut payloads) = (vec![0; values], vec![0; values]);
    let answer = buffer.len() as u64;
    let read = move || unsafe {
        hbc_read_series(
            buffer.as_ptr(),
            buffer.len(),
            0,
            values as u32,
            kinds.as_mut_ptr(),
            values,
            payloads.as_mut_ptr(),
            values,
        )
    };
    (answer, read)
}
