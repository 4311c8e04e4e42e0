//! The debug section.

use harness::Random;

use super::{refused, row};
use crate::debug::{sleb, strings, Lent, Section, KNOWN};
use crate::table::Bench;

/// Ten bytes that read as 0, and ten of which the last says that more follow, so that they are refused.
const LONG: [u8; 10] = [0x80, 0x80, 0x80, 0x80, 0x80, 0x80, 0x80, 0x80, 0x80, 0];
const CUT: [u8; 10] = [0xFF; 10];
/// The same as the first but for bits that are lost.
const LOST: [u8; 10] = [0x80, 0x80, 0x80, 0x80, 0x80, 0x80, 0x80, 0x80, 0x80, 0x7E];

pub fn rows(bench: &Bench) {
    let call = "read_debug";
    row(bench, call, "strings of no bytes", |n| {
        of_strings(vec![0; n], n)
    });
    row(bench, call, "strings of no bytes, prefixes of ten", |n| {
        of_strings(LONG.repeat(n), n)
    });
    row(
        bench,
        call,
        "strings of no bytes, prefixes that lost bits",
        |n| of_strings(LOST.repeat(n), n),
    );
    row(bench, call, "strings of any length to 200", |n| {
        let mut random = Random::new(1);
        let mut part = Vec::new();
        for _ in 0..n {
            let long = random.below(200);
            part.extend(if long < 128 {
                vec![long as u8]
            } else {
                vec![long as u8, 1]
            });
            part.resize(part.len() + long, b'a');
        }
        of_strings(part, n)
    });
    row(bench, call, "scopes of no names", |n| {
        of_scopes([0x7F, 0, 0].repeat(n), n)
    });
    row(
        bench,
        call,
        "scopes of no names, numbers of ten bytes",
        |n| of_scopes(LONG.repeat(3 * n), n),
    );
    row(
        bench,
        call,
        "scopes of no names, numbers that lost bits",
        |n| of_scopes(LOST.repeat(3 * n), n),
    );
    row(bench, call, "scopes whose one name is cut", |n| {
        of_scopes([[0x7F, 0, 1].as_slice(), &CUT].concat().repeat(n), n)
    });
    row(bench, call, "scopes of two names, any of ten bytes", |n| {
        let mut random = Random::new(1);
        let mut part = Vec::new();
        for _ in 0..n {
            part.extend([0, 0, 2]);
            for _ in 0..2 {
                let name: &[u8] = if random.below(2) == 0 { &LONG } else { &[5] };
                part.extend(name);
            }
        }
        of_scopes(part, n)
    });
    row(bench, call, "one scope of unknown names; names", |n| {
        let mut part = vec![0, 0];
        sleb(&mut part, n as i64);
        part.resize(part.len() + n, 0x40);
        of_scopes(part, n)
    });
    row(bench, call, "callees rising, numbers of ten bytes", |n| {
        of_callees(n, true, |part, i| {
            part.extend(long(i as u64));
            part.extend(LONG);
        })
    });
    row(bench, call, "callees rising, numbers that lost bits", |n| {
        of_callees(n, true, |part, i| {
            part.extend(&long(i as u64)[..9]);
            part.push(0x7E);
            part.extend(LOST);
        })
    });
    row(bench, call, "callees of unknown names", |n| {
        of_callees(n, true, move |part, i| {
            sleb(part, (n - i) as i64);
            part.push(0x7F);
        })
    });
    row(bench, call, "callees rising, a row short", |n| {
        let (_, read) = of_callees(n, false, |part, i| {
            sleb(part, i as i64);
            part.push(0);
        });
        (refused(4, 0), read)
    });
}

/// A number below 2^62 in ten bytes.
fn long(number: u64) -> [u8; 10] {
    std::array::from_fn(|i| match i {
        9 => 0,
        _ => (number >> (7 * i)) as u8 & 0x7F | 0x80,
    })
}

fn of_strings(strings: Vec<u8>, entries: usize) -> (u64, impl FnMut() -> u64) {
    read(
        Section {
            strings,
            ..Section::default()
        },
        entries,
    )
}

fn of_scopes(scopes: Vec<u8>, entries: usize) -> (u64, impl FnMut() -> u64) {
    let strings = strings(KNOWN);
    read(
        Section {
            scopes,
            strings,
            ..Section::default()
        },
        entries + KNOWN,
    )
}

/// Entries that `push` makes, with or without room for their rows.
fn of_callees(
    entries: usize,
    room: bool,
    push: impl Fn(&mut Vec<u8>, usize),
) -> (u64, impl FnMut() -> u64) {
    let mut callees = Vec::new();
    sleb(&mut callees, entries as i64);
    for i in 0..entries {
        push(&mut callees, i);
    }
    let strings = strings(KNOWN);
    let rows = if room { entries + KNOWN } else { entries - 1 };
    read(
        Section {
            callees,
            strings,
            ..Section::default()
        },
        rows,
    )
}

fn read(section: Section, rows: usize) -> (u64, impl FnMut() -> u64) {
    let (file, mut lent) = (section.file(), Lent::new(rows));
    (0, move || lent.call(&file).0)
}
