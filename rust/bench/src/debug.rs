//! The debug section: strings, and scopes with their names. Callees have a table of their own.

use bisquepond::sys::*;
use harness::Random;
use published::debug::DebugInfo;

use crate::table::Bench;
use crate::whole::{heading, Whole};

const SIZES: [usize; 3] = [10_000, 100_000, 1_000_000];

/// Names of each scope.
const NAMES: usize = 4;

/// Strings that scopes and callees name.
pub const KNOWN: usize = 100;

pub fn rows(bench: &Bench) {
    heading(
        "The debug section, one call for all of it. The Rust makes a text of every string and of every name, and drops",
        "them; ours writes numbers and spans into words lent once. The work is not the same.",
        "entry",
    );
    for entries in SIZES {
        let section = Section {
            strings: strings(entries),
            ..Section::default()
        };
        section.row(bench, "strings of 8 bytes", entries);
    }
    for entries in SIZES {
        let section = Section {
            strings: strings(KNOWN),
            scopes: scopes(entries),
            ..Section::default()
        };
        section.row(bench, "scopes of four names", entries);
    }
}

/// A number in as few bytes as it needs.
pub fn sleb(bytes: &mut Vec<u8>, mut value: i64) {
    while !(-64..64).contains(&value) {
        bytes.push(value as u8 | 0x80);
        value >>= 7;
    }
    bytes.push(value as u8 & 0x7F);
}

pub fn strings(entries: usize) -> Vec<u8> {
    let mut random = Random::new(2);
    let mut part = Vec::new();
    for _ in 0..entries {
        part.push(8);
        part.extend((0..8).map(|_| b'a' + random.below(26) as u8));
    }
    part
}

fn scopes(entries: usize) -> Vec<u8> {
    let mut random = Random::new(3);
    let mut part = Vec::new();
    for i in 0..entries {
        let parent = random.below(part.len() + 1) as i64;
        sleb(&mut part, if i == 0 { -1 } else { parent });
        sleb(&mut part, random.below(4) as i64);
        sleb(&mut part, NAMES as i64);
        for _ in 0..NAMES {
            sleb(&mut part, random.below(KNOWN) as i64);
        }
    }
    part
}

#[derive(Default)]
pub struct Section {
    pub scopes: Vec<u8>,
    pub callees: Vec<u8>,
    pub strings: Vec<u8>,
}

impl Section {
    /// At byte 1 of a file.
    pub fn file(&self) -> Vec<u8> {
        let second = self.scopes.len() as u32;
        let third = second + self.callees.len() as u32;
        let size = third + self.strings.len() as u32;
        let header = [0, 0, 0, 0, second, third, size].map(u32::to_le_bytes);
        let header = header.as_flattened();
        [&[0], header, &self.scopes, &self.callees, &self.strings].concat()
    }

    /// Nanoseconds of an entry on both sides.
    pub fn row(&self, bench: &Bench, name: &str, entries: usize) -> [f64; 2] {
        let file = self.file();
        let mut lent = Lent::new(entries + KNOWN);
        let whole = Whole {
            bytes: file.len(),
            items: entries,
        };
        whole.row(bench, name, || lent.read(&file), || published(&file))
    }
}

/// Words for so many rows of each table, lent again in every pass.
pub struct Lent([Vec<u32>; 4]);

impl Lent {
    pub fn new(rows: usize) -> Lent {
        Lent([2, 5, NAMES, 2].map(|row| vec![0; row * rows]))
    }

    /// The answer of one call on the section at byte 1, and the four counts. Its mark is lent, and not looked at.
    pub fn call(&mut self, file: &[u8]) -> (u64, [usize; 4]) {
        let [a, b, c, d] = &mut self.0;
        let (mut counts, mut exact) = ([0; 4], 0);
        let [strings, scopes, names, callees] = &mut counts;
        let code = unsafe {
            hbc_read_debug(
                file.as_ptr(),
                file.len(),
                1,
                a.as_mut_ptr(),
                a.len(),
                b.as_mut_ptr(),
                b.len(),
                c.as_mut_ptr(),
                c.len(),
                d.as_mut_ptr(),
                d.len(),
                strings,
                scopes,
                names,
                callees,
                &mut exact,
            )
        };
        (code, counts)
    }

    /// How many rows a section has, and a sum over their last ones.
    pub fn read(&mut self, file: &[u8]) -> (u64, u64) {
        let (code, [strings, scopes, _, callees]) = self.call(file);
        assert_eq!(code, 0);
        let [a, b, c, d] = &self.0;
        let mut sum = u64::from(a[2 * strings - 1]);
        if scopes > 0 {
            let row = &b[5 * (scopes - 1)..];
            let name = c[(row[3] + row[4] - 1) as usize] as usize;
            sum += u64::from(row[0]) + u64::from(a[2 * name + 1]);
        }
        if callees > 0 {
            sum += u64::from(d[2 * (callees - 1)]);
        }
        ((strings + scopes + callees) as u64, sum)
    }
}

/// The same by the Rust.
fn published(file: &[u8]) -> (u64, u64) {
    let read = DebugInfo::parse(file, 1).unwrap();
    let mut sum = read.string_table.last().unwrap().len() as u64;
    if let Some(scope) = read.scope_descriptors.last() {
        sum += u64::from(scope.offset) + scope.names.last().unwrap().len() as u64;
    }
    if let Some((&address, _)) = read.textified_callees.last_key_value() {
        sum += u64::from(address);
    }
    let rows = [
        read.string_table.len(),
        read.scope_descriptors.len(),
        read.textified_callees.len(),
    ];
    (rows.iter().sum::<usize>() as u64, sum)
}
