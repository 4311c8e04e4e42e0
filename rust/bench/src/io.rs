//! The cursor layer: one read after the other until the bytes end.

use std::hint::black_box;

use bisquepond::sys::*;
use harness::Random;
use published::error::Result;
use published::io::ByteReader;

use crate::table::{heading, Bench, Side, Sides, Tally, SIZES};

pub fn rows(bench: &Bench) {
    heading();
    let mut random = Random::new(1);
    for size in SIZES {
        let plain = filled(size, |bytes| bytes.extend(random.word().to_le_bytes()));
        bench.row("u32", &plain, U32);
        bench.row("u64", &plain, U64);
        let small = filled(size, |bytes| bytes.push(random.byte() & 0x7F));
        bench.row("ULEB128, one byte each", &small, ULEB128);
        bench.row("SLEB128, one byte each", &small, SLEB128);
        let mixed = filled(size, |bytes| leb128(bytes, &mut random));
        bench.row("ULEB128, 1 to 10 bytes", &mixed, ULEB128);
        bench.row("SLEB128, 1 to 10 bytes", &mixed, SLEB128);
        let exact = filled(size, |bytes| bytes.extend(ten(&mut random, false)));
        bench.row("ULEB128, ten bytes each", &exact, ULEB128);
        bench.row("SLEB128, ten bytes each", &exact, SLEB128);
        let lost = filled(size, |bytes| bytes.extend(ten(&mut random, true)));
        bench.row("ULEB128, ten, bits lost", &lost, ULEB128);
        bench.row("SLEB128, ten, bits lost", &lost, SLEB128);
        let texts = filled(size, |bytes| text(bytes, &mut random));
        bench.row("zero-ended, 0 to 40 letters", &texts, CSTRING);
    }
}

/// `size` bytes of what `push` makes, the last thing cut.
fn filled(size: usize, mut push: impl FnMut(&mut Vec<u8>)) -> Vec<u8> {
    let mut bytes = Vec::with_capacity(size + 64);
    while bytes.len() < size {
        push(&mut bytes);
    }
    bytes.truncate(size);
    bytes
}

/// Of sixteen numbers ten have one byte, three have two, and the rest up to ten.
fn leb128(bytes: &mut Vec<u8>, random: &mut Random) {
    let len = match random.below(16) {
        0..10 => 1,
        10..13 => 2,
        _ => 3 + random.below(8),
    };
    bytes.extend((1..len).map(|_| random.byte() | 0x80));
    bytes.push(random.byte() & 0x7F);
}

/// Ten bytes, the last of them 0, or one with which bits of the number are lost, signed or unsigned.
fn ten(random: &mut Random, lost: bool) -> [u8; 10] {
    std::array::from_fn(|i| match i {
        9 if lost => random.pick(&[2, 0x3F, 0x40, 0x7E]),
        9 => 0,
        _ => random.byte() | 0x80,
    })
}

fn text(bytes: &mut Vec<u8>, random: &mut Random) {
    let len = random.below(41);
    bytes.extend((0..len).map(|_| b'a' + random.byte() % 26));
    bytes.push(0);
}

/// Reads by `next` until it has no more.
#[inline(always)]
fn all(mut next: impl FnMut() -> Option<u64>) -> Tally {
    let mut tally = Tally { reads: 0, sum: 0 };
    while let Some(value) = next() {
        tally.reads += 1;
        tally.sum = tally.sum.wrapping_add(value);
    }
    tally
}

/// The sides of a read of one number: our call, the Rust's, the number's type, and a mark where the call tells one, which
/// the Rust does not. The compiler reaches a function of
/// another library by its address; `black_box` has it reach the Rust's in the same way.
macro_rules! number {
    ($call:ident, $method:ident, $kind:ty $(, $mark:ident)?) => {{
        const OURS: Side = |bytes| {
            let (mut at, mut value): (usize, $kind) = (0, 0);
            $(let mut $mark = 0;)?
            all(|| {
                let (s, len) = (bytes.as_ptr(), bytes.len());
                let code = unsafe { $call(s, len, &mut at, &mut value $(, &mut $mark)?) };
                (code == 0).then_some(value as u64)
            })
        };
        #[inline(never)]
        fn call(reader: &mut ByteReader<'_>) -> Result<$kind> {
            reader.$method()
        }
        const CALLED: Side = |bytes| {
            let mut reader = ByteReader::new(bytes);
            let call: fn(&mut ByteReader<'_>) -> Result<$kind> = black_box(call);
            all(|| call(&mut reader).ok().map(|value| value as u64))
        };
        const INLINED: Side = |bytes| {
            let mut reader = ByteReader::new(bytes);
            all(|| reader.$method().ok().map(|value| value as u64))
        };
        Sides {
            ours: OURS,
            called: CALLED,
            inlined: INLINED,
        }
    }};
}

const U32: Sides = number!(hbc_read_u32, read_u32, u32);
const U64: Sides = number!(hbc_read_u64, read_u64, u64);
const ULEB128: Sides = number!(hbc_read_uleb128, read_uleb128, u64, exact);
const SLEB128: Sides = number!(hbc_read_sleb128, read_sleb128, i64, exact);

/// The Rust hands back a text of its own, checked as UTF-8; ours names the part. Of each the length and the first
/// letter go into the sum.
const CSTRING: Sides = Sides {
    ours: |bytes| {
        let (mut at, mut start, mut size) = (0, 0, 0);
        let (s, s_len) = (bytes.as_ptr(), bytes.len());
        all(|| {
            let code = unsafe { hbc_read_cstring(s, s_len, &mut at, &mut start, &mut size) };
            (code == 0).then(|| read(&bytes[start..start + size]))
        })
    },
    called: |bytes| {
        let mut reader = ByteReader::new(bytes);
        let call: fn(&mut ByteReader<'_>) -> Result<String> = black_box(call_cstring);
        all(|| call(&mut reader).ok().map(|text| read(text.as_bytes())))
    },
    inlined: |bytes| {
        let mut reader = ByteReader::new(bytes);
        all(|| reader.read_cstring().ok().map(|text| read(text.as_bytes())))
    },
};

#[inline(never)]
fn call_cstring(reader: &mut ByteReader<'_>) -> Result<String> {
    reader.read_cstring()
}

fn read(text: &[u8]) -> u64 {
    text.len() as u64 + text.first().map_or(0, |letter| *letter as u64)
}
