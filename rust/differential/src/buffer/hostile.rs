//! Hostile inputs for the literals.

use bisquepond::sys::LIMIT;
use harness::Random;

use super::case::literal;
use super::case::series::series;
use crate::case::{Compare, Compared, Difference, Refusal};
use crate::hostile::{size, Soak};
use crate::inputs::mixed;
use crate::lent::Reserved;

/// Runs that are empty, of one value and of many, in tags of one and of two bytes.
const PIECES: [&[u8]; 12] = [
    &[0x70],
    &[0x30],
    &[0x00],
    &[0xF0, 0],
    &[0x80, 0],
    &[0x11],
    &[0x81, 1],
    &[0xF0, 1, 1, 2, 3, 4],
    &[0xB0, 1, 1, 2, 3, 4, 5, 6, 7, 8],
    &[0xE0, 1, 9],
    &[0x5F],
    &[0x8F, 0xFF],
];

pub fn soak(soak: &mut Soak) -> Compared {
    for (name, piece) in [
        ("empty tags of one kind, 2^30 bytes", [0x70].as_slice()),
        ("empty tags of two kinds in turn, 2^30 bytes", &[0x70, 0x30]),
        ("empty tags of two bytes, 2^30 bytes", &[0xF0, 0]),
    ] {
        soak.filled(&format!("{name}, no value"), (LIMIT, piece), |file| {
            refused(file, 1, 1, None)
        })?;
        soak.filled(&format!("{name}, one value"), (LIMIT, piece), |file| {
            file[LIMIT - piece.len()] = 0x11;
            read(file, 1)
        })?;
    }
    far_counts(soak)?;
    let mut random = soak.random(3);
    let name = "runs of none, one and many in any order";
    soak.case(name, size(1 << 24, 1 << 30), |_| {
        let buffer = mixed(&mut random, &PIECES, 1 << 22);
        read(&buffer, 1 << 20)
    })?;
    soak.filled("2^30 + 1 bytes", (LIMIT + 1, &[0x70]), |file| {
        read(file, 0)?;
        read(file, 1)
    })?;
    soak.at_random(1 << 16, any)
}

/// A series, and the same as an object's.
fn read(buffer: &[u8], count: u32) -> Result<String, Difference> {
    series(buffer, 0, count, [count as usize; 2]).compared()
}

/// A series that must be refused, into tables of so many words that can't be written; as is told, if anything is.
fn refused(
    buffer: &[u8],
    count: u32,
    lent: usize,
    told: Option<Refusal>,
) -> Result<String, Difference> {
    let most = u32::MAX as usize;
    let tables = Reserved::new(most).zip(Reserved::new(most));
    let (kinds, payloads) = tables.expect("addresses for tables that are not written");
    series(buffer, 0, count, [lent; 2]).compare_refused(told, (&kinds, &payloads))
}

/// More values than there are, into tables with room for all: the Rust would need 24 bytes for each that there is.
fn far_counts(soak: &mut Soak) -> Compared {
    let most = u32::MAX as usize;
    soak.filled("count 2^32 - 1, a row short", (LIMIT, &[0x11]), |file| {
        refused(file, u32::MAX, most - 1, None)
    })?;
    for (name, piece, len, values) in [
        ("2^30 values", [0x11].as_slice(), LIMIT, LIMIT),
        ("runs of 4,095 nulls", &[0x8F, 0xFF], 2 << 20, 4095 << 20),
        ("runs of one integer", &[0x71, 1, 2, 3, 4], LIMIT, LIMIT / 5),
        ("12-bit runs of one byte string", &[0xE0, 1, 9], LIMIT, LIMIT / 3),
    ] {
        let name = format!("count 2^32 - 1, {name}");
        soak.filled(&name, (len, piece), |file| {
            refused(file, u32::MAX, most, Some((3, values as u32)))
        })?;
    }
    Ok(())
}

fn any(random: &mut Random) -> Compared {
    let len = 1 + random.below(1 << 14);
    let buffer = mixed(random, &PIECES, len);
    let values = random.below(1 << 14) as u32;
    for count in [values, values / 16, 1, u32::MAX] {
        let lent = (count as usize).min(1 << 16) - random.below(2).min(count as usize);
        series(&buffer, 0, count, [lent; 2]).compare()?;
    }
    let literal =
        literal::Case { input: &buffer, at: random.below(buffer.len() + 2), tag: random.byte() };
    literal.compare().map(drop)
}
