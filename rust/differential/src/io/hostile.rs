//! Hostile inputs for the cursor layer.

use bisquepond::sys::LIMIT;
use harness::Random;

use super::case::{case, Op, OPS};
use crate::case::{Compare, Compared, Difference};
use crate::hostile::{file_of, size, Soak};
use crate::inputs::{fill, mixed, ten};

/// Lengths, targets and alignments that no file has.
const FAR: [usize; 6] = [0, 1, LIMIT, u32::MAX as usize, 1 << 63, usize::MAX];

/// The calls that read LEB128.
const LEB128: [Op; 3] = [Op::Uleb128, Op::Sleb128, Op::LengthPrefixedString];

/// 2^64, and the number of which a signed reader keeps 0 and loses 2^69: both with low bits that are 0.
const LOST: [u8; 10] = [0x80, 0x80, 0x80, 0x80, 0x80, 0x80, 0x80, 0x80, 0x80, 2];
const BELOW: [u8; 10] = [0x80, 0x80, 0x80, 0x80, 0x80, 0x80, 0x80, 0x80, 0x80, 0x40];

pub fn soak(soak: &mut Soak) -> Compared {
    for (name, len) in [
        ("every call, far numbers, 2^30 bytes", LIMIT),
        ("every call, far numbers, 2^30 + 1 bytes", LIMIT + 1),
    ] {
        soak.case(name, file_of(len), |file| {
            fill(file, len, &[0x80]);
            far_numbers(file)
        })?;
    }
    for (name, number) in [
        ("ten-byte LEB128 everywhere, 0", ten(0)),
        ("ten-byte LEB128 everywhere, 2^64 - 1", ten(u64::MAX)),
        ("ten-byte LEB128 everywhere, bits lost", LOST),
        ("ten-byte LEB128 everywhere, bits lost of a signed one", BELOW),
    ] {
        soak.case(name, file_of(1 << 24), |file| {
            fill(file, 1 << 24, &number);
            walk(file, (0..file.len()).step_by(10))
        })?;
    }
    let places = soak.random(1);
    soak.case("ten-byte LEB128 everywhere, 2^30 bytes", file_of(LIMIT), |file| {
        fill(file, LIMIT, &ten(u64::MAX));
        let mut places = places;
        let near_the_end = LIMIT - 40..=LIMIT;
        let places: Vec<usize> = (0..20_000).map(|_| 10 * places.below(LIMIT / 10)).collect();
        walk(file, places.into_iter().chain(near_the_end))
    })?;
    longest_texts(soak)?;
    soak.at_random(1 << 12, any)
}

/// Every call from both ends, from past the end, and with numbers as large as there are.
fn far_numbers(file: &[u8]) -> Result<String, Difference> {
    for op in OPS {
        // From the first byte on there is no zero: that is a case of its own.
        let first = if op == Op::Cstring { LIMIT - 9 } else { 0 };
        for at in [first, LIMIT - 1, LIMIT, LIMIT + 1].into_iter().chain(FAR) {
            if op == Op::Cstring && at < first {
                continue;
            }
            for argument in FAR {
                case(op, file, at, argument).compare()?;
            }
        }
    }
    Ok("each as expected".to_string())
}

fn walk(file: &[u8], places: impl Iterator<Item = usize>) -> Result<String, Difference> {
    for at in places {
        for op in LEB128 {
            case(op, file, at, 0).compare()?;
        }
    }
    Ok("each as expected".to_string())
}

/// One string that takes the whole file, or would.
fn longest_texts(soak: &mut Soak) -> Compared {
    soak.case("zero-ended, no zero, 2^30 bytes", file_of(LIMIT), |file| {
        fill(file, LIMIT, b"a");
        case(Op::Cstring, file, 0, 0).compared()
    })?;
    // The Rust makes a text of it.
    let size = size(LIMIT, 4 * LIMIT);
    soak.case("zero-ended, the zero last, 2^30 bytes", size, |file| {
        fill(file, LIMIT, b"a");
        file[LIMIT - 1] = 0;
        case(Op::Cstring, file, 0, 0).compared()
    })?;
    soak.case("prefix of ten bytes, all that is left", size, |file| {
        fill(file, LIMIT, b"a");
        file[..10].copy_from_slice(&ten(LIMIT as u64 - 10));
        case(Op::LengthPrefixedString, file, 0, 0).compared()
    })?;
    soak.case("prefix of ten bytes, one more than that", file_of(LIMIT), |file| {
        fill(file, LIMIT, b"a");
        file[..10].copy_from_slice(&ten(LIMIT as u64 - 9));
        case(Op::LengthPrefixedString, file, 0, 0).compared()
    })
}

/// Numbers of one to eleven bytes in any order, read from any place.
fn any(random: &mut Random) -> Compared {
    let pieces: [&[u8]; 8] =
        [&ten(0), &ten(u64::MAX), &[0xFF; 11], &[0x80], &[0], &ten(9), &LOST, &BELOW];
    let len = 1 + random.below(1 << 12);
    let file = mixed(random, &pieces, len);
    for op in OPS {
        let at = random.below(file.len() + 2);
        let argument = random.pick(&FAR) ^ random.below(16);
        case(op, &file, at, argument).compare()?;
    }
    Ok(())
}
