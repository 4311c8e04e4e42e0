//! The groups of inputs on which the two sides of the cursor layer are compared.

mod exact;

use bisquepond::sys::{hbc_bits, hbc_remaining, LIMIT};
use harness::Random;
use published::io::ByteReader;

use super::case::Op::*;
use super::case::{case, Op, OPS, PLAIN};
use super::differences;
use crate::case::Compared;
use crate::inputs::random_bytes;
use crate::run::Run;

pub fn compare(run: &mut Run) -> Compared {
    run.group("bits, against u128", bits)?;
    run.group("remaining", remaining)?;
    for op in [Uleb128, Sleb128, Cstring, LengthPrefixedString] {
        let name = format!("{op:?}, all inputs up to 3 bytes");
        run.group(&name, |run| short(run, op))?;
    }
    run.group("LEB128 and prefixes of 1 to 12 bytes", long_leb128)?;
    exact::compare(run)?;
    run.group("plain reads, every cursor", plain)?;
    run.group("f64, every kind of float", floats)?;
    run.group("Bytes, every cursor", spans)?;
    run.group("Seek, every cursor", seeks)?;
    run.group("Align, every cursor", aligns)?;
    run.group("cursors past the end, against docs/FORMAT.md", past_the_end)?;
    run.group("an input of 2^30 bytes", longest)?;
    run.group("2^30 + 1 bytes, against docs/FORMAT.md", too_long)?;
    run.group("the differences that docs list", differences::listed)?;
    run.group("random", random)
}

/// One field of a word, against the shift and mask that the Rust writes out for each field, in 128 bits.
fn bits(run: &mut Run) -> Compared {
    let mut random = run.random(1);
    let mut words = vec![0, 1, u64::MAX, 1 << 63, 0x0123_4567_89AB_CDEF];
    words.extend((0..30).map(|_| random.word()));
    let extremes = [127, 128, 255, 256, 1 << 31, u32::MAX - 1, u32::MAX];
    let numbers: Vec<u32> = (0..=70).chain(extremes).collect();
    for &word in &words {
        for &first in &numbers {
            for &width in &numbers {
                let shifted = (word as u128).checked_shr(first).unwrap_or(0);
                let mask = 1u128.checked_shl(width).map_or(u128::MAX, |bit| bit - 1);
                let expected = (shifted & mask) as u64;
                let given = unsafe { hbc_bits(word, first, width) };
                if given != expected {
                    return Err(format!(
                        "hbc_bits({word:#x}, {first}, {width}) is {given:#x}, not {expected:#x}"
                    )
                    .into());
                }
                run.equal();
            }
        }
    }
    Ok(())
}

fn remains(run: &mut Run, input: &[u8], at: usize) -> Compared {
    let mut reader = ByteReader::new(input);
    // Past the end the Rust's reader cannot stand; nothing remains there.
    let expected = match reader.seek(at) {
        Ok(()) => reader.remaining(),
        Err(_) => 0,
    };
    let given = unsafe { hbc_remaining(input.as_ptr(), input.len(), at) };
    if given != expected {
        let len = input.len();
        let wrong = format!("hbc_remaining of {len} bytes at {at} is {given}, not {expected}");
        return Err(wrong.into());
    }
    run.equal();
    Ok(())
}

fn remaining(run: &mut Run) -> Compared {
    let input = [0; 17];
    for len in 0..=17 {
        for at in (0..=20).chain(FAR) {
            remains(run, &input[..len], at)?;
        }
    }
    Ok(())
}

/// Every input up to three bytes from its first byte, those up to two from every cursor.
fn short(run: &mut Run, op: Op) -> Compared {
    for len in 0..=3u32 {
        for n in 0..1u32 << (8 * len) {
            let bytes = n.to_le_bytes();
            let input = &bytes[..len as usize];
            run.compare(&case(op, input, 0, 0))?;
            if len <= 2 {
                for at in 1..=len as usize {
                    run.compare(&case(op, input, at, 0))?;
                }
            }
        }
    }
    Ok(())
}

/// Numbers of 1 to 12 bytes with every last byte, bare and with a random tail, at the first byte or after others. The
/// bytes before the last have bit 7 set: low, high or random else.
fn long_leb128(run: &mut Run) -> Compared {
    let mut random = run.random(2);
    for len in 1..=12 {
        for last in 0..=255 {
            for fill in 0..6 {
                let mut input: Vec<u8> = (0..random.below(4)).map(|_| random.byte()).collect();
                let at = input.len();
                input.extend((1..len).map(|_| match fill {
                    0 => 0x80,
                    1 => 0xFF,
                    _ => 0x80 | random.byte(),
                }));
                input.push(last);
                for op in [Uleb128, Sleb128, LengthPrefixedString] {
                    run.compare(&case(op, &input, at, 0))?;
                }
                let tail = random.below(20);
                input.extend((0..tail).map(|_| random.byte()));
                for op in [Uleb128, Sleb128, LengthPrefixedString] {
                    run.compare(&case(op, &input, at, 0))?;
                }
            }
        }
    }
    Ok(())
}

fn plain(run: &mut Run) -> Compared {
    let mut random = run.random(3);
    for _ in 0..200 {
        for len in 0..=17 {
            let input = random_bytes(&mut random, len);
            for at in 0..=len {
                for op in PLAIN {
                    run.compare(&case(op, &input, at, 0))?;
                }
            }
        }
    }
    for byte in 0..=255 {
        for op in PLAIN {
            run.compare(&case(op, &[byte; 8], 0, 0))?;
        }
    }
    Ok(())
}

/// Zeros, the least and greatest of each kind, infinities and NaNs of both signs, and random ones of every exponent.
fn floats(run: &mut Run) -> Compared {
    let mut random = run.random(4);
    let top = (1 << 52) - 1;
    for sign in 0..2u64 {
        for exponent in 0..2048u64 {
            let some = (0..6).map(|_| random.word() & top).collect::<Vec<_>>();
            for fraction in [0, 1, 1 << 51, top - 1, top].into_iter().chain(some) {
                let input = (sign << 63 | exponent << 52 | fraction).to_le_bytes();
                run.compare(&case(F64, &input, 0, 0))?;
            }
        }
    }
    Ok(())
}

fn spans(run: &mut Run) -> Compared {
    let mut random = run.random(5);
    for len in 0..=17 {
        let input = random_bytes(&mut random, len);
        for at in 0..=len {
            for argument in (0..=len + 1).chain(FAR).chain(around(at)) {
                run.compare(&case(Bytes, &input, at, argument))?;
            }
        }
    }
    Ok(())
}

fn seeks(run: &mut Run) -> Compared {
    let input = [0; 17];
    for len in 0..=17 {
        for at in 0..=len {
            for argument in (0..=len + 2).chain(FAR) {
                run.compare(&case(Seek, &input[..len], at, argument))?;
            }
        }
    }
    Ok(())
}

fn aligns(run: &mut Run) -> Compared {
    let input = [0; 33];
    for len in 0..=33 {
        for at in 0..=len {
            for argument in (0..=40).chain(FAR) {
                run.compare(&case(Align, &input[..len], at, argument))?;
            }
        }
    }
    Ok(())
}

/// Numbers far beyond any input here, at the edges of 32 and 64 bits.
const FAR: [usize; 14] = [
    LIMIT - 1,
    LIMIT,
    LIMIT + 1,
    (1 << 32) - 1,
    1 << 32,
    (1 << 32) + 1,
    (1 << 63) - 1,
    1 << 63,
    (1 << 63) + 1,
    usize::MAX - 9,
    usize::MAX - 8,
    usize::MAX - 7,
    usize::MAX - 1,
    usize::MAX,
];

/// Lengths that bring a cursor to 2^64 or next to it.
fn around(at: usize) -> impl Iterator<Item = usize> {
    let rest = usize::MAX - at;
    [rest - 1, rest, rest.saturating_add(1)].into_iter()
}

/// Lengths, targets and alignments that matter for an input of `len` bytes.
fn arguments(op: Op, len: usize) -> Vec<usize> {
    match op {
        Bytes | Seek | Align => (0..=9).chain([len, len + 1, len + 2]).chain(FAR).collect(),
        _ => vec![0],
    }
}

fn past_the_end(run: &mut Run) -> Compared {
    let mut random = run.random(6);
    for len in 0..=17 {
        let input = random_bytes(&mut random, len);
        for at in (len + 1..=len + 9).chain(FAR) {
            for op in OPS {
                for argument in arguments(op, len) {
                    run.compare(&case(op, &input, at, argument))?;
                }
            }
        }
    }
    Ok(())
}

/// The longest input that is read: zeros, then 64 bytes that no string or number ends in.
fn longest(run: &mut Run) -> Compared {
    let mut random = run.random(7);
    let mut input = vec![0; LIMIT];
    for tail in 0..4 {
        for byte in &mut input[LIMIT - 64..] {
            *byte = match tail {
                0 => 0xFF,
                1 => 0,
                2 => 0x80 | random.byte(),
                _ => random.byte(),
            };
        }
        let near = LIMIT - 80..=LIMIT + 2;
        let far = (0..64).map(|_| random.below(LIMIT)).collect::<Vec<_>>();
        for at in near.chain(0..=3).chain(far) {
            remains(run, &input, at)?;
            for op in OPS {
                for argument in arguments(op, LIMIT) {
                    run.compare(&case(op, &input, at, argument))?;
                }
            }
        }
    }
    Ok(())
}

fn too_long(run: &mut Run) -> Compared {
    let input = vec![0; LIMIT + 1];
    for at in [0, 1, LIMIT - 1].into_iter().chain(FAR) {
        remains(run, &input, at)?;
        for op in OPS {
            for argument in arguments(op, input.len()) {
                run.compare(&case(op, &input, at, argument))?;
            }
        }
    }
    Ok(())
}

/// Inputs up to 80 bytes of one flavour or a mix, every call, cursors within and sometimes past them.
fn random(run: &mut Run) -> Compared {
    let mut random = run.random(8);
    let mut input = Vec::with_capacity(80);
    while run.more() {
        let flavour = random.below(5);
        let most = random.pick(&[80, 16, 16, 16]);
        let len = random.below(most + 1);
        input.clear();
        input.extend((0..len).map(|_| any_byte(&mut random, flavour)));
        let at = match random.below(16) {
            0 => len,
            1 => random.pick(&FAR),
            _ => random.below(len + 1),
        };
        for op in OPS {
            let argument = match (op, random.below(4)) {
                (Bytes | Seek | Align, 0) => random.pick(&FAR),
                (Bytes, 1) => len.saturating_sub(at) + random.below(2),
                (Bytes | Seek | Align, _) => random.below(len + 3),
                _ => 0,
            };
            run.compare(&case(op, &input, at, argument))?;
        }
    }
    Ok(())
}

/// A byte of a flavour: any, bit 7 mostly set, small (short prefixes), text with some zeros, or a mix.
pub fn any_byte(random: &mut Random, flavour: usize) -> u8 {
    let word = random.word();
    let byte = word as u8;
    let chance = (word >> 8) % 8;
    match flavour {
        0 => byte,
        1 if chance > 0 => byte | 0x80,
        2 => byte % 12,
        3 if chance == 0 => 0,
        3 => b'a' + byte % 26,
        4 => any_byte(random, (word >> 16) as usize % 4),
        _ => byte,
    }
}
