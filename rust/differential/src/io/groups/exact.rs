//! Which LEB128 numbers are exact: every tenth byte, of both signs, against arithmetic in 128 bits.

use harness::Random;

use super::super::case::Op::*;
use super::super::case::{case, Op};
use super::FAR;
use crate::case::{Compare as _, Compared};
use crate::exact::{said, Kind, UNMARKED};
use crate::inputs::{random_bytes, uleb};
use crate::run::Run;

pub fn compare(run: &mut Run) -> Compared {
    run.group("exact: every tenth byte, both signs", tenth_bytes)?;
    run.group("exact: numbers of 1 to 11 bytes", lengths)?;
    run.group("exact: cut, and cursors past the end", cut)?;
    run.group("exact: prefixes, text behind", prefixes)
}

const READS: [Op; 3] = [Uleb128, Sleb128, LengthPrefixedString];

fn kind(op: Op) -> Kind {
    match op {
        Sleb128 => Kind::Signed,
        _ => Kind::Unsigned,
    }
}

/// Nine bytes with bit 7 set, in every form that a test could take for another: all low bits clear, all set, one set or
/// one clear at each place, those that would be a tenth byte themselves, and some at random.
fn nine(random: &mut Random) -> Vec<[u8; 9]> {
    let mut all = vec![[0x80; 9], [0xFF; 9]];
    for bit in 0..63 {
        let mut one = [0x80; 9];
        one[bit / 7] |= 1 << (bit % 7);
        all.extend([one, one.map(|byte| byte ^ 0x7F)]);
    }
    all.extend([0x81, 0x82, 0xBF, 0xC0, 0xFE].map(|byte| [byte; 9]));
    all.extend((0..60).map(|_| [0; 9].map(|_: u8| random.byte() | 0x80)));
    all
}

/// Behind each nine bytes every byte there is, at the first byte of the input or behind others, with others behind it or
/// none. Of those that end the number the mark is also held against the format's words as they stand.
fn tenth_bytes(run: &mut Run) -> Compared {
    let mut random = run.random(11);
    for nine in nine(&mut random) {
        for tenth in 0..=255 {
            for (before, behind) in [(0, 0), (1, 0), (0, 1), (3, 12)] {
                let mut input = random_bytes(&mut random, before);
                input.extend(nine);
                input.push(tenth);
                input.extend(random_bytes(&mut random, behind));
                for op in READS {
                    let answer = run.compare(&case(op, &input, before, 0))?;
                    let right = match (answer.number, tenth) {
                        (0, ..0x80) => said(kind(op), &input[before..before + 10]).into(),
                        _ => UNMARKED,
                    };
                    assert_eq!(answer.mark, right);
                }
            }
        }
    }
    Ok(())
}

/// Every last byte of numbers of 1 to 11 bytes: those of nine and fewer are all exact, those of eleven are refused.
fn lengths(run: &mut Run) -> Compared {
    let mut random = run.random(12);
    for len in 1..=11 {
        for nine in nine(&mut random) {
            for last in 0..=255 {
                let mut input: Vec<u8> = nine.iter().chain(&nine).copied().take(len - 1).collect();
                input.push(last);
                for op in READS {
                    let answer = run.compare(&case(op, &input, 0, 0))?;
                    if len < 10 && answer.number == 0 {
                        assert_eq!(answer.mark, 1);
                    }
                    assert!(len < 11 || answer.number == 5);
                }
            }
        }
    }
    Ok(())
}

/// Numbers that lost bits and such that did not, cut at every byte, from every cursor and from past the end: what is
/// refused has no mark.
fn cut(run: &mut Run) -> Compared {
    let mut random = run.random(13);
    for nine in nine(&mut random) {
        for tenth in [0, 1, 2, 0x3F, 0x40, 0x7E, 0x7F, 0x80, 0xFF] {
            let whole = [&nine[..], &[tenth]].concat();
            for len in 0..=whole.len() {
                let input = &whole[..len];
                for at in (0..=len + 3).chain([FAR[0], FAR[5], FAR[13]]) {
                    for op in READS {
                        let answer = run.compare(&case(op, input, at, 0))?;
                        assert_eq!(answer.mark == UNMARKED, answer.number != 0);
                    }
                }
            }
        }
    }
    Ok(())
}

/// Lengths whose low 64 bits are few, in one to ten bytes and with every tenth byte, with text behind them that is whole,
/// a byte short, or a byte longer: a string that is cut has no mark, though its length was read.
fn prefixes(run: &mut Run) -> Compared {
    let mut random = run.random(14);
    for size in (0..=20usize).chain([127, 128, 300]) {
        for len in 1..=10 {
            let tenths = if len == 10 { 0..=255 } else { 0..=0 };
            for tenth in tenths {
                let mut prefix = uleb(size as u64, len);
                if len == 10 {
                    prefix[9] = tenth;
                }
                for text in [size, size + 1, size.div_ceil(2), 0] {
                    let input = [prefix.clone(), random_bytes(&mut random, text)].concat();
                    let asked = case(LengthPrefixedString, &input, 0, 0);
                    let answer = run.compare(&asked)?;
                    let read = tenth & 0x81 == 0 && text >= size;
                    assert_eq!(answer.number == 0, read, "{}", asked.call());
                }
            }
        }
    }
    Ok(())
}
