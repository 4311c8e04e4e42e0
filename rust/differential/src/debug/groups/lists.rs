//! The three lists by themselves: cut at every byte, counted falsely, in any order, and all the shortest.

use harness::Random;

use super::{good, on, parts_alone as section, Section};
use crate::case::{code, Compared};
use crate::debug::case::ROWS;
use crate::inputs::{any_words, sleb, uleb};
use crate::run::Run;

/// Enough for the lists here, which are shorter than those of `plenty`.
fn some(random: &mut Random, rows: usize) -> [Vec<u32>; 4] {
    ROWS.map(|row| any_words(random, rows * row))
}

/// The same signed number, in some more bytes.
fn stretched(number: &[u8], more: usize) -> Vec<u8> {
    let mut bytes = number.to_vec();
    for _ in 0..more {
        let last = bytes.last_mut().unwrap();
        let sign = if *last & 0x40 == 0 { 0 } else { 0x7F };
        *last |= 0x80;
        bytes.push(sign);
    }
    bytes
}

fn part(section: &mut Section, i: usize) -> &mut Vec<Vec<u8>> {
    match i {
        0 => &mut section.scopes,
        1 => &mut section.callees,
        _ => &mut section.strings,
    }
}

/// Each part cut at every byte behind a header that agrees with it, so that what is whole before the cut is read.
/// Numbers of several bytes let a cut fall within them.
pub fn cut(run: &mut Run) -> Compared {
    let mut random = run.random(10);
    let lent = some(&mut random, 40);
    for _ in 0..250 {
        let mut whole = good(&mut random);
        for number in whole.scopes.iter_mut().chain(&mut whole.callees) {
            *number = stretched(number, random.pick(&[0, 0, 0, 1, 2, 5]));
        }
        for i in 0..3 {
            let mut changed = whole.clone();
            let bytes = part(&mut changed, i).concat();
            for len in 0..=bytes.len() {
                *part(&mut changed, i) = vec![bytes[..len].to_vec()];
                let (file, offset) = changed.bytes();
                on(run, &file, offset, &lent)?;
            }
        }
    }
    Ok(())
}

/// Counts around the number of bytes left, negative ones, and those of which only the low bits would do.
pub fn counts(run: &mut Run) -> Compared {
    let mut random = run.random(11);
    let lent = some(&mut random, 100);
    for left in 0..=70 {
        let near = (-2..=2).map(|n| left + n);
        let low = [1 << 32, -1 << 32, 1 << 62, i64::MIN].map(|high: i64| high.wrapping_add(left));
        let far = [-1, -64, -65, i64::MIN, i64::MAX];
        for count in near.chain(low).chain(far) {
            for len in [1, 2, 9, 10, 11] {
                let short = |random: &mut Random| random.below(3) as u8;
                let long = |random: &mut Random| random.pick(&[0, 1, 2, 0x7F, 0x80, 0x81]);
                for byte in [short, long] {
                    let rest: Vec<u8> = (0..left).map(|_| byte(&mut random)).collect();
                    let number = sleb(count, len);
                    let mut scopes = vec![0, 0, 0, 0x7F, 1];
                    scopes.extend(number.iter().chain(&rest));
                    let callees = [number, rest].concat();
                    let (file, offset) = section(&scopes, &callees, b"\x01a\x00").bytes();
                    on(run, &file, offset, &lent)?;
                }
            }
        }
    }
    Ok(())
}

/// Prefixes in one to eleven bytes, right and wrong, with their text behind them; as first, second and last string.
pub fn prefixes(run: &mut Run) -> Compared {
    let mut random = run.random(12);
    let lent = some(&mut random, 400);
    let scopes = [0, 0, 4, 0, 1, 2, 3];
    let callees = [4, 9, 0, 8, 1, 7, 2, 6, 3];
    for size in [0, 1, 2, 63, 64, 127, 128, 300] {
        let text: Vec<u8> = (0..size).map(|_| random.pick(b"ab\xC3\xA9\xFF")).collect();
        let size = size as u64;
        let low = [1 << 32, 1 << 62, 1 << 63].map(|high| size | high);
        let near = [size, size + 1, size + 2, size + 6, size.saturating_sub(1)];
        for said in near.into_iter().chain(low).chain([u64::MAX]) {
            for len in 1..=11 {
                for place in 0..3 {
                    let mut strings = vec![b"\x02xy".to_vec(), vec![0]];
                    strings.insert(place, [uleb(said, len), text.clone()].concat());
                    let (file, offset) = section(&scopes, &callees, &strings.concat()).bytes();
                    on(run, &file, offset, &lent)?;
                }
            }
        }
    }
    Ok(())
}

/// All offsets of the parts and all sizes, within, at and past the end, over six bytes of data: parts in any order,
/// sharing bytes, reversed and outside.
pub fn offsets(run: &mut Run) -> Compared {
    let mut random = run.random(13);
    let lent = some(&mut random, 12);
    let noise: [u8; 6] = std::array::from_fn(|_| random.below(4) as u8);
    for data in [[0, 0, 1, 0, 1, 0], [1, 1, 0, 1, 1, 1], [0; 6], noise] {
        for filenames in 0..2 {
            for number in 0..9u32.pow(4) {
                let [scopes, callees, strings, size] =
                    [1, 9, 81, 729].map(|unit| number / unit % 9);
                let mut file = vec![0xEE];
                for word in [filenames, 0, 0, scopes, callees, strings, size] {
                    file.extend(word.to_le_bytes());
                }
                file.resize(file.len() + 8 * filenames as usize, 1);
                file.extend(data);
                on(run, &file, 1, &lent)?;
            }
        }
    }
    Ok(())
}

/// Every part of up to `longest` of these bytes, in turn.
fn every(bytes: &[u8], longest: u32, mut compare: impl FnMut(&[u8]) -> Compared) -> Compared {
    for len in 0..=longest {
        for number in 0..bytes.len().pow(len) {
            let digit = |i| bytes[number / bytes.len().pow(i) % bytes.len()];
            compare(&(0..len).map(digit).collect::<Vec<u8>>())?;
        }
    }
    Ok(())
}

/// All the shortest parts: of two bytes of any kind, and of five bytes that the tests on them tell apart.
pub fn shortest(run: &mut Run) -> Compared {
    let mut random = run.random(14);
    let lent = some(&mut random, 6);
    let telling = [0, 1, 2, 3, 0x3F, 0x40, 0x7F, 0x80, 0xFF];
    let any: Vec<u8> = (0..=255).collect();
    let known = b"\x01a\x00";
    every(&any, 2, |part| {
        let (file, offset) = section(part, part, part).bytes();
        on(run, &file, offset, &lent)?;
        Ok(())
    })?;
    every(&telling, 5, |part| {
        let (file, offset) = section(part, part, known).bytes();
        on(run, &file, offset, &lent)?;
        Ok(())
    })?;
    every(&telling, 4, |part| {
        let (file, offset) = section(&[0, 0, 1, 1], &[2, 5, 1, 5, 0], part).bytes();
        on(run, &file, offset, &lent)?;
        Ok(())
    })
}

/// The four tables a row short, a word short, just right and a word longer, in every combination; and that 1 and 3
/// come before 4.
pub fn combined(run: &mut Run) -> Compared {
    let mut random = run.random(15);
    let plenty = some(&mut random, 40);
    let none: [Vec<u32>; 4] = Default::default();
    let mut done = 0;
    while done < 12 {
        let (file, offset) = good(&mut random).bytes();
        let counts = on(run, &file, offset, &plenty)?.counts;
        if counts.contains(&0) {
            continue;
        }
        done += 1;
        for number in 0..4usize.pow(4) {
            let choice = [1, 4, 16, 64].map(|unit| number / unit % 4);
            let lent = std::array::from_fn(|i| {
                let exact = counts[i] * ROWS[i];
                let words = [exact - ROWS[i], exact - 1, exact, exact + 1][choice[i]];
                plenty[i][..words].to_vec()
            });
            let answer = on(run, &file, offset, &lent)?;
            let short = choice.iter().any(|&choice| choice < 2);
            let right = if short { Err((4, 0)) } else { Ok(0) };
            assert_eq!(answer.code, code(right));
        }
        let cut = &file[..offset as usize + 27];
        assert_eq!(on(run, cut, offset, &none)?.code, code(Err((3, 0))));
    }
    Ok(())
}
