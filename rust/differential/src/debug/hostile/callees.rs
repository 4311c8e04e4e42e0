//! Callees in orders that are made to take long. Addresses that don't rise are gone through in passes, so that their
//! limit is by passes: docs/PERFORMANCE.md says why.

use bisquepond::sys::LIMIT;
use harness::Random;

use super::{compare, header, same, NO_WORDS, OFFSET};
use crate::case::Compared;
use crate::debug::case::{make as call, Told};
use crate::exact::with_tenth;
use crate::hostile::{rows_are, size, Soak};
use crate::inputs::ten;

/// An order, and the address of entry `i` where there are at most `most`.
type Order = (&'static str, fn(&mut Random, usize, usize) -> u32);

const ORDERS: [Order; 7] = [
    ("rising", |_, i, _| i as u32),
    ("all equal", |_, _, _| 7),
    ("two in turn", |_, i, _| [14, 7][i % 2]),
    ("rising, the last ones first", |_, i, most| (i + most / 16) as u32 % (most / 8) as u32),
    ("random", |random, _, most| random.below(most) as u32),
    ("spread over 32 bits", |random, _, _| random.word() as u32),
    ("falling", |_, i, most| (most - i) as u32),
];

/// The orders whose rows are worked out beside, since there are few or they stand as they are: the order, the power of
/// two of the bytes, and how many passes the reader makes over them.
const WORKED_OUT: [(usize, u32, usize); 3] = [(0, 30, 1), (1, 26, 2), (2, 26, 3)];

/// How many addresses a pass keeps (docs/DECISIONS.md): addresses that don't rise take one more pass than this goes
/// into the entries.
const KEPT: usize = 65_536;

/// Where the part begins.
const BEGIN: usize = 60;

pub fn soak(soak: &mut Soak) -> Compared {
    for (order, power, passes) in WORKED_OUT {
        worked_out(soak, ORDERS[order], power, passes)?;
    }
    for (bytes, power) in [(1 << 20, 20), (1 << 22, 22), (1 << 24, 24)] {
        for order in ORDERS {
            let mut random = soak.random(6);
            let passes = bytes / 4 / KEPT + 1;
            let name = format!("callees {}, 2^{power} bytes", order.0);
            soak.case(&name, size(2 * bytes * passes, 60 * bytes), |file| {
                let entries = make(file, bytes, order, &mut random);
                compare(file, [2, 0, 0, 2 * entries])
            })?;
        }
    }
    for order in [ORDERS[0], ORDERS[1], ORDERS[4], ORDERS[6]] {
        last_lost(soak, order)?;
    }
    falling(soak)
}

/// A section of so many bytes: one string, which all callees name. Answers how many there are.
fn make(file: &mut Vec<u8>, len: usize, (_, address): Order, random: &mut Random) -> usize {
    file.clear();
    file.resize(BEGIN + 10, 0);
    let mut count = 0;
    while file.len() + 8 <= len {
        sleb(file, address(random, count, len / 2));
        file.push(0);
        count += 1;
    }
    file[BEGIN..BEGIN + 10].copy_from_slice(&ten(count as u64));
    file.push(0);
    let size = (file.len() - BEGIN) as u32;
    header(file, BEGIN, [0, 0, size - 1], size);
    count
}

/// An address in as few bytes as it needs.
fn sleb(file: &mut Vec<u8>, mut address: u32) {
    while address >= 64 {
        file.push(address as u8 | 0x80);
        address >>= 7;
    }
    file.push(address as u8);
}

/// Rows that are known without the Rust.
fn worked_out(soak: &mut Soak, order: Order, power: u32, passes: usize) -> Compared {
    let bytes = 1 << power;
    let mut random = soak.random(7);
    let name = format!("callees {}, 2^{power} bytes", order.0);
    soak.case(&name, size(2 * bytes * passes, 3 * bytes), |file| {
        let entries = make(file, bytes, order, &mut random);
        let expected: usize = match order.0 {
            "rising" => entries,
            "all equal" => 1,
            _ => 2,
        };
        let (mut strings, mut rows) = (vec![7; 2], vec![7; 2 * expected]);
        let mut tables = NO_WORDS;
        tables[0] = (strings.as_mut_ptr(), 2);
        tables[3] = (rows.as_mut_ptr(), rows.len());
        let answer = call(file, OFFSET as u32, tables);
        let right = |i: usize| if expected == entries { i } else { 7 * (i + 1) };
        rows_are(&rows, 2, |i, row| row == [right(i) as u32, 0])?;
        same(answer?, Told { code: 0, counts: [1, 0, 0, expected], mark: 1 })
    })
}

/// Callees in an order, of which the last name alone has lost bits, however many passes there are.
fn last_lost(soak: &mut Soak, order: Order) -> Compared {
    let bytes = 1 << 22;
    let mut random = soak.random(9);
    let passes = bytes / 4 / KEPT + 1;
    let name = format!("callees {}, 2^22 bytes, the last lost bits", order.0);
    soak.case(&name, size(2 * bytes * passes, 60 * bytes), |file| {
        let entries = make(file, bytes, order, &mut random);
        // Before the string and its own last byte: the name in ten bytes, and the string again.
        file.truncate(file.len() - 2);
        file.extend(with_tenth(0, 0x7E));
        file.push(0);
        let size = (file.len() - BEGIN) as u32;
        header(file, BEGIN, [0, 0, size - 1], size);
        let words = compare(file, [2, 0, 0, 2 * entries])?;
        match words.ends_with("bits lost") {
            true => Ok(words),
            false => Err(format!("{words}, though the last name lost bits").into()),
        }
    })
}

/// What is known to take hours is run where all is asked for.
fn falling(soak: &mut Soak) -> Compared {
    let order = ORDERS[6];
    let name = format!("callees {}, 2^30 bytes", order.0);
    if !soak.full {
        println!(
            "debug    {name:<60} not run without --full: see docs/PERFORMANCE.md for its bound"
        );
        return Ok(());
    }
    let mut random = soak.random(8);
    soak.case(&name, size(2 * LIMIT, 16 * LIMIT), |file| {
        let entries = make(file, LIMIT, order, &mut random);
        compare(file, [2, 0, 0, 2 * entries])
    })
}
