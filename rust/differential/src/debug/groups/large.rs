//! Sections with many rows, as files have them.

use bisquepond::sys::LIMIT;
use harness::Random;

use super::{on, Section};
use crate::case::Compared;
use crate::debug::case::ROWS;
use crate::inputs::{any_words, sleb};
use crate::run::Run;

/// The order of callees.
#[derive(Clone, Copy)]
enum Order {
    Rising,
    Falling,
    Random,
    /// Ten addresses, each many times.
    Equal,
    /// Rising but for the last.
    LastFirst,
}

/// How many of each.
struct Sizes {
    strings: usize,
    scopes: usize,
    callees: usize,
    order: Order,
}

/// Strings of 0 to 20 bytes, scopes with 0 to 6 names; of both kinds of name some are unknown.
fn section(random: &mut Random, sizes: &Sizes) -> Section {
    let mut strings = Vec::new();
    for _ in 0..sizes.strings {
        let len = random.below(21);
        strings.push(len as u8);
        strings.extend((0..len).map(|_| random.pick(b"abcdefgh\xC3\xA9\xFF")));
    }
    let name = |random: &mut Random| sleb(random.below(sizes.strings + 2) as i64 - 1, 1);
    let mut scopes = Vec::new();
    for _ in 0..sizes.scopes {
        let parent = random.below(scopes.len() + 2) as i64 - 1;
        scopes.extend(sleb(parent, 1));
        scopes.push(random.below(4) as u8);
        let names = random.below(7);
        scopes.push(names as u8);
        for _ in 0..names {
            scopes.extend(name(random));
        }
    }
    let count = sizes.callees as i64;
    let mut callees = sleb(count, 1);
    for i in 0..count {
        let address = match sizes.order {
            Order::Rising => 3 * i,
            Order::Falling => 3 * (count - i),
            Order::Random => random.below(2 * sizes.callees) as i64,
            Order::Equal => random.below(10) as i64,
            Order::LastFirst => (i + 1) % count,
        };
        callees.extend(sleb(address, 1));
        callees.extend(name(random));
    }
    Section {
        before: 1 + random.below(100),
        filenames: 3,
        storage: 50,
        regions: 2,
        lines: 1000,
        scopes: vec![scopes],
        callees: vec![callees],
        strings: vec![strings],
    }
}

/// With room to spare, with just enough, and with each table a row short.
fn lent(run: &mut Run, random: &mut Random, sizes: &Sizes) -> Compared {
    let (file, offset) = section(random, sizes).bytes();
    let rows = [sizes.strings, sizes.scopes, 6 * sizes.scopes, sizes.callees];
    let mut lent = std::array::from_fn(|i| any_words(random, (rows[i] + 3) * ROWS[i]));
    let counts = on(run, &file, offset, &lent)?.counts;
    assert_eq!(counts[..2], rows[..2], "the section is not a good one");
    for i in 0..4 {
        lent[i].truncate(counts[i] * ROWS[i]);
    }
    on(run, &file, offset, &lent)?;
    for i in 0..4 {
        if counts[i] > 0 {
            let last = lent[i].pop().unwrap();
            on(run, &file, offset, &lent)?;
            lent[i].push(last);
        }
    }
    Ok(())
}

pub fn many(run: &mut Run) -> Compared {
    let mut random = run.random(16);
    let sizes = |strings, scopes, callees, order| Sizes { strings, scopes, callees, order };
    let some = [
        sizes(70_000, 0, 0, Order::Rising),
        sizes(300, 20_000, 0, Order::Rising),
        sizes(300, 0, 70_000, Order::Rising),
        sizes(300, 0, 3_000, Order::Equal),
        sizes(300, 10, 700, Order::Falling),
        sizes(300, 10, 700, Order::Random),
        sizes(300, 10, 700, Order::LastFirst),
        // one pass keeps 65,536 addresses: as many, one more, and some passes
        sizes(300, 0, 65_536, Order::Falling),
        sizes(300, 0, 65_537, Order::LastFirst),
        sizes(300, 0, 140_000, Order::Random),
        sizes(300, 0, 140_000, Order::Equal),
    ];
    for sizes in &some {
        lent(run, &mut random, sizes)?;
    }
    if run.full {
        let full = [
            sizes(1_000_000, 1_000_000, 1_000_000, Order::Rising),
            sizes(300, 10, 1_000_000, Order::Falling),
            sizes(300, 10, 1_000_000, Order::Random),
            sizes(300, 10, 1_000_000, Order::LastFirst),
        ];
        for sizes in &full {
            lent(run, &mut random, sizes)?;
        }
        longest_string(run, &mut random)?;
    }
    Ok(())
}

/// One string that fills the longest file, and one that would need a byte more.
fn longest_string(run: &mut Run, random: &mut Random) -> Compared {
    let table = ROWS.map(|row| any_words(random, row));
    let before = 1 + 28 + 5;
    let size = LIMIT - before;
    let mut file = vec![b'a'; LIMIT];
    let data = (size + 5) as u32;
    for (word, number) in [0, 0, 0, 0, 0, 0, data].into_iter().enumerate() {
        file[1 + 4 * word..][..4].copy_from_slice(&u32::to_le_bytes(number));
    }
    for said in [size, size + 1] {
        for i in 0..5 {
            let more = if i < 4 { 0x80 } else { 0 };
            file[29 + i] = (said >> (7 * i)) as u8 & 0x7F | more;
        }
        let counts = on(run, &file, 1, &table)?.counts;
        assert_eq!(counts[0] == 1, said == size);
    }
    Ok(())
}
