//! The groups of inputs on which the two sides of the string tables are compared.

pub mod hermes;
pub mod text;

use bisquepond::sys::LIMIT;
use harness::Random;

use super::case::reads::{read, OPS};
use super::case::strings::{self, part, ROW};
use super::differences;
use crate::case::Compared;
use crate::inputs::{bytes_of, random_bytes};
use crate::lent::Reserved;
use crate::run::Run;

pub fn compare(run: &mut Run) -> Compared {
    run.group("table reads, every length and cursor", short_tables)?;
    run.group("table reads, every value of two bytes", two_bytes)?;
    run.group("table reads, cut at every byte", cut_tables)?;
    run.group("table reads, lent tables of any size", lent_tables)?;
    run.group("table reads, counts to 2^32 - 1", far_counts)?;
    run.group("table reads, cursors past the end", past_the_end)?;
    run.group("table reads, 2^30 bytes and one more", longest_file)?;
    run.group("strings, all short kind runs", kind_runs)?;
    run.group("strings, one entry at the storage's end", one_entry)?;
    run.group("strings, one overflow pair", one_pair)?;
    run.group("strings, all orders of long and short", overflow_order)?;
    run.group("strings, lent rows of any size", lent_rows)?;
    run.group("strings, storages to 2^23 and 2^30 bytes", long_storages)?;
    run.group("one string's bytes, against docs/FORMAT.md", parts)?;
    hermes::compare(run)?;
    text::compare(run)?;
    if run.full {
        run.group("a whole file of 2^30 bytes", whole_file)?;
        run.group("strings of 2^30 bytes", longest_strings)?;
        run.group("10,000,000 strings", most_strings)?;
    }
    run.group("the differences that docs list", differences::listed)?;
    run.group("random", random)
}

/// Numbers far beyond any small table, at the edges of 32 bits and where four or eight times one leaves them.
const FAR: [u32; 14] = [
    (1 << 23) - 1,
    1 << 23,
    (1 << 29) - 1,
    1 << 29,
    (1 << 30) - 1,
    1 << 30,
    (1 << 30) + 1,
    (1 << 31) - 1,
    1 << 31,
    (1 << 31) + 1,
    u32::MAX - 3,
    u32::MAX - 2,
    u32::MAX - 1,
    u32::MAX,
];

/// Up to 33 bytes at every cursor, up to 9 entries, and tables that are short, fit and are longer.
fn short_tables(run: &mut Run) -> Compared {
    let mut random = run.random(1);
    for len in 0..=33 {
        let input = random_bytes(&mut random, len);
        for at in 0..=len {
            for op in OPS {
                for count in 0..=9 {
                    let fits = count as usize * op.width();
                    for lent in fits.saturating_sub(3)..=fits + 3 {
                        run.compare(&read(op, &input, at, count, lent))?;
                    }
                }
            }
        }
    }
    Ok(())
}

/// One entry, every value of each two of its bytes.
fn two_bytes(run: &mut Run) -> Compared {
    for op in OPS {
        let len = 4 * op.width();
        for first in 0..len {
            for second in first + 1..len {
                let mut input = [0x5A; 8];
                for n in 0..=u16::MAX {
                    [input[first], input[second]] = n.to_le_bytes();
                    run.compare(&read(op, &input[..len], 0, 1, 2))?;
                }
            }
        }
    }
    Ok(())
}

/// A hundred words from several cursors, cut at every byte: as many entries as are whole, one fewer and one more, and
/// all that the uncut table has.
fn cut_tables(run: &mut Run) -> Compared {
    let mut random = run.random(2);
    let input = random_bytes(&mut random, 8 + 400);
    for op in OPS {
        for at in [0, 1, 2, 3, 4, 7, 8] {
            for end in at..=at + 400 {
                let whole = (end - at) / (4 * op.width());
                let all = 100 / op.width();
                for count in [whole.saturating_sub(1), whole, whole + 1, all] {
                    run.compare(&read(op, &input[..end], at, count as u32, 101))?;
                }
            }
        }
    }
    Ok(())
}

/// Tables from none to more words than are asked for: too few rows are refused 4, and every word stays.
fn lent_tables(run: &mut Run) -> Compared {
    let mut random = run.random(3);
    let input = random_bytes(&mut random, 256);
    for op in OPS {
        for count in 0..=64 / op.width() as u32 + 1 {
            for lent in 0..=70 {
                for at in [0, 1, 255, 256] {
                    run.compare(&read(op, &input, at, count, lent))?;
                }
            }
        }
    }
    Ok(())
}

/// Counts that no file has: refused 4 with a small table, and 3 with one that has that many rows.
fn far_counts(run: &mut Run) -> Compared {
    let mut random = run.random(4);
    let huge = Reserved::new(1 << 33);
    if huge.is_none() {
        println!("table  no addresses for a table of 2^33 words here: refusal 3 is not compared for such counts");
    }
    for len in 0..=25 {
        let input = random_bytes(&mut random, len);
        for at in 0..=len + 1 {
            for op in OPS {
                for count in FAR {
                    run.compare(&read(op, &input, at, count, 9))?;
                    let Some(huge) = &huge else { continue };
                    let fits = count as usize * op.width();
                    for lent in [fits - 1, fits, fits + 1] {
                        read(op, &input, at, count, lent).compare_refused(huge)?;
                        run.equal();
                    }
                }
            }
        }
    }
    Ok(())
}

fn past_the_end(run: &mut Run) -> Compared {
    let input = [0x5A; 17];
    let far = [1 << 30, 1 << 32, 1 << 63, usize::MAX - 8, usize::MAX];
    for len in 0..=17 {
        for at in (len + 1..=len + 9).chain(far) {
            for op in OPS {
                for count in [0, 1, 2, 1 << 30, u32::MAX] {
                    for lent in [0, 1, 2, 4, 5] {
                        run.compare(&read(op, &input[..len], at, count, lent))?;
                    }
                }
            }
        }
    }
    Ok(())
}

/// Near both ends of the longest file that is read; one byte more is refused 1, whatever else is asked for.
fn longest_file(run: &mut Run) -> Compared {
    let mut random = run.random(5);
    let mut input = vec![0; LIMIT + 1];
    for byte in &mut input[LIMIT - 64..] {
        *byte = random.byte();
    }
    for len in [LIMIT, LIMIT + 1] {
        let near = len - 70..=len + 2;
        for at in (0..=3).chain(near).chain([usize::MAX]) {
            for op in OPS {
                for count in 0..=17 {
                    for lent in [0, 16, 17, 34] {
                        run.compare(&read(op, &input[..len], at, count, lent))?;
                    }
                }
            }
        }
    }
    Ok(())
}

pub const IDENTIFIER: u32 = 1 << 31;

pub fn small(utf16: bool, offset: u32, length: u32) -> u32 {
    assert!(offset < 1 << 23 && length < 256);
    utf16 as u32 | offset << 1 | length << 24
}

/// A storage in which byte i is i: a text of the Rust that isn't empty then says which bytes it was made of.
fn ruler(len: usize) -> Vec<u8> {
    assert!(len <= 128);
    (0..len as u8).collect()
}

/// All sequences of up to four runs of up to two strings, with up to seven strings, of which more or fewer are asked
/// for; and long runs, with empty ones between.
fn kind_runs(run: &mut Run) -> Compared {
    let storage = ruler(16);
    let entries: Vec<u32> = (0..7).map(|i| small(i % 3 == 0, i, 2)).collect();
    let alphabet = [0, 1, 2, IDENTIFIER, IDENTIFIER + 1, IDENTIFIER + 2];
    let all = strings::Case {
        count: 7,
        kinds: &[],
        small: &entries,
        overflow: &[],
        storage: &storage,
        lent: 7 * ROW,
    };
    for len in 0..=4 {
        for n in 0..alphabet.len().pow(len) {
            let run_at = |i| alphabet[n / alphabet.len().pow(i) % alphabet.len()];
            let kinds: Vec<u32> = (0..len).map(run_at).collect();
            let kinds = &kinds;
            for strings in 0..=7 {
                let small = &entries[..strings];
                for count in [0, 1, 3, strings as u32, strings as u32 + 1, u32::MAX] {
                    run.compare(&strings::Case { count, kinds, small, ..all })?;
                }
            }
        }
    }
    let most = IDENTIFIER - 1;
    let alphabet = [0, IDENTIFIER, 2, most, most - 1, IDENTIFIER | most, u32::MAX - 1];
    for first in alphabet {
        for second in alphabet {
            for third in alphabet {
                let kinds = &[first, second, third];
                run.compare(&strings::Case { kinds, ..all })?;
            }
        }
    }
    // Each bit of a length by itself.
    for kind in [0, IDENTIFIER] {
        for bit in 0..31 {
            let kinds = &[kind | 1 << bit, !kind & IDENTIFIER | 9];
            run.compare(&strings::Case { kinds, ..all })?;
        }
    }
    Ok(())
}

/// Every length, at every offset in and after a short storage and at the last there is; 255 takes a pair, which is
/// there or missing.
fn one_entry(run: &mut Run) -> Compared {
    for len in [0, 1, 2, 3, 4, 5, 9, 64, 127, 128] {
        let storage = ruler(len);
        let end = len as u32;
        let near = [end.saturating_sub(2), end.saturating_sub(1), end, end + 1];
        let far = [255, 256, (1 << 23) - 2, (1 << 23) - 1];
        let mut offsets: Vec<u32> = (0..=9).chain(near).chain(far).collect();
        offsets.sort();
        offsets.dedup();
        for offset in offsets {
            for length in 0..=255 {
                for utf16 in [false, true] {
                    for overflow in [&[][..], &[1], &[1, 2]] {
                        run.compare(&strings::Case {
                            count: 1,
                            kinds: &[1],
                            small: &[small(utf16, offset, length)],
                            overflow,
                            storage: &storage,
                            lent: ROW,
                        })?;
                    }
                }
            }
        }
    }
    Ok(())
}

/// Pairs whose offset, length, or their sum stands at the storage's end, at 2^31 or at 2^32.
fn one_pair(run: &mut Run) -> Compared {
    for len in [0, 1, 2, 3, 4, 5, 8, 9, 127, 128] {
        let storage = ruler(len);
        let end = len as u32;
        let near = (0..=9).chain([end.saturating_sub(1), end, end + 1, end + 2]);
        let far = [254, 255, 256].into_iter().chain(FAR);
        let mut numbers: Vec<u32> = near.chain(far).collect();
        numbers.sort();
        numbers.dedup();
        for &offset in &numbers {
            // Lengths that bring the end, doubled or not, to the storage's end if it is kept in 32 bits.
            let wraps = [end, end.wrapping_sub(1)].map(|end| end.wrapping_sub(offset));
            let halves = wraps.map(|length| length / 2 + (1 << 31));
            for length in numbers.iter().copied().chain(wraps).chain(halves) {
                for utf16 in [false, true] {
                    run.compare(&strings::Case {
                        count: 1,
                        kinds: &[IDENTIFIER + 1],
                        small: &[small(utf16, 3, 255)],
                        overflow: &[offset, length],
                        storage: &storage,
                        lent: ROW + 3,
                    })?;
                }
            }
        }
    }
    Ok(())
}

/// Up to six entries, each long or short, UTF-16 or not; pairs for none to all of them, and half a pair. The offset
/// field of a long entry names another pair than the next.
fn overflow_order(run: &mut Run) -> Compared {
    let storage = ruler(64);
    let pairs = [5, 1, 9, 2, 14, 3, 20, 4, 27, 5, 35, 6, 44, 7];
    for strings in 0..=6 {
        for n in 0..1 << (2 * strings) {
            let entry = |i: u32| match n >> (2 * i) & 3 {
                kind if kind < 2 => small(kind == 1, 50 + i, 2),
                kind => small(kind == 3, 5 - i, 255),
            };
            let entries: Vec<u32> = (0..strings).map(entry).collect();
            for words in 0..=2 * strings as usize + 2 {
                for count in [strings.saturating_sub(1), strings, strings + 1] {
                    run.compare(&strings::Case {
                        count,
                        kinds: &[2, IDENTIFIER + 2, 9],
                        small: &entries,
                        overflow: &pairs[..words],
                        storage: &storage,
                        lent: 6 * ROW,
                    })?;
                }
            }
        }
    }
    Ok(())
}

/// Rows from none to more than there are strings; a pair that is missing is not looked for where rows are.
fn lent_rows(run: &mut Run) -> Compared {
    let storage = ruler(32);
    for strings in 0..=9 {
        for long in 0..=strings {
            let mut entries: Vec<u32> = (0..strings as u32).map(|i| small(false, i, 3)).collect();
            entries.extend([small(true, 0, 255)].repeat((long == strings) as usize));
            if long < strings {
                entries[long] = small(true, 0, 255);
            }
            for lent in 0..=(entries.len() + 2) * ROW {
                for count in [0, 1, 3, strings as u32, u32::MAX] {
                    for overflow in [&[][..], &[7, 2]] {
                        run.compare(&strings::Case {
                            count,
                            kinds: &[IDENTIFIER + 3],
                            small: &entries,
                            overflow,
                            storage: &storage,
                            lent,
                        })?;
                    }
                }
            }
        }
    }
    Ok(())
}

/// Storages that end where the offset field does, and the longest that is read, each with strings around its end; one
/// byte more than 2^30 is refused 1.
fn long_storages(run: &mut Run) -> Compared {
    let mut random = run.random(6);
    for len in
        [300, 70_000, (1 << 23) - 2, (1 << 23) - 1, 1 << 23, (1 << 23) + 100, LIMIT, LIMIT + 1]
    {
        let mut storage = vec![0; len];
        let (begin, end) = (len.min(600), len - len.min(600));
        let edges = [0..begin, end..len];
        for edge in edges {
            for byte in &mut storage[edge] {
                *byte = random.byte();
            }
        }
        for back in (0..=4).chain([253, 254, 255, 256, 509]) {
            let offset = (len - back.min(len)) as u32;
            let mut entries = Vec::new();
            let mut pairs = Vec::new();
            for length in (0..=5).chain(126..=130).chain(252..=258) {
                for utf16 in [false, true] {
                    let near = offset.min((1 << 23) - 1);
                    entries.push(small(utf16, near, length.min(254)));
                    entries.push(small(utf16, near, 255));
                    pairs.extend([offset, length]);
                }
            }
            for lent in [0, entries.len() * ROW - 1, entries.len() * ROW] {
                run.compare(&strings::Case {
                    count: entries.len() as u32,
                    kinds: &[3, IDENTIFIER + 5, 0, IDENTIFIER, 40],
                    small: &entries,
                    overflow: &pairs,
                    storage: &storage,
                    lent,
                })?;
            }
        }
    }
    Ok(())
}

/// Rows of any numbers: parts in, at and past the storage's end, sums past 2^32, every kind of mark, rows that aren't
/// there and rows that aren't whole.
fn parts(run: &mut Run) -> Compared {
    let numbers: Vec<u32> = (0..=12).chain(FAR).collect();
    for len in 0..=9 {
        let storage = ruler(len);
        for &start in &numbers {
            let wraps = [len as u32, 0].map(|end| end.wrapping_sub(start));
            for length in numbers.iter().copied().chain(wraps) {
                for invalid in [0, 1, 2, 1 << 31, u32::MAX] {
                    for marks in [0, 3, u32::MAX] {
                        let row = [start, length, invalid, marks];
                        run.compare(&part(&storage, &row, 0))?;
                    }
                }
            }
        }
        let rows: Vec<u32> = (0..4).flat_map(|i| [i, 2, i & 1, 0]).collect();
        let far = [1 << 30, 1 << 32, 1 << 62, (1 << 62) + 1, 1 << 63, usize::MAX];
        for words in 0..=rows.len() {
            for index in (0..=5).chain(far) {
                run.compare(&part(&storage, &rows[..words], index))?;
            }
        }
    }
    let storage = vec![0; LIMIT + 1];
    let end = storage.len() as u32;
    for start in [0, 1, end - 1, end, end + 1] {
        for length in [0, 1, 2, end - 1, end, end + 1, u32::MAX] {
            run.compare(&part(&storage, &[start, length, 0, 0], 0))?;
        }
    }
    Ok(())
}

/// All words of the longest file at once, and as many from one byte on, of which the last is cut.
fn whole_file(run: &mut Run) -> Compared {
    let mut random = run.random(7);
    let input: Vec<u8> = (0..LIMIT / 8).flat_map(|_| random.word().to_le_bytes()).collect();
    for op in OPS {
        let all = LIMIT / 4 / op.width();
        for (at, count) in [(0, all), (1, all)] {
            run.compare(&read(op, &input, at, count as u32, count * op.width()))?;
        }
    }
    Ok(())
}

/// Texts of a whole storage of 2^30 bytes, and strings that end after it.
fn longest_strings(run: &mut Run) -> Compared {
    let mut storage = vec![b'a'; LIMIT];
    storage[LIMIT - 1] = b'z';
    storage[0] = b'b';
    let end = LIMIT as u32;
    for [offset, length] in [[0, end], [0, end + 2]] {
        for utf16 in [false, true] {
            run.compare(&strings::Case {
                count: 1,
                kinds: &[],
                small: &[small(utf16, 0, 255)],
                overflow: &[offset, if utf16 { length / 2 } else { length }],
                storage: &storage,
                lent: ROW,
            })?;
        }
    }
    Ok(())
}

/// Ten million strings of up to 254 bytes in 16 MiB, one in 64 long; all pairs there, and the last missing.
fn most_strings(run: &mut Run) -> Compared {
    let mut random = run.random(8);
    let storage = random_bytes(&mut random, 16 << 20);
    let strings = 10_000_000;
    let mut pairs = Vec::new();
    let mut entry = || {
        let word = random.word();
        if word & 63 == 0 {
            pairs.extend([(word >> 8) as u32 % (16 << 20), (word >> 40) as u32 % 600]);
            return word as u32 | 0xFF00_0000;
        }
        small(word >> 6 & 1 == 1, (word >> 8) as u32 % (1 << 23), (word >> 32) as u32 % 40)
    };
    let entries: Vec<u32> = (0..strings).map(|_| entry()).collect();
    let kinds: Vec<u32> =
        (0..strings / 50).map(|_| random.word() as u32 & (IDENTIFIER | 127)).collect();
    for words in [pairs.len(), pairs.len() - 2] {
        run.compare(&strings::Case {
            count: u32::MAX,
            kinds: &kinds,
            small: &entries,
            overflow: &pairs[..words],
            storage: &storage,
            lent: strings * ROW + 3,
        })?;
    }
    Ok(())
}

fn random(run: &mut Run) -> Compared {
    let (mut random, mut hermes, mut texts) = (run.random(9), run.random(10), run.random(22));
    while run.more() {
        any_read(run, &mut random)?;
        for _ in 0..4 {
            run.compare(&any_case(&mut random).case())?;
        }
        hermes::any(run, &mut hermes)?;
        text::any(run, &mut texts)?;
    }
    Ok(())
}

/// Inputs up to 200 bytes, read from any cursor: mostly as many entries as there are, or nearly, into a table that
/// mostly has room.
fn any_read(run: &mut Run, random: &mut Random) -> Compared {
    let len = random.below(200);
    let input = random_bytes(random, len);
    for op in OPS {
        let at = match random.below(16) {
            0 => len + 1 + random.below(4),
            1 => len,
            _ => random.below(len + 1),
        };
        let whole = len.saturating_sub(at) / (4 * op.width());
        let count = match random.below(8) {
            0 => random.word() as u32,
            1 => whole as u32 + 1,
            2 | 3 => whole as u32,
            _ => random.below(whole + 2) as u32,
        };
        let fits = (count as usize).min(60) * op.width();
        let lent = match random.below(8) {
            0 => fits.saturating_sub(1),
            1 => fits,
            _ => fits + random.below(8),
        };
        run.compare(&read(op, &input, at, count, lent))?;
    }
    Ok(())
}

/// What a case of strings is made of.
pub struct Made {
    count: u32,
    kinds: Vec<u32>,
    entries: Vec<u32>,
    pairs: Vec<u32>,
    storage: Vec<u8>,
    lent: usize,
}

impl Made {
    pub fn case(&self) -> strings::Case<'_> {
        strings::Case {
            count: self.count,
            kinds: &self.kinds,
            small: &self.entries,
            overflow: &self.pairs,
            storage: &self.storage,
            lent: self.lent,
        }
    }
}

/// Up to 24 strings of a storage of up to 300 bytes: text of one to four bytes a letter, UTF-16 with surrogates, or
/// any bytes. Most strings end in the storage, and most pairs are there.
pub fn any_case(random: &mut Random) -> Made {
    let storage = any_storage(random);
    let strings = random.below(25);
    let mut pairs = Vec::new();
    let mut entries = Vec::new();
    for _ in 0..strings {
        let [offset, length] = any_span(random, storage.len() as u32);
        let utf16 = random.below(2) as u32;
        if random.below(4) == 0 {
            entries.push(random.word() as u32 & 0x00FF_FFFE | 0xFF00_0000 | utf16);
            pairs.extend([offset, length]);
        } else {
            let (offset, length) = (offset & 0x7F_FFFF, length.min(254));
            entries.push(utf16 | offset << 1 | length << 24);
        }
    }
    match random.below(8) {
        0 => pairs.truncate(random.below(pairs.len() + 1)),
        1 => pairs.push(random.word() as u32),
        _ => (),
    }
    let most = random.pick(&[2, 3, 3, 30]);
    let runs = random.below(9);
    let run_of = |random: &mut Random| match random.below(16) {
        0 => random.word() as u32,
        _ => random.below(most) as u32 | (random.byte() as u32 & 1) << 31,
    };
    let kinds: Vec<u32> = (0..runs).map(|_| run_of(random)).collect();
    let count = match random.below(8) {
        0 => random.word() as u32,
        1 => random.below(strings + 1) as u32,
        _ => strings as u32,
    };
    let lent = match random.below(16) {
        0 => random.below(strings * ROW + 1),
        _ => strings * ROW + random.below(9),
    };
    Made { count, kinds, entries, pairs, storage, lent }
}

fn any_storage(random: &mut Random) -> Vec<u8> {
    let most = random.pick(&[0, 3, 40, 300]);
    let len = random.below(most + 1);
    let letters =
        ['a', '<', '\u{E9}', '\u{20AC}', '\u{D7FF}', '\u{FFFD}', '\u{10000}', '\u{10FFFF}'];
    let mut storage = Vec::with_capacity(len + 4);
    let flavour = random.below(5);
    while storage.len() < len {
        let letter = random.pick(&letters);
        match flavour {
            0 => storage.push(random.byte()),
            1 => storage.extend(letter.encode_utf8(&mut [0; 4]).bytes()),
            2 => storage
                .extend(bytes_of(&[0xDC00_D800, 0xD800_DC00, 0xDFFF_DBFF][random.below(3)..][..1])),
            3 => storage.extend(
                letter.encode_utf16(&mut [0; 2]).iter().flat_map(|unit| unit.to_le_bytes()),
            ),
            _ => storage
                .push(random.pick(&[0xC3, 0xA9, 0xE2, 0x82, 0xAC, 0xF0, 0x9F, 0xED, 0xA0, b'a'])),
        }
    }
    storage.truncate(len);
    storage
}

/// Offset and length that mostly end in the storage, at its end, or just after it.
fn any_span(random: &mut Random, end: u32) -> [u32; 2] {
    let offset = match random.below(16) {
        0 => random.pick(&FAR),
        1 => end.wrapping_sub(random.below(3) as u32),
        _ => random.below(end as usize + 2) as u32,
    };
    let left = end.saturating_sub(offset);
    let length = match random.below(16) {
        0 => random.pick(&FAR),
        1 => left,
        2 => left / 2,
        3 => left + 1,
        4 => left / 2 + 1,
        5 => 0u32.wrapping_sub(offset),
        _ => random.below(left as usize + 1) as u32 % 24,
    };
    [offset, length]
}
