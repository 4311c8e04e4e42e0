//! The groups of strings decoded in Hermes mode.

use bisquepond::sys::LIMIT;
use harness::Random;

use super::super::case::hermes::Hermes;
use super::super::case::strings::{Case, ROW};
use super::{any_span, any_storage, ruler, small, Made, FAR, IDENTIFIER};
use crate::case::{code, Compare as _, Compared, Refusal};
use crate::inputs::random_bytes;
use crate::lent::Reserved;
use crate::run::Run;

pub fn compare(run: &mut Run) -> Compared {
    run.group("Hermes: worked cases", worked)?;
    run.group("Hermes: all short kind runs", kind_runs)?;
    run.group("Hermes: empty runs at every place", empty_runs)?;
    run.group("Hermes: long runs, sums past 2^32", long_runs)?;
    run.group("Hermes: all short tables of pairs", pairs)?;
    run.group("Hermes: every bit of a pair's number", numbers)?;
    run.group("Hermes: one entry at the storage's end", one_entry)?;
    run.group("Hermes: one pair at the storage's end", one_pair)?;
    run.group("Hermes: lent rows of any size", lent_rows)?;
    run.group("Hermes: rows that can't be written", unwritten)?;
    run.group("Hermes: storages to 2^23 and 2^30 bytes", long_storages)?;
    run.group("Hermes: where both modes are one", both)?;
    run.group("Hermes: any tables", any_tables)?;
    if run.full {
        run.group("Hermes: 10,000,000 strings", most_strings)?;
    }
    Ok(())
}

/// An entry that takes the pair of this number.
pub fn long(utf16: bool, number: u32) -> u32 {
    small(utf16, number, 255)
}

/// Strings of nothing yet, with rows for nine.
const NONE: Case<'_> =
    Case { count: u32::MAX, kinds: &[], small: &[], overflow: &[], storage: &[], lent: 9 * ROW };

/// One call in Hermes mode, and what must come of it, written out by hand.
pub struct Worked {
    pub case: Case<'static>,
    pub rows: Result<&'static [[u32; 4]], Refusal>,
}

const LONG: u32 = 255 << 24;
const AB: Case<'_> = Case { storage: b"abcd", ..NONE };
/// Three strings of a byte each.
const THREE: Case<'_> = Case { small: &[1 << 24, 1 << 24 | 2, 1 << 24 | 4], ..AB };

/// What tells the modes apart, the smallest of each kind.
pub const WORKED: &[Worked] = &[
    // The fields of two entries name each other's pair.
    Worked {
        case: Case { small: &[LONG | 2, LONG], overflow: &[0, 1, 1, 2], ..AB },
        rows: Ok(&[[1, 2, 0, 0], [0, 1, 0, 0]]),
    },
    // One pair for three strings, the last in UTF-16; another one for none.
    Worked {
        case: Case { small: &[LONG | 2, LONG | 2, LONG | 3], overflow: &[9, 9, 0, 2], ..AB },
        rows: Ok(&[[0, 2, 0, 0], [0, 2, 0, 0], [0, 4, 0, 1]]),
    },
    // A short entry takes none, and doesn't count.
    Worked {
        case: Case { small: &[3 << 24 | 2, LONG], overflow: &[2, 2], ..AB },
        rows: Ok(&[[1, 3, 0, 0], [2, 2, 0, 0]]),
    },
    // The number is one past the pairs; half a pair is none; the first entry that has none is the place.
    Worked { case: Case { small: &[LONG, LONG | 2], overflow: &[0, 1], ..AB }, rows: Err((8, 1)) },
    Worked {
        case: Case { small: &[LONG, LONG | 2], overflow: &[0, 1, 1], ..AB },
        rows: Err((8, 1)),
    },
    Worked {
        case: Case { small: &[LONG | 4, LONG | 4, LONG], overflow: &[0, 1], ..AB },
        rows: Err((8, 0)),
    },
    // A pair past the storage is there: the string is invalid, and no refusal.
    Worked {
        case: Case { small: &[LONG | 2 | 1], overflow: &[0, 1, 4, 0], ..AB },
        rows: Ok(&[[0, 0, 1, 1]]),
    },
    // Entries past the count are not looked at.
    Worked { case: Case { count: 1, small: &[1 << 24, LONG], ..AB }, rows: Ok(&[[0, 1, 0, 0]]) },
    // P7: the empty run names no string.
    Worked {
        case: Case { kinds: &[1, IDENTIFIER, 1], ..THREE },
        rows: Ok(&[[0, 1, 0, 0], [1, 1, 0, 0], [2, 1, 0, 0]]),
    },
    // Empty runs first and in the middle; then past the last run.
    Worked {
        case: Case { kinds: &[0, 0, IDENTIFIER + 1, 0, 1], ..THREE },
        rows: Ok(&[[0, 1, 0, 2], [1, 1, 0, 0], [2, 1, 0, 0]]),
    },
    Worked {
        case: Case { kinds: &[IDENTIFIER + 2, IDENTIFIER], ..THREE },
        rows: Ok(&[[0, 1, 0, 2], [1, 1, 0, 2], [2, 1, 0, 0]]),
    },
    // Lengths that add up to 2^32, and to more.
    Worked {
        case: Case { kinds: &[1, IDENTIFIER - 1, IDENTIFIER - 1, 1, u32::MAX], ..THREE },
        rows: Ok(&[[0, 1, 0, 0], [1, 1, 0, 0], [2, 1, 0, 0]]),
    },
];

fn worked(run: &mut Run) -> Compared {
    for Worked { case, rows } in WORKED {
        let answer = run.compare(&Hermes(*case))?;
        let words = rows.map_or(&[][..], |rows| rows.as_flattened());
        let right = code(rows.map(|rows| rows.len() as u32));
        if answer.code != right || answer.rows()[..words.len()] != *words {
            return Err(Hermes(*case).difference(&format!("{rows:?}"), "another answer"));
        }
    }
    Ok(())
}

/// All sequences of up to so many of these.
fn sequences(alphabet: &[u32], most: u32) -> impl Iterator<Item = Vec<u32>> + '_ {
    let base = alphabet.len();
    let of = move |len: u32| {
        let word = move |n: usize, i: u32| alphabet[n / base.pow(i) % base];
        (0..base.pow(len)).map(move |n| (0..len).map(|i| word(n, i)).collect())
    };
    (0..=most).flat_map(of)
}

/// Strings of two units each, every third one UTF-16.
fn entries(strings: u32) -> Vec<u32> {
    (0..strings).map(|i| small(i % 3 == 0, i % 12, 2)).collect()
}

/// All sequences of up to four runs of up to two strings, with up to seven strings, of which more or fewer are asked for:
/// the lengths add up to none, fewer, as many and more.
fn kind_runs(run: &mut Run) -> Compared {
    let (storage, entries) = (ruler(16), entries(7));
    let alphabet = [0, 1, 2, IDENTIFIER, IDENTIFIER + 1, IDENTIFIER + 2];
    for kinds in sequences(&alphabet, 4) {
        for strings in 0..=7 {
            for count in [0, 1, 3, strings as u32, strings as u32 + 1, u32::MAX] {
                let small = &entries[..strings];
                let case = Case { count, kinds: &kinds, small, storage: &storage, ..NONE };
                run.compare(&Hermes(case))?;
            }
        }
    }
    Ok(())
}

/// Empty runs put into all sequences of up to three runs, at each place and at each two places: the rows stay. And many of
/// them at one place.
fn empty_runs(run: &mut Run) -> Compared {
    let (storage, entries) = (ruler(16), entries(6));
    let all = Case { small: &entries, storage: &storage, ..NONE };
    let empty: [&[u32]; 5] = [&[], &[0], &[IDENTIFIER], &[0, IDENTIFIER], &[IDENTIFIER; 3]];
    let alphabet = [1, 2, IDENTIFIER + 1, IDENTIFIER + 2];
    let same = |run: &mut Run, kinds: &[u32], with: &[u32]| {
        let right = run.compare(&Hermes(Case { kinds, ..all }))?;
        let case = Hermes(Case { kinds: with, ..all });
        match run.compare(&case)?.rows() == right.rows() {
            true => Ok(()),
            false => Err(case.difference("the rows without the empty runs", "others")),
        }
    };
    for kinds in sequences(&alphabet, 3) {
        for first in 0..=kinds.len() {
            for second in first..=kinds.len() {
                for one in empty {
                    for other in empty {
                        let (a, rest) = kinds.split_at(first);
                        let (b, c) = rest.split_at(second - first);
                        same(run, &kinds, &[a, one, b, other, c].concat())?;
                    }
                }
            }
        }
    }
    for many in [63, 64, 65, 255, 256, 1_000, 65_536] {
        for place in 0..=3 {
            let kinds = [1, IDENTIFIER + 2, 2];
            let (a, b) = kinds.split_at(place);
            for kind in [0, IDENTIFIER] {
                same(run, &kinds, &[a, &vec![kind; many], b].concat())?;
            }
        }
    }
    Ok(())
}

/// Lengths up to 2^31 - 1, of each bit by itself, and around 2^8 and 2^16 with as many strings.
fn long_runs(run: &mut Run) -> Compared {
    let (storage, entries) = (ruler(16), entries(66_000));
    let all = Case { storage: &storage, lent: entries.len() * ROW, ..NONE };
    let few = Case { small: &entries[..7], lent: 7 * ROW, ..all };
    let most = IDENTIFIER - 1;
    let alphabet = [0, IDENTIFIER, 2, most, most - 1, IDENTIFIER | most, u32::MAX - 1];
    for kinds in sequences(&alphabet, 4) {
        run.compare(&Hermes(Case { kinds: &kinds, ..few }))?;
    }
    for kind in [0, IDENTIFIER] {
        for bit in 0..31 {
            let other = !kind & IDENTIFIER;
            let kinds = &[other | 1, kind | 1 << bit, other | 9];
            run.compare(&Hermes(Case { kinds, ..few }))?;
            let kinds = &[other | 1, kind | 1 << bit, other | 9_999, 7, IDENTIFIER];
            run.compare(&Hermes(Case { kinds, small: &entries, ..all }))?;
        }
    }
    for len in [254, 255, 256, 257, 32_768, 65_534, 65_535, 65_536, 65_537] {
        for first in [0, 1, 2] {
            let kinds = &[first, IDENTIFIER + len, 0, 3, IDENTIFIER + 2];
            run.compare(&Hermes(Case { kinds, small: &entries, ..all }))?;
        }
    }
    Ok(())
}

/// Up to three entries, short or long, UTF-16 or not, a long one with each number from 0 to one past the pairs and
/// beyond; none to four pairs, and half a pair. Four entries of fewer kinds.
fn pairs(run: &mut Run) -> Compared {
    let storage = ruler(64);
    let overflow = [5, 1, 9, 2, 14, 3, 20, 4, 27];
    let all = Case { kinds: &[1, IDENTIFIER + 1, 0, 9], storage: &storage, ..NONE };
    let any = |numbers: u32| -> Vec<u32> {
        let long = (0..numbers).flat_map(|number| [long(false, number), long(true, number)]);
        long.chain([small(false, 1, 254), small(true, 3, 3)]).collect()
    };
    for small in sequences(&any(6), 3) {
        for words in 0..=overflow.len() {
            for count in [small.len().saturating_sub(1), small.len(), small.len() + 1] {
                let overflow = &overflow[..words];
                let case = Case { count: count as u32, small: &small, overflow, ..all };
                run.compare(&Hermes(case))?;
            }
        }
    }
    for small in sequences(&any(3), 4) {
        for words in 0..=7 {
            let case = Case { small: &small, overflow: &overflow[..words], ..all };
            run.compare(&Hermes(case))?;
        }
    }
    Ok(())
}

/// Numbers of each bit alone and around each power of two, up to the last there is, 2^23 - 1; as many pairs, one fewer and
/// one more, and half a pair.
fn numbers(run: &mut Run) -> Compared {
    let storage = ruler(128);
    let pair = |number: u32| [number % 101, number % 7];
    let overflow: Vec<u32> = (0..(1 << 23) + 2).flat_map(pair).collect();
    let last = (1 << 23) - 1;
    let near = (0..=23).flat_map(|bit| [(1u32 << bit) - 1, 1 << bit, (1 << bit) + 1]);
    let numbers = near.chain([0x55_5555, 0x2A_AAAA]);
    for number in numbers.filter(|number| *number <= last) {
        for words in (2 * number as usize).saturating_sub(2)..=2 * number as usize + 5 {
            for utf16 in [false, true] {
                let small = &[small(true, 3, 4), long(utf16, number), long(utf16, 0)];
                let overflow = &overflow[..words];
                let case = Case { small, overflow, storage: &storage, ..NONE };
                run.compare(&Hermes(case))?;
            }
        }
        let small = &[long(false, number)];
        run.compare(&Hermes(Case { small, overflow: &overflow, storage: &storage, ..NONE }))?;
    }
    Ok(())
}

/// Every length, at every offset in and after a short storage: 255 takes the pair of that number, which is there or
/// missing; no other does.
fn one_entry(run: &mut Run) -> Compared {
    for len in [0, 1, 2, 3, 4, 5, 9, 64, 127, 128, 300, 600] {
        let (storage, end) = (vec![b'a'; len], len as u32);
        let near = [end.saturating_sub(1), end, end + 1, (1 << 23) - 2, (1 << 23) - 1];
        for offset in (0..=4).chain(near) {
            for length in 0..=255 {
                for utf16 in [false, true] {
                    let small = &[small(utf16, offset, length)];
                    let overflow = &[1, 1, 2, 2, 0, 3];
                    let case = Case { small, overflow, storage: &storage, kinds: &[1], ..NONE };
                    run.compare(&Hermes(case))?;
                }
            }
        }
    }
    Ok(())
}

/// Pairs whose offset, length, or their sum stands at the storage's end, at 2^31 or at 2^32; taken by two strings.
fn one_pair(run: &mut Run) -> Compared {
    for len in [0, 1, 2, 3, 4, 5, 8, 9, 127, 128] {
        let (storage, end) = (ruler(len), len as u32);
        let near = (0..=4).chain([end.saturating_sub(1), end, end + 1, end + 2]);
        let mut numbers: Vec<u32> = near.chain([254, 255, 256]).chain(FAR).collect();
        numbers.sort();
        numbers.dedup();
        for &offset in &numbers {
            // Lengths that bring the end, doubled or not, to the storage's end if it is kept in 32 bits.
            let wraps = [end, end.wrapping_sub(1)].map(|end| end.wrapping_sub(offset));
            let halves = wraps.map(|length| length / 2 + (1 << 31));
            for length in numbers.iter().copied().chain(wraps).chain(halves) {
                let case = Case {
                    kinds: &[IDENTIFIER + 1],
                    small: &[long(false, 1), long(true, 1)],
                    overflow: &[0, 0, offset, length],
                    storage: &storage,
                    lent: 2 * ROW + 3,
                    ..NONE
                };
                run.compare(&Hermes(case))?;
            }
        }
    }
    Ok(())
}

/// Rows from none to more than there are strings; a pair that is missing is not looked for where rows are.
fn lent_rows(run: &mut Run) -> Compared {
    let storage = ruler(32);
    for strings in 0..=7 {
        for missing in 0..=strings {
            let mut entries: Vec<u32> = (0..strings as u32).map(|i| long(false, i % 2)).collect();
            if let Some(entry) = entries.get_mut(missing) {
                *entry = long(true, 2);
            }
            for lent in 0..=(strings + 2) * ROW {
                for count in [0, 1, 3, strings as u32, u32::MAX] {
                    for overflow in [&[][..], &[7, 2, 8, 3], &[7, 2, 8, 3, 9, 4]] {
                        let small = &entries;
                        let kinds = &[0, IDENTIFIER + 3];
                        let case = Case { count, kinds, small, overflow, storage: &storage, lent };
                        run.compare(&Hermes(case))?;
                    }
                }
            }
        }
    }
    Ok(())
}

/// Tables of addresses without memory: a refused call that writes there ends the program. 8 where the pair of the last
/// string is missing, 1 and 4 where it is too.
fn unwritten(run: &mut Run) -> Compared {
    const STRINGS: usize = 1 << 12;
    let Some(table) = Reserved::new(1 << 33) else {
        println!(
            "table  no addresses for a table of 2^33 words here: such tables are not compared"
        );
        return Ok(());
    };
    let mut small = vec![long(false, 0); STRINGS];
    let longer = vec![0; LIMIT + 1];
    for missing in [0, 1, 2, STRINGS / 2, STRINGS - 1] {
        small[missing] = long(true, 1);
        for (storage, lent, right) in [
            (&longer[..LIMIT], table.len(), (8, missing as u32)),
            (&longer[..4], STRINGS * ROW, (8, missing as u32)),
            (&longer[..4], STRINGS * ROW - 1, (4, 0)),
            (&longer, STRINGS * ROW - 1, (1, 0)),
            (&longer, table.len(), (1, 0)),
        ] {
            let kinds = &[0, 1, IDENTIFIER];
            let case =
                Hermes(Case { kinds, small: &small, overflow: &[0, 1, 2], storage, lent, ..NONE });
            case.told(case.make(table.as_mut_ptr(), lent), Err(right))?;
            run.equal();
        }
        small[missing] = long(false, 0);
    }
    Ok(())
}

/// Storages that end where the offset field does, and the longest that is read, each with strings around its end; one
/// byte more than 2^30 is refused 1.
fn long_storages(run: &mut Run) -> Compared {
    let mut random = run.random(16);
    for len in
        [300, 70_000, (1 << 23) - 2, (1 << 23) - 1, 1 << 23, (1 << 23) + 100, LIMIT, LIMIT + 1]
    {
        let storage = vec![0; len];
        for back in (0..=4).chain([253, 254, 255, 256, 509]) {
            let offset = (len - back.min(len)) as u32;
            let (mut entries, mut pairs) = (Vec::new(), Vec::new());
            for length in (0..=5).chain(126..=130).chain(252..=258) {
                pairs.extend([offset, length]);
                for utf16 in [false, true] {
                    let near = offset.min((1 << 23) - 1);
                    entries.push(small(utf16, near, length.min(254)));
                    entries.push(long(utf16, random.below(pairs.len() / 2) as u32));
                }
            }
            for lent in [0, entries.len() * ROW - 1, entries.len() * ROW] {
                let kinds = &[3, IDENTIFIER + 5, 0, IDENTIFIER, 40];
                let (small, overflow) = (&entries, &pairs);
                let case = Case { kinds, small, overflow, storage: &storage, lent, ..NONE };
                run.compare(&Hermes(case))?;
            }
        }
    }
    Ok(())
}

/// Every long entry has the number of its own pair in order, and no run is empty: the old mode, which is compared with the
/// Rust, leaves the same. Up to five entries in all orders of long and short, pairs for none to all of them; and any.
fn both(run: &mut Run) -> Compared {
    let storage = ruler(64);
    let overflow = [5, 1, 9, 2, 14, 3, 20, 4, 27, 5, 35];
    let alphabet = [small(false, 7, 2), small(true, 9, 3), LONG, LONG | 1];
    for mut entries in sequences(&alphabet, 5) {
        in_order(&mut entries);
        for words in 0..=(2 * entries.len() + 1).min(overflow.len()) {
            for kinds in [&[2, IDENTIFIER + 2][..], &[IDENTIFIER + 1, 1, u32::MAX]] {
                let (small, overflow) = (&entries, &overflow[..words]);
                alike(run, Case { kinds, small, overflow, storage: &storage, ..NONE })?;
            }
        }
    }
    let mut random = run.random(17);
    for _ in 0..50_000 {
        let mut made = any_case(&mut random);
        in_order(&mut made.entries);
        made.kinds.retain(|run| run & !IDENTIFIER > 0);
        alike(run, made.case())?;
    }
    Ok(())
}

/// Gives the entries that take a pair the numbers of the pairs in order.
fn in_order(entries: &mut [u32]) {
    let taking = entries.iter_mut().filter(|entry| **entry >= LONG);
    for (number, entry) in (0..).zip(taking) {
        *entry = long(*entry & 1 == 1, number);
    }
}

fn alike(run: &mut Run, case: Case) -> Compared {
    let old = run.compare(&case)?;
    let hermes = run.compare(&Hermes(case))?;
    let rows = &old.table[..case.lent];
    let written = if old.code >> 32 == 0 { old.code as usize * ROW } else { 0 };
    match hermes.code == old.code && hermes.rows()[..written] == rows[..written] {
        true => Ok(()),
        false => Err(Hermes(case).difference("as the old mode answers", "otherwise")),
    }
}

/// Tables at random, and that many of them tell the modes apart.
fn any_tables(run: &mut Run) -> Compared {
    const TABLES: usize = 100_000;
    let mut random = run.random(18);
    let mut apart = 0;
    for _ in 0..TABLES {
        let made = any_case(&mut random);
        let hermes = run.compare(&Hermes(made.case()))?;
        let old = made.case().ours()?;
        apart += (hermes.code != old.code || hermes.rows() != &old.table[..made.lent]) as usize;
    }
    match apart > TABLES / 4 {
        true => Ok(()),
        false => Err(format!("{apart} of {TABLES} tables tell the modes apart").into()),
    }
}

/// One table at random.
pub fn any(run: &mut Run, random: &mut Random) -> Compared {
    run.compare(&Hermes(any_case(random).case()))?;
    Ok(())
}

/// Up to 24 strings of a storage of up to 300 bytes, half of them by pairs: up to eight, shared, in any order, some taken by
/// none, in one table of eight one that is missing, in another one half a pair more. Runs of which many are empty, and
/// some very long; their lengths add up to fewer strings or to more.
pub fn any_case(random: &mut Random) -> Made {
    let storage = any_storage(random);
    let (strings, pairs) = (random.below(25), random.below(9));
    let mut overflow: Vec<u32> =
        (0..pairs).flat_map(|_| any_span(random, storage.len() as u32)).collect();
    let mut entries: Vec<u32> =
        (0..strings).map(|_| any_entry(random, pairs, storage.len())).collect();
    match (random.below(8), entries.as_mut_slice()) {
        (0, entries @ [_, ..]) => {
            let past = [0, 0, 0, 1, 2, 0x7F_FFFF, random.below(1 << 23)];
            let number = (pairs + random.pick(&past)).min(0x7F_FFFF) as u32;
            entries[random.below(strings)] = long(random.below(2) == 1, number);
        }
        (1, _) => overflow.push(random.word() as u32),
        _ => (),
    }
    let most = random.pick(&[1, 2, 3, 4, 30]);
    let run_of = |random: &mut Random| match random.below(32) {
        0 => random.word() as u32,
        1 => u32::MAX >> random.below(2),
        _ => random.below(most) as u32 | (random.byte() as u32 & 1) << 31,
    };
    let runs = random.pick(&[0, 3, 9, 9, 40]);
    let kinds = (0..random.below(runs + 1)).map(|_| run_of(random)).collect();
    let count = match random.below(8) {
        0 => random.word() as u32,
        1 => random.below(strings + 1) as u32,
        _ => strings as u32,
    };
    let lent = match random.below(16) {
        0 => random.below(strings * ROW + 1),
        _ => strings * ROW + random.below(9),
    };
    Made { count, kinds, entries, pairs: overflow, storage, lent }
}

/// An entry that takes one of so many pairs, or none.
fn any_entry(random: &mut Random, pairs: usize, storage: usize) -> u32 {
    let utf16 = random.below(2) == 1;
    if pairs > 0 && random.below(2) == 0 {
        return long(utf16, random.below(pairs) as u32);
    }
    let [offset, length] = any_span(random, storage as u32);
    small(utf16, offset & 0x7F_FFFF, length.min(254))
}

/// Ten million strings, one in four by a pair of a thousand; an empty run between any two others, and the last string's
/// pair missing.
fn most_strings(run: &mut Run) -> Compared {
    const STRINGS: usize = 10_000_000;
    let mut random = run.random(19);
    let storage = random_bytes(&mut random, 1 << 20);
    let overflow: Vec<u32> =
        (0..1_000).flat_map(|_| [random.below(1 << 20) as u32, random.below(600) as u32]).collect();
    let entry = |random: &mut Random| any_entry(random, 1_000, 1 << 20);
    let mut entries: Vec<u32> = (0..STRINGS).map(|_| entry(&mut random)).collect();
    let run_of = |i| if i % 2 == 0 { random.word() as u32 & (IDENTIFIER | 127) } else { 0 };
    let kinds: Vec<u32> = (0..STRINGS / 50).map(run_of).collect();
    for number in [999, 1_000] {
        entries[STRINGS - 1] = long(true, number);
        let (kinds, small, lent) = (&kinds, &entries, STRINGS * ROW + 3);
        let case = Case { kinds, small, overflow: &overflow, storage: &storage, lent, ..NONE };
        run.compare(&Hermes(case))?;
    }
    Ok(())
}
