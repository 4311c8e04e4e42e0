//! Whether the numbers of debug data are exact: one that lost bits at every place where a number is read, and at those
//! where none is.

use harness::Random;

use super::{good, on, parts_alone, plenty, Section};
use crate::case::{Compared, Difference};
use crate::debug::case::{Answer, ROWS};
use crate::debug::numbers::What::*;
use crate::debug::numbers::{each, What};
use crate::exact::{lost, said, with_tenth, Kind, UNMARKED};
use crate::inputs::{any_words, sleb};
use crate::run::Run;

pub fn compare(run: &mut Run) -> Compared {
    run.group("exact: every tenth byte at every place", places)?;
    run.group("exact: numbers that are not read", unread)?;
    run.group("exact: nothing to read", nothing)?;
    run.group("exact: one number of good sections", one)?;
    run.group("exact: tables lent", refused)?;
    run.group("exact: one number among many", many)
}

/// Ten bytes that say that another follows: a number that fails.
const FAILS: [u8; 10] = [0x80; 10];

/// The place of a number: in which part it stands, what is before and behind it there, what it is, and its low 64 bits.
pub struct Place {
    part: usize,
    before: &'static [u8],
    what: What,
    pub value: i64,
    behind: &'static [u8],
}

const SCOPES: usize = 0;
const CALLEES: usize = 1;
const STRINGS: usize = 2;

const fn place(
    part: usize,
    before: &'static [u8],
    (what, value): (What, i64),
    behind: &'static [u8],
) -> Place {
    Place { part, before, what, value, behind }
}

/// Every place at which a number is read, where there are two strings.
pub const PLACES: &[Place] = &[
    // Scopes that are kept: the first, one without names, one behind another.
    place(SCOPES, &[], (Parent, 0), &[0, 1, 0]),
    place(SCOPES, &[], (Parent, -1), &[0, 0]),
    place(SCOPES, &[0, 0, 1, 1], (Parent, 300), &[0, 0]),
    place(SCOPES, &[0x7F], (Flags, 3), &[1, 0]),
    place(SCOPES, &[0x7F, 0, 0, 0x7F], (Flags, -1), &[1, 0]),
    place(SCOPES, &[0x7F, 0], (NameCount, 1), &[0]),
    place(SCOPES, &[0x7F, 0], (NameCount, 0), &[]),
    place(SCOPES, &[0x7F, 0], (NameCount, 0), &[0, 0, 0]),
    place(SCOPES, &[0x7F, 0, 0, 0, 0], (NameCount, 2), &[0, 1]),
    // Names: first, in the middle, last; unknown ones; the last byte of the part.
    place(SCOPES, &[0, 0, 1], (Name, 0), &[]),
    place(SCOPES, &[0, 0, 3], (Name, 1), &[0, 1]),
    place(SCOPES, &[0, 0, 3, 1], (Name, 0), &[1, 0, 0, 0]),
    place(SCOPES, &[0, 0, 3, 1, 1], (Name, 1), &[]),
    place(SCOPES, &[0, 0, 1], (Name, 2), &[]),
    place(SCOPES, &[0, 0, 2], (Name, -1), &[0]),
    place(SCOPES, &[0, 0, 2, 0], (Name, 1 << 32), &[0, 0, 0]),
    // Names before one that fails: the part ends, or its tenth byte says that another follows.
    place(SCOPES, &[0, 0, 2], (Name, 0), &[]),
    place(SCOPES, &[0, 0, 2], (Name, 0), &[0x80]),
    place(SCOPES, &[0, 0, 2], (Name, 0), &FAILS),
    // The scope behind one whose name fails.
    place(
        SCOPES,
        &[0, 0, 1, 128, 128, 128, 128, 128, 128, 128, 128, 128, 128],
        (Parent, 0),
        &[0, 0],
    ),
    place(
        SCOPES,
        &[0, 0, 1, 128, 128, 128, 128, 128, 128, 128, 128, 128, 128, 0],
        (Flags, 0),
        &[0],
    ),
    // Scopes that are given up: behind the parent, behind the flags, and by their count.
    place(SCOPES, &[], (Parent, 0), &[]),
    place(SCOPES, &[], (Parent, 0), &[0x80]),
    place(SCOPES, &[], (Parent, 0), &FAILS),
    place(SCOPES, &[], (Parent, 0), &[0]),
    place(SCOPES, &[], (Parent, 0), &[0, 0x80]),
    place(SCOPES, &[], (Parent, 0), &[0, 9]),
    place(SCOPES, &[], (Parent, 0), &[0, 0x7F]),
    place(SCOPES, &[0], (Flags, 0), &[]),
    place(SCOPES, &[0], (Flags, 0), &[0x80]),
    place(SCOPES, &[0], (Flags, 0), &FAILS),
    place(SCOPES, &[0], (Flags, 0), &[9]),
    place(SCOPES, &[0], (Flags, 0), &[0x7F, 0]),
    place(SCOPES, &[0, 0, 0, 0], (Flags, 0), &[9]),
    // Counts that are refused: more than the bytes left, and negative.
    place(SCOPES, &[0, 0], (NameCount, 1), &[]),
    place(SCOPES, &[0, 0], (NameCount, 3), &[0, 0]),
    place(SCOPES, &[0, 0], (NameCount, i64::MAX), &[0, 0]),
    place(SCOPES, &[0, 0], (NameCount, -1), &[0, 0]),
    place(SCOPES, &[0, 0], (NameCount, i64::MIN), &[0, 0]),
    place(SCOPES, &[0, 0, 0, 0, 0], (NameCount, 9), &[0, 0]),
    // Callees: counts, of which two are refused.
    place(CALLEES, &[], (CalleeCount, 0), &[]),
    place(CALLEES, &[], (CalleeCount, 0), &[0, 0]),
    place(CALLEES, &[], (CalleeCount, 1), &[5, 0]),
    place(CALLEES, &[], (CalleeCount, 2), &[5, 0]),
    place(CALLEES, &[], (CalleeCount, 3), &[5, 0]),
    place(CALLEES, &[], (CalleeCount, 1), &[]),
    place(CALLEES, &[], (CalleeCount, -1), &[5, 0]),
    place(CALLEES, &[], (CalleeCount, i64::MAX), &[5, 0]),
    place(CALLEES, &[], (CalleeCount, i64::MIN), &[]),
    // Addresses: one, the first and the last, rising and falling; of equal ones each; of a pair that is dropped; one whose
    // low 32 bits are another's.
    place(CALLEES, &[1], (Address, 5), &[0]),
    place(CALLEES, &[2], (Address, 5), &[0, 6, 1]),
    place(CALLEES, &[2, 5, 0], (Address, 6), &[1]),
    place(CALLEES, &[2, 5, 0], (Address, 4), &[1]),
    place(CALLEES, &[2], (Address, 5), &[0, 5, 1]),
    place(CALLEES, &[2, 5, 0], (Address, 5), &[1]),
    place(CALLEES, &[1], (Address, 5), &[2]),
    place(CALLEES, &[2, 5, 0], (Address, 5 + (1 << 32)), &[1]),
    place(CALLEES, &[1], (Address, -5), &[0]),
    // An address before a name that fails.
    place(CALLEES, &[1], (Address, 5), &[]),
    place(CALLEES, &[1], (Address, 5), &[0x80]),
    place(CALLEES, &[1], (Address, 5), &FAILS),
    place(CALLEES, &[2, 5, 0], (Address, 6), &[]),
    // Names, known and unknown; the pair behind them fails.
    place(CALLEES, &[1, 5], (Callee, 0), &[]),
    place(CALLEES, &[2, 5], (Callee, 1), &[5, 0]),
    place(CALLEES, &[2, 6, 0, 5], (Callee, 1), &[]),
    place(CALLEES, &[1, 5], (Callee, 2), &[]),
    place(CALLEES, &[2, 5], (Callee, -1), &[6, 0]),
    place(CALLEES, &[2, 5, 0, 6], (Callee, 1 << 32), &[]),
    place(CALLEES, &[2, 5], (Callee, 0), &[]),
    place(CALLEES, &[2, 5], (Callee, 0), &[0x80]),
    place(CALLEES, &[3, 5], (Callee, 0), &FAILS),
    // Lengths of strings: the only one, the first, the last, one between; of no bytes.
    place(STRINGS, &[], (Length, 0), &[]),
    place(STRINGS, &[], (Length, 2), b"hi"),
    place(STRINGS, &[], (Length, 2), b"hi\x01x"),
    place(STRINGS, b"\x01x", (Length, 2), b"hi"),
    place(STRINGS, b"\x01x", (Length, 0), b"\x01y"),
    place(STRINGS, b"\x01x\x00", (Length, 1), b"y\x00"),
    // Of strings that are cut.
    place(STRINGS, &[], (Length, 1), &[]),
    place(STRINGS, &[], (Length, 3), b"hi"),
    place(STRINGS, b"\x01x", (Length, 9), b"hi"),
    place(STRINGS, b"\x01x", (Length, i64::MAX), b"hi"),
    // Before a length that fails.
    place(STRINGS, &[], (Length, 1), b"x\x80"),
    place(STRINGS, &[], (Length, 0), &FAILS),
];

impl Place {
    pub fn kind(&self) -> Kind {
        match self.what {
            Length => Kind::Unsigned,
            _ => Kind::Signed,
        }
    }

    /// The parts with these bytes at the place, and others that are exact.
    pub fn parts(&self, number: &[u8]) -> [Vec<u8>; 3] {
        let mut parts = [vec![0x7F, 0, 1, 0], vec![1, 5, 0], b"\x01a\x00".to_vec()];
        parts[self.part] = [self.before, number, self.behind].concat();
        parts
    }
}

fn section([scopes, callees, strings]: &[Vec<u8>; 3]) -> Section {
    parts_alone(scopes, callees, strings)
}

/// Enough for what is here.
fn some(random: &mut Random, rows: usize) -> [Vec<u32>; 4] {
    ROWS.map(|row| any_words(random, rows * row))
}

/// The mark by every tenth byte: that of the one number of ten bytes, which is read, as what the place says. A tenth byte
/// that says that another follows is no number, and all others are exact. Then with the other two parts empty.
fn places(run: &mut Run) -> Compared {
    let mut random = run.random(20);
    let lent = some(&mut random, 12);
    for place in PLACES {
        for tenth in 0..=255 {
            let number = with_tenth(place.value, tenth);
            let right = tenth >= 0x80 || said(place.kind(), &number);
            let mut parts = place.parts(&number);
            for alone in [false, true] {
                if alone {
                    (0..3).filter(|&i| i != place.part).for_each(|i| parts[i].clear());
                }
                let (file, offset) = section(&parts).bytes();
                if tenth < 0x80 {
                    let mut read = Vec::new();
                    each(&file, offset, |seen| {
                        read.extend((seen.bytes == number).then_some(seen.what))
                    });
                    assert_eq!(read, [place.what]);
                }
                let answer = on(run, &file, offset, &lent)?;
                assert_eq!((answer.code, answer.mark), (0, right.into()));
            }
        }
    }
    Ok(())
}

/// Parts with these ten bytes where no number is read: behind what ends a list, and within a text.
pub fn unread_parts(number: &[u8]) -> Vec<[Vec<u8>; 3]> {
    let behind = |bytes: &[u8]| [bytes, number].concat();
    let fails = |before: &[u8]| [before, &FAILS, number].concat();
    let mut parts = Vec::new();
    // A count that is refused, a number that fails.
    for part in
        [behind(&[0, 0, 11]), behind(&[0, 0, 0x7F]), fails(&[]), fails(&[0]), fails(&[0, 0])]
    {
        parts.push([part, vec![], vec![]]);
    }
    for part in [
        // A count of none, one that is refused, one that fails; behind the last pair.
        behind(&[0]),
        behind(&[11]),
        behind(&[0x7F]),
        fails(&[]),
        behind(&[1, 5, 0]),
        // Behind an address that failed, and behind a name that did.
        fails(&[1]),
        fails(&[9]),
        fails(&[2, 5, 0]),
        fails(&[1, 5]),
        fails(&[9, 5]),
    ] {
        parts.push([vec![], part.clone(), vec![]]);
        parts.push([vec![0, 0, 0], part, vec![0]]);
    }
    // The text of a string, whole and cut; behind a length that fails.
    for part in [behind(&[10]), behind(&[11]), fails(&[]), [&behind(&[10])[..], b"\x01x"].concat()]
    {
        parts.push([vec![], vec![], part]);
    }
    parts
}

/// Bytes that would be a number that lost bits, where none is read: behind what ends a list, within a text, outside the
/// parts.
fn unread(run: &mut Run) -> Compared {
    let mut random = run.random(21);
    let lent = some(&mut random, 40);
    for form in 0..64 {
        let number = lost(Kind::Signed, random.pick(&[0, 1, -1]), form);
        for parts in &unread_parts(&number) {
            let (file, offset) = section(parts).bytes();
            let answer = on(run, &file, offset, &lent)?;
            assert_eq!((answer.code, answer.mark), (0, 1));
        }
        outside(run, &number, &lent)?;
    }
    Ok(())
}

/// Before the section, in the tables behind its header, before the first part, behind the data; in parts that are
/// reversed or outside, and in data that is.
fn outside(run: &mut Run, number: &[u8], lent: &[Vec<u32>; 4]) -> Compared {
    let exact = |answer: Result<Answer, Difference>| {
        let answer = answer?;
        assert_eq!((answer.code, answer.mark), (0, 1));
        Ok::<(), Difference>(())
    };
    let data = [0, 0, 0, 0, 0];
    let with = |words: [u32; 7], parts: &[&[u8]]| {
        let words = words.map(u32::to_le_bytes);
        [&[0], words.as_flattened(), &parts.concat()].concat()
    };
    let before = [number, &with([0, 0, 0, 0, 3, 4, 5], &[&data])[1..]].concat();
    exact(on(run, &before, 10, lent))?;
    exact(on(run, &with([0, 10, 0, 0, 3, 4, 5], &[number, &data]), 1, lent))?;
    exact(on(run, &with([2, 0, 0, 0, 3, 4, 5], &[number, &[0; 6], &data]), 1, lent))?;
    exact(on(run, &with([0, 0, 1, 0, 3, 4, 5], &[number, &[0; 2], &data]), 1, lent))?;
    exact(on(run, &with([0, 0, 0, 10, 13, 14, 15], &[number, &data]), 1, lent))?;
    exact(on(run, &with([0, 0, 0, 0, 3, 4, 5], &[&data, number]), 1, lent))?;
    // All three parts reversed; to the end of what is not there; the data a byte longer than the section.
    exact(on(run, &with([0, 0, 0, 9, 8, 7, 6], &[number]), 1, lent))?;
    exact(on(run, &with([0, 0, 0, 0, 11, 10, 10], &[number]), 1, lent))?;
    exact(on(run, &with([0, 0, 0, 0, 10, 10, 11], &[number]), 1, lent))?;
    exact(on(run, &with([0, 0, 0, 11, 0, u32::MAX, 10], &[number]), 1, lent))?;
    exact(on(run, &with([0, 0, 0, 10, 10, 10, 10], &[number]), 1, lent))
}

/// No debug information, a header that is cut, parts without a byte: the mark is told, or as it was.
fn nothing(run: &mut Run) -> Compared {
    let mut random = run.random(22);
    let lent = some(&mut random, 12);
    let none: [Vec<u32>; 4] = Default::default();
    let number = lost(Kind::Signed, 0, 1);
    let (file, offset) = parts_alone(&number, &number, &number).bytes();
    for lent in [&lent, &none] {
        for offset in [0, u32::MAX, file.len() as u32, file.len() as u32 + 1] {
            let answer = on(run, &file, offset, lent)?;
            assert_eq!((answer.code, answer.mark), (0, 1));
        }
        for len in 2..offset as usize + 28 {
            assert_eq!(on(run, &file[..len], offset, lent)?.mark, UNMARKED);
        }
        // With the header whole the data is outside until the last byte is there, which ends no number before it.
        for len in offset as usize + 28..file.len() {
            let answer = on(run, &file[..len], offset, lent)?;
            assert_eq!((answer.code, answer.mark), (0, 1));
        }
        let (empty, offset) = parts_alone(&[], &[], &[]).bytes();
        let answer = on(run, &empty, offset, lent)?;
        assert_eq!((answer.code, answer.mark), (0, 1));
    }
    assert_eq!(on(run, &file, offset, &lent)?.mark, 0);
    Ok(())
}

/// A section with some of its numbers put in other bytes: `bytes` is asked for each piece, how its number is taken and what
/// it is. Of a string that is its length alone.
fn renumbered(
    section: &Section,
    mut bytes: impl FnMut(usize, Kind, i64) -> Option<Vec<u8>>,
) -> Section {
    let mut changed = section.clone();
    let numbers = section.scopes.len() + section.callees.len();
    for (i, piece) in changed.pieces().enumerate() {
        let (kind, value, text) = match i < numbers {
            true => (Kind::Signed, value(piece), &[][..]),
            false => (Kind::Unsigned, piece[0].into(), &piece[1..]),
        };
        if let Some(number) = bytes(i, kind, value) {
            *piece = [&number, text].concat();
        }
    }
    changed
}

/// The same with one number that lost bits.
fn one_lost(section: &Section, place: usize, form: u8) -> Section {
    renumbered(section, |i, kind, value| (i == place).then(|| lost(kind, value, form)))
}

/// What `sleb` made.
fn value(bytes: &[u8]) -> i64 {
    let bits = 7 * bytes.len();
    let digits = bytes.iter().rev();
    let sum = digits.fold(0i128, |sum, byte| sum << 7 | i128::from(byte & 0x7F));
    (sum << (128 - bits) >> (128 - bits)) as i64
}

/// Each number of a good section in ten bytes: exact, then with bits lost in some ways.
fn one(run: &mut Run) -> Compared {
    let mut random = run.random(23);
    let lent = plenty(&mut random);
    for _ in 0..150 {
        let section = good(&mut random);
        let pieces = section.clone().pieces().count();
        let (file, offset) = section.bytes();
        assert_eq!(on(run, &file, offset, &lent)?.mark, 1);
        for i in 0..pieces {
            let whole = renumbered(&section, |j, _, value| (i == j).then(|| sleb(value, 10)));
            let (file, offset) = whole.bytes();
            assert_eq!(on(run, &file, offset, &lent)?.mark, 1);
            for form in [1, 31, 32, 62, 63, random.byte()] {
                let (file, offset) = one_lost(&section, i, form).bytes();
                let answer = on(run, &file, offset, &lent)?;
                assert_eq!((answer.code, answer.mark), (0, 0));
            }
        }
    }
    Ok(())
}

/// The tables a row short, in sections that are exact and such that are not: refused, the mark stays.
fn refused(run: &mut Run) -> Compared {
    let mut random = run.random(24);
    let plenty = plenty(&mut random);
    for round in 0..200 {
        let mut section = good(&mut random);
        if round % 2 == 1 {
            let i = random.below(section.pieces().count());
            section = one_lost(&section, i, random.byte());
        }
        let (file, offset) = section.bytes();
        let counts = on(run, &file, offset, &plenty)?.counts;
        let exact: [usize; 4] = std::array::from_fn(|i| counts[i] * ROWS[i]);
        for i in (0..4).filter(|&i| counts[i] > 0) {
            for words in [0, exact[i] - 1, exact[i], exact[i] + 1] {
                let lent = std::array::from_fn(|j| {
                    let len = if i == j { words } else { exact[j] };
                    plenty[j][..len].to_vec()
                });
                let answer = on(run, &file, offset, &lent)?;
                let right = if words < exact[i] { UNMARKED } else { (round % 2 == 0).into() };
                assert_eq!(answer.mark, right);
            }
        }
    }
    Ok(())
}

/// Many rows, of which one number lost bits: the first, the last, and some between; callees in more than one pass.
fn many(run: &mut Run) -> Compared {
    let mut random = run.random(25);
    const MANY: usize = 70_000;
    let lent = some(&mut random, MANY + 2);
    let scopes: Vec<Vec<u8>> =
        [[0], [0], [0]].concat().repeat(MANY).into_iter().map(|n| vec![n]).collect();
    let strings: Vec<Vec<u8>> = vec![vec![0]; MANY];
    let callees = |falling: bool| {
        let count = sleb(MANY as i64, 1);
        let address = |i: usize| if falling { MANY - i } else { i };
        let pairs = (0..MANY).flat_map(|i| [sleb(address(i) as i64, 1), vec![0]]);
        [count].into_iter().chain(pairs).collect::<Vec<_>>()
    };
    let of = |scopes, callees, strings| Section {
        before: 1,
        scopes,
        callees,
        strings,
        ..Section::default()
    };
    for section in [
        of(scopes, vec![], vec![]),
        of(vec![], callees(false), vec![vec![0]]),
        of(vec![], callees(true), vec![vec![0]]),
        of(vec![], vec![], strings),
    ] {
        let pieces = section.clone().pieces().count();
        let middle = (0..6).map(|_| random.below(pieces)).collect::<Vec<_>>();
        let far =
            [0, 1, 2, pieces - 3, pieces - 2, pieces - 1, 65_535, 65_536, 131_072.min(pieces - 1)];
        let (file, offset) = section.bytes();
        assert_eq!(on(run, &file, offset, &lent)?.mark, 1);
        for i in far.into_iter().chain(middle) {
            let (file, offset) = one_lost(&section, i, 9).bytes();
            assert_eq!(on(run, &file, offset, &lent)?.mark, 0);
        }
    }
    Ok(())
}

/// A good section of which some numbers have ten bytes, and some of these lost bits, then cut or damaged.
pub fn any(run: &mut Run, random: &mut Random, plenty: &[Vec<u32>; 4]) -> Compared {
    let often = random.pick(&[2, 8, 8, 40]);
    let section = renumbered(&good(random), |_, kind, value| {
        let (form, far) = (random.byte(), random.word() as i64);
        match (random.below(often), random.below(8)) {
            (0, 0..3) => Some(lost(kind, value, form)),
            (0, 3) => Some(lost(kind, far >> random.below(64), form)),
            (0, 4) => Some(with_tenth(value, form)),
            (0, _) => Some(sleb(value, 10)),
            _ => None,
        }
    });
    let (mut file, offset) = section.bytes();
    if random.below(4) == 0 {
        let at = random.below(file.len());
        file[at] = random.byte();
    }
    if random.below(8) == 0 {
        file.truncate(random.below(file.len() + 1));
    }
    let lent = std::array::from_fn(|i| {
        let rows = random.pick(&[60, 60, 60, 60, 60, 60, 3]);
        plenty[i][..rows * ROWS[i]].to_vec()
    });
    on(run, &file, offset, &lent)?;
    Ok(())
}
