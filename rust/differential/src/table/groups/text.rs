//! The groups of texts.

use bisquepond::sys::LIMIT;
use harness::Random;

use super::super::case::strings::ROW;
use super::super::case::text::{all, make, text_of, Short, Text, UTF16};
use super::FAR;
use crate::case::{code, Compared, Refusal};
use crate::inputs::random_bytes;
use crate::lent::Reserved;
use crate::run::Run;

pub fn compare(run: &mut Run) -> Compared {
    run.group("texts: worked cases", worked)?;
    run.group("texts: all UTF-8 of 0 to 3 bytes", shortest)?;
    run.group("texts: 4 and 5 bytes at the table's edges", edges)?;
    run.group("texts: every scalar value and unit", scalars)?;
    run.group("texts: UTF-16 at the edges", units)?;
    run.group("texts: a part at every place of a block", blocks)?;
    run.group("texts: every number of bytes lent", rooms)?;
    run.group("texts: rows of any numbers", rows)?;
    run.group("texts: storages to 2^30 bytes and one more", longest)?;
    run.group("texts: any strings", any_strings)
}

/// A string's bytes, whether they are UTF-16, and its text.
pub type Worked = (&'static [u8], bool, &'static [u8]);

/// Those of docs/FORMAT.md, section 10.6, that are run.
pub const WORKED: [Worked; 7] = [
    (
        b"\x61\xF1\x80\x80\xE1\x80\xC2\x62\x80\x63\x80\xBF\x64",
        false,
        b"\x61\xEF\xBF\xBD\xEF\xBF\xBD\xEF\xBF\xBD\x62\xEF\xBF\xBD\x63\xEF\xBF\xBD\xEF\xBF\xBD\x64",
    ),
    (b"\xED\xA0\x80", false, b"\xEF\xBF\xBD\xEF\xBF\xBD\xEF\xBF\xBD"),
    (b"\xC0\x80", false, b"\xEF\xBF\xBD\xEF\xBF\xBD"),
    (b"\xF4\x90\x80\x80", false, b"\xEF\xBF\xBD\xEF\xBF\xBD\xEF\xBF\xBD\xEF\xBF\xBD"),
    (b"\x3D\xD8\x00\xDE\x00\xDC\x61\x00", true, b"\xF0\x9F\x98\x80\xEF\xBF\xBD\x61"),
    (b"\x3D\xD8\x3D\xD8\x00\xDE", true, b"\xEF\xBF\xBD\xF0\x9F\x98\x80"),
    (b"\x61", true, b""),
];

/// Each in every room up to one byte more than it needs.
fn worked(run: &mut Run) -> Compared {
    for (bytes, utf16, text) in WORKED {
        assert_eq!(text_of(bytes, utf16), text);
        every_room(run, bytes, utf16)?;
    }
    Ok(())
}

/// A storage of these bytes alone, in every room up to two bytes more than its text needs.
fn every_room(run: &mut Run, storage: &[u8], utf16: bool) -> Compared {
    let rows = &all(storage, utf16);
    for lent in 0..=text_of(storage, utf16).len() + 2 {
        run.compare(&Text { storage, rows, index: 0, lent })?;
    }
    Ok(())
}

/// Up to two bytes in every room, as UTF-8 and as UTF-16; three bytes in the room that they need.
fn shortest(run: &mut Run) -> Compared {
    let bytes = || 0..=u8::MAX;
    for utf16 in [false, true] {
        every_room(run, &[], utf16)?;
        for a in bytes() {
            every_room(run, &[a], utf16)?;
        }
    }
    let mut short = Short::new();
    for (a, b) in bytes().flat_map(|a| bytes().map(move |b| (a, b))) {
        // Each room of a few, and each of the others in the room that it needs.
        if [a, b].iter().all(|byte| EDGES.contains(byte)) {
            every_room(run, &[a, b], false)?;
            every_room(run, &[a, b], true)?;
        }
        for utf16 in [false, true] {
            short.compare(&[a, b], utf16)?;
            run.equal();
        }
        for c in bytes() {
            short.compare(&[a, b, c], false)?;
            run.equal();
        }
    }
    Ok(())
}

/// The first and the last byte of each range of table 3-7, and the bytes beside them.
const EDGES: [u8; 42] = [
    0x00, 0x01, 0x7E, 0x7F, 0x80, 0x81, 0x8E, 0x8F, 0x90, 0x91, 0x9E, 0x9F, 0xA0, 0xA1, 0xBE, 0xBF,
    0xC0, 0xC1, 0xC2, 0xC3, 0xDE, 0xDF, 0xE0, 0xE1, 0xE2, 0xEB, 0xEC, 0xED, 0xEE, 0xEF, 0xF0, 0xF1,
    0xF2, 0xF3, 0xF4, 0xF5, 0xF6, 0xF7, 0xF8, 0xFC, 0xFE, 0xFF,
];

/// One byte of each kind that the table tells apart.
const KINDS: [u8; 14] =
    [0x61, 0x80, 0x8F, 0x90, 0x9F, 0xA0, 0xBF, 0xC2, 0xE0, 0xE1, 0xED, 0xF0, 0xF1, 0xF4];

/// All strings of so many bytes of these.
fn strings_of(run: &mut Run, from: &[u8], len: usize) -> Compared {
    let (mut short, mut places, mut string) = (Short::new(), vec![0; len], vec![from[0]; len]);
    loop {
        short.compare(&string, false)?;
        run.equal();
        let Some(i) = places.iter().rposition(|&place| place + 1 < from.len()) else {
            return Ok(());
        };
        places[i] += 1;
        places[i + 1..].fill(0);
        string = places.iter().map(|&place| from[place]).collect();
    }
}

fn edges(run: &mut Run) -> Compared {
    strings_of(run, &EDGES, 4)?;
    strings_of(run, &KINDS, 5)
}

/// Each scalar value alone and between two others, in both encodings; each unit of UTF-16 alone, behind the first half of
/// a pair and before a second one.
fn scalars(run: &mut Run) -> Compared {
    let mut short = Short::new();
    let mut string = String::new();
    for scalar in '\0'..=char::MAX {
        string.clear();
        string.extend(['a', scalar, '\u{E9}']);
        let one = &string.as_bytes()[1..1 + scalar.len_utf8()];
        short.compare(one, false)?;
        short.compare(string.as_bytes(), false)?;
        let units = string.encode_utf16().flat_map(u16::to_le_bytes).collect::<Vec<_>>();
        short.compare(&units[2..units.len() - 2], true)?;
        short.compare(&units, true)?;
        (0..4).for_each(|_| run.equal());
    }
    for unit in 0..=u16::MAX {
        let [low, high] = unit.to_le_bytes();
        for bytes in [&[low, high][..], &[0xFF, 0xDB, low, high], &[low, high, 0, 0xDC]] {
            short.compare(bytes, true)?;
            run.equal();
        }
    }
    Ok(())
}

/// Units at which UTF-8 and UTF-16 change their form, and those beside them.
const UNITS: [u16; 26] = [
    0, 1, 0x61, 0x7F, 0x80, 0xFF, 0x100, 0x7FF, 0x800, 0xFFF, 0x1000, 0xD7FF, 0xD800, 0xD801,
    0xDBFE, 0xDBFF, 0xDC00, 0xDC01, 0xDFFE, 0xDFFF, 0xE000, 0xE001, 0xFEFF, 0xFFFD, 0xFFFE, 0xFFFF,
];

fn bytes_of(units: &[u16]) -> Vec<u8> {
    units.iter().flat_map(|unit| unit.to_le_bytes()).collect()
}

/// All pairs in every room, with every byte cut off, and with half a unit more; all threes, and all fours and fives of
/// halves and a letter.
fn units(run: &mut Run) -> Compared {
    let mut short = Short::new();
    for a in UNITS {
        for b in UNITS {
            let pair = bytes_of(&[a, b]);
            every_room(run, &pair, true)?;
            for odd in [&pair[..1], &pair[..3], &[&pair[..], &[0xDC]].concat()] {
                every_room(run, odd, true)?;
            }
            for c in UNITS {
                short.compare(&bytes_of(&[a, b, c]), true)?;
                run.equal();
            }
        }
    }
    let few = [0x61, 0xD800, 0xDBFF, 0xDC00, 0xDFFF, 0xFFFF];
    for n in 0..6u32.pow(5) {
        let units: Vec<u16> = (0..5).map(|i| few[(n / 6u32.pow(i) % 6) as usize]).collect();
        short.compare(&bytes_of(&units[1..]), true)?;
        short.compare(&bytes_of(&units), true)?;
        run.equal();
        run.equal();
    }
    Ok(())
}

/// Parts that are ill-formed, or of another length than what is around them.
const PARTS: [&[u8]; 15] = [
    b"\xFF",
    b"\x80",
    b"\xC2",
    b"\xE1\x80",
    b"\xF1\x80\x80",
    b"\xED\xA0",
    b"\xED\xA0\x80",
    b"\xED\xA0\xBD\xED\xB8\x80",
    b"\xC0\xAF",
    b"\xF4\x90",
    b"\x7F",
    b"\xC3\xA9",
    b"\xE2\x82\xAC",
    b"\xF0\x9F\x98\x80",
    b"\xF0\x9F\x98",
];
const WIDE_PARTS: [&[u16]; 8] = [
    &[0xD800],
    &[0xDFFF],
    &[0xDC00, 0xD800],
    &[0xD800, 0xD800, 0xDC00],
    &[0x61],
    &[0xE9],
    &[0x20AC],
    &[0xD83D, 0xDE00],
];

/// What is around a part: letters of one to four bytes.
const AROUND: [&str; 4] = ["a", "\u{E9}", "\u{65E5}", "\u{1F600}"];

/// One part at every place, from no bytes around it to 72, and around 128 and 256: what is read by eight, by 16 or by more
/// bytes at a time has it in each of them, and at its end.
fn blocks(run: &mut Run) -> Compared {
    let mut short = Short::new();
    let mut compare = |run: &mut Run, bytes: &[u8], utf16: bool| {
        run.equal();
        short.compare(bytes, utf16)
    };
    for around in AROUND {
        let unit = bytes_of(&around.encode_utf16().collect::<Vec<_>>());
        for total in (0..=72).chain(126..=130).chain(254..=258) {
            let letters = total / around.len();
            for before in 0..=letters {
                let [front, back] = [before, letters - before].map(|n| around.repeat(n));
                for part in PARTS {
                    let bytes = [front.as_bytes(), part, back.as_bytes()].concat();
                    compare(run, &bytes, false)?;
                }
            }
            let letters = total / unit.len();
            for before in 0..=letters {
                let [front, back] = [before, letters - before].map(|n| unit.repeat(n));
                for part in WIDE_PARTS {
                    compare(run, &[&front[..], &bytes_of(part), &back[..]].concat(), true)?;
                }
            }
        }
    }
    Ok(())
}

/// Strings of many kinds, up to 40 bytes and up to 200, in every room; in a storage of their own and within another, from
/// each of eight places on, where what follows would go on with what is cut.
fn rooms(run: &mut Run) -> Compared {
    let mut random = run.random(20);
    for kind in 0..KINDS_OF_STRINGS {
        for most in [[40; 12], [200; 12]].concat() {
            let utf16 = random.below(3) == 0;
            let string = any_string(&mut random, kind, most, utf16);
            every_room(run, &string, utf16)?;
            let room = text_of(&string, utf16).len();
            for start in 0..8 {
                let follows: &[u8] = if utf16 { b"\x00\xDC\x00\xDC" } else { b"\x80\x80\x80\x80" };
                let storage = [&[0xF0; 8][..start], &string, follows].concat();
                let rows = &[start as u32, string.len() as u32, 0, utf16 as u32];
                for lent in [room.saturating_sub(1), room, room + 9, 3 * string.len()] {
                    run.compare(&Text { storage: &storage, rows, index: 0, lent })?;
                }
            }
        }
    }
    Ok(())
}

/// Starts and lengths around the storage's end and 2^32, every kind of mark; rows that are not there or not whole, and
/// numbers of rows up to 2^64 - 1.
fn rows(run: &mut Run) -> Compared {
    let bytes = b"\xF0\x9F\x98\x80a\x3D\xD8\x00\xDE";
    for len in 0..=bytes.len() {
        let storage = &bytes[..len];
        let end = len as u32;
        let near = [0, 1, 2, 3, end.wrapping_sub(1), end, end + 1, end + 2];
        for start in near.into_iter().chain(FAR) {
            let back = 0u32.wrapping_sub(start);
            let lengths = near.into_iter().chain(FAR).chain([back, back.wrapping_add(1)]);
            for length in lengths.chain([end.wrapping_sub(start)]) {
                for invalid in [0, 1, 2, 1 << 8, 1 << 31, u32::MAX] {
                    for marks in [0, 1, 2, 3, 4, 1 << 31, u32::MAX - 1, u32::MAX] {
                        if invalid > 1 && marks > 3 {
                            continue;
                        }
                        let rows = &[start, length, invalid, marks];
                        for lent in [0, 40] {
                            run.compare(&Text { storage, rows, index: 0, lent })?;
                        }
                    }
                }
            }
        }
    }
    let rows = [0, 4, 0, 0, 4, 1, 0, 2, 5, 4, 0, 1, 0, 9, 0, 0];
    let far = [1 << 30, 1 << 32, 1 << 61, 1 << 62, (1 << 62) + 1, 1 << 63, usize::MAX];
    for words in 0..=rows.len() {
        for index in (0..=5).chain(far).chain([usize::MAX - 1, usize::MAX / ROW]) {
            for lent in [0, 1, 4, 30] {
                run.compare(&Text { storage: bytes, rows: &rows[..words], index, lent })?;
            }
        }
    }
    Ok(())
}

/// The last bytes of 2^30, and all that is refused first of one more; buffers and rows of any length, which are not
/// measured and not written.
fn longest(run: &mut Run) -> Compared {
    let mut storage = vec![b'a'; LIMIT + 1];
    storage[LIMIT - 5..LIMIT].copy_from_slice(b"\xF0\x9F\x98\x80\xC3");
    let far = LIMIT as u32;
    let rows = [far - 5, 5, 0, 0, far - 4, 4, 0, 1, far, 0, 0, 0, far, 1, 0, 0, far - 1, 3, 0, 0];
    for len in [LIMIT, LIMIT + 1] {
        for words in [0, 3, 4, rows.len()] {
            for index in (0..=5).chain([usize::MAX]) {
                for lent in [0, 6, 7, 8] {
                    let rows = &rows[..words];
                    run.compare(&Text { storage: &storage[..len], rows, index, lent })?;
                }
            }
        }
    }
    let none = "no addresses for a buffer that is not written";
    let out = Reserved::<u8>::new(1 << 40).expect(none);
    let rows = Reserved::<u32>::new(1 << 33).expect(none);
    // A row of zeros has an empty text.
    for (len, words, index, right) in [
        (1, 1 << 33, (1 << 31) - 1, Ok(0)),
        (LIMIT, 1 << 33, 0, Ok(0)),
        (LIMIT, 1 << 33, 1 << 31, Err((11, 0))),
        (LIMIT, 0, 0, Err((11, 0))),
        (LIMIT + 1, 1 << 33, 0, Err((1, 0))),
        (LIMIT + 1, 0, 0, Err((1, 0))),
    ] {
        let (storage, lent) = (&storage[..len], (out.as_mut_ptr(), out.len()));
        let given = make(storage, (rows.as_mut_ptr(), words), index, lent);
        same(&format!("{len} bytes, row {index} of {words} words"), given, right)?;
        run.equal();
    }
    // A buffer of more than 2^30 bytes, of which few are written.
    let mut out = vec![0; 2 * LIMIT];
    let row = [far - 5, 5, 0, 0];
    let given = make(&storage[..LIMIT], (row.as_ptr(), ROW), 0, (out.as_mut_ptr(), out.len()));
    same("2^31 bytes lent", given, Ok(7))?;
    match out[..9] == *b"\xF0\x9F\x98\x80\xEF\xBF\xBD\0\0" {
        true => run.equal(),
        false => return Err(format!("2^31 bytes lent: {:02x?}", &out[..9]).into()),
    }
    Ok(())
}

fn same(what: &str, given: u64, right: Result<u32, Refusal>) -> Compared {
    match given == code(right) {
        true => Ok(()),
        false => Err(format!("{what}: {given:#x}, not {:#x}", code(right)).into()),
    }
}

/// How many kinds of strings there are.
pub const KINDS_OF_STRINGS: usize = 7;

/// A string of up to so many bytes: letters of one byte; words of many alphabets; CJK; emoji; any bytes; bytes that each
/// begin or go on with something; well-formed and then damaged.
pub fn any_string(random: &mut Random, kind: usize, most: usize, utf16: bool) -> Vec<u8> {
    let len = random.below(most + 1);
    let letter = |random: &mut Random| match kind {
        0 => (b' ' + random.byte() % 95) as char,
        2 => char::from_u32(0x4E00 + random.below(0x5000) as u32).expect("no surrogate"),
        3 => char::from_u32(0x1_F300 + random.below(0x400) as u32).expect("no surrogate"),
        _ => random.pick(&[
            'a',
            'e',
            'n',
            ' ',
            '.',
            '\u{E9}',
            '\u{F1}',
            '\u{7FF}',
            '\u{800}',
            '\u{430}',
            '\u{3B1}',
            '\u{201C}',
            '\u{2014}',
            '\u{20AC}',
            '\u{D7FF}',
            '\u{E000}',
            '\u{FFFD}',
            '\u{1_0000}',
            '\u{1_F600}',
            '\u{10_FFFF}',
            '\0',
        ]),
    };
    let mut bytes = Vec::with_capacity(len + 4);
    while bytes.len() < len {
        match (kind, utf16) {
            (4, _) => bytes.push(random.byte()),
            (5, false) => bytes.push(random.pick(&KINDS)),
            (5, true) => bytes.extend(random.pick(&UNITS).to_le_bytes()),
            (_, false) => bytes.extend(letter(random).encode_utf8(&mut [0; 4]).bytes()),
            (_, true) => {
                let mut room = [0; 2];
                bytes.extend(bytes_of(letter(random).encode_utf16(&mut room)));
            }
        }
    }
    // Of UTF-16 mostly whole units.
    let cut = if utf16 && random.below(8) > 0 { len / 2 * 2 } else { len };
    bytes.truncate(cut);
    if kind == 6 && !bytes.is_empty() {
        for _ in 0..=random.below(3) {
            let (at, any) = (random.below(bytes.len()), random.byte());
            bytes[at] = random.pick(&[any, 0x80, 0xC2, 0xE1, 0xF1, 0xFF, 0xD8, 0xDC]);
        }
    }
    bytes
}

/// One string at random, mostly short, sometimes up to 4,000 bytes; in a storage of its own or within one, by a row among
/// others; in a room that is mostly enough.
pub fn any(run: &mut Run, random: &mut Random) -> Compared {
    let kind = random.below(KINDS_OF_STRINGS);
    let (utf16, most) =
        (random.below(3) == 0, random.pick(&[8, 8, 40, 40, 40, 100, 100, 100, 400, 400, 4_000]));
    let string = any_string(random, kind, most, utf16);
    let (front, behind) = (random.below(20), random.below(20));
    let mut storage = random_bytes(random, front);
    storage.extend(&string);
    storage.extend(random_bytes(random, behind));
    let marks = random.word() as u32 & !UTF16 & random.pick(&[0, 2, u32::MAX]) | utf16 as u32;
    let count = random.below(4) + 1;
    let index = random.below(count);
    let mut rows: Vec<u32> = (0..count * ROW).map(|_| random.word() as u32).collect();
    rows[index * ROW..][..ROW].copy_from_slice(&[front as u32, string.len() as u32, 0, marks]);
    rows.extend((0..random.below(ROW)).map(|_| 0));
    let room = text_of(&string, utf16).len();
    let lent = match random.below(8) {
        0 => random.below(room + 1),
        1 => room.saturating_sub(1),
        2 | 3 => room,
        4 => 3 * string.len(),
        _ => room + random.below(40),
    };
    let other = match random.below(16) {
        0 => random.below(count + 2),
        _ => index,
    };
    run.compare(&Text { storage: &storage, rows: &rows, index: other, lent })?;
    Ok(())
}

fn any_strings(run: &mut Run) -> Compared {
    let mut random = run.random(21);
    for _ in 0..50_000 {
        any(run, &mut random)?;
    }
    Ok(())
}
