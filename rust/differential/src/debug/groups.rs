//! The groups of inputs on which the two sides of the debug section are compared.

pub mod exact;
mod large;
mod lists;

use bisquepond::sys::LIMIT;
use harness::Random;

use super::case::{Answer, Case, ROWS};
use super::differences;
use crate::case::{code, Compared, Difference};
use crate::inputs::{any_bytes, any_words, sleb};
use crate::run::Run;

pub fn compare(run: &mut Run) -> Compared {
    run.group("offsets and headers that are short", headers)?;
    run.group("parts reversed, outside and empty", parts)?;
    run.group("cut at every byte, and damaged there", damaged)?;
    run.group("numbers at their edges, in every position", numbers)?;
    run.group("numbers of 9 to 11 bytes, in every position", long)?;
    run.group("callees in any order, equal addresses", callees)?;
    run.group("tables lent, word by word", tables)?;
    run.group("tables lent, in every combination", lists::combined)?;
    run.group("parts cut at every byte", lists::cut)?;
    run.group("counts around the bytes left", lists::counts)?;
    run.group("prefixes of 1 to 11 bytes, text behind", lists::prefixes)?;
    run.group("offsets of parts in any order", lists::offsets)?;
    run.group("all the shortest parts", lists::shortest)?;
    exact::compare(run)?;
    run.group("many rows", large::many)?;
    run.group("2^30 and 2^30 + 1 bytes", longest)?;
    run.group("the differences that docs list", differences::listed)?;
    run.group("random", |run| {
        let (mut random, mut marks) = (run.random(9), run.random(26));
        let lent = plenty(&mut random);
        while run.more() {
            any(run, &mut random, &lent)?;
            exact::any(run, &mut marks, &lent)?;
        }
        Ok(())
    })
}

/// Enough words for all that the small files here can hold.
fn plenty(random: &mut Random) -> [Vec<u32>; 4] {
    ROWS.map(|row| any_words(random, 600 * row))
}

/// With so many words lent in each table.
pub fn on(
    run: &mut Run,
    file: &[u8],
    offset: u32,
    lent: &[Vec<u32>; 4],
) -> Result<Answer, Difference> {
    run.compare(&case(file, offset, lent))
}

pub fn case<'a>(file: &'a [u8], offset: u32, lent: &'a [Vec<u32>; 4]) -> Case<'a> {
    let tables = lent.each_ref().map(Vec::as_slice);
    Case { file, offset, tables }
}

/// A section in pieces: each number of scopes and callees is a piece of its own, so that it can be put in another way.
#[derive(Clone, Default)]
pub struct Section {
    pub before: usize,
    pub filenames: u32,
    pub storage: u32,
    pub regions: u32,
    pub lines: usize,
    pub scopes: Vec<Vec<u8>>,
    pub callees: Vec<Vec<u8>>,
    pub strings: Vec<Vec<u8>>,
}

/// A section at byte 1 with nothing but its three parts.
pub fn parts_alone(scopes: &[u8], callees: &[u8], strings: &[u8]) -> Section {
    Section {
        before: 1,
        scopes: vec![scopes.to_vec()],
        callees: vec![callees.to_vec()],
        strings: vec![strings.to_vec()],
        ..Section::default()
    }
}

impl Section {
    pub fn pieces(&mut self) -> impl Iterator<Item = &mut Vec<u8>> {
        let numbers = self.scopes.iter_mut().chain(&mut self.callees);
        numbers.chain(&mut self.strings)
    }

    /// The file, and where its section begins.
    pub fn bytes(&self) -> (Vec<u8>, u32) {
        let mut file = vec![0xEE; self.before];
        let sizes = [&self.scopes, &self.callees, &self.strings];
        let [scopes, callees, strings] = sizes.map(|part| part.concat());
        let from = self.lines;
        let offsets = [from, from + scopes.len(), from + scopes.len() + callees.len()];
        let [first, second, third] = offsets.map(|offset| offset as u32);
        let size = third + strings.len() as u32;
        for word in [self.filenames, self.storage, self.regions, first, second, third, size] {
            file.extend(word.to_le_bytes());
        }
        let skipped = 8 * self.filenames + self.storage + 12 * self.regions;
        file.resize(file.len() + skipped as usize + self.lines, 0xDD);
        file.extend(scopes);
        file.extend(callees);
        file.extend(strings);
        (file, self.before as u32)
    }
}

/// A good section: every name known, addresses rising.
pub fn good(random: &mut Random) -> Section {
    let strings = 1 + random.below(5);
    let text = |random: &mut Random| {
        let len = random.below(6);
        let mut bytes = vec![len as u8];
        bytes.extend((0..len).map(|_| random.pick(b"abc\xC3\xA9\xFF")));
        bytes
    };
    let mut scopes = Vec::new();
    for _ in 0..random.below(5) {
        let names = random.below(4);
        let parent = random.pick(&[-1, 0, 5, 300, 0xFFFF_FFFE]);
        scopes.push(sleb(parent, 1));
        scopes.push(sleb(random.below(200) as i64, 1));
        scopes.push(sleb(names as i64, 1));
        scopes.extend((0..names).map(|_| sleb(random.below(strings) as i64, 1)));
    }
    let count = random.below(5);
    let mut callees = vec![sleb(count as i64, 1)];
    let mut address = 0;
    for _ in 0..count {
        address += 1 + random.below(300) as i64;
        callees.push(sleb(address, 1));
        callees.push(sleb(random.below(strings) as i64, 1));
    }
    Section {
        before: 1 + random.below(9),
        filenames: random.below(3) as u32,
        storage: random.below(6) as u32,
        regions: random.below(3) as u32,
        lines: random.below(6),
        scopes,
        callees,
        strings: (0..strings).map(|_| text(random)).collect(),
    }
}

fn headers(run: &mut Run) -> Compared {
    let mut random = run.random(1);
    let lent = plenty(&mut random);
    for len in 0..=70 {
        for fill in [0, 1, 0xFF] {
            let file = vec![fill; len];
            for offset in (0..=len as u32 + 2).chain([LIMIT as u32, u32::MAX - 1, u32::MAX]) {
                let answer = on(run, &file, offset, &lent)?;
                let empty = offset == 0 || offset as usize >= len;
                let short = !empty && offset as usize + 28 > len;
                let right = if short { Err((3, 0)) } else { Ok(0) };
                assert_eq!(answer.code, code(right));
            }
        }
    }
    Ok(())
}

/// Each word of the header with numbers around its own, those around 2^31 and 2^32, and numbers whose sums wrap.
fn parts(run: &mut Run) -> Compared {
    let mut random = run.random(2);
    let lent = plenty(&mut random);
    for _ in 0..300 {
        let (file, offset) = good(&mut random).bytes();
        for word in 0..7 {
            let at = offset as usize + 4 * word;
            let own = u32::from_le_bytes(file[at..at + 4].try_into().unwrap());
            let near = (0..5).map(|n| own.wrapping_add(n).wrapping_sub(2));
            let wrapping = [0x1555_5556, 0x1FFF_FFFF, 0x2000_0000, 0x2AAA_AAAB];
            let far = [0, 1, i32::MAX as u32, 1 << 31, u32::MAX - 27, u32::MAX];
            for number in near.chain(far).chain(wrapping) {
                let mut changed = file.clone();
                changed[at..at + 4].copy_from_slice(&number.to_le_bytes());
                on(run, &changed, offset, &lent)?;
                let other = offset as usize + 4 * random.below(7);
                let second = random.pick(&[0, own, number, u32::MAX]);
                changed[other..other + 4].copy_from_slice(&second.to_le_bytes());
                on(run, &changed, offset, &lent)?;
            }
        }
    }
    Ok(())
}

fn damaged(run: &mut Run) -> Compared {
    let mut random = run.random(3);
    let lent = plenty(&mut random);
    for _ in 0..60 {
        let (file, offset) = good(&mut random).bytes();
        for at in 0..=file.len() {
            on(run, &file[..at], offset, &lent)?;
        }
        for at in offset as usize..file.len() {
            let own = file[at];
            let bit = 1 << random.below(8);
            for byte in [0, 0x7F, 0x80, 0xFF, own ^ bit, own.wrapping_add(1)] {
                let mut changed = file.clone();
                changed[at] = byte;
                on(run, &changed, offset, &lent)?;
            }
        }
        // A piece left out altogether: all that follows is read as something else.
        let section = good(&mut random);
        for i in 0..section.clone().pieces().count() {
            let mut changed = section.clone();
            changed.pieces().nth(i).unwrap().clear();
            let (file, offset) = changed.bytes();
            on(run, &file, offset, &lent)?;
        }
    }
    Ok(())
}

/// Parents, flags, counts, names and addresses that a test could get wrong.
fn numbers(run: &mut Run) -> Compared {
    let mut random = run.random(4);
    let lent = plenty(&mut random);
    for _ in 0..40 {
        let section = good(&mut random);
        let left = section.bytes().0.len() as i64;
        for i in 0..section.clone().pieces().count() {
            let small = -3..=left.min(40);
            let edges = [31, 32, 33, 62, 63].map(|bits| (1u64 << bits) as i64);
            let edges = edges.into_iter().flat_map(|edge| {
                let step = |n| edge.wrapping_add(n);
                [step(-2), step(-1), edge, step(1), edge.wrapping_neg()]
            });
            for value in small.chain(edges) {
                let mut changed = section.clone();
                *changed.pieces().nth(i).unwrap() = sleb(value, 1);
                let (file, offset) = changed.bytes();
                on(run, &file, offset, &lent)?;
            }
        }
    }
    Ok(())
}

/// The same numbers in nine and ten bytes, ten bytes with bits that are lost, and eleven, which are refused.
fn long(run: &mut Run) -> Compared {
    let mut random = run.random(5);
    let lent = plenty(&mut random);
    for _ in 0..60 {
        let section = good(&mut random);
        for i in 0..section.clone().pieces().count() {
            for value in [0, 1, 2, -1, random.word() as i64] {
                for len in [2, 5, 9, 10, 11] {
                    let mut bytes = sleb(value, len);
                    for last in [bytes[bytes.len() - 1], random.byte() & 0x7F, random.byte()] {
                        *bytes.last_mut().unwrap() = last;
                        let mut changed = section.clone();
                        *changed.pieces().nth(i).unwrap() = bytes.clone();
                        let (file, offset) = changed.bytes();
                        on(run, &file, offset, &lent)?;
                    }
                }
            }
        }
    }
    Ok(())
}

fn callees(run: &mut Run) -> Compared {
    let mut random = run.random(6);
    let lent = plenty(&mut random);
    for _ in 0..1500 {
        let mut section = good(&mut random);
        let count = random.below(40);
        let known = section.strings.len();
        let said = count + random.pick(&[0, 0, 0, 1, 30]);
        section.callees = vec![sleb(said as i64, 1)];
        let spread = random.pick(&[2, 8, 1000]);
        let mut rising = 0;
        let order = random.below(4);
        for _ in 0..count {
            rising += 1;
            let high = (random.below(3) as i64 - 1) << 32;
            let address = match order {
                0 => rising,
                1 => 1000 - rising,
                2 => random.below(spread) as i64,
                _ => high + random.below(spread) as i64,
            };
            let name = match random.below(6) {
                0 => random.pick(&[-1, known as i64, 1 << 32, i64::MIN]),
                _ => random.below(known) as i64,
            };
            section.callees.extend([sleb(address, 1), sleb(name, 1)]);
        }
        let (file, offset) = section.bytes();
        on(run, &file, offset, &lent)?;
    }
    Ok(())
}

fn tables(run: &mut Run) -> Compared {
    let mut random = run.random(7);
    let plenty = plenty(&mut random);
    for _ in 0..60 {
        let (file, offset) = good(&mut random).bytes();
        let counts = on(run, &file, offset, &plenty)?.counts;
        let exact: [usize; 4] = std::array::from_fn(|i| counts[i] * ROWS[i]);
        for i in 0..4 {
            for words in 0..=exact[i] + 6 {
                let lent = std::array::from_fn(|j| {
                    let len = if i == j { words } else { exact[j] };
                    plenty[j][..len].to_vec()
                });
                on(run, &file, offset, &lent)?;
            }
        }
        // No debug information needs no rows.
        on(run, &file, 0, &Default::default())?;
        on(run, &file, file.len() as u32, &Default::default())?;
    }
    Ok(())
}

fn longest(run: &mut Run) -> Compared {
    let mut random = run.random(8);
    let lent = plenty(&mut random);
    let mut file = vec![0; LIMIT + 1];
    for _ in 0..40 {
        let mut section = good(&mut random);
        section.before = 0;
        let (bytes, _) = section.bytes();
        // At the end, cut by some bytes, and with its filenames filling most of the file.
        for cut in [0, 1, 2, 5] {
            let at = LIMIT - bytes.len() + cut;
            file[at..LIMIT].copy_from_slice(&bytes[..bytes.len() - cut]);
            for len in [LIMIT, LIMIT + 1] {
                for offset in [0, at, LIMIT - 28, LIMIT - 27, LIMIT - 1, LIMIT, LIMIT + 1] {
                    on(run, &file[..len], offset as u32, &lent)?;
                }
            }
            file[at..LIMIT].fill(0);
        }
        let skip = 28 + 8 * section.filenames + section.storage + 12 * section.regions;
        let data = &bytes[skip as usize..];
        file[4..32].copy_from_slice(&bytes[..28]);
        file[LIMIT - data.len()..LIMIT].copy_from_slice(data);
        let storage = (LIMIT - data.len() - 32) as u32;
        for (word, number) in [(0, 0), (1, storage), (2, 0)] {
            file[4 + 4 * word..][..4].copy_from_slice(&number.to_le_bytes());
        }
        for len in [LIMIT - 1, LIMIT] {
            on(run, &file[..len], 4, &lent)?;
        }
        file[LIMIT - data.len()..LIMIT].fill(0);
    }
    Ok(())
}

/// A good section with some of its pieces put in another way, then cut or damaged.
fn any(run: &mut Run, random: &mut Random, plenty: &[Vec<u32>; 4]) -> Compared {
    let mut section = good(random);
    let pieces = section.pieces().count();
    for _ in 0..random.below(4) {
        let i = random.below(pieces);
        let value = match random.below(3) {
            0 => random.below(8) as i64 - 2,
            1 => random.word() as i64 >> random.below(64),
            _ => random.pick(&[-1, 0xFFFF_FFFE, 0xFFFF_FFFF, 1 << 32, i64::MIN, i64::MAX]),
        };
        *section.pieces().nth(i).unwrap() = sleb(value, random.pick(&[1, 1, 1, 10, 11]));
    }
    let (mut file, offset) = section.bytes();
    for _ in 0..random.below(3) {
        let at = random.below(file.len());
        file[at] = random.byte();
    }
    if random.below(4) == 0 {
        // Bytes of any kind in the place of all three parts, behind a good header.
        let from = 28 + offset as usize;
        let noise = any_bytes(random, file.len() - from);
        file[from..].copy_from_slice(&noise);
    }
    if random.below(4) == 0 {
        file.truncate(random.below(file.len() + 1));
    }
    let lent = std::array::from_fn(|i| {
        let from = random.below(500);
        let rows = random.pick(&[60, 60, 60, 60, 3]);
        plenty[i][from * ROWS[i]..][..rows * ROWS[i]].to_vec()
    });
    on(run, &file, offset, &lent)?;
    Ok(())
}
