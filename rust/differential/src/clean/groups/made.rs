//! Bundles of any parts, and such as are clean.

use harness::Random;

use super::super::case::Case;
use super::LONG;
use crate::function::case::{Layout, LAYOUTS};
use crate::function::groups::Table;
use crate::inputs::any_bytes;

/// Flags function `id` and packs a place into its header.
pub fn point(
    random: &mut Random,
    layout: Layout,
    file: &mut Vec<u8>,
    start: usize,
    id: usize,
    place: usize,
) {
    let mut table = Table::new(layout, std::mem::take(file), start, 0);
    table.point(random, id as u32, place as u64);
    *file = table.file;
}

pub fn shuffled<T>(random: &mut Random, list: &mut [T]) {
    for i in (1..list.len()).rev() {
        list.swap(i, random.below(i + 1));
    }
}

/// A bundle with memory of its own.
pub struct Made {
    pub file: Vec<u8>,
    pub layout: Layout,
    pub start: usize,
    pub count: u32,
    pub kinds: Vec<u32>,
    pub strings: u32,
    pub small: Vec<u32>,
    pub overflow: Vec<u32>,
    pub storage: Vec<u8>,
    pub keys: Vec<u8>,
    pub values: Vec<u8>,
    pub series: Vec<u32>,
}

impl Made {
    pub fn case(&self) -> Case<'_> {
        Case {
            file: &self.file,
            layout: self.layout as u32,
            start: self.start,
            count: self.count,
            kinds: &self.kinds,
            strings: self.strings,
            small: &self.small,
            overflow: &self.overflow,
            storage: &self.storage,
            keys: &self.keys,
            values: &self.values,
            series: &self.series,
        }
    }

    /// One that breaks no rule: functions of which some have large headers, apart and in any order; strings in runs that add
    /// up to them, some by pairs that others share; series with no tag of length 0 before their last value.
    pub fn clean(random: &mut Random) -> Made {
        let layout = random.pick(&LAYOUTS);
        let (start, count) = (random.below(20), random.below(7));
        let end = start + count * layout.own();
        let (mut places, mut at) = (Vec::new(), end);
        for _ in 0..count {
            at += [0, 0, 1, 5][random.below(4)];
            places.push(at);
            at += layout.large();
        }
        match random.below(3) {
            0 => places.reverse(),
            1 => shuffled(random, &mut places),
            _ => {}
        }
        let len = at + random.below(4);
        let mut file = any_bytes(random, len);
        for (id, &place) in places.iter().enumerate() {
            match random.below(3) {
                0 => file[start + (id + 1) * layout.own() - 1] &= !0x20,
                _ => point(random, layout, &mut file, start, id, place),
            }
        }

        let (strings, bytes) = (random.below(9), 1 + random.below(30));
        let storage = any_bytes(random, bytes);
        // Within the storage, by a random first byte.
        let part = |random: &mut Random, utf16: bool| {
            let first = random.below(bytes);
            let most = (bytes - first) / if utf16 { 2 } else { 1 };
            [first as u32, random.below(most + 1) as u32]
        };
        let pairs: Vec<[u32; 2]> = (0..random.below(4)).map(|_| part(random, true)).collect();
        let entry = |random: &mut Random| {
            let utf16 = random.below(4) == 0;
            let pair = pairs.len().checked_sub(1).map(|last| random.below(last + 1) as u32);
            match pair {
                Some(pair) if random.below(3) == 0 => u32::from(utf16) | pair << 1 | LONG,
                _ => {
                    let [first, length] = part(random, utf16);
                    u32::from(utf16) | first << 1 | length << 24
                }
            }
        };
        let lent = strings.saturating_sub([0, 0, 0, 2][random.below(4)]);
        let small = (0..lent).map(|_| entry(random)).collect();
        let (mut kinds, mut left) = (Vec::new(), strings);
        while left > 0 {
            let length = 1 + random.below(left);
            kinds.push((random.word() as u32 & 1) << 31 | length as u32);
            left -= length;
        }

        let mut made = Made {
            file,
            layout,
            start,
            count: count as u32,
            kinds,
            strings: strings as u32,
            small,
            overflow: pairs.concat(),
            storage,
            keys: Vec::new(),
            values: Vec::new(),
            series: Vec::new(),
        };
        for _ in 0..random.below(5) {
            made.add_series(random);
        }
        made
    }

    /// One more series behind the others of its buffer, and a row that asks for some of it.
    fn add_series(&mut self, random: &mut Random) {
        let which = random.below(2);
        let strings = self.strings as usize;
        let buffer = if which == 0 { &mut self.values } else { &mut self.keys };
        let (offset, mut values) = (buffer.len() as u32, 0);
        for _ in 0..1 + random.below(3) {
            let length = 1 + random.below(4);
            // A file of no strings has no string numbers.
            let tag = random.pick(&[0, 1, 2, 3, 7, 4, 5, 6][..if strings == 0 { 5 } else { 8 }]);
            match random.below(4) {
                0 => buffer.extend([0x80 | tag << 4, length as u8]),
                _ => buffer.push(tag << 4 | length as u8),
            }
            for _ in 0..length {
                match tag {
                    3 => buffer.extend(any_bytes(random, 8)),
                    7 => buffer.extend(any_bytes(random, 4)),
                    4 => buffer.extend((random.below(strings) as u32).to_le_bytes()),
                    5 => buffer.extend((random.below(strings) as u16).to_le_bytes()),
                    6 => buffer.push(random.below(strings) as u8),
                    _ => {}
                }
            }
            values += length;
        }
        // Behind the last value it does not count.
        if random.below(3) == 0 {
            buffer.push(random.byte() & 0x70);
        }
        let which = random.pick(&[[0, 0], [1, u32::MAX]][which]);
        let count = if random.below(4) == 0 { random.below(values + 1) } else { values };
        self.series.extend([which, offset, count as u32]);
    }

    /// Changes a byte or a word of some part, by a little or to anything; or a number that is given.
    pub fn damage(&mut self, random: &mut Random) {
        let byte = |random: &mut Random, bytes: &mut Vec<u8>| match random.below(8) {
            0 => drop(bytes.pop()),
            _ if bytes.is_empty() => bytes.push(random.byte()),
            _ => {
                let at = random.below(bytes.len());
                bytes[at] = match random.below(3) {
                    0 => random.byte(),
                    1 => bytes[at].wrapping_add(1),
                    _ => bytes[at] ^ 1 << random.below(8),
                };
            }
        };
        let word = |random: &mut Random, words: &mut Vec<u32>| match random.below(8) {
            0 => drop(words.pop()),
            1 => words.push(random.below(9) as u32),
            _ if words.is_empty() => words.push(1),
            _ => {
                let at = random.below(words.len());
                words[at] = match random.below(6) {
                    0 => random.word() as u32,
                    1 => words[at].wrapping_add(1),
                    2 => words[at].wrapping_sub(1),
                    3 => words[at] & 1 << 31,
                    _ => words[at] ^ 1 << random.below(32),
                };
            }
        };
        match random.below(13) {
            // A header more often than not, and its place by a few bytes.
            0..=2 => {
                let table = self.start + self.count as usize * self.layout.own();
                let at = self.start + random.below((table - self.start).max(1));
                let by = random.pick(&[1, 2, 255, 0x20]);
                if let Some(byte) = self.file.get_mut(at) {
                    *byte = byte.wrapping_add(by);
                }
            }
            3 => byte(random, &mut self.file),
            4 => byte(random, &mut self.keys),
            5 => byte(random, &mut self.values),
            6 => byte(random, &mut self.storage),
            7 => word(random, &mut self.kinds),
            8 => word(random, &mut self.small),
            9 => word(random, &mut self.overflow),
            10 => word(random, &mut self.series),
            11 => {
                let by = random.pick(&[1, u32::MAX]);
                self.strings = self.strings.wrapping_add(by);
            }
            _ => match random.below(2) {
                0 => self.start = self.start.wrapping_add(1),
                _ => self.count = self.count.saturating_sub(1),
            },
        }
        // A table that is damaged further stays in its file, or is refused.
        self.start = self.start.min(self.file.len() + 1);
        let fit = self.file.len().saturating_sub(self.start) / self.layout.own();
        self.count = self.count.min(fit as u32 + 1);
    }
}
