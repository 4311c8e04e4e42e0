//! Recorded samples, as the programs read them that replay them: docs/RECORDS.md has their form.

use harness::count;

/// What every word of a lent table holds before a call.
pub const FILL: u32 = 0xA5A5_A5A5;
/// The same of a byte of a lent buffer.
pub const FILL_BYTE: u8 = 0xA5;
/// And of a 64-bit one, which stands for a number that an answer has not.
pub const FILL_LONG: u64 = 0xA5A5_A5A5_A5A5_A5A5;

/// The bytes for which each program has room.
pub const MOST_BYTES: usize = 500_000;

/// The calls, by their numbers in a record; those of the cursor layer are 1 to 14, in the order of `io::case::OPS`.
pub const IO: u64 = 1;
pub const READ_FUNCTIONS: u64 = 15;
pub const READ_FUNCTION: u64 = 16;
pub const REFRESH_FUNCTIONS: u64 = 17;
pub const FUNCTION_MEETS: u64 = 18;
pub const READ_U32_TABLE: u64 = 19;
pub const READ_PAIR_TABLE: u64 = 20;
pub const DECODE_STRINGS: u64 = 21;
pub const STRING_BYTES: u64 = 22;
pub const READ_LITERAL: u64 = 23;
pub const READ_SERIES: u64 = 24;
pub const READ_OBJECT: u64 = 25;
pub const READ_HANDLERS: u64 = 26;
pub const TRAILING_SECTIONS: u64 = 27;
pub const READ_DEBUG: u64 = 28;
pub const FUNCTION_GROUND: u64 = 29;
pub const WRITE_FUNCTIONS: u64 = 30;
pub const DECODE_STRINGS_HERMES: u64 = 31;
pub const STRING_TEXT: u64 = 32;
pub const WHY_NO_HANDLERS: u64 = 33;
pub const READ_THEN_REFRESHED: u64 = 34;
pub const CHECK_BUNDLE: u64 = 35;

/// No call: the records before it are counted, and told under the name that follows.
const REPORT: u64 = 0;

#[derive(Clone)]
enum Field {
    /// Numbers that the call must answer, or words that it must leave.
    Right(Vec<u64>),
    /// Bytes that it must answer.
    RightBytes(Vec<u8>),
    Given(Vec<u8>),
}

/// A call, what it is asked, and what is right.
#[derive(Clone)]
pub struct Record {
    asked: Vec<u64>,
    /// The number among those asked that is a value to be answered, and a bit of it that tells.
    value: Option<(usize, u64)>,
    fields: Vec<Field>,
}

/// Unsigned LEB128.
fn push_number(bytes: &mut Vec<u8>, number: u64) {
    let mut rest = number;
    while rest > 127 {
        bytes.push(rest as u8 | 128);
        rest >>= 7;
    }
    bytes.push(rest as u8);
}

fn push_bytes(bytes: &mut Vec<u8>, more: &[u8]) {
    push_number(bytes, more.len() as u64);
    bytes.extend(more);
}

fn numbers(list: &[u64]) -> Vec<u8> {
    let mut bytes = Vec::new();
    list.iter().for_each(|&number| push_number(&mut bytes, number));
    bytes
}

/// The list without the words at its end that are as before the call.
fn written(mut list: Vec<u64>, fill: u64) -> Field {
    while list.last() == Some(&fill) {
        list.pop();
    }
    Field::Right(list)
}

impl Record {
    /// A call of this number that is asked so many numbers, and so many of 32 bits.
    pub fn new(call: u64, asked: &[u64], words: &[u32], input: &[u8]) -> Self {
        let mut numbers = [0; 9];
        numbers[0] = call;
        numbers[1..5][..asked.len()].copy_from_slice(asked);
        for (number, &word) in numbers[5..].iter_mut().zip(words) {
            *number = word.into();
        }
        let last = numbers.iter().rposition(|&number| number != 0).unwrap_or(0);
        let asked = numbers[..=last].to_vec();
        Record { asked, value: None, fields: vec![Field::Given(input.to_vec())] }
    }

    /// This number asked is the value that the call must answer; changed by this bit it is another one.
    pub fn value(mut self, place: usize, bit: u64) -> Self {
        self.asked.resize(self.asked.len().max(place + 2), 0);
        self.value = Some((place + 1, bit));
        self
    }

    /// The numbers that the call answers.
    pub fn answer(mut self, list: &[u64]) -> Self {
        self.fields.push(Field::Right(list.to_vec()));
        self
    }

    /// A table after the call.
    pub fn table(mut self, words: &[u32]) -> Self {
        let list = words.iter().map(|&word| word.into()).collect();
        self.fields.push(written(list, FILL.into()));
        self
    }

    /// The same of 64-bit words.
    pub fn longs(mut self, words: &[u64]) -> Self {
        self.fields.push(written(words.to_vec(), FILL_LONG));
        self
    }

    /// Bytes that the call answers.
    pub fn part(mut self, bytes: &[u8]) -> Self {
        self.fields.push(Field::RightBytes(bytes.to_vec()));
        self
    }

    /// Bytes that it is given besides its input.
    pub fn given(mut self, bytes: &[u8]) -> Self {
        self.fields.push(Field::Given(bytes.to_vec()));
        self
    }

    /// Words that it is given.
    pub fn words(self, words: &[u32]) -> Self {
        let bytes: Vec<u8> = words.iter().flat_map(|word| word.to_le_bytes()).collect();
        self.given(&bytes)
    }

    fn bytes(&self) -> Vec<u8> {
        let mut fields = Vec::new();
        push_bytes(&mut fields, &numbers(&self.asked));
        for field in &self.fields {
            match field {
                Field::Right(list) => push_bytes(&mut fields, &numbers(list)),
                Field::RightBytes(bytes) | Field::Given(bytes) => push_bytes(&mut fields, bytes),
            }
        }
        let mut record = Vec::new();
        push_bytes(&mut record, &fields);
        record
    }

    /// How many numbers and bytes must be answered and left.
    fn right(&self) -> usize {
        let lengths = self.fields.iter().map(|field| match field {
            Field::Right(list) => list.len(),
            Field::RightBytes(bytes) => bytes.len(),
            Field::Given(_) => 0,
        });
        lengths.sum()
    }

    /// The same with one thing wrong, in every way: each number of the answer another; of a table the first word or the
    /// last another, the last one left out, one too many.
    fn wrong(&self) -> Vec<Record> {
        let mut all = Vec::new();
        if let Some((place, bit)) = self.value {
            let mut record = self.clone();
            record.asked[place] ^= bit;
            all.push(record);
        }
        for (i, field) in self.fields.iter().enumerate() {
            let mut with = |field| {
                let mut record = self.clone();
                record.fields[i] = field;
                all.push(record);
            };
            match field {
                Field::Right(list) => {
                    wrong(list, |number| number ^ 1).for_each(|list| with(Field::Right(list)))
                }
                Field::RightBytes(bytes) => {
                    wrong(bytes, |byte| byte ^ 1).for_each(|bytes| with(Field::RightBytes(bytes)))
                }
                Field::Given(_) => (),
            }
        }
        all
    }
}

fn wrong<T: Copy + From<u8>>(list: &[T], other: impl Fn(T) -> T) -> impl Iterator<Item = Vec<T>> {
    let places = match list.len() {
        0..=5 => (0..list.len()).collect(),
        more => vec![0, more - 1],
    };
    let changed = places.into_iter().map(|place| {
        let mut list = list.to_vec();
        list[place] = other(list[place]);
        list
    });
    let short = list.split_last().map(|(_, rest)| rest.to_vec());
    let long = [list, &[1.into()]].concat();
    changed.collect::<Vec<_>>().into_iter().chain(short).chain([long])
}

/// The records of a layer: of each its group, the refusal's number or 0, and itself.
pub struct Sample {
    layer: &'static str,
    names: &'static [&'static str],
    records: Vec<(usize, u32, Record)>,
}

impl Sample {
    pub fn new(layer: &'static str, names: &'static [&'static str]) -> Self {
        Sample { layer, names, records: Vec::new() }
    }

    /// Adds a record of a group, refused by this number or accepted with 0.
    pub fn add(&mut self, group: usize, number: u32, record: Record) {
        self.records.push((group, number, record));
    }

    /// Whether there are fewer records than this.
    pub fn fewer(&self, records: usize) -> bool {
        self.records.len() < records
    }

    /// The sample, a report after each group, and a line a group. Each group must have every answer that is named: a
    /// refusal's number, or 0. Last comes one record of each group and answer again and again, with one thing wrong.
    pub fn done(self, answers: impl Fn(usize) -> &'static [u32]) -> (Vec<u8>, Vec<String>) {
        let (mut bytes, mut lines, mut spoiled) = (Vec::new(), Vec::new(), Vec::new());
        let report = |name: &str| Record::new(REPORT, &[], &[], name.as_bytes()).bytes();
        for (group, name) in self.names.iter().enumerate() {
            let records = || self.records.iter().filter(move |record| record.0 == group);
            let mut line = format!("{name:<36}");
            for &number in answers(group) {
                let of = records().filter(|record| record.1 == number).count();
                assert!(of > 0, "no {name} with {number} in the sample");
                let word = match number {
                    0 => "accepted".to_string(),
                    _ => format!("refused {number}"),
                };
                line += &format!("  {word} {:>3}", count(of as u64));
                let small = records().filter(|record| record.1 == number && record.2.right() <= 64);
                let most = small.max_by_key(|record| record.2.right());
                spoiled.extend(most.into_iter().flat_map(|record| record.2.wrong()));
            }
            for (_, number, record) in records() {
                assert!(answers(group).contains(number), "{name}: {number} is not expected");
                bytes.extend(record.bytes());
            }
            bytes.extend(report(name));
            lines.push(line);
        }
        spoiled.iter().for_each(|record| bytes.extend(record.bytes()));
        let name = format!("{}, each with one thing wrong", self.layer);
        bytes.extend(report(&name));
        lines.push(format!("{name:<36}  {:>12}", spoiled.len()));
        (bytes, lines)
    }
}
