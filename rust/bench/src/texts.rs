//! Texts: one call for each string of a file, into one buffer.

use std::hint::black_box;

use bisquepond::sys::hbc_string_text;
use bisquepond::table::StringRow;
use bisquepond::Row as _;
use harness::Random;

use crate::table::Bench;
use crate::whole::{heading, Whole};

const ROW: usize = StringRow::WORDS;

/// How many strings of 3 to 80 bytes there are.
const COUNTS: [usize; 2] = [10_000, 1_000_000];

/// The bytes of a long string, and how many there are.
const LONG: usize = 64 << 10;
const LONG_COUNT: usize = 64;

pub fn rows(bench: &Bench) {
    heading(
        "Texts: one call for each string of a file, into one buffer, that is ample or, of each string, just enough. The Rust's",
        "own lossy conversions write into a String that is cleared and keeps its room. Strings of 3 to 80 bytes, in no order.",
        "string",
    );
    for count in COUNTS {
        for kind in KINDS {
            Texts::new(kind, count, 3..=80).both(bench, kind.name());
        }
    }
    heading(
        "The same of strings of 64 KiB.",
        "Most of the time is then spent on their bytes, and none to speak of on calls.",
        "string",
    );
    for kind in KINDS {
        let long = Texts::new(kind, LONG_COUNT, LONG..=LONG);
        long.both(bench, &format!("{}, 64 KiB", kind.name()));
    }
    heading(
        "Each text in a String of its own, by the Rust crate's call; the Rust's conversions make one too. All are kept until",
        "the last one is made.",
        "string",
    );
    for kind in [Kind::Ascii, Kind::Mixed, Kind::WideMixed, Kind::IllFormed] {
        Texts::new(kind, COUNTS[0], 3..=80).owned(bench, kind.name());
    }
}

/// What strings are made of.
#[derive(Clone, Copy, PartialEq)]
pub enum Kind {
    Ascii,
    Mixed,
    Cjk,
    WideMixed,
    WideCjk,
    IllFormed,
}

const KINDS: [Kind; 6] = [
    Kind::Ascii,
    Kind::Mixed,
    Kind::Cjk,
    Kind::WideMixed,
    Kind::WideCjk,
    Kind::IllFormed,
];

/// Words as they stand in an app's strings: most of them plain, some with accents, a few of other alphabets, quotes and
/// dashes, now and then an emoji.
const PLAIN: [&str; 24] = [
    "the",
    "and",
    "Error",
    "component",
    "user",
    "value",
    "is",
    "not",
    "a",
    "function",
    "of",
    "to",
    "in",
    "className",
    "onPress",
    "undefined",
    "style",
    "with",
    "Please",
    "try",
    "again",
    "children",
    "settings",
    "file",
];
const OTHER: [&str; 16] = [
    "caf\u{E9}",
    "na\u{EF}ve",
    "\u{FC}ber",
    "ni\u{F1}o",
    "fran\u{E7}ais",
    "Gr\u{F6}\u{DF}e",
    "\u{43F}\u{440}\u{438}\u{432}\u{435}\u{442}",
    "\u{43E}\u{448}\u{438}\u{431}\u{43A}\u{430}",
    "\u{3BA}\u{3B1}\u{3BB}\u{3B7}\u{3BC}\u{3AD}\u{3C1}\u{3B1}",
    "\u{201C}so\u{201D}",
    "\u{201C}that\u{201D}",
    "\u{2014}",
    "\u{2014}",
    "it\u{2019}s",
    "\u{2026}",
    "\u{1F600}",
];

impl Kind {
    fn name(self) -> &'static str {
        match self {
            Kind::Ascii => "text, ASCII",
            Kind::Mixed => "text, mixed",
            Kind::Cjk => "text, CJK",
            Kind::WideMixed => "text, UTF-16 mixed",
            Kind::WideCjk => "text, UTF-16 CJK",
            Kind::IllFormed => "text, any bytes",
        }
    }

    fn is_utf16(self) -> bool {
        matches!(self, Kind::WideMixed | Kind::WideCjk)
    }

    /// How many bytes a letter has.
    fn width(self, letter: char) -> usize {
        match self.is_utf16() {
            true => 2 * letter.len_utf16(),
            false => letter.len_utf8(),
        }
    }

    /// A string of so many bytes, or of a few more where it ends with a whole letter.
    fn string(self, random: &mut Random, len: usize) -> Vec<u8> {
        if self == Kind::IllFormed {
            return (0..len).map(|_| random.byte()).collect();
        }
        let (mut text, mut bytes) = (String::new(), 0);
        while bytes < len {
            let letters = match self {
                Kind::Ascii => ((b'a' + random.byte() % 26) as char).to_string(),
                Kind::Mixed | Kind::WideMixed => {
                    let from = if random.below(6) == 0 {
                        &OTHER[..]
                    } else {
                        &PLAIN[..]
                    };
                    random.pick(from).to_string() + " "
                }
                _ => {
                    let letter = 0x4E00 + random.below(0x5000) as u32;
                    char::from_u32(letter).expect("no surrogate").to_string()
                }
            };
            for letter in letters.chars() {
                // A word is cut where the string has its bytes.
                if bytes < len {
                    text.push(letter);
                    bytes += self.width(letter);
                }
            }
        }
        match self.is_utf16() {
            true => text.encode_utf16().flat_map(u16::to_le_bytes).collect(),
            false => text.into_bytes(),
        }
    }
}

/// The strings of a file: where each is, and how long its text.
struct Texts {
    storage: Vec<u8>,
    rows: Vec<u32>,
    lengths: Vec<usize>,
}

/// The text of a string's bytes, in a String that is cleared.
fn converted(text: &mut String, bytes: &[u8], utf16: bool) {
    text.clear();
    if utf16 {
        let units = bytes
            .chunks_exact(2)
            .map(|unit| u16::from_le_bytes([unit[0], unit[1]]));
        text.extend(
            char::decode_utf16(units).map(|read| read.unwrap_or(char::REPLACEMENT_CHARACTER)),
        );
    } else {
        text.push_str(&String::from_utf8_lossy(bytes));
    }
}

impl Texts {
    /// So many strings of one kind, each of so many bytes, one after the other in the storage and in any order in the rows.
    fn new(kind: Kind, count: usize, lengths: std::ops::RangeInclusive<usize>) -> Texts {
        let mut random = Random::new(1);
        // Some thousand different ones, again and again: a long file is made in no time.
        let most = count.min(if *lengths.end() > 1_000 { 4 } else { 4_000 });
        let spread = lengths.end() - lengths.start() + 1;
        let strings: Vec<Vec<u8>> = (0..most)
            .map(|_| {
                let len = lengths.start() + random.below(spread);
                kind.string(&mut random, len)
            })
            .collect();
        let (mut storage, mut places) = (Vec::new(), Vec::new());
        for i in 0..count {
            let string = &strings[i % most];
            places.push([
                storage.len() as u32,
                string.len() as u32,
                0,
                kind.is_utf16() as u32,
            ]);
            storage.extend(string);
        }
        for i in (1..count).rev() {
            places.swap(i, random.below(i + 1));
        }
        let mut made = String::new();
        let length = |[start, len, _, marks]: &[u32; ROW]| {
            let bytes = &storage[*start as usize..][..*len as usize];
            converted(&mut made, bytes, *marks == 1);
            made.len()
        };
        let lengths = places.iter().map(length).collect();
        let rows = places.as_flattened().to_vec();
        Texts {
            storage,
            rows,
            lengths,
        }
    }

    fn size(&self) -> Whole {
        Whole {
            bytes: self.storage.len(),
            items: self.lengths.len(),
        }
    }

    /// How many strings there are, and a sum over the lengths and the last bytes of their texts. Of each string so much of
    /// the buffer is lent.
    fn ours(&self, out: &mut [u8], room: impl Fn(usize) -> usize) -> (u64, u64) {
        let (s, len) = (self.storage.as_ptr(), self.storage.len());
        let (rows, words) = (self.rows.as_ptr(), self.rows.len());
        let mut sum = 0;
        for i in 0..self.lengths.len() {
            let lent = &mut out[..room(i)];
            let (at, room) = (lent.as_mut_ptr(), lent.len());
            let text = unsafe { hbc_string_text(s, len, rows, words, i, at, room) };
            sum += text + u64::from(lent[text as usize - 1]);
        }
        (self.lengths.len() as u64, sum)
    }

    fn rust(&self, text: &mut String) -> (u64, u64) {
        let mut sum = 0;
        for row in self.rows.chunks_exact(ROW) {
            let bytes = &self.storage[row[0] as usize..][..row[1] as usize];
            converted(text, bytes, row[3] & 1 == 1);
            sum += text.len() as u64 + u64::from(text.as_bytes()[text.len() - 1]);
        }
        (self.lengths.len() as u64, sum)
    }

    fn both(&self, bench: &Bench, name: &str) {
        let ample = 3 * self.lengths.iter().max().expect("a string");
        let (mut out, mut text) = (vec![0; ample], String::with_capacity(ample));
        let ours = || self.ours(&mut out, |_| ample);
        self.size().row(bench, name, ours, || self.rust(&mut text));
        let ours = || self.ours(&mut out, |i| self.lengths[i]);
        let exact = format!("{name}, exact");
        self.size()
            .row(bench, &exact, ours, || self.rust(&mut text));
    }

    fn owned(&self, bench: &Bench, name: &str) {
        let rows = StringRow::rows(&self.rows);
        let ours = || {
            let texts = rows
                .iter()
                .map(|row| row.text(&self.storage).expect("a text"));
            let texts: Vec<String> = texts.collect();
            let sum = texts.iter().map(|text| text.len() as u64).sum();
            (black_box(texts).len() as u64, sum)
        };
        let rust = || {
            let texts = rows.iter().map(|row| {
                let mut text = String::new();
                let bytes = row.bytes(&self.storage);
                match row.is_utf16() {
                    true => converted(&mut text, bytes, true),
                    false => text = String::from_utf8_lossy(bytes).into_owned(),
                }
                text
            });
            let texts: Vec<String> = texts.collect();
            let sum = texts.iter().map(|text| text.len() as u64).sum();
            (black_box(texts).len() as u64, sum)
        };
        self.size()
            .row(bench, &format!("{name}, a String each"), ours, rust);
    }
}
