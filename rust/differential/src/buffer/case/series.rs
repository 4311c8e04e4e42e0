//! A series of literals, read from one buffer, and as an object's keys or values.

use bisquepond::sys::*;
use published::error::Result as Published;
use published::file::parser::buffer::read_buffer_series;
use published::file::structure::LiteralValue;

use super::{file, refusal, told};
use crate::case::{self, bytes_word, printed, replayed, said};
use crate::case::{Compare, Compared, Difference, Refusal, Words};
use crate::lent::{first_wrong, lent, Reserved};
use crate::meter;
use crate::search::last;

/// One series: of which buffer, from where, how many values, into tables of how many words each.
#[derive(Clone, Copy)]
pub struct Case<'a> {
    pub buffer: &'a [u8],
    pub offset: u32,
    pub count: u32,
    pub kinds: usize,
    pub payloads: usize,
}

pub fn series(buffer: &[u8], offset: u32, count: u32, [kinds, payloads]: [usize; 2]) -> Case<'_> {
    Case { buffer, offset, count, kinds, payloads }
}

/// The calls that read it: from the buffer itself, or from a pair of which it is the keys or the values.
#[derive(Clone, Copy, PartialEq, Debug)]
enum Call {
    Series,
    Keys,
    Values,
}

use Call::*;

const CALLS: [Call; 3] = [Series, Keys, Values];

/// A buffer that is lent beside the named one, and not looked at: its values are others at every offset.
const OTHER: [u8; 64] = [0x11; 64];

/// What the calls must answer, and the values that then stand in the tables.
#[derive(Default)]
pub struct Expected {
    pub number: u32,
    /// The refusal's place, or the bytes used.
    pub place: u32,
    pub kinds: Vec<u32>,
    pub payloads: Vec<u64>,
}

/// The answer as it comes, and every word of both tables as it is afterwards.
#[derive(PartialEq, Eq)]
pub struct Answer {
    code: u64,
    kinds: Vec<u32>,
    payloads: Vec<u64>,
}

impl Case<'_> {
    fn make(&self, call: Call, other: &[u8], kinds: *mut u32, payloads: *mut u64) -> u64 {
        let (offset, count) = (self.offset, self.count);
        let (k, k_len, p, p_len) = (kinds, self.kinds, payloads, self.payloads);
        // All but 0 names the keys.
        let (keys, values, yes) = match call {
            Keys => (self.buffer, other, [1, 2, 1 << 31, u32::MAX][count as usize % 4]),
            Series | Values => (other, self.buffer, 0),
        };
        let [(a, a_len), (b, b_len)] = [keys, values].map(|s| (s.as_ptr(), s.len()));
        meter::call(|| unsafe {
            match call {
                Series => hbc_read_series(b, b_len, offset, count, k, k_len, p, p_len),
                _ => hbc_read_object(a, a_len, b, b_len, yes, offset, count, k, k_len, p, p_len),
            }
        })
    }

    /// What the three calls answer alike, with this buffer as the other one.
    fn ours_beside(&self, other: &[u8]) -> Result<Answer, String> {
        let [one, keys, values] = CALLS.map(|call| {
            let mut kinds = lent(Vec::new(), self.kinds);
            let mut payloads = lent(Vec::new(), self.payloads);
            let code = self.make(call, other, kinds.as_mut_ptr(), payloads.as_mut_ptr());
            Answer { code, kinds, payloads }
        });
        match one == keys && one == values {
            true => Ok(one),
            false => Err(format!(
                "{}; as keys {}; as values {}",
                self.said(&one, None),
                self.said(&keys, Some(&one)),
                self.said(&values, Some(&one))
            )),
        }
    }

    fn rust(&self, end: usize, count: u32) -> Published<Vec<LiteralValue>> {
        read_buffer_series(file(), &self.buffer[..end], self.offset, count)
    }

    /// What the Rust answers, and what it doesn't say: how many bytes the values take (with one fewer it refuses), and
    /// how many values come before the cut (one more it refuses). The limit and the lent tables are docs/FORMAT.md's.
    pub fn expected(&self, guess: u32) -> Expected {
        let refused = |number, place| Expected { number, place, ..Expected::default() };
        let end = self.buffer.len();
        if end > LIMIT {
            return refused(1, 0);
        }
        let past = self.count != 0 && self.offset as usize >= end;
        if !past && self.kinds.min(self.payloads) < self.count as usize {
            return refused(4, 0);
        }
        let values = match self.rust(end, self.count) {
            Ok(values) => values,
            Err(error) => {
                let number = refusal(&error);
                let reads = |count| self.rust(end, count).is_ok();
                return match number {
                    3 => refused(3, last(0..self.count, guess, reads)),
                    _ => refused(number, 0),
                };
            }
        };
        let used = match values.len() {
            0 => 0,
            _ => {
                let offset = self.offset as usize;
                let all = (end - offset) as u32;
                let cut = |bytes| self.rust(offset + bytes as usize, self.count).is_err();
                last(0..all, guess.wrapping_sub(1), cut) + 1
            }
        };
        let (kinds, payloads) = values.iter().map(told).unzip();
        Expected { number: 0, place: used, kinds, payloads }
    }

    /// Kind and payload of each value, or the refusal, where room is lent for all. How many bytes they take is not asked for.
    pub fn values(&self) -> Result<Vec<(u32, u64)>, Refusal> {
        let end = self.buffer.len();
        if end > LIMIT {
            return Err((1, 0));
        }
        let values = self.rust(end, self.count).map_err(|error| match refusal(&error) {
            3 => (3, last(0..self.count, 0, |count| self.rust(end, count).is_ok())),
            number => (number, 0),
        })?;
        Ok(values.iter().map(told).collect())
    }

    /// Compares beside another buffer, which is not looked at.
    pub fn compare_beside(&self, other: &[u8]) -> Compared {
        let (right, ()) = self.right(None);
        self.same(self.ours_beside(other), &right).map(drop)
    }

    /// Compares calls that must be refused, into tables that can't be written: as the Rust refuses them, or as was
    /// worked out beside, where the Rust would need too much memory.
    pub fn compare_refused(
        &self,
        told: Option<Refusal>,
        (kinds, payloads): (&Reserved<u32>, &Reserved<u64>),
    ) -> Result<String, Difference> {
        assert!(self.kinds <= kinds.len() && self.payloads <= payloads.len());
        let (kinds, payloads) = (kinds.as_mut_ptr(), payloads.as_mut_ptr());
        let codes = CALLS.map(|call| self.make(call, &OTHER, kinds, payloads));
        let refusal = told.unwrap_or_else(|| {
            let right = self.expected(place(codes[0]));
            (right.number, right.place)
        });
        assert!(refusal.0 != 0);
        for code in codes {
            self.told(code, Err(refusal))?;
        }
        Ok(said(codes[0], ""))
    }
}

impl Compare for Case<'_> {
    type Answer = Answer;
    type Besides = ();

    fn ours(&self) -> Result<Answer, String> {
        self.ours_beside(&OTHER)
    }

    fn right(&self, ours: Option<&Answer>) -> (Answer, ()) {
        let right = self.expected(ours.map_or(0, |ours| place(ours.code)));
        let answer = match right.number {
            0 => Ok(right.place),
            number => Err((number, right.place)),
        };
        let answer = Answer {
            code: case::code(answer),
            kinds: lent(right.kinds, self.kinds),
            payloads: lent(right.payloads, self.payloads),
        };
        (answer, ())
    }

    fn call(&self) -> String {
        let (offset, count, bytes) = (self.offset, self.count, self.buffer.len());
        let (kinds, payloads) = (self.kinds, self.payloads);
        format!("Series at {offset}, {count} values into {kinds} kinds and {payloads} payloads, {bytes} bytes")
    }

    fn said(&self, answer: &Answer, right: Option<&Answer>) -> String {
        let (kinds, payloads) = (&answer.kinds, &answer.payloads);
        said(answer.code, "bytes used")
            + &first_wrong("kinds", kinds, right.map(|right| &right.kinds), 1)
            + &first_wrong("payloads", payloads, right.map(|right| &right.payloads), 1)
    }

    fn replay(&self) -> Option<String> {
        let (offset, count, kinds, payloads) = (self.offset, self.count, self.kinds, self.payloads);
        printed(self.buffer, &[], &[kinds, payloads]).then(|| {
            let buffer = bytes_word(self.buffer);
            format!("buffer Series {offset} {count} {kinds} {payloads} {buffer}")
        })
    }
}

/// `OFFSET COUNT KINDS PAYLOADS BYTES`.
pub fn replay(words: &mut Words) -> Result<String, Difference> {
    let (offset, count) = (words.number()?, words.number()?);
    let lent = [words.number()?, words.number()?];
    replayed(&series(&words.bytes()?, offset, count, lent), words)
}
