//! One call on one input: what both sides say of it, and how a difference is shown and replayed.

use std::fmt::Debug;
use std::str::FromStr;

use bisquepond::sys::{number, place};

use crate::inputs::{bytes_of, words_of};

/// The first input on which the two sides differ: its lines are printed, and the program ends.
pub struct Difference(pub Vec<String>);

impl From<String> for Difference {
    fn from(line: String) -> Self {
        Difference(vec![line])
    }
}

pub type Compared = Result<(), Difference>;

/// A refusal's number and place.
pub type Refusal = (u32, u32);

/// A call that both sides can be asked for.
pub trait Compare {
    /// All that is compared: the answer, and every word lent as it is afterwards.
    type Answer: PartialEq;

    /// What the Rust says besides, which is looked at where the answers are equal.
    type Besides;

    /// What libhbc_c.a answers, or what is wrong with that whatever is right.
    fn ours(&self) -> Result<Self::Answer, String>;

    /// What is right: what the Rust answers, and docs/FORMAT.md where the Rust has no word. What the Rust tells
    /// only when asked again and again is first asked for as in `ours`.
    fn right(&self, ours: Option<&Self::Answer>) -> (Self::Answer, Self::Besides);

    /// Whether the same can be had from ours, or what is wrong.
    fn besides(&self, _ours: &Self::Answer, _right: Self::Besides) -> Result<(), String> {
        Ok(())
    }

    /// The call in words.
    fn call(&self) -> String;

    /// An answer in words, and the first word in which it is not the right one.
    fn said(&self, answer: &Self::Answer, right: Option<&Self::Answer>) -> String;

    /// The words that replay the call, unless they are too many to print.
    fn replay(&self) -> Option<String>;

    /// What both sides answer.
    fn compare(&self) -> Result<Self::Answer, Difference> {
        let ours = self.ours();
        let (right, besides) = self.right(ours.as_ref().ok());
        let ours = self.same(ours, &right)?;
        let wrong = |wrong: String| self.difference(&self.said(&right, None), &wrong);
        self.besides(&ours, besides).map_err(wrong)?;
        Ok(ours)
    }

    /// Ours, if it is right.
    fn same(
        &self,
        ours: Result<Self::Answer, String>,
        right: &Self::Answer,
    ) -> Result<Self::Answer, Difference> {
        let wrong = match ours {
            Ok(ours) if ours == *right => return Ok(ours),
            Ok(ours) => self.said(&ours, Some(right)),
            Err(wrong) => wrong,
        };
        Err(self.difference(&self.said(right, None), &wrong))
    }

    /// The same in words.
    fn compared(&self) -> Result<String, Difference> {
        let answer = self.compare()?;
        Ok(self.said(&answer, None))
    }

    /// Compares an answer with one that was worked out beside, where the Rust would need too much memory.
    fn told(&self, code: u64, right: Result<u32, Refusal>) -> Result<String, Difference> {
        let right = self::code(right);
        match code == right {
            true => Ok(said(code, "")),
            false => Err(self.difference(&said(right, ""), &said(code, ""))),
        }
    }

    fn difference(&self, expected: &str, given: &str) -> Difference {
        let mut lines = vec![
            format!("call      {}", self.call()),
            format!("expected  {expected}"),
            format!("libhbc_c  {given}"),
        ];
        lines.extend(self.replay().map(|words| format!("replay    --replay {words}")));
        Difference(lines)
    }
}

/// An answer as it comes across the boundary.
pub fn code(answer: Result<u32, Refusal>) -> u64 {
    match answer {
        Ok(n) => n.into(),
        Err((number, place)) => u64::from(number) << 32 | u64::from(place),
    }
}

/// Such an answer in words, and what it counts where it is accepted.
pub fn said(code: u64, what: &str) -> String {
    match (number(code), place(code)) {
        (0, 0) if what.is_empty() => "accepted".to_string(),
        (0, n) => format!("accepted, {n} {what}").trim_end().to_string(),
        (number, place) => format!("refused {number} at {place}"),
    }
}

/// The bits of a float. NaNs are one value: neither side promises which bits they have.
pub fn float_bits(value: f64) -> u64 {
    match value.is_nan() {
        true => 0x7FF8_0000_0000_0000,
        false => value.to_bits(),
    }
}

/// Bytes that a difference still prints, words of a table that it still prints, and words lent that a replay still makes.
const BYTES: usize = 1 << 14;
const WORDS: usize = 1 << 12;
const LENT: usize = 1 << 24;

/// Whether a call can be replayed by these bytes, tables and numbers of words lent.
pub fn printed(bytes: &[u8], tables: &[&[u32]], lent: &[usize]) -> bool {
    let short = |table: &&[u32]| table.len() <= WORDS;
    bytes.len() <= BYTES && tables.iter().all(short) && lent.iter().all(|&words| words <= LENT)
}

/// Bytes as one word of a replay, `-` where there are none.
pub fn bytes_word(bytes: &[u8]) -> String {
    match bytes {
        [] => "-".to_string(),
        _ => bytes.iter().map(|byte| format!("{byte:02x}")).collect(),
    }
}

/// The words of a table as the bytes that they are.
pub fn table_word(table: &[u32]) -> String {
    bytes_word(&bytes_of(table))
}

/// The words of a replay, taken one by one.
pub struct Words<'a>(pub std::slice::Iter<'a, String>);

impl Words<'_> {
    pub fn next(&mut self) -> Result<&str, String> {
        let word = self.0.next();
        word.map(String::as_str).ok_or("a word is missing".to_string())
    }

    /// Whether the next word is this name, which is then taken.
    pub fn called(&mut self, name: &str) -> bool {
        let called = self.0.as_slice().first().is_some_and(|word| word == name);
        called && self.0.next().is_some()
    }

    pub fn number<T: FromStr>(&mut self) -> Result<T, String> {
        parsed(self.next()?)
    }

    pub fn bytes(&mut self) -> Result<Vec<u8>, String> {
        let word = match self.next()? {
            "-" => "",
            word => word,
        };
        let wrong = format!("{word} is not bytes in hexadecimal");
        if !word.is_ascii() || !word.len().is_multiple_of(2) {
            return Err(wrong);
        }
        let byte = |i| u8::from_str_radix(&word[i..i + 2], 16).map_err(|_| wrong.clone());
        (0..word.len()).step_by(2).map(byte).collect()
    }

    pub fn table(&mut self) -> Result<Vec<u32>, String> {
        Ok(words_of(&self.bytes()?))
    }

    /// One of these, by its name.
    pub fn one_of<T: Copy + Debug>(&mut self, all: &[T]) -> Result<T, String> {
        let word = self.next()?;
        let found = all.iter().find(|one| format!("{one:?}") == word);
        found.copied().ok_or(format!("one of {all:?} is needed, not {word}"))
    }
}

pub fn parsed<T: FromStr>(word: &str) -> Result<T, String> {
    word.parse().map_err(|_| format!("{word} is not a number"))
}

/// Both sides on the words of a replay, which are all taken.
pub fn replayed(case: &impl Compare, words: &Words) -> Result<String, Difference> {
    match words.0.as_slice() {
        [] => Ok(format!("as expected: {}", case.compared()?)),
        more => Err(format!("more words than the call takes: {more:?}").into()),
    }
}
