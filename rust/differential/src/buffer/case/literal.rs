//! One literal.

use bisquepond::sys::*;
use published::file::parser::buffer::literal;
use published::io::ByteReader;

use super::{file, refusal, told};
use crate::case::{bytes_word, code, float_bits, printed, replayed, said};
use crate::case::{Compare, Difference, Words};
use crate::meter;

/// One call: on which bytes, from where, and by which tag.
#[derive(Clone, Copy)]
pub struct Case<'a> {
    pub input: &'a [u8],
    pub at: usize,
    pub tag: u8,
}

/// The answer, the cursor, and what the three lent numbers hold; a NaN is one value.
#[derive(PartialEq, Eq)]
pub struct Answer {
    pub number: u32,
    place: u32,
    pub at: usize,
    pub kind: u32,
    pub float: u64,
    pub word: u32,
}

/// What the lent numbers hold before a call.
const KIND: u32 = 0xA5A5_A5A5;
const FLOAT: f64 = -1.25;
const WORD: u32 = 0x5A5A_5A5A;

impl Case<'_> {
    /// What the Rust answers; where its reader can't stand, what docs/FORMAT.md says.
    pub fn expected(&self) -> Answer {
        let mut answer = Answer {
            number: 0,
            place: 0,
            at: self.at,
            kind: KIND,
            float: FLOAT.to_bits(),
            word: WORD,
        };
        if self.input.len() > LIMIT || self.at > self.input.len() {
            answer.number = if self.input.len() > LIMIT { 1 } else { 2 };
            return answer;
        }
        let mut reader = ByteReader::new(self.input);
        reader.seek(self.at).unwrap();
        match literal(file(), self.tag >> 4 & 7, &mut reader) {
            Err(error) => answer.number = refusal(&error),
            Ok(value) => {
                let (kind, payload) = told(&value);
                answer.kind = kind;
                match kind {
                    3 => answer.float = float_bits(f64::from_bits(payload)),
                    4 | 5 => answer.word = payload as u32,
                    _ => (),
                }
            }
        }
        answer.at = reader.position();
        answer
    }
}

impl Compare for Case<'_> {
    type Answer = Answer;
    type Besides = ();

    fn ours(&self) -> Result<Answer, String> {
        let (s, len) = (self.input.as_ptr(), self.input.len());
        let (mut at, mut kind, mut float, mut word) = (self.at, KIND, FLOAT, WORD);
        let code = meter::call(|| unsafe {
            let (kind, float, word) = (&mut kind, &mut float, &mut word);
            hbc_read_literal(s, len, &mut at, self.tag, kind, float, word)
        });
        Ok(Answer {
            number: number(code),
            place: place(code),
            at,
            kind,
            float: float_bits(float),
            word,
        })
    }

    fn right(&self, _: Option<&Answer>) -> (Answer, ()) {
        (self.expected(), ())
    }

    fn call(&self) -> String {
        let (at, tag, bytes) = (self.at, self.tag, self.input.len());
        format!("Literal at {at}, tag {tag:#04x}, {bytes} bytes of input")
    }

    fn said(&self, answer: &Answer, _: Option<&Answer>) -> String {
        let said = said(code(Err((answer.number, answer.place))), "");
        let (at, kind, float, word) = (answer.at, answer.kind, answer.float, answer.word);
        format!("{said}, cursor {at}, kind {kind}, float bits {float:016x}, word {word}")
    }

    fn replay(&self) -> Option<String> {
        let (tag, at) = (self.tag, self.at);
        let words = || format!("buffer Literal {tag} {at} {}", bytes_word(self.input));
        printed(self.input, &[], &[]).then(words)
    }
}

/// `TAG CURSOR BYTES`.
pub fn replay(words: &mut Words) -> Result<String, Difference> {
    let case = Case { tag: words.number()?, at: words.number()?, input: &words.bytes()? };
    replayed(&case, words)
}
