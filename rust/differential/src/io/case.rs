//! One call of the cursor layer.

use bisquepond::sys::*;
use published::error::{Error, Result as Published};
use published::io::ByteReader;

use crate::case::{bytes_word, float_bits, printed, replayed};
use crate::case::{Compare, Difference, Words};
use crate::exact::{self, Kind, UNMARKED};
use crate::lent::Number;
use crate::meter;

/// The calls, in the order of their numbers in a recorded sample.
#[derive(Clone, Copy, PartialEq, Eq, Debug)]
pub enum Op {
    U8,
    I8,
    U16,
    U32,
    U64,
    I32,
    F64,
    Uleb128,
    Sleb128,
    Cstring,
    LengthPrefixedString,
    Bytes,
    Seek,
    Align,
}

use Op::*;

pub const OPS: [Op; 14] = [
    U8,
    I8,
    U16,
    U32,
    U64,
    I32,
    F64,
    Uleb128,
    Sleb128,
    Cstring,
    LengthPrefixedString,
    Bytes,
    Seek,
    Align,
];

pub const PLAIN: [Op; 7] = [U8, I8, U16, U32, U64, I32, F64];

/// One call: on which bytes, from where, and with which length, target or alignment (0 where it takes none).
#[derive(Clone, Copy)]
pub struct Case<'a> {
    pub op: Op,
    pub input: &'a [u8],
    pub at: usize,
    pub argument: usize,
}

pub fn case(op: Op, input: &[u8], at: usize, argument: usize) -> Case<'_> {
    Case { op, input, at, argument }
}

/// What a call gave. The value of a number is its 64 bits, of a span its start and length, of a move nothing. The mark is
/// 1 where a LEB128 number is exact and 0 where it is not, else as it was lent.
#[derive(Clone, Copy, PartialEq, Eq, Debug)]
pub struct Answer {
    pub number: u32,
    pub at: usize,
    pub value: [u64; 2],
    pub mark: u32,
}

/// What the lent places hold before a call, so that a refused one can be seen to have left them.
const LENT: u64 = 0xA5A5_A5A5_A5A5_A5A5;

/// What the published Rust answers from a cursor within the input, and the text of a string it read.
pub fn rust(case: &Case) -> (Answer, Option<String>) {
    let mut reader = ByteReader::new(case.input);
    reader.seek(case.at).expect("a cursor within the input");
    let mut text = None;
    let value = match case.op {
        U8 => reader.read_u8().map(|v| [v as u64, 0]),
        I8 => reader.read_i8().map(|v| [v as u64, 0]),
        U16 => reader.read_u16().map(|v| [v as u64, 0]),
        U32 => reader.read_u32().map(|v| [v as u64, 0]),
        U64 => reader.read_u64().map(|v| [v, 0]),
        I32 => reader.read_i32().map(|v| [v as u64, 0]),
        F64 => reader.read_f64().map(|v| [float_bits(v), 0]),
        Uleb128 => reader.read_uleb128().map(|v| [v, 0]),
        Sleb128 => reader.read_sleb128().map(|v| [v as u64, 0]),
        Seek => reader.seek(case.argument).map(|()| [0, 0]),
        Align => reader.align(case.argument).map(|()| [0, 0]),
        Bytes => reader.read_bytes(case.argument).map(|part| {
            let start = part.as_ptr() as usize - case.input.as_ptr() as usize;
            [start as u64, part.len() as u64]
        }),
        // The Rust hands back a text. Where it stood is seen by the cursor: it ends before the zero ..
        Cstring => reader.read_cstring().map(|read| {
            text = Some(read);
            [case.at as u64, (reader.position() - 1 - case.at) as u64]
        }),
        // .. or begins after its prefix.
        LengthPrefixedString => reader.read_length_prefixed_string().map(|read| {
            text = Some(read);
            let mut prefix = ByteReader::new(case.input);
            prefix.seek(case.at).unwrap();
            prefix.read_uleb128().expect("a prefix that was read");
            let start = prefix.position();
            [start as u64, (reader.position() - start) as u64]
        }),
    };
    let number = refusal(case.op, &value);
    let (at, value) = (reader.position(), value.unwrap_or_default());
    let mark = if number == 0 { mark(case, at, value) } else { UNMARKED };
    (Answer { number, at, value, mark }, text)
}

/// The mark of a call that was accepted, by a second implementation: the Rust has none. The bytes of the number are those
/// up to the Rust's cursor, or to the part that it read; of a number the Rust's value must be what 64 bits hold of it.
fn mark(case: &Case, at: usize, value: [u64; 2]) -> u32 {
    let (kind, end) = match case.op {
        Uleb128 => (Kind::Unsigned, at),
        Sleb128 => (Kind::Signed, at),
        LengthPrefixedString => (Kind::Unsigned, value[0] as usize),
        _ => return UNMARKED,
    };
    let bytes = &case.input[case.at..end];
    let held = exact::held(kind, exact::number(kind, bytes)) as u64;
    let read = if case.op == LengthPrefixedString { value[1] } else { value[0] };
    assert_eq!(held, read, "the comparison itself is wrong: {}", case.call());
    exact::exact(kind, bytes).into()
}

/// The refusal number of docs/FORMAT.md, section 1.1, for an error text of io.rs.
fn refusal(op: Op, answer: &Published<[u64; 2]>) -> u32 {
    let Err(error) = answer else {
        return 0;
    };
    let Error::Parse(text) = error else {
        panic!("{op:?}: not an error of io.rs: {error}");
    };
    let begins = |with| text.starts_with(with);
    match op {
        Seek | Align if begins("seek out of range") => 2,
        Align if begins("alignment must be > 0") => 6,
        U8 | I8 | U16 | U32 | U64 | I32 | F64 | Bytes if begins("unexpected end of file") => 3,
        Uleb128 | LengthPrefixedString if begins("unexpected end of LEB128") => 3,
        Uleb128 | LengthPrefixedString if begins("LEB128 overflow") => 5,
        Sleb128 if begins("unexpected end of SLEB128") => 3,
        Sleb128 if begins("SLEB128 overflow") => 5,
        LengthPrefixedString if begins("length-prefixed string claims") => 3,
        Cstring if begins("unterminated string") => 9,
        _ => panic!("{op:?}: an error text that io.rs does not have: {text}"),
    }
}

/// What docs/FORMAT.md says where the Rust's reader cannot stand, or was not meant to: an input longer than 2^30 bytes,
/// or a cursor past the end.
fn document(case: &Case) -> Option<Answer> {
    let len = case.input.len();
    let number = match case.op {
        _ if len > LIMIT => 1,
        _ if case.at <= len => return None,
        Align if case.argument == 0 => 6,
        Seek if case.argument <= len => 0,
        _ => 2,
    };
    let at = if number == 0 { case.argument } else { case.at };
    Some(Answer { number, at, value: [0, 0], mark: UNMARKED })
}

impl Compare for Case<'_> {
    type Answer = Answer;
    /// The text of a string.
    type Besides = Option<String>;

    fn ours(&self) -> Result<Answer, String> {
        let (s, len) = (self.input.as_ptr(), self.input.len());
        let of = |before| Number::new(before, LENT as usize);
        let (mut at, mut mark) = (of(self.at), Number::new(UNMARKED, UNMARKED));
        let (mut start, mut span_len) = (of(LENT as usize), of(LENT as usize));
        let mut spanned = false;

        // A call that reads one number, and may tell a mark: its answer, whether the lent place is as before, and what
        // the comparison takes for the value.
        macro_rules! read {
            ($call:ident, $lent:expr, $bits:expr $(, $mark:expr)?) => {{
                let mut value = Number::new($lent, $lent);
                let (at, lent) = (at.lent(), value.lent());
                let code = meter::call(|| unsafe { $call(s, len, at, lent $(, $mark)?) });
                let value = value.held()?;
                (code, value.to_le_bytes() == $lent.to_le_bytes(), $bits(value))
            }};
        }
        // A call that reads a part.
        macro_rules! span {
            ([$($argument:expr)?], $call:ident $(, $mark:expr)?) => {{
                spanned = true;
                let (at, from, size) = (at.lent(), start.lent(), span_len.lent());
                let code = meter::call(|| unsafe {
                    $call(s, len, at, $($argument,)? from, size $(, $mark)?)
                });
                (code, [start.held()?, span_len.held()?] == [LENT as usize; 2], 0)
            }};
        }
        // A call that moves the cursor.
        macro_rules! moved {
            ($call:ident) => {{
                let at = at.lent();
                (meter::call(|| unsafe { $call(s, len, at, self.argument) }), true, 0)
            }};
        }
        let (code, kept, bits) = match self.op {
            U8 => read!(hbc_read_u8, LENT as u8, |v| v as u64),
            I8 => read!(hbc_read_i8, LENT as i8, |v| v as u64),
            U16 => read!(hbc_read_u16, LENT as u16, |v| v as u64),
            U32 => read!(hbc_read_u32, LENT as u32, |v| v as u64),
            U64 => read!(hbc_read_u64, LENT, |v| v),
            I32 => read!(hbc_read_i32, LENT as i32, |v| v as u64),
            F64 => read!(hbc_read_f64, f64::from_bits(LENT), float_bits),
            Uleb128 => read!(hbc_read_uleb128, LENT, |v| v, mark.lent()),
            Sleb128 => read!(hbc_read_sleb128, LENT as i64, |v| v as u64, mark.lent()),
            Cstring => span!([], hbc_read_cstring),
            LengthPrefixedString => span!([], hbc_read_length_prefixed_string, mark.lent()),
            Bytes => span!([self.argument], hbc_read_bytes),
            Seek => moved!(hbc_seek),
            Align => moved!(hbc_align),
        };
        let (number, at, mark) = (number(code), at.held()?, mark.held()?);
        if place(code) != 0 {
            return Err(format!("place {} in answer {code:#x}", place(code)));
        }
        if number != 0 && !kept {
            return Err(format!("refused {number}, but a lent value was written"));
        }
        let value = match (number, spanned) {
            (0, true) => [start.held()? as u64, span_len.held()? as u64],
            (0, false) => [bits, 0],
            _ => [0, 0],
        };
        Ok(Answer { number, at, value, mark })
    }

    fn right(&self, _: Option<&Answer>) -> (Answer, Option<String>) {
        match document(self) {
            Some(answer) => (answer, None),
            None => rust(self),
        }
    }

    fn besides(&self, ours: &Answer, text: Option<String>) -> Result<(), String> {
        let Some(text) = text else {
            return Ok(());
        };
        let [start, len] = ours.value.map(|n| n as usize);
        let part = String::from_utf8_lossy(&self.input[start..start + len]);
        match part == text {
            true => Ok(()),
            false => Err(format!("the part read is {part:?}, the Rust's text {text:?}")),
        }
    }

    fn call(&self) -> String {
        let (op, at, argument, len) = (self.op, self.at, self.argument, self.input.len());
        let end = match printed(self.input, &[], &[]) {
            true => String::new(),
            false => format!(", the last are {}", bytes_word(&self.input[len - 64..])),
        };
        format!("{op:?} at {at} with {argument}, {len} bytes of input{end}")
    }

    fn said(&self, answer: &Answer, _: Option<&Answer>) -> String {
        let at = answer.at;
        let [first, second] = answer.value;
        let mark = match answer.mark {
            UNMARKED => String::new(),
            0 => ", bits lost".to_string(),
            1 => ", exact".to_string(),
            mark => format!(", marked {mark}"),
        };
        let words = match (answer.number, self.op) {
            (0, Seek | Align) => format!("accepted, cursor {at}"),
            (0, Bytes | Cstring | LengthPrefixedString) => {
                format!("accepted, {second} bytes from {first}, cursor {at}")
            }
            (0, I8 | I32 | Sleb128) => format!("accepted, value {}, cursor {at}", first as i64),
            (0, F64) => format!("accepted, float bits {first:016x}, cursor {at}"),
            (0, _) => format!("accepted, value {first}, cursor {at}"),
            (number, _) => format!("refused {number}, cursor {at}"),
        };
        words + &mark
    }

    fn replay(&self) -> Option<String> {
        let (op, at, argument, input) = (self.op, self.at, self.argument, self.input);
        let words = || format!("io {op:?} {at} {argument} {}", bytes_word(input));
        printed(input, &[], &[]).then(words)
    }
}

/// `OP CURSOR ARGUMENT BYTES`, as a difference prints them.
pub fn replay(words: &mut Words) -> Result<String, Difference> {
    let (op, at, argument) = (words.one_of(&OPS)?, words.number()?, words.number()?);
    replayed(&case(op, &words.bytes()?, at, argument), words)
}
