//! Why a function has no handlers, or how many: against the Rust, against the request's sentences one by one, and beside
//! what the archive itself lists.

use bisquepond::function::FunctionRow;
use bisquepond::parsing::{self, Why as Said};
use bisquepond::sys::{hbc_read_handlers, hbc_why_no_handlers, number, LIMIT};
use bisquepond::Row as _;

use super::handlers::{header, listed, FLAGS, FUNCTION, INFO_OFFSET, ROW};
use crate::case::{bytes_word, code, printed, replayed, said, table_word};
use crate::case::{Compare, Difference, Refusal, Words};
use crate::lent::{guarded, inside, Number};
use crate::meter;

/// What is answered where handlers are shown, and the reasons.
pub const SHOWN: u32 = 0;
pub const FLAG_CLEAR: u32 = 1;
pub const INFO_ZERO: u32 = 2;
pub const INFO_PAST: u32 = 3;
pub const NO_ROOM: u32 = 4;
pub const COUNT_ZERO: u32 = 5;
pub const COUNT_HIGH: u32 = 6;
pub const CUT: u32 = 7;

/// One call on function `id` of these words.
#[derive(Clone, Copy)]
pub struct Why<'a> {
    pub file: &'a [u8],
    pub functions: &'a [u32],
    pub id: u32,
}

/// The seven sentences of the request, each by itself: whether it holds, also where one before it does. And the count.
fn sentences(file: &[u8], info: u32, flags: u32) -> ([bool; 7], u64) {
    let (info, len) = (u64::from(info), file.len() as u64);
    let place = (info..).find(|place| place % 4 == 0).expect("one of four") as usize;
    let behind = file.get(place..).unwrap_or(&[]);
    let number = |bytes: &[u8]| bytes.iter().rev().fold(0, |n, &byte| 256 * n + u64::from(byte));
    let count = behind.get(..4).map(number);
    let triples = behind.get(4..).unwrap_or(&[]).chunks_exact(12).len() as u64;
    let holds = [
        flags / 8 % 2 != 1,
        info == 0,
        info >= len,
        behind.len() < 4,
        count == Some(0),
        count > Some(1000),
        count > Some(triples),
    ];
    (holds, count.unwrap_or(0))
}

/// The answer and the number of handlers, 0 where there are none, of a row: by the Rust as far as it says it, and by the
/// sentences. The run stops where these differ.
pub fn of_row(file: &[u8], row: &[u32]) -> (u32, u32) {
    let shown = listed(file, &[header(0, row)]).len() as u32;
    let (holds, count) = sentences(file, row[INFO_OFFSET], row[FLAGS]);
    let why = holds.iter().position(|&holds| holds).map_or(SHOWN, |i| i as u32 + 1);
    let handlers = if why == SHOWN { count } else { 0 };
    assert_eq!(u64::from(shown), handlers, "docs/FORMAT.md, section 6.1: {why}, the Rust's first");
    (why, shown)
}

/// The call itself.
pub fn make(file: &[u8], functions: (*const u32, usize), id: u32, handlers: *mut u32) -> u64 {
    let (s, len) = (file.as_ptr(), file.len());
    meter::call(|| unsafe { hbc_why_no_handlers(s, len, functions.0, functions.1, id, handlers) })
}

impl<'a> Why<'a> {
    /// The function's row, if there is one.
    fn row(&self) -> Option<&'a [u32]> {
        self.functions.chunks_exact(FUNCTION).nth(self.id as usize)
    }

    /// What is right: the answer and the number, or the refusal.
    pub fn right(&self) -> Result<(u32, u32), Refusal> {
        if self.file.len() > LIMIT {
            return Err((1, 0));
        }
        let row = self.row().ok_or((11, 0))?;
        Ok(of_row(self.file, row))
    }

    /// Copies of what is only read, with words and bytes on both sides, where it is small enough.
    fn given(&self) -> Option<(Vec<u32>, Vec<u8>)> {
        let small = self.functions.len() < 1 << 12 && self.file.len() < 1 << 14;
        let copies =
            || (guarded(self.functions, self.functions.len()), guarded(self.file, self.file.len()));
        small.then(copies)
    }

    /// How many rows the archive lists for the function, alone in a table: so many are lent, and one more.
    fn rows(&self, right: u32) -> Result<usize, String> {
        let (s, len, mut total) = (self.file.as_ptr(), self.file.len(), 0);
        let row = self.row().ok_or("no row, and not refused")?;
        let mut rows = vec![7; (right as usize + 1) * ROW];
        let (lent, words) = (rows.as_mut_ptr(), rows.len());
        let code = unsafe {
            hbc_read_handlers(s, len, row.as_ptr(), FUNCTION, 1, lent, words, &mut total)
        };
        match code {
            0 => Ok(total),
            code => Err(format!("{} of its handlers, listed", said(code, ""))),
        }
    }
}

/// What the number holds before a call.
const LENT: u32 = 0xA5A5_A5A5;

/// The answer, the number of handlers as it is afterwards; where they are small, functions and file too.
#[derive(PartialEq, Eq)]
pub struct Answer {
    pub code: u64,
    pub handlers: u32,
    given: Option<(Vec<u32>, Vec<u8>)>,
}

impl Compare for Why<'_> {
    type Answer = Answer;
    type Besides = ();

    fn ours(&self) -> Result<Answer, String> {
        let (mut handlers, given) = (Number::new(LENT, !LENT), self.given());
        let (functions, file) = match &given {
            Some((functions, file)) => (inside(functions), inside(file)),
            None => (self.functions, self.file),
        };
        let words = (functions.as_ptr(), functions.len());
        let code = make(file, words, self.id, handlers.lent());
        Ok(Answer { code, handlers: handlers.held()?, given })
    }

    fn right(&self, _: Option<&Answer>) -> (Answer, ()) {
        let right = Why::right(self);
        let handlers = match right {
            Ok((SHOWN, handlers)) => handlers,
            _ => LENT,
        };
        let code = code(right.map(|(why, _)| why));
        (Answer { code, handlers, given: self.given() }, ())
    }

    /// As many rows are listed; and the Rust crate's call says the same.
    fn besides(&self, ours: &Answer, _: ()) -> Result<(), String> {
        let refusal = |why: bisquepond::Refusal| (why.number, why.place);
        let functions = FunctionRow::rows(self.functions);
        let in_rust = parsing::why_no_handlers(self.file, functions, self.id).map_err(refusal);
        if code(in_rust.map(Said::number)) != ours.code {
            return Err("another answer in Rust".to_string());
        }
        let shown = in_rust.map_or(0, Said::handlers);
        if shown != if ours.code == SHOWN.into() { ours.handlers } else { 0 } {
            return Err(format!("{shown} handlers in Rust"));
        }
        if number(ours.code) == 0 && self.rows(shown)? != shown as usize {
            return Err("another number of rows is listed".to_string());
        }
        Ok(())
    }

    fn call(&self) -> String {
        let (words, len) = (self.functions.len(), self.file.len());
        format!("why of function {}, {len} bytes of file, {words} words lent", self.id)
    }

    fn said(&self, answer: &Answer, right: Option<&Answer>) -> String {
        let handlers = match answer.handlers {
            LENT => "no number".to_string(),
            handlers => format!("{handlers} handlers"),
        };
        let changed = right.is_some_and(|right| right.given != answer.given);
        let changed = if changed { "; what is only read changed" } else { "" };
        match (number(answer.code), answer.code) {
            (0, why) => format!("answer {why}, {handlers}{changed}"),
            (_, code) => format!("{}, {handlers}{changed}", said(code, "")),
        }
    }

    fn replay(&self) -> Option<String> {
        printed(self.file, &[self.functions], &[]).then(|| {
            let (file, functions) = (bytes_word(self.file), table_word(self.functions));
            format!("parsing Why {} {file} {functions}", self.id)
        })
    }
}

/// `ID FILE FUNCTIONS`.
pub fn replay(words: &mut Words) -> Result<String, Difference> {
    let case = Why { id: words.number()?, file: &words.bytes()?, functions: &words.table()? };
    replayed(&case, words)
}
