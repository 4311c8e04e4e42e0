//! Tables of words and of pairs.

use bisquepond::sys::*;
use published::error::{Error, Result as Published};
use published::file::parser::table::*;
use published::file::structure::StringKindType;
use published::io::ByteReader;

use crate::case::{bytes_word, code, printed, replayed, said};
use crate::case::{Compare, Difference, Words};
use crate::lent::{first_wrong, lent, Reserved};
use crate::meter;

#[derive(Clone, Copy, PartialEq, Eq, Debug)]
pub enum Op {
    U32Table,
    PairTable,
}

use Op::*;

pub const OPS: [Op; 2] = [U32Table, PairTable];

/// Reads entries as the published Rust does, and hands back their words.
type Reader = fn(&mut ByteReader<'_>, u32) -> Published<Vec<u32>>;

/// Every reader of the published Rust that the call stands for.
const U32_READERS: [Reader; 2] = [parse_u32_vec, |reader, count| {
    let kinds = parse_string_kinds(reader, count)?;
    let word = |identifier, count| (identifier as u32) << 31 | count;
    let words = kinds.iter();
    Ok(words.map(|run| word(run.kind == StringKindType::Identifier, run.count)).collect())
}];
const PAIR_READERS: [Reader; 4] = [
    |reader, count| flat(parse_pair_table(reader, count)?, |pair| pair.into()),
    |reader, count| flat(parse_overflow_string_table(reader, count)?, |pair| pair.into()),
    |reader, count| {
        let entries = parse_table_entries(reader, count)?;
        flat(entries, |entry| [entry.offset, entry.length])
    },
    |reader, count| {
        let shapes = parse_shape_table(reader, count)?;
        flat(shapes, |shape| [shape.key_buffer_offset, shape.num_props])
    },
];

fn flat<T>(entries: Vec<T>, words: impl FnMut(T) -> [u32; 2]) -> Published<Vec<u32>> {
    Ok(entries.into_iter().flat_map(words).collect())
}

impl Op {
    /// Words in an entry.
    pub fn width(self) -> usize {
        match self {
            U32Table => 1,
            PairTable => 2,
        }
    }

    fn readers(self) -> &'static [Reader] {
        match self {
            U32Table => &U32_READERS,
            PairTable => &PAIR_READERS,
        }
    }
}

/// One call: on which bytes, from where, how many entries, into a table of how many words.
#[derive(Clone, Copy)]
pub struct Case<'a> {
    pub op: Op,
    pub input: &'a [u8],
    pub at: usize,
    pub count: u32,
    pub lent: usize,
}

pub fn read(op: Op, input: &[u8], at: usize, count: u32, lent: usize) -> Case<'_> {
    Case { op, input, at, count, lent }
}

#[derive(PartialEq, Eq)]
pub struct Answer {
    pub number: u32,
    pub place: u32,
    pub at: usize,
}

impl Case<'_> {
    fn make(&self, table: *mut u32) -> Answer {
        let call = match self.op {
            U32Table => hbc_read_u32_table,
            PairTable => hbc_read_pair_table,
        };
        let (s, s_len) = (self.input.as_ptr(), self.input.len());
        let mut at = self.at;
        let code = meter::call(|| unsafe { call(s, s_len, &mut at, self.count, table, self.lent) });
        Answer { number: number(code), place: place(code), at }
    }

    /// What docs/FORMAT.md refuses before it reads, where the Rust has no such refusal: its reader has no limit, can't
    /// stand past the end, and lends no table.
    fn refused_at_once(&self) -> Option<Answer> {
        let number = match self.input.len() {
            len if len > LIMIT => 1,
            len if self.at > len => 2,
            _ if self.lent / self.op.width() < self.count as usize => 4,
            _ => return None,
        };
        Some(Answer { number, place: 0, at: self.at })
    }

    /// What one of the Rust's readers answers, and the words it read. Refused, it stands after the last whole word:
    /// that says how many entries came before. docs/FORMAT.md has the cursor where it was.
    fn rust(&self, read: Reader) -> (Answer, Vec<u32>) {
        let mut reader = ByteReader::new(self.input);
        reader.seek(self.at).expect("a cursor within the input");
        let (number, place, at, words) = match read(&mut reader, self.count) {
            Ok(words) => (0, 0, reader.position(), words),
            Err(Error::Parse(text)) if text.starts_with("unexpected end of file") => {
                let whole = (reader.position() - self.at) / (4 * self.op.width());
                (3, whole as u32, self.at, Vec::new())
            }
            Err(error) => panic!("{:?}: not an error of a table read: {error}", self.op),
        };
        (Answer { number, place, at }, words)
    }

    /// What is right, and the words read: by docs/FORMAT.md where that refuses at once, else what all the Rust's readers
    /// answer. They differ in the types they fill alone; of a great table one is enough.
    pub fn readers(&self) -> Vec<(Answer, Vec<u32>)> {
        if let Some(answer) = self.refused_at_once() {
            return vec![(answer, Vec::new())];
        }
        let most = if self.count > 1 << 20 { 1 } else { 4 };
        let readers = self.op.readers().iter().take(most);
        readers.map(|&read| self.rust(read)).collect()
    }

    /// Compares a call that must be refused, into a table that can't be written.
    pub fn compare_refused(&self, table: &Reserved<u32>) -> Result<String, Difference> {
        assert!(self.lent <= table.len());
        let at_once = self.refused_at_once();
        let right = at_once.unwrap_or_else(|| self.rust(self.op.readers()[0]).0);
        assert!(right.number != 0);
        let ours = self.make(table.as_mut_ptr());
        match ours == right {
            true => Ok(ours.words()),
            false => Err(self.difference(&right.words(), &ours.words())),
        }
    }
}

impl Answer {
    fn words(&self) -> String {
        let code = code(Err((self.number, self.place)));
        format!("{}, cursor {}", said(code, ""), self.at)
    }
}

impl Compare for Case<'_> {
    type Answer = (Answer, Vec<u32>);
    /// What the Rust's other readers answer.
    type Besides = Vec<(Answer, Vec<u32>)>;

    fn ours(&self) -> Result<Self::Answer, String> {
        let mut table = lent(Vec::new(), self.lent);
        let answer = self.make(table.as_mut_ptr());
        Ok((answer, table))
    }

    fn right(&self, _: Option<&Self::Answer>) -> (Self::Answer, Self::Besides) {
        let readers = self.readers().into_iter();
        let mut all = readers.map(|(answer, words)| (answer, lent(words, self.lent)));
        let first = all.next().expect("a reader");
        (first, all.collect())
    }

    fn besides(&self, ours: &Self::Answer, others: Self::Besides) -> Result<(), String> {
        match others.iter().find(|other| *other != ours) {
            None => Ok(()),
            Some(other) => {
                let (ours, right) = (self.said(ours, Some(other)), self.said(other, None));
                Err(format!("{ours}, and by another reader {right}"))
            }
        }
    }

    fn call(&self) -> String {
        let (op, at, count, lent, bytes) =
            (self.op, self.at, self.count, self.lent, self.input.len());
        format!("{op:?} at {at}, {count} entries into {lent} words, {bytes} bytes of input")
    }

    fn said(&self, (answer, table): &Self::Answer, right: Option<&Self::Answer>) -> String {
        let right = right.map(|right| &right.1);
        answer.words() + &first_wrong("table", table, right, self.op.width())
    }

    fn replay(&self) -> Option<String> {
        let (op, at, count, lent) = (self.op, self.at, self.count, self.lent);
        let words = || format!("table {op:?} {at} {count} {lent} {}", bytes_word(self.input));
        printed(self.input, &[], &[lent]).then(words)
    }
}

pub fn replay(words: &mut Words) -> Result<String, Difference> {
    let (op, at) = (words.one_of(&OPS)?, words.number()?);
    let (count, lent) = (words.number()?, words.number()?);
    replayed(&read(op, &words.bytes()?, at, count, lent), words)
}
