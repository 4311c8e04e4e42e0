//! Tables and buffers that are lent to a call: every word can be seen to have been written or to have stayed, also those
//! behind the lent ones.

use bisquepond::function::FunctionRow;
use bisquepond::Row as _;

use crate::case::said;

/// A word of a lent table, and what it holds before the call.
pub trait Word: Copy + Eq + std::fmt::Debug {
    fn before(i: usize) -> Self;
}

impl Word for u8 {
    fn before(i: usize) -> u8 {
        0xA5 ^ i as u8
    }
}

impl Word for u32 {
    fn before(i: usize) -> u32 {
        0xA5A5_0000 ^ i as u32
    }
}

impl Word for u64 {
    fn before(i: usize) -> u64 {
        0xA5A5_A5A5_0000_0000 ^ i as u64
    }
}

/// Words behind the lent ones, which no call may touch: a row of the longest.
pub const BEHIND: usize = FunctionRow::WORDS;

/// These words, then as many more as are not written where `len` are lent, and those behind.
pub fn lent<T: Word>(mut words: Vec<T>, len: usize) -> Vec<T> {
    assert!(words.len() <= len);
    words.extend((words.len()..len + BEHIND).map(T::before));
    words
}

/// Words in front of the lent ones, where a call is given such.
pub const FRONT: usize = 16;

/// The same with those in front.
pub fn guarded<T: Word>(words: &[T], len: usize) -> Vec<T> {
    let mut all = Vec::with_capacity(FRONT + len + BEHIND);
    all.extend((0..FRONT).map(T::before));
    all.extend(words);
    lent(all, FRONT + len)
}

/// What is lent of such words.
pub fn inside<T>(guarded: &[T]) -> &[T] {
    &guarded[FRONT..guarded.len() - BEHIND]
}

/// Whether those in front and those behind are as they were.
pub fn kept<T: Word>(guarded: &[T]) -> bool {
    let mut outside = (0..FRONT).chain(guarded.len() - BEHIND..guarded.len());
    outside.all(|i| guarded[i] == T::before(i))
}

/// A copy of these words to be lent, and those behind.
pub fn copied(words: &[u32]) -> Vec<u32> {
    let mut copy = Vec::with_capacity(words.len() + BEHIND);
    copy.extend(words);
    lent(copy, words.len())
}

/// The first word of a table that is not as it should be, by its row.
pub fn first_wrong<T: Word>(
    table: &str,
    given: &[T],
    right: Option<&Vec<T>>,
    row: usize,
) -> String {
    let wrong = right.and_then(|right| given.iter().zip(right).position(|(a, b)| a != b));
    let (Some(i), Some(right)) = (wrong, right) else {
        return String::new();
    };
    let lent = i < given.len() - BEHIND;
    let behind = if lent { "" } else { ", behind what is lent," };
    let (row, word) = (i / row, i % row);
    format!("; {table} row {row} word {word}{behind} is {:?}, not {:?}", given[i], right[i])
}

/// The answer of a call that is lent one table, as it comes, and every word of the table as it is afterwards.
#[derive(Clone, PartialEq, Eq)]
pub struct Answer {
    pub code: u64,
    pub table: Vec<u32>,
}

impl Answer {
    /// In words: how many an accepted one counts, and the first wrong word.
    pub fn words(&self, what: &str, right: Option<&Answer>, row: usize) -> String {
        let right = right.map(|right| &right.table);
        said(self.code, what) + &first_wrong("table", &self.table, right, row)
    }
}

/// A number that is lent, between two others that no call may touch.
pub struct Number<T> {
    all: [T; 3],
    beside: T,
}

impl<T: Copy + PartialEq> Number<T> {
    /// It holds `before`, and those beside it hold `beside`.
    pub fn new(before: T, beside: T) -> Self {
        Number { all: [beside, before, beside], beside }
    }

    /// As it is lent.
    pub fn lent(&mut self) -> *mut T {
        unsafe { self.all.as_mut_ptr().add(1) }
    }

    /// What it holds; an error where a number beside it was written.
    pub fn held(&self) -> Result<T, String> {
        let [before, held, behind] = self.all;
        match before == self.beside && behind == self.beside {
            true => Ok(held),
            false => Err("a number beside a lent one was written".to_string()),
        }
    }
}

/// A table of so many words that it cannot be filled: addresses without memory, all zeros, that may be read alone. A
/// call that writes there ends the program.
pub struct Reserved<T> {
    begin: *mut T,
    len: usize,
}

const READ: i32 = 1;
const PRIVATE_ANONYMOUS_NORESERVE: i32 = 0x2 | 0x20 | 0x4000;

extern "C" {
    fn mmap(at: *mut u8, len: usize, allowed: i32, kind: i32, file: i32, from: i64) -> *mut u8;
    fn munmap(at: *mut u8, len: usize) -> i32;
}

impl<T> Reserved<T> {
    /// None where the machine does not give out so many addresses.
    pub fn new(len: usize) -> Option<Self> {
        let bytes = len * size_of::<T>();
        let at = std::ptr::null_mut();
        let begin = unsafe { mmap(at, bytes, READ, PRIVATE_ANONYMOUS_NORESERVE, -1, 0) };
        (begin as isize != -1).then_some(Reserved { begin: begin.cast(), len })
    }

    pub fn len(&self) -> usize {
        self.len
    }

    pub fn as_mut_ptr(&self) -> *mut T {
        self.begin
    }
}

impl<T> Drop for Reserved<T> {
    fn drop(&mut self) {
        unsafe { munmap(self.begin.cast(), self.len * size_of::<T>()) };
    }
}
