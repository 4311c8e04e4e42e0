//! Why a function has no handlers: every answer, every refusal, the sentences; and that counting handlers takes no memory.

use std::alloc::{GlobalAlloc, Layout, System};
use std::cell::Cell;
use std::collections::HashSet;

use bisquepond::function::FunctionRow;
use bisquepond::parsing::{self, Why};
use bisquepond::{Refusal, Row, sys};

/// How often this thread asked for memory.
struct Asked;

thread_local! {
    static ASKED: Cell<usize> = const { Cell::new(0) };
}

unsafe impl GlobalAlloc for Asked {
    unsafe fn alloc(&self, layout: Layout) -> *mut u8 {
        ASKED.set(ASKED.get() + 1);
        unsafe { System.alloc(layout) }
    }

    unsafe fn alloc_zeroed(&self, layout: Layout) -> *mut u8 {
        ASKED.set(ASKED.get() + 1);
        unsafe { System.alloc_zeroed(layout) }
    }

    unsafe fn dealloc(&self, at: *mut u8, layout: Layout) {
        unsafe { System.dealloc(at, layout) }
    }
}

#[global_allocator]
static ALLOCATOR: Asked = Asked;

/// How often memory is asked for.
fn asked<T>(call: impl FnOnce() -> T) -> (T, usize) {
    let before = ASKED.get();
    let answer = call();
    (answer, ASKED.get() - before)
}

fn refused<T: std::fmt::Debug>(answer: Result<T, Refusal>) -> (u32, u32) {
    let refusal = answer.unwrap_err();
    (refusal.number, refusal.place)
}

/// The words of a function's row.
const ROW: usize = FunctionRow::WORDS;

/// A function whose other words are no use to anybody.
fn function(info_offset: u32, flags: u32) -> [u32; ROW] {
    let mut row = [u32::MAX; ROW];
    (row[6], row[8]) = (info_offset, flags);
    row
}

/// At 4 two handlers, at 32 none, at 36 1001, at 40 two of which the second is cut; two bytes behind them.
fn file() -> Vec<u8> {
    let words = [0, 2, 1, 2, 3, 4, 5, 6, 0, 1001, 2, 7, 8, 9];
    let mut file: Vec<u8> = words.into_iter().flat_map(u32::to_le_bytes).collect();
    file.extend([0, 0]);
    file
}

/// Functions of that file, and what is to be said of each.
const FUNCTIONS: [(u32, u32, Why); 16] = [
    (4, 8, Why::Shown(2)),
    (1, u32::MAX, Why::Shown(2)),
    (4, 0xF7, Why::FlagClear),
    (0, !8, Why::FlagClear),
    (0, 8, Why::InfoZero),
    (58, 8, Why::InfoPast),
    (u32::MAX, 8, Why::InfoPast),
    (57, 8, Why::NoRoom),
    (53, 8, Why::NoRoom),
    (32, 8, Why::CountZero),
    (29, 8, Why::CountZero),
    (36, 8, Why::CountHigh),
    (33, 8, Why::CountHigh),
    (40, 8, Why::Cut),
    (37, 8, Why::Cut),
    (8, 8, Why::Shown(1)),
];

fn words() -> Vec<u32> {
    let row = |&(info_offset, flags, _): &(u32, u32, Why)| function(info_offset, flags);
    FUNCTIONS.iter().flat_map(row).collect()
}

#[test]
fn every_answer() {
    let (file, words) = (file(), words());
    let functions = FunctionRow::rows(&words);
    let listed = parsing::read_handlers(&file, functions, 16).unwrap();
    for ((_, _, why), id) in FUNCTIONS.into_iter().zip(0..) {
        let (answer, memory) = asked(|| parsing::why_no_handlers(&file, functions, id));
        assert_eq!((answer, memory), (Ok(why), 0), "function {id}");
        let rows = parsing::handlers_of(&listed, id).len();
        assert_eq!(why.handlers() as usize, rows, "function {id}");
    }
    let numbers: HashSet<u32> = FUNCTIONS.iter().map(|row| row.2.number()).collect();
    assert_eq!(numbers, HashSet::from_iter(0..8));
}

/// A file of zeros, with a count at 48 if it is none.
fn counting(len: usize, count: u32) -> Vec<u8> {
    let mut file = vec![0; len];
    if count > 0 {
        file[48..52].copy_from_slice(&count.to_le_bytes());
    }
    file
}

/// Y1 to Y8 of docs/FORMAT.md, section 10.7.
#[test]
fn worked_cases() {
    let cases = [
        (counting(64, 0), 0, 0xFFFF_FFF7, Why::FlagClear),
        (counting(64, 0), 0, 8, Why::InfoZero),
        (counting(0, 0), 0, 8, Why::InfoZero),
        (counting(64, 0), 64, 8, Why::InfoPast),
        (counting(0, 0), 1, 8, Why::InfoPast),
        (counting(64, 0), 63, 8, Why::NoRoom),
        (counting(64, 0), 61, 8, Why::NoRoom),
        (counting(63, 0), 60, 8, Why::NoRoom),
        (counting(64, 0), 60, 8, Why::CountZero),
        (counting(64, 0), 57, 8, Why::CountZero),
        (counting(64, 1001), 45, 8, Why::CountHigh),
        (counting(12_064, 1001), 45, 8, Why::CountHigh),
        (counting(64, 1000), 45, 8, Why::Cut),
        (counting(12_051, 1000), 45, 8, Why::Cut),
        (counting(12_052, 1000), 45, 8, Why::Shown(1000)),
        (counting(64, 2), 45, 8, Why::Cut),
        (counting(75, 2), 45, 8, Why::Cut),
        (counting(76, 2), 45, 8, Why::Shown(2)),
    ];
    for (file, info_offset, flags, why) in cases {
        let mut words = [9; ROW];
        (words[6], words[8]) = (info_offset, flags);
        let answer = parsing::why_no_handlers(&file, FunctionRow::rows(&words), 0);
        assert_eq!(answer, Ok(why), "info_offset {info_offset}");
    }
    // Rows are whole in the crate's own call: words that make none are lent to the one in C.
    let (file, lent, mut handlers) = (counting(76, 2), [8u32; 2 * ROW - 1], 5);
    let (bytes, words) = (file.as_ptr(), (lent.as_ptr(), lent.len()));
    let code = unsafe { sys::hbc_why_no_handlers(bytes, 76, words.0, words.1, 1, &mut handlers) };
    assert_eq!((code, handlers), (11 << 32, 5));
}

#[test]
fn the_most_handlers() {
    for (count, why) in [
        (999, Why::Shown(999)),
        (1000, Why::Shown(1000)),
        (1001, Why::CountHigh),
    ] {
        let mut file = vec![0; 8 + 12 * 1001];
        file[4..8].copy_from_slice(&u32::to_le_bytes(count));
        let words = function(4, 8);
        let functions = FunctionRow::rows(&words);
        assert_eq!(parsing::why_no_handlers(&file, functions, 0), Ok(why));
        // Exactly its triples are needed; too high a count is told before that they are cut.
        file.truncate(8 + 12 * count as usize - 1);
        let cut = if count > 1000 { why } else { Why::Cut };
        assert_eq!(parsing::why_no_handlers(&file, functions, 0), Ok(cut));
    }
}

#[test]
fn no_such_row_and_too_long_a_file() {
    let (file, words) = (file(), words());
    for lent in [0, 1, 15] {
        let functions = FunctionRow::rows(&words[..lent * ROW]);
        for id in [lent as u32, 16, u32::MAX] {
            assert_eq!(
                refused(parsing::why_no_handlers(&file, functions, id)),
                (11, 0)
            );
        }
    }
    // 1 comes before 11, and before any row is looked at.
    let long = vec![0; (1 << 30) + 1];
    let functions = FunctionRow::rows(&words);
    for id in [0, 3, 16] {
        assert_eq!(
            refused(parsing::why_no_handlers(&long, functions, id)),
            (1, 0)
        );
    }
    assert_eq!(
        parsing::why_no_handlers(&long[1..], functions, 3),
        Ok(Why::FlagClear)
    );
    for count in [0, 1, 17] {
        assert_eq!(
            refused(parsing::count_handlers(&long, functions, count)),
            (1, 0)
        );
    }
    assert_eq!(
        refused(parsing::count_handlers(&file, functions, 17)),
        (11, 0)
    );
    assert_eq!(
        refused(parsing::count_handlers(&file, functions, u32::MAX)),
        (11, 0)
    );
}

/// A thousand handlers that a thousand functions share are counted without a row of memory.
#[test]
fn counted_without_memory() {
    let mut shared = vec![0; 8 + 12_000];
    shared[4..8].copy_from_slice(&1000u32.to_le_bytes());
    let many = function(4, 8).repeat(1000);
    let functions = FunctionRow::rows(&many);
    let (total, memory) = asked(|| parsing::count_handlers(&shared, functions, 1000));
    assert_eq!((total, memory), (Ok(1_000_000), 0));
    let (file, words) = (file(), words());
    for count in 0..=16 {
        let functions = FunctionRow::rows(&words);
        let (total, memory) = asked(|| parsing::count_handlers(&file, functions, count));
        let listed = parsing::read_handlers(&file, functions, count).unwrap();
        assert_eq!((total, memory), (Ok(listed.len()), 0));
    }
}

/// Eight sentences, none like another; one handler is one, and a reason speaks of none.
#[test]
fn sentences() {
    let all: HashSet<String> = FUNCTIONS.iter().map(|row| row.2.to_string()).collect();
    assert_eq!(all.len(), 9, "two counts and seven reasons: {all:?}");
    assert_eq!(Why::Shown(1).to_string(), "it has 1 handler");
    assert_eq!(Why::Shown(1000).to_string(), "it has 1000 handlers");
    for (_, _, why) in FUNCTIONS {
        let shown = why.handlers() > 0;
        assert_eq!(why.to_string().contains("no handlers: "), !shown, "{why}");
    }
    let words = [
        (Why::FlagClear, "bit 3"),
        (Why::InfoZero, "word 6"),
        (Why::InfoPast, "past the end"),
        (Why::NoRoom, "4 bytes"),
        (Why::CountZero, "is 0"),
        (Why::CountHigh, "above 1000"),
        (Why::Cut, "12 bytes each"),
    ];
    for (why, word) in words {
        assert!(why.to_string().contains(word), "{why}");
    }
}
