//! Texts of strings: worked cases, every refusal, and what a text in memory of its own takes.

use std::alloc::{GlobalAlloc, Layout, System};
use std::cell::Cell;

use bisquepond::table::{self, StringRow};
use bisquepond::{Refusal, Row};

/// The most bytes that this thread asked for at once.
struct Most;

thread_local! {
    static MOST: Cell<usize> = const { Cell::new(0) };
}

unsafe impl GlobalAlloc for Most {
    unsafe fn alloc(&self, layout: Layout) -> *mut u8 {
        MOST.set(MOST.get().max(layout.size()));
        unsafe { System.alloc(layout) }
    }

    unsafe fn alloc_zeroed(&self, layout: Layout) -> *mut u8 {
        MOST.set(MOST.get().max(layout.size()));
        unsafe { System.alloc_zeroed(layout) }
    }

    unsafe fn dealloc(&self, at: *mut u8, layout: Layout) {
        unsafe { System.dealloc(at, layout) }
    }
}

#[global_allocator]
static ALLOCATOR: Most = Most;

/// The one row of all bytes, UTF-8 (0) or UTF-16 (1).
fn whole(bytes: &[u8], marks: u32) -> StringRow {
    StringRow::rows(&[0, bytes.len() as u32, 0, marks])[0]
}

fn refused<T: std::fmt::Debug>(answer: Result<T, Refusal>) -> (u32, u32) {
    let refusal = answer.unwrap_err();
    (refusal.number, refusal.place)
}

/// Those of docs/FORMAT.md, section 10.6, that are run.
const WORKED: [(&[u8], u32, &[u8]); 7] = [
    (
        b"\x61\xF1\x80\x80\xE1\x80\xC2\x62\x80\x63\x80\xBF\x64",
        0,
        b"\x61\xEF\xBF\xBD\xEF\xBF\xBD\xEF\xBF\xBD\x62\xEF\xBF\xBD\x63\xEF\xBF\xBD\xEF\xBF\xBD\x64",
    ),
    (b"\xED\xA0\x80", 0, b"\xEF\xBF\xBD\xEF\xBF\xBD\xEF\xBF\xBD"),
    (b"\xC0\x80", 0, b"\xEF\xBF\xBD\xEF\xBF\xBD"),
    (
        b"\xF4\x90\x80\x80",
        0,
        b"\xEF\xBF\xBD\xEF\xBF\xBD\xEF\xBF\xBD\xEF\xBF\xBD",
    ),
    (
        b"\x3D\xD8\x00\xDE\x00\xDC\x61\x00",
        1,
        b"\xF0\x9F\x98\x80\xEF\xBF\xBD\x61",
    ),
    (
        b"\x3D\xD8\x3D\xD8\x00\xDE",
        1,
        b"\xEF\xBF\xBD\xF0\x9F\x98\x80",
    ),
    (b"\x61", 1, b""),
];

#[test]
fn worked_cases() {
    for (bytes, marks, text) in WORKED {
        let row = whole(bytes, marks);
        assert_eq!(row.text(bytes).unwrap().as_bytes(), text, "{bytes:02x?}");
        let mut out = [7; 40];
        let read = row.text_into(bytes, &mut out).unwrap();
        assert_eq!(read.as_bytes(), text);
        assert!(out[text.len()..].iter().all(|&byte| byte == 7));
        for room in 0..text.len() {
            let mut out = [7; 40];
            assert_eq!(refused(row.text_into(bytes, &mut out[..room])), (4, 0));
            assert_eq!(out, [7; 40]);
        }
    }
}

/// A row that is marked invalid, leaves the storage or has half a unit has an empty text, and needs no room.
#[test]
fn rows_of_any_numbers() {
    let storage = b"abcd";
    for words in [
        [0, 2, 1, 0],
        [0, 2, u32::MAX, 0],
        [5, 0, 0, 0],
        [4, 1, 0, 0],
        [0, 5, 0, 0],
        [u32::MAX, 2, 0, 0],
        [2, u32::MAX, 0, 1],
        [0, 3, 0, 1],
        [1, 1, 0, 3],
    ] {
        let row = StringRow::rows(&words)[0];
        assert_eq!(row.text(storage).unwrap(), "", "{words:?}");
        assert_eq!(row.text_into(storage, &mut []).unwrap(), "", "{words:?}");
    }
    // Bit 0 of the marks alone says UTF-16.
    for (marks, text) in [
        (2, "abcd"),
        (u32::MAX - 1, "abcd"),
        (3, "\u{6261}\u{6463}"),
        (u32::MAX, "\u{6261}\u{6463}"),
    ] {
        assert_eq!(whole(storage, marks).text(storage).unwrap(), text);
    }
    assert_eq!(whole(b"", 0).text(b"").unwrap(), "");
}

#[test]
fn refusals_in_their_order() {
    let rows = StringRow::rows(&[0, 1, 0, 0, 0, 1, 0, 0, 0, 0, 0]);
    for index in [2, 3, 1 << 30, 1 << 62, usize::MAX] {
        assert_eq!(refused(table::string_text(b"a", rows, index)), (11, 0));
        let none = table::string_text_into(b"a", rows, index, &mut []);
        assert_eq!(refused(none), (11, 0));
    }
    let short = table::string_text_into(b"a", rows, 1, &mut []);
    assert_eq!(refused(short), (4, 0));
    let long = vec![0; (1 << 30) + 1];
    for index in [0, 2] {
        let text = table::string_text_into(&long, rows, index, &mut []);
        assert_eq!(refused(text), (1, 0));
    }
    // And nothing is made for a text that is refused.
    let all = whole(&long, 0);
    MOST.set(0);
    assert_eq!(refused(all.text(&long)), (1, 0));
    assert_eq!(MOST.get(), 0);
}

/// Well-formed UTF-8 takes as many bytes as it has, UTF-16 at most three a unit; ill-formed bytes at most three each, and
/// what is kept is the text's.
#[test]
fn memory_that_a_text_takes() {
    let utf16 =
        |text: &str| -> Vec<u8> { text.encode_utf16().flat_map(u16::to_le_bytes).collect() };
    let plain = "plain, and a little caf\u{E9}".repeat(40);
    let wide = "\u{65E5}\u{672C}\u{8A9E}".repeat(40);
    for (bytes, marks, text, most) in [
        (plain.as_bytes().to_vec(), 0, plain.clone(), plain.len()),
        (wide.as_bytes().to_vec(), 0, wide.clone(), wide.len()),
        (utf16(&wide), 1, wide.clone(), wide.len()),
        (utf16(&plain), 1, plain.clone(), plain.chars().count() * 3),
        (vec![0xFF; 100], 0, "\u{FFFD}".repeat(100), 300),
        (vec![0xF0; 1], 0, "\u{FFFD}".to_string(), 3),
        (vec![], 0, String::new(), 0),
    ] {
        let row = whole(&bytes, marks);
        MOST.set(0);
        let made = row.text(&bytes).unwrap();
        assert_eq!(MOST.get(), most);
        assert_eq!(made, text);
        assert_eq!(made.capacity(), text.len());
    }
}
