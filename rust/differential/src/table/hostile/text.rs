//! Hostile inputs for texts: 2^30 bytes of which every one is ill-formed, of the longest parts, and in too little room.

use bisquepond::sys::LIMIT;
use harness::Random;

use super::super::case::strings::ROW;
use super::super::case::text::{all, make, Text};
use super::super::groups::text::{any_string, KINDS_OF_STRINGS};
use crate::case::{Compare, Compared, Difference};
use crate::hostile::{size, Soak};
use crate::inputs::fill;
use crate::lent::Reserved;

const REPLACEMENT: &[u8] = b"\xEF\xBF\xBD";

/// A name, the piece that all of the storage is made of, whether it is UTF-16, and what the text is made of.
type Filled = (&'static str, &'static [u8], bool, &'static [u8]);

const FILLED: [Filled; 10] = [
    ("plain", b"a", false, b"a"),
    ("FF", b"\xFF", false, REPLACEMENT),
    ("F0 90 80, no fourth", b"\xF0\x90\x80", false, REPLACEMENT),
    ("E1 80 and a letter", b"\xE1\x80a", false, b"\xEF\xBF\xBDa"),
    ("letters of two bytes", b"\xC3\xA9", false, b"\xC3\xA9"),
    ("of three", b"\xE6\x97\xA5", false, b"\xE6\x97\xA5"),
    ("of four", b"\xF0\x9F\x98\x80", false, b"\xF0\x9F\x98\x80"),
    ("UTF-16, first halves alone", b"\x00\xD8", true, REPLACEMENT),
    ("UTF-16, pairs", b"\x3D\xD8\x00\xDE", true, b"\xF0\x9F\x98\x80"),
    ("UTF-16, letters", b"a\0", true, b"a"),
];

pub fn soak(soak: &mut Soak) -> Compared {
    for filled in FILLED {
        let (name, piece, _, text) = filled;
        // Whole pieces alone, so that the text is whole pieces too.
        let pieces = LIMIT / piece.len();
        let (read, written) = (pieces * piece.len(), pieces * text.len());
        let both = size(read + written, read + written);
        soak.case(&format!("text of 2^30 bytes, {name}"), both, |storage| {
            fill(storage, read, piece);
            whole(storage, filled, written)
        })?;
        let short = format!("text of 2^30 bytes, {name}, a byte short");
        soak.case(&short, size(read, read), |storage| {
            fill(storage, read, piece);
            short_of(storage, filled, written)
        })?;
    }
    Ok(())
}

/// A call of its own, for what a difference says of it.
fn of<'a>(storage: &'a [u8], rows: &'a [u32; ROW], lent: usize) -> Text<'a> {
    Text { storage, rows, index: 0, lent }
}

/// The whole text, piece by piece, in just as much room.
fn whole(storage: &[u8], filled: Filled, len: usize) -> Result<String, Difference> {
    let (_, _, utf16, piece) = filled;
    let (rows, mut out) = (all(storage, utf16), vec![7; len + 1]);
    let code = make(storage, (rows.as_ptr(), ROW), 0, (out.as_mut_ptr(), len));
    let case = of(storage, &rows, len);
    let said = case.told(code, Ok(len as u32))?;
    let wrong = out[..len].chunks_exact(piece.len()).position(|part| part != piece);
    match (wrong, out[len]) {
        (None, 7) => Ok(said),
        (None, _) => Err(case.difference("the byte behind as it was", "another")),
        (Some(i), _) => Err(case.difference("one text again and again", &format!("not at {i}"))),
    }
}

/// With a byte too few: refused, and nothing written, or the program would end.
fn short_of(storage: &[u8], filled: Filled, len: usize) -> Result<String, Difference> {
    let rows = all(storage, filled.2);
    let out = Reserved::new(len - 1).expect("addresses for a buffer that is not written");
    let code = make(storage, (rows.as_ptr(), ROW), 0, (out.as_mut_ptr(), out.len()));
    of(storage, &rows, len - 1).told(code, Err((4, 0)))
}

/// A string of up to 4,000 bytes, mostly of ill-formed parts, in room that is enough or a byte short.
pub fn any(random: &mut Random) -> Compared {
    let (kind, utf16) = (random.below(KINDS_OF_STRINGS + 6).min(5), random.below(2) == 1);
    let storage = any_string(random, kind, 4_000, utf16);
    let rows = all(&storage, utf16);
    let room = of(&storage, &rows, usize::MAX).text().expect("enough room").len();
    let lent = room.saturating_sub(random.below(2)) + random.pick(&[0, 0, 9]);
    of(&storage, &rows, lent).compare().map(drop)
}
