//! The differences of the cursor layer.

use bisquepond::io::{ByteReader as Ours, Marked};
use bisquepond::sys::LIMIT;
use bisquepond::Refusal;
use published::error::Result as Published;
use published::io::ByteReader as Theirs;

use crate::case::Compared;
use crate::differences::{row, text, told};
use crate::run::Run;

/// What the Rust's reader answers from byte 0, and where it then stands.
fn rust<'a, T>(
    input: &'a [u8],
    call: impl FnOnce(&mut Theirs<'a>) -> Published<T>,
) -> (Result<T, String>, usize) {
    let mut reader = Theirs::new(input);
    let answer = text(call(&mut reader));
    (answer, reader.position())
}

fn ours<'a, T>(
    input: &'a [u8],
    at: usize,
    call: impl FnOnce(&mut Ours<'a>) -> Result<T, Refusal>,
) -> (Result<T, (u32, u32)>, usize) {
    let mut reader = Ours::at(input, at);
    let answer = told(call(&mut reader));
    (answer, reader.position())
}

pub fn listed(run: &mut Run) -> Compared {
    ends(run)?;
    nan(run)?;
    texts(run)?;
    leb128(run)?;
    let long = vec![0; LIMIT + 1];
    row(run, "read_u8 of 2^30 + 1 bytes")
        .rust(rust(&long, |r| r.read_u8()), (Ok(0), 1))?
        .ours(ours(&long, 0, |r| r.read_u8()), (Err((1, 0)), 0))
}

fn ends(run: &mut Run) -> Compared {
    row(run, "cursor 1 in no bytes")
        .rust(rust(&[], |r| r.seek(1)), (Err("seek out of range: 1 > 0".into()), 0))?
        .ours(ours(&[], 1, |r| r.read_u8()), (Err((2, 0)), 1))?;
    let end = "unexpected end of file: needed 1 bytes at offset 0 but only 0 remain";
    row(run, "read_u8 of no bytes")
        .rust(rust(&[], |r| r.read_u8()), (Err(end.into()), 0))?
        .ours(ours(&[], 0, |r| r.read_u8()), (Err((3, 0)), 0))?;
    row(run, "read_cstring of no bytes")
        .rust(rust(&[], |r| r.read_cstring()), (Err("unterminated string".into()), 0))?
        .ours(ours(&[], 0, |r| r.read_cstring()), (Err((9, 0)), 0))
}

/// A signalling NaN: which NaN ours then is is not promised.
fn nan(run: &mut Run) -> Compared {
    let input = [1, 0, 0, 0, 0, 0, 0xF0, 0x7F];
    let bits = 0x7FF0_0000_0000_0001;
    let theirs = || rust(&input, |r| r.read_f64().map(f64::to_bits));
    row(run, "read_f64 of 01 00 00 00 00 00 F0 7F")
        .rust(theirs(), (Ok(bits), 8))?
        .ours(ours(&input, 0, |r| r.read_f64().map(f64::is_nan)), (Ok(true), 8))?;
    row(run, "its bits by read_u64")
        .rust(theirs(), (Ok(bits), 8))?
        .ours(ours(&input, 0, |r| r.read_u64()), (Ok(bits), 8))
}

/// A byte that is no UTF-8, and the text that stands for it.
fn texts(run: &mut Run) -> Compared {
    for part in [&b"\xFF"[..], b"\xEF\xBF\xBD"] {
        let ended = [part, &[0]].concat();
        let end = ended.len();
        row(run, "read_cstring of FF 00, and of EF BF BD 00")
            .rust(rust(&ended, |r| r.read_cstring()), (Ok("\u{FFFD}".into()), end))?
            .ours(ours(&ended, 0, |r| r.read_cstring()), (Ok(part), end))?;
        let prefixed = [&[part.len() as u8], part].concat();
        row(run, "read_length_prefixed_string of 01 FF, and of 03 EF BF BD")
            .rust(
                rust(&prefixed, |r| r.read_length_prefixed_string()),
                (Ok("\u{FFFD}".into()), end),
            )?
            .ours(ours(&prefixed, 0, |r| r.read_length_prefixed_string()), (Ok(part), end))?;
    }
    Ok(())
}

/// Values and cursors of both sides alike, and neither as DWARF 5; ours says so.
fn leb128(run: &mut Run) -> Compared {
    let nine = |last| [&[0x80; 9][..], &[last]].concat();
    let unsigned = nine(2);
    let lost = |value| Ok(Marked { value, exact: false });
    row(run, "nine 80, then 02, unsigned")
        .rust(rust(&unsigned, |r| r.read_uleb128()), (Ok(0), 10))?
        .ours(ours(&unsigned, 0, |r| r.read_uleb128_marked()), (lost(0), 10))?;
    let signed = nine(0x40);
    row(run, "nine 80, then 40, signed")
        .rust(rust(&signed, |r| r.read_sleb128()), (Ok(0), 10))?
        .ours(
            ours(&signed, 0, |r| r.read_sleb128_marked()),
            (Ok(Marked { value: 0, exact: false }), 10),
        )?;
    let text = [&unsigned[..], b"hi"].concat();
    row(run, "nine 80, then 02, as the length of a string")
        .rust(rust(&text, |r| r.read_length_prefixed_string()), (Ok(String::new()), 10))?
        .ours(
            ours(&text, 0, |r| r.read_length_prefixed_string_marked()),
            (Ok(Marked { value: &[][..], exact: false }), 10),
        )?;
    let eleven = [&[0x80; 10][..], &[0]].concat();
    row(run, "ten 80, then 00, unsigned")
        .rust(rust(&eleven, |r| r.read_uleb128()), (Err("LEB128 overflow".into()), 10))?
        .ours(ours(&eleven, 0, |r| r.read_uleb128()), (Err((5, 0)), 10))?;
    row(run, "ten 80, then 00, signed")
        .rust(rust(&eleven, |r| r.read_sleb128()), (Err("SLEB128 overflow".into()), 10))?
        .ours(ours(&eleven, 0, |r| r.read_sleb128()), (Err((5, 0)), 10))
}
