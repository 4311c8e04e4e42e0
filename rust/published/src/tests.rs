//! One case for each file that is compiled: the glue lets every layer through.

use crate::file::parser::{buffer, function, parsing, table};
use crate::file::structure::LiteralValue;
use crate::format::{empty_header, FunctionHeader, FunctionHeaderLayout::*};
use crate::io::ByteReader;

fn empty_file() -> crate::file::BytecodeFile {
    let header = empty_header(Legacy16);
    parsing::trailing(&[], &mut ByteReader::new(&[]), header).unwrap()
}

#[test]
fn io() {
    assert_eq!(ByteReader::new(&[0x80, 0x7F]).read_sleb128().unwrap(), -128);
}

#[test]
fn function_headers() {
    let bytes = [0, 1, 0, 4, 0x0A, 0x80, 1, 0, 0, 0, 0, 0x0A, 1, 2, 3, 4];
    let mut header = empty_header(Legacy16);
    header.function_count = 1;
    let rows = function::parse_function_headers(&mut ByteReader::new(&bytes), &header).unwrap();
    let FunctionHeader::Legacy(row) = &rows[0] else {
        panic!("not legacy")
    };
    assert_eq!((row.offset, row.param_count, row.frame_size), (256, 2, 5));
}

#[test]
fn tables() {
    let bytes = [1, 0, 0, 0, 2, 0, 0, 0];
    let mut reader = ByteReader::new(&bytes);
    assert_eq!(
        table::parse_pair_table(&mut reader, 1).unwrap(),
        vec![(1, 2)]
    );
}

#[test]
fn literals() {
    let bytes = [0x72, 5, 0, 0, 0, 0xFF, 0xFF, 0xFF, 0xFF, 0x11];
    let values = buffer::read_buffer_series(&empty_file(), &bytes, 0, 3).unwrap();
    assert_eq!(
        format!("{values:?}"),
        "[Integer(5), Integer(-1), Bool(true)]"
    );
    let one = buffer::literal(&empty_file(), 6, &mut ByteReader::new(&[9])).unwrap();
    assert!(matches!(one, LiteralValue::String(text) if text == "<string:9>"));
}

#[test]
fn handlers() {
    let mut bytes = [0; 64];
    bytes[48] = 2;
    let mut inline = [0; 16];
    inline[8] = 45;
    inline[15] = 8;
    let mut header = empty_header(Legacy16);
    header.function_count = 1;
    let rows = function::parse_function_headers(&mut ByteReader::new(&inline), &header).unwrap();
    assert!(parsing::handlers(&bytes, &rows).is_empty());
    bytes[48] = 1;
    assert_eq!(parsing::handlers(&bytes, &rows)[&0].len(), 1);
}

#[test]
fn sections() {
    let bytes = [0; 10];
    let mut reader = ByteReader::new(&bytes);
    reader.seek(8).unwrap();
    let mut header = empty_header(Legacy16);
    header.reg_exp_storage_size = 1;
    let refused = parsing::trailing(&bytes, &mut reader, header).unwrap_err();
    assert_eq!(
        refused.to_string(),
        "parse error: seek out of range: 12 > 10"
    );
}

#[test]
fn debug() {
    let strings = crate::debug::strings(&[1, b'a', 0]);
    assert_eq!(strings, ["a", ""]);
    let scopes = crate::debug::scopes(&[0x7F, 0, 1, 0], &strings);
    assert_eq!((scopes.len(), scopes[0].names.len()), (1, 1));
    assert_eq!(crate::debug::callees(&[1, 5, 0], &strings)[&5], "a");
}
