//! Changes bytes of a bytecode file in place, and brings its function table and the table's totals up to date:
//!
//!     cargo run --example patch FILE LAYOUT START COUNT OFFSET HEXBYTES
//!     cargo run --example patch          # a sample, made in memory
//!
//! FILE's table of COUNT headers begins at byte START; LAYOUT is legacy16 or modern12. The bytes are put at byte OFFSET
//! of the file in memory; the file itself is not written. Numbers may be written 0x.. .

use std::error::Error;
use std::fmt::Display;
use std::process::ExitCode;

use bisquepond::Layout;
use bisquepond::function::{self, FunctionRow, FunctionTable};

fn main() -> ExitCode {
    let words: Vec<String> = std::env::args().skip(1).collect();
    let words: Vec<&str> = words.iter().map(String::as_str).collect();
    let done = match words[..] {
        [] => sample(),
        [file, layout, start, count, offset, bytes] => {
            named(file, layout, [start, count, offset], bytes)
        }
        _ => Err("usage: patch [FILE LAYOUT START COUNT OFFSET HEXBYTES]".into()),
    };
    match done {
        Ok(()) => ExitCode::SUCCESS,
        Err(why) => {
            eprintln!("patch: {why}");
            ExitCode::FAILURE
        }
    }
}

fn named(
    path: &str,
    layout: &str,
    [start, count, offset]: [&str; 3],
    bytes: &str,
) -> Result<(), Box<dyn Error>> {
    let layout: Layout = layout.parse().map_err(about("LAYOUT", layout))?;
    let (start, offset) = (number("START", start)?, number("OFFSET", offset)?);
    let count = number("COUNT", count)?;
    let bytes = unhex(bytes).map_err(about("HEXBYTES", bytes))?;
    let mut file = std::fs::read(path).map_err(about("FILE", path))?;
    let read = function::read_functions(&file, layout, start, count);
    let mut table = read.map_err(about("FILE", path))?;
    println!("{} functions read", table.len());
    let patched = patch(&mut file, &mut table, offset, &bytes);
    Ok(patched.map_err(about("FILE", path))?)
}

/// An error with the argument that it is about.
fn about<E: Display>(name: &str, word: &str) -> impl Fn(E) -> String {
    move |why| format!("{name} {word}: {why}")
}

/// A number in decimal, or in hexadecimal after 0x.
fn number<N: TryFrom<u64>>(name: &str, word: &str) -> Result<N, String> {
    let (digits, radix) = match word.strip_prefix("0x") {
        Some(digits) => (digits, 16),
        None => (word, 10),
    };
    let number = u64::from_str_radix(digits, radix).map_err(about(name, word))?;
    N::try_from(number).map_err(|_| format!("{name} {word}: too large"))
}

/// Puts the bytes there, refreshes the table, and prints which rows changed.
fn patch(
    file: &mut [u8],
    table: &mut FunctionTable,
    offset: usize,
    bytes: &[u8],
) -> Result<(), Box<dyn Error>> {
    let (len, span) = (file.len(), offset..offset.saturating_add(bytes.len()));
    let Some(place) = file.get_mut(span.clone()) else {
        return Err(format!(
            "{} bytes at byte {offset} do not fit into its {len} bytes",
            bytes.len()
        )
        .into());
    };
    println!("\nat byte {offset}: {} -> {}", hex(place), hex(bytes));
    place.copy_from_slice(bytes);

    let (before, was) = (table.to_vec(), table.totals());
    let again = table.refresh(file, span)?;
    println!("{} of {} rows read again", again.len(), table.len());
    for id in again {
        let (old, new) = (&before[id as usize], &table[id as usize]);
        let (was, is) = (read_from(old), read_from(new));
        if was != is {
            println!("  function {id}: {was} -> {is}");
        }
        let fields = old.fields().zip(new.fields());
        for ((name, old), (_, now)) in fields.filter(|(old, now)| old != now) {
            println!("  function {id}, {is}: {name} {old} -> {now}");
        }
    }
    // The totals came along: nothing was added up.
    let now = table.totals();
    println!(
        "in all: {} -> {} large headers, {} -> {} bytes of bytecode",
        was.large(),
        now.large(),
        was.sizes(),
        now.sizes()
    );

    let count = table.len() as u32;
    let fresh = function::read_functions(file, table.layout(), table.start(), count)?;
    match fresh == *table && fresh.totals() == now {
        true => println!("a fresh read gives the same rows and totals"),
        false => return Err("a fresh read gives other rows or totals".into()),
    }
    Ok(())
}

/// What a row was read from: where to look in the file.
fn read_from(row: &FunctionRow) -> String {
    match row.large_place() {
        Some(place) => format!("large header at byte {place}"),
        None => "inline".to_string(),
    }
}

/// Three functions. The fields of the second do not fit into 16 bytes: it has a large header, far from the table.
fn sample() -> Result<(), Box<dyn Error>> {
    const START: usize = 128;
    const LARGE: usize = 50_000;
    let header = [0, 1, 0, 4, 0x0A, 0x80, 1, 0, 0, 0, 0, 0x0A, 1, 2, 3, 4];
    let mut file = vec![0; LARGE + 31];
    for row in file[START..][..3 * 16].chunks_exact_mut(16) {
        row.copy_from_slice(&header);
    }
    // The flag, and where to look: offset, with info_offset (0) times 65536.
    let row = &mut file[START + 16..][..16];
    row[..4].copy_from_slice(&(LARGE as u32).to_le_bytes());
    row[15] |= 0x20;
    // There: offset, param_count, size, name, info_offset, frame_size, environment_size, then three bytes. The order is
    // that of the small header.
    let fields = [70_000, 3, 40_000, 200_000, 0, 300, 1u32];
    for (place, field) in file[LARGE..].chunks_exact_mut(4).zip(fields) {
        place.copy_from_slice(&field.to_le_bytes());
    }

    let mut table = function::read_functions(&file, Layout::Legacy16, START, 3)?;
    println!(
        "a sample of {} bytes, 3 functions from byte {START}:",
        file.len()
    );
    for row in &table {
        println!(
            "  function {}, {}: offset {} size {} name {} frame {} flags {}",
            row.id(),
            read_from(row),
            row.offset(),
            row.size(),
            row.name(),
            row.frame_size(),
            row.flags()
        );
    }
    let (large, sizes) = (table.totals().large(), table.totals().sizes());
    println!("in all: {large} large header, {sizes} bytes of bytecode");

    // The name of function 1: no byte of the table changes, and yet its row does.
    patch(&mut file, &mut table, LARGE + 12, &201_001u32.to_le_bytes())?;
    // The size of function 2, in its own header.
    patch(&mut file, &mut table, START + 2 * 16 + 4, &[0x0B])?;
    // The last byte before the large header: no function has a part in it.
    patch(&mut file, &mut table, LARGE - 1, &[0xFF])?;
    // Another size of function 0, and a place of function 1 past the end: the refresh is refused, and no row changes.
    let mut bytes = file[START + 4..=START + 24].to_vec();
    (bytes[0], bytes[20]) = (0x0C, 0xFF);
    let refused = patch(&mut file, &mut table, START + 4, &bytes).unwrap_err();
    println!("{refused}");
    let (size, sizes) = (table[0].size(), table.totals().sizes());
    println!("function 0 still has the size {size}, and all of them have {sizes} bytes");
    // The place is put right. What was refused is not forgotten: function 0 is read again too.
    patch(&mut file, &mut table, START + 24, &[0])?;
    // The flag of function 1 is cleared: it is read from its own header, whose offset was the place.
    patch(&mut file, &mut table, START + 31, &[0x04])
}

fn hex(bytes: &[u8]) -> String {
    let digits: Vec<String> = bytes.iter().map(|byte| format!("{byte:02X}")).collect();
    digits.join(" ")
}

fn unhex(word: &str) -> Result<Vec<u8>, String> {
    let digits = word.strip_prefix("0x").unwrap_or(word);
    if !digits.len().is_multiple_of(2) || !digits.bytes().all(|digit| digit.is_ascii_hexdigit()) {
        return Err("two hexadecimal digits for each byte are needed".into());
    }
    let pairs = (0..digits.len()).step_by(2).map(|i| &digits[i..i + 2]);
    let bytes = pairs.map(|pair| u8::from_str_radix(pair, 16));
    bytes
        .collect::<Result<_, _>>()
        .map_err(|why| why.to_string())
}
