//! Two panes of a tool change bytes of one file, and then each of them refreshes the table by its own span: in either order
//! rows and totals are the same, and those of a fresh read.

use std::ops::Range;

use bisquepond::function::{self, FunctionRow, FunctionTable, Totals};
use bisquepond::{Layout, Result};

const LAYOUT: Layout = Layout::Legacy16;
const START: usize = 128;
const COUNT: u32 = 4;
const LARGE: usize = 50_000;

/// A pane's edit: what it is called, and the bytes of the file that it wrote.
type Edit = (&'static str, Range<usize>);

/// Rows, and the totals beside them, as a tool may keep them by itself.
type Lent = (Vec<FunctionRow>, Totals);

/// Four functions of size 10. The second has a large header, far from the table, with the size 40,000.
fn sample() -> Vec<u8> {
    let header = [0, 1, 0, 4, 0x0A, 0x80, 1, 0, 0, 0, 0, 0x0A, 1, 2, 3, 4];
    let mut file = vec![0; LARGE + 31];
    file[START..][..4 * 16].copy_from_slice(&header.repeat(4));
    lead(&mut file, 1, LARGE);
    set_large_size(&mut file, 40_000);
    file
}

/// Sets the flag of a function, and the place at which its large header is.
fn lead(file: &mut [u8], id: usize, place: usize) {
    let header = &mut file[START + 16 * id..][..16];
    header[..4].copy_from_slice(&(place as u32).to_le_bytes());
    header[15] |= 0x20;
}

fn set_large_size(file: &mut [u8], size: u32) {
    file[LARGE + 8..][..4].copy_from_slice(&size.to_le_bytes());
}

/// Refreshes a copy of the rows by each edit, in this order, and prints how many functions each read again.
fn refreshed(file: &[u8], table: &FunctionTable, order: [&Edit; 2]) -> Lent {
    let (mut rows, mut totals) = (table.to_vec(), table.totals());
    println!("{}, then {}:", order[0].0, order[1].0);
    for (pane, span) in order {
        let span = span.clone();
        match function::refresh_functions(file, LAYOUT, START, COUNT, span, &mut rows, &mut totals)
        {
            Ok(again) => println!("  {pane}: {again} read again"),
            Err(why) => println!("  {pane}: {why}"),
        }
    }
    let sizes: Vec<u32> = rows.iter().map(FunctionRow::size).collect();
    println!("  sizes {sizes:?}, {} in all", totals.sizes());
    (rows, totals)
}

fn main() -> Result<()> {
    let mut file = sample();
    let before = function::read_functions(&file, LAYOUT, START, COUNT)?;
    println!("{COUNT} functions from byte {START}, function 1 with a large header at byte {LARGE}");

    // The first pane writes two headers, of which one is changed; the second the size in the large header.
    let first = ("pane 1", START..START + 32);
    let second = ("pane 2", LARGE + 8..LARGE + 12);
    file[START + 4] = 12;
    set_large_size(&mut file, 41_000);
    let end = refreshed(&file, &before, [&first, &second]);
    assert!(end == refreshed(&file, &before, [&second, &first]));
    let table = function::read_functions(&file, LAYOUT, START, COUNT)?;
    assert!(end == (table.to_vec(), table.totals()));
    println!("both orders end with the rows and totals of a fresh read");

    // Each reports the functions that its span meets, whatever the other did: one that meets both is in both numbers.
    let [one, two] = [&first, &second].map(|(_, span)| met(&file, span));
    println!("pane 1 reads {one:?} again, pane 2 {two:?}");
    let both = one.iter().filter(|id| two.contains(id)).count();
    let sum = one.len() + two.len();
    println!("reported: {sum}, different functions: {}", sum - both);
    // Done twice is done once: nothing changes, and the number is the same.
    assert!(end == refreshed(&file, &table, [&second, &second]));

    // Then pane 1 changes a size again, and a third pane lets function 3 lead past the end of the file.
    let third = ("pane 3", START + 48..START + 64);
    let (good, past) = (file[third.1.clone()].to_vec(), file.len() + 1);
    file[START + 4] = 13;
    lead(&mut file, 3, past);
    refused(&mut file, table, [&first, &third], &good)
}

/// The functions that a span meets, which are those that a refresh by it reads again.
fn met(file: &[u8], span: &Range<usize>) -> Vec<u32> {
    let meets = |id| function::function_meets(file, LAYOUT, START, id, span.clone());
    (0..COUNT).filter(|&id| meets(id) == Ok(true)).collect()
}

/// The second edit is refused: only the other's effect stands, before it or after it.
fn refused(
    file: &mut [u8],
    mut table: FunctionTable,
    [one, two]: [&Edit; 2],
    good: &[u8],
) -> Result<()> {
    let end = refreshed(file, &table, [one, two]);
    assert!(end == refreshed(file, &table, [two, one]));

    // A table of its own remembers a span that was refused, and joins it to the next one: that is refused too, until the
    // edit is undone.
    println!("a table of its own:");
    for (pane, span) in [two, one] {
        let why = table.refresh(file, span.clone()).unwrap_err();
        println!("  {pane}: {why}");
    }
    println!("  not taken in: {:?}", table.pending());
    file[two.1.clone()].copy_from_slice(good);
    let again: Vec<u32> = table.refresh(file, two.1.clone())?.collect();
    println!("  {} undone: {again:?} read again", two.0);
    assert!(table == function::read_functions(file, LAYOUT, START, COUNT)?);
    Ok(())
}
