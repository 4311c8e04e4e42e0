//! For every call the worst input that was found, and how its time grows with it. Ours alone is timed; callees that
//! don't rise have a table of their own.

mod buffer;
mod clean;
mod debug;
mod function;
mod io;
mod parsing;
mod strings;

use harness::count;

use crate::table::Bench;
use crate::whole::timed;

const SIZES: [usize; 3] = [10_000, 100_000, 1_000_000];

pub fn rows(bench: &Bench) {
    println!("\nThe worst inputs, ours alone. Growth is the time of the last size over that of the first, over {}:", SIZES[2] / SIZES[0]);
    println!("1 where the time of an entry stays the same. Where each entry is a call, the calls are at scattered places.");
    print!("{:<32} {:<46}", "", "ns an entry, of so many:");
    for entries in SIZES {
        print!(" {:>10}", count(entries as u64));
    }
    println!(" {:>7}", "growth");
    io::rows(bench);
    strings::rows(bench);
    buffer::rows(bench);
    function::rows(bench);
    parsing::rows(bench);
    debug::rows(bench);
    clean::rows(bench);
}

/// Times a call on the input that `make` makes of so many entries: what must be answered, and the call, to be made
/// again and again.
fn row<F: FnMut() -> u64>(
    bench: &Bench,
    call: &str,
    input: &str,
    make: impl Fn(usize) -> (u64, F),
) {
    let times = SIZES.map(|entries| {
        let (answer, mut made) = make(entries);
        assert_eq!(made(), answer, "{call}, {input}, {entries} entries");
        let rounds = (0..bench.rounds).map(|_| timed(&mut made));
        rounds.fold(f64::INFINITY, f64::min)
    });
    print!("{call:<32} {input:<46}");
    for (time, entries) in times.iter().zip(SIZES) {
        print!(" {:>10.2}", time / entries as f64);
    }
    println!(
        " {:>7.2}",
        times[2] / times[0] * SIZES[0] as f64 / SIZES[2] as f64
    );
}

/// The answer of a call that is refused.
const fn refused(number: u64, place: usize) -> u64 {
    number << 32 | place as u64
}

/// Number `i` of places below `end`, each far from the one before.
fn scattered(i: usize, end: usize) -> usize {
    let spread = (i as u64 + 1).wrapping_mul(0x9E37_79B9_7F4A_7C15);
    ((u128::from(spread) * end as u128) >> 64) as usize
}

/// The sum of the answers of so many calls.
fn calls(entries: usize, mut call: impl FnMut(usize) -> u64) -> u64 {
    (0..entries).map(&mut call).sum()
}
