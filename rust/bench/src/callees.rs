//! Callees in six orders: of a debug section they alone are written in another order than they stand in.

use harness::{count, processor_time, Random};

use crate::debug::{sleb, strings, Lent, Section, KNOWN};
use crate::table::Bench;
use crate::whole::heading;

const SIZES: [usize; 4] = [1_000, 10_000, 100_000, 1_000_000];

/// The size by which the goals are judged.
const LAST: usize = SIZES[3];

/// A call that is expected to take longer is left out, in seconds.
const PATIENCE: f64 = 20.0;

/// An order, and the address of entry `i` of `n`.
type Order = (&'static str, fn(&mut Random, usize, usize) -> u32);

const ORDERS: [Order; 6] = [
    ("rising", |_, i, _| 7 * i as u32),
    ("falling", |_, i, n| 7 * (n - i) as u32),
    ("random", |random, _, n| random.below(7 * n) as u32),
    ("all equal", |_, _, _| 7),
    ("spread over 32 bits", |random, _, _| random.word() as u32),
    ("two addresses in turn", |_, i, _| [14, 7][i % 2]),
];

pub fn rows(bench: &Bench) {
    heading(
        "Callees, one call for the debug section that holds them. The Rust makes a text of each and a map of all, and drops",
        "them; ours goes through the entries to count and to write rows into words lent once. The work is not the same.",
        "entry",
    );
    let last = ORDERS.map(|order| (order.0, by_size(bench, order)));
    goals(&last);
}

/// A line for each size; what the last one took on both sides, if it was timed.
fn by_size(bench: &Bench, (name, address): Order) -> Option<[f64; 2]> {
    let (mut before, mut expected) = (f64::INFINITY, 0.0);
    for entries in SIZES {
        if expected > PATIENCE {
            let entries = count(entries as u64);
            println!("{name:<34} {entries:>23}    skipped: some {expected:.0} s a call expected");
            before = expected;
            expected *= 100.0;
            continue;
        }
        let section = section(entries, address);
        let took = once(&section, entries);
        let each = section.row(bench, name, entries);
        if entries == LAST {
            return Some(each);
        }
        // By the square from the first size on, then as it grew last.
        let growth = if before.is_finite() {
            took / before
        } else {
            100.0
        };
        (before, expected) = (took, took * growth);
    }
    None
}

fn section(entries: usize, address: fn(&mut Random, usize, usize) -> u32) -> Section {
    let mut random = Random::new(1);
    let mut part = Vec::new();
    sleb(&mut part, entries as i64);
    for i in 0..entries {
        sleb(&mut part, address(&mut random, i, entries).into());
        sleb(&mut part, random.below(KNOWN) as i64);
    }
    Section {
        strings: strings(KNOWN),
        callees: part,
        ..Section::default()
    }
}

/// Seconds of one call of ours.
fn once(section: &Section, entries: usize) -> f64 {
    let (file, mut lent) = (section.file(), Lent::new(entries + KNOWN));
    let begin = processor_time();
    lent.read(&file);
    (processor_time() - begin) as f64 / 1e9
}

/// What was asked for: at most twenty times the Rust's time in any order, and not above it where addresses rise.
fn goals(last: &[(&str, Option<[f64; 2]>)]) {
    let mut worst = ("", 0.0);
    for &(name, each) in last {
        let Some([ours, rust]) = each else {
            println!(
                "goals: {name} was not timed at {} entries",
                count(LAST as u64)
            );
            continue;
        };
        if name == "rising" {
            println!(
                "goals: {name} {:.2} of the Rust's time (at most 1)",
                ours / rust
            );
        }
        if ours / rust > worst.1 {
            worst = (name, ours / rust);
        }
    }
    let (name, times) = worst;
    println!(
        "goals: the slowest order timed, {name}, {times:.2} times the Rust's time (at most 20)"
    );
}
