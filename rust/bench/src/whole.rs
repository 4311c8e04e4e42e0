//! Calls that do all of their work at once: one line has our time and the Rust's for each item, and their ratio.

use std::hint::black_box;

use harness::{count, processor_time};

use crate::table::Bench;

/// How much there is to do.
pub struct Whole {
    pub bytes: usize,
    pub items: usize,
}

pub fn heading(first: &str, second: &str, item: &str) {
    sides(first, second, item, ["ours", "Rust", "Rust/ours"]);
}

/// The heading of a table of any two sides: their names, and that of the second's time over the first's.
pub fn sides(first: &str, second: &str, item: &str, [one, other, ratio]: [&str; 3]) {
    println!("\n{first}\n{second}");
    let each = format!("ns each {item}");
    println!(
        "{:<34} {:>10} {:>12} {one:>10} {other:>10} {ratio:>10}",
        "", "KiB", "items"
    );
    println!("{:<58} {:>21}", "", each);
}

/// Nanoseconds of one pass of `work`, of as many as make a fiftieth of a second, one at least.
pub fn timed<T>(work: &mut dyn FnMut() -> T) -> f64 {
    let begin = processor_time();
    let mut passes = 0;
    loop {
        black_box(work());
        passes += 1;
        let time = processor_time() - begin;
        if time > 20_000_000 {
            return time as f64 / f64::from(passes);
        }
    }
}

impl Whole {
    /// Times both sides in turn, the best of all rounds each, and answers the nanoseconds of an item. A side does all of
    /// the work, and answers how many items there were, and a sum over some of their values.
    pub fn row(
        &self,
        bench: &Bench,
        name: &str,
        mut ours: impl FnMut() -> (u64, u64),
        mut rust: impl FnMut() -> (u64, u64),
    ) -> [f64; 2] {
        let (given, expected) = (ours(), rust());
        assert_eq!(given, expected, "{name}: the sides read different values");
        let mut best = [f64::INFINITY; 2];
        for _ in 0..bench.rounds {
            best[0] = best[0].min(timed(&mut ours));
            best[1] = best[1].min(timed(&mut rust));
        }
        let [ours, rust] = best.map(|time| time / self.items as f64);
        let ratio = rust / ours;
        bench.figure(format!("{name}, {}", count(self.items as u64)), ratio);
        let digits = if ratio < 0.1 { 5 } else { 2 };
        println!(
            "{name:<34} {:>10} {:>12} {ours:>10.3} {rust:>10.3} {ratio:>9.digits$}",
            count(self.bytes as u64 >> 10),
            count(self.items as u64),
        );
        [ours, rust]
    }
}
