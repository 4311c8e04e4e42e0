//! The soak: inputs that are made to take long or to take memory. Every answer is compared as everywhere else, or with
//! one that is worked out beside where the Rust would need too much; and no call may take longer than n log n allows,
//! nor memory beyond what it was lent.

use std::time::Instant;

use bisquepond::sys::LIMIT;
use harness::{count, Random};

use crate::case::{Compared, Difference};
use crate::inputs::fill;
use crate::meter;

/// What a case deals with, in bytes: those that a call reads and writes, and the memory that the comparison needs.
#[derive(Clone, Copy)]
pub struct Size {
    pub work: usize,
    pub memory: usize,
}

/// Work and memory are one: a file, and little besides.
pub fn file_of(bytes: usize) -> Size {
    size(bytes, bytes)
}

pub fn size(work: usize, memory: usize) -> Size {
    Size { work, memory }
}

pub struct Soak {
    /// Whether inputs that are known to take hours are asked for.
    pub full: bool,
    layer: &'static str,
    seed: u64,
    until: Instant,
    /// One file, made anew by each case in the same memory.
    file: Vec<u8>,
    cases: u64,
    calls: u64,
    skipped: u64,
    /// The longest call, and the greatest growth of memory.
    longest: f64,
    grown: u64,
}

/// Bytes by which memory may seem to grow in a call: the stack, and what the system counts late.
const FLAT: u64 = 4 << 20;

/// Memory that is left to others.
const SPARE: usize = 1 << 30;

/// Seconds of processor time for a call on so many bytes, by n log n; for more than 2^30 no more than for those.
fn limit(work: usize) -> f64 {
    let bytes = work.clamp(2, LIMIT) as f64;
    1.0 + 1e-9 * bytes * bytes.log2()
}

impl Soak {
    pub fn new(full: bool, seed: u64) -> Soak {
        meter::start();
        println!(
            "{:<8} {:<60} {:>14} {:>10} {:>8} {:>8} {:>8}  answer",
            "", "", "bytes", "calls", "longest", "limit", "memory"
        );
        Soak {
            full,
            layer: "",
            seed,
            until: Instant::now(),
            file: Vec::new(),
            cases: 0,
            calls: 0,
            skipped: 0,
            longest: 0.0,
            grown: 0,
        }
    }

    /// Goes on with the cases of a layer, whose random ones end at some time.
    pub fn layer(&mut self, layer: &'static str, until: Instant) {
        (self.layer, self.until) = (layer, until);
    }

    pub fn random(&self, group: u64) -> Random {
        let mut seeds = Random::new(self.seed);
        Random::new(seeds.word() ^ group)
    }

    /// One case on a file of so many bytes, one piece again and again.
    pub fn filled(
        &mut self,
        name: &str,
        (len, piece): (usize, &[u8]),
        compare: impl FnOnce(&mut Vec<u8>) -> Result<String, Difference>,
    ) -> Compared {
        self.case(name, file_of(len), |file| {
            fill(file, len, piece);
            compare(file)
        })
    }

    /// One case: `compare` makes its input, in the file that is lent to it if it needs one, compares, and says what was
    /// answered.
    pub fn case(
        &mut self,
        name: &str,
        size: Size,
        compare: impl FnOnce(&mut Vec<u8>) -> Result<String, Difference>,
    ) -> Compared {
        let there = meter::available() as usize + self.file.capacity();
        if there < size.memory + SPARE {
            let gigabytes = |bytes: usize| bytes as f64 / (1 << 30) as f64;
            println!(
                "{:<8} {name:<60} skipped: needs {:.1} GiB and one to spare, {:.1} are there",
                self.layer,
                gigabytes(size.memory),
                gigabytes(there)
            );
            self.skipped += 1;
            return Ok(());
        }
        let limit = limit(size.work);
        meter::begin(format!("{} {name}", self.layer), limit);
        let answer = compare(&mut self.file).map_err(|Difference(mut lines)| {
            lines.insert(0, format!("difference in {} {name}", self.layer));
            Difference(lines)
        })?;
        self.judge(name, size.work, limit, answer)
    }

    /// Prints what the calls of a case cost, none of which took too long, and refuses too much memory.
    fn judge(&mut self, name: &str, work: usize, limit: f64, answer: String) -> Compared {
        let cost = meter::end();
        println!(
            "{:<8} {name:<60} {:>14} {:>10} {:>6.2} s {limit:>6.1} s {:>4} KiB  {answer}",
            self.layer,
            count(work as u64),
            count(cost.calls),
            cost.longest,
            cost.grown >> 10
        );
        self.cases += 1;
        self.calls += cost.calls;
        self.longest = self.longest.max(cost.longest);
        self.grown = self.grown.max(cost.grown);
        let wrong = match cost {
            _ if cost.calls == 0 => "no call was made".to_string(),
            _ if cost.grown > FLAT => format!("memory grew by {} bytes", cost.grown),
            _ => return Ok(()),
        };
        Err(format!("{} {name}: {wrong}", self.layer).into())
    }

    /// Cases at random, until the layer's time is up.
    pub fn at_random(
        &mut self,
        work: usize,
        mut compare: impl FnMut(&mut Random) -> Compared,
    ) -> Compared {
        let (mut random, until) = (self.random(99), self.until);
        self.case("at random", size(work, 64 * work), |_| {
            let mut inputs = 0;
            while inputs < 2_000 || Instant::now() < until {
                compare(&mut random)?;
                inputs += 1;
            }
            Ok(format!("{} inputs, each as expected", count(inputs)))
        })
    }

    pub fn totals(&self) {
        println!(
            "{} cases, {} calls, {} cases skipped; longest call {:.2} s, memory grew by {} KiB at most; seed {}",
            self.cases,
            count(self.calls),
            self.skipped,
            self.longest,
            self.grown >> 10,
            self.seed
        );
    }
}

/// Sees that each row is as it was worked out beside.
pub fn rows_are(rows: &[u32], width: usize, right: impl Fn(usize, &[u32]) -> bool) -> Compared {
    let mut rows = rows.chunks_exact(width).enumerate();
    match rows.find(|(i, row)| !right(*i, row)) {
        None => Ok(()),
        Some((i, row)) => Err(format!("row {i} is {row:?}").into()),
    }
}
