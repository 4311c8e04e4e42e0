//! What every layer's benchmark shares: the command line and the table.

use std::cell::{Cell, RefCell};
use std::hint::black_box;
use std::process::ExitCode;

use harness::{count, processor_time};

use crate::floors::{self, Figure};

const USAGE: &str = "usage: bench [--rounds N] [--full] [--floors | --figures] [LAYER..]
Times every layer, or those named; N rounds each (default 5), of which the best counts. --full adds sizes that take
some minutes. --floors prints at last each figure, a ratio to the Rust or of a write to our own read, that is below its
floor in docs/PERFORMANCE.md, and then ends with status 1; --figures prints every figure as a line of that table.";

/// How many things a side read, and a sum over all their values.
#[derive(Clone, Copy, PartialEq, Eq, Debug)]
pub struct Tally {
    pub reads: u64,
    pub sum: u64,
}

/// Reads all of the bytes.
pub type Side = fn(&[u8]) -> Tally;

/// The three sides of one thing that is timed.
#[derive(Clone, Copy)]
pub struct Sides {
    /// libhbc_c.a: a call across the C boundary for each read.
    pub ours: Side,
    /// The published Rust, behind a call for each read that is not inlined.
    pub called: Side,
    /// The published Rust, inlined into the loop as far as the compiler likes.
    pub inlined: Side,
}

pub struct Bench {
    pub rounds: u32,
    /// Whether sizes that take minutes are asked for.
    pub full: bool,
    /// The layer that is timed now.
    layer: Cell<&'static str>,
    /// Every ratio so far: to the Rust, or of a write to our own read.
    figures: RefCell<Vec<Figure>>,
}

/// The heading of a table of reads, one call each.
pub fn heading() {
    println!("Ours is a call across the C boundary for each read. \"called\" is the Rust behind a call for each read;");
    println!("\"inlined\" is the Rust inlined into the loop, with no call to pay for.");
    println!(
        "{:<28} {:>8} {:>12} {:>9} {:>9} {:>9} {:>9} {:>9}",
        "", "bytes", "reads", "ours", "called", "inlined", "called", "inlined"
    );
    println!(
        "{:<50} {:>9} {:>9} {:>9} {:>9} {:>9}",
        "", "ns", "ns", "ns", "/ ours", "/ ours"
    );
}

impl Bench {
    /// A ratio, to be held against its floor.
    pub fn figure(&self, name: String, ratio: f64) {
        let layer = self.layer.get().to_string();
        self.figures
            .borrow_mut()
            .push(Figure { layer, name, ratio });
    }

    /// Times the sides in turn, the best of all rounds each, and prints a line of the table.
    pub fn row(&self, name: &str, bytes: &[u8], sides: Sides) {
        let sides = [sides.ours, sides.called, sides.inlined];
        let tallies = sides.map(|side| side(bytes));
        assert!(
            tallies.iter().all(|tally| *tally == tallies[0]),
            "{name}: the sides read different values: {tallies:?}"
        );
        let passes = (4 << 20) / bytes.len() + 1;
        let mut best = [f64::INFINITY; 3];
        for _ in 0..self.rounds {
            for (side, best) in sides.iter().zip(&mut best) {
                let begin = processor_time();
                for _ in 0..passes {
                    black_box(side(black_box(bytes)));
                }
                let nanoseconds = processor_time() - begin;
                *best = best.min(nanoseconds as f64 / passes as f64);
            }
        }
        let reads = tallies[0].reads;
        let [ours, called, inlined] = best.map(|time| time / reads as f64);
        self.figure(format!("{name}, {} MiB", bytes.len() >> 20), called / ours);
        println!(
            "{name:<28} {:>4} MiB {:>12} {ours:>9.2} {called:>9.2} {inlined:>9.2} {:>9.2} {:>9.2}",
            bytes.len() >> 20,
            count(reads),
            called / ours,
            inlined / ours
        );
    }
}

/// The sizes of every table here.
pub const SIZES: [usize; 2] = [1 << 20, 64 << 20];

pub type Layer = (&'static str, fn(&Bench));

pub fn main(layers: &[Layer]) -> ExitCode {
    let mut bench = Bench {
        rounds: 5,
        full: false,
        layer: Cell::new(""),
        figures: RefCell::new(Vec::new()),
    };
    let (mut names, mut floors, mut listed) = (Vec::new(), None, false);
    let mut words = std::env::args().skip(1);
    while let Some(word) = words.next() {
        let known = layers.iter().any(|(name, _)| *name == word);
        match word.as_str() {
            "--rounds" => match words.next().and_then(|n| n.parse().ok()) {
                Some(n) if n > 0 => bench.rounds = n,
                _ => return bad_usage(),
            },
            "--full" => bench.full = true,
            "--figures" => listed = true,
            "--floors" => match floors::document().and_then(|text| floors::parse(&text)) {
                Ok(found) => floors = Some(found),
                Err(why) => {
                    eprintln!("bench: {why}");
                    return ExitCode::from(2);
                }
            },
            _ if known => names.push(word),
            _ => return bad_usage(),
        }
    }
    println!("Nanoseconds of processor time, best of {} rounds, and the Rust's time over ours: above 1, ours is faster.", bench.rounds);
    for (name, rows) in layers {
        if names.is_empty() || names.iter().any(|chosen| chosen == name) {
            bench.layer.set(name);
            rows(&bench);
        }
    }
    let figures = bench.figures.into_inner();
    if listed {
        println!();
        figures.iter().for_each(|figure| println!("{figure}"));
    }
    floors.map_or(ExitCode::SUCCESS, |floors| held(&floors, &figures))
}

/// Prints what is below its floor.
fn held(floors: &[Figure], figures: &[Figure]) -> ExitCode {
    let below = floors::below(floors, figures);
    println!();
    below.iter().for_each(|line| println!("{line}"));
    println!(
        "floors: {} figures, {} of them without a floor, {} wrong",
        figures.len(),
        floors::without(floors, figures),
        below.len()
    );
    match below.is_empty() {
        true => ExitCode::SUCCESS,
        false => ExitCode::FAILURE,
    }
}

fn bad_usage() -> ExitCode {
    eprintln!("{USAGE}");
    ExitCode::from(2)
}
