//! What every layer's comparison shares: the command line, the groups and their counts, the first difference.

use std::fmt::Display;
use std::process::ExitCode;
use std::time::{Duration, Instant};

use harness::{count, Random};

use crate::case::{parsed, Compare, Compared, Difference, Words};
use crate::hostile::Soak;
use crate::record;

const USAGE: &str = "usage: differential [--seconds N] [--seed S] [--full] [LAYER..]
       differential --hostile [--seconds N] [--seed S] [--full] [LAYER..]
       differential [--seed S] --record FILE [LAYER..]
       differential --replay LAYER WORD..
Compares every layer, or those named. Fixed inputs are always compared whole; random ones until N seconds have
passed in all (default 20). --full adds inputs that need 8 GB of memory and many minutes. --hostile compares inputs
that are made to take long instead, up to 2^30 bytes, and judges the time and memory of each call. --record writes a sample
of the Rust's answers, as the programs that replay it read it. --replay compares one input, in the words that a difference
prints.";

pub struct Layer {
    pub name: &'static str,
    pub compare: fn(&mut Run) -> Compared,
    pub hostile: fn(&mut Soak) -> Compared,
    /// The sample as bytes, and a line for each thing it covers.
    pub record: fn(Random) -> (Vec<u8>, Vec<String>),
    /// What both sides answer, or a difference.
    pub replay: fn(&mut Words) -> Result<String, Difference>,
}

pub struct Run {
    /// Whether inputs of the greatest sizes are asked for.
    pub full: bool,
    layer: &'static str,
    seed: u64,
    until: Instant,
    cases: u64,
    total: u64,
}

impl Run {
    /// Compares one group, which answers by `?` at the first difference, and prints its count.
    pub fn group(&mut self, name: &str, compare: impl FnOnce(&mut Run) -> Compared) -> Compared {
        self.cases = 0;
        let begin = Instant::now();
        if let Err(Difference(mut lines)) = compare(self) {
            let place = format!(
                "difference in {} {name}, seed {}, after {} equal cases",
                self.layer,
                self.seed,
                count(self.cases)
            );
            lines.insert(0, place);
            return Err(Difference(lines));
        }
        println!(
            "{:<8} {name:<44} {:>14} cases  0 differences  {:>6.2} s",
            self.layer,
            count(self.cases),
            begin.elapsed().as_secs_f64()
        );
        self.total += self.cases;
        Ok(())
    }

    /// Compares one case.
    pub fn compare<C: Compare>(&mut self, case: &C) -> Result<C::Answer, Difference> {
        let answer = case.compare()?;
        self.equal();
        Ok(answer)
    }

    /// One more case was compared, and did not differ.
    pub fn equal(&mut self) {
        self.cases += 1;
    }

    /// Whether a random group should go on: a good number of cases in any event, then until the time is up.
    pub fn more(&self) -> bool {
        self.cases < 500_000 || Instant::now() < self.until
    }

    /// The random numbers of a group: other groups neither shift nor share them.
    pub fn random(&self, group: u64) -> Random {
        let mut seeds = Random::new(self.seed);
        Random::new(seeds.word() ^ group)
    }
}

struct Asked {
    seconds: f64,
    seed: u64,
    full: bool,
    hostile: bool,
    record: Option<String>,
    replay: bool,
    words: Vec<String>,
}

fn asked() -> Result<Asked, String> {
    let mut asked = Asked {
        seconds: 20.0,
        seed: 1,
        full: false,
        hostile: false,
        record: None,
        replay: false,
        words: Vec::new(),
    };
    let mut words = std::env::args().skip(1);
    while let Some(word) = words.next() {
        let mut next = || words.next().ok_or(format!("{word} needs a word after it"));
        match word.as_str() {
            "--seconds" => asked.seconds = parsed(&next()?)?,
            "--seed" => asked.seed = parsed(&next()?)?,
            "--full" => asked.full = true,
            "--hostile" => asked.hostile = true,
            "--record" => asked.record = Some(next()?),
            "--replay" => asked.replay = true,
            _ if word.starts_with("--") => return Err(format!("no option {word}")),
            _ => asked.words.push(word),
        }
    }
    Ok(asked)
}

fn bad_usage(why: impl Display) -> ExitCode {
    eprintln!("{why}\n{USAGE}");
    ExitCode::from(2)
}

pub fn main(layers: &[Layer]) -> ExitCode {
    let asked = match asked() {
        Ok(asked) => asked,
        Err(why) => return bad_usage(why),
    };
    let find = |word: &String| layers.iter().find(|layer| layer.name == word);
    if asked.replay {
        return match asked.words.first().and_then(find) {
            Some(layer) => replay(layer, &asked.words[1..]),
            None => bad_usage("no such layer"),
        };
    }
    if let Some(word) = asked.words.iter().find(|word| find(word).is_none()) {
        return bad_usage(format!("no layer {word}"));
    }
    let chosen: Vec<&Layer> = match asked.words.as_slice() {
        [] => layers.iter().collect(),
        words => words.iter().filter_map(find).collect(),
    };
    match (&asked.record, asked.hostile) {
        (Some(file), _) => write(&chosen, asked.seed, file),
        (None, true) => soak(&chosen, &asked),
        (None, false) => compare(&chosen, &asked),
    }
}

/// When the random inputs of layer `i` of so many end: each has its share of the seconds.
fn until(begin: Instant, asked: &Asked, i: usize, layers: usize) -> Instant {
    let share = asked.seconds.max(0.0) * (i + 1) as f64 / layers as f64;
    begin + Duration::from_secs_f64(share)
}

fn soak(layers: &[&Layer], asked: &Asked) -> ExitCode {
    let begin = Instant::now();
    let mut soak = Soak::new(asked.full, asked.seed);
    for (i, layer) in layers.iter().enumerate() {
        soak.layer(layer.name, until(begin, asked, i, layers.len()));
        if let Err(difference) = (layer.hostile)(&mut soak) {
            return report(difference);
        }
    }
    soak.totals();
    ExitCode::SUCCESS
}

fn compare(layers: &[&Layer], asked: &Asked) -> ExitCode {
    let seed = asked.seed;
    let begin = Instant::now();
    let mut total = 0;
    for (i, layer) in layers.iter().enumerate() {
        let mut run = Run {
            full: asked.full,
            layer: layer.name,
            seed,
            until: until(begin, asked, i, layers.len()),
            cases: 0,
            total: 0,
        };
        if let Err(difference) = (layer.compare)(&mut run) {
            return report(difference);
        }
        total += run.total;
    }
    println!(
        "{} cases compared with the published Rust and docs/FORMAT.md, 0 differences, seed {seed}, {:.1} s",
        count(total),
        begin.elapsed().as_secs_f64()
    );
    ExitCode::SUCCESS
}

fn report(Difference(lines): Difference) -> ExitCode {
    println!("{}", lines.join("\n  "));
    ExitCode::from(1)
}

fn write(layers: &[&Layer], seed: u64, file: &str) -> ExitCode {
    let mut bytes = Vec::new();
    for layer in layers {
        let (sample, lines) = (layer.record)(Random::new(seed));
        bytes.extend(sample);
        for line in lines {
            println!("{line}");
        }
    }
    assert!(
        bytes.len() <= record::MOST_BYTES,
        "{} bytes are too many for a program that replays them",
        bytes.len()
    );
    match std::fs::write(file, &bytes) {
        Ok(()) => {
            println!("{} bytes written to {file}", count(bytes.len() as u64));
            ExitCode::SUCCESS
        }
        Err(why) => {
            eprintln!("{file}: {why}");
            ExitCode::from(2)
        }
    }
}

fn replay(layer: &Layer, words: &[String]) -> ExitCode {
    match (layer.replay)(&mut Words(words.iter())) {
        Ok(line) => {
            println!("{line}");
            ExitCode::SUCCESS
        }
        Err(difference) => report(difference),
    }
}
