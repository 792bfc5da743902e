//! Runs of the port beside the original. docs/DIFFERENCES.md says where the two may differ; anything else that shows here is a fault.
mod agree;
mod answers;
mod beside;
mod damaged;
mod differences;
mod histories;
mod jobs;
mod list;
mod maker;
mod mark;
mod originals;
mod random;
mod soundness;
mod tables;
mod tally;

use std::{env, process};

use tally::Tally;

const USAGE: &str = "differential [--seed N] [--long]: runs beside the original, for about two minutes, or for hours\n\
                     differential --make: writes the fixed list anew";

/// What a run is asked for.
struct Asked {
    make: bool,
    long: bool,
    seed: u64,
}

fn asked() -> Result<Asked, String> {
    let mut asked = Asked { make: false, long: false, seed: 1 };
    let mut words = env::args().skip(1);
    while let Some(word) = words.next() {
        match word.as_str() {
            "--make" => asked.make = true,
            "--long" => asked.long = true,
            "--seed" => asked.seed = words.next().and_then(|seed| seed.parse().ok()).ok_or(format!("--seed asks for a number\n{USAGE}"))?,
            other => return Err(format!("{other} is not understood\n{USAGE}")),
        }
    }
    Ok(asked)
}

/// How many parts agreed, and how many did not.
struct Run {
    tally: Tally,
    passed: usize,
    failed: usize,
}

impl Run {
    fn part(&mut self, name: &str, run: impl FnOnce(&Tally) -> Result<(), String> + Send) {
        match self.tally.watched(name, || run(&self.tally)) {
            Ok(()) => self.passed += 1,
            Err(said) => {
                println!("DIFFERENT, {name}: {said}");
                self.failed += 1;
            }
        }
    }

    fn once(&mut self, asked: &Asked) {
        let seed = asked.seed;
        self.part("the fixed list", maker::kept);
        self.part("the differences that are known", |tally| differences::differences(100_000, seed, tally));
        self.part("soundness, every table of three slots", soundness::every);
        let (small, large) = if asked.long { (8, 5) } else { (7, 4) };
        self.part(&format!("every history of up to {small} calls at 4 slots"), |tally| histories::every(4, small, seed, tally));
        self.part(&format!("every history of up to {large} calls at 6 slots"), |tally| histories::every(6, large, seed, tally));
    }

    fn by_chance(&mut self, seed: u64) {
        if oracle::REBUILDS {
            self.part("rebuilds that are refused", |tally| histories::refused_rebuilds(100_000, seed, tally));
        }
        self.part("random histories", |tally| histories::random(40_000, seed, tally));
        self.part("damaged tables", |tally| damaged::damaged(6_000_000, seed, tally));
    }
}

fn main() {
    let asked = asked().unwrap_or_else(|said| {
        eprintln!("{said}");
        process::exit(2);
    });
    if asked.make {
        if let Err(said) = maker::make() {
            eprintln!("{said}");
            process::exit(1);
        }
        return;
    }
    if !oracle::REBUILDS {
        println!("REBUILD IS NOT COMPARED WITH THE ORIGINAL: IT WAS BUILT WITHOUT SERDE");
    }
    println!("seed {}", asked.seed);
    let mut run = Run { tally: Tally::default(), passed: 0, failed: 0 };
    run.once(&asked);
    for round in 0..if asked.long { 100 } else { 1 } {
        run.by_chance(asked.seed.wrapping_add(round));
    }
    run.tally.tell();
    println!("{} passed, {} failed", run.passed, run.failed);
    process::exit(i32::from(run.failed > 0));
}
