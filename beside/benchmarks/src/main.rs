//! Measures the map beside slotmap's, prints the tables and writes the file about them. `./bench` builds and runs it.
#![allow(deprecated)] // slotmap marks its HopSlotMap so

mod beside;
mod fixed;
mod maps;
mod others;
mod per_slot;
mod report;
mod rounds;
mod table;
mod works;

use std::process::ExitCode;
use std::{env, fs, thread};

use crate::beside::Entry;
use crate::fixed::Fixed;
use crate::report::{document, Figures, Setting};
use crate::rounds::{passes, Contest, Stop};

/// The processor's name, where the system tells it.
fn processor() -> String {
    let told = fs::read_to_string("/proc/cpuinfo").unwrap_or_default();
    let name = told.lines().find_map(|line| line.strip_prefix("model name")?.split_once(':'));
    name.map_or("not told".to_string(), |(_, name)| name.trim().to_string())
}

/// The file to write, and the setting.
fn asked() -> Result<(String, Setting), Stop> {
    let words: Vec<String> = env::args().skip(1).collect();
    let [file, date, rustc, gcc, rt] =
        <[String; 5]>::try_from(words).map_err(|_| "run ./bench: it says which file, which date and which compilers")?;
    Ok((file, Setting { processor: processor(), cores: thread::available_parallelism()?.get(), date, rustc, gcc, rt }))
}

/// All passes over all contests.
fn measured(fixed: &'static Fixed) -> Result<Figures, Stop> {
    let (mut beside, mut per_slot, mut toll) = (beside::entries(fixed)?, per_slot::lines()?, per_slot::toll()?);
    passes(&mut || {
        beside.iter_mut().try_for_each(|entry| entry.contest.pass())?;
        per_slot.iter_mut().chain([&mut toll]).flat_map(|line| &mut line.contests).try_for_each(Contest::pass)
    })?;
    Ok(Figures { beside: beside.iter().flat_map(Entry::lines).collect(), per_slot, toll: toll.figures().into_iter().sum() })
}

fn run() -> Result<(), Stop> {
    let (file, setting) = asked()?;
    let figures = measured(Box::leak(Box::new(Fixed::new())))?;
    print!("{}", figures.tables());
    fs::write(&file, document(&setting, &figures)).map_err(|error| format!("{file}: {error}"))?;
    Ok(())
}

fn main() -> ExitCode {
    match run() {
        Ok(()) => ExitCode::SUCCESS,
        Err(stop) => {
            eprintln!("benchmarks: {stop}");
            ExitCode::FAILURE
        }
    }
}
