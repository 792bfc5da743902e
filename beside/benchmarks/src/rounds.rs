//! Rounds: one contestant after the other, over and over, and the best time of each.
use std::error::Error;
use std::hint::black_box;
use std::time::{Duration, Instant};

use crate::fixed::Fixed;
use crate::maps::{Fault, Kept, Map};

/// A pass has so many rounds of each contest, after some to warm up. There are several passes over all contests, so that a slow spell of the machine
/// falls on none of them alone.
pub const PASSES: usize = 10;
pub const ROUNDS: usize = 100;
pub const WARMING: usize = 20;

/// Makes each pass from another depth of the stack: where an answer on it happens to lie across two pages, a call takes twice as long or more.
pub fn passes(pass: &mut dyn FnMut() -> Result<(), Stop>) -> Result<(), Stop> {
    (0..PASSES).try_for_each(|depth| deeper(depth, pass))
}

#[inline(never)]
fn deeper(steps: usize, task: &mut dyn FnMut() -> Result<(), Stop>) -> Result<(), Stop> {
    let mut frame = [0u8; 336];
    black_box(&mut frame);
    let answer = if steps == 0 { task() } else { deeper(steps - 1, task) };
    black_box(&mut frame);
    answer
}

/// What a map holds when a round is over: rows, and for the maps that hand out the same keys, keys too.
#[derive(Clone, Copy, Debug, Default, PartialEq, Eq)]
pub struct Held {
    pub rows: u64,
    pub words: u64,
    pub keys: u64,
}

/// One round: how long the measured part took, what it summed up and what it left.
#[derive(Clone, Copy, Debug)]
pub struct Lap {
    pub took: Duration,
    pub sum: u64,
    pub held: Held,
}

/// Why a run stops.
pub type Stop = Box<dyn Error>;

pub type Round = Box<dyn FnMut() -> Result<Lap, Stop>>;

/// What is measured, over any map.
pub trait Work: Copy + 'static {
    /// Brings an empty map to where a round starts, and names the keys that the round is given.
    fn prepare<M: Map>(self, fixed: &Fixed, map: &mut M) -> Result<Vec<M::Key>, Fault>;
    /// The measured part.
    fn run<M: Map>(self, fixed: &Fixed, map: &mut M, keys: &mut [M::Key]) -> Result<u64, Fault>;
}

/// Times a piece of work.
pub fn timed<T, E>(work: impl FnOnce() -> Result<T, E>) -> Result<(Duration, T), E> {
    let start = Instant::now();
    let answer = black_box(work());
    let took = start.elapsed();
    Ok((took, answer?))
}

/// A sum in which the order counts.
fn mixed(sum: u64, more: u64) -> u64 {
    sum.wrapping_mul(0x9e37_79b9_7f4a_7c15).wrapping_add(more)
}

/// What a map holds. The keys count in their order, the rows in any.
pub fn held(map: &impl Map) -> Result<Held, Fault> {
    let mut held = Held::default();
    map.walk(|key, row| {
        held.rows += 1;
        held.words = held.words.wrapping_add(row.iter().fold(0, |words, &word| mixed(words, u64::from(word))));
        held.keys = mixed(held.keys, key);
    })?;
    Ok(held)
}

/// A round of some work over one kind of map. Only the work is timed: not the way back to the start, nor the look at what is held.
pub fn round<K: Kept>(work: impl Work, fixed: &'static Fixed) -> Result<Round, Fault> {
    let mut kept = K::fresh(fixed.rows.len())?;
    let first = kept.with(|map| work.prepare(fixed, map))?;
    kept.keep();
    let mut keys = first.clone();
    Ok(Box::new(move || {
        kept.restore();
        keys.copy_from_slice(&first);
        let lap = kept.with(|map| {
            let (took, sum) = timed(|| work.run(fixed, black_box(&mut *map), black_box(&mut keys)))?;
            Ok(Lap { took, sum, held: held(map)? })
        })?;
        Ok(lap)
    }))
}

/// Contestants, and the best time of each.
pub struct Contest {
    rounds: Vec<Round>,
    alike: usize,
    best: Vec<Duration>,
}

impl Contest {
    /// All contestants must sum up the same and leave the same rows; the first `alike` of them the same keys as well.
    pub fn new(rounds: Vec<Round>, alike: usize) -> Self {
        Contest { alike: alike.min(rounds.len()), best: vec![Duration::MAX; rounds.len()], rounds }
    }

    /// One contestant alone, of whom the time is all that counts.
    pub fn alone(mut round: impl FnMut() -> Result<Duration, Fault> + 'static) -> Self {
        Contest::new(vec![Box::new(move || Ok(Lap { took: round()?, sum: 0, held: Held::default() }))], 1)
    }

    pub fn pass(&mut self) -> Result<(), Stop> {
        for number in 0..WARMING + ROUNDS {
            let laps = self.rounds.iter_mut().map(|round| round()).collect::<Result<Vec<_>, _>>()?;
            agree(&laps, self.alike)?;
            if number >= WARMING {
                self.best.iter_mut().zip(&laps).for_each(|(best, lap)| *best = lap.took.min(*best));
            }
        }
        Ok(())
    }

    /// The best times in nanoseconds, each for one of so many.
    pub fn nanoseconds(&self, each: usize) -> Vec<f64> {
        self.best.iter().map(|took| took.as_secs_f64() * 1e9 / each as f64).collect()
    }
}

fn agree(laps: &[Lap], alike: usize) -> Result<(), Stop> {
    let rows = |lap: &Lap| (lap.sum, lap.held.rows, lap.held.words);
    let same_rows = laps.windows(2).all(|two| rows(&two[0]) == rows(&two[1]));
    let same_keys = laps[..alike].windows(2).all(|two| two[0].held == two[1].held);
    if same_rows && same_keys {
        Ok(())
    } else {
        Err(format!("the maps do not agree: {laps:?}").into())
    }
}
