//! What is measured over all four maps.
use std::hint::black_box;

use crate::fixed::{Fixed, ROWS};
use crate::maps::{Fault, Map};
use crate::rounds::Work;

/// The rows visited in one round of a walk, so that a round is long enough for the clock.
const VISITS: usize = 5_000;

/// Takes every row in; the keys in the order of the rows.
fn filled<M: Map>(fixed: &Fixed, map: &mut M) -> Result<Vec<M::Key>, Fault> {
    fixed.rows.iter().map(|row| map.insert(*row)).collect()
}

/// Takes every row in; the keys in the shuffled order.
fn shuffled<M: Map>(fixed: &Fixed, map: &mut M) -> Result<Vec<M::Key>, Fault> {
    let keys = filled(fixed, map)?;
    Ok(fixed.order.iter().map(|&place| keys[place]).collect())
}

/// Removes what the keys lead to; the sum of the first words.
fn removed<M: Map>(map: &mut M, keys: &[M::Key]) -> Result<u64, Fault> {
    let mut sum = 0;
    for key in keys {
        sum += u64::from(map.remove(*key)?[0]);
    }
    Ok(sum)
}

fn inserted<M: Map>(fixed: &Fixed, map: &mut M) -> Result<u64, Fault> {
    for row in &fixed.rows {
        black_box(map.insert(*row)?);
    }
    Ok(0)
}

/// Rows into a map that held as many before.
#[derive(Clone, Copy)]
pub struct Insert;

impl Work for Insert {
    fn prepare<M: Map>(self, fixed: &Fixed, map: &mut M) -> Result<Vec<M::Key>, Fault> {
        let keys = shuffled(fixed, map)?;
        removed(map, &keys)?;
        Ok(Vec::new())
    }

    fn run<M: Map>(self, fixed: &Fixed, map: &mut M, _: &mut [M::Key]) -> Result<u64, Fault> {
        inserted(fixed, map)
    }
}

/// Rows into a fresh map, which has its memory.
#[derive(Clone, Copy)]
pub struct InsertFresh;

impl Work for InsertFresh {
    fn prepare<M: Map>(self, _: &Fixed, _: &mut M) -> Result<Vec<M::Key>, Fault> {
        Ok(Vec::new())
    }

    fn run<M: Map>(self, fixed: &Fixed, map: &mut M, _: &mut [M::Key]) -> Result<u64, Fault> {
        inserted(fixed, map)
    }
}

#[derive(Clone, Copy)]
pub struct Remove;

impl Work for Remove {
    fn prepare<M: Map>(self, fixed: &Fixed, map: &mut M) -> Result<Vec<M::Key>, Fault> {
        shuffled(fixed, map)
    }

    fn run<M: Map>(self, _: &Fixed, map: &mut M, keys: &mut [M::Key]) -> Result<u64, Fault> {
        removed(map, keys)
    }
}

/// One out, one in, over and over, with half of the slots live.
#[derive(Clone, Copy)]
pub struct RemoveInsert;

impl Work for RemoveInsert {
    fn prepare<M: Map>(self, fixed: &Fixed, map: &mut M) -> Result<Vec<M::Key>, Fault> {
        let mut keys = shuffled(fixed, map)?;
        removed(map, &keys.split_off(ROWS / 2))?;
        Ok(keys)
    }

    fn run<M: Map>(self, fixed: &Fixed, map: &mut M, keys: &mut [M::Key]) -> Result<u64, Fault> {
        let mut sum = 0;
        for (row, place) in fixed.rows.iter().zip(&fixed.order) {
            let key = &mut keys[place % (ROWS / 2)];
            sum += u64::from(map.remove(*key)?[0]);
            *key = map.insert(*row)?;
        }
        Ok(sum)
    }
}

#[derive(Clone, Copy)]
pub struct Get;

impl Work for Get {
    fn prepare<M: Map>(self, fixed: &Fixed, map: &mut M) -> Result<Vec<M::Key>, Fault> {
        shuffled(fixed, map)
    }

    fn run<M: Map>(self, _: &Fixed, map: &mut M, keys: &mut [M::Key]) -> Result<u64, Fault> {
        let mut sum = 0;
        for key in keys.iter() {
            sum += u64::from(map.get(*key)?[0]);
        }
        Ok(sum)
    }
}

#[derive(Clone, Copy)]
pub struct Replace;

impl Work for Replace {
    fn prepare<M: Map>(self, fixed: &Fixed, map: &mut M) -> Result<Vec<M::Key>, Fault> {
        shuffled(fixed, map)
    }

    fn run<M: Map>(self, fixed: &Fixed, map: &mut M, keys: &mut [M::Key]) -> Result<u64, Fault> {
        for (key, row) in keys.iter().zip(&fixed.others) {
            map.replace(*key, *row)?;
        }
        Ok(0)
    }
}

#[derive(Clone, Copy)]
pub struct Drain;

impl Work for Drain {
    fn prepare<M: Map>(self, fixed: &Fixed, map: &mut M) -> Result<Vec<M::Key>, Fault> {
        filled(fixed, map)
    }

    fn run<M: Map>(self, _: &Fixed, map: &mut M, _: &mut [M::Key]) -> Result<u64, Fault> {
        let mut sum = 0;
        map.drain(|row| sum += u64::from(row[0]))?;
        Ok(sum)
    }
}

/// Keeps a shuffled half.
#[derive(Clone, Copy)]
pub struct Retain;

impl Work for Retain {
    fn prepare<M: Map>(self, fixed: &Fixed, map: &mut M) -> Result<Vec<M::Key>, Fault> {
        filled(fixed, map)
    }

    fn run<M: Map>(self, _: &Fixed, map: &mut M, _: &mut [M::Key]) -> Result<u64, Fault> {
        map.retain(|row| row[1] == 1)?;
        Ok(0)
    }
}

#[derive(Clone, Copy)]
pub struct Clear;

impl Work for Clear {
    fn prepare<M: Map>(self, fixed: &Fixed, map: &mut M) -> Result<Vec<M::Key>, Fault> {
        filled(fixed, map)
    }

    fn run<M: Map>(self, _: &Fixed, map: &mut M, _: &mut [M::Key]) -> Result<u64, Fault> {
        map.clear()?;
        Ok(0)
    }
}

/// Walks over a map in which one slot in so many is live.
#[derive(Clone, Copy)]
pub struct Walk(pub usize);

impl Walk {
    /// How many rows a walk visits.
    pub fn live(self) -> usize {
        ROWS / self.0
    }

    /// How many walks a round has.
    pub fn walks(self) -> usize {
        VISITS / self.live()
    }
}

impl Work for Walk {
    fn prepare<M: Map>(self, fixed: &Fixed, map: &mut M) -> Result<Vec<M::Key>, Fault> {
        for (place, key) in filled(fixed, map)?.into_iter().enumerate() {
            if (place + 1) % self.0 != 0 {
                map.remove(key)?;
            }
        }
        Ok(Vec::new())
    }

    fn run<M: Map>(self, _: &Fixed, map: &mut M, _: &mut [M::Key]) -> Result<u64, Fault> {
        let mut sum = 0;
        for _ in 0..self.walks() {
            black_box(&*map).walk(|_, row| sum += u64::from(row[0]))?;
        }
        Ok(sum)
    }
}
