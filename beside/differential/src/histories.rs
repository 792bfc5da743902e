//! Histories beside the original: every one of so many calls at a few slots, and random ones.
use std::collections::HashMap;

use oracle::Key;

use crate::beside::{Beside, Scratch};
use crate::jobs::shared;
use crate::mark::Mark;
use crate::originals::Call;
use crate::random::Random;
use crate::tables::Tables;
use crate::tally::{Kind, Tally};

/// Versions that a rebuild is given: where they wrap, and half way.
const EVEN: [u32; 4] = [0, 2, 1 << 31, u32::MAX - 1];
const ODD: [u32; 4] = [1, (1 << 31) - 1, (1 << 31) + 1, u32::MAX];

/// A row that tells slots and calls apart.
fn row(mark: usize) -> [u32; 8] {
    std::array::from_fn(|word| ((mark * 64 + word) as u32).wrapping_mul(2_654_435_761))
}

/// Every call that may change something, on a map as it stands: a key that is live or was, every choice of a retain.
fn calls(map: &Beside) -> Vec<Call> {
    let live = map.live_keys();
    let new = row(map.keys().len());
    let mut calls = vec![Call::Insert(new), Call::DrainStep, Call::Clear, Call::Drain];
    for key in map.keys() {
        calls.extend([Call::Remove(*key), Call::Write(*key, new), Call::Replace(*key, new)]);
    }
    for choice in 0..1_usize << live.len() {
        let mut keep = vec![true; map.used()];
        live.iter().enumerate().filter(|(place, _)| choice >> place & 1 == 1).for_each(|(_, key)| keep[key.0 as usize] = false);
        calls.extend([Call::Retain(keep.clone()), Call::RetainWriting(keep)]);
    }
    calls
}

/// The most calls that a history of these has.
pub const LONGEST: usize = 10;

/// How many histories of 0, 1, 2 .. calls there are from a map.
type Counts = [u64; LONGEST + 1];

/// All histories of up to so many calls from a map. What a call does depends on the maps alone, so from a state that has been left by another history
/// with as many calls to go, nothing is made again.
struct Every<'t> {
    tally: &'t Tally,
    scratch: Scratch,
    path: Vec<Call>,
    seen: HashMap<Mark, (usize, Counts)>,
}

impl Every<'_> {
    fn from(&mut self, map: &Beside, left: usize) -> Result<Counts, String> {
        let mut counts = [0; LONGEST + 1];
        counts[0] = 1;
        if left == 0 {
            return Ok(counts);
        }
        if let Some((gone, known)) = self.seen.get(&map.mark()) {
            if *gone >= left {
                return Ok(*known);
            }
        }
        for call in calls(map) {
            let mut next = map.clone();
            self.path.push(call.clone());
            next.make(&call, &mut self.scratch, self.tally).map_err(|said| format!("{said}\n  after {:?}", self.path))?;
            let further = self.from(&next, left - 1)?;
            (0..left).for_each(|length| counts[length + 1] += further[length]);
            self.path.pop();
        }
        self.seen.insert(map.mark(), (left, counts));
        Ok(counts)
    }
}

/// A beginning: so many slots in use after it, with these versions; none for a start.
type Beginning = Option<Vec<u32>>;

/// Start, and a rebuild of every pattern of vacant and occupied slots.
fn beginnings(lent: usize, random: &mut Random) -> Vec<Beginning> {
    let mut beginnings = vec![None];
    for used in 1..=lent {
        for pattern in 0..1_usize << (used - 1) {
            let version = |slot: usize, random: &mut Random| random.pick(if slot > 0 && pattern >> (slot - 1) & 1 == 1 { &ODD } else { &EVEN });
            beginnings.push(Some((0..used).map(|slot| version(slot, random)).collect()));
        }
    }
    beginnings
}

/// The map of a beginning, over tables full of random words.
fn begun(beginning: &Beginning, lent: usize, random: &mut Random) -> Result<Option<Beside>, String> {
    let mut tables = Tables::random(lent, random);
    let Some(versions) = beginning else { return Beside::fresh(tables).map(Some) };
    for (slot, version) in versions.iter().enumerate() {
        tables.lent().0[slot * hop::LINK_WORDS] = *version;
    }
    let presence: Vec<u8> = versions.iter().map(|version| (version % 2) as u8).collect();
    Beside::rebuilt(tables, &presence)
}

/// All histories of up to so many calls at so many slots, from every beginning.
pub fn every(lent: usize, length: usize, seed: u64, tally: &Tally) -> Result<(), String> {
    let mut random = Random::new(seed, 1);
    let mut jobs = Vec::new();
    for beginning in beginnings(lent, &mut random) {
        if beginning.is_none() || oracle::REBUILDS {
            let Some(map) = begun(&beginning, lent, &mut random)? else { return Err(format!("the rebuild of {beginning:?} is refused")) };
            jobs.push((beginning, map));
        }
    }
    // The longest jobs first.
    jobs.reverse();
    shared(&jobs, |(beginning, map)| {
        let mut map = map.clone();
        let mut every = Every { tally, scratch: Scratch::default(), path: Vec::new(), seen: HashMap::new() };
        map.compare(&mut every.scratch, tally)
            .and_then(|()| every.from(&map, length))
            .map(|counts| tally.add(if beginning.is_some() { Kind::EveryRebuilt } else { Kind::EveryFresh }, counts[1..=length].iter().sum()))
            .map_err(|said| format!("{said}\n  from {beginning:?} with seed {seed}"))
    })
}

/// A random call; `lean` makes some histories fill and others empty.
fn any_call(map: &Beside, lean: usize, random: &mut Random) -> Call {
    let live = map.live_keys();
    let some = |random: &mut Random| -> Key {
        if live.is_empty() {
            (0, 1)
        } else {
            random.pick(&live)
        }
    };
    match random.below(16 + lean) {
        0..=4 => Call::Remove(some(random)),
        5 | 6 => Call::Write(some(random), random.row()),
        7 => Call::Replace(some(random), random.row()),
        8 => Call::DrainStep,
        9 => {
            let kept = random.below(8) + 1;
            let keep = (0..map.used()).map(|_| random.below(8) < kept).collect();
            if random.once_in(2) {
                Call::Retain(keep)
            } else {
                Call::RetainWriting(keep)
            }
        }
        10 if random.once_in(6) => Call::Clear,
        10 if random.once_in(5) => Call::Drain,
        _ => Call::Insert(random.row()),
    }
}

/// A beginning with versions of every sort.
fn any_versions(lent: usize, random: &mut Random) -> Vec<u32> {
    let vacant = random.below(6) + 1;
    let version = |slot: usize, random: &mut Random| {
        let even = slot == 0 && !random.once_in(40) || random.below(8) < vacant;
        let special = random.pick(if even { &EVEN } else { &ODD });
        if random.once_in(2) {
            special
        } else {
            random.word() & !1 | u32::from(!even)
        }
    };
    (0..random.below(lent) + 1).map(|slot| version(slot, random)).collect()
}

/// One random history.
fn history(number: u64, lent: usize, length: usize, seed: u64, tally: &Tally) -> Result<(), String> {
    let mut random = Random::new(seed, number);
    let rebuilt = oracle::REBUILDS && number % 2 == 1;
    let beginning = rebuilt.then(|| any_versions(lent, &mut random));
    let Some(mut map) = begun(&beginning, lent, &mut random)? else {
        tally.add(Kind::RefusedRebuilds, 1);
        return Ok(());
    };
    let mut scratch = Scratch::default();
    map.compare(&mut scratch, tally)?;
    let lean = random.pick(&[0, 4, 8, 16]);
    for _ in 0..length {
        let call = any_call(&map, lean, &mut random);
        map.make(&call, &mut scratch, tally).map_err(|said| format!("{said}\n  at {call:?}"))?;
    }
    tally.add(if rebuilt { Kind::RandomRebuilt } else { Kind::RandomFresh }, 1);
    Ok(())
}

/// Random histories, at tables of 1 to 64 slots and a few of the largest.
pub fn random(count: u64, seed: u64, tally: &Tally) -> Result<(), String> {
    let jobs: Vec<u64> = (0..count).collect();
    shared(&jobs, |number| {
        let mut random = Random::new(seed ^ 0x5eed, *number);
        let small = [1, 2, 3, 4, 5, 6, 8, 12, 16, 24, 40, 64];
        let largest = number % 20_000 < 2;
        let lent = if largest { hop::LIMIT } else { random.pick(&small) };
        let length = if largest { 3_000 } else { 16 + 4 * lent };
        history(1_000 + number, lent, length, seed, tally).map_err(|said| format!("{said}\n  in random history {number} with seed {seed}"))
    })
}

/// Rebuilds that one side or the other might take and must not: presence bytes that do not fit, slot 0 occupied, no slot.
pub fn refused_rebuilds(count: u64, seed: u64, tally: &Tally) -> Result<(), String> {
    let mut random = Random::new(seed, 2);
    for _ in 0..count {
        let versions: Vec<u32> = (0..random.below(6)).map(|_| random.pick(&[0, 1, 2, 3, u32::MAX])).collect();
        let mut presence: Vec<u8> = versions.iter().map(|version| (version % 2) as u8).collect();
        if random.once_in(2) && !presence.is_empty() {
            let slot = random.below(presence.len());
            presence[slot] ^= 1;
        }
        let mut tables = Tables::random(6, &mut random);
        for (slot, version) in versions.iter().enumerate() {
            tables.lent().0[slot * hop::LINK_WORDS] = *version;
        }
        if Beside::rebuilt(tables, &presence).map_err(|said| format!("{said}\n  of {versions:?} with {presence:?}"))?.is_none() {
            tally.add(Kind::RefusedRebuilds, 1);
        }
    }
    Ok(())
}
