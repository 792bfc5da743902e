//! The calls that look at every slot, at three sizes: ours alone, time per slot.
use std::hint::black_box;

use hop::{calls, HopSlotMap, Refusal};

use crate::fixed;
use crate::maps::{Fault, Kept, Ours, Tables};
use crate::others::bared;
use crate::rounds::{timed, Contest};

pub const SIZES: [usize; 3] = [64, 512, 4_096];

/// A round goes over as many maps as have this many slots together.
const TOGETHER: usize = 4_096;

/// One line of the table: a contest at each size.
pub struct PerSlot {
    pub name: &'static str,
    pub contests: Vec<Contest>,
}

impl PerSlot {
    /// Nanoseconds per slot, at each size.
    pub fn figures(&self) -> Vec<f64> {
        self.contests.iter().flat_map(|contest| contest.nanoseconds(TOGETHER)).collect()
    }
}

/// A map with every slot lent in use, and a shuffled half of them live.
fn half_live(slots: usize) -> Result<Ours, Fault> {
    let mut ours = Ours::of_slots(slots)?;
    ours.with(|map| {
        let keys = fixed::rows(slots - 1).into_iter().map(|row| map.insert(row)).collect::<Result<Vec<_>, _>>()?;
        for place in fixed::shuffled(slots - 1, 3).into_iter().take(slots / 2) {
            map.remove(keys[place])?;
        }
        Ok(())
    })?;
    ours.keep();
    Ok(ours)
}

/// The keep bytes of the rows that the closure of retain keeps.
fn kept_bytes(tables: &Tables) -> Vec<u8> {
    tables.rows.chunks_exact(hop::ROW_WORDS).map(|row| u8::from(row[1] == 1)).collect()
}

/// A task over maps that each round brings back to where they were.
fn measured(from: &Ours, slots: usize, mut task: impl FnMut(&mut Ours) -> Result<(), Fault> + 'static) -> Contest {
    let mut maps = vec![from.clone(); TOGETHER / slots];
    Contest::alone(move || {
        maps.iter_mut().for_each(Kept::restore);
        Ok(timed(|| maps.iter_mut().try_for_each(|map| task(black_box(map))))?.0)
    })
}

/// The call itself, over keep bytes that are there.
fn retain_bytes(ours: &mut Ours, keep: &[u8]) -> Result<(), Fault> {
    let Tables { links, rows, header } = &mut ours.now;
    let answer = calls::Tables::lent(links, rows).ok_or(Refusal::OtherArchive)?.retain(*header, keep);
    if answer.kind == calls::REFUSED {
        return Err(Refusal::of_number(answer.number).into());
    }
    *header = answer.header;
    Ok(())
}

const NAMES: [&str; 5] = ["check (`sound`)", "`clear`", "`retain`, keep bytes given", "`retain`, with a closure", "`rebuild`"];

/// A contest for each name, at one size.
fn at_size(slots: usize) -> Result<[Contest; NAMES.len()], Fault> {
    let half = half_live(slots)?;
    let keep = kept_bytes(&half.now);
    let (bare, presence) = bared(half.clone());
    Ok([
        measured(&half, slots, |ours| ours.with(|map| Ok(map.sound()?))),
        measured(&half, slots, |ours| ours.with(|map| Ok(map.clear()?))),
        measured(&half, slots, move |ours| retain_bytes(ours, &keep)),
        measured(&half, slots, |ours| ours.with(|map| Ok(map.retain(|_, row| row[1] == 1).map(drop)?))),
        measured(&bare, slots, move |ours| Ok(HopSlotMap::rebuild(&mut ours.now.links, &mut ours.now.rows, &presence).map(drop)?)),
    ])
}

pub fn lines() -> Result<Vec<PerSlot>, Fault> {
    let mut lines = NAMES.map(|name| PerSlot { name, contests: Vec::new() });
    for slots in SIZES {
        lines.iter_mut().zip(at_size(slots)?).for_each(|(line, contest)| line.contests.push(contest));
    }
    Ok(lines.into())
}

/// `room`, which has nothing to do but what every call does.
pub fn toll() -> Result<PerSlot, Fault> {
    let mut ours = half_live(TOGETHER)?;
    let rooms = move || ours.with(|map| Ok(timed(|| (0..TOGETHER).try_for_each(|_| black_box(&*map).room().map(drop)))?.0));
    Ok(PerSlot { name: "`room`", contests: vec![Contest::alone(rooms)] })
}
