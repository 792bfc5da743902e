//! The rounds that are not written over all maps alike: the walk in C, and rebuild.
use std::hint::black_box;

use hop::{HopSlotMap, Refusal, LINK_WORDS, ROW_WORDS};
use oracle::Straight;

use crate::fixed::{Fixed, ROWS};
use crate::maps::{Fault, Kept, Map, Ours, Tables};
use crate::rounds::{held, timed, Lap, Round, Work};
use crate::works::{RemoveInsert, Walk};

/// What the original's Deserialize is given.
type Slots = Vec<(u32, Option<hop::Row>)>;

mod in_c {
    extern "C" {
        pub fn bench_walk(links: *const u32, link_words: usize, rows: *const u32, row_words: usize, used: u32, live: u32, sum: *mut u64) -> u32;
    }
}

/// One walk in C; the sum of the first words.
fn walk_in_c(Tables { links, rows, header }: &Tables) -> Result<u64, Fault> {
    let mut sum = 0;
    // SAFETY: slices and one word to write, none of which overlap: all that the header file asks of a caller.
    let number = unsafe { in_c::bench_walk(links.as_ptr(), links.len(), rows.as_ptr(), rows.len(), header.used, header.live, &mut sum) };
    if number == 0 {
        Ok(sum)
    } else {
        Err(Refusal::of_number(number).into())
    }
}

/// The walks of a round, in C over our tables.
pub fn walk_round(walk: Walk, fixed: &'static Fixed) -> Result<Round, Fault> {
    let mut ours = Ours::fresh(fixed.rows.len())?;
    ours.with(|map| walk.prepare(fixed, map))?;
    Ok(Box::new(move || {
        let (took, sum) = timed(|| (0..walk.walks()).map(|_| walk_in_c(black_box(&ours.now))).sum::<Result<u64, Fault>>())?;
        Ok(Lap { took, sum, held: ours.with(|map| held(map))? })
    }))
}

/// Our tables as rebuild finds them, with a shuffled half of the slots live: versions and rows, and no other link word.
fn to_rebuild(fixed: &Fixed) -> Result<(Ours, Vec<u8>), Fault> {
    let mut ours = Ours::fresh(ROWS)?;
    ours.with(|map| RemoveInsert.prepare(fixed, map))?;
    Ok(bared(ours))
}

/// Versions and rows alone, and the presence bytes that go with them.
pub fn bared(mut ours: Ours) -> (Ours, Vec<u8>) {
    let slots = ours.now.links.chunks_exact_mut(LINK_WORDS);
    let presence = slots
        .map(|slot| {
            slot[1..].fill(0);
            u8::from(slot[0] % 2 == 1)
        })
        .collect();
    ours.keep();
    (ours, presence)
}

/// The same slots, for the original.
fn to_straight(tables: &Tables) -> Slots {
    let slots = tables.links.chunks_exact(LINK_WORDS).zip(tables.rows.chunks_exact(ROW_WORDS));
    let row = |words: &[u32]| words.try_into().unwrap_or_default();
    slots.map(|(slot, words)| (slot[0], (slot[0] % 2 == 1).then(|| row(words)))).collect()
}

/// Rebuild, of ours.
pub fn rebuild_round(fixed: &Fixed) -> Result<Round, Fault> {
    let (mut ours, presence) = to_rebuild(fixed)?;
    Ok(Box::new(move || {
        ours.restore();
        let Tables { links, rows, .. } = &mut ours.now;
        let (took, map) = timed(|| HopSlotMap::rebuild(black_box(links), rows, &presence))?;
        Ok(Lap { took, sum: 0, held: held(&map)? })
    }))
}

/// Deserialize, of one of slotmap's.
pub fn straight_round<M: Map + Straight>(fixed: &Fixed) -> Result<Round, Fault> {
    let slots = to_straight(&to_rebuild(fixed)?.0.now);
    Ok(Box::new(move || {
        let (took, map) = timed(|| M::straight(black_box(&slots)))?;
        Ok(Lap { took, sum: 0, held: held(&map)? })
    }))
}
