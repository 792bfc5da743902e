//! What every map is given: the same rows in the same order, in every run.
use hop::Row;

/// How many rows the maps hold at most.
pub const ROWS: usize = 1_000;

/// Rows, as many others, and an order of their places that has nothing to do with slots.
pub struct Fixed {
    pub rows: Vec<Row>,
    pub others: Vec<Row>,
    pub order: Vec<usize>,
}

/// The places from 0 up to a count, shuffled: Fisher and Yates over a linear congruential generator.
pub fn shuffled(count: usize, seed: u64) -> Vec<usize> {
    let mut places: Vec<usize> = (0..count).collect();
    let mut state = seed;
    for last in (1..count).rev() {
        state = state.wrapping_mul(6_364_136_223_846_793_005).wrapping_add(1_442_695_040_888_963_407);
        places.swap(last, (state >> 33) as usize % (last + 1));
    }
    places
}

/// The first word counts the rows. The second is 1 in a shuffled half of them: the half that retain keeps.
pub fn rows(count: usize) -> Vec<Row> {
    let mut rows: Vec<Row> = (0u32..).take(count).map(|n| [n + 1, 0, n, n, n, n, n, n]).collect();
    for &place in shuffled(count, 2).iter().take(count / 2) {
        rows[place][1] = 1;
    }
    rows
}

impl Fixed {
    pub fn new() -> Self {
        let rows = rows(ROWS);
        let others = rows.iter().map(|row| row.map(|word| word + 7)).collect();
        Fixed { rows, others, order: shuffled(ROWS, 1) }
    }
}
