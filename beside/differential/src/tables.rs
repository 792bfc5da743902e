//! The two tables that are lent, with guard words on both sides of each.
use hop::{calls, LINK_WORDS, ROW_WORDS};

use crate::random::Random;

const GUARDS: usize = 8;

/// What the guard at a place has to be.
fn guard(place: usize) -> u32 {
    0xb00b_5000 ^ (place as u32).wrapping_mul(0x0101_0107)
}

#[derive(Clone, PartialEq, Eq)]
struct Table(Vec<u32>);

impl Table {
    fn of(words: usize, mut word: impl FnMut() -> u32) -> Self {
        let whole = words + 2 * GUARDS;
        let inside = GUARDS..GUARDS + words;
        Table((0..whole).map(|place| if inside.contains(&place) { word() } else { guard(place) }).collect())
    }

    fn lent(&self) -> &[u32] {
        &self.0[GUARDS..self.0.len() - GUARDS]
    }

    fn lent_mut(&mut self) -> &mut [u32] {
        let end = self.0.len() - GUARDS;
        &mut self.0[GUARDS..end]
    }

    fn guarded(&self) -> bool {
        let end = self.0.len() - GUARDS;
        (0..GUARDS).chain(end..self.0.len()).all(|place| self.0[place] == guard(place))
    }
}

#[derive(Clone, PartialEq, Eq)]
pub struct Tables {
    links: Table,
    rows: Table,
}

impl Tables {
    /// Tables of so many words, each word one of those given.
    pub fn of(link_words: usize, row_words: usize, mut word: impl FnMut() -> u32) -> Self {
        Tables { links: Table::of(link_words, &mut word), rows: Table::of(row_words, &mut word) }
    }

    /// Tables of so many slots, full of random words.
    pub fn random(slots: usize, random: &mut Random) -> Self {
        Tables::of(slots * LINK_WORDS, slots * ROW_WORDS, || random.word())
    }

    pub fn links(&self) -> &[u32] {
        self.links.lent()
    }

    pub fn rows(&self) -> &[u32] {
        self.rows.lent()
    }

    pub fn lent(&mut self) -> (&mut [u32], &mut [u32]) {
        (self.links.lent_mut(), self.rows.lent_mut())
    }

    /// The tables, ready for calls of the archive.
    pub fn calls(&mut self) -> calls::Tables<'_> {
        calls::Tables::lent(self.links.lent_mut(), self.rows.lent_mut()).expect("the archive is of another layout than the crate hop")
    }

    /// The slots that the link table has room for.
    pub fn slots(&self) -> usize {
        self.links().len() / LINK_WORDS
    }

    pub fn guarded(&self) -> bool {
        self.links.guarded() && self.rows.guarded()
    }

    pub fn version(&self, slot: usize) -> u32 {
        self.links()[slot * LINK_WORDS]
    }

    pub fn vacant(&self, slot: usize) -> bool {
        self.version(slot).is_multiple_of(2)
    }

    /// The words from a slot upward are those of other tables.
    pub fn same_from(&self, slot: usize, other: &Tables) -> bool {
        self.links()[slot * LINK_WORDS..] == other.links()[slot * LINK_WORDS..] && self.rows()[slot * ROW_WORDS..] == other.rows()[slot * ROW_WORDS..]
    }
}
