//! A mark of a whole state, in 128 bits: states with one mark are taken for one.
use oracle::Shown;

#[derive(Clone, Copy, Default, PartialEq, Eq, Hash)]
pub struct Mark(u64, u64);

impl Mark {
    pub fn add(&mut self, word: u32) {
        self.0 = (self.0 ^ u64::from(word)).wrapping_mul(0x9fb2_1c65_1e98_df25).rotate_left(29);
        self.1 = (self.1.rotate_left(23) ^ u64::from(word)).wrapping_mul(0xd6e8_feb8_6659_fd93);
    }

    pub fn add_all(&mut self, words: &[u32]) {
        words.iter().for_each(|word| self.add(*word));
    }

    /// Every word that Debug shows, those that mean nothing too.
    pub fn add_shown(&mut self, shown: &Shown) {
        shown.slots.iter().for_each(|slot| self.add_all(&[slot.version, slot.next, slot.prev, slot.other_end]));
    }
}
