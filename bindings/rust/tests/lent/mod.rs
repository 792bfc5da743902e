//! Tables of any words, any lengths and any header; and those that a season left, with some words changed.
use hop::{Header, HopSlotMap, Refusal, LINK_WORDS, ROW_WORDS};

use crate::words::Words;

/// What is lent to a map.
#[derive(Clone, Debug, PartialEq, Eq)]
pub struct Lent {
    pub links: Vec<u32>,
    pub rows: Vec<u32>,
    pub header: Header,
}

impl Lent {
    pub fn map(&mut self) -> HopSlotMap<'_> {
        HopSlotMap::with_header(&mut self.links, &mut self.rows, self.header).unwrap()
    }

    /// What a call answers and what it leaves: all as it was, where it is refused.
    pub fn asked<T>(&self, call: impl FnOnce(&mut HopSlotMap) -> Result<T, Refusal>) -> (Result<T, Refusal>, Lent) {
        let mut after = self.clone();
        let mut map = after.map();
        let answer = call(&mut map);
        after.header = map.header();
        assert!(answer.is_ok() || after == *self, "{:?} changed\n{self:?} to\n{after:?}", answer.err());
        (answer, after)
    }
}

/// A word: mostly one that could be a link or a version of a small table, now and then any.
pub fn word(random: &mut Words) -> u32 {
    match random.below(20) {
        0 => u32::try_from(random.any() >> 32).unwrap(),
        1 => u32::MAX - random.below(2),
        _ => random.below(9),
    }
}

/// Words of no table in particular, with lengths that need not be those of slots.
fn any_words(random: &mut Words) -> Lent {
    let slots = random.below(9) as usize;
    let (mut link_words, mut row_words) = (slots * LINK_WORDS, slots * ROW_WORDS);
    match random.below(8) {
        0 => link_words += random.below(5) as usize,
        1 => row_words += random.below(9) as usize,
        2 => (link_words, row_words) = (random.below(40) as usize, random.below(80) as usize),
        _ => {}
    }
    let links = (0..link_words).map(|_| word(random)).collect();
    let rows = (0..row_words).map(|_| word(random)).collect();
    Lent { links, rows, header: Header { used: word(random), live: word(random) } }
}

/// A table that a season left, with as many of its words changed as is said, or its header.
fn season_with_damage(random: &mut Words, changed: u32) -> Lent {
    let slots = 2 + random.below(8) as usize;
    let mut lent = Lent { links: vec![0; slots * LINK_WORDS], rows: vec![0; slots * ROW_WORDS], header: Header::default() };
    let mut map = HopSlotMap::new(&mut lent.links, &mut lent.rows).unwrap();
    for _ in 0..random.below(30) {
        let one = map.keys().map(Result::unwrap).nth(random.below(6) as usize);
        match one {
            Some(key) if random.below(2) == 0 => assert!(map.remove(key).is_ok()),
            _ => assert!(matches!(map.insert([row_word(random); ROW_WORDS]), Ok(_) | Err(Refusal::Full))),
        }
    }
    lent.header = map.header();
    for _ in 0..changed {
        match random.below(12) {
            0 => lent.header.used = word(random),
            1 => lent.header.live = word(random),
            _ => {
                let at = random.below(u32::try_from(lent.links.len()).unwrap()) as usize;
                lent.links[at] = word(random);
            }
        }
    }
    lent
}

/// A row's word, never 0.
fn row_word(random: &mut Words) -> u32 {
    1 + random.below(1000)
}

/// Tables of every kind, a third of them words of no table, the others a season's with no change, one or a few.
pub fn any_lent(random: &mut Words) -> Lent {
    match random.below(6) {
        0 | 1 => any_words(random),
        changed => season_with_damage(random, changed - 2),
    }
}
