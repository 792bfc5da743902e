//! The cases that document 01 tried on the bench, through the methods; and a long season beside a book of what was taken in and what went out.
#![allow(clippy::unwrap_used, clippy::indexing_slicing, clippy::arithmetic_side_effects)]
mod words;

use std::collections::{BTreeMap, BTreeSet};

use hop::{Header, HopSlotMap, Key, Refusal, Row, LIMIT, LINK_WORDS, ROW_WORDS};
use words::Words;

/// Tables of so many slots, with words that mean nothing.
fn tables(slots: usize) -> (Vec<u32>, Vec<u32>) {
    (vec![7; slots * LINK_WORDS], vec![9; slots * ROW_WORDS])
}

fn key(index: u32, version: u32) -> Key {
    Key { index, version }
}

/// Takes so many rows in, and answers the keys.
fn in_they_go(map: &mut HopSlotMap, rows: u32) -> Vec<Key> {
    (0..rows).map(|n| map.insert([n; ROW_WORDS]).unwrap()).collect()
}

/// So many in on a fresh table of 16, these slots out, and the keys of the inserts that follow.
fn after(rows: u32, out: &[u32], then: &[(u32, u32)]) {
    let (mut links, mut rows_lent) = tables(16);
    let mut map = HopSlotMap::new(&mut links, &mut rows_lent).unwrap();
    let first: Vec<Key> = (1..=rows).map(|slot| key(slot, 1)).collect();
    assert_eq!(in_they_go(&mut map, rows), first);
    assert_eq!(map.header(), Header { used: rows + 1, live: rows });
    for &slot in out {
        assert_eq!(map.remove(key(slot, 1)), Ok([slot - 1; ROW_WORDS]));
    }
    let then: Vec<Key> = then.iter().map(|&(index, version)| key(index, version)).collect();
    assert_eq!(in_they_go(&mut map, u32::try_from(then.len()).unwrap()), then, "{rows} in, {out:?} out");
    assert_eq!(map.sound(), Ok(()));
}

#[test]
fn cases_of_inserts_after_removals() {
    after(3, &[], &[]); // A
    after(3, &[2], &[(2, 3)]); // B
    after(3, &[1], &[(1, 3)]); // C
    after(3, &[2, 1], &[(2, 3), (1, 3), (4, 1)]); // D
    after(5, &[2, 4, 3], &[(4, 3), (3, 3), (2, 3), (6, 1)]); // F
    after(5, &[4, 2], &[(4, 3), (2, 3)]); // G
    after(5, &[3, 2], &[(3, 3), (2, 3)]); // H
}

#[test]
fn case_c_links_of_slot_0() {
    let (mut links, mut rows) = tables(16);
    let mut map = HopSlotMap::new(&mut links, &mut rows).unwrap();
    in_they_go(&mut map, 3);
    map.remove(key(1, 1)).unwrap();
    assert_eq!(links[..4], [0, 0, 0, 1]);
}

#[test]
fn case_e_clear() {
    let (mut links, mut rows) = tables(16);
    let mut map = HopSlotMap::new(&mut links, &mut rows).unwrap();
    in_they_go(&mut map, 3);
    assert_eq!(map.clear(), Ok(()));
    assert!(map.is_empty());
    assert_eq!(in_they_go(&mut map, 4), [key(3, 3), key(2, 3), key(1, 3), key(4, 1)]);
}

#[test]
fn case_i_a_walk_and_a_stale_cursor() {
    let (mut links, mut rows) = tables(16);
    let mut map = HopSlotMap::new(&mut links, &mut rows).unwrap();
    in_they_go(&mut map, 5);
    map.remove(key(2, 1)).unwrap();
    map.remove(key(3, 1)).unwrap();
    assert_eq!(map.keys().collect::<Vec<_>>(), [Ok(key(1, 1)), Ok(key(4, 1)), Ok(key(5, 1))]);
    assert_eq!(map.values().collect::<Vec<_>>(), [Ok(&[0; 8]), Ok(&[3; 8]), Ok(&[4; 8])]);
    assert_eq!(map.hop_step(3), Err(Refusal::StaleCursor));
    assert_eq!(map.hop_step(2), Ok(Some((key(4, 1), 5))));
}

#[test]
fn case_j_the_last_version_wraps() {
    let (mut links, mut rows) = tables(16);
    (links[0], links[4]) = (0, u32::MAX);
    let mut map = HopSlotMap::rebuild(&mut links, &mut rows, &[0, 1]).unwrap();
    assert_eq!(map.remove(key(1, u32::MAX)), Ok([9; 8]));
    let header = map.header();
    assert_eq!(links[4], 0);
    let mut map = HopSlotMap::with_header(&mut links, &mut rows, header).unwrap();
    assert_eq!(map.insert([1; 8]), Ok(key(1, 1)));
}

#[test]
fn case_k_full_tables() {
    let (mut links, mut rows) = tables(1);
    assert_eq!(HopSlotMap::new(&mut links, &mut rows).unwrap().insert([1; 8]), Err(Refusal::Full));
    let (mut links, mut rows) = tables(2);
    let mut map = HopSlotMap::new(&mut links, &mut rows).unwrap();
    assert_eq!(map.insert([1; 8]), Ok(key(1, 1)));
    assert_eq!(map.insert([2; 8]), Err(Refusal::Full));
    assert_eq!((map.len(), map.room()), (1, Ok(1)));
}

#[test]
fn case_l_a_rebuilt_table_loses_no_slot() {
    let (mut links, mut rows) = tables(8);
    for (slot, version) in [0, 1, 2, 1, 1, 1].into_iter().enumerate() {
        links[slot * LINK_WORDS] = version;
    }
    let mut map = HopSlotMap::rebuild(&mut links, &mut rows, &[0, 1, 0, 1, 1, 1]).unwrap();
    assert_eq!(map.header(), Header { used: 6, live: 4 });
    map.remove(key(4, 1)).unwrap();
    assert_eq!(in_they_go(&mut map, 3), [key(2, 3), key(4, 3), key(6, 1)]);
}

#[test]
fn case_m_keys_that_are_not_live() {
    let (mut links, mut rows) = tables(16);
    let mut map = HopSlotMap::new(&mut links, &mut rows).unwrap();
    in_they_go(&mut map, 3);
    assert_eq!(map.check_key(key(1, 2)), Err(Refusal::EvenVersion));
    for dead in [key(0, 1), key(9, 1), key(1, 3)] {
        assert_eq!(map.check_key(dead), Err(Refusal::NotLive));
        assert!(!map.contains_key(dead) && map.get(dead).is_none() && map.get_mut(dead).is_none());
    }
}

#[test]
fn case_n_retain() {
    let (mut links, mut rows) = tables(16);
    let mut map = HopSlotMap::new(&mut links, &mut rows).unwrap();
    in_they_go(&mut map, 3);
    assert_eq!(map.retain(|key, _| key.index != 2), Ok(1));
    assert_eq!(map.keys().collect::<Vec<_>>(), [Ok(key(1, 1)), Ok(key(3, 1))]);
}

#[test]
fn case_o_the_most_slots() {
    let (mut links, mut rows) = tables(LIMIT);
    let mut map = HopSlotMap::new(&mut links, &mut rows).unwrap();
    let rows_taken = u32::try_from(LIMIT - 1).unwrap();
    in_they_go(&mut map, rows_taken);
    assert_eq!(map.insert([0; 8]), Err(Refusal::Full));
    assert_eq!(map.retain(|key, row| key.index % 2 == 0 && row[0] == key.index - 1), Ok(LIMIT / 2));
    assert_eq!((map.iter().count(), map.sound()), (LIMIT / 2 - 1, Ok(())));
    let (mut links, mut rows) = tables(LIMIT + 1);
    assert_eq!(HopSlotMap::new(&mut links, &mut rows).err(), Some(Refusal::Shape));
}

/// The slots of the long season.
const SLOTS: usize = 12;

/// What was taken in and what went out.
#[derive(Default)]
struct Book {
    live: BTreeMap<Key, Row>,
    dead: BTreeSet<Key>,
    refused_full: usize,
}

impl Book {
    fn all_gone(&mut self) {
        self.dead.extend(std::mem::take(&mut self.live).into_keys());
    }

    fn insert(&mut self, map: &mut HopSlotMap, row: Row) {
        match map.insert(row) {
            Ok(key) => assert!(!self.dead.contains(&key) && self.live.insert(key, row).is_none()),
            Err(refusal) => {
                assert_eq!((refusal, self.live.len()), (Refusal::Full, SLOTS - 1));
                self.refused_full += 1;
            }
        }
    }

    fn retain(&mut self, map: &mut HopSlotMap, round: u32) {
        let gone: Vec<Key> = self.live.keys().copied().filter(|key| (key.index + round) % 3 == 0).collect();
        assert_eq!(map.retain(|key, _| !gone.contains(&key)), Ok(gone.len()));
        self.live.retain(|key, _| !gone.contains(key));
        self.dead.extend(gone);
    }

    fn drain(&mut self, map: &mut HopSlotMap) {
        let drained: BTreeMap<Key, Row> = map.drain().collect::<Result<_, _>>().unwrap();
        assert_eq!(drained, self.live);
        self.all_gone();
    }

    /// One call at random, with a row and perhaps a live key, and the answer as it is booked.
    fn call(&mut self, map: &mut HopSlotMap, round: u32, random: &mut Words) {
        let row = [random.below(1000); ROW_WORDS];
        let one = self.live.keys().copied().nth(random.below(12) as usize);
        match (random.below(40), one) {
            (0, _) => {
                map.clear().unwrap();
                self.all_gone();
            }
            (1, _) => self.drain(map),
            (2..=3, _) => self.retain(map, round),
            (4..=16, Some(key)) => {
                assert_eq!(map.remove(key).ok(), self.live.remove(&key));
                self.dead.insert(key);
            }
            (17, Some(key)) => {
                map.replace(key, row).unwrap();
                self.live.insert(key, row);
            }
            (18, Some(key)) => {
                map.get_mut(key).unwrap()[7] = 5;
                self.live.get_mut(&key).unwrap()[7] = 5;
            }
            (19, _) => assert_eq!(map.drain_step(), Ok(self.live.pop_first().inspect(|&(key, _)| assert!(self.dead.insert(key))))),
            _ => self.insert(map, row),
        }
    }

    /// Where map and book agree: which keys are live, with which rows, in which order; how many; how much room.
    fn agrees(&self, map: &HopSlotMap) {
        let walked: Result<Vec<(Key, Row)>, Refusal> = map.iter().map(|shown| shown.map(|(key, row)| (key, *row))).collect();
        assert_eq!(walked, Ok(self.live.iter().map(|(&key, &row)| (key, row)).collect()));
        assert!(self.live.iter().all(|(&key, row)| map.get(key) == Some(row)));
        assert!(self.dead.iter().all(|&key| map.check_key(key) == Err(Refusal::NotLive)));
        let live = self.live.len();
        assert_eq!((map.len(), map.is_empty(), map.room(), map.sound()), (live, live == 0, Ok(SLOTS - live), Ok(())));
    }
}

#[test]
fn a_long_season() {
    let mut random = Words::from_seed(1);
    let (mut links, mut rows) = tables(SLOTS);
    let mut header = HopSlotMap::new(&mut links, &mut rows).unwrap().header();
    let mut book = Book::default();
    for round in 0..4000 {
        // The tables are taken up anew each time, by the header alone.
        let mut map = HopSlotMap::with_header(&mut links, &mut rows, header).unwrap();
        book.call(&mut map, round, &mut random);
        book.agrees(&map);
        header = map.header();
    }
    assert!(book.refused_full > 10 && book.dead.len() > 1000, "{}, {}", book.refused_full, book.dead.len());
}
