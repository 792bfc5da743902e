//! What runs between the steps of a call: the closure of retain, the drop of a drain.
#![allow(clippy::unwrap_used, clippy::indexing_slicing, clippy::arithmetic_side_effects, clippy::panic)]

use std::mem;
use std::panic::{catch_unwind, AssertUnwindSafe};

use hop::{Header, HopSlotMap, Key, Refusal};

/// Tables of eight slots with five rows, 1 to 5, of which that of slot 2 went and came again; the keys in the order of their slots.
fn five() -> ([u32; 32], [u32; 64], Header, [Key; 5]) {
    let (mut links, mut rows) = ([0; 32], [0; 64]);
    let mut map = HopSlotMap::new(&mut links, &mut rows).unwrap();
    let mut keys = [1, 2, 3, 4, 5].map(|row| map.insert([row; 8]).unwrap());
    map.remove(keys[1]).unwrap();
    keys[1] = map.insert([2; 8]).unwrap();
    let header = map.header();
    (links, rows, header, keys)
}

#[test]
fn retain_asks_once_about_each_row_in_rising_order() {
    let (mut links, mut rows, header, keys) = five();
    let mut map = HopSlotMap::with_header(&mut links, &mut rows, header).unwrap();
    let mut asked = Vec::new();
    let gone = map.retain(|key, row| {
        asked.push((key, *row));
        row[0] % 2 == 1
    });
    assert_eq!(gone, Ok(2));
    assert_eq!(asked, [1, 2, 3, 4, 5].map(|row| (keys[row as usize - 1], [row; 8])));
    assert_eq!(map.keys().collect::<Vec<_>>(), [Ok(keys[0]), Ok(keys[2]), Ok(keys[4])]);
    assert_eq!((map.len(), map.sound()), (3, Ok(())));
}

#[test]
fn what_the_closure_writes_stays() {
    let (mut links, mut rows, header, keys) = five();
    let mut map = HopSlotMap::with_header(&mut links, &mut rows, header).unwrap();
    let gone = map.retain(|key, row| {
        row[7] = 100 + row[0];
        key != keys[2]
    });
    assert_eq!(gone, Ok(1));
    assert_eq!(map.get(keys[0]), Some(&[1, 1, 1, 1, 1, 1, 1, 101]));
    assert_eq!(map.get(keys[4]), Some(&[5, 5, 5, 5, 5, 5, 5, 105]));
    assert_eq!(map.get(keys[2]), None);
}

#[test]
fn retain_does_not_ask_on_a_damaged_table() {
    let (links, rows, header, _) = five();
    // A front's other_end, an odd slot 0, and a count that does not fit: the first two stop a walk, the last does not.
    for (word, value, live) in [(3, 2, 5), (0, 1, 5), (3, 0, 4)] {
        let (mut links, mut rows) = (links, rows);
        links[word] = value;
        let (links_before, rows_before, header) = (links, rows, Header { live, ..header });
        let mut map = HopSlotMap::with_header(&mut links, &mut rows, header).unwrap();
        assert_eq!(map.retain(|_, _| panic!("asked")), Err(Refusal::Damaged), "{word}");
        assert_eq!(map.header(), header);
        assert_eq!((links, rows), (links_before, rows_before));
    }
}

#[test]
fn a_closure_that_panics_removes_nothing() {
    let (mut links, mut rows, header, keys) = five();
    let mut map = HopSlotMap::with_header(&mut links, &mut rows, header).unwrap();
    let mut asked = 0;
    let caught = catch_unwind(AssertUnwindSafe(|| {
        map.retain(|_, row| {
            asked += 1;
            row[0] = 9;
            assert!(asked < 3, "on purpose");
            false
        })
    }));
    assert!(caught.is_err());
    assert_eq!((map.header(), map.sound()), (header, Ok(())));
    assert_eq!(map.keys().collect::<Result<Vec<_>, _>>(), Ok(keys.to_vec()));
    assert_eq!(map.values().map(|row| row.unwrap()[0]).collect::<Vec<_>>(), [9, 9, 9, 4, 5]);
}

#[test]
fn a_drain_gives_every_row_in_rising_order() {
    let (mut links, mut rows, header, keys) = five();
    let mut map = HopSlotMap::with_header(&mut links, &mut rows, header).unwrap();
    let mut drain = map.drain();
    assert_eq!(drain.by_ref().collect::<Vec<_>>(), [1, 2, 3, 4, 5].map(|row| Ok((keys[row as usize - 1], [row; 8]))));
    assert_eq!((drain.next(), drain.size_hint()), (None, (0, Some(0))));
    drop(drain);
    assert_eq!((map.len(), map.sound()), (0, Ok(())));
    assert_eq!(rows, [0; 64]);
}

#[test]
fn a_drain_dropped_half_way_empties_the_map() {
    let (mut links, mut rows, header, keys) = five();
    let mut map = HopSlotMap::with_header(&mut links, &mut rows, header).unwrap();
    let mut drain = map.drain();
    assert_eq!(drain.next(), Some(Ok((keys[0], [1; 8]))));
    assert_eq!(drain.next(), Some(Ok((keys[1], [2; 8]))));
    drop(drain);
    assert_eq!((map.len(), map.sound()), (0, Ok(())));
    assert!(keys.iter().all(|&key| map.get(key).is_none()));
}

#[test]
fn a_drain_forgotten_removes_what_was_stepped() {
    let (mut links, mut rows, header, keys) = five();
    let mut map = HopSlotMap::with_header(&mut links, &mut rows, header).unwrap();
    let mut drain = map.drain();
    assert_eq!(drain.next(), Some(Ok((keys[0], [1; 8]))));
    mem::forget(drain);
    assert_eq!((map.len(), map.sound()), (4, Ok(())));
    assert_eq!(map.keys().collect::<Result<Vec<_>, _>>(), Ok(keys[1..].to_vec()));
}

#[test]
fn a_drain_that_is_refused_is_over() {
    let (mut links, mut rows, header, keys) = five();
    links[3 * 4] = 2; // slot 3 is said to be vacant, and live still counts it
    let mut map = HopSlotMap::with_header(&mut links, &mut rows, header).unwrap();
    let mut drain = map.drain();
    assert_eq!(drain.next(), Some(Ok((keys[0], [1; 8]))));
    assert_eq!(drain.next(), Some(Err(Refusal::Damaged)));
    assert_eq!((drain.next(), drain.next(), drain.size_hint()), (None, None, (0, Some(0))));
    drop(drain);
    assert_eq!(map.len(), 4);
    assert_eq!(map.get(keys[4]), Some(&[5; 8]));
}
