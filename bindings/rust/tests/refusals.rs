//! Every refusal that a method can give, brought about; its number, its sentence.
#![allow(clippy::unwrap_used, clippy::indexing_slicing)]

use std::collections::HashSet;
use std::error::Error;

use hop::{Header, HopSlotMap, Key, Refusal};

const ALL: [Refusal; 10] = [
    Refusal::OtherArchive,
    Refusal::Shape,
    Refusal::Damaged,
    Refusal::EvenVersion,
    Refusal::NotLive,
    Refusal::Full,
    Refusal::StaleCursor,
    Refusal::WrongPresence,
    Refusal::ZeroOccupied,
    Refusal::BrokenStream,
];

/// Tables of four slots, filled, and the header of the map in them.
fn full() -> ([u32; 16], [u32; 32], Header) {
    let (mut links, mut rows) = ([0; 16], [0; 32]);
    let mut map = HopSlotMap::new(&mut links, &mut rows).unwrap();
    while map.insert([7; 8]).is_ok() {}
    let header = map.header();
    (links, rows, header)
}

#[test]
fn shape_of_tables_that_are_lent() {
    for (link_words, row_words) in [(0, 0), (4, 0), (0, 8), (3, 8), (4, 7), (5, 8), (4, 9), (8, 8), (4, 16), (4 * 4097, 8 * 4097)] {
        let (mut links, mut rows) = (vec![0; link_words], vec![0; row_words]);
        assert_eq!(HopSlotMap::new(&mut links, &mut rows).err(), Some(Refusal::Shape), "{link_words}, {row_words}");
        assert_eq!(HopSlotMap::rebuild(&mut links, &mut rows, &[0]).err(), Some(Refusal::Shape), "{link_words}, {row_words}");
    }
}

#[test]
fn shape_of_presence_bytes() {
    let (mut links, mut rows, _) = full();
    assert_eq!(HopSlotMap::rebuild(&mut links, &mut rows, &[]).err(), Some(Refusal::Shape));
    assert_eq!(HopSlotMap::rebuild(&mut links, &mut rows, &[0, 1, 1, 1, 0]).err(), Some(Refusal::Shape));
    assert!(HopSlotMap::rebuild(&mut links, &mut rows, &[0, 1, 1, 1]).is_ok());
}

#[test]
fn shape_of_a_header() {
    let (mut links, mut rows, _) = full();
    for (used, live) in [(0, 0), (5, 0), (1, 1), (4, 4), (u32::MAX, u32::MAX), (u32::MAX, 0), (0, u32::MAX)] {
        let map = HopSlotMap::with_header(&mut links, &mut rows, Header { used, live }).unwrap();
        assert_eq!((map.sound(), map.room()), (Err(Refusal::Shape), Err(Refusal::Shape)), "{used}, {live}");
        assert_eq!(map.iter().collect::<Vec<_>>(), [Err(Refusal::Shape)], "{used}, {live}");
    }
}

#[test]
fn damaged() {
    let (mut links, mut rows, header) = full();
    links[0] = 1;
    let mut map = HopSlotMap::with_header(&mut links, &mut rows, header).unwrap();
    assert_eq!(map.remove(Key { index: 1, version: 1 }), Err(Refusal::Damaged));
    assert_eq!((map.clear(), map.room()), (Err(Refusal::Damaged), Err(Refusal::Damaged)));
}

#[test]
fn keys_that_are_not_live() {
    let (mut links, mut rows, header) = full();
    let mut map = HopSlotMap::with_header(&mut links, &mut rows, header).unwrap();
    assert_eq!(map.remove(Key { index: 1, version: 2 }), Err(Refusal::EvenVersion));
    assert_eq!(map.remove(Key { index: 1, version: 3 }), Err(Refusal::NotLive));
    assert_eq!(map.replace(Key { index: 1, version: 2 }, [0; 8]), Err(Refusal::EvenVersion));
    assert_eq!(map.replace(Key { index: 4, version: 1 }, [0; 8]), Err(Refusal::NotLive));
}

#[test]
fn full_and_a_stale_cursor() {
    let (mut links, mut rows, header) = full();
    let mut map = HopSlotMap::with_header(&mut links, &mut rows, header).unwrap();
    assert_eq!(map.insert([7; 8]), Err(Refusal::Full));
    map.remove(Key { index: 1, version: 1 }).unwrap();
    assert_eq!(map.hop_step(1), Err(Refusal::StaleCursor));
}

#[test]
fn presence_that_is_not_so() {
    let (mut links, mut rows, _) = full();
    assert_eq!(HopSlotMap::rebuild(&mut links, &mut rows, &[0, 1, 0]).err(), Some(Refusal::WrongPresence));
    assert_eq!(HopSlotMap::rebuild(&mut links, &mut rows, &[0, 3]).err(), Some(Refusal::WrongPresence));
    links[0] = 1;
    assert_eq!(HopSlotMap::rebuild(&mut links, &mut rows, &[1, 1]).err(), Some(Refusal::ZeroOccupied));
}

#[test]
fn numbers_and_names_agree() {
    for (number, refusal) in (0..).zip(ALL) {
        assert_eq!((refusal.number(), Refusal::of_number(number)), (number, refusal));
    }
    for number in [10, 77, u32::MAX] {
        assert_eq!(Refusal::of_number(number), Refusal::OtherArchive);
    }
}

#[test]
fn each_prints_a_sentence_of_its_own() {
    let sentences: HashSet<String> = ALL.iter().map(ToString::to_string).collect();
    assert_eq!(sentences.len(), ALL.len());
    assert!(sentences.iter().all(|sentence| sentence.split(' ').count() > 5 && !sentence.ends_with('.')), "{sentences:?}");
}

#[test]
fn it_is_an_error_for_the_question_mark() {
    fn fills(map: &mut HopSlotMap) -> Result<(), Box<dyn Error>> {
        map.insert([7; 8])?;
        Ok(())
    }
    let (mut links, mut rows, header) = full();
    let mut map = HopSlotMap::with_header(&mut links, &mut rows, header).unwrap();
    let refused = fills(&mut map).unwrap_err();
    assert_eq!(refused.downcast_ref(), Some(&Refusal::Full));
    assert_eq!(refused.to_string(), Refusal::Full.to_string());
}
