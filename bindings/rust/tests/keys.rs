//! Keys: all 64 bits of a word are kept, and keys print and compare as slotmap's do.
#![allow(clippy::unwrap_used, clippy::arithmetic_side_effects)]
mod words;

use std::collections::HashSet;

use hop::{HopSlotMap, Key, Refusal};
use words::Words;

/// The ends of both halves, each single bit, and words at random, large and small.
fn kinds_of_words() -> Vec<u64> {
    let mut random = Words::from_seed(2);
    let ends = [0, 1, 2, 0x7fff_ffff, 0x8000_0000, 0xffff_fffe, 0xffff_ffff];
    let mut kinds: Vec<u64> = ends.iter().flat_map(|high| ends.map(|low| high << 32 | low)).collect();
    kinds.extend((0..64).map(|bit| 1 << bit));
    kinds.extend((0..1000).map(|_| random.any()));
    kinds.extend((0..100).map(|_| u64::from(random.below(6)) << 32 | u64::from(random.below(6))));
    kinds
}

#[test]
fn every_bit_is_kept() {
    for word in kinds_of_words() {
        let key = Key::from_ffi(word);
        assert_eq!(key.as_ffi(), word);
        assert_eq!((u64::from(key.version), u64::from(key.index)), (word >> 32, word & 0xffff_ffff));
        assert_eq!(Key::from_ffi(key.as_ffi()), key);
    }
}

#[test]
fn an_even_version_stays_even_and_is_refused() {
    let (mut links, mut rows) = ([0; 16], [0; 32]);
    let mut map = HopSlotMap::new(&mut links, &mut rows).unwrap();
    let live = map.insert([1; 8]).unwrap();
    for word in kinds_of_words() {
        let key = Key::from_ffi(word);
        let wanted = match key {
            Key { version, .. } if version % 2 == 0 => Err(Refusal::EvenVersion),
            _ if key == live => Ok(()),
            _ => Err(Refusal::NotLive),
        };
        assert_eq!(map.check_key(key), wanted, "{key}");
    }
    // slotmap makes this very word the live key.
    let bent = Key::from_ffi(live.as_ffi() ^ 1 << 32);
    assert_eq!(map.remove(bent), Err(Refusal::EvenVersion));
    assert_eq!(map.replace(bent, [2; 8]), Err(Refusal::EvenVersion));
    assert_eq!((map.get(bent), map.get(live)), (None, Some(&[1; 8])));
}

#[test]
fn they_print_as_slotmaps_do() {
    for (word, printed) in [
        (0x0000_0001_0000_0001, "1v1"),
        (0x0000_0003_0000_0001, "1v3"),
        (0x0000_0000_0000_0000, "0v0"),
        (0xffff_ffff_0000_0fff, "4095v4294967295"),
        (0x0000_0002_ffff_fffe, "4294967294v2"),
        (0x0000_0001_ffff_ffff, "null"),
        (0x0000_0004_ffff_ffff, "null"),
    ] {
        let key = Key::from_ffi(word);
        assert_eq!((format!("{key:?}").as_str(), key.to_string().as_str()), (printed, printed));
        assert_eq!(key.is_null(), printed == "null");
    }
}

#[test]
fn the_null_key() {
    assert_eq!(Key::null(), Key { index: u32::MAX, version: 1 });
    assert_eq!(Key::default(), Key::null());
    assert!(Key::null().is_null());
    let (mut links, mut rows) = (vec![0; 4 * hop::LIMIT], vec![0; 8 * hop::LIMIT]);
    let mut map = HopSlotMap::new(&mut links, &mut rows).unwrap();
    while map.insert([1; 8]).is_ok() {}
    assert_eq!(map.check_key(Key::null()), Err(Refusal::NotLive));
    assert_eq!(map.remove(Key::null()), Err(Refusal::NotLive));
    assert!(map.keys().all(|key| !key.unwrap().is_null()));
}

#[test]
fn by_index_then_by_version() {
    let mut keys: Vec<Key> = kinds_of_words().into_iter().map(Key::from_ffi).collect();
    keys.sort_unstable();
    for pair in keys.windows(2) {
        let &[less, more] = pair else { continue };
        assert!((less.index, less.version) <= (more.index, more.version));
    }
    assert!(Key { index: 1, version: 9 } < Key { index: 2, version: 1 });
    assert!(Key { index: 1, version: 1 } < Key { index: 1, version: 3 });
    assert_eq!(keys.iter().copied().collect::<HashSet<_>>().len(), kinds_of_words().into_iter().collect::<HashSet<_>>().len());
}
