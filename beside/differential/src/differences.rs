//! Where the two differ, they differ as docs/DIFFERENCES.md says; and keys are printed, and put into one word, as the original does it.
use hop::{HopSlotMap, Refusal};
use oracle::slotmap::KeyData;
use oracle::{Key, Mended, Original, Plain};

use crate::agree::same;
use crate::random::Random;
use crate::tally::{Kind, Tally};

/// Rows of their slot's number.
fn six_slots() -> Vec<(u32, Option<[u32; 8]>)> {
    [0, 1, 2, 1, 1, 1].iter().zip(0..).map(|(version, slot)| (*version, (version % 2 == 1).then_some([slot; 8]))).collect()
}

/// The keys that three inserts give after the removal of (4, 1).
fn three_more(map: &mut impl Original) -> [Key; 3] {
    map.remove((4, 1));
    std::array::from_fn(|_| map.insert([9; 8]))
}

/// Parting 1, in case L of document 01: the original loses slot 2, the mended copy and the port do not.
fn parting() -> Result<(), String> {
    if !oracle::REBUILDS {
        return Ok(());
    }
    same("case L, the original", &three_more(&mut Plain::rebuilt(&six_slots())?), &[(4, 3), (6, 1), (7, 1)])?;
    same("case L, its mended copy", &three_more(&mut Mended::rebuilt(&six_slots())?), &[(2, 3), (4, 3), (6, 1)])?;
    let (mut links, mut rows) = ([0; 8 * hop::LINK_WORDS], [0; 8 * hop::ROW_WORDS]);
    for (slot, (version, _)) in six_slots().iter().enumerate() {
        links[slot * hop::LINK_WORDS] = *version;
    }
    let mut map = HopSlotMap::rebuild(&mut links, &mut rows, &[0, 1, 0, 1, 1, 1]).map_err(|refusal| refusal.to_string())?;
    let removed = map.remove(hop::Key { index: 4, version: 1 });
    let keys: Vec<Key> = (0..3).flat_map(|_| map.insert([9; 8])).map(crate::beside::told).collect();
    same("case L, ours", &(removed, keys), &(Ok([0; 8]), vec![(2, 3), (4, 3), (6, 1)]))
}

/// A key of any word is printed as the original's is, and goes back to the word that it came from. The original makes an even version odd.
fn key(word: u64) -> Result<(), String> {
    let (ours, theirs) = (hop::Key::from_ffi(word), KeyData::from_ffi(word | 1 << 32));
    let odd = hop::Key { version: ours.version | 1, ..ours };
    same("a key as a word", &ours.as_ffi(), &word)?;
    same("a key as a word, odd", &odd.as_ffi(), &theirs.as_ffi())?;
    same("the original's even key", &KeyData::from_ffi(word).as_ffi(), &odd.as_ffi())?;
    same("a key printed", &format!("{odd:?}"), &format!("{theirs:?}"))
}

/// The order of keys is the original's.
fn order(one: u64, other: u64) -> Result<(), String> {
    let ours = hop::Key::from_ffi(one).cmp(&hop::Key::from_ffi(other));
    same("the order of two keys", &ours, &KeyData::from_ffi(one).cmp(&KeyData::from_ffi(other)))
}

/// A live key with its lowest version bit taken away: the original finds a row, the port refuses with 3.
fn even_key() -> Result<(), String> {
    let mut original = Plain::fresh();
    let (index, version) = Original::insert(&mut original, [5; 8]);
    same("the original at an even key", &Original::get(&original, (index, version - 1)), &Some([5; 8]))?;
    let (mut links, mut rows) = ([0; 2 * hop::LINK_WORDS], [0; 2 * hop::ROW_WORDS]);
    let mut map = HopSlotMap::new(&mut links, &mut rows).map_err(|refusal| refusal.to_string())?;
    let live = map.insert([5; 8]).map_err(|refusal| refusal.to_string())?;
    same("ours at an even key", &map.check_key(hop::Key { version: live.version - 1, ..live }), &Err(Refusal::EvenVersion))
}

pub fn differences(count: u64, seed: u64, tally: &Tally) -> Result<(), String> {
    parting()?;
    even_key()?;
    let mut random = Random::new(seed, 3);
    for _ in 0..count {
        let word = random.next() >> random.below(64);
        key(word)?;
        key(word | 0xffff_ffff)?;
        order(word | 1 << 32, (word ^ 1 << random.below(64)) | 1 << 32)?;
        tally.add(Kind::Keys, 1);
    }
    Ok(())
}
