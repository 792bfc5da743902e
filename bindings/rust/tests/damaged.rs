//! Every method on tables of any words, any lengths and any header: it returns, and where it refuses, no word has changed, nor the header.
#![allow(clippy::unwrap_used, clippy::indexing_slicing, clippy::arithmetic_side_effects)]
mod lent;
mod words;

use std::collections::{BTreeMap, BTreeSet};

use hop::{Header, HopSlotMap, Key, Refusal, LINK_WORDS, ROW_WORDS};
use lent::{any_lent, word};
use words::Words;

const ROUNDS: usize = 20_000;

type Call = fn(&mut HopSlotMap, Key, u32) -> Result<(), Refusal>;

const CALLS: [(&str, Call, &[Refusal]); 11] = {
    use Refusal::{Damaged, EvenVersion, Full, NotLive, Shape, StaleCursor};
    [
        ("room", |map, _, _| map.room().map(drop), &[Shape, Damaged]),
        ("sound", |map, _, _| map.sound(), &[Shape, Damaged]),
        ("check_key", |map, key, _| map.check_key(key), &[Shape, Damaged, EvenVersion, NotLive]),
        ("replace", |map, key, word| map.replace(key, [word; 8]), &[Shape, Damaged, EvenVersion, NotLive]),
        ("remove", |map, key, _| map.remove(key).map(drop), &[Shape, Damaged, EvenVersion, NotLive]),
        ("insert", |map, _, word| map.insert([word; 8]).map(drop), &[Shape, Damaged, Full]),
        ("hop_step", |map, _, cursor| map.hop_step(cursor).map(drop), &[Shape, Damaged, StaleCursor]),
        ("drain_step", |map, _, _| map.drain_step().map(drop), &[Shape, Damaged]),
        ("drain", |map, _, _| map.drain().next().transpose().map(drop), &[Shape, Damaged]),
        ("clear", |map, _, _| map.clear(), &[Shape, Damaged]),
        ("retain", |map, key, _| map.retain(|asked, _| asked.index > key.index).map(drop), &[Shape, Damaged]),
    ]
};

#[test]
fn a_refused_call_changes_nothing_and_gives_the_numbers_it_names() {
    let mut random = Words::from_seed(3);
    let mut given: BTreeMap<&str, BTreeSet<Refusal>> = BTreeMap::new();
    let mut done: BTreeMap<&str, usize> = BTreeMap::new();
    for _ in 0..ROUNDS {
        let lent = any_lent(&mut random);
        let key = Key { index: word(&mut random), version: word(&mut random) };
        let cursor = word(&mut random);
        for (name, call, _) in CALLS {
            match lent.asked(|map| call(map, key, cursor)).0 {
                Ok(()) => *done.entry(name).or_default() += 1,
                Err(refusal) => {
                    given.entry(name).or_default().insert(refusal);
                }
            }
        }
    }
    for (name, _, named) in CALLS {
        assert_eq!(given[name], named.iter().copied().collect(), "{name}");
        assert!(done[name] > ROUNDS / 200, "{name} was done {} times", done[name]);
    }
}

#[test]
fn a_sound_table_is_never_damaged() {
    let mut random = Words::from_seed(4);
    let mut sound = 0;
    for _ in 0..ROUNDS {
        let lent = any_lent(&mut random);
        if lent.asked(|map| map.sound()).0.is_err() {
            continue;
        }
        sound += 1;
        let key = Key { index: word(&mut random), version: word(&mut random) };
        let cursor = word(&mut random);
        for (name, call, _) in CALLS {
            let (answer, mut after) = lent.asked(|map| call(map, key, cursor));
            assert!(!matches!(answer, Err(Refusal::Shape | Refusal::Damaged)), "{name} of {lent:?}");
            assert_eq!(after.map().sound(), Ok(()), "{name} of {lent:?}");
        }
    }
    assert!(sound > ROUNDS / 10 && sound < ROUNDS / 2, "{sound} of {ROUNDS} were sound");
}

#[test]
fn a_key_is_got_where_it_is_live() {
    let mut random = Words::from_seed(5);
    let mut got = 0;
    for _ in 0..ROUNDS {
        let mut lent = any_lent(&mut random);
        let before = lent.clone();
        let key = Key { index: word(&mut random), version: word(&mut random) };
        let mut map = lent.map();
        let live = map.check_key(key).is_ok();
        let row = map.get(key).copied();
        assert_eq!((map.contains_key(key), row.is_some(), map.get_mut(key).is_some()), (live, live, live));
        assert_eq!((map.len(), map.is_empty()), (before.header.live as usize, before.header.live == 0));
        if let Some(written) = map.get_mut(key) {
            got += 1;
            let place = key.index as usize * ROW_WORDS..(key.index as usize + 1) * ROW_WORDS;
            assert_eq!(row.unwrap(), before.rows[place.clone()]);
            written.fill(77);
            let mut wanted = before.clone();
            wanted.rows[place].fill(77);
            assert_eq!(lent, wanted);
        } else {
            assert_eq!(lent, before);
        }
    }
    assert!(got > ROUNDS / 200, "{got}");
}

/// What an iterator gives, with its bounds true before every item: the refusal is the last item if it comes at all, and then comes nothing.
fn given<T>(mut walk: impl Iterator<Item = Result<T, Refusal>>, most: usize) -> (Vec<T>, Option<Refusal>) {
    let (mut shown, mut bounds, mut refusal) = (Vec::new(), Vec::new(), None);
    loop {
        bounds.push(walk.size_hint());
        match walk.next() {
            Some(Ok(item)) => shown.push(item),
            Some(Err(refused)) => {
                refusal = Some(refused);
                break;
            }
            None => break,
        }
        assert!(shown.len() <= most);
    }
    let items = shown.len() + usize::from(refusal.is_some());
    for (before, (least, most)) in bounds.into_iter().enumerate() {
        assert!(least <= items - before && most.is_some_and(|most| items - before <= most), "{least} {most:?}, {} came", items - before);
    }
    assert!((0..3).all(|_| walk.next().is_none()));
    assert_eq!(walk.size_hint(), (0, Some(0)));
    (shown, refusal)
}

#[test]
fn a_walk_shows_the_refusal_or_every_row() {
    let mut random = Words::from_seed(6);
    let (mut whole, mut half_way) = (0, 0);
    for _ in 0..ROUNDS {
        let mut lent = any_lent(&mut random);
        let before = lent.clone();
        let (slots, live) = (lent.links.len() / LINK_WORDS, lent.header.live as usize);
        let map = lent.map();
        let (shown, refusal) = given(map.iter(), slots);
        assert!(shown.windows(2).all(|pair| pair[0].0.index < pair[1].0.index));
        assert!(shown.iter().all(|&(key, row)| map.get(key) == Some(row)));
        match refusal {
            None => {
                assert_eq!(shown.len(), live);
                whole += usize::from(live > 0);
            }
            Some(refused) => {
                assert!(map.sound().is_err() && matches!(refused, Refusal::Shape | Refusal::Damaged));
                half_way += usize::from(!shown.is_empty());
            }
        }
        assert_eq!(given(map.keys(), slots), (shown.iter().map(|&(key, _)| key).collect(), refusal));
        assert_eq!(given(map.values(), slots), (shown.iter().map(|&(_, row)| row).collect(), refusal));
        assert_eq!(given((&map).into_iter(), slots), (shown, refusal));
        assert_eq!(lent, before);
    }
    assert!(whole > ROUNDS / 10 && half_way > ROUNDS / 20, "{whole}, {half_way}");
}

#[test]
fn a_walk_does_not_just_end() {
    let (mut links, mut rows) = ([0; 16], [0; 32]);
    let mut map = HopSlotMap::new(&mut links, &mut rows).unwrap();
    let keys = [1, 2, 3].map(|row| map.insert([row; 8]).unwrap());
    map.remove(keys[2]).unwrap();
    let header = map.header();
    // From slot 0 straight to slot 3, which is vacant and the last: no step is refused, and two rows are passed by.
    links[3] = 3;
    let map = HopSlotMap::with_header(&mut links, &mut rows, header).unwrap();
    assert_eq!(map.hop_step(0), Ok(None));
    assert_eq!(map.keys().collect::<Vec<_>>(), [Err(Refusal::Damaged)]);
    links[3] = 0;
    let map = HopSlotMap::with_header(&mut links, &mut rows, Header { live: 1, ..header }).unwrap();
    assert_eq!(map.keys().collect::<Vec<_>>(), [Ok(keys[0]), Err(Refusal::Damaged)]);
}

#[test]
fn a_drain_ends() {
    let mut random = Words::from_seed(7);
    let mut half_way = 0;
    for _ in 0..ROUNDS {
        let mut lent = any_lent(&mut random);
        let live = lent.header.live;
        let mut map = lent.map();
        let (shown, refusal) = given(map.drain(), live as usize);
        assert_eq!(map.len(), live as usize - shown.len());
        assert_eq!(refusal.is_none(), map.is_empty() && map.room().is_ok());
        half_way += usize::from(refusal.is_some() && !shown.is_empty());
    }
    assert!(half_way > ROUNDS / 100, "{half_way}");
}

#[test]
fn new_and_rebuild_make_a_sound_map_or_change_nothing() {
    let mut random = Words::from_seed(8);
    let (mut started, mut rebuilt) = (BTreeSet::new(), BTreeSet::new());
    for _ in 0..ROUNDS {
        let before = any_lent(&mut random);
        let slots = before.links.len() / LINK_WORDS;
        let mut lent = before.clone();
        match HopSlotMap::new(&mut lent.links, &mut lent.rows) {
            Ok(map) => {
                assert_eq!((map.header(), map.sound(), map.room()), (Header { used: 1, live: 0 }, Ok(()), Ok(slots)));
                started.insert(None);
            }
            Err(refusal) => {
                started.insert(Some(refusal));
                assert_eq!(lent, before);
            }
        }
        let mut lent = before.clone();
        // Mostly what the versions say, with a byte at random now and then.
        let right = before.links.iter().step_by(LINK_WORDS).map(|version| u8::from(version % 2 == 1));
        let mut presence: Vec<u8> = right.chain([0]).take(random.below(10) as usize).collect();
        let wrong = random.below(16) as usize;
        if wrong < presence.len() {
            presence[wrong] = u8::try_from(random.below(256)).unwrap();
        }
        match HopSlotMap::rebuild(&mut lent.links, &mut lent.rows, &presence) {
            Ok(map) => {
                let occupied = presence.iter().map(|&byte| usize::from(byte)).sum::<usize>();
                assert_eq!((map.header().used as usize, map.len(), map.sound()), (presence.len(), occupied, Ok(())));
                rebuilt.insert(None);
            }
            Err(refusal) => {
                rebuilt.insert(Some(refusal));
                assert_eq!(lent, before);
            }
        }
    }
    assert_eq!(started, [None, Some(Refusal::Shape)].into());
    assert_eq!(rebuilt, [None, Some(Refusal::Shape), Some(Refusal::WrongPresence), Some(Refusal::ZeroOccupied)].into());
}
