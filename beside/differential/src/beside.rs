//! One history: the port's map beside the original, call by call, everything compared after each.
use std::sync::Arc;

use hop::{Header, HopSlotMap, Refusal, LINK_WORDS, ROW_WORDS};
use oracle::{Key, Original, Shown, Words};

use crate::agree::{holds, same};
use crate::mark::Mark;
use crate::originals::{self, Answer, Call, Originals};
use crate::tables::Tables;
use crate::tally::{Kind, Tally};

/// Room for what is looked at after each call, kept from call to call.
#[derive(Default)]
pub struct Scratch {
    shown: Shown,
    walk: Vec<(Key, Words)>,
}

#[derive(Clone)]
pub struct Beside {
    tables: Tables,
    /// The tables before anything was written.
    before: Arc<Tables>,
    header: Header,
    originals: Originals,
    /// Every key there ever was.
    keys: Vec<Key>,
    /// Of all of the above, as the last comparison saw it.
    mark: Mark,
}

pub fn told(key: hop::Key) -> Key {
    (key.index, key.version)
}

pub fn asked((index, version): Key) -> hop::Key {
    hop::Key { index, version }
}

/// What the port answers. The original says nothing of a key that is not live; the port has a number for it.
fn by_port(map: &mut HopSlotMap<'_>, call: &Call) -> Result<Answer, Refusal> {
    Ok(match call {
        Call::Insert(row) => match map.insert(*row) {
            Ok(key) => Answer::Inserted(told(key)),
            Err(Refusal::Full) => Answer::Full,
            Err(other) => return Err(other),
        },
        Call::Remove(key) => match map.remove(asked(*key)) {
            Ok(row) => Answer::Removed(Some(row)),
            Err(Refusal::NotLive) => Answer::Removed(None),
            Err(other) => return Err(other),
        },
        Call::Write(key, row) => Answer::Written(map.get_mut(asked(*key)).map(|place| *place = *row).is_some()),
        Call::Replace(key, row) => match map.replace(asked(*key), *row) {
            Ok(()) => Answer::Written(true),
            Err(Refusal::NotLive) => Answer::Written(false),
            Err(other) => return Err(other),
        },
        Call::DrainStep => Answer::Drained(map.drain_step()?.map(|(key, row)| (told(key), row)).into_iter().collect()),
        Call::Drain => Answer::Drained(map.drain().map(|step| step.map(|(key, row)| (told(key), row))).collect::<Result<_, _>>()?),
        Call::Clear => {
            map.clear()?;
            Answer::Cleared
        }
        Call::Retain(keep) | Call::RetainWriting(keep) => {
            let mut order = Vec::new();
            let gone = map.retain(|key, row| originals::asked(call, keep, told(key), row, &mut order))?;
            Answer::Retained(gone, order)
        }
    })
}

impl Beside {
    /// A fresh map over tables that are full of other words.
    pub fn fresh(tables: Tables) -> Result<Self, String> {
        let before = Arc::new(tables.clone());
        let mut tables = tables;
        let (links, rows) = tables.lent();
        let header = HopSlotMap::new(links, rows).map_err(|refusal| format!("start: {refusal}"))?.header();
        Ok(Beside { tables, before, header, originals: Originals::fresh(), keys: Vec::new(), mark: Mark::default() })
    }

    /// A map rebuilt from the versions and rows in the first slots of the tables, or nothing where both refuse.
    pub fn rebuilt(tables: Tables, presence: &[u8]) -> Result<Option<Self>, String> {
        let before = Arc::new(tables.clone());
        let mut tables = tables;
        let slots: Vec<_> = (0..presence.len())
            .map(|slot| {
                let row = &before.rows()[slot * ROW_WORDS..][..ROW_WORDS];
                (before.version(slot), (presence[slot] != 0).then(|| row.try_into().unwrap()))
            })
            .collect();
        let (links, rows) = tables.lent();
        let ours = HopSlotMap::rebuild(links, rows, presence).map(|map| map.header());
        holds("a refused rebuild changed a word", ours.is_ok() || tables == *before)?;
        let theirs = Originals::rebuilt(&slots);
        let (header, originals) = match (ours, theirs) {
            (Ok(header), Ok(originals)) => (header, originals),
            (Err(Refusal::WrongPresence), Err(said)) if said.starts_with("inconsistent occupation in Slot") => return Ok(None),
            (Err(Refusal::ZeroOccupied), Err(said)) if said.starts_with("first slot not empty") => return Ok(None),
            // Document 01 gives a rebuild of no slot the number 1, where the original has no other word than for 8.
            (Err(Refusal::Shape), Err(said)) if presence.is_empty() && said.starts_with("first slot not empty") => return Ok(None),
            (ours, theirs) => return Err(format!("rebuild: ours {ours:?}, the original's {:?}", theirs.err())),
        };
        // The key that is live in each slot, or the last that was.
        let keys = (1..presence.len()).map(|slot| (slot as u32, before.version(slot).wrapping_sub(u32::from(presence[slot] == 0)))).collect();
        Ok(Some(Beside { tables, before, header, originals, keys, mark: Mark::default() }))
    }

    pub fn lent(&self) -> usize {
        self.tables.slots()
    }

    pub fn used(&self) -> usize {
        self.header.used as usize
    }

    pub fn live(&self) -> usize {
        self.header.live as usize
    }

    pub fn mark(&self) -> Mark {
        self.mark
    }

    pub fn keys(&self) -> &[Key] {
        &self.keys
    }

    pub fn live_keys(&self) -> Vec<Key> {
        self.originals.walk().into_iter().map(|(key, _)| key).collect()
    }

    /// Makes a call on all maps, and compares.
    pub fn make(&mut self, call: &Call, scratch: &mut Scratch, tally: &Tally) -> Result<(), String> {
        if self.originals.part(call, &mut scratch.shown) {
            tally.add(Kind::Partings, 1);
        }
        let full = matches!(call, Call::Insert(_)) && self.live() + 1 == self.lent();
        let unchanged = full.then(|| self.tables.clone());
        let unwritten = matches!(call, Call::Write(..)).then(|| self.tables.clone());
        let ours = self.with_map(|map| by_port(map, call))?.map_err(|refusal| format!("refused: {refusal}"))?;
        if let Some(unchanged) = unchanged {
            same("a full table", &ours, &Answer::Full)?;
            holds("a refused insert changed a word", self.tables == unchanged)?;
            tally.add(Kind::Full, 1);
        } else {
            same("answer", &ours, &self.originals.make(call)?)?;
        }
        if let (Call::Write((slot, _), row), Some(mut wanted)) = (call, unwritten) {
            if matches!(ours, Answer::Written(true)) {
                wanted.lent().1[*slot as usize * ROW_WORDS..][..ROW_WORDS].copy_from_slice(row);
            }
            holds("a write through a key changed a word outside its row", self.tables == wanted)?;
        }
        match ours {
            Answer::Inserted(key) => self.keys.push(key),
            Answer::Removed(None) => tally.add(Kind::Dead, 1),
            _ => {}
        }
        self.compare(scratch, tally)
    }

    /// Borrows the tables as a map for one use, and keeps the header that it leaves.
    fn with_map<T>(&mut self, mut make: impl FnMut(&mut HopSlotMap<'_>) -> T) -> Result<T, String> {
        let (links, rows) = self.tables.lent();
        let mut map = HopSlotMap::with_header(links, rows, self.header).map_err(|refusal| refusal.to_string())?;
        let made = make(&mut map);
        self.header = map.header();
        Ok(made)
    }

    /// Compares everything that the maps show.
    pub fn compare(&mut self, scratch: &mut Scratch, tally: &Tally) -> Result<(), String> {
        let looked_at = self.tables.clone();
        self.look(scratch)?;
        let mut mark = Mark::default();
        let (mut plain, mut mended) = (self.originals.plain.take(), self.originals.mended.take());
        if let Some(plain) = &mut plain {
            tally.add(Kind::Plain, 1);
            self.compare_with(plain, self.originals.exempt, scratch)?;
            self.originals.exempt &= scratch.shown.slots[0].prev != self.tables.links()[2];
            mark.add_shown(&scratch.shown);
        }
        mark.add(u32::from(plain.is_some()) * 2 + u32::from(self.originals.exempt));
        if let Some(mended) = &mut mended {
            tally.add(Kind::Mended, 1);
            self.compare_with(mended, false, scratch)?;
            mark.add_shown(&scratch.shown);
        }
        (self.originals.plain, self.originals.mended) = (plain, mended);
        holds("a call that only looks changed a word", self.tables == looked_at)?;
        self.mark = self.marked(mark);
        Ok(())
    }

    /// What the port shows by itself: a walk, which is kept, and what no original can say.
    fn look(&mut self, scratch: &mut Scratch) -> Result<(), String> {
        holds("a guard word changed", self.tables.guarded())?;
        holds("a word past the slots in use changed", self.tables.same_from(self.used(), &self.before))?;
        self.vacant_rows()?;
        let (lent, walk) = (self.lent(), &mut scratch.walk);
        walk.clear();
        self.with_map(|map| {
            for visited in map.iter() {
                let (key, row) = visited.map_err(|refusal| format!("walk: {refusal}"))?;
                walk.push((told(key), *row));
            }
            map.sound().map_err(|refusal| format!("soundness check: {refusal}"))?;
            same("room", &map.room().ok(), &Some(lent - map.len()))
        })?
    }

    /// A mark of the originals, with the port's own words and every key.
    fn marked(&self, mut mark: Mark) -> Mark {
        mark.add_all(self.tables.links());
        mark.add_all(self.tables.rows());
        mark.add_all(&[self.header.used, self.header.live]);
        self.keys.iter().for_each(|key| mark.add_all(&[key.0, key.1]));
        mark
    }

    fn vacant_rows(&self) -> Result<(), String> {
        let zero = |slot: usize| self.tables.rows()[slot * ROW_WORDS..][..ROW_WORDS].iter().all(|word| *word == 0);
        holds("the row of a vacant slot is not zero", (0..self.used()).all(|slot| !self.tables.vacant(slot) || zero(slot)))
    }

    /// Compares with one original: counts, walk, words, and every key that there ever was.
    fn compare_with(&mut self, map: &mut impl Original, exempt: bool, scratch: &mut Scratch) -> Result<(), String> {
        map.show(&mut scratch.shown);
        same("slots in use", &self.used(), &scratch.shown.slots.len())?;
        same("rows live", &self.live(), &map.count())?;
        same("rows live", &self.header.live, &scratch.shown.live)?;
        self.compare_words(&scratch.shown, exempt)?;
        // A row that is not ours puts the count past any walk.
        let mut at = 0;
        let mut agrees = |key: Key, row: &Words| at = if scratch.walk.get(at) == Some(&(key, *row)) { at + 1 } else { usize::MAX };
        if self.header.live.is_multiple_of(2) {
            map.walk(&mut agrees);
        } else {
            map.walk_mut(&mut agrees);
        }
        same("rows of our walk that the original's walk has too", &at, &scratch.walk.len())?;
        let keys = std::mem::take(&mut self.keys);
        let compared = self.with_map(|ours| {
            keys.iter().try_for_each(|key| {
                same("a key is live", &ours.contains_key(asked(*key)), &map.contains(*key))?;
                same("a row", &ours.get(asked(*key)).copied(), &map.get(*key))
            })
        });
        self.keys = keys;
        compared?
    }

    /// Every version; at both ends of each run other_end, at its front next and prev.
    fn compare_words(&self, shown: &Shown, exempt: bool) -> Result<(), String> {
        let vacant = |slot: usize| shown.slots.get(slot).is_some_and(|s| s.version.is_multiple_of(2));
        for (slot, theirs) in shown.slots.iter().enumerate() {
            let ours = &self.tables.links()[slot * LINK_WORDS..][..LINK_WORDS];
            let word = |name: &str, ours: u32, theirs: u32| {
                if ours == theirs {
                    return Ok(());
                }
                Err(format!("{name} of slot {slot}: {ours}, not {theirs}"))
            };
            word("version", ours[0], theirs.version)?;
            let front = vacant(slot) && (slot == 0 || !vacant(slot - 1));
            if front {
                word("next", ours[1], theirs.next)?;
            }
            // What the original's rebuild leaves in prev(0) is 0.
            if front && !(slot == 0 && exempt && theirs.prev == 0) {
                word("prev", ours[2], theirs.prev)?;
            }
            if front || vacant(slot) && !vacant(slot + 1) {
                word("other_end", ours[3], theirs.other_end)?;
            }
        }
        Ok(())
    }
}
