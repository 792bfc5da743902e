//! The original as it stands and its mended copy, as one oracle: after a start the first, after a rebuild both, and past the parting of document 01
//! the copy alone.
use oracle::{Key, Mended, Original, Plain, Shown, Words};

/// The calls that change something.
#[derive(Clone, Debug)]
pub enum Call {
    Insert(Words),
    Remove(Key),
    /// Through `get_mut`.
    Write(Key, Words),
    Replace(Key, Words),
    DrainStep,
    Drain,
    Clear,
    /// Slots to be kept; a slot past the end is kept.
    Retain(Vec<bool>),
    /// The same, and the closure writes every row that it is shown.
    RetainWriting(Vec<bool>),
}

/// What a call answers, with the orders that show in it.
#[derive(Debug, PartialEq, Eq)]
pub enum Answer {
    Inserted(Key),
    /// The port's alone: the original grows.
    Full,
    Removed(Option<Words>),
    Written(bool),
    Drained(Vec<(Key, Words)>),
    Cleared,
    /// How many went, and what the closure was shown.
    Retained(usize, Vec<(Key, Words)>),
}

fn kept(keep: &[bool], key: Key) -> bool {
    keep.get(key.0 as usize).copied().unwrap_or(true)
}

/// What the closure of a retain does when it is asked.
pub fn asked(call: &Call, keep: &[bool], key: Key, row: &mut Words, order: &mut Vec<(Key, Words)>) -> bool {
    order.push((key, *row));
    if matches!(call, Call::RetainWriting(_)) {
        row[7] = row[7].wrapping_add(key.0);
    }
    kept(keep, key)
}

/// What one original answers.
fn answered(map: &mut impl Original, call: &Call) -> Answer {
    match call {
        Call::Insert(row) => Answer::Inserted(map.insert(*row)),
        Call::Remove(key) => Answer::Removed(map.remove(*key)),
        Call::Write(key, row) | Call::Replace(key, row) => Answer::Written(map.write(*key, *row)),
        Call::DrainStep => Answer::Drained(map.drain_step().into_iter().collect()),
        Call::Drain => Answer::Drained(map.drain()),
        Call::Clear => {
            map.clear();
            Answer::Cleared
        }
        Call::Retain(keep) | Call::RetainWriting(keep) => {
            let (mut order, before) = (Vec::new(), map.count());
            map.retain(|key, row| asked(call, keep, key, row, &mut order));
            Answer::Retained(before - map.count(), order)
        }
    }
}

/// Whether a removal of this slot starts a run: no neighbour is vacant.
fn starts_run(shown: &Shown, slot: usize) -> bool {
    [slot - 1, slot + 1].into_iter().all(|beside| shown.slots.get(beside).is_none_or(|s| s.version % 2 == 1))
}

#[derive(Clone)]
pub struct Originals {
    /// The original as it stands; none after the parting.
    pub plain: Option<Plain>,
    /// Its prev(0) is still the one that its rebuild left, and not right.
    pub exempt: bool,
    /// The mended copy, after a rebuild.
    pub mended: Option<Mended>,
}

impl Originals {
    pub fn fresh() -> Self {
        Originals { plain: Some(Plain::fresh()), exempt: false, mended: None }
    }

    /// Versions and rows become a map again; the error is the original's own.
    pub fn rebuilt(slots: &[(u32, Option<Words>)]) -> Result<Self, String> {
        Ok(Originals { plain: Some(Plain::rebuilt(slots)?), exempt: true, mended: Some(Mended::rebuilt(slots)?) })
    }

    pub fn get(&self, key: Key) -> Option<Words> {
        match (&self.mended, &self.plain) {
            (Some(mended), _) => Original::get(mended, key),
            (None, Some(plain)) => Original::get(plain, key),
            (None, None) => None,
        }
    }

    /// The live keys with their rows, in the order of a walk.
    pub fn walk(&self) -> Vec<(Key, Words)> {
        let mut walk = Vec::new();
        let visit = |key, row: &Words| walk.push((key, *row));
        match (&self.mended, &self.plain) {
            (Some(mended), _) => mended.walk(visit),
            (None, Some(plain)) => plain.walk(visit),
            (None, None) => {}
        }
        walk
    }

    pub fn show(&self, shown: &mut Shown) {
        match (&self.mended, &self.plain) {
            (Some(mended), _) => mended.show(shown),
            (None, Some(plain)) => plain.show(shown),
            (None, None) => shown.slots.clear(),
        }
    }

    /// Makes a call on both. Until the parting they must agree.
    pub fn make(&mut self, call: &Call) -> Result<Answer, String> {
        let plain = self.plain.as_mut().map(|map| answered(map, call));
        let mended = self.mended.as_mut().map(|map| answered(map, call));
        match (plain, mended) {
            (Some(one), Some(other)) if one != other => {
                Err(format!("the original and its mended copy differ before the parting: {one:?}, {other:?}"))
            }
            (Some(answer), _) | (None, Some(answer)) => Ok(answer),
            (None, None) => Err("there is no original".to_string()),
        }
    }

    /// Lets the original go where this call is the parting: it has a removal that starts a run while prev(0) is not right.
    pub fn part(&mut self, call: &Call, shown: &mut Shown) -> bool {
        let (true, Some(plain), Some(mended)) = (self.exempt, &self.plain, &self.mended) else { return false };
        let gone: Vec<Key> = match call {
            Call::Remove(key) => self.get(*key).map(|_| *key).into_iter().collect(),
            // A drain always has slot 0's run on its left, and no other call removes.
            Call::Retain(keep) | Call::RetainWriting(keep) => self.walk().into_iter().map(|(key, _)| key).filter(|key| !kept(keep, *key)).collect(),
            _ => return false,
        };
        let (mut plain, mut mended) = (plain.clone(), mended.clone());
        for key in gone {
            mended.show(shown);
            let (right, starts) = (shown.slots[0].prev, starts_run(shown, key.0 as usize));
            plain.show(shown);
            if starts && shown.slots[0].prev != right {
                self.plain = None;
                return true;
            }
            Original::remove(&mut plain, key);
            Original::remove(&mut mended, key);
        }
        false
    }
}
