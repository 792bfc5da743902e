//! The original, as slotmap 1.1.1 has it and with one line mended, behind one trait: what each call answers, and every word that its Debug output
//! shows.
#![allow(deprecated)]
use std::fmt::{self, Write};
use std::mem;

mod straight;

pub use mended;
pub use slotmap;
pub use straight::Straight;

/// A slot's index and a version.
pub type Key = (u32, u32);

pub type Words = [u32; 8];

/// Whether the original's own rebuild can be run.
pub const REBUILDS: bool = cfg!(feature = "rebuild");

/// The value that the original keeps. Its words are compared through the original's own calls, so that Debug need not print them.
#[derive(Clone, Copy, PartialEq, Eq)]
pub struct Row(pub Words);

impl fmt::Debug for Row {
    fn fmt(&self, to: &mut fmt::Formatter<'_>) -> fmt::Result {
        to.write_str("row")
    }
}

#[cfg(feature = "rebuild")]
impl<'de> serde::Deserialize<'de> for Row {
    fn deserialize<D: serde::Deserializer<'de>>(from: D) -> Result<Self, D::Error> {
        <Words as serde::Deserialize>::deserialize(from).map(Row)
    }
}

/// One slot as Debug shows it: an occupied one has no links.
#[derive(Clone, Copy, Debug, Default, PartialEq, Eq)]
pub struct Slot {
    pub version: u32,
    pub next: u32,
    pub prev: u32,
    pub other_end: u32,
}

/// What Debug shows of a map: every slot, and the count of elements.
#[derive(Clone, Debug, Default)]
pub struct Shown {
    pub slots: Vec<Slot>,
    pub live: u32,
}

/// Reads Debug output as it is written: each number goes under the name before it.
struct Reader<'s> {
    shown: &'s mut Shown,
    name: Name,
}

#[derive(Clone, Copy)]
enum Name {
    Other,
    Version,
    Next,
    Prev,
    OtherEnd,
    Live,
}

impl Write for Reader<'_> {
    fn write_str(&mut self, piece: &str) -> fmt::Result {
        if piece.as_bytes().first().is_some_and(u8::is_ascii_digit) {
            let number = piece.parse().map_err(|_| fmt::Error)?;
            let last = self.shown.slots.last_mut();
            match (self.name, last) {
                (Name::Version, Some(slot)) => slot.version = number,
                (Name::Next, Some(slot)) => slot.next = number,
                (Name::Prev, Some(slot)) => slot.prev = number,
                (Name::OtherEnd, Some(slot)) => slot.other_end = number,
                (Name::Live, _) => self.shown.live = number,
                _ => return Err(fmt::Error),
            }
            return Ok(());
        }
        self.name = match piece {
            "version" => {
                self.shown.slots.push(Slot::default());
                Name::Version
            }
            "next" => Name::Next,
            "prev" => Name::Prev,
            "other_end" => Name::OtherEnd,
            "num_elems" => Name::Live,
            ": " => self.name,
            _ => Name::Other,
        };
        Ok(())
    }
}

/// The calls of the original that have a counterpart in the port.
pub trait Original: Clone {
    fn fresh() -> Self;
    /// The original's Deserialize over versions and rows: its rebuild. An error is what it says.
    fn rebuilt(slots: &[(u32, Option<Words>)]) -> Result<Self, String>;
    fn insert(&mut self, row: Words) -> Key;
    fn remove(&mut self, key: Key) -> Option<Words>;
    fn contains(&self, key: Key) -> bool;
    fn get(&self, key: Key) -> Option<Words>;
    /// Writes a row through its key; whether there is one.
    fn write(&mut self, key: Key, row: Words) -> bool;
    /// One step of a drain whose iterator is forgotten, so that the rest stays.
    fn drain_step(&mut self) -> Option<(Key, Words)>;
    /// A drain to its end.
    fn drain(&mut self) -> Vec<(Key, Words)>;
    fn clear(&mut self);
    /// Asks about every key and row, in the original's order.
    fn retain(&mut self, keeps: impl FnMut(Key, &mut Words) -> bool);
    fn count(&self) -> usize;
    /// A walk, calling for each key and row.
    fn walk(&self, visit: impl FnMut(Key, &Words));
    /// The same by `iter_mut`, which ends otherwise.
    fn walk_mut(&mut self, visit: impl FnMut(Key, &Words));
    /// What Debug shows.
    fn show(&self, shown: &mut Shown);
}

macro_rules! original {
    ($package:ident, $told:ident, $asked:ident) => {
        impl Original for $package::HopSlotMap<$package::DefaultKey, Row> {
            fn fresh() -> Self {
                $package::HopSlotMap::new()
            }

            #[cfg(feature = "rebuild")]
            fn rebuilt(slots: &[(u32, Option<Words>)]) -> Result<Self, String> {
                let slots: Vec<_> = slots.iter().map(|(version, value)| serde_json::json!({ "version": version, "value": value })).collect();
                serde_json::from_value(serde_json::Value::Array(slots)).map_err(|error| error.to_string())
            }

            #[cfg(not(feature = "rebuild"))]
            fn rebuilt(_: &[(u32, Option<Words>)]) -> Result<Self, String> {
                Err("the original was built without serde".to_string())
            }

            fn insert(&mut self, row: Words) -> Key {
                $told(self.insert(Row(row)))
            }

            fn remove(&mut self, key: Key) -> Option<Words> {
                self.remove($asked(key)).map(|row| row.0)
            }

            fn contains(&self, key: Key) -> bool {
                self.contains_key($asked(key))
            }

            fn get(&self, key: Key) -> Option<Words> {
                self.get($asked(key)).map(|row| row.0)
            }

            fn write(&mut self, key: Key, row: Words) -> bool {
                self.get_mut($asked(key)).map(|place| place.0 = row).is_some()
            }

            fn drain_step(&mut self) -> Option<(Key, Words)> {
                let mut drain = self.drain();
                let step = drain.next();
                mem::forget(drain);
                step.map(|(key, row)| ($told(key), row.0))
            }

            fn drain(&mut self) -> Vec<(Key, Words)> {
                self.drain().map(|(key, row)| ($told(key), row.0)).collect()
            }

            fn clear(&mut self) {
                self.clear();
            }

            fn retain(&mut self, mut keeps: impl FnMut(Key, &mut Words) -> bool) {
                self.retain(|key, row| keeps($told(key), &mut row.0));
            }

            fn count(&self) -> usize {
                self.len()
            }

            fn walk(&self, mut visit: impl FnMut(Key, &Words)) {
                self.iter().for_each(|(key, row)| visit($told(key), &row.0));
            }

            fn walk_mut(&mut self, mut visit: impl FnMut(Key, &Words)) {
                self.iter_mut().for_each(|(key, row)| visit($told(key), &row.0));
            }

            fn show(&self, shown: &mut Shown) {
                shown.slots.clear();
                let mut reader = Reader { shown, name: Name::Other };
                write!(reader, "{self:?}").expect("Debug of the original has another form than the one that is read here");
            }
        }
    };
}

/// The original as it stands.
pub type Plain = slotmap::HopSlotMap<slotmap::DefaultKey, Row>;

/// The original with parting 1 mended.
pub type Mended = mended::HopSlotMap<mended::DefaultKey, Row>;

/// A key goes to and from the original as one word: only so does its index and version show.
macro_rules! keys {
    ($package:ident, $told:ident, $asked:ident) => {
        fn $told(key: $package::DefaultKey) -> Key {
            let word = $package::Key::data(&key).as_ffi();
            ((word & 0xffff_ffff) as u32, (word >> 32) as u32)
        }

        fn $asked((index, version): Key) -> $package::DefaultKey {
            $package::KeyData::from_ffi(u64::from(version) << 32 | u64::from(index)).into()
        }
    };
}

keys!(slotmap, told_plain, asked_plain);
keys!(mended, told_mended, asked_mended);
original!(slotmap, told_plain, asked_plain);
original!(mended, told_mended, asked_mended);
