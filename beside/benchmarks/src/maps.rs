//! Four maps behind one trait: ours, and the three of slotmap's. Whatever is measured is written once, over this.
use std::{error, fmt};

use hop::{Header, Refusal, Row, LINK_WORDS, ROW_WORDS};
use oracle::slotmap::{DefaultKey, DenseSlotMap, HopSlotMap, Key as _, SlotMap};

/// What must not happen during a measurement.
#[derive(Clone, Copy, Debug)]
pub enum Fault {
    Refused(Refusal),
    NoRow,
}

impl fmt::Display for Fault {
    fn fmt(&self, to: &mut fmt::Formatter<'_>) -> fmt::Result {
        match self {
            Fault::Refused(refusal) => refusal.fmt(to),
            Fault::NoRow => to.write_str("a live key has no row"),
        }
    }
}

impl error::Error for Fault {}

impl From<Refusal> for Fault {
    fn from(refusal: Refusal) -> Self {
        Fault::Refused(refusal)
    }
}

/// The calls that are measured.
pub trait Map {
    type Key: Copy;
    fn insert(&mut self, row: Row) -> Result<Self::Key, Fault>;
    fn remove(&mut self, key: Self::Key) -> Result<Row, Fault>;
    fn get(&self, key: Self::Key) -> Result<&Row, Fault>;
    fn replace(&mut self, key: Self::Key, row: Row) -> Result<(), Fault>;
    /// A walk: the key as one word, and the row where it lies.
    fn walk(&self, seen: impl FnMut(u64, &Row)) -> Result<(), Fault>;
    fn drain(&mut self, seen: impl FnMut(Row)) -> Result<(), Fault>;
    fn retain(&mut self, keeps: impl FnMut(&Row) -> bool) -> Result<(), Fault>;
    fn clear(&mut self) -> Result<(), Fault>;
}

impl Map for hop::HopSlotMap<'_> {
    type Key = hop::Key;

    fn insert(&mut self, row: Row) -> Result<hop::Key, Fault> {
        Ok(self.insert(row)?)
    }

    fn remove(&mut self, key: hop::Key) -> Result<Row, Fault> {
        Ok(self.remove(key)?)
    }

    fn get(&self, key: hop::Key) -> Result<&Row, Fault> {
        self.get(key).ok_or(Fault::NoRow)
    }

    fn replace(&mut self, key: hop::Key, row: Row) -> Result<(), Fault> {
        Ok(self.replace(key, row)?)
    }

    fn walk(&self, mut seen: impl FnMut(u64, &Row)) -> Result<(), Fault> {
        for visited in self.iter() {
            let (key, row) = visited?;
            seen(key.as_ffi(), row);
        }
        Ok(())
    }

    fn drain(&mut self, mut seen: impl FnMut(Row)) -> Result<(), Fault> {
        for taken in self.drain() {
            seen(taken?.1);
        }
        Ok(())
    }

    fn retain(&mut self, mut keeps: impl FnMut(&Row) -> bool) -> Result<(), Fault> {
        self.retain(|_, row| keeps(row))?;
        Ok(())
    }

    fn clear(&mut self) -> Result<(), Fault> {
        Ok(self.clear()?)
    }
}

macro_rules! slotmaps {
    ($($map:ident)*) => {$(
        impl Map for $map<DefaultKey, oracle::Row> {
            type Key = DefaultKey;

            fn insert(&mut self, row: Row) -> Result<DefaultKey, Fault> {
                Ok(self.insert(oracle::Row(row)))
            }

            fn remove(&mut self, key: DefaultKey) -> Result<Row, Fault> {
                self.remove(key).map(|row| row.0).ok_or(Fault::NoRow)
            }

            fn get(&self, key: DefaultKey) -> Result<&Row, Fault> {
                self.get(key).map(|row| &row.0).ok_or(Fault::NoRow)
            }

            fn replace(&mut self, key: DefaultKey, row: Row) -> Result<(), Fault> {
                *self.get_mut(key).ok_or(Fault::NoRow)? = oracle::Row(row);
                Ok(())
            }

            fn walk(&self, mut seen: impl FnMut(u64, &Row)) -> Result<(), Fault> {
                for (key, row) in self.iter() {
                    seen(key.data().as_ffi(), &row.0);
                }
                Ok(())
            }

            fn drain(&mut self, mut seen: impl FnMut(Row)) -> Result<(), Fault> {
                for (_, row) in self.drain() {
                    seen(row.0);
                }
                Ok(())
            }

            fn retain(&mut self, mut keeps: impl FnMut(&Row) -> bool) -> Result<(), Fault> {
                self.retain(|_, row| keeps(&row.0));
                Ok(())
            }

            fn clear(&mut self) -> Result<(), Fault> {
                self.clear();
                Ok(())
            }
        }

        impl Kept for Pair<$map<DefaultKey, oracle::Row>> {
            type Key = DefaultKey;
            type Map<'k> = $map<DefaultKey, oracle::Row>;

            fn fresh(rows: usize) -> Result<Self, Fault> {
                Ok(Pair { now: $map::with_capacity(rows), kept: $map::with_capacity(rows) })
            }

            fn keep(&mut self) {
                self.kept.clone_from(&self.now);
            }

            fn restore(&mut self) {
                self.now.clone_from(&self.kept);
            }

            fn with<T>(&mut self, task: impl FnOnce(&mut Self::Map<'_>) -> Result<T, Fault>) -> Result<T, Fault> {
                task(&mut self.now)
            }
        }
    )*};
}

slotmaps!(HopSlotMap SlotMap DenseSlotMap);

/// A map, and the state from which each round starts.
pub trait Kept: Sized + 'static {
    type Key: Copy + 'static;
    type Map<'k>: Map<Key = Self::Key>;
    /// An empty map with room for so many rows.
    fn fresh(rows: usize) -> Result<Self, Fault>;
    /// From now on the rounds start from what the map is now.
    fn keep(&mut self);
    /// The map becomes what the rounds start from. It has its memory already.
    fn restore(&mut self);
    fn with<T>(&mut self, task: impl FnOnce(&mut Self::Map<'_>) -> Result<T, Fault>) -> Result<T, Fault>;
}

/// A map of slotmap's twice.
pub struct Pair<M> {
    now: M,
    kept: M,
}

/// The tables that a map of ours is lent, and its header.
#[derive(Clone, Default)]
pub struct Tables {
    pub links: Vec<u32>,
    pub rows: Vec<u32>,
    pub header: Header,
}

impl Tables {
    /// The words of another pair of tables of the same size.
    fn take(&mut self, from: &Tables) {
        self.links.clone_from(&from.links);
        self.rows.clone_from(&from.rows);
        self.header = from.header;
    }
}

/// Ours.
#[derive(Clone)]
pub struct Ours {
    pub now: Tables,
    kept: Tables,
}

impl Ours {
    /// An empty map over so many slots, slot 0 among them.
    pub fn of_slots(slots: usize) -> Result<Self, Fault> {
        let mut now = Tables { links: vec![0; slots * LINK_WORDS], rows: vec![0; slots * ROW_WORDS], header: Header::default() };
        now.header = hop::HopSlotMap::new(&mut now.links, &mut now.rows)?.header();
        Ok(Ours { kept: now.clone(), now })
    }
}

impl Kept for Ours {
    type Key = hop::Key;
    type Map<'k> = hop::HopSlotMap<'k>;

    fn fresh(rows: usize) -> Result<Self, Fault> {
        Ours::of_slots(rows + 1)
    }

    fn keep(&mut self) {
        self.kept.take(&self.now);
    }

    fn restore(&mut self) {
        self.now.take(&self.kept);
    }

    fn with<T>(&mut self, task: impl FnOnce(&mut Self::Map<'_>) -> Result<T, Fault>) -> Result<T, Fault> {
        let Tables { links, rows, header } = &mut self.now;
        let mut map = hop::HopSlotMap::with_header(links, rows, *header)?;
        let answer = task(&mut map);
        *header = map.header();
        answer
    }
}
