//! One row by its key.
use super::{unrefused, HopSlotMap};
use crate::{Key, Refusal, Row, ROW_WORDS};

/// Where the row of a slot begins and ends in the row table.
fn place(index: u32) -> Option<core::ops::Range<usize>> {
    let first = usize::try_from(index).ok()?.checked_mul(ROW_WORDS)?;
    Some(first..first.checked_add(ROW_WORDS)?)
}

/// The row of a slot where it lies.
fn row_at(rows: &[u32], index: u32) -> Option<&Row> {
    rows.get(place(index)?)?.try_into().ok()
}

/// The row of a slot where it lies, to write.
pub(super) fn row_at_mut(rows: &mut [u32], index: u32) -> Option<&mut Row> {
    rows.get_mut(place(index)?)?.try_into().ok()
}

impl HopSlotMap<'_> {
    /// Takes a row in, and answers its key.
    ///
    /// ```
    /// use hop::{HopSlotMap, Refusal};
    /// let (mut links, mut rows) = ([0; 8], [0; 16]);
    /// let mut map = HopSlotMap::new(&mut links, &mut rows)?;
    /// map.insert([1; 8])?;
    /// assert_eq!(map.insert([2; 8]), Err(Refusal::Full));
    /// assert_eq!(map.len(), 1);
    /// # Ok::<(), Refusal>(())
    /// ```
    ///
    /// # Errors
    /// [`Refusal::Full`], where slotmap would grow; [`Refusal::Shape`], [`Refusal::Damaged`].
    pub fn insert(&mut self, row: Row) -> Result<Key, Refusal> {
        let answer = unrefused(self.tables.insert(self.header, &row))?;
        self.header = answer.header;
        Ok(answer.key)
    }

    /// Takes the row of a live key out; the key is dead from now on.
    ///
    /// ```
    /// use hop::{HopSlotMap, Refusal};
    /// let (mut links, mut rows) = ([0; 8], [0; 16]);
    /// let mut map = HopSlotMap::new(&mut links, &mut rows)?;
    /// let key = map.insert([1; 8])?;
    /// assert_eq!(map.remove(key), Ok([1; 8]));
    /// assert_eq!(map.remove(key), Err(Refusal::NotLive));
    /// # Ok::<(), Refusal>(())
    /// ```
    ///
    /// # Errors
    /// [`Refusal::EvenVersion`], [`Refusal::NotLive`], [`Refusal::Shape`], [`Refusal::Damaged`].
    pub fn remove(&mut self, key: Key) -> Result<Row, Refusal> {
        let answer = unrefused(self.tables.remove(self.header, key))?;
        self.header = answer.header;
        Ok(answer.row)
    }

    /// Whether a key is live; where it is not, why.
    ///
    /// ```
    /// use hop::{HopSlotMap, Key, Refusal};
    /// let (mut links, mut rows) = ([0; 16], [0; 32]);
    /// let mut map = HopSlotMap::new(&mut links, &mut rows)?;
    /// let key = map.insert([1; 8])?;
    /// assert_eq!(map.check_key(key), Ok(()));
    /// assert_eq!(map.check_key(Key { index: 1, version: 2 }), Err(Refusal::EvenVersion));
    /// assert_eq!(map.check_key(Key::null()), Err(Refusal::NotLive));
    /// # Ok::<(), Refusal>(())
    /// ```
    ///
    /// # Errors
    /// [`Refusal::EvenVersion`], [`Refusal::NotLive`], [`Refusal::Shape`], [`Refusal::Damaged`].
    pub fn check_key(&self, key: Key) -> Result<(), Refusal> {
        unrefused(self.tables.key_number(self.header, key)).map(|_| ())
    }

    /// Whether a key is live. `false` for any refusal: [`check_key`](Self::check_key) names it.
    ///
    /// ```
    /// use hop::{HopSlotMap, Refusal};
    /// let (mut links, mut rows) = ([0; 16], [0; 32]);
    /// let mut map = HopSlotMap::new(&mut links, &mut rows)?;
    /// let key = map.insert([1; 8])?;
    /// assert!(map.contains_key(key));
    /// map.remove(key)?;
    /// assert!(!map.contains_key(key));
    /// # Ok::<(), Refusal>(())
    /// ```
    #[must_use]
    pub fn contains_key(&self, key: Key) -> bool {
        self.check_key(key).is_ok()
    }

    /// The row of a live key, where it lies. `None` for any refusal: [`check_key`](Self::check_key) names it.
    ///
    /// ```
    /// use hop::{HopSlotMap, Refusal};
    /// let (mut links, mut rows) = ([0; 16], [0; 32]);
    /// let mut map = HopSlotMap::new(&mut links, &mut rows)?;
    /// let key = map.insert([1; 8])?;
    /// assert_eq!(map.get(key), Some(&[1; 8]));
    /// map.remove(key)?;
    /// assert_eq!(map.get(key), None);
    /// # Ok::<(), Refusal>(())
    /// ```
    #[must_use]
    pub fn get(&self, key: Key) -> Option<&Row> {
        self.check_key(key).ok()?;
        row_at(self.tables.rows(), key.index)
    }

    /// The row of a live key, where it lies, to write. `None` for any refusal: [`check_key`](Self::check_key) names it.
    ///
    /// ```
    /// use hop::{HopSlotMap, Refusal};
    /// let (mut links, mut rows) = ([0; 8], [0; 16]);
    /// let mut map = HopSlotMap::new(&mut links, &mut rows)?;
    /// let key = map.insert([1; 8])?;
    /// if let Some(row) = map.get_mut(key) {
    ///     row[0] = 5;
    /// }
    /// assert_eq!(map.get(key), Some(&[5, 1, 1, 1, 1, 1, 1, 1]));
    /// # Ok::<(), Refusal>(())
    /// ```
    pub fn get_mut(&mut self, key: Key) -> Option<&mut Row> {
        self.check_key(key).ok()?;
        row_at_mut(self.tables.rows_mut(), key.index)
    }

    /// The row of a live key becomes another. The key stays live.
    ///
    /// ```
    /// use hop::{HopSlotMap, Refusal};
    /// let (mut links, mut rows) = ([0; 16], [0; 32]);
    /// let mut map = HopSlotMap::new(&mut links, &mut rows)?;
    /// let key = map.insert([1; 8])?;
    /// map.replace(key, [2; 8])?;
    /// assert_eq!(map.get(key), Some(&[2; 8]));
    /// # Ok::<(), Refusal>(())
    /// ```
    ///
    /// # Errors
    /// [`Refusal::EvenVersion`], [`Refusal::NotLive`], [`Refusal::Shape`], [`Refusal::Damaged`].
    pub fn replace(&mut self, key: Key, row: Row) -> Result<(), Refusal> {
        unrefused(self.tables.replace(self.header, key, &row)).map(|_| ())
    }

    /// The row of a slot that a step has just named.
    pub(crate) fn row(&self, index: u32) -> Option<&Row> {
        row_at(self.tables.rows(), index)
    }
}
