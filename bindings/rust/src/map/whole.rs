//! The whole table: steps and walks over it, and what takes many rows out.
use super::rows::row_at_mut;
use super::{unrefused, HopSlotMap};
use crate::calls;
use crate::walks::{Drain, Iter, Keys, Values};
use crate::{Key, Refusal, Row, LIMIT};

/// The byte of a slot.
fn byte_at(bytes: &mut [u8], index: u32) -> Option<&mut u8> {
    bytes.get_mut(usize::try_from(index).ok()?)
}

impl<'t> HopSlotMap<'t> {
    /// One step of a walk: the next live slot from the cursor on, and the cursor to go on from. A walk starts at 0. The cursor borrows nothing: after
    /// a removal it may be stale.
    ///
    /// ```
    /// use hop::{HopSlotMap, Refusal};
    /// let (mut links, mut rows) = ([0; 16], [0; 32]);
    /// let mut map = HopSlotMap::new(&mut links, &mut rows)?;
    /// let keys = [map.insert([1; 8])?, map.insert([2; 8])?];
    /// assert_eq!(map.hop_step(0), Ok(Some((keys[0], 2))));
    /// assert_eq!(map.hop_step(2), Ok(Some((keys[1], 3))));
    /// assert_eq!(map.hop_step(3), Ok(None));
    /// # Ok::<(), Refusal>(())
    /// ```
    ///
    /// # Errors
    /// [`Refusal::StaleCursor`], [`Refusal::Shape`], [`Refusal::Damaged`].
    pub fn hop_step(&self, cursor: u32) -> Result<Option<(Key, u32)>, Refusal> {
        let answer = unrefused(self.tables.hop_step(self.header, cursor))?;
        Ok((answer.kind == calls::ANSWER).then_some((answer.key, answer.cursor)))
    }

    /// Every live key with its row, in rising order of slots. Over a damaged table the walk does not just end: the refusal is an item, the last one.
    /// Where there is none, the walk has shown [`len`](Self::len) rows.
    ///
    /// ```
    /// use hop::{Header, HopSlotMap, Refusal};
    /// let (mut links, mut rows) = ([0; 16], [0; 32]);
    /// let mut map = HopSlotMap::new(&mut links, &mut rows)?;
    /// map.insert([1; 8])?;
    /// map.insert([2; 8])?;
    /// let mut sum = 0;
    /// for visited in &map {
    ///     let (_key, row) = visited?;
    ///     sum += row[0];
    /// }
    /// assert_eq!(sum, 3);
    ///
    /// let header = map.header();
    /// links[3] = 7; // other_end of slot 0 leads astray
    /// let damaged = HopSlotMap::with_header(&mut links, &mut rows, header)?;
    /// assert_eq!(damaged.iter().collect::<Vec<_>>(), [Err(Refusal::Damaged)]);
    /// # Ok::<(), Refusal>(())
    /// ```
    #[must_use]
    pub fn iter(&self) -> Iter<'_, 't> {
        Iter::over(self)
    }

    /// Every live key, in rising order of slots, like [`iter`](Self::iter).
    ///
    /// ```
    /// use hop::{HopSlotMap, Refusal};
    /// let (mut links, mut rows) = ([0; 16], [0; 32]);
    /// let mut map = HopSlotMap::new(&mut links, &mut rows)?;
    /// let keys = [map.insert([1; 8])?, map.insert([2; 8])?];
    /// assert_eq!(map.keys().collect::<Result<Vec<_>, _>>()?, keys);
    /// # Ok::<(), Refusal>(())
    /// ```
    #[must_use]
    pub fn keys(&self) -> Keys<'_, 't> {
        Keys::over(self)
    }

    /// Every live row, in rising order of slots, like [`iter`](Self::iter).
    ///
    /// ```
    /// use hop::{HopSlotMap, Refusal};
    /// let (mut links, mut rows) = ([0; 16], [0; 32]);
    /// let mut map = HopSlotMap::new(&mut links, &mut rows)?;
    /// map.insert([1; 8])?;
    /// map.insert([2; 8])?;
    /// assert_eq!(map.values().collect::<Result<Vec<_>, _>>()?, [&[1; 8], &[2; 8]]);
    /// # Ok::<(), Refusal>(())
    /// ```
    #[must_use]
    pub fn values(&self) -> Values<'_, 't> {
        Values::over(self)
    }

    /// One step of a drain: takes the live row of the lowest slot out; `None` where none is live.
    ///
    /// ```
    /// use hop::{HopSlotMap, Refusal};
    /// let (mut links, mut rows) = ([0; 16], [0; 32]);
    /// let mut map = HopSlotMap::new(&mut links, &mut rows)?;
    /// let key = map.insert([1; 8])?;
    /// assert_eq!(map.drain_step(), Ok(Some((key, [1; 8]))));
    /// assert_eq!(map.drain_step(), Ok(None));
    /// # Ok::<(), Refusal>(())
    /// ```
    ///
    /// # Errors
    /// [`Refusal::Shape`], [`Refusal::Damaged`].
    pub fn drain_step(&mut self) -> Result<Option<(Key, Row)>, Refusal> {
        let answer = unrefused(self.tables.drain_step(self.header))?;
        self.header = answer.header;
        Ok((answer.kind == calls::ANSWER).then_some((answer.key, answer.row)))
    }

    /// Takes every row out, in rising order of slots, and gives them with their keys. As in slotmap, what was not asked for goes when the iterator is
    /// dropped; a refusal ends it, and what is left then stays.
    ///
    /// ```
    /// use hop::{HopSlotMap, Refusal};
    /// let (mut links, mut rows) = ([0; 16], [0; 32]);
    /// let mut map = HopSlotMap::new(&mut links, &mut rows)?;
    /// let key = map.insert([1; 8])?;
    /// map.insert([2; 8])?;
    /// assert_eq!(map.drain().next(), Some(Ok((key, [1; 8]))));
    /// assert!(map.is_empty());
    /// # Ok::<(), Refusal>(())
    /// ```
    pub fn drain(&mut self) -> Drain<'_, 't> {
        Drain::of(self)
    }

    /// Takes every row out. Every key is dead from now on.
    ///
    /// ```
    /// use hop::{HopSlotMap, Refusal};
    /// let (mut links, mut rows) = ([0; 16], [0; 32]);
    /// let mut map = HopSlotMap::new(&mut links, &mut rows)?;
    /// let key = map.insert([1; 8])?;
    /// map.clear()?;
    /// assert!(map.is_empty());
    /// assert_eq!(map.get(key), None);
    /// # Ok::<(), Refusal>(())
    /// ```
    ///
    /// # Errors
    /// [`Refusal::Shape`], [`Refusal::Damaged`]: the whole table is tested first.
    pub fn clear(&mut self) -> Result<(), Refusal> {
        self.header = unrefused(self.tables.clear(self.header))?.header;
        Ok(())
    }

    /// Takes out every row that the closure answers `false` for, and answers how many. It is asked in rising order of slots, about every row before
    /// the first one goes, and may write the rows. Where the table is not sound it is not asked at all; where it panics no row goes.
    ///
    /// ```
    /// use hop::{HopSlotMap, Refusal};
    /// let (mut links, mut rows) = ([0; 16], [0; 32]);
    /// let mut map = HopSlotMap::new(&mut links, &mut rows)?;
    /// let keys = [map.insert([1; 8])?, map.insert([2; 8])?, map.insert([3; 8])?];
    /// assert_eq!(map.retain(|key, row| key == keys[0] || row[0] == 3), Ok(1));
    /// assert!(!map.contains_key(keys[1]));
    /// # Ok::<(), Refusal>(())
    /// ```
    ///
    /// # Errors
    /// [`Refusal::Shape`], [`Refusal::Damaged`]: the whole table is tested first.
    pub fn retain<F>(&mut self, mut keeps: F) -> Result<usize, Refusal>
    where
        F: FnMut(Key, &mut Row) -> bool,
    {
        self.sound()?;
        let mut keep = [1; LIMIT];
        let mut cursor = 0;
        while let Some((key, next)) = self.hop_step(cursor)? {
            cursor = next;
            if let (Some(row), Some(byte)) = (row_at_mut(self.tables.rows_mut(), key.index), byte_at(&mut keep, key.index)) {
                *byte = u8::from(keeps(key, row));
            }
        }
        let used = usize::try_from(self.header.used).unwrap_or(usize::MAX);
        let keep = keep.get(..used).ok_or(Refusal::Shape)?;
        let answer = unrefused(self.tables.retain(self.header, keep))?;
        self.header = answer.header;
        Ok(usize::try_from(answer.count).unwrap_or(usize::MAX))
    }
}
