//! The map: what it is made of, how it begins, and what it tells of itself. Its other calls: one row by its key in `rows`, the whole table in
//! `whole`.
mod rows;
mod whole;

use crate::calls::{self, Answer, Tables};
use crate::{Header, Refusal};

/// A slot map over two lent tables. It keeps the header; the tables are free again when it is dropped, with every row where it was.
#[derive(Debug)]
pub struct HopSlotMap<'t> {
    tables: Tables<'t>,
    header: Header,
}

/// The answer where the call was not refused.
fn unrefused(answer: Answer) -> Result<Answer, Refusal> {
    match answer.kind {
        calls::ANSWER | calls::DONE => Ok(answer),
        calls::REFUSED => Err(Refusal::of_number(answer.number)),
        _ => Err(Refusal::OtherArchive),
    }
}

impl<'t> HopSlotMap<'t> {
    /// An empty map of what is lent, whatever words were there. The language of the map calls this start.
    ///
    /// ```
    /// use hop::{HopSlotMap, Refusal};
    /// let (mut links, mut rows) = ([0; 8], [0; 16]);
    /// assert!(HopSlotMap::new(&mut links, &mut rows)?.is_empty());
    /// assert_eq!(HopSlotMap::new(&mut links, &mut rows[1..]).err(), Some(Refusal::Shape));
    /// # Ok::<(), Refusal>(())
    /// ```
    ///
    /// # Errors
    /// [`Refusal::Shape`]: not 4 link words and 8 row words for each of 1 to [`LIMIT`](crate::LIMIT) slots. [`Refusal::OtherArchive`].
    pub fn new(links: &'t mut [u32], rows: &'t mut [u32]) -> Result<Self, Refusal> {
        let mut map = Self::with_header(links, rows, Header::default())?;
        map.header = unrefused(map.tables.start(map.header))?.header;
        Ok(map)
    }

    /// A map again of versions and rows that stand in place, with one presence byte for each slot that is to be in use: 1 where it is occupied. Links
    /// are made anew, and the rows of vacant slots become zero.
    ///
    /// ```
    /// use hop::{HopSlotMap, Key, Refusal};
    /// let (mut links, mut rows) = ([0; 16], [9; 32]);
    /// (links[4], links[8]) = (4, 7);
    /// let map = HopSlotMap::rebuild(&mut links, &mut rows, &[0, 0, 1])?;
    /// assert_eq!(map.get(Key { index: 2, version: 7 }), Some(&[9; 8]));
    /// assert_eq!(HopSlotMap::rebuild(&mut links, &mut rows, &[0, 1]).err(), Some(Refusal::WrongPresence));
    /// # Ok::<(), Refusal>(())
    /// ```
    ///
    /// # Errors
    /// [`Refusal::Shape`], [`Refusal::WrongPresence`], [`Refusal::ZeroOccupied`], [`Refusal::OtherArchive`].
    pub fn rebuild(links: &'t mut [u32], rows: &'t mut [u32], presence: &[u8]) -> Result<Self, Refusal> {
        let mut map = Self::with_header(links, rows, Header::default())?;
        map.header = unrefused(map.tables.rebuild(map.header, presence))?.header;
        Ok(map)
    }

    /// A map over tables as an earlier one left them, with the header that it had. Nothing is looked at: every call tests what it needs, and
    /// [`sound`](Self::sound) tests everything.
    ///
    /// ```
    /// use hop::{HopSlotMap, Refusal};
    /// let (mut links, mut rows) = ([0; 8], [0; 16]);
    /// let mut map = HopSlotMap::new(&mut links, &mut rows)?;
    /// let (key, header) = (map.insert([1; 8])?, map.header());
    /// let again = HopSlotMap::with_header(&mut links, &mut rows, header)?;
    /// assert!(again.contains_key(key));
    /// # Ok::<(), Refusal>(())
    /// ```
    ///
    /// # Errors
    /// [`Refusal::OtherArchive`] alone.
    pub fn with_header(links: &'t mut [u32], rows: &'t mut [u32], header: Header) -> Result<Self, Refusal> {
        let tables = Tables::lent(links, rows).ok_or(Refusal::OtherArchive)?;
        Ok(HopSlotMap { tables, header })
    }

    /// The header that the last call handed back. Keep it beside the tables: [`with_header`](Self::with_header) takes both up again.
    ///
    /// ```
    /// use hop::{Header, HopSlotMap, Refusal};
    /// let (mut links, mut rows) = ([0; 16], [0; 32]);
    /// let mut map = HopSlotMap::new(&mut links, &mut rows)?;
    /// map.insert([1; 8])?;
    /// assert_eq!(map.header(), Header { used: 2, live: 1 });
    /// # Ok::<(), Refusal>(())
    /// ```
    #[must_use]
    pub fn header(&self) -> Header {
        self.header
    }

    /// How many rows are live.
    ///
    /// ```
    /// use hop::{HopSlotMap, Refusal};
    /// let (mut links, mut rows) = ([0; 16], [0; 32]);
    /// let mut map = HopSlotMap::new(&mut links, &mut rows)?;
    /// assert_eq!(map.len(), 0);
    /// map.insert([1; 8])?;
    /// assert_eq!(map.len(), 1);
    /// # Ok::<(), Refusal>(())
    /// ```
    #[must_use]
    pub fn len(&self) -> usize {
        usize::try_from(self.header.live).unwrap_or(usize::MAX)
    }

    /// Whether no row is live.
    ///
    /// ```
    /// use hop::{HopSlotMap, Refusal};
    /// let (mut links, mut rows) = ([0; 16], [0; 32]);
    /// let mut map = HopSlotMap::new(&mut links, &mut rows)?;
    /// assert!(map.is_empty());
    /// map.insert([1; 8])?;
    /// assert!(!map.is_empty());
    /// # Ok::<(), Refusal>(())
    /// ```
    #[must_use]
    pub fn is_empty(&self) -> bool {
        self.header.live == 0
    }

    /// How many slots are lent and not live, slot 0 among them: one more than the rows that still fit.
    ///
    /// ```
    /// use hop::{HopSlotMap, Refusal};
    /// let (mut links, mut rows) = ([0; 16], [0; 32]);
    /// let mut map = HopSlotMap::new(&mut links, &mut rows)?;
    /// assert_eq!(map.room(), Ok(4));
    /// map.insert([1; 8])?;
    /// assert_eq!(map.room(), Ok(3));
    /// # Ok::<(), Refusal>(())
    /// ```
    ///
    /// # Errors
    /// [`Refusal::Shape`], [`Refusal::Damaged`].
    pub fn room(&self) -> Result<usize, Refusal> {
        let answer = unrefused(self.tables.room(self.header))?;
        Ok(usize::try_from(answer.count).unwrap_or(usize::MAX))
    }

    /// The soundness check: passes exactly the sound tables.
    ///
    /// ```
    /// use hop::{HopSlotMap, Refusal};
    /// let (mut links, mut rows) = ([0; 16], [0; 32]);
    /// let mut map = HopSlotMap::new(&mut links, &mut rows)?;
    /// map.insert([1; 8])?;
    /// assert_eq!(map.sound(), Ok(()));
    ///
    /// let header = map.header();
    /// links[3] = 1; // other_end of slot 0 leads to an occupied slot
    /// assert_eq!(HopSlotMap::with_header(&mut links, &mut rows, header)?.sound(), Err(Refusal::Damaged));
    /// # Ok::<(), Refusal>(())
    /// ```
    ///
    /// # Errors
    /// [`Refusal::Shape`], [`Refusal::Damaged`].
    pub fn sound(&self) -> Result<(), Refusal> {
        unrefused(self.tables.sound(self.header)).map(|_| ())
    }
}
