//! Why a call is turned down.
use core::{error, fmt};

/// Why a call was turned down. A refused call changes no word, neither of the tables nor of the header. It prints a sentence.
///
/// ```
/// use hop::{HopSlotMap, Refusal};
/// fn take_in() -> Result<(), Box<dyn std::error::Error>> {
///     let (mut links, mut rows) = ([0; 4], [0; 8]); // slot 0 alone
///     HopSlotMap::new(&mut links, &mut rows)?.insert([1; 8])?;
///     Ok(())
/// }
/// assert_eq!(take_in().map_err(|refused| refused.to_string()), Err("no slot is left: remove a row, or lend larger tables".to_string()));
/// ```
#[derive(Clone, Copy, Debug, PartialEq, Eq, PartialOrd, Ord, Hash)]
#[non_exhaustive]
pub enum Refusal {
    /// 1: the lengths of the tables are no table's or differ, there are no presence bytes or too many, or the header does not fit the tables.
    Shape,
    /// 2: the table is not sound where the call looked: its words, or its header, were changed from outside.
    Damaged,
    /// 3: a key with an even version: none such is ever handed out.
    EvenVersion,
    /// 4: a key that is not live.
    NotLive,
    /// 5: no slot is left.
    Full,
    /// 6: a cursor inside a run of vacant slots: a row was removed during the walk.
    StaleCursor,
    /// 7: a presence byte that is not 0 or 1, or not the version's lowest bit.
    WrongPresence,
    /// 8: slot 0 said to be occupied.
    ZeroOccupied,
    /// 9: of the command program alone; no method gives it. It is here so that every number that the program replies has its name.
    BrokenStream,
    /// No number of the map's: the archive is of another version than this crate.
    OtherArchive,
}

impl Refusal {
    /// The number; 0 for [`Refusal::OtherArchive`].
    ///
    /// ```
    /// assert_eq!(hop::Refusal::Full.number(), 5);
    /// ```
    #[must_use]
    pub const fn number(self) -> u32 {
        match self {
            Refusal::OtherArchive => 0,
            Refusal::Shape => 1,
            Refusal::Damaged => 2,
            Refusal::EvenVersion => 3,
            Refusal::NotLive => 4,
            Refusal::Full => 5,
            Refusal::StaleCursor => 6,
            Refusal::WrongPresence => 7,
            Refusal::ZeroOccupied => 8,
            Refusal::BrokenStream => 9,
        }
    }

    /// The refusal of a number. One that the map does not have is of another archive.
    ///
    /// ```
    /// use hop::Refusal;
    /// assert_eq!(Refusal::of_number(6), Refusal::StaleCursor);
    /// assert_eq!(Refusal::of_number(77), Refusal::OtherArchive);
    /// ```
    #[must_use]
    pub const fn of_number(number: u32) -> Self {
        match number {
            1 => Refusal::Shape,
            2 => Refusal::Damaged,
            3 => Refusal::EvenVersion,
            4 => Refusal::NotLive,
            5 => Refusal::Full,
            6 => Refusal::StaleCursor,
            7 => Refusal::WrongPresence,
            8 => Refusal::ZeroOccupied,
            9 => Refusal::BrokenStream,
            _ => Refusal::OtherArchive,
        }
    }
}

impl fmt::Display for Refusal {
    fn fmt(&self, to: &mut fmt::Formatter<'_>) -> fmt::Result {
        to.write_str(match self {
            Refusal::Shape => {
                "the tables do not fit each other, the header or the presence bytes: lend 4 link words and 8 row words for each of 1 to 4096 slots"
            }
            Refusal::Damaged => "the table is damaged: read out what is live and rebuild it",
            Refusal::EvenVersion => "the key has an even version: none such is ever handed out",
            Refusal::NotLive => "the key is not live: its row was removed, or it is not of this map",
            Refusal::Full => "no slot is left: remove a row, or lend larger tables",
            Refusal::StaleCursor => "the cursor is stale, since a row was removed during the walk: start it again at 0",
            Refusal::WrongPresence => "a presence byte is not the lowest bit of its slot's version: give 1 for an odd version, 0 for an even one",
            Refusal::ZeroOccupied => "slot 0 was said to be occupied: it heads the chain and never is",
            Refusal::BrokenStream => "the command is unknown or its body was cut short: the program has ended there",
            Refusal::OtherArchive => "the archive is of another version than this crate: build both from one source",
        })
    }
}

// In core, and so for those without std too; std::error::Error is the same trait.
impl error::Error for Refusal {}
