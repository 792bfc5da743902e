//! The calls of the archive, as methods of the tables that are lent to them, with every word of their answers: what
//! [`HopSlotMap`](crate::HopSlotMap) is made of. It is the one module with unsafe code. Every method is sound for any lengths, words, header, key and
//! cursor, whoever calls it. What a pointer has to be, [`Tables`] sees to; all else the archive is proved to test.
mod archive;

use core::{fmt, mem};

use crate::{Header, Key, Row, ROW_WORDS};

/// The version of [`Answer`] that this crate has.
pub const LAYOUT: u32 = 1;

/// [`Answer::kind`] of an answer with what was asked for.
pub const ANSWER: u32 = 0;

/// [`Answer::kind`] of a call that is done.
pub const DONE: u32 = 1;

/// [`Answer::kind`] of a refusal.
pub const REFUSED: u32 = 2;

/// What every call answers. What a case does not name is zero.
#[must_use = "it has the number where the call was refused, and the header for the next call"]
#[repr(C)]
#[derive(Clone, Copy, Debug, PartialEq, Eq)]
pub struct Answer {
    /// [`LAYOUT`].
    pub layout: u32,
    /// [`ANSWER`], [`DONE`] or [`REFUSED`].
    pub kind: u32,
    /// Of a refusal.
    pub number: u32,
    /// The key of insert, remove, look and of both steps.
    pub key: Key,
    /// The cursor after a hop step.
    pub cursor: u32,
    /// Of room and retain.
    pub count: u32,
    /// The row of remove, look and the drain step.
    pub row: Row,
    /// For the next call.
    pub header: Header,
}

// Seventeen words with no gap, as the header file asserts too.
const _: () = assert!(mem::size_of::<Answer>() == (9 + ROW_WORDS) * mem::size_of::<u32>() && mem::align_of::<Answer>() == mem::align_of::<u32>());

/// The two tables of a map. What the header file asks of a caller holds for each pointer that goes from here to the archive:
/// - it comes from a slice or an array, so that it is never null, is aligned and leads to as many words as the length beside it says;
/// - both tables are borrowed mutably for as long as this value stands, so that they overlap neither each other nor a side buffer, which is borrowed
///   apart from them;
/// - a method that writes has `&mut self`, so that nobody else reads or writes meanwhile, and one that reads has `&self`, so that nobody writes;
/// - where the archive has another layout than this crate, there is no value of this type to call a method of.
pub struct Tables<'t> {
    links: &'t mut [u32],
    rows: &'t mut [u32],
}

// How much is lent, and not every word of it.
impl fmt::Debug for Tables<'_> {
    fn fmt(&self, to: &mut fmt::Formatter<'_>) -> fmt::Result {
        to.debug_struct("Tables").field("link_words", &self.links.len()).field("row_words", &self.rows.len()).finish()
    }
}

impl<'t> Tables<'t> {
    /// The tables, ready for calls; nothing where the archive has another layout.
    pub fn lent(links: &'t mut [u32], rows: &'t mut [u32]) -> Option<Self> {
        // SAFETY: it takes nothing and answers a number.
        let layout = unsafe { archive::hop_layout() };
        (layout == LAYOUT).then_some(Tables { links, rows })
    }

    /// Every row where it lies.
    #[must_use]
    pub fn rows(&self) -> &[u32] {
        self.rows
    }

    /// Every row where it lies, to write.
    pub fn rows_mut(&mut self) -> &mut [u32] {
        self.rows
    }

    /// Makes an empty map of what is lent; any header will do.
    pub fn start(&mut self, header: Header) -> Answer {
        // SAFETY: the tables alone, see `Tables`.
        unsafe { archive::hop_start(self.links.as_mut_ptr(), self.links.len(), self.rows.as_mut_ptr(), self.rows.len(), header.used, header.live) }
    }

    /// How many slots are lent and not live.
    pub fn room(&self, header: Header) -> Answer {
        // SAFETY: the tables alone, see `Tables`.
        unsafe { archive::hop_room(self.links.as_ptr(), self.links.len(), self.rows.as_ptr(), self.rows.len(), header.used, header.live) }
    }

    /// Whether a key is live: done, or the number.
    pub fn key_number(&self, header: Header, key: Key) -> Answer {
        // SAFETY: the tables alone, see `Tables`.
        unsafe {
            archive::hop_key_number(
                self.links.as_ptr(),
                self.links.len(),
                self.rows.as_ptr(),
                self.rows.len(),
                header.used,
                header.live,
                key.index,
                key.version,
            )
        }
    }

    /// The row of a live key, by value.
    pub fn look(&self, header: Header, key: Key) -> Answer {
        // SAFETY: the tables alone, see `Tables`.
        unsafe {
            archive::hop_look(
                self.links.as_ptr(),
                self.links.len(),
                self.rows.as_ptr(),
                self.rows.len(),
                header.used,
                header.live,
                key.index,
                key.version,
            )
        }
    }

    /// The row of a live key becomes the side buffer.
    pub fn replace(&mut self, header: Header, key: Key, side: &[u32]) -> Answer {
        // SAFETY: the tables and a side buffer beside them, see `Tables`.
        unsafe {
            archive::hop_replace(
                self.links.as_ptr(),
                self.links.len(),
                self.rows.as_mut_ptr(),
                self.rows.len(),
                header.used,
                header.live,
                key.index,
                key.version,
                side.as_ptr(),
                side.len(),
            )
        }
    }

    /// Takes a row in from the side buffer.
    pub fn insert(&mut self, header: Header, side: &[u32]) -> Answer {
        // SAFETY: the tables and a side buffer beside them, see `Tables`.
        unsafe {
            archive::hop_insert(
                self.links.as_mut_ptr(),
                self.links.len(),
                self.rows.as_mut_ptr(),
                self.rows.len(),
                header.used,
                header.live,
                side.as_ptr(),
                side.len(),
            )
        }
    }

    /// Takes the row of a live key out.
    pub fn remove(&mut self, header: Header, key: Key) -> Answer {
        // SAFETY: the tables alone, see `Tables`.
        unsafe {
            archive::hop_remove(
                self.links.as_mut_ptr(),
                self.links.len(),
                self.rows.as_mut_ptr(),
                self.rows.len(),
                header.used,
                header.live,
                key.index,
                key.version,
            )
        }
    }

    /// The next live slot from the cursor on.
    pub fn hop_step(&self, header: Header, cursor: u32) -> Answer {
        // SAFETY: the tables alone, see `Tables`.
        unsafe { archive::hop_step(self.links.as_ptr(), self.links.len(), self.rows.as_ptr(), self.rows.len(), header.used, header.live, cursor) }
    }

    /// Takes one live row out, in a sound table that of the lowest slot.
    pub fn drain_step(&mut self, header: Header) -> Answer {
        // SAFETY: the tables alone, see `Tables`.
        unsafe {
            archive::hop_drain_step(self.links.as_mut_ptr(), self.links.len(), self.rows.as_mut_ptr(), self.rows.len(), header.used, header.live)
        }
    }

    /// Takes every live row out, after the soundness check.
    pub fn clear(&mut self, header: Header) -> Answer {
        // SAFETY: the tables alone, see `Tables`.
        unsafe { archive::hop_clear(self.links.as_mut_ptr(), self.links.len(), self.rows.as_mut_ptr(), self.rows.len(), header.used, header.live) }
    }

    /// One byte for each slot in use: 0 takes a live slot's row out, after the soundness check.
    pub fn retain(&mut self, header: Header, keep: &[u8]) -> Answer {
        // SAFETY: the tables and bytes beside them, see `Tables`.
        unsafe {
            archive::hop_retain(
                self.links.as_mut_ptr(),
                self.links.len(),
                self.rows.as_mut_ptr(),
                self.rows.len(),
                header.used,
                header.live,
                keep.as_ptr(),
                keep.len(),
            )
        }
    }

    /// Versions and rows that stand in place become a map again; any header will do.
    pub fn rebuild(&mut self, header: Header, presence: &[u8]) -> Answer {
        // SAFETY: the tables and bytes beside them, see `Tables`.
        unsafe {
            archive::hop_rebuild(
                self.links.as_mut_ptr(),
                self.links.len(),
                self.rows.as_mut_ptr(),
                self.rows.len(),
                header.used,
                header.live,
                presence.as_ptr(),
                presence.len(),
            )
        }
    }

    /// The soundness check.
    pub fn sound(&self, header: Header) -> Answer {
        // SAFETY: the tables alone, see `Tables`.
        unsafe { archive::hop_sound(self.links.as_ptr(), self.links.len(), self.rows.as_ptr(), self.rows.len(), header.used, header.live) }
    }
}
