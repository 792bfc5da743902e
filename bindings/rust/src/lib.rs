//! A slot map for deck electronics, proved: `HopSlotMap` of slotmap 1.1.1 over tables that the caller lends, in the language Rattle, with every
//! function proved to meet its contract on every input. This crate is its surface for Rust, over the archive for C. It adds one rule of its own, that
//! a walk counts its rows; it needs no allocator and no other crate, and no input makes it panic.
//!
//! ```
//! use hop::{HopSlotMap, Refusal};
//!
//! // Four slots, of which slot 0 heads the chain of vacant ones.
//! let (mut links, mut rows) = ([0; 16], [0; 32]);
//! let mut map = HopSlotMap::new(&mut links, &mut rows)?;
//! let buoy = map.insert([7, 0, 0, 0, 0, 0, 0, 0])?;
//! assert_eq!(buoy.to_string(), "1v1");
//! assert_eq!(map.get(buoy), Some(&[7, 0, 0, 0, 0, 0, 0, 0]));
//! map.remove(buoy)?;
//! assert_eq!(map.get(buoy), None);
//! assert_eq!(map.insert([8; 8])?.to_string(), "1v3");
//! # Ok::<(), Refusal>(())
//! ```
//!
//! # For users of slotmap
//!
//! The methods have slotmap's names. What differs:
//! - The map borrows its tables: four link words and a row of eight words for each slot, slot 0 among them, at most [`LIMIT`] slots. The row is the
//!   value.
//! - What slotmap would grow or panic at is a [`Refusal`], and so is damage: [`insert`](HopSlotMap::insert) into a full table, any call on a table
//!   whose words were changed from outside. A refused call changes no word.
//! - [`remove`](HopSlotMap::remove) answers a `Result` where slotmap has an `Option`: a row that is still there must not look like one that was gone.
//! - [`iter`](HopSlotMap::iter), [`keys`](HopSlotMap::keys), [`values`](HopSlotMap::values) and [`drain`](HopSlotMap::drain) give `Result`s: a walk
//!   over a damaged table shows the refusal, once, and ends.
//! - [`retain`](HopSlotMap::retain) asks the closure about every row before it removes the first, and answers how many went.
//! - [`Key::from_ffi`] keeps every bit.
//!
//! docs/DIFFERENCES.md of the repository has them all.
#![no_std]
#![deny(unsafe_code)]

#[allow(unsafe_code)]
pub mod calls;
mod key;
mod map;
mod refusal;
mod walks;

pub use key::Key;
pub use map::HopSlotMap;
pub use refusal::Refusal;
pub use walks::{Drain, Iter, Keys, Values};

/// The most slots that may be lent.
pub const LIMIT: usize = 4096;

/// The link words of a slot: version, next, prev, `other_end`.
pub const LINK_WORDS: usize = 4;

/// The words of a row.
pub const ROW_WORDS: usize = 8;

/// What a slot holds.
pub type Row = [u32; ROW_WORDS];

/// Slots in use, slot 0 included, and rows live.
#[repr(C)]
#[derive(Clone, Copy, Debug, Default, PartialEq, Eq, Hash)]
pub struct Header {
    /// Slots in use.
    pub used: u32,
    /// Rows live.
    pub live: u32,
}
