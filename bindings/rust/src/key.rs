//! Keys.
use core::fmt;

/// A slot's index and a version. A key is live where the index is below the slots in use and the version is odd and the slot's own. Keys are in order
/// by index, then by version, as slotmap's are.
///
/// It prints as slotmap's keys do:
///
/// ```
/// use hop::Key;
/// assert_eq!(format!("{:?}", Key { index: 1, version: 3 }), "1v3");
/// assert_eq!(Key { index: 1, version: 3 }.to_string(), "1v3");
/// assert_eq!(format!("{:?}", Key::null()), "null");
/// ```
#[repr(C)]
#[derive(Clone, Copy, PartialEq, Eq, PartialOrd, Ord, Hash)]
pub struct Key {
    /// The slot.
    pub index: u32,
    /// Odd in every key that was ever handed out.
    pub version: u32,
}

impl Key {
    /// A key that is never live: its index is past any table. It is the default.
    ///
    /// ```
    /// use hop::{HopSlotMap, Key, Refusal};
    /// let (mut links, mut rows) = ([0; 16], [0; 32]);
    /// let map = HopSlotMap::new(&mut links, &mut rows)?;
    /// assert_eq!(Key::null(), Key::default());
    /// assert_eq!(map.check_key(Key::null()), Err(Refusal::NotLive));
    /// # Ok::<(), Refusal>(())
    /// ```
    #[must_use]
    pub const fn null() -> Self {
        Key { index: u32::MAX, version: 1 }
    }

    /// Whether the index is that of the null key, as slotmap has it. No key that was handed out is null.
    ///
    /// ```
    /// use hop::Key;
    /// assert!(Key::null().is_null());
    /// assert!(!Key { index: 1, version: 1 }.is_null());
    /// ```
    #[must_use]
    pub const fn is_null(self) -> bool {
        self.index == u32::MAX
    }

    /// The key as one word, in slotmap's layout: the version in the upper half, the index in the lower.
    ///
    /// ```
    /// assert_eq!(hop::Key { index: 1, version: 3 }.as_ffi(), 0x3_0000_0001);
    /// ```
    #[must_use]
    pub const fn as_ffi(self) -> u64 {
        (self.version as u64) << 32 | self.index as u64
    }

    /// The key of such a word, with all 64 bits kept.
    ///
    /// slotmap sets the version's lowest bit here, which can make a live key of a word that never was one. This keeps an even version even, and
    /// every call refuses it:
    ///
    /// ```
    /// use hop::{HopSlotMap, Key, Refusal};
    /// let (mut links, mut rows) = ([0; 16], [0; 32]);
    /// let mut map = HopSlotMap::new(&mut links, &mut rows)?;
    /// let key = map.insert([7; 8])?;
    /// assert_eq!(Key::from_ffi(key.as_ffi()), key);
    /// let bent = Key::from_ffi(key.as_ffi() & !(1 << 32));
    /// assert_eq!(map.check_key(bent), Err(Refusal::EvenVersion));
    /// # Ok::<(), Refusal>(())
    /// ```
    #[must_use]
    pub const fn from_ffi(word: u64) -> Self {
        Key { index: (word & 0xffff_ffff) as u32, version: (word >> 32) as u32 }
    }
}

impl Default for Key {
    fn default() -> Self {
        Key::null()
    }
}

impl fmt::Display for Key {
    fn fmt(&self, to: &mut fmt::Formatter<'_>) -> fmt::Result {
        if self.is_null() {
            to.write_str("null")
        } else {
            write!(to, "{}v{}", self.index, self.version)
        }
    }
}

impl fmt::Debug for Key {
    fn fmt(&self, to: &mut fmt::Formatter<'_>) -> fmt::Result {
        fmt::Display::fmt(self, to)
    }
}
