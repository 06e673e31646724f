use std::fmt;

/// Atoms from here up are keys.
const FIRST: u32 = 1 << 31;

/// An observatory's key, or the archive's own: kN, by its number N. What asks for a key takes no number.
///
/// ```
/// use txindurbe::Key;
///
/// const OBSERVATORY: Key = Key::new(1);
/// assert_eq!(OBSERVATORY.to_string(), "k1");
/// assert!(OBSERVATORY < Key::new(2));
/// ```
#[derive(Clone, Copy, PartialEq, Eq, PartialOrd, Ord, Hash)]
pub struct Key(u32);

impl Key {
    /// The key kN.
    ///
    /// # Panics
    /// From 2^31 on: the last key is k2147483647.
    ///
    /// ```
    /// use txindurbe::Key;
    ///
    /// assert_eq!(Key::new(9).to_string(), "k9");
    /// assert!(std::panic::catch_unwind(|| Key::new(2_147_483_648)).is_err());
    /// ```
    pub const fn new(number: u32) -> Key {
        assert!(number < FIRST, "keys are k0 to k2147483647");
        Key(FIRST + number)
    }

    /// N of kN.
    ///
    /// ```
    /// use txindurbe::Key;
    ///
    /// assert_eq!(Key::new(9).number(), 9);
    /// ```
    pub const fn number(self) -> u32 {
        self.0 - FIRST
    }

    /// As the engine has it.
    ///
    /// ```
    /// use txindurbe::Key;
    ///
    /// assert_eq!(Key::new(9).word(), 2_147_483_657);
    /// ```
    pub const fn word(self) -> u32 {
        self.0
    }
}

impl fmt::Display for Key {
    fn fmt(&self, out: &mut fmt::Formatter) -> fmt::Result {
        write!(out, "k{}", self.number())
    }
}

impl fmt::Debug for Key {
    fn fmt(&self, out: &mut fmt::Formatter) -> fmt::Result {
        fmt::Display::fmt(self, out)
    }
}

/// What rows are made of: a number or a key. Any word is one: those below 2^31 are numbers, those from there up keys.
///
/// ```
/// use txindurbe::{Atom, Key};
///
/// let [seven, observatory] = [Atom::from(7), Atom::from(Key::new(1))];
/// assert_eq!(format!("{seven}, {observatory}"), "7, k1");
/// assert_eq!(Atom::from(2_147_483_649), observatory);
/// ```
#[derive(Clone, Copy, PartialEq, Eq, PartialOrd, Ord, Hash)]
pub struct Atom(u32);

impl Atom {
    /// As the engine has it.
    ///
    /// ```
    /// use txindurbe::{Atom, Key};
    ///
    /// assert_eq!(Atom::from(7).word(), 7);
    /// assert_eq!(Atom::from(Key::new(1)).word(), 2_147_483_649);
    /// ```
    pub const fn word(self) -> u32 {
        self.0
    }

    /// The key that it is; none if it is a number.
    ///
    /// ```
    /// use txindurbe::{Atom, Key};
    ///
    /// assert_eq!(Atom::from(2_147_483_649).key(), Some(Key::new(1)));
    /// assert_eq!(Atom::from(7).key(), None);
    /// ```
    pub const fn key(self) -> Option<Key> {
        if self.0 < FIRST {
            None
        } else {
            Some(Key(self.0))
        }
    }
}

impl From<u32> for Atom {
    fn from(word: u32) -> Atom {
        Atom(word)
    }
}

impl From<Key> for Atom {
    fn from(key: Key) -> Atom {
        Atom(key.0)
    }
}

impl fmt::Display for Atom {
    fn fmt(&self, out: &mut fmt::Formatter) -> fmt::Result {
        match self.key() {
            Some(key) => key.fmt(out),
            None => self.0.fmt(out),
        }
    }
}

impl fmt::Debug for Atom {
    fn fmt(&self, out: &mut fmt::Formatter) -> fmt::Result {
        fmt::Display::fmt(self, out)
    }
}
