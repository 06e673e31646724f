use crate::Key;
use std::fmt;

/// What certificates say of a list. Of a + list they say which rows are in it, of a − list which rows are not.
///
/// One number under + and under − names two lists that have nothing to do with each other. A list of withdrawn observations, of which observatories certify
/// what is *not* withdrawn, is a − list; to certify a row in the + list of the same number says nothing about it.
///
/// ```
/// use txindurbe::{Certificate, Key, Minute, Polarity, Validity};
///
/// let (observatory, withdrawn) = (Key::new(1), 2);
/// let term = Validity { first: Minute::new(0), end: Minute::new(1) };
/// let is_withdrawn = Certificate::listed(observatory, withdrawn, [7], term);
/// let is_not_withdrawn = Certificate::not_listed(observatory, withdrawn, [7], term);
/// assert_eq!((is_withdrawn.polarity, is_not_withdrawn.polarity), (Polarity::Plus, Polarity::Minus));
///
/// // They do not contradict each other: they are about two lists.
/// assert_eq!(format!("{} and {}", is_withdrawn.list(), is_not_withdrawn.list()), "k1.2+ and k1.2-");
/// ```
#[derive(Clone, Copy, PartialEq, Eq, PartialOrd, Ord, Hash, Debug)]
pub enum Polarity {
    /// A certificate says that its row is in the list; with none held, no row is known to be.
    Plus = 0,
    /// A certificate says that its row is not in the list; with none held, any row may be.
    Minus = 1,
}

impl Polarity {
    /// Of the engine's word.
    pub(crate) fn from_word(word: u32) -> Option<Polarity> {
        match word {
            0 => Some(Polarity::Plus),
            1 => Some(Polarity::Minus),
            _ => None,
        }
    }
}

impl fmt::Display for Polarity {
    fn fmt(&self, out: &mut fmt::Formatter) -> fmt::Result {
        out.write_str(match self {
            Polarity::Plus => "+",
            Polarity::Minus => "-",
        })
    }
}

/// A list: whose it is, its number and its polarity. Names are in order as in a store.
///
/// ```
/// use txindurbe::{Key, Name, Polarity};
///
/// let released = Name { key: Key::new(1), number: 1, polarity: Polarity::Plus };
/// let withdrawn = Name { key: Key::new(1), number: 2, polarity: Polarity::Minus };
/// assert_eq!(format!("{released}, {withdrawn}"), "k1.1+, k1.2-");
/// assert!(released < withdrawn);
/// ```
#[derive(Clone, Copy, PartialEq, Eq, PartialOrd, Ord, Hash, Debug)]
pub struct Name {
    /// Whose list it is.
    pub key: Key,
    /// Its number.
    pub number: u16,
    /// Which of the two lists of that number.
    pub polarity: Polarity,
}

impl fmt::Display for Name {
    fn fmt(&self, out: &mut fmt::Formatter) -> fmt::Result {
        write!(out, "{}.{}{}", self.key, self.number, self.polarity)
    }
}
