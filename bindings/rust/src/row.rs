use crate::sizes::{MOST_WIDTH, ROW_WORDS};
use crate::Atom;
use std::cmp::Ordering;
use std::fmt;

/// One to four atoms, from an array or a slice of numbers, of keys or of atoms.
///
/// Rows are in order atom by atom, and where one row ends and the other goes on, the shorter comes first: (7), (7, 1), (7, 1, 2), (8).
///
/// ```
/// use txindurbe::{Atom, Key, Row};
///
/// let row = Row::from([Atom::from(7), Atom::from(Key::new(1))]);
/// assert_eq!(row.to_string(), "(7, k1)");
/// assert!(Row::from([7]) < row && row < Row::from([8]));
///
/// // A slice may be too long for a row, or empty.
/// let words = [7, 2_147_483_649, 0, 0, 0];
/// assert_eq!(Row::try_from(&words[..2]), Ok(row));
/// assert!(Row::try_from(&words[..]).is_err());
/// ```
#[derive(Clone, Copy, PartialEq, Eq, Hash)]
pub struct Row {
    width: u32,
    /// Unused ones are 0.
    atoms: [Atom; MOST_WIDTH],
}

impl Ord for Row {
    /// Mirrors the engine's order of rows, `row_before` in `crates/rows/specs/Row.antt`. All that orders rows here comes to this function.
    fn cmp(&self, other: &Row) -> Ordering {
        self.atoms().cmp(other.atoms())
    }
}

impl PartialOrd for Row {
    fn partial_cmp(&self, other: &Row) -> Option<Ordering> {
        Some(self.cmp(other))
    }
}

impl Row {
    /// One to four.
    ///
    /// ```
    /// use txindurbe::{Atom, Row};
    ///
    /// assert_eq!(Row::from([7, 1]).atoms(), [Atom::from(7), Atom::from(1)]);
    /// ```
    pub fn atoms(&self) -> &[Atom] {
        &self.atoms[..self.width as usize]
    }

    /// Width and four atoms.
    pub(crate) fn words(&self) -> [u32; ROW_WORDS] {
        let [a, b, c, d] = self.atoms.map(Atom::word);
        [self.width, a, b, c, d]
    }

    /// From width and four atoms; none if they are no row's.
    pub(crate) fn from_words(words: [u32; ROW_WORDS]) -> Option<Row> {
        let [width, atoms @ ..] = words;
        let row = Row::try_from(atoms.get(..width as usize)?).ok()?;
        (row.words() == words).then_some(row)
    }

    /// From atoms that are one to four.
    fn of(atoms: impl ExactSizeIterator<Item = Atom>) -> Row {
        let mut row = Row { width: atoms.len() as u32, atoms: [Atom::from(0); MOST_WIDTH] };
        row.atoms.iter_mut().zip(atoms).for_each(|(place, atom)| *place = atom);
        row
    }
}

impl fmt::Display for Row {
    fn fmt(&self, out: &mut fmt::Formatter) -> fmt::Result {
        for (place, atom) in self.atoms().iter().enumerate() {
            write!(out, "{}{atom}", if place == 0 { "(" } else { ", " })?;
        }
        out.write_str(")")
    }
}

impl fmt::Debug for Row {
    fn fmt(&self, out: &mut fmt::Formatter) -> fmt::Result {
        fmt::Display::fmt(self, out)
    }
}

macro_rules! row_from_arrays {
    ($($width:literal)*) => {$(
        impl<A: Into<Atom>> From<[A; $width]> for Row {
            fn from(atoms: [A; $width]) -> Row {
                Row::of(atoms.into_iter().map(A::into))
            }
        }
    )*};
}

row_from_arrays!(1 2 3 4);

macro_rules! row_from_slices {
    ($($atom:ty)*) => {$(
        impl TryFrom<&[$atom]> for Row {
            type Error = WrongWidth;

            fn try_from(atoms: &[$atom]) -> Result<Row, WrongWidth> {
                match atoms.len() {
                    1..=MOST_WIDTH => Ok(Row::of(atoms.iter().map(|&atom| atom.into()))),
                    width => Err(WrongWidth(width)),
                }
            }
        }
    )*};
}

row_from_slices!(u32 crate::Key Atom);

/// So many atoms are no row: it has one to four.
///
/// ```
/// use txindurbe::{Row, WrongWidth};
///
/// assert_eq!(Row::try_from(&[7; 5][..]), Err(WrongWidth(5)));
/// assert_eq!(WrongWidth(5).to_string(), "a row has one to four atoms, not 5");
/// ```
#[derive(Clone, Copy, PartialEq, Eq, Debug)]
pub struct WrongWidth(
    /// How many there are.
    pub usize,
);

impl fmt::Display for WrongWidth {
    fn fmt(&self, out: &mut fmt::Formatter) -> fmt::Result {
        write!(out, "a row has one to four atoms, not {}", self.0)
    }
}

impl std::error::Error for WrongWidth {}

#[cfg(test)]
mod tests {
    use super::*;
    use crate::Key;

    fn key(n: u32) -> u32 {
        Key::new(n).word()
    }

    /// Each row is before all that follow it.
    #[test]
    fn rows_are_ordered_atom_by_atom_unsigned_the_shorter_first() {
        let ascending = [
            Row::from([0]),
            Row::from([0, 0]),
            Row::from([0, 0, 0, 0]),
            Row::from([0, key(1)]),
            Row::from([7]),
            Row::from([7, 0]),
            Row::from([7, 0, 0]),
            Row::from([7, 0, 9]),
            Row::from([7, 0, 9, 1]),
            Row::from([7, 0, 9, key(1)]),
            Row::from([7, 1]),
            Row::from([7, 1, 2]),
            Row::from([8]),
            Row::from([8, 0]),
            Row::from([key(0)]), // as a signed number it would come first
            Row::from([key(0), 7]),
            Row::from([u32::MAX]),
        ];
        for (place, row) in ascending.iter().enumerate() {
            for (other_place, other) in ascending.iter().enumerate() {
                assert_eq!(row.cmp(other), place.cmp(&other_place), "{row} and {other}");
                assert_eq!(row.partial_cmp(other), Some(row.cmp(other)));
            }
        }
    }
}
