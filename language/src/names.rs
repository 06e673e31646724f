//! What the names of a file stand for, both ways, and which name was likely meant where one is unknown.

use crate::syntax::{Polarity, Span};
use txindurbe::{Atom, Key, Row};

/// The names of keys, lists and definitions that a file declares.
#[derive(Clone, PartialEq, Eq, Debug, Default)]
pub struct Names {
    pub(crate) keys: Vec<NamedKey>,
    pub(crate) lists: Vec<NamedList>,
    /// In the order of the file, which is the engine's.
    pub(crate) definitions: Vec<NamedDefinition>,
    /// What the file says by `our key`.
    pub(crate) our_key: Option<Key>,
}

#[derive(Clone, PartialEq, Eq, Debug)]
pub(crate) struct NamedKey {
    pub text: String,
    pub span: Span,
    pub key: Key,
}

#[derive(Clone, PartialEq, Eq, Debug)]
pub(crate) struct NamedList {
    pub text: String,
    pub span: Span,
    pub number: u16,
    pub polarity: Polarity,
}

#[derive(Clone, PartialEq, Eq, Debug)]
pub(crate) struct NamedDefinition {
    pub text: String,
    pub span: Span,
    pub number: u16,
    pub polarity: Polarity,
}

impl Names {
    /// The key that the file calls so.
    pub fn key(&self, text: &str) -> Option<Key> {
        self.keys.iter().find(|named| named.text == text).map(|named| named.key)
    }

    /// The number and polarity of the list that the file calls so.
    pub fn list(&self, text: &str) -> Option<(u16, Polarity)> {
        self.declared_list(text).map(|named| (named.number, named.polarity))
    }

    /// The place of the definition that the file calls so, counted from 0 as the engine does.
    pub fn definition(&self, text: &str) -> Option<usize> {
        self.definitions.iter().position(|named| named.text == text)
    }

    /// A key by its name, if it has one: `alma`, `k7`, `12`.
    pub fn show_atom(&self, atom: Atom) -> String {
        match atom.key() {
            Some(key) => self.show_key(key),
            None => atom.to_string(),
        }
    }

    /// `alma`, `k7`
    pub fn show_key(&self, key: Key) -> String {
        let name = self.keys.iter().find(|named| named.key == key);
        name.map_or_else(|| key.to_string(), |named| named.text.clone())
    }

    /// `(alma, 7)`
    pub fn show_row(&self, row: &Row) -> String {
        let atoms: Vec<String> = row.atoms().iter().map(|&atom| self.show_atom(atom)).collect();
        format!("({})", atoms.join(", "))
    }

    /// `alma.released`, `k7.2-`; of our key also `archive.public`, if `public` is a definition.
    pub fn show_list(&self, key: Key, name: u16, polarity: Polarity) -> String {
        format!("{}.{}", self.show_key(key), self.show_name(Some(key), name, polarity))
    }

    /// What stands behind the dot.
    pub(crate) fn show_name(&self, key: Option<Key>, number: u16, polarity: Polarity) -> String {
        let list = self.lists.iter().find(|named| (named.number, named.polarity) == (number, polarity)).map(|named| &named.text);
        let ours = self.our_key.is_some() && key == self.our_key;
        let own = || self.definitions.iter().find(|named| ours && (named.number, named.polarity) == (number, polarity)).map(|named| &named.text);
        list.or_else(own).cloned().unwrap_or_else(|| format!("{number}{polarity}"))
    }

    /// Of all names in the file the one that was likely meant.
    pub fn closest(&self, text: &str) -> Option<&str> {
        closest(text, self.key_names().chain(self.list_names()).chain(self.definition_names()))
    }

    pub(crate) fn declared_list(&self, text: &str) -> Option<&NamedList> {
        self.lists.iter().find(|named| named.text == text)
    }

    /// The definition that an own name of this number and polarity stands for.
    pub(crate) fn own(&self, number: u16, polarity: Polarity) -> Option<usize> {
        self.definitions.iter().position(|named| (named.number, named.polarity) == (number, polarity))
    }

    pub(crate) fn key_names(&self) -> impl Iterator<Item = &str> {
        self.keys.iter().map(|named| named.text.as_str())
    }

    pub(crate) fn list_names(&self) -> impl Iterator<Item = &str> {
        self.lists.iter().map(|named| named.text.as_str())
    }

    pub(crate) fn definition_names(&self) -> impl Iterator<Item = &str> {
        self.definitions.iter().map(|named| named.text.as_str())
    }
}

/// As it is written in prose.
pub(crate) fn sign(polarity: Polarity) -> &'static str {
    match polarity {
        Polarity::Plus => "+",
        Polarity::Minus => "−",
    }
}

pub(crate) fn opposite(polarity: Polarity) -> Polarity {
    match polarity {
        Polarity::Plus => Polarity::Minus,
        Polarity::Minus => Polarity::Plus,
    }
}

/// The candidate that the fewest slips of the pen lead to, if they are few for its length; the first of those alike.
pub(crate) fn closest<'a>(text: &str, candidates: impl Iterator<Item = &'a str>) -> Option<&'a str> {
    let near = candidates.filter_map(|candidate| {
        let slips = slips(text, candidate);
        let few = text.chars().count().max(candidate.chars().count()) / 3;
        (slips <= few).then_some((slips, candidate))
    });
    near.min_by_key(|&(slips, _)| slips).map(|(_, candidate)| candidate)
}

/// How many letters are put in, left out, changed or swapped with the next one between the two, capitals aside.
fn slips(a: &str, b: &str) -> usize {
    let [a, b]: [Vec<char>; 2] = [a, b].map(|text| text.chars().flat_map(char::to_lowercase).collect());
    // Of the first i letters of a and the first j of b.
    let mut table = vec![vec![0; b.len() + 1]; a.len() + 1];
    for i in 0..=a.len() {
        for j in 0..=b.len() {
            table[i][j] = if i == 0 || j == 0 {
                i + j
            } else {
                let changed = table[i - 1][j - 1] + usize::from(a[i - 1] != b[j - 1]);
                let swapped = i > 1 && j > 1 && a[i - 1] == b[j - 2] && a[i - 2] == b[j - 1];
                let swapped = if swapped { table[i - 2][j - 2] + 1 } else { usize::MAX };
                changed.min(swapped).min(table[i - 1][j] + 1).min(table[i][j - 1] + 1)
            };
        }
    }
    table[a.len()][b.len()]
}

#[cfg(test)]
mod tests {
    use super::*;

    #[test]
    fn slips_are_counted() {
        for (a, b, expected) in [
            ("", "", 0),
            ("", "vla", 3),
            ("alma", "alma", 0),
            ("Alma", "alma", 0),
            ("alam", "alma", 1),  // swapped
            ("alm", "alma", 1),   // left out
            ("allma", "alma", 1), // put in
            ("elma", "alma", 1),  // changed
            ("laam", "alma", 2),  // two pairs swapped
            ("vla", "alma", 2),   // v changed, m put in
            ("relesead", "released", 2),
        ] {
            assert_eq!(slips(a, b), expected, "{a} and {b}");
            assert_eq!(slips(b, a), expected, "{b} and {a}");
        }
    }

    #[test]
    fn one_slip_in_three_letters_is_few() {
        let names = || ["alma", "vla", "observatories", "o"].into_iter();
        assert_eq!(closest("alam", names()), Some("alma"));
        assert_eq!(closest("vl", names()), Some("vla"));
        assert_eq!(closest("observatory", names()), Some("observatories"));
        assert_eq!(closest("x", names()), None);
        assert_eq!(closest("vault", names()), None);
        // alike: the first
        assert_eq!(closest("abc", ["abd", "abe"].into_iter()), Some("abd"));
    }
}
