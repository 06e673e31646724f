//! What the certificates and links held say of lists at a minute. Only for explanations and warnings: answers are the engine's.

use crate::syntax::Polarity;
use std::collections::{BTreeMap, BTreeSet};
use txindurbe::{Key, Links, Minute, Name, Row, Store};

pub(crate) struct Evidence<'a> {
    pub store: &'a Store,
    pub links: &'a Links,
    pub minute: Minute,
    /// Of each list that has certificates, the rows of those that hold at the minute.
    rows: BTreeMap<Name, BTreeSet<Row>>,
    /// From each list that has links, where they lead.
    others: BTreeMap<Name, Vec<Name>>,
}

impl Evidence<'_> {
    pub fn new<'a>(store: &'a Store, links: &'a Links, minute: Minute) -> Evidence<'a> {
        let mut rows: BTreeMap<Name, BTreeSet<Row>> = BTreeMap::new();
        for certificate in store.iter() {
            let held = rows.entry(certificate.list()).or_default();
            if certificate.validity.holds_at(minute) {
                held.insert(certificate.row);
            }
        }
        let mut others: BTreeMap<Name, Vec<Name>> = BTreeMap::new();
        for link in links.iter() {
            others.entry(link.list()).or_default().push(link.other_list());
        }
        Evidence { store, links, minute, rows, others }
    }

    /// The rows certified of these lists or of those that links reach from them, by certificates that hold at the minute.
    pub fn rows(&self, names: &[Name]) -> BTreeSet<Row> {
        self.reached(names).iter().flat_map(|name| self.own_rows(name)).copied().collect()
    }

    /// The same of one list alone.
    pub fn own_rows(&self, name: &Name) -> impl Iterator<Item = &Row> {
        self.rows.get(name).into_iter().flatten()
    }

    /// Whether there are certificates of these lists, by links too, whenever they hold.
    pub fn at_some_minute(&self, names: &[Name]) -> bool {
        self.reached(names).iter().any(|name| self.rows.contains_key(name))
    }

    /// The keys that have something to say of their list of this number, by certificates or links.
    pub fn keys(&self, number: u16, polarity: Polarity) -> BTreeSet<Key> {
        let named = self.rows.keys().chain(self.others.keys());
        named.filter(|name| (name.number, name.polarity) == (number, polarity)).map(|name| name.key).collect()
    }

    /// These lists and all that links lead to from them, in any number of steps.
    fn reached(&self, names: &[Name]) -> BTreeSet<Name> {
        let mut reached: BTreeSet<Name> = names.iter().copied().collect();
        let mut new = names.to_vec();
        while let Some(from) = new.pop() {
            let others = self.others.get(&from).into_iter().flatten().copied();
            new.extend(others.filter(|other| reached.insert(*other)));
        }
        reached
    }
}
