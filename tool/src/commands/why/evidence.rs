//! What the certificates and links held say of a row and a list, and by which filings they came.

use std::collections::{BTreeSet, HashMap, HashSet, VecDeque};
use txindurbe::{Certificate, Filing, Link, Links, Minute, Name, Refusal, Row, Store};
use txindurbe_archive::{Entry, Held, Kind};

/// The filing that something came by.
#[derive(Clone, Copy, PartialEq, Eq, Debug)]
pub struct Filed {
    pub point: u64,
    /// Seconds since 1970, UTC.
    pub came: i64,
}

/// A certificate about a row, and the links from the list asked for to the list that it is about.
#[derive(Clone, PartialEq, Eq, Debug)]
pub struct Found {
    pub way: Vec<Link>,
    pub certificate: Certificate,
}

/// All that is held at a point of the list.
pub struct Evidence<'a> {
    store: &'a Store,
    links: &'a Links,
    minute: Minute,
    filed: HashMap<(Kind, Vec<u32>), Filed>,
    refused: Vec<(Certificate, Filed, Refusal)>,
}

impl<'a> Evidence<'a> {
    /// The entries are those up to the point that is held.
    pub fn new(held: &'a Held, minute: Minute, entries: Vec<Entry>) -> Evidence<'a> {
        let (mut filed, mut refused) = (HashMap::new(), Vec::new());
        for Entry { point, came, kind, words, reply } in entries {
            let filing = Filed { point, came };
            match reply {
                Ok(Filing::Filed) => drop(filed.insert((kind, words), filing)),
                Ok(Filing::Held) => {}
                Err(refusal) => {
                    refused.extend(Certificate::from_words(&words).filter(|_| kind == Kind::Certificate).map(|said| (said, filing, refusal)))
                }
            }
        }
        Evidence { store: &held.store, links: &held.links, minute, filed, refused }
    }

    /// The filing by which a certificate or a link was accepted.
    pub fn filing(&self, kind: Kind, words: &[u32]) -> Option<Filed> {
        self.filed.get(&(kind, words.to_vec())).copied()
    }

    /// The certificates about a row that count for a list while they hold, whether they do or not; those at the end of fewer links first.
    pub fn about(&self, list: Name, row: &Row) -> Vec<Found> {
        let found = |(name, way): (Name, Vec<Link>)| {
            let certificates = self.certificates_of(name).filter(|certificate| certificate.row == *row);
            certificates.map(move |certificate| Found { way: way.clone(), certificate })
        };
        self.reached(list).into_iter().flat_map(found).collect()
    }

    /// The rows certified of a list at the minute, its own and those that links bring.
    pub fn rows(&self, list: Name) -> BTreeSet<Row> {
        let certificates = self.reached(list).into_iter().flat_map(|(name, _)| self.certificates_of(name));
        certificates.filter(|certificate| certificate.validity.holds_at(self.minute)).map(|certificate| certificate.row).collect()
    }

    /// Certificates of this list itself that were refused.
    pub fn refused(&self, list: Name, row: &Row) -> impl Iterator<Item = (Filed, Refusal)> + '_ {
        let row = *row;
        let about = move |said: &Certificate| (said.key, said.name, said.polarity, said.row) == (list.key, list.number, list.polarity, row);
        self.refused.iter().filter(move |(said, ..)| about(said)).map(|(_, filed, refusal)| (*filed, *refusal))
    }

    /// The lists that links lead to, with the links on the way; first the list itself, then the nearer ones.
    pub fn reached(&self, list: Name) -> Vec<(Name, Vec<Link>)> {
        let (mut reached, mut known, mut next) = (Vec::new(), HashSet::from([list]), VecDeque::from([(list, Vec::new())]));
        while let Some((name, way)) = next.pop_front() {
            for link in self.links.iter().filter(|link| link.list() == name) {
                if known.insert(link.other_list()) {
                    next.push_back((link.other_list(), [&way[..], &[link]].concat()));
                }
            }
            reached.push((name, way));
        }
        reached
    }

    fn certificates_of(&self, name: Name) -> impl Iterator<Item = Certificate> + '_ {
        let certificates = self.store.certificates_of(name.key, name.number, name.polarity);
        certificates.map(move |(row, validity)| Certificate { key: name.key, name: name.number, polarity: name.polarity, row, validity })
    }
}

#[cfg(test)]
mod tests {
    use super::*;
    use txindurbe::{Key, Polarity, Validity};

    fn name(key: u32, number: u16) -> Name {
        Name { key: Key::new(key), number, polarity: Polarity::Plus }
    }

    fn certificate(key: u32, number: u16, row: u32, first: u32, end: u32) -> Certificate {
        Certificate::listed(Key::new(key), number, [row], Validity { first: Minute::new(first), end: Minute::new(end) })
    }

    fn link(key: u32, number: u16, other_key: u32, other_number: u16) -> Link {
        Link::containing(Key::new(key), number, Key::new(other_key), other_number)
    }

    /// Filed one after the other, a minute between them.
    fn filed(filings: &[(Kind, Vec<u32>)]) -> (Held, Vec<Entry>) {
        let mut held = Held { point: 0, digest: [0; 32], store: Store::new(), links: Links::new() };
        let mut entries = Vec::new();
        for (point, (kind, words)) in (1..).zip(filings) {
            let reply = match kind {
                Kind::Certificate => held.store.file_words(words),
                Kind::Link => held.links.file_words(words),
            };
            entries.push(Entry { point, came: 60 * point as i64, kind: *kind, words: words.clone(), reply });
        }
        (held, entries)
    }

    fn said(certificate: Certificate) -> (Kind, Vec<u32>) {
        (Kind::Certificate, certificate.words().to_vec())
    }

    fn linked(link: Link) -> (Kind, Vec<u32>) {
        (Kind::Link, link.words().to_vec())
    }

    #[test]
    fn links_lead_to_lists_by_the_shortest_way_and_once() {
        // 1 to 2 to 3 and back to 1; 1 to 3 as well; 4 to 1 is not followed from 1.
        let links = [link(1, 1, 2, 1), link(2, 1, 3, 7), link(3, 7, 1, 1), link(1, 1, 3, 7), link(4, 1, 1, 1)];
        let (held, entries) = filed(&links.map(linked));
        let evidence = Evidence::new(&held, Minute::new(5), entries);
        assert_eq!(evidence.reached(name(1, 1)), [(name(1, 1), vec![]), (name(2, 1), vec![links[0]]), (name(3, 7), vec![links[3]])]);
        assert_eq!(evidence.reached(name(2, 1)), [(name(2, 1), vec![]), (name(3, 7), vec![links[1]]), (name(1, 1), vec![links[1], links[2]])]);
        assert_eq!(evidence.reached(name(1, 2)), [(name(1, 2), vec![])]);
    }

    #[test]
    fn certificates_are_found_with_their_filings() {
        let own = certificate(1, 1, 7, 10, 20);
        let other = certificate(2, 1, 7, 0, 10);
        let way = link(1, 1, 2, 1);
        let (held, entries) =
            filed(&[said(other), said(own), linked(way), said(own), said(certificate(1, 1, 8, 9, 9)), said(certificate(2, 1, 9, 5, 6))]);
        let evidence = Evidence::new(&held, Minute::new(5), entries);
        assert_eq!(
            evidence.about(name(1, 1), &Row::from([7])),
            [Found { way: vec![], certificate: own }, Found { way: vec![way], certificate: other }]
        );
        assert_eq!(evidence.filing(Kind::Certificate, &own.words()), Some(Filed { point: 2, came: 120 }));
        assert_eq!(evidence.filing(Kind::Link, &way.words()), Some(Filed { point: 3, came: 180 }));
        assert_eq!(evidence.filing(Kind::Link, &own.words()), None);
        // At minute 5 only the other list's certificates hold.
        assert_eq!(evidence.rows(name(1, 1)), BTreeSet::from([Row::from([7]), Row::from([9])]));
        assert_eq!(evidence.refused(name(1, 1), &Row::from([8])).collect::<Vec<_>>(), [(Filed { point: 5, came: 300 }, Refusal::BadTerm)]);
        assert_eq!(evidence.refused(name(1, 1), &Row::from([7])).count(), 0);
    }
}
