//! The engine's stores at a point of the list.

use crate::entry::{first_digest, Digest, Entry, Kind};
use txindurbe::{Filing, Links, Refusal, Store};

/// What is held at a point of the list of filings.
#[derive(Clone, Debug)]
pub struct Held {
    /// How many filings lie before it.
    pub point: u64,
    /// Of the whole list up to here.
    pub digest: Digest,
    /// The certificates that were accepted.
    pub store: Store,
    /// The links that were accepted.
    pub links: Links,
}

impl Held {
    /// At point 0, before the first filing.
    pub(crate) fn before_all(id: &str) -> Held {
        Held { point: 0, digest: first_digest(id), store: Store::new(), links: Links::new() }
    }

    /// Files what is new. The entry is the next one of the list.
    pub(crate) fn file(&mut self, kind: Kind, words: &[u32], came: i64) -> Entry {
        let reply = self.reply(kind, words);
        let entry = Entry { point: self.point + 1, came, kind, words: words.to_vec(), reply };
        (self.point, self.digest) = (entry.point, entry.digest(&self.digest));
        entry
    }

    /// Takes in the next entry of a list that was filed before, with the digest that stands there; or says what is wrong with it.
    ///
    /// What was Held or refused then left the stores as they were, and is not filed again.
    pub(crate) fn take_in(&mut self, entry: &Entry, digest: &Digest) -> Result<(), String> {
        follows(self.point, &self.digest, entry, digest)?;
        if entry.reply == Ok(Filing::Filed) {
            match self.reply(entry.kind, &entry.words) {
                Ok(Filing::Filed) => {}
                Ok(Filing::Held) => return Err("it stands there as Filed, and was held already".into()),
                Err(refusal) => return Err(format!("it stands there as Filed, and the engine says: {refusal}")),
            }
        }
        (self.point, self.digest) = (entry.point, *digest);
        Ok(())
    }

    fn reply(&mut self, kind: Kind, words: &[u32]) -> Result<Filing, Refusal> {
        match kind {
            Kind::Certificate => self.store.file_words(words),
            Kind::Link => self.links.file_words(words),
        }
    }
}

/// Whether an entry is the one right after a point with this digest; or what is wrong with it.
pub(crate) fn follows(point: u64, before: &Digest, entry: &Entry, digest: &Digest) -> Result<(), String> {
    if entry.point != point + 1 {
        return Err(format!("it is missing, and filing {} comes next", entry.point));
    }
    if entry.digest(before) != *digest {
        return Err("its digest is not that of the list up to it".into());
    }
    Ok(())
}
