//! One filing of the list, and how it is kept in the file.

use rusqlite::Row;
use sha2::{Digest as _, Sha256};
use txindurbe::{Filing, Refusal};

/// SHA-256 over a list of filings: the archive's id at its beginning, then each filing over the digest before it.
pub type Digest = [u8; 32];

/// What is filed.
#[derive(Clone, Copy, PartialEq, Eq, Hash, Debug)]
pub enum Kind {
    Certificate,
    Link,
}

impl Kind {
    pub(crate) fn number(self) -> u32 {
        match self {
            Kind::Certificate => 0,
            Kind::Link => 1,
        }
    }

    fn from_number(number: i64) -> Option<Kind> {
        [Kind::Certificate, Kind::Link].into_iter().find(|kind| i64::from(kind.number()) == number)
    }
}

/// A filing and what came of it.
#[derive(Clone, PartialEq, Eq, Debug)]
pub struct Entry {
    /// The point of the list that lies after this filing: 1 for the first.
    pub point: u64,
    /// Seconds since 1970, UTC.
    pub came: i64,
    pub kind: Kind,
    /// As they were filed, whatever they are.
    pub words: Vec<u32>,
    pub reply: Result<Filing, Refusal>,
}

impl Entry {
    /// The digest of the list that ends with this filing.
    pub(crate) fn digest(&self, before: &Digest) -> Digest {
        let list = Sha256::new().chain_update(before).chain_update(self.came.to_le_bytes());
        let list = list.chain_update(self.kind.number().to_le_bytes()).chain_update(reply_number(&self.reply).to_le_bytes());
        list.chain_update(bytes(&self.words)).finalize().into()
    }

    /// From the columns of [`schema::READ`](crate::schema::READ), with the digest that stands there; or what is wrong with them.
    pub(crate) fn read(row: &Row) -> Result<(Entry, Digest), String> {
        let point = u64::try_from(number(row, 0)?).map_err(|_| "its number is below 0")?;
        let kind = Kind::from_number(number(row, 2)?).ok_or("it is neither a certificate nor a link")?;
        let words = words(blob(row, 3)?).ok_or("its words are cut short")?;
        let reply = reply(kind, number(row, 4)?).ok_or("its reply is none that such a filing can have")?;
        let digest = blob(row, 5)?.try_into().map_err(|_| "its digest does not have 32 bytes")?;
        Ok((Entry { point, came: number(row, 1)?, kind, words, reply }, digest))
    }
}

fn number(row: &Row, column: usize) -> Result<i64, String> {
    row.get(column).map_err(|error| error.to_string())
}

fn blob<'row>(row: &'row Row, column: usize) -> Result<&'row [u8], String> {
    let value = row.get_ref(column).map_err(|error| error.to_string())?;
    value.as_blob().map_err(|error| error.to_string())
}

/// What a list starts from, before its first filing.
pub(crate) fn first_digest(id: &str) -> Digest {
    Sha256::digest(id).into()
}

/// Words as they are kept, the lowest byte first.
pub(crate) fn bytes(words: &[u32]) -> Vec<u8> {
    words.iter().flat_map(|word| word.to_le_bytes()).collect()
}

fn words(bytes: &[u8]) -> Option<Vec<u32>> {
    let (words, rest) = bytes.as_chunks();
    rest.is_empty().then(|| words.iter().map(|word| u32::from_le_bytes(*word)).collect())
}

/// 0 Filed, 1 Held, else the refusal's number: what the engine itself replies.
pub(crate) fn reply_number(reply: &Result<Filing, Refusal>) -> u32 {
    match reply {
        Ok(Filing::Filed) => 0,
        Ok(Filing::Held) => 1,
        Err(refusal) => refusal.number(),
    }
}

/// Back again, of those that the engine gives to such a filing into a sound store.
fn reply(kind: Kind, number: i64) -> Option<Result<Filing, Refusal>> {
    let refusals: &[Refusal] = match kind {
        Kind::Certificate => &[Refusal::BadCertificate, Refusal::StoreFull, Refusal::BadTerm],
        Kind::Link => &[Refusal::BadLink, Refusal::LinksFull],
    };
    let refused = refusals.iter().map(|refusal| Err(*refusal));
    [Ok(Filing::Filed), Ok(Filing::Held)].into_iter().chain(refused).find(|reply| i64::from(reply_number(reply)) == number)
}

#[cfg(test)]
mod tests {
    use super::*;

    #[test]
    fn words_come_back_from_their_bytes() {
        assert_eq!(bytes(&[1, 0x8000_0002]), [1, 0, 0, 0, 2, 0, 0, 0x80]);
        assert_eq!(words(&[1, 0, 0, 0, 2, 0, 0, 0x80]), Some(vec![1, 0x8000_0002]));
        assert_eq!(words(&[]), Some(vec![]));
        assert_eq!(words(&[1, 0, 0]), None);
        assert_eq!(words(&[1, 0, 0, 0, 2]), None);
    }

    #[test]
    fn replies_come_back_from_their_numbers() {
        let of = |kind, number| reply(kind, number).map(|reply| reply.map_err(|refusal| refusal.number()));
        assert_eq!(of(Kind::Certificate, 0), Some(Ok(Filing::Filed)));
        assert_eq!(of(Kind::Link, 1), Some(Ok(Filing::Held)));
        for number in [9, 10, 17] {
            assert_eq!(of(Kind::Certificate, number.into()), Some(Err(number)));
            assert_eq!(of(Kind::Link, number.into()), None);
        }
        for number in [18, 19] {
            assert_eq!(of(Kind::Link, number.into()), Some(Err(number)));
            assert_eq!(of(Kind::Certificate, number.into()), None);
        }
        for number in [-1, 2, 8, 11, 16, 20, 1 << 32] {
            assert_eq!(of(Kind::Certificate, number), None);
            assert_eq!(of(Kind::Link, number), None);
        }
    }

    /// Worked out byte by byte, with another program for SHA-256.
    #[test]
    fn digests_are_over_all_that_came_before() {
        let first = first_digest("a");
        assert_eq!(hexadecimal(&first), "ca978112ca1bbdcafac231b39a23dc4da786eff8147c4e72b9807785afee48bb");
        let entry = Entry { point: 1, came: 0x0102, kind: Kind::Link, words: vec![5, 0x8000_0000], reply: Err(Refusal::BadLink) };
        assert_eq!(hexadecimal(&entry.digest(&first)), "653e1007979dc759fe3ee68c9b2489ef70b8bca0be43818ba40276792f11d34d");
    }

    fn hexadecimal(digest: &Digest) -> String {
        digest.iter().map(|byte| format!("{byte:02x}")).collect()
    }
}
