use crate::filing::{against_store, kept_words};
use crate::sizes::{CERTIFICATE_WORDS, STORE_WORDS};
use crate::{calls, saved, Atom, Filing, Key, LoadError, Minute, Name, Polarity, Refusal, Row, Validity};

/// What an observatory says of one row and one of its lists, for a term of validity. Its signature has been checked before: the engine takes what is filed as
/// said by that key. Certificates are in order as in a store.
///
/// ```
/// use txindurbe::{Certificate, Date, Key, Validity};
///
/// let semester = Validity::from_dates(Date::day(2027, 1, 1), Date::day(2027, 7, 1))?;
/// let released = Certificate::listed(Key::new(1), 1, [7], semester);
/// let not_withdrawn = Certificate::not_listed(Key::new(1), 2, [7], semester);
/// assert!(released < not_withdrawn);
/// # Ok::<(), txindurbe::Refusal>(())
/// ```
#[derive(Clone, Copy, PartialEq, Eq, PartialOrd, Ord, Hash, Debug)]
pub struct Certificate {
    /// Who says so.
    pub key: Key,
    /// The list's number.
    pub name: u16,
    /// Which of the two lists of that number; with + the row is in it, with − it is not.
    pub polarity: Polarity,
    /// What is said to be in the list or not.
    pub row: Row,
    /// When it holds.
    pub validity: Validity,
}

impl Certificate {
    /// The row is in the key's + list of this name.
    ///
    /// ```
    /// use txindurbe::{Certificate, Key, Minute, Polarity, Validity};
    ///
    /// let term = Validity { first: Minute::new(0), end: Minute::new(1) };
    /// assert_eq!(Certificate::listed(Key::new(1), 1, [7], term).polarity, Polarity::Plus);
    /// ```
    pub fn listed(key: Key, name: u16, row: impl Into<Row>, validity: Validity) -> Certificate {
        Certificate { key, name, polarity: Polarity::Plus, row: row.into(), validity }
    }

    /// The row is not in the key's − list of this name.
    ///
    /// ```
    /// use txindurbe::{Certificate, Key, Minute, Polarity, Validity};
    ///
    /// let term = Validity { first: Minute::new(0), end: Minute::new(1) };
    /// assert_eq!(Certificate::not_listed(Key::new(1), 2, [7], term).polarity, Polarity::Minus);
    /// ```
    pub fn not_listed(key: Key, name: u16, row: impl Into<Row>, validity: Validity) -> Certificate {
        Certificate { key, name, polarity: Polarity::Minus, row: row.into(), validity }
    }

    /// The list that it is about.
    ///
    /// ```
    /// use txindurbe::{Certificate, Key, Minute, Validity};
    ///
    /// let term = Validity { first: Minute::new(0), end: Minute::new(1) };
    /// assert_eq!(Certificate::listed(Key::new(1), 2, [7], term).list().to_string(), "k1.2+");
    /// ```
    pub fn list(&self) -> Name {
        Name { key: self.key, number: self.name, polarity: self.polarity }
    }

    /// As it is filed.
    ///
    /// ```
    /// use txindurbe::{Certificate, Key, Minute, Validity};
    ///
    /// let term = Validity { first: Minute::new(10), end: Minute::new(20) };
    /// let certificate = Certificate::not_listed(Key::new(1), 2, [7, 8], term);
    /// assert_eq!(certificate.words(), [Key::new(1).word(), 2, 1, 2, 7, 8, 0, 0, 10, 20]);
    /// ```
    pub fn words(&self) -> [u32; CERTIFICATE_WORDS] {
        let [width, a, b, c, d] = self.row.words();
        let Validity { first, end } = self.validity;
        [self.key.word(), self.name.into(), self.polarity as u32, width, a, b, c, d, first.number(), end.number()]
    }

    /// From words as it is filed; none from those that are refused as [`BadCertificate`](Refusal::BadCertificate).
    ///
    /// ```
    /// use txindurbe::{Certificate, Key, Minute, Validity};
    ///
    /// let term = Validity { first: Minute::new(0), end: Minute::new(1) };
    /// let certificate = Certificate::listed(Key::new(1), 1, [7], term);
    /// assert_eq!(Certificate::from_words(&certificate.words()), Some(certificate));
    /// assert_eq!(Certificate::from_words(&[7]), None);
    /// ```
    pub fn from_words(words: &[u32]) -> Option<Certificate> {
        let &[key, name, polarity, width, a, b, c, d, first, end] = words else { return None };
        Some(Certificate {
            key: Atom::from(key).key()?,
            name: name.try_into().ok()?,
            polarity: Polarity::from_word(polarity)?,
            row: Row::from_words([width, a, b, c, d])?,
            validity: Validity { first: Minute::new(first), end: Minute::new(end) },
        })
    }
}

/// The certificates held, up to 1,600, whenever they hold. None is ever taken back.
///
/// ```
/// use txindurbe::{Certificate, Filing, Key, Minute, Store, Validity};
///
/// let term = Validity { first: Minute::new(0), end: Minute::new(1) };
/// let mut store = Store::new();
/// for number in [8, 7] {
///     assert_eq!(store.file(&Certificate::listed(Key::new(1), 1, [number], term)), Ok(Filing::Filed));
/// }
/// let rows: Vec<String> = store.iter().map(|certificate| certificate.row.to_string()).collect();
/// assert_eq!(rows, ["(7)", "(8)"]);
/// ```
#[derive(Clone, PartialEq, Eq, Debug)]
pub struct Store {
    words: Vec<u32>,
    /// Whether the engine takes the words. Filing leaves it so.
    sound: bool,
}

kept_words!(
    Store of Certificate: STORE_WORDS, CERTIFICATE_WORDS, "txindurbe store", against_store,
    "use txindurbe::{Certificate, Key, Minute, Store, Validity};

let held = Certificate::listed(Key::new(1), 1, [7], Validity { first: Minute::new(0), end: Minute::new(1) });
let mut store = Store::new();
store.file(&held)?;"
);

impl Store {
    /// From words kept earlier. Any words at all: an unsound store is refused with 8 when it is used. A store kept by a version before 0.5 has certificates
    /// without a term and is not to be used as it is: every eight words behind its count are for [`file_words`](Store::file_words) into a new store, with a
    /// first and an end minute behind them.
    ///
    /// ```
    /// use txindurbe::{Refusal, Store};
    ///
    /// let kept = Store::new().words().to_vec();
    /// assert_eq!(Store::from_words(kept), Store::new());
    /// assert_eq!(Store::from_words(vec![]).file_words(&[]), Err(Refusal::BadStore));
    /// ```
    pub fn from_words(words: Vec<u32>) -> Store {
        Store::judged(words).0
    }

    /// Files a certificate.
    ///
    /// ```
    /// use txindurbe::{Certificate, Filing, Key, Minute, Store, Validity};
    ///
    /// let term = Validity { first: Minute::new(0), end: Minute::new(1) };
    /// assert_eq!(Store::new().file(&Certificate::listed(Key::new(1), 1, [7], term)), Ok(Filing::Filed));
    /// ```
    pub fn file(&mut self, certificate: &Certificate) -> Result<Filing, Refusal> {
        self.file_words(&certificate.words())
    }

    /// Files words as they arrived.
    ///
    /// ```
    /// use txindurbe::{Filing, Key, Refusal, Store};
    ///
    /// let mut store = Store::new();
    /// assert_eq!(store.file_words(&[Key::new(1).word(), 1, 0, 1, 7, 0, 0, 0, 0, 1]), Ok(Filing::Filed));
    /// assert_eq!(store.file_words(&[5, 1, 0, 1, 7, 0, 0, 0, 0, 1]), Err(Refusal::BadCertificate));
    /// ```
    pub fn file_words(&mut self, certificate: &[u32]) -> Result<Filing, Refusal> {
        Filing::from_number(calls::file(&mut self.words, certificate))
    }

    /// The rows certified of one name itself, without links, each with its term, in ascending order; none if the store is unsound. A row comes once for each of
    /// its terms, also for those that have not begun or are over.
    ///
    /// ```
    /// use txindurbe::{Certificate, Key, Minute, Polarity, Row, Store, Validity};
    ///
    /// let term = Validity { first: Minute::new(0), end: Minute::new(1) };
    /// let mut store = Store::new();
    /// store.file(&Certificate::listed(Key::new(1), 1, [7], term))?;
    /// store.file(&Certificate::not_listed(Key::new(1), 1, [8], term))?;
    /// assert_eq!(store.certificates_of(Key::new(1), 1, Polarity::Plus).collect::<Vec<_>>(), [(Row::from([7]), term)]);
    /// # Ok::<(), txindurbe::Refusal>(())
    /// ```
    pub fn certificates_of(&self, key: Key, name: u16, polarity: Polarity) -> impl Iterator<Item = (Row, Validity)> + '_ {
        let words = calls::certificates_of(&self.words, key.word(), name.into(), polarity as u32);
        let certificates = self.words[words].as_chunks().0.iter().map(Store::record);
        certificates.map(|certificate| (certificate.row, certificate.validity))
    }
}
