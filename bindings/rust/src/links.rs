use crate::filing::{against_links, kept_words};
use crate::sizes::{LINKS_WORDS, LINK_WORDS};
use crate::{calls, saved, Atom, Filing, Key, LoadError, Name, Polarity, Refusal};

/// What an observatory says of one of its lists and of another list, both of the same polarity. Its signature has been checked before. Links are in order as in
/// a link store.
///
/// With + the first list contains the other, with − it is contained in the other. Either way, what is certified of the other list is so of the first one: + lists
/// gain rows by links, − lists lose them. So it goes on along any number of links, circles too. A link has no term: it holds at every minute.
///
/// [`vetted_list`](crate::Expression::vetted_list) vets the key of the list that it names, and none of those that links reach from it. An own name of a
/// [`Policy`](crate::Policy) has no links: those of our key's lists are followed from other lists, and from a variable that holds our key.
///
/// ```
/// use txindurbe::{Certificate, Engine, Expression, Key, Link, Links, Minute, Policy, Polarity, Store, Validity};
///
/// let (observatory, partner, released) = (Key::new(1), Key::new(2), 1);
/// let mut store = Store::new();
/// store.file(&Certificate::listed(partner, released, [8], Validity { first: Minute::new(0), end: Minute::new(1) }))?;
/// let mut links = Links::new();
/// links.file(&Link::containing(observatory, released, partner, released))?;
///
/// let policy = Policy::new(Key::new(9), &[])?;
/// let query = policy.query(&Expression::list(observatory, released, Polarity::Plus))?;
/// let answer = Engine::new().query(&policy, &query, Minute::new(0), &store, &links)?;
/// assert_eq!(answer.table().to_string(), "at least (8)");
/// # Ok::<(), Box<dyn std::error::Error>>(())
/// ```
#[derive(Clone, Copy, PartialEq, Eq, PartialOrd, Ord, Hash, Debug)]
pub struct Link {
    /// Who says so.
    pub key: Key,
    /// The number of its list.
    pub name: u16,
    /// That of both lists.
    pub polarity: Polarity,
    /// Whose the other list is.
    pub other_key: Key,
    /// The other list's number.
    pub other_name: u16,
}

impl Link {
    /// The key's + list of this name contains the other key's.
    ///
    /// ```
    /// use txindurbe::{Key, Link, Polarity};
    ///
    /// assert_eq!(Link::containing(Key::new(1), 1, Key::new(2), 1).polarity, Polarity::Plus);
    /// ```
    pub fn containing(key: Key, name: u16, other_key: Key, other_name: u16) -> Link {
        Link { key, name, polarity: Polarity::Plus, other_key, other_name }
    }

    /// The key's − list of this name is contained in the other key's.
    ///
    /// ```
    /// use txindurbe::{Key, Link, Polarity};
    ///
    /// assert_eq!(Link::contained(Key::new(1), 2, Key::new(2), 2).polarity, Polarity::Minus);
    /// ```
    pub fn contained(key: Key, name: u16, other_key: Key, other_name: u16) -> Link {
        Link { key, name, polarity: Polarity::Minus, other_key, other_name }
    }

    /// The first list.
    ///
    /// ```
    /// use txindurbe::{Key, Link};
    ///
    /// assert_eq!(Link::contained(Key::new(1), 2, Key::new(3), 4).list().to_string(), "k1.2-");
    /// ```
    pub fn list(&self) -> Name {
        Name { key: self.key, number: self.name, polarity: self.polarity }
    }

    /// The other list.
    ///
    /// ```
    /// use txindurbe::{Key, Link};
    ///
    /// assert_eq!(Link::contained(Key::new(1), 2, Key::new(3), 4).other_list().to_string(), "k3.4-");
    /// ```
    pub fn other_list(&self) -> Name {
        Name { key: self.other_key, number: self.other_name, polarity: self.polarity }
    }

    /// As it is filed.
    ///
    /// ```
    /// use txindurbe::{Key, Link};
    ///
    /// assert_eq!(Link::contained(Key::new(1), 2, Key::new(3), 4).words(), [Key::new(1).word(), 2, 1, Key::new(3).word(), 4]);
    /// ```
    pub fn words(&self) -> [u32; LINK_WORDS] {
        [self.key.word(), self.name.into(), self.polarity as u32, self.other_key.word(), self.other_name.into()]
    }

    /// From words as it is filed; none from those that are refused as [`BadLink`](Refusal::BadLink).
    ///
    /// ```
    /// use txindurbe::{Key, Link};
    ///
    /// let link = Link::contained(Key::new(1), 2, Key::new(3), 4);
    /// assert_eq!(Link::from_words(&link.words()), Some(link));
    /// assert_eq!(Link::from_words(&[7]), None);
    /// ```
    pub fn from_words(words: &[u32]) -> Option<Link> {
        let &[key, name, polarity, other_key, other_name] = words else { return None };
        Some(Link {
            key: Atom::from(key).key()?,
            name: name.try_into().ok()?,
            polarity: Polarity::from_word(polarity)?,
            other_key: Atom::from(other_key).key()?,
            other_name: other_name.try_into().ok()?,
        })
    }
}

/// A link store: the links held, up to 256. None is ever taken back.
///
/// ```
/// use txindurbe::{Filing, Key, Link, Links};
///
/// let mut links = Links::new();
/// for other in [3, 2] {
///     assert_eq!(links.file(&Link::containing(Key::new(1), 1, Key::new(other), 1)), Ok(Filing::Filed));
/// }
/// let others: Vec<String> = links.iter().map(|link| link.other_list().to_string()).collect();
/// assert_eq!(others, ["k2.1+", "k3.1+"]);
/// ```
#[derive(Clone, PartialEq, Eq, Debug)]
pub struct Links {
    words: Vec<u32>,
    /// Whether the engine takes the words. Filing leaves it so.
    sound: bool,
}

kept_words!(
    Links of Link: LINKS_WORDS, LINK_WORDS, "txindurbe links", against_links,
    "use txindurbe::{Key, Link, Links};

let held = Link::containing(Key::new(1), 1, Key::new(2), 1);
let mut store = Links::new();
store.file(&held)?;"
);

impl Links {
    /// From words kept earlier. Any words at all: an unsound link store is refused with 18 when it is used.
    ///
    /// ```
    /// use txindurbe::{Links, Refusal};
    ///
    /// let kept = Links::new().words().to_vec();
    /// assert_eq!(Links::from_words(kept), Links::new());
    /// assert_eq!(Links::from_words(vec![]).file_words(&[]), Err(Refusal::BadLink));
    /// ```
    pub fn from_words(words: Vec<u32>) -> Links {
        Links::judged(words).0
    }

    /// Files a link.
    ///
    /// ```
    /// use txindurbe::{Filing, Key, Link, Links};
    ///
    /// assert_eq!(Links::new().file(&Link::containing(Key::new(1), 1, Key::new(2), 1)), Ok(Filing::Filed));
    /// ```
    pub fn file(&mut self, link: &Link) -> Result<Filing, Refusal> {
        self.file_words(&link.words())
    }

    /// Files words as they arrived.
    ///
    /// ```
    /// use txindurbe::{Filing, Key, Links, Refusal};
    ///
    /// let mut links = Links::new();
    /// assert_eq!(links.file_words(&[Key::new(1).word(), 1, 0, Key::new(2).word(), 1]), Ok(Filing::Filed));
    /// assert_eq!(links.file_words(&[Key::new(1).word(), 1, 0, 5, 1]), Err(Refusal::BadLink));
    /// ```
    pub fn file_words(&mut self, link: &[u32]) -> Result<Filing, Refusal> {
        Filing::from_number(calls::file_link(&mut self.words, link))
    }
}
