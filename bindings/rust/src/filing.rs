use crate::calls::{self, Lent};
use crate::sizes::{LINKS_WORDS, STORE_WORDS};
use crate::{Key, Refusal};

/// What comes of filing a certificate into a [`Store`](crate::Store) or a link into a link store, [`Links`](crate::Links).
///
/// ```
/// use txindurbe::{Filing, Key, Link, Links};
///
/// let link = Link::containing(Key::new(1), 1, Key::new(2), 1);
/// let mut links = Links::new();
/// assert_eq!(links.file(&link), Ok(Filing::Filed));
/// assert_eq!(links.file(&link), Ok(Filing::Held));
/// ```
#[derive(Clone, Copy, PartialEq, Eq, Hash, Debug)]
pub enum Filing {
    /// It is new and now there.
    Filed,
    /// It was there already, a certificate with the same term.
    Held,
}

impl Filing {
    /// Of a number that the library gave.
    pub(crate) fn from_number(number: u32) -> Result<Filing, Refusal> {
        match number {
            0 => Ok(Filing::Filed),
            1 => Ok(Filing::Held),
            number => Err(Refusal::without_part(number)),
        }
    }
}

/// What the engine has against the words of a store.
pub(crate) fn against_store(words: &[u32]) -> Option<Refusal> {
    against(words, &[0; LINKS_WORDS])
}

/// What it has against the words of a link store.
pub(crate) fn against_links(words: &[u32]) -> Option<Refusal> {
    against(&[0; STORE_WORDS], words)
}

/// A query that is lent nothing is refused as `ShortArea`, but only after the engine has looked at both stores.
fn against(store: &[u32], links: &[u32]) -> Option<Refusal> {
    let lent = Lent { answer: &mut [], definitions: &mut [], scratch: &mut [] };
    let reply = calls::query(&[1, 0], &[1, 0], Key::new(0).word(), 0, store, links, lent);
    match Refusal::of_reply(reply.number, reply.part) {
        Refusal::ShortArea => None,
        refusal => Some(refusal),
    }
}

/// What stores of both kinds have: each starts empty, tells what it holds, and can be kept and saved. The example files one record as `held`.
macro_rules! kept_words {
    ($store:ident of $record:ident: $words:ident, $record_words:ident, $kind:literal, $against:ident, $example:literal) => {
        impl $store {
            /// An empty one.
            ///
            /// ```
            #[doc = concat!("assert_eq!(txindurbe::", stringify!($store), "::new().len(), 0);")]
            /// ```
            pub fn new() -> $store {
                $store { words: vec![0; $words], sound: true }
            }

            /// With what the engine has against the words.
            fn judged(words: Vec<u32>) -> ($store, Option<Refusal>) {
                let refusal = $against(&words);
                ($store { words, sound: refusal.is_none() }, refusal)
            }

            /// To be kept.
            ///
            /// ```
            #[doc = $example]
            ///
            /// // The count, then each in its words.
            /// assert_eq!(store.words()[0], 1);
            /// assert_eq!(store.words()[1..][..held.words().len()], held.words());
            /// # Ok::<(), txindurbe::Refusal>(())
            /// ```
            pub fn words(&self) -> &[u32] {
                &self.words
            }

            /// Whether the engine takes its words. Only those that came from elsewhere may be unsound.
            ///
            /// ```
            #[doc = concat!("use txindurbe::", stringify!($store), ";")]
            ///
            #[doc = concat!("assert!(", stringify!($store), "::new().is_sound());")]
            #[doc = concat!("assert!(!", stringify!($store), "::from_words(vec![]).is_sound());")]
            /// ```
            pub fn is_sound(&self) -> bool {
                self.sound
            }

            /// How many it holds; 0 if it is unsound.
            ///
            /// ```
            #[doc = $example]
            ///
            /// assert_eq!(store.len(), 1);
            /// # Ok::<(), txindurbe::Refusal>(())
            /// ```
            pub fn len(&self) -> usize {
                self.records().len()
            }

            /// Whether it holds none.
            ///
            /// ```
            #[doc = $example]
            ///
            /// assert!(!store.is_empty());
            /// # Ok::<(), txindurbe::Refusal>(())
            /// ```
            pub fn is_empty(&self) -> bool {
                self.records().is_empty()
            }

            /// Those that it holds, in ascending order; none if it is unsound.
            ///
            /// ```
            #[doc = $example]
            ///
            /// assert_eq!(store.iter().collect::<Vec<_>>(), [held]);
            /// # Ok::<(), txindurbe::Refusal>(())
            /// ```
            pub fn iter(&self) -> impl ExactSizeIterator<Item = $record> + '_ {
                self.records().iter().map($store::record)
            }

            /// Each name that they are about, in ascending order, and how many are; none if it is unsound.
            ///
            /// ```
            #[doc = $example]
            ///
            /// assert_eq!(store.names().collect::<Vec<_>>(), [(held.list(), 1)]);
            /// # Ok::<(), txindurbe::Refusal>(())
            /// ```
            pub fn names(&self) -> impl Iterator<Item = (Name, usize)> + '_ {
                let of_one_name = self.records().chunk_by(|one, next| one[..3] == next[..3]);
                of_one_name.map(|records| ($store::record(&records[0]).list(), records.len()))
            }

            fn records(&self) -> &[[u32; $record_words]] {
                match &self.words[..] {
                    [count, words @ ..] if self.sound => &words.as_chunks().0[..*count as usize],
                    _ => &[],
                }
            }

            fn record(words: &[u32; $record_words]) -> $record {
                $record::from_words(words).expect("what a sound store holds is sound")
            }

            /// Writes its words behind a header that says what they are and how many: what [`load`](Self::load) reads.
            ///
            /// ```
            #[doc = $example]
            ///
            /// let mut saved = Vec::new();
            /// store.save(&mut saved)?;
            #[doc = concat!("assert_eq!(", stringify!($store), "::load(&saved[..])?, store);")]
            /// # Ok::<(), Box<dyn std::error::Error>>(())
            /// ```
            pub fn save(&self, out: impl std::io::Write) -> std::io::Result<()> {
                saved::save($kind, &self.words, out)
            }

            /// Reads what was saved, to its end. What is cut short, goes on or is unsound is refused.
            ///
            /// ```
            #[doc = $example]
            ///
            /// let mut saved = Vec::new();
            /// store.save(&mut saved)?;
            #[doc = concat!("let cut_short = ", stringify!($store), "::load(&saved[..saved.len() - 1]);")]
            /// assert!(matches!(cut_short, Err(txindurbe::LoadError::CutShort)));
            /// # Ok::<(), Box<dyn std::error::Error>>(())
            /// ```
            pub fn load(from: impl std::io::Read) -> Result<$store, LoadError> {
                match $store::judged(saved::load($kind, from)?) {
                    (store, None) => Ok(store),
                    (_, Some(refusal)) => Err(LoadError::Unsound(refusal)),
                }
            }
        }

        impl Default for $store {
            fn default() -> $store {
                $store::new()
            }
        }
    };
}

pub(crate) use kept_words;
