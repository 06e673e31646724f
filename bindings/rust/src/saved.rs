//! Stores of both kinds as bytes: a header that says which kind it is and how many words follow, then the words, each the lowest byte first.

use crate::Refusal;
use std::cmp::Ordering;
use std::fmt;
use std::io::{self, Read, Write};

/// Why a store or a link store was not loaded.
///
/// ```
/// use txindurbe::{Links, LoadError, Store};
///
/// let mut saved = Vec::new();
/// Store::new().save(&mut saved)?;
/// assert!(matches!(Store::load(&saved[..100]), Err(LoadError::CutShort)));
/// assert_eq!(Links::load(&saved[..]).unwrap_err().to_string(), "it is something else: it does not begin with the line \"txindurbe links\"");
///
/// // A count of 2,000 certificates: more than a store can hold.
/// saved[20..24].copy_from_slice(&2_000_u32.to_le_bytes());
/// assert_eq!(Store::load(&saved[..]).unwrap_err().to_string(), "its words are damaged: refusal 8: the store is too short or unsound");
/// # Ok::<(), std::io::Error>(())
/// ```
#[derive(Debug)]
pub enum LoadError {
    /// Reading failed.
    Reading(io::Error),
    /// It does not begin with this line, as it would if it were saved as what is loaded.
    OtherKind(&'static str),
    /// It ends before the last of the words that its header announces.
    CutShort,
    /// Something follows the last word.
    LeftOver,
    /// The engine refuses the words, as [`BadStore`](Refusal::BadStore) or [`BadLink`](Refusal::BadLink).
    Unsound(Refusal),
}

impl fmt::Display for LoadError {
    fn fmt(&self, out: &mut fmt::Formatter) -> fmt::Result {
        match self {
            LoadError::Reading(error) => write!(out, "it cannot be read: {error}"),
            LoadError::OtherKind(kind) => write!(out, "it is something else: it does not begin with the line \"{kind}\""),
            LoadError::CutShort => out.write_str("it is cut short: it ends before the last word that its header announces"),
            LoadError::LeftOver => out.write_str("it goes on behind the last word that its header announces"),
            LoadError::Unsound(refusal) => write!(out, "its words are damaged: {refusal}"),
        }
    }
}

impl std::error::Error for LoadError {
    fn source(&self) -> Option<&(dyn std::error::Error + 'static)> {
        match self {
            LoadError::Reading(error) => Some(error),
            LoadError::Unsound(refusal) => Some(refusal),
            _ => None,
        }
    }
}

impl From<io::Error> for LoadError {
    fn from(error: io::Error) -> LoadError {
        LoadError::Reading(error)
    }
}

/// The header is the kind, a line of text, and the count of words.
pub(crate) fn save(kind: &'static str, words: &[u32], mut out: impl Write) -> io::Result<()> {
    let count = u32::try_from(words.len()).map_err(|_| io::Error::other("more words than a header can announce"))?;
    writeln!(out, "{kind}")?;
    let words = [count].into_iter().chain(words.iter().copied());
    out.write_all(&words.flat_map(u32::to_le_bytes).collect::<Vec<u8>>())?;
    out.flush()
}

pub(crate) fn load(kind: &'static str, mut from: impl Read) -> Result<Vec<u32>, LoadError> {
    let line = format!("{kind}\n");
    let start = bytes(&mut from, line.len() as u64)?;
    if !line.as_bytes().starts_with(&start) {
        return Err(LoadError::OtherKind(kind));
    }
    let [count] = words(&bytes(&mut from, 4)?)[..] else { return Err(LoadError::CutShort) };
    let length = 4 * u64::from(count);
    let body = bytes(&mut from, length + 1)?;
    match (body.len() as u64).cmp(&length) {
        Ordering::Less => Err(LoadError::CutShort),
        Ordering::Equal => Ok(words(&body)),
        Ordering::Greater => Err(LoadError::LeftOver),
    }
}

/// So many, or as many as there are.
fn bytes(from: &mut impl Read, count: u64) -> io::Result<Vec<u8>> {
    let mut bytes = Vec::new();
    from.take(count).read_to_end(&mut bytes)?;
    Ok(bytes)
}

fn words(bytes: &[u8]) -> Vec<u32> {
    bytes.as_chunks().0.iter().map(|&word| u32::from_le_bytes(word)).collect()
}
