//! The documents' sizes. Whoever needs one takes it from here.
//!
//! ```
//! use txindurbe::{sizes, Links, Store};
//!
//! assert_eq!(Store::new().words().len(), sizes::STORE_WORDS);
//! assert_eq!(Links::new().words().len(), sizes::LINKS_WORDS);
//! assert_eq!(sizes::STORE_WORDS, 1 + sizes::MOST_CERTIFICATES * sizes::CERTIFICATE_WORDS);
//! ```

/// The most atoms of a row.
pub const MOST_WIDTH: usize = 4;
/// A row in words: its width, then four atoms, unused ones 0.
pub const ROW_WORDS: usize = 1 + MOST_WIDTH;
/// The most rows that a set lists.
pub const MOST_ROWS: usize = 128;
/// A set in words: its form, its count, then the rows that it lists.
pub const SET_WORDS: usize = 2 + ROW_WORDS * MOST_ROWS;

/// A certificate in words: key, name, polarity, then the row, then first and end minute.
pub const CERTIFICATE_WORDS: usize = 3 + ROW_WORDS + 2;
/// The most certificates that a store holds.
pub const MOST_CERTIFICATES: usize = 1_600;
/// A store in words: its count, then the certificates.
pub const STORE_WORDS: usize = 1 + CERTIFICATE_WORDS * MOST_CERTIFICATES;

/// A link in words: key, name, polarity of both lists, other key, other name.
pub const LINK_WORDS: usize = 5;
/// The most links that a link store holds.
pub const MOST_LINKS: usize = 256;
/// A link store in words: its count, then the links.
pub const LINKS_WORDS: usize = 1 + LINK_WORDS * MOST_LINKS;

/// The most definitions of a policy.
pub const MOST_DEFINITIONS: usize = 16;
/// The most words of a policy: an area of so many takes every rewritten one.
pub const POLICY_WORDS: usize = 8_192;

/// The area that a query's answer is written to.
pub const ANSWER_WORDS: usize = SET_WORDS;
/// The area that a query builds the definitions' sets in.
pub const DEFINITIONS_WORDS: usize = SET_WORDS * MOST_DEFINITIONS;
/// The area that a query builds all other sets in.
pub const SCRATCH_WORDS: usize = 16_384;

#[cfg(test)]
mod tests {
    use super::*;

    #[test]
    fn the_header_has_the_same() {
        let header = include_str!("../../../include/txindurbe.h");
        let sizes = [
            ("POLICY", POLICY_WORDS),
            ("STORE", STORE_WORDS),
            ("CERTIFICATE", CERTIFICATE_WORDS),
            ("LINKS", LINKS_WORDS),
            ("LINK", LINK_WORDS),
            ("ANSWER", ANSWER_WORDS),
            ("DEFINITIONS", DEFINITIONS_WORDS),
            ("SCRATCH", SCRATCH_WORDS),
        ];
        for (name, size) in sizes {
            let written = format!("TXB_{name}_WORDS = {size}");
            assert!(header.split([',', '\n']).any(|entry| entry.trim() == written), "{written}");
        }
    }
}
