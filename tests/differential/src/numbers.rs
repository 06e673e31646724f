//! The documents' numbers, written from the documents and not taken from the engine or its binding.

// ---- Rows, sets ----

/// Atoms from here up are keys, those below are numbers.
pub const FIRST_KEY: u32 = 2_147_483_648;
pub const MOST_WIDTH: u32 = 4;
/// Width and four atoms.
pub const ROW_WORDS: usize = 5;
/// No set lists more rows.
pub const MOST_ROWS: usize = 128;
/// The words that a set may take.
pub const SET_WORDS: usize = 642;

// ---- Store and filing ----

/// Key, name, polarity, width, four atoms, first minute, end minute.
pub const RECORD_WORDS: usize = 10;
pub const MOST_CERTIFICATES: usize = 1_600;
pub const STORE_WORDS: usize = 16_001;
pub const LAST_NAME: u32 = 65_535;

// ---- Links ----

/// Key, name, polarity, other key, other name.
pub const LINK_WORDS: usize = 5;
pub const MOST_LINKS: usize = 256;
pub const LINKS_WORDS: usize = 1_281;

// ---- Dates ----

pub const FIRST_YEAR: u32 = 2_000;
pub const LAST_YEAR: u32 = 2_099;

// ---- Policy words ----

pub const MOST_DEFINITIONS: u32 = 16;
pub const MOST_POLICY_WORDS: usize = 8_192;
pub const MOST_QUERY_WORDS: usize = 1_024;

/// The name, with −, that lists compromised keys in an external policy.
pub const COMPROMISED: u32 = 0;

// ---- Expressions ----

pub const MOST_GUARDS: u32 = 8;
pub const MOST_VARIABLES: usize = 16;
pub const DEEPEST: u32 = 15;
pub const MOST_DRAWS_WRITTEN: u32 = 8;
pub const MOST_DRAWS_MADE: u32 = 1_000_000;

// ---- Refusal table ----

pub const BAD_HEADER: u32 = 1;
pub const BAD_TABLE: u32 = 2;
pub const BAD_WORD: u32 = 3;
pub const NOT_IN_SCOPE: u32 = 4;
pub const TOO_DEEP: u32 = 5;
pub const NO_POLARITY: u32 = 6;
pub const OPEN_DRAW: u32 = 7;
pub const BAD_STORE: u32 = 8;
pub const BAD_CERTIFICATE: u32 = 9;
pub const STORE_FULL: u32 = 10;
pub const SHORT_AREA: u32 = 11;
pub const COMPLEMENT_DRAWN: u32 = 12;
pub const TOO_MANY_ROWS: u32 = 13;
pub const TOO_MANY_DRAWS: u32 = 14;
pub const NOT_EXTERNAL: u32 = 15;
pub const BAD_DATE: u32 = 16;
pub const BAD_TERM: u32 = 17;
pub const BAD_LINK: u32 = 18;
pub const LINKS_FULL: u32 = 19;
pub const NOT_A_KEY: u32 = 20;

/// The part that is the query, after 0 to 15, the definitions.
pub const QUERY_PART: u32 = 16;
/// Neither a definition nor the query.
pub const NO_PART: u32 = 17;

pub const DEFINITIONS_WORDS: usize = 10_272;
pub const SCRATCH_WORDS: usize = 16_384;

#[cfg(test)]
mod tests {
    use txindurbe::sizes;

    #[test]
    fn the_binding_has_the_same_sizes() {
        assert_eq!(sizes::MOST_WIDTH, super::MOST_WIDTH as usize);
        assert_eq!(sizes::ROW_WORDS, super::ROW_WORDS);
        assert_eq!(sizes::MOST_ROWS, super::MOST_ROWS);
        assert_eq!(sizes::SET_WORDS, super::SET_WORDS);
        assert_eq!(sizes::CERTIFICATE_WORDS, super::RECORD_WORDS);
        assert_eq!(sizes::MOST_CERTIFICATES, super::MOST_CERTIFICATES);
        assert_eq!(sizes::STORE_WORDS, super::STORE_WORDS);
        assert_eq!(sizes::LINK_WORDS, super::LINK_WORDS);
        assert_eq!(sizes::MOST_LINKS, super::MOST_LINKS);
        assert_eq!(sizes::LINKS_WORDS, super::LINKS_WORDS);
        assert_eq!(sizes::MOST_DEFINITIONS, super::MOST_DEFINITIONS as usize);
        assert_eq!(sizes::POLICY_WORDS, super::MOST_POLICY_WORDS);
        assert_eq!(sizes::ANSWER_WORDS, super::SET_WORDS);
        assert_eq!(sizes::DEFINITIONS_WORDS, super::DEFINITIONS_WORDS);
        assert_eq!(sizes::SCRATCH_WORDS, super::SCRATCH_WORDS);
    }
}
