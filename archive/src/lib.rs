//! The archive: one SQLite file that is the list of filings itself, in order, refused ones too, each with when it came, its words and the reply. The engine's
//! stores are built from it, as they were at any point of the list.
//!
//! - What [`Archive::file`] returns is durable: written through to the disk before anybody hears of it. A batch is filed whole or, with an error, not at all.
//! - The list only grows. Each filing carries a digest over all that came before it, so that a list that was changed is noticed, and never read as another one.
//! - Several processes may file at once: each reply is by what was accepted before it, whoever filed that.
//! - Reading changes nothing, and needs no leave to write, but for one case: what a killed process left half written is undone by the next one that opens the
//!   archive, and that one must be allowed to write.
//! - The file is copied whole while nobody files; a copy from the middle of a filing is noticed as damaged.
//!
//! ```
//! use txindurbe::{Certificate, Filing, Key, Minute, Row, Validity};
//! use txindurbe_archive::{Archive, Kind};
//!
//! # fn main() -> Result<(), txindurbe_archive::ArchiveError> {
//! # let path = std::env::temp_dir().join(format!("txindurbe-{}.archive", std::process::id()));
//! let mut archive = Archive::create(&path, None)?;
//! let term = Validity { first: Minute::new(0), end: Minute::new(60) };
//! let released = Certificate::listed(Key::new(1), 1, Row::from([7]), term).words().to_vec();
//!
//! let came = 1_800_000_000; // seconds since 1970
//! let entries = archive.file(&[(Kind::Certificate, released.clone()), (Kind::Certificate, released)], came)?;
//! assert_eq!(entries[0].reply, Ok(Filing::Filed));
//! assert_eq!(entries[1].reply, Ok(Filing::Held));
//!
//! let mut archive = Archive::open(&path)?;
//! assert_eq!(archive.held(Some(0))?.store.len(), 0);
//! assert_eq!(archive.held(None)?.store.len(), 1);
//! # std::fs::remove_file(path).unwrap();
//! # Ok(())
//! # }
//! ```

#![forbid(unsafe_code)]

mod archive;
mod entry;
mod error;
mod held;
mod schema;

pub use archive::Archive;
pub use entry::{Digest, Entry, Kind};
pub use error::ArchiveError;
pub use held::Held;
