//! What can be wrong with an archive, in words that say what it means for the filings.

use rusqlite::ffi::{self, ErrorCode};
use std::fmt;
use std::io;
use std::path::{Path, PathBuf};

/// Why an archive could not be made, read or filed into.
#[derive(Clone, PartialEq, Eq, Debug)]
#[non_exhaustive]
pub enum ArchiveError {
    /// There is no such file.
    NotThere { path: PathBuf },
    /// There is a file of this name, and a new archive is never made over one.
    AlreadyThere { path: PathBuf },
    /// Some other file.
    NotAnArchive { path: PathBuf, what: String },
    /// Its form is one that this version does not know.
    LaterVersion { path: PathBuf, form: i64 },
    /// It is not what was filed. Nothing was read from it as if it were, and nothing was changed.
    Damaged { path: PathBuf, point: Option<u64>, what: String },
    /// Nothing of the batch was filed.
    DiskFull { path: PathBuf },
    /// The system could not read or write.
    InputOutput { path: PathBuf, what: String },
    /// Another process holds it for long. Nothing of the batch was filed.
    Busy { path: PathBuf },
    /// The list does not reach so far.
    NoSuchPoint { path: PathBuf, asked: u64, last: u64 },
    /// It may not be written. Nothing of the batch was filed.
    ReadOnly { path: PathBuf, what: String },
    /// What was given as the id of a new archive.
    BadId { id: String },
    /// Anything else.
    Other { path: PathBuf, what: String },
}

impl ArchiveError {
    /// Of an error that SQLite gave over this file.
    pub(crate) fn of_sqlite(path: &Path, error: rusqlite::Error) -> ArchiveError {
        let path = path.to_path_buf();
        let what = error.to_string();
        // The archive's statements are right for every sound archive: where one fails by itself, or finds columns of other types, the file is not as it was.
        let Some(&ffi::Error { code, extended_code }) = error.sqlite_error() else { return ArchiveError::Damaged { path, point: None, what } };
        match code {
            ErrorCode::DatabaseCorrupt | ErrorCode::Unknown | ErrorCode::ConstraintViolation | ErrorCode::TypeMismatch => {
                ArchiveError::Damaged { path, point: None, what }
            }
            ErrorCode::NotADatabase => ArchiveError::NotAnArchive { path, what: "it does not begin as one does".into() },
            ErrorCode::DiskFull => ArchiveError::DiskFull { path },
            ErrorCode::SystemIoFailure => ArchiveError::InputOutput { path, what: failed(extended_code).into() },
            ErrorCode::DatabaseBusy | ErrorCode::DatabaseLocked | ErrorCode::FileLockingProtocolFailed => ArchiveError::Busy { path },
            ErrorCode::ReadOnly => ArchiveError::ReadOnly { path, what: not_allowed(extended_code).into() },
            ErrorCode::CannotOpen | ErrorCode::PermissionDenied => {
                ArchiveError::Other { path, what: format!("the system does not open it ({what})") }
            }
            _ => ArchiveError::Other { path, what },
        }
    }

    /// Of an error that the system gave when the file was made or looked at.
    pub(crate) fn of_system(path: &Path, error: io::Error) -> ArchiveError {
        let path = path.to_path_buf();
        match error.kind() {
            io::ErrorKind::NotFound => ArchiveError::NotThere { path },
            io::ErrorKind::AlreadyExists => ArchiveError::AlreadyThere { path },
            io::ErrorKind::StorageFull => ArchiveError::DiskFull { path },
            io::ErrorKind::ReadOnlyFilesystem | io::ErrorKind::PermissionDenied => ArchiveError::ReadOnly { path, what: error.to_string() },
            _ => ArchiveError::Other { path, what: error.to_string() },
        }
    }

    pub(crate) fn damaged(path: &Path, point: u64, what: impl Into<String>) -> ArchiveError {
        ArchiveError::Damaged { path: path.to_path_buf(), point: Some(point), what: what.into() }
    }
}

/// What failed, a sentence.
fn failed(extended_code: i32) -> &'static str {
    match extended_code {
        ffi::SQLITE_IOERR_READ | ffi::SQLITE_IOERR_SHORT_READ => "reading failed.",
        ffi::SQLITE_IOERR_WRITE => "writing failed; is the disk full, or the size of files limited?",
        ffi::SQLITE_IOERR_FSYNC | ffi::SQLITE_IOERR_DIR_FSYNC => "writing through to the disk failed.",
        ffi::SQLITE_IOERR_LOCK | ffi::SQLITE_IOERR_RDLOCK | ffi::SQLITE_IOERR_UNLOCK => "locking failed.",
        _ => "reading or writing failed.",
    }
}

/// Two of SQLite's extended codes, from its documents.
const READONLY_ROLLBACK: i32 = ffi::SQLITE_READONLY | (3 << 8);
const READONLY_DBMOVED: i32 = ffi::SQLITE_READONLY | (4 << 8);

fn not_allowed(extended_code: i32) -> &'static str {
    match extended_code {
        READONLY_ROLLBACK => "a filing was cut short and is to be undone first, which any command does where the file may be written",
        READONLY_DBMOVED => "it was moved or removed while it was in use",
        _ => "neither the file nor its folder must be closed to writing",
    }
}

/// What is so with every error that comes in the middle of filing.
const KEPT: &str = "What was acknowledged before is there";

impl fmt::Display for ArchiveError {
    fn fmt(&self, out: &mut fmt::Formatter) -> fmt::Result {
        match self {
            ArchiveError::NotThere { path } => write!(out, "{}: there is no such archive", path.display()),
            ArchiveError::AlreadyThere { path } => write!(out, "{}: there is a file of this name already, and it was not touched", path.display()),
            ArchiveError::NotAnArchive { path, what } => write!(out, "{}: not an archive of Txindurbe: {what}", path.display()),
            ArchiveError::LaterVersion { path, form } => {
                write!(out, "{}: made by a later version of Txindurbe, in form {form}, which this version does not know", path.display())
            }
            ArchiveError::Damaged { path, point, what } => {
                write!(out, "{}: the archive is damaged: ", path.display())?;
                if let Some(point) = point {
                    write!(out, "filing {point}: ")?;
                }
                write!(out, "{what}. It is not the list that was filed; nothing was read from it as if it were, and nothing was changed")
            }
            ArchiveError::DiskFull { path } => write!(out, "{}: the disk is full. Nothing of this batch was filed. {KEPT}", path.display()),
            ArchiveError::InputOutput { path, what } => {
                write!(
                    out,
                    "{}: {what} Nothing of this batch was acknowledged: if it is filed again, what is there will be Held. {KEPT}",
                    path.display()
                )
            }
            ArchiveError::Busy { path } => {
                write!(out, "{}: another process has held the archive for long. Try again; nothing of this batch was filed. {KEPT}", path.display())
            }
            ArchiveError::NoSuchPoint { path, asked, last } => write!(out, "{}: there is no point {asked}, the last one is {last}", path.display()),
            ArchiveError::ReadOnly { path, what } => write!(out, "{}: the archive may not be written: {what}", path.display()),
            ArchiveError::BadId { id } => write!(out, "an archive's id is 1 to 64 letters, digits, '-', '_' and '.', and {id:?} is not"),
            ArchiveError::Other { path, what } => write!(out, "{}: {what}", path.display()),
        }
    }
}

impl std::error::Error for ArchiveError {}

#[cfg(test)]
mod tests {
    use super::*;

    fn said(code: i32) -> String {
        let message = "as SQLite says it".to_string();
        ArchiveError::of_sqlite(Path::new("a"), rusqlite::Error::SqliteFailure(ffi::Error::new(code), Some(message))).to_string()
    }

    #[test]
    fn each_code_of_sqlite_says_what_became_of_the_filings() {
        for (code, words) in [
            (ffi::SQLITE_CORRUPT, "a: the archive is damaged: as SQLite says it. It is not the list that was filed"),
            (ffi::SQLITE_ERROR, "a: the archive is damaged: as SQLite says it."),
            (ffi::SQLITE_CONSTRAINT, "a: the archive is damaged: as SQLite says it."),
            (ffi::SQLITE_MISMATCH, "a: the archive is damaged: as SQLite says it."),
            (ffi::SQLITE_NOTADB, "a: not an archive of Txindurbe: it does not begin as one does"),
            (ffi::SQLITE_FULL, "a: the disk is full. Nothing of this batch was filed. What was acknowledged before is there"),
            (ffi::SQLITE_IOERR, "a: reading or writing failed. Nothing of this batch was acknowledged"),
            (ffi::SQLITE_IOERR_READ, "a: reading failed."),
            (ffi::SQLITE_IOERR_WRITE, "a: writing failed; is the disk full, or the size of files limited? Nothing of this batch was acknowledged"),
            (ffi::SQLITE_IOERR_FSYNC, "a: writing through to the disk failed."),
            (
                ffi::SQLITE_BUSY,
                "a: another process has held the archive for long. Try again; nothing of this batch was filed. What was acknowledged before is there",
            ),
            (ffi::SQLITE_LOCKED, "a: another process has held the archive for long."),
            (ffi::SQLITE_READONLY, "a: the archive may not be written: neither the file nor its folder must be closed to writing"),
            (READONLY_ROLLBACK, "a: the archive may not be written: a filing was cut short and is to be undone first"),
            (ffi::SQLITE_CANTOPEN, "a: the system does not open it (as SQLite says it)"),
            (ffi::SQLITE_NOMEM, "a: as SQLite says it"),
        ] {
            assert!(said(code).starts_with(words), "{code}: {}", said(code));
        }
    }

    #[test]
    fn columns_of_other_types_are_damage() {
        let error = ArchiveError::of_sqlite(Path::new("a"), rusqlite::Error::InvalidColumnType(0, "point".into(), rusqlite::types::Type::Text));
        assert!(matches!(error, ArchiveError::Damaged { .. }), "{error:?}");
    }

    #[test]
    fn damage_says_where() {
        let said = ArchiveError::damaged(Path::new("a"), 7, "it is missing").to_string();
        assert!(said.starts_with("a: the archive is damaged: filing 7: it is missing. It is not the list that was filed"), "{said}");
    }
}
