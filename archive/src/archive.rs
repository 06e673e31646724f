//! The archive's file: made, opened, read, filed into.

use crate::entry::{bytes, first_digest, reply_number, Digest, Entry, Kind};
use crate::held::{follows, Held};
use crate::{schema, ArchiveError};
use rusqlite::{Connection, OpenFlags, Transaction, TransactionBehavior};
use std::fs::{self, File};
use std::io::Read;
use std::ops::{Bound, RangeBounds};
use std::path::{Path, PathBuf};
use std::thread::sleep;
use std::time::Duration;

/// An open archive. It may be read and, where its file may be written, filed into.
#[derive(Debug)]
pub struct Archive {
    connection: Connection,
    path: PathBuf,
    id: String,
    /// The furthest that stores were built here: others are built on from it.
    latest: Held,
    /// Whether the file was looked through and made ready for filing.
    ready: bool,
}

impl Archive {
    /// A new archive, without filings. There must be no file of this name. Its id is what citations call it: 1 to 64 letters, digits, `-`, `_` and `.`; if none
    /// is given, 16 random hexadecimal digits.
    pub fn create(path: impl AsRef<Path>, id: Option<&str>) -> Result<Archive, ArchiveError> {
        let path = path.as_ref();
        let id = match id {
            Some(id) => checked_id(id)?,
            None => random_id().map_err(|error| ArchiveError::of_system(path, error))?,
        };
        // The system sees to it that there was no such file; SQLite would write into one.
        File::create_new(path).map_err(|error| not_created(path, error))?;
        let made = connect(path).and_then(|connection| schema::make(&connection, &id).map_err(|error| ArchiveError::of_sqlite(path, error)));
        let made = made.and_then(|()| Archive::open(path));
        if made.is_err() {
            let _ = fs::remove_file(path);
        }
        made
    }

    /// An archive that is there. Nothing is written to its file, unless a killed process left it half written: then that is undone.
    pub fn open(path: impl AsRef<Path>) -> Result<Archive, ArchiveError> {
        let path = path.as_ref();
        let file = fs::metadata(path).map_err(|error| ArchiveError::of_system(path, error))?;
        let other = |what: &str| ArchiveError::NotAnArchive { path: path.into(), what: what.into() };
        if !file.is_file() {
            return Err(other("it is no file"));
        }
        if file.len() == 0 {
            return Err(other("it is empty; if that is what an interrupted start has left, remove it and start again"));
        }
        let connection = connect(path)?;
        let id = schema::check(&connection, path)?;
        Ok(Archive { connection, path: path.into(), latest: Held::before_all(&id), id, ready: false })
    }

    /// What citations call it.
    pub fn id(&self) -> &str {
        &self.id
    }

    /// How many filings there are by now.
    pub fn last_point(&self) -> Result<u64, ArchiveError> {
        self.within(None)
    }

    /// The stores as they were at a point of the list, which is how many filings lie before it; without one, as they are now. The list is checked on the way.
    pub fn held(&mut self, at: Option<u64>) -> Result<Held, ArchiveError> {
        let mut held = match at {
            Some(at) if at < self.latest.point => Held::before_all(&self.id),
            _ => self.latest.clone(),
        };
        let transaction = self.begin(TransactionBehavior::Deferred)?;
        self.take_in(&mut held, at)?;
        drop(transaction);
        if held.point > self.latest.point {
            self.latest = held.clone();
        }
        Ok(held)
    }

    /// Files a batch behind all that is filed by now, and says what came of each. What is returned is durable. With an error, none of the batch is filed.
    ///
    /// The words may be any at all: what is malformed gets its refusal, and is kept with it.
    pub fn file(&mut self, filings: &[(Kind, Vec<u32>)], came: i64) -> Result<Vec<Entry>, ArchiveError> {
        if filings.is_empty() {
            return Ok(Vec::new());
        }
        self.make_ready()?;
        let transaction = self.begin(TransactionBehavior::Immediate)?;
        let mut held = self.latest.clone();
        self.take_in(&mut held, None)?;
        let entries = self.insert(&mut held, filings, came).map_err(|error| self.sqlite(error))?;
        transaction.commit().map_err(|error| self.sqlite(error))?;
        self.latest = held;
        Ok(entries)
    }

    /// The filings of these points, as far as the list has them: the first filing's is 1. Each is checked against the one before it.
    pub fn entries(&self, points: impl RangeBounds<u64>) -> Result<Vec<Entry>, ArchiveError> {
        let first = match points.start_bound() {
            Bound::Included(&first) => first.max(1),
            Bound::Excluded(&before) => before.saturating_add(1),
            Bound::Unbounded => 1,
        };
        let last = match points.end_bound() {
            Bound::Included(&last) => last,
            Bound::Excluded(&behind) => behind.saturating_sub(1),
            Bound::Unbounded => u64::MAX,
        };
        let _transaction = self.begin(TransactionBehavior::Deferred)?;
        let last = last.min(self.last_point()?);
        let mut entries = Vec::new();
        if first > last {
            return Ok(entries);
        }
        let (mut point, mut before) = (first - 1, self.digest_at(first - 1)?);
        self.read(first, last, |entry, digest| {
            follows(point, &before, &entry, &digest)?;
            (point, before) = (entry.point, digest);
            entries.push(entry);
            Ok(())
        })?;
        self.reached(point, last)?;
        Ok(entries)
    }

    /// Goes on from what is held, up to a point or, without one, to the end of the list.
    fn take_in(&self, held: &mut Held, to: Option<u64>) -> Result<(), ArchiveError> {
        let to = self.within(to)?;
        if self.digest_at(held.point)? != held.digest {
            return Err(ArchiveError::damaged(&self.path, held.point, "it is another one than before"));
        }
        self.read(held.point + 1, to, |entry, digest| held.take_in(&entry, &digest))?;
        self.reached(held.point, to)
    }

    /// A point up to which the list goes: the one asked for, whatever comes behind it, or the last.
    fn within(&self, asked: Option<u64>) -> Result<u64, ArchiveError> {
        let (last, kept) = schema::last_points(&self.connection).map_err(|error| self.sqlite(error))?;
        match asked {
            Some(asked) if asked <= last => return Ok(asked),
            _ => self.reached(last, kept)?,
        }
        match asked {
            Some(asked) => Err(ArchiveError::NoSuchPoint { path: self.path.clone(), asked, last }),
            None => Ok(last),
        }
    }

    /// Entries in order, with their digests, each handed on to what says what is wrong with it.
    fn read(&self, first: u64, last: u64, mut take: impl FnMut(Entry, Digest) -> Result<(), String>) -> Result<(), ArchiveError> {
        let mut statement = self.connection.prepare_cached(schema::READ).map_err(|error| self.sqlite(error))?;
        let mut rows = statement.query((key(first), key(last))).map_err(|error| self.sqlite(error))?;
        let mut due = first;
        while let Some(row) = rows.next().map_err(|error| self.sqlite(error))? {
            let taken = Entry::read(row).and_then(|(entry, digest)| take(entry, digest));
            taken.map_err(|what| ArchiveError::damaged(&self.path, due, what))?;
            due += 1;
        }
        Ok(())
    }

    fn reached(&self, point: u64, last: u64) -> Result<(), ArchiveError> {
        if point == last {
            return Ok(());
        }
        let what = if point < last { "it is missing" } else { "it is more than was filed" };
        Err(ArchiveError::damaged(&self.path, point.min(last) + 1, format!("{what}: the list had {last} filings")))
    }

    /// As it stands in the file.
    fn digest_at(&self, point: u64) -> Result<Digest, ArchiveError> {
        if point == 0 {
            return Ok(first_digest(&self.id));
        }
        let digest = self.connection.query_row("SELECT digest FROM filing WHERE point = ?1", [key(point)], |row| row.get(0));
        digest.map_err(|error| match error {
            rusqlite::Error::QueryReturnedNoRows => ArchiveError::damaged(&self.path, point, "it is missing"),
            error => self.sqlite(error),
        })
    }

    fn insert(&self, held: &mut Held, filings: &[(Kind, Vec<u32>)], came: i64) -> rusqlite::Result<Vec<Entry>> {
        let mut statement = self.connection.prepare_cached(schema::INSERT)?;
        let mut entries = Vec::with_capacity(filings.len());
        for (kind, words) in filings {
            let entry = held.file(*kind, words, came);
            statement.execute((key(entry.point), came, kind.number(), bytes(words), reply_number(&entry.reply), held.digest))?;
            entries.push(entry);
        }
        Ok(entries)
    }

    /// Before the first filing: in a file whose pages are not sound, SQLite could write over filings that can still be read.
    fn make_ready(&mut self) -> Result<(), ArchiveError> {
        if self.ready {
            return Ok(());
        }
        let mode: String = self.connection.query_row("PRAGMA journal_mode = DELETE", (), |row| row.get(0)).map_err(|error| self.sqlite(error))?;
        if mode != "delete" {
            return Err(ArchiveError::Busy { path: self.path.clone() });
        }
        let found: String = self.connection.query_row("PRAGMA quick_check(1)", (), |row| row.get(0)).map_err(|error| self.sqlite(error))?;
        if found != "ok" {
            return Err(self.damaged(&found));
        }
        self.ready = true;
        Ok(())
    }

    /// What is not committed is undone when the transaction is dropped.
    fn begin(&self, behaviour: TransactionBehavior) -> Result<Transaction<'_>, ArchiveError> {
        Transaction::new_unchecked(&self.connection, behaviour).map_err(|error| self.sqlite(error))
    }

    fn sqlite(&self, error: rusqlite::Error) -> ArchiveError {
        ArchiveError::of_sqlite(&self.path, error)
    }

    fn damaged(&self, what: &str) -> ArchiveError {
        ArchiveError::Damaged { path: self.path.clone(), point: None, what: what.into() }
    }
}

/// No list is longer than SQLite's numbers reach.
fn key(point: u64) -> i64 {
    i64::try_from(point).unwrap_or(i64::MAX)
}

/// A commit ends with the journal's entry in its folder removed on the disk (EXTRA), so that no loss of power brings back the time before it.
const SETTINGS: &str = "PRAGMA synchronous = EXTRA; PRAGMA temp_store = MEMORY; PRAGMA cell_size_check = ON; PRAGMA trusted_schema = OFF";

/// For writing too, where the system allows it: else what a killed process left half written could not be undone. Never a new file.
fn connect(path: &Path) -> Result<Connection, ArchiveError> {
    // SQLite has meanings of its own for some names, as ":memory:", and none of them is absolute.
    let absolute = std::path::absolute(path).map_err(|error| ArchiveError::of_system(path, error))?;
    let settled = || {
        let connection = Connection::open_with_flags(absolute, OpenFlags::SQLITE_OPEN_READ_WRITE | OpenFlags::SQLITE_OPEN_NO_MUTEX)?;
        connection.busy_handler(Some(wait))?;
        connection.execute_batch(SETTINGS)?;
        Ok(connection)
    };
    settled().map_err(|error| ArchiveError::of_sqlite(path, error))
}

/// While another process has the file, for about ten seconds. SQLite's own way sleeps longer and longer, and might never wake between two batches of another.
fn wait(times: i32) -> bool {
    sleep(Duration::from_millis(1));
    times < 10_000
}

fn not_created(path: &Path, error: std::io::Error) -> ArchiveError {
    match error.kind() {
        std::io::ErrorKind::NotFound => ArchiveError::Other { path: path.into(), what: "there is no such folder to make an archive in".into() },
        _ => ArchiveError::of_system(path, error),
    }
}

fn checked_id(id: &str) -> Result<String, ArchiveError> {
    let allowed = |letter: char| letter.is_ascii_alphanumeric() || "-_.".contains(letter);
    match (1..=64).contains(&id.len()) && id.chars().all(allowed) {
        true => Ok(id.into()),
        false => Err(ArchiveError::BadId { id: id.into() }),
    }
}

fn random_id() -> std::io::Result<String> {
    let mut random = [0; 8];
    File::open("/dev/urandom")?.read_exact(&mut random)?;
    Ok(format!("{:016x}", u64::from_le_bytes(random)))
}

#[cfg(test)]
mod tests {
    use super::*;

    #[test]
    fn what_is_committed_is_on_the_disk() {
        let path = std::env::temp_dir().join(format!("txindurbe-settings-{}", std::process::id()));
        let mut archive = Archive::create(&path, None).unwrap();
        archive.file(&[(Kind::Link, vec![])], 0).unwrap();
        let setting = |name| archive.connection.query_row(&format!("PRAGMA {name}"), (), |row| row.get::<_, rusqlite::types::Value>(0));
        assert_eq!(setting("synchronous"), Ok(3.into()), "EXTRA");
        assert_eq!(setting("journal_mode"), Ok("delete".to_string().into()));
        fs::remove_file(path).unwrap();
    }
}
