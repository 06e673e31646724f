//! The tables of the file, and whether a file has them.

use crate::entry::{first_digest, Digest};
use crate::ArchiveError;
use rusqlite::Connection;
use std::path::Path;

/// "Txin", in the header of the file: its application id.
const APPLICATION: i64 = 0x5478_696e;

/// The form of the tables, in the header of the file: its user version. A later version of Txindurbe that writes other tables counts it up.
const FORM: i64 = 1;

/// What stands in the file, in the order of its names, and how it is made. For AUTOINCREMENT, SQLite makes a table `sqlite_sequence` and keeps the last point there,
/// a second time: without it, nobody would notice a page that lost its last filings.
const MADE: [(&str, &str); 7] = [
    (
        "archive",
        "CREATE TABLE archive (
    one INTEGER PRIMARY KEY CHECK (one = 1),
    id TEXT NOT NULL,      -- what citations call it
    digest BLOB NOT NULL   -- SHA-256 of the id: what the list of digests starts from
) STRICT",
    ),
    ("archive_stays", "CREATE TRIGGER archive_stays BEFORE DELETE ON archive BEGIN SELECT raise(ABORT, 'an archive keeps its id'); END"),
    (
        "archive_stays_the_same",
        "CREATE TRIGGER archive_stays_the_same BEFORE UPDATE ON archive BEGIN SELECT raise(ABORT, 'an archive keeps its id'); END",
    ),
    (
        "filing",
        "CREATE TABLE filing (
    point INTEGER PRIMARY KEY AUTOINCREMENT,   -- 1, 2, 3, .. without gaps
    came INTEGER NOT NULL,                     -- seconds since 1970, UTC
    kind INTEGER NOT NULL,                     -- 0 a certificate, 1 a link
    words BLOB NOT NULL,                       -- as filed, four bytes a word, the lowest first
    reply INTEGER NOT NULL,                    -- 0 Filed, 1 Held, else the refusal's number
    digest BLOB NOT NULL                       -- SHA-256 of the digest before, then came (8 bytes), kind, reply (4 each), the lowest first, and words
) STRICT",
    ),
    (
        "filing_goes_on",
        "CREATE TRIGGER filing_goes_on BEFORE INSERT ON filing WHEN NEW.point IS NOT (SELECT coalesce(max(point), 0) + 1 FROM filing)
BEGIN SELECT raise(ABORT, 'the list of filings only grows, one by one'); END",
    ),
    ("filing_stays", "CREATE TRIGGER filing_stays BEFORE DELETE ON filing BEGIN SELECT raise(ABORT, 'the list of filings only grows'); END"),
    (
        "filing_stays_the_same",
        "CREATE TRIGGER filing_stays_the_same BEFORE UPDATE ON filing BEGIN SELECT raise(ABORT, 'the list of filings only grows'); END",
    ),
];

/// Filings from one point to another, for [`Entry::read`](crate::Entry).
pub(crate) const READ: &str = "SELECT point, came, kind, words, reply, digest FROM filing WHERE point BETWEEN ?1 AND ?2 ORDER BY point";

pub(crate) const INSERT: &str = "INSERT INTO filing (point, came, kind, words, reply, digest) VALUES (?1, ?2, ?3, ?4, ?5, ?6)";

/// Into an empty file.
pub(crate) fn make(connection: &Connection, id: &str) -> rusqlite::Result<()> {
    connection.execute_batch("BEGIN IMMEDIATE")?;
    connection.execute_batch(&format!("PRAGMA application_id = {APPLICATION}; PRAGMA user_version = {FORM}"))?;
    for (_, sql) in MADE {
        connection.execute_batch(sql)?;
    }
    connection.execute("INSERT INTO archive (one, id, digest) VALUES (1, ?1, ?2)", (id, first_digest(id)))?;
    connection.execute_batch("COMMIT")
}

/// Whether the file is an archive that this version knows, and its id.
pub(crate) fn check(connection: &Connection, path: &Path) -> Result<String, ArchiveError> {
    let in_header =
        |name| connection.pragma_query_value(None, name, |row| row.get::<_, i64>(0)).map_err(|error| ArchiveError::of_sqlite(path, error));
    if in_header("application_id")? != APPLICATION {
        return Err(ArchiveError::NotAnArchive { path: path.into(), what: "it is a file of some other program".into() });
    }
    let form = in_header("user_version")?;
    if form > FORM {
        return Err(ArchiveError::LaterVersion { path: path.into(), form });
    }
    let damaged = |what: &str| ArchiveError::Damaged { path: path.into(), point: None, what: what.into() };
    if form != FORM || !has_its_tables(connection).map_err(|error| ArchiveError::of_sqlite(path, error))? {
        return Err(damaged("its tables are not as they were made"));
    }
    let (id, digest) = connection
        .query_row("SELECT id, digest FROM archive", (), |row| Ok((row.get::<_, String>(0)?, row.get::<_, Digest>(1)?)))
        .map_err(|error| ArchiveError::of_sqlite(path, error))?;
    if first_digest(&id) != digest {
        return Err(damaged("its id is not the one that it was given"));
    }
    Ok(id)
}

fn has_its_tables(connection: &Connection) -> rusqlite::Result<bool> {
    let mut statement = connection.prepare("SELECT name, sql FROM sqlite_schema WHERE name IS NOT 'sqlite_sequence' ORDER BY name")?;
    let there = statement.query_map((), |row| Ok((row.get(0)?, row.get(1)?)))?.collect::<rusqlite::Result<Vec<(String, String)>>>()?;
    Ok(there.iter().map(|(name, sql)| (name.as_str(), sql.as_str())).eq(MADE))
}

/// The last point of the list, and as SQLite keeps it beside the list: 0 where there is none.
pub(crate) fn last_points(connection: &Connection) -> rusqlite::Result<(u64, u64)> {
    let last = "SELECT coalesce((SELECT max(point) FROM filing), 0), coalesce((SELECT max(seq) FROM sqlite_sequence WHERE name = 'filing'), 0)";
    connection.query_row(last, (), |row| Ok((row.get(0)?, row.get(1)?)))
}
