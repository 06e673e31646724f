//! As much of SQLite's C interface as the tasks need, and the tasks as SQL: in memory, indexed by the primary key, prepared once.

use crate::tasks::{
    LinkWords, Record, ARCHIVE, COMPROMISED, EMBARGO, LEFT, OBSERVATORIES, OBSERVATORY, RELEASED, RIGHT, SIZES, SMALL, TRUSTED, WITHDRAWN,
};
use crate::Outcome;
use std::ffi::{c_char, c_int, c_void, CStr, CString};
use std::fmt::Display;
use std::ptr::null_mut;

type Handle = *mut c_void;

extern "C" {
    fn sqlite3_open(path: *const c_char, connection: *mut Handle) -> c_int;
    fn sqlite3_close(connection: Handle) -> c_int;
    fn sqlite3_errmsg(connection: Handle) -> *const c_char;
    fn sqlite3_prepare_v2(connection: Handle, sql: *const c_char, length: c_int, statement: *mut Handle, tail: *mut *const c_char) -> c_int;
    fn sqlite3_bind_int64(statement: Handle, place: c_int, value: i64) -> c_int;
    fn sqlite3_step(statement: Handle) -> c_int;
    fn sqlite3_column_int64(statement: Handle, column: c_int) -> i64;
    fn sqlite3_changes(connection: Handle) -> c_int;
    fn sqlite3_reset(statement: Handle) -> c_int;
    fn sqlite3_finalize(statement: Handle) -> c_int;
    fn sqlite3_libversion() -> *const c_char;
}

const ROW: c_int = 100;
const DONE: c_int = 101;

pub fn version() -> String {
    // SAFETY: SQLite gives a string that lasts.
    unsafe { CStr::from_ptr(sqlite3_libversion()) }.to_string_lossy().into_owned()
}

/// That a certificate is of this name and holds at the minute, which is bound when the statement runs.
fn of_name(certificate: &str, key: impl Display, name: impl Display, polarity: u32) -> String {
    let conditions =
        [format!("key = {key}"), format!("name = {name}"), format!("polarity = {polarity}"), "first_minute <= ?1".into(), "end_minute > ?1".into()];
    conditions.map(|condition| format!("{certificate}.{condition}")).join(" AND ")
}

/// The same of this width.
fn of_width(certificate: &str, key: impl Display, name: impl Display, polarity: u32, width: u32) -> String {
    format!("{} AND {certificate}.width = {width}", of_name(certificate, key, name, polarity))
}

/// The same of at least this width.
fn of_least_width(certificate: &str, key: impl Display, name: impl Display, polarity: u32, least: u32) -> String {
    format!("{} AND {certificate}.width >= {least}", of_name(certificate, key, name, polarity))
}

/// The keys and names that links reach from the observatory's list, as a table `reached`.
fn reached(name: u32, polarity: u32) -> String {
    let step = format!("link.key = reached.key AND link.name = reached.name AND link.polarity = {polarity}");
    format!(
        "WITH RECURSIVE reached(key, name) AS (VALUES ({OBSERVATORY}, {name}) \
         UNION SELECT link.other_key, link.other_name FROM reached, link WHERE {step})"
    )
}

/// That a certificate `r` says that a row is released, and another of the same key that it is not withdrawn.
fn public(key: impl Display) -> String {
    let released = of_width("r", &key, RELEASED, 0, 1);
    let not_withdrawn = of_width("w", &key, WITHDRAWN, 1, 1);
    format!("{released} AND EXISTS (SELECT 1 FROM certificate w WHERE {not_withdrawn} AND w.a = r.a AND w.b = 0 AND w.c = 0 AND w.d = 0)")
}

pub struct Database(Handle);

impl Database {
    fn open() -> Database {
        let mut connection = null_mut();
        // SAFETY: the path is a string and the place is good.
        let status = unsafe { sqlite3_open(c":memory:".as_ptr(), &mut connection) };
        assert_eq!(status, 0, "SQLite opens a database in memory");
        Database(connection)
    }

    fn prepare(&self, sql: &str) -> Statement<'_> {
        let text = CString::new(sql).expect("SQL has no zero bytes");
        let mut statement = null_mut();
        // SAFETY: the connection is open and the text lasts until the call ends; SQLite copies it.
        let status = unsafe { sqlite3_prepare_v2(self.0, text.as_ptr(), -1, &mut statement, null_mut()) };
        assert_eq!(status, 0, "{sql}: {}", self.message());
        Statement { statement, database: self }
    }

    fn run(&self, sql: &str) {
        self.prepare(sql).run(&[], 0);
    }

    fn message(&self) -> String {
        // SAFETY: the connection is open, and the string is copied at once.
        unsafe { CStr::from_ptr(sqlite3_errmsg(self.0)) }.to_string_lossy().into_owned()
    }

    /// The certificates held, under the order that the store has.
    pub fn holding(certificates: impl IntoIterator<Item = Record>) -> Database {
        let database = Database::open();
        database.run(
            "CREATE TABLE certificate (key INTEGER, name INTEGER, polarity INTEGER, width INTEGER, a INTEGER, b INTEGER, c INTEGER, d INTEGER,
             first_minute INTEGER, end_minute INTEGER, PRIMARY KEY (key, name, polarity, a, b, c, d, width, first_minute, end_minute)) WITHOUT ROWID",
        );
        let mut insert = database.insert();
        for record in certificates {
            insert.file(&record);
        }
        drop(insert);
        database.run("ANALYZE");
        database
    }

    /// The same with links, under the order that the link store has.
    pub fn linked(certificates: impl IntoIterator<Item = Record>, links: impl IntoIterator<Item = LinkWords>) -> Database {
        let database = Database::holding(certificates);
        database.run(
            "CREATE TABLE link (key INTEGER, name INTEGER, polarity INTEGER, other_key INTEGER, other_name INTEGER,
             PRIMARY KEY (key, name, polarity, other_key, other_name)) WITHOUT ROWID",
        );
        let mut insert = database.insert_link();
        for link in links {
            insert.file(&link);
        }
        drop(insert);
        database.run("ANALYZE");
        database
    }

    /// The literals of the draws, as tables.
    pub fn of_literals() -> Database {
        let database = Database::open();
        for (table, size) in ["first", "second", "third"].iter().zip(SIZES) {
            database.hold(table, 0..size);
        }
        database
    }

    /// A literal as a table.
    pub fn hold(&self, table: &str, numbers: impl Iterator<Item = u32>) {
        self.run(&format!("CREATE TABLE {table} (n INTEGER PRIMARY KEY)"));
        let mut insert = self.prepare(&format!("INSERT INTO {table} VALUES (?1)"));
        for n in numbers {
            insert.run(&[n], 0);
        }
    }

    /// Definitions, each a literal with its name and polarity, as one table.
    pub fn define(&self, definitions: impl IntoIterator<Item = (u32, u32, Vec<u32>)>) {
        self.run("CREATE TABLE definition (name INTEGER, polarity INTEGER, n INTEGER, PRIMARY KEY (name, polarity, n)) WITHOUT ROWID");
        let mut insert = self.prepare("INSERT INTO definition VALUES (?1, ?2, ?3)");
        for (name, polarity, numbers) in definitions {
            for n in numbers {
                insert.run(&[name, polarity, n], 0);
            }
        }
    }

    pub fn insert(&self) -> Statement<'_> {
        self.prepare("INSERT OR IGNORE INTO certificate VALUES (?1, ?2, ?3, ?4, ?5, ?6, ?7, ?8, ?9, ?10)")
    }

    pub fn insert_link(&self) -> Statement<'_> {
        self.prepare("INSERT OR IGNORE INTO link VALUES (?1, ?2, ?3, ?4, ?5)")
    }

    /// Empties a table and files these.
    pub fn file_all<const WIDTH: usize>(
        &self,
        insert: &mut Statement,
        [begin, empty, commit]: &mut [Statement; 3],
        records: &[[u32; WIDTH]],
    ) -> Outcome {
        begin.run(&[], 0);
        empty.run(&[], 0);
        let filed = records.iter().filter(|record| insert.file(*record)).count();
        commit.run(&[], 0);
        Outcome { rows: filed as u64, ..Outcome::default() }
    }

    pub fn transaction(&self, table: &str) -> [Statement<'_>; 3] {
        ["BEGIN", &format!("DELETE FROM {table}"), "COMMIT"].map(|sql| self.prepare(sql))
    }

    pub fn public(&self) -> Statement<'_> {
        self.prepare(&format!("SELECT DISTINCT r.a FROM certificate r WHERE {} ORDER BY r.a", public(OBSERVATORY)))
    }

    pub fn delegation(&self) -> Statement<'_> {
        let trusted = of_width("t", ARCHIVE, TRUSTED, 0, 1);
        self.prepare(&format!("SELECT DISTINCT r.a FROM certificate t, certificate r WHERE {trusted} AND {} ORDER BY r.a", public("t.a")))
    }

    /// The archive's key must not be compromised either.
    pub fn vetted_delegation(&self) -> Statement<'_> {
        let (trusted, released) = (of_width("t", ARCHIVE, TRUSTED, 0, 1), of_width("r", "t.a", RELEASED, 0, 1));
        let vetted = |key: &str| {
            let certified = of_width("n", ARCHIVE, COMPROMISED, 1, 1);
            format!("EXISTS (SELECT 1 FROM certificate n WHERE {certified} AND n.a = {key} AND n.b = 0 AND n.c = 0 AND n.d = 0)")
        };
        let (archive, observatory) = (vetted(&ARCHIVE.to_string()), vetted("t.a"));
        self.prepare(&format!(
            "SELECT DISTINCT r.a FROM certificate t, certificate r WHERE {trusted} AND {released} AND {archive} AND {observatory} ORDER BY r.a"
        ))
    }

    /// The definition is a table, `embargoed`.
    pub fn embargo(&self) -> Statement<'_> {
        self.released_without("embargoed WHERE embargoed.n = r.a")
    }

    /// The definition is found by its name and polarity.
    pub fn embargo_by_name(&self) -> Statement<'_> {
        self.released_without(&format!("definition d WHERE d.name = {EMBARGO} AND d.polarity = 1 AND d.n = r.a"))
    }

    fn released_without(&self, absent: &str) -> Statement<'_> {
        let released = of_width("r", OBSERVATORY, RELEASED, 0, 1);
        self.prepare(&format!("SELECT DISTINCT r.a FROM certificate r WHERE {released} AND NOT EXISTS (SELECT 1 FROM {absent}) ORDER BY r.a"))
    }

    /// The lists have rows of one atom alone.
    pub fn unions(&self) -> Statement<'_> {
        let released = OBSERVATORIES.map(|observatory| format!("SELECT r.a FROM certificate r WHERE {}", of_width("r", observatory, RELEASED, 0, 1)));
        self.prepare(&format!("{} ORDER BY 1", released.join(" UNION ")))
    }

    /// The list has rows of one atom alone.
    pub fn joined(&self) -> Statement<'_> {
        let released = of_width("c", "reached.key", "reached.name", 0, 1);
        self.prepare(&format!("{} SELECT DISTINCT c.a FROM reached, certificate c WHERE {released} ORDER BY c.a", reached(RELEASED, 0)))
    }

    /// The released list has no links.
    pub fn public_joined(&self) -> Statement<'_> {
        let released = of_width("r", OBSERVATORY, RELEASED, 0, 1);
        let not_withdrawn = of_width("c", "reached.key", "reached.name", 1, 1);
        self.prepare(&format!(
            "{} SELECT DISTINCT r.a FROM certificate r WHERE {released} AND r.a IN (SELECT c.a FROM reached, certificate c WHERE {not_withdrawn}) \
             ORDER BY r.a",
            reached(WITHDRAWN, 1)
        ))
    }

    pub fn join(&self) -> Statement<'_> {
        self.pairs([of_width("l", OBSERVATORY, LEFT, 0, 2), of_width("r", OBSERVATORY, RIGHT, 0, 2)])
    }

    /// By the first two atoms of rows that have more.
    pub fn join_wider(&self) -> Statement<'_> {
        self.pairs([of_least_width("l", OBSERVATORY, LEFT, 0, 2), of_least_width("r", OBSERVATORY, RIGHT, 0, 2)])
    }

    fn pairs(&self, [left, right]: [String; 2]) -> Statement<'_> {
        self.prepare(&format!("SELECT DISTINCT l.a, r.b FROM certificate l, certificate r WHERE {left} AND {right} AND r.a = l.b ORDER BY 1, 2"))
    }

    /// The constant head, from every binding.
    pub fn draws_constant(&self) -> Statement<'_> {
        self.prepare("SELECT min(7), count(*) FROM first, second, third")
    }

    pub fn draws_last(&self) -> Statement<'_> {
        self.prepare("SELECT DISTINCT third.n FROM first, second, third ORDER BY third.n")
    }

    pub fn small(&self) -> Statement<'_> {
        let small = of_name("s", OBSERVATORY, SMALL, 0);
        self.prepare(&format!("SELECT DISTINCT s.a, s.b, s.c, s.d, s.width FROM certificate s WHERE {small} ORDER BY 1, 2, 3, 4, 5"))
    }
}

impl Drop for Database {
    fn drop(&mut self) {
        // SAFETY: statements borrow the database, so that none is left.
        unsafe { sqlite3_close(self.0) };
    }
}

pub struct Statement<'a> {
    statement: Handle,
    database: &'a Database,
}

impl Statement<'_> {
    /// Counts the rows and adds up the first columns, each row's times its place.
    pub fn run(&mut self, values: &[u32], columns: c_int) -> Outcome {
        let mut outcome = Outcome::default();
        // SAFETY: the statement lives as long as `self`, and columns are read only while it stands on a row.
        unsafe {
            for (&value, place) in values.iter().zip(1..) {
                sqlite3_bind_int64(self.statement, place, value.into());
            }
            loop {
                match sqlite3_step(self.statement) {
                    ROW => {
                        outcome.rows += 1;
                        let sum: u64 = (0..columns).map(|column| sqlite3_column_int64(self.statement, column) as u64).sum();
                        outcome.sum += outcome.rows * sum;
                    }
                    DONE => break,
                    status => panic!("SQLite stops with {status}: {}", self.database.message()),
                }
            }
            sqlite3_reset(self.statement);
        }
        outcome
    }

    /// False if it was there.
    fn file(&mut self, record: &[u32]) -> bool {
        self.run(record, 0);
        // SAFETY: the connection is open.
        unsafe { sqlite3_changes(self.database.0) == 1 }
    }
}

impl Drop for Statement<'_> {
    fn drop(&mut self) {
        // SAFETY: nobody else has the statement.
        unsafe { sqlite3_finalize(self.statement) };
    }
}
