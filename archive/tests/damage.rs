//! Damaged archives: whatever was done to the file, there is a clear error or the same list, and what can still be read is not written over.

mod common;

use common::{certificate, Folder, Random, CAME};
use rusqlite::Connection;
use sha2::{Digest, Sha256};
use std::fs;
use std::path::{Path, PathBuf};
use txindurbe_archive::{Archive, ArchiveError, Entry, Kind};

const SEED: u64 = 20;

/// All that an archive says.
#[derive(PartialEq, Debug)]
struct Said {
    id: String,
    entries: Vec<Entry>,
    digest: [u8; 32],
    store: Vec<u32>,
    links: Vec<u32>,
}

fn read(path: &Path) -> Result<Said, ArchiveError> {
    let mut archive = Archive::open(path)?;
    let held = archive.held(None)?;
    let entries = archive.entries(..)?;
    let (store, links) = (held.store.words().to_vec(), held.links.words().to_vec());
    Ok(Said { id: archive.id().into(), entries, digest: held.digest, store, links })
}

fn archive_of(path: PathBuf, count: usize) -> PathBuf {
    let mut archive = Archive::create(&path, Some("damaged")).unwrap();
    archive.file(&Random(SEED).filings(count), CAME).unwrap();
    path
}

/// The bytes from a place on flipped, each by itself, in three ways by turns; of those that are 0, most of which are not in use, each eighth. Then the list is read
/// and, each sixteenth time, filed into.
fn flipped(count: usize, from: impl Fn(usize) -> usize) {
    let folder = Folder::new();
    let path = archive_of(folder.join("a"), count);
    let whole = fs::read(&path).unwrap();
    let before = read(&path).unwrap();
    let places: Vec<usize> = (from(whole.len())..whole.len()).filter(|&place| whole[place] != 0 || place % 8 == 0).collect();
    let mut errors = 0;
    for (turn, &place) in places.iter().enumerate() {
        let mut bytes = whole.clone();
        bytes[place] ^= [0x01, 0x80, 0xff][turn % 3];
        fs::write(&path, &bytes).unwrap();
        match read(&path) {
            Ok(said) => assert!(said == before, "byte {place}: another list is read"),
            Err(_) => errors += 1,
        }
        if turn % 16 == 0 {
            let new = (Kind::Certificate, certificate(5, 5, 0, 5, 0, 1));
            fs::write(&path, &bytes).unwrap();
            if let Ok(filed) = Archive::open(&path).and_then(|mut archive| archive.file(&[new], CAME)) {
                let said = read(&path).unwrap_or_else(|error| panic!("byte {place}: it could be filed into, and now {error}"));
                assert!(said.entries == [before.entries.as_slice(), &filed].concat(), "byte {place}: another list is filed into");
            }
        }
        for left in ["a-journal", "a-wal", "a-shm"] {
            let _ = fs::remove_file(folder.join(left));
        }
    }
    println!("{} bytes flipped, {errors} errors", places.len());
    assert!(errors > 100);
}

/// On one page each: the schema, the archive's row, the filings, the last point.
#[test]
fn bytes_of_a_short_list() {
    flipped(4, |_| 0);
}

/// On several pages, with one above them. The last of them holds the newest filings.
#[test]
fn bytes_of_a_longer_list_at_its_end() {
    flipped(70, |length| length - 6000);
}

#[test]
fn newest_filings_that_a_page_lost() {
    let folder = Folder::new();
    let path = archive_of(folder.join("a"), 10);
    let mut bytes = fs::read(&path).unwrap();
    // a leaf of a table begins with 13, the first free block (2 bytes) and the number of its cells (2 bytes)
    let page = bytes.chunks(4096).position(|page| page[0] == 13 && page[3..5] == [0, 10]).unwrap();
    bytes[4096 * page + 4] = 8;
    fs::write(&path, &bytes).unwrap();
    let missing = ArchiveError::Damaged { path: path.clone(), point: Some(9), what: "it is missing: the list had 10 filings".into() };
    assert_eq!(read(&path).unwrap_err(), missing);
    let mut archive = Archive::open(&path).unwrap();
    assert_eq!(archive.entries(..).unwrap_err(), missing);
    assert_eq!(archive.held(Some(8)).unwrap().point, 8, "which is as it was");
    assert!(matches!(archive.file(&Random(1).filings(1), CAME), Err(ArchiveError::Damaged { .. })));
    assert_eq!(fs::read(&path).unwrap(), bytes);
}

#[test]
fn cut_short() {
    let folder = Folder::new();
    let path = archive_of(folder.join("a"), 200);
    let whole = fs::read(&path).unwrap();
    for length in (0..whole.len()).step_by(512).flat_map(|length| [length, length + 1, length + 511]) {
        fs::write(&path, &whole[..length]).unwrap();
        let error = read(&path).expect_err("a part of the list is not the list");
        assert!(
            matches!(error, ArchiveError::NotAnArchive { .. } | ArchiveError::Damaged { .. } | ArchiveError::InputOutput { .. }),
            "{length}: {error:?}"
        );
        assert!(Archive::open(&path).and_then(|mut archive| archive.file(&Random(1).filings(1), CAME)).is_err());
        assert_eq!(fs::read(&path).unwrap(), whole[..length], "nothing was changed");
    }
}

/// Changes the file by hand, as somebody who knows its tables: the triggers are taken away and put back.
fn by_hand(path: &Path, sql: &str) {
    let connection = Connection::open(path).unwrap();
    let mut statement = connection.prepare("SELECT name, sql FROM sqlite_schema WHERE type = 'trigger'").unwrap();
    let triggers = statement.query_map((), |row| Ok((row.get(0)?, row.get(1)?))).unwrap();
    let triggers = triggers.collect::<rusqlite::Result<Vec<(String, String)>>>().unwrap();
    for (name, _) in &triggers {
        connection.execute_batch(&format!("DROP TRIGGER {name}")).unwrap();
    }
    connection.execute_batch(sql).unwrap();
    for (_, sql) in &triggers {
        connection.execute_batch(sql).unwrap();
    }
}

/// Filed, Filed, Held, refused, Filed.
fn five(path: PathBuf) -> PathBuf {
    let mut archive = Archive::create(&path, Some("damaged")).unwrap();
    let [seven, eight] = [7, 8].map(|atom| (Kind::Certificate, certificate(1, 1, 0, atom, 0, 1)));
    let link = (Kind::Link, common::link(1, 1, 0, 2, 1));
    archive.file(&[seven.clone(), eight, seven, (Kind::Link, vec![]), link], CAME).unwrap();
    path
}

#[test]
fn changed_by_hand() {
    const WHOLE: &str = "its digest is not that of the list up to it";
    let cases = [
        ("UPDATE filing SET reply = 1 WHERE point = 1", 1, WHOLE),
        ("UPDATE filing SET reply = 0 WHERE point = 3", 3, WHOLE),
        ("UPDATE filing SET reply = 10 WHERE point = 2", 2, WHOLE),
        ("UPDATE filing SET reply = 19 WHERE point = 4", 4, WHOLE),
        ("UPDATE filing SET came = came + 1 WHERE point = 5", 5, WHOLE),
        ("UPDATE filing SET digest = zeroblob(32) WHERE point = 2", 2, WHOLE),
        ("UPDATE filing SET words = (SELECT words FROM filing WHERE point = 3) WHERE point = 2", 2, WHOLE),
        // two filings change places, each with its digest, and each with the other's
        ("UPDATE filing SET point = -point WHERE point IN (1, 2); UPDATE filing SET point = 3 + point WHERE point < 0", 1, WHOLE),
        (
            "CREATE TEMP TABLE two AS SELECT * FROM filing WHERE point IN (2, 3);
             UPDATE filing SET words = (SELECT words FROM two WHERE two.point = 5 - filing.point), reply = (SELECT reply FROM two WHERE two.point = 5 - filing.point)
             WHERE point IN (2, 3)",
            2,
            WHOLE,
        ),
        ("UPDATE filing SET kind = 0 WHERE point = 5", 5, WHOLE),
        ("UPDATE filing SET kind = 2 WHERE point = 5", 5, "it is neither a certificate nor a link"),
        ("UPDATE filing SET reply = 18 WHERE point = 1", 1, "its reply is none that such a filing can have"),
        ("UPDATE filing SET reply = -1 WHERE point = 1", 1, "its reply is none that such a filing can have"),
        ("UPDATE filing SET words = x'010203' WHERE point = 4", 4, "its words are cut short"),
        ("UPDATE filing SET digest = x'00' WHERE point = 4", 4, "its digest does not have 32 bytes"),
        ("DELETE FROM filing WHERE point = 2", 2, "it is missing, and filing 3 comes next"),
        ("DELETE FROM filing WHERE point = 1", 1, "it is missing, and filing 2 comes next"),
        ("DELETE FROM filing WHERE point = 5", 5, "it is missing: the list had 5 filings"),
        ("DELETE FROM filing", 1, "it is missing: the list had 5 filings"),
        ("UPDATE sqlite_sequence SET seq = 6 WHERE name = 'filing'", 6, "it is missing: the list had 6 filings"),
    ];
    for (sql, point, what) in cases {
        let folder = Folder::new();
        let path = five(folder.join("a"));
        by_hand(&path, sql);
        let bytes = fs::read(&path).unwrap();
        let damaged = ArchiveError::Damaged { path: path.clone(), point: Some(point), what: what.into() };
        let mut archive = Archive::open(&path).unwrap();
        assert_eq!(archive.held(None).unwrap_err(), damaged, "{sql}");
        assert_eq!(archive.held(Some(point - 1)).unwrap().point, point - 1, "the list before it is as it was: {sql}");
        assert_eq!(archive.entries(..).unwrap_err(), damaged, "{sql}");
        assert_eq!(archive.file(&Random(1).filings(1), CAME).unwrap_err(), damaged, "{sql}");
        assert_eq!(fs::read(&path).unwrap(), bytes, "nothing was changed");
    }
}

/// A list that goes on from one that was changed would hide it.
#[test]
fn changed_under_an_open_archive() {
    let folder = Folder::new();
    let path = five(folder.join("a"));
    let mut archive = Archive::open(&path).unwrap();
    assert_eq!(archive.held(None).unwrap().point, 5);
    by_hand(&path, "UPDATE filing SET digest = zeroblob(32) WHERE point = 5");
    let what = "it is another one than before".to_string();
    assert_eq!(archive.held(None).unwrap_err(), ArchiveError::Damaged { path: path.clone(), point: Some(5), what });
    by_hand(&path, "DELETE FROM filing WHERE point = 5");
    assert_eq!(archive.held(None).unwrap_err(), ArchiveError::Damaged { path, point: Some(5), what: "it is missing: the list had 5 filings".into() });
}

/// Whoever makes up filings can make up digests too. The engine then has its say.
#[test]
fn made_up_with_the_right_digests() {
    let made_up = |kind: u32, words: &[u32], reply: u32| {
        let folder = Folder::new();
        let path = five(folder.join("a"));
        let before = Archive::open(&path).unwrap().held(None).unwrap().digest;
        let words: Vec<u8> = words.iter().flat_map(|word| word.to_le_bytes()).collect();
        let list = Sha256::new().chain_update(before).chain_update(CAME.to_le_bytes()).chain_update(kind.to_le_bytes());
        let digest: [u8; 32] = list.chain_update(reply.to_le_bytes()).chain_update(&words).finalize().into();
        let connection = Connection::open(&path).unwrap();
        connection.execute("INSERT INTO filing VALUES (6, ?1, ?2, ?3, ?4, ?5)", (CAME, kind, words, reply, digest)).unwrap();
        read(&path).map(|said| said.entries.len())
    };
    let said = |result: Result<usize, ArchiveError>| match result.unwrap_err() {
        ArchiveError::Damaged { point, what, .. } => (point, what),
        error => panic!("{error:?}"),
    };
    let seven = certificate(1, 1, 0, 7, 0, 1);
    assert_eq!(made_up(0, &certificate(1, 1, 0, 9, 0, 1), 0), Ok(6), "so the digests of this test are right");
    assert_eq!(said(made_up(0, &seven, 0)), (Some(6), "it stands there as Filed, and was held already".into()));
    let refused = "it stands there as Filed, and the engine says: refusal 9: the certificate is not ten words or unsound";
    assert_eq!(said(made_up(0, &seven[1..], 0)), (Some(6), refused.into()));
}

#[test]
fn other_tables() {
    for sql in [
        "DROP TRIGGER filing_stays",
        "CREATE INDEX by_reply ON filing (reply)",
        "CREATE TABLE notes (note)",
        "ALTER TABLE filing ADD COLUMN note TEXT",
        "DROP TRIGGER filing_stays; CREATE TRIGGER filing_stays BEFORE DELETE ON filing BEGIN SELECT 1; END",
        "PRAGMA user_version = 0",
    ] {
        let folder = Folder::new();
        let path = five(folder.join("a"));
        Connection::open(&path).unwrap().execute_batch(sql).unwrap();
        let what = "its tables are not as they were made".to_string();
        assert_eq!(Archive::open(&path).unwrap_err(), ArchiveError::Damaged { path, point: None, what }, "{sql}");
    }
    for sql in ["UPDATE archive SET id = 'another'", "UPDATE archive SET digest = zeroblob(32)"] {
        let folder = Folder::new();
        let path = five(folder.join("a"));
        by_hand(&path, sql);
        let what = "its id is not the one that it was given".to_string();
        assert_eq!(Archive::open(&path).unwrap_err(), ArchiveError::Damaged { path, point: None, what }, "{sql}");
    }
    let folder = Folder::new();
    let path = five(folder.join("a"));
    by_hand(&path, "DELETE FROM archive");
    assert!(matches!(Archive::open(&path), Err(ArchiveError::Damaged { .. })));
}
