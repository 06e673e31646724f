//! Several at one archive: they file by turns and at once, read meanwhile, are killed, or may not write.

mod common;

use common::{certificate, Folder, Plain, Random, CAME};
use rusqlite::Connection;
use std::fs::{self, Permissions};
use std::os::unix::fs::{MetadataExt, PermissionsExt};
use std::os::unix::process::CommandExt;
use std::path::Path;
use std::process::Command;
use std::thread;
use std::time::Duration;
use txindurbe::Filing;
use txindurbe_archive::{Archive, ArchiveError, Entry, Kind};

const SEED: u64 = 21;

/// Whether the list is 1, 2, 3, .. and each reply is by what was accepted before it.
fn assert_one_list(path: &Path) -> Vec<Entry> {
    let mut archive = Archive::open(path).unwrap();
    let entries = archive.entries(..).unwrap();
    let mut plain = Plain::new();
    for (entry, point) in entries.iter().zip(1..) {
        assert_eq!(entry.point, point);
        assert_eq!(entry.reply, plain.file(&(entry.kind, entry.words.clone())), "filing {point}");
    }
    let held = archive.held(None).unwrap();
    assert!((held.store.words(), held.links.words()) == plain.words());
    entries
}

#[test]
fn two_file_by_turns() {
    println!("seed {SEED}");
    let folder = Folder::new();
    let path = folder.join("a");
    let mut archives = [Archive::create(&path, None).unwrap(), Archive::open(&path).unwrap()];
    let seven = (Kind::Certificate, certificate(1, 1, 0, 7, 0, 1));
    let reply = |archive: &mut Archive| archive.file(std::slice::from_ref(&seven), CAME).unwrap()[0].reply;
    assert_eq!(reply(&mut archives[0]), Ok(Filing::Filed));
    assert_eq!(reply(&mut archives[1]), Ok(Filing::Held), "what the one filed, the other holds");

    let mut random = Random(SEED);
    let mut filed = archives[0].entries(..).unwrap();
    for _ in 0..60 {
        let archive = &mut archives[random.below(2) as usize];
        let count = random.below(5) as usize;
        match random.below(3) {
            0 => assert_eq!(archive.held(None).unwrap().point, filed.len() as u64),
            _ => filed.extend(archive.file(&random.filings(count), CAME).unwrap()),
        }
    }
    assert_eq!(assert_one_list(&path), filed);
}

#[test]
fn four_file_at_once_and_one_reads() {
    let folder = Folder::new();
    let path = folder.join("a");
    drop(Archive::create(&path, None).unwrap());
    let filed = |seed| {
        let path = path.clone();
        move || {
            let mut archive = Archive::open(path).unwrap();
            let mut random = Random(seed);
            (0..25).flat_map(|_| archive.file(&random.filings(4), CAME + seed as i64).unwrap()).collect::<Vec<_>>()
        }
    };
    let filing: Vec<_> = (0..4).map(|seed| thread::spawn(filed(SEED + seed))).collect();
    let mut reader = Archive::open(&path).unwrap();
    let mut last = 0;
    while last < 400 {
        let held = reader.held(None).unwrap();
        assert!(held.point >= last);
        assert_eq!(held.point % 4, 0, "a batch is there whole or not at all");
        last = held.point;
    }
    let mut filed: Vec<Entry> = filing.into_iter().flat_map(|filing| filing.join().unwrap()).collect();
    filed.sort_by_key(|entry| entry.point);
    assert_eq!(assert_one_list(&path), filed);
}

#[test]
fn one_waits_for_another() {
    let folder = Folder::new();
    let path = folder.join("a");
    let mut archive = Archive::create(&path, None).unwrap();
    let other = Connection::open(&path).unwrap();
    other.execute_batch("BEGIN EXCLUSIVE").unwrap();
    let waiting = thread::spawn(move || archive.file(&Random(SEED).filings(1), CAME).map(|entries| entries.len()));
    thread::sleep(Duration::from_millis(100));
    assert!(!waiting.is_finished());
    other.execute_batch("ROLLBACK").unwrap();
    assert_eq!(waiting.join().unwrap(), Ok(1));
}

/// As a process leaves it that is killed in the middle of a commit: a part of the pages is written, and the journal has what they were.
fn cut_short(path: &Path, left: &Path) {
    let connection = Connection::open(path).unwrap();
    // with room for few pages in memory, pages are written before the commit
    connection.execute_batch("PRAGMA cache_size = 2; PRAGMA synchronous = EXTRA; BEGIN IMMEDIATE").unwrap();
    for point in 101..400 {
        connection.execute("INSERT INTO filing VALUES (?1, 0, 0, zeroblob(40), 9, zeroblob(32))", [point]).unwrap();
    }
    let with = |path: &Path, behind: &str| format!("{}{behind}", path.display());
    for file in ["", "-journal"] {
        fs::copy(with(path, file), with(left, file)).unwrap();
    }
    connection.execute_batch("ROLLBACK").unwrap();
}

#[test]
fn what_a_killed_process_left_is_undone_by_who_reads_or_files_next() {
    let folder = Folder::new();
    let (path, left) = (folder.join("a"), folder.join("left"));
    let mut archive = Archive::create(&path, None).unwrap();
    let filed = archive.file(&Random(SEED).filings(100), CAME).unwrap();
    cut_short(&path, &left);
    assert!(fs::read(&path).unwrap() != fs::read(&left).unwrap(), "it is half written");
    assert_eq!(Archive::open(&left).unwrap().entries(..).unwrap(), filed);
    assert_eq!(folder.files(), ["a", "left"], "and the journal is gone");

    cut_short(&path, &left);
    let new = Archive::open(&left).unwrap().file(&Random(SEED + 1).filings(3), CAME).unwrap();
    assert_eq!(assert_one_list(&left), [filed, new].concat());
}

/// The superuser may write to every file, so that this test runs its second half as somebody else then.
#[test]
fn files_that_may_not_be_written_are_read() {
    if let Some(path) = std::env::var_os("TXINDURBE_READ_ONLY") {
        return read_only(Path::new(&path));
    }
    let folder = Folder::new();
    let path = folder.join("a");
    Archive::create(&path, None).unwrap().file(&Random(SEED).filings(100), CAME).unwrap();
    cut_short(&path, &folder.join("left"));
    let program = folder.join("program");
    fs::copy(std::env::current_exe().unwrap(), &program).unwrap();
    let closed = |name: &str, mode| fs::set_permissions(folder.join(name), Permissions::from_mode(mode)).unwrap();
    closed("a", 0o444);
    closed("left", 0o444);
    closed("left-journal", 0o444);
    closed("program", 0o555);
    closed("", 0o555);
    let mut reader = Command::new(program);
    reader.args(["--exact", "files_that_may_not_be_written_are_read"]).env("TXINDURBE_READ_ONLY", folder.join(""));
    if fs::metadata(&path).unwrap().uid() == 0 {
        reader.uid(65534).current_dir("/");
    }
    let output = reader.output().unwrap();
    closed("", 0o755);
    assert!(output.status.success(), "{}", String::from_utf8_lossy(&output.stdout));
    assert_eq!(folder.files(), ["a", "left", "left-journal", "program"]);
}

fn read_only(folder: &Path) {
    let path = folder.join("a");
    let mut archive = Archive::open(&path).unwrap();
    assert_eq!(archive.held(None).unwrap().point, 100);
    assert_eq!(archive.entries(..).unwrap().len(), 100);
    assert!(matches!(archive.file(&Random(SEED).filings(1), CAME), Err(ArchiveError::ReadOnly { .. })));
    assert_eq!(archive.held(None).unwrap().point, 100);
    assert!(matches!(Archive::create(folder.join("b"), None), Err(ArchiveError::ReadOnly { .. })));
    let error = Archive::open(folder.join("left")).unwrap_err();
    assert!(error.to_string().contains("a filing was cut short and is to be undone first"), "{error:?}");
}
