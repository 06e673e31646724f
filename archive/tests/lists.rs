//! Lists of filings: made, opened, filed into, read at each of their points.

mod common;

use common::{certificate, link, Folder, Plain, Random, CAME};
use std::fs;
use txindurbe::{Filing, Refusal};
use txindurbe_archive::{Archive, ArchiveError, Entry, Kind};

const SEED: u64 = 20;

#[test]
fn a_new_archive_is_one_file_without_filings() {
    let folder = Folder::new();
    let mut archive = Archive::create(folder.join("a"), Some("alma-2027")).unwrap();
    assert_eq!(archive.id(), "alma-2027");
    assert_eq!(archive.last_point(), Ok(0));
    assert_eq!(archive.entries(..), Ok(vec![]));
    assert_eq!(archive.held(None).unwrap().point, 0);
    archive.file(&[(Kind::Certificate, certificate(1, 1, 0, 7, 0, 1))], CAME).unwrap();
    drop(archive);
    assert_eq!(folder.files(), ["a"]);
    assert_eq!(Archive::open(folder.join("a")).unwrap().id(), "alma-2027");
}

#[test]
fn ids_are_random_unless_given() {
    let folder = Folder::new();
    let [first, second] = ["a", "b"].map(|name| Archive::create(folder.join(name), None).unwrap().id().to_string());
    assert_ne!(first, second);
    for id in [first, second] {
        assert_eq!(id.len(), 16);
        assert!(id.bytes().all(|digit| digit.is_ascii_digit() || (b'a'..=b'f').contains(&digit)), "{id}");
    }
    for id in ["", "a b", "ä", "a\n", &"a".repeat(65)] {
        assert_eq!(Archive::create(folder.join("c"), Some(id)).unwrap_err(), ArchiveError::BadId { id: id.into() });
    }
    assert!(Archive::create(folder.join("c"), Some(&"a".repeat(64))).is_ok());
}

#[test]
fn replies_and_stores_are_those_of_a_plain_store_at_each_point() {
    println!("seed {SEED}");
    let mut random = Random(SEED);
    let filings = random.filings(600);
    let mut plain = Plain::new();
    let mut points = vec![plain.clone()];
    let folder = Folder::new();
    let mut archive = Archive::create(folder.join("a"), None).unwrap();
    let mut counts = [0; 3];
    let mut rest = filings.as_slice();
    while !rest.is_empty() {
        let (batch, behind) = rest.split_at(random.below(40).min(rest.len() as u64) as usize);
        rest = behind;
        for (entry, filing) in archive.file(batch, CAME + points.len() as i64).unwrap().into_iter().zip(batch) {
            let reply = plain.file(filing);
            counts[match reply {
                Ok(Filing::Filed) => 0,
                Ok(Filing::Held) => 1,
                Err(_) => 2,
            }] += 1;
            let point = points.len() as u64;
            points.push(plain.clone());
            assert_eq!((entry.point, entry.kind, &entry.words, entry.reply), (point, filing.0, &filing.1, reply));
        }
    }
    assert!(counts.iter().all(|&count| count > 50), "each reply is met: {counts:?}");

    // by the archive that filed, by a new one going on from point to point, and by one that is asked for points before the last asked for
    let reopened = || Archive::open(folder.join("a")).unwrap();
    let forwards = (0..points.len()).collect::<Vec<_>>();
    let backwards = forwards.iter().rev().copied().collect();
    for (mut archive, order) in [(archive, forwards.clone()), (reopened(), forwards), (reopened(), backwards)] {
        let mut digests = vec![[0; 32]; points.len()];
        for point in order {
            let held = archive.held(Some(point as u64)).unwrap();
            assert_eq!(held.point, point as u64);
            assert_eq!((held.store.words(), held.links.words()), points[point].words(), "at {point}");
            digests[point] = held.digest;
        }
        let held = archive.held(None).unwrap();
        assert_eq!(held.point, 600);
        assert_eq!(Some(&held.digest), digests.last());
        let mut different = digests.clone();
        different.sort();
        different.dedup();
        assert_eq!(different.len(), digests.len(), "each point has a digest of its own");
        let path = folder.join("a").to_path_buf();
        assert_eq!(archive.held(Some(601)).unwrap_err(), ArchiveError::NoSuchPoint { path: path.clone(), asked: 601, last: 600 });
        assert_eq!(archive.held(Some(u64::MAX)).unwrap_err(), ArchiveError::NoSuchPoint { path, asked: u64::MAX, last: 600 });
    }
}

#[test]
fn words_are_kept_whatever_they_are() {
    let long = |count| (0..count).map(|word: u32| word.wrapping_mul(0x9e37_79b9)).collect::<Vec<_>>();
    let folder = Folder::new();
    let mut archive = Archive::create(folder.join("a"), None).unwrap();
    let mut filings = Vec::new();
    for kind in [Kind::Certificate, Kind::Link] {
        filings.extend([0, 1, 4, 6, 9, 11, 64, 20_000].map(|count| (kind, long(count))));
    }
    filings.push((Kind::Certificate, certificate(1, 1, 0, 7, 5, 5)));
    let entries = archive.file(&filings, -1).unwrap();
    let replies: Vec<u32> = entries.iter().map(|entry| entry.reply.unwrap_err().number()).collect();
    assert_eq!(replies, [[9; 8].as_slice(), &[18; 8], &[17]].concat());
    assert!(entries.iter().zip(&filings).all(|(entry, filing)| (entry.kind, &entry.words, entry.came) == (filing.0, &filing.1, -1)));
    assert_eq!(Archive::open(folder.join("a")).unwrap().entries(..).unwrap(), entries);
}

#[test]
fn full_stores_refuse_what_is_new_alone() {
    let folder = Folder::new();
    let mut archive = Archive::create(folder.join("a"), None).unwrap();
    let certificates = (0..1601).map(|atom| (Kind::Certificate, certificate(1, 1, 0, atom, 0, 1)));
    let links = (0..257).map(|name| (Kind::Link, link(1, name, 0, 2, name)));
    let mut filings: Vec<_> = certificates.chain(links).collect();
    filings.extend([filings[0].clone(), filings[1601].clone()]);
    let entries = archive.file(&filings, CAME).unwrap();
    let refused: Vec<_> = entries.iter().filter(|entry| entry.reply.is_err()).map(|entry| (entry.point, entry.reply)).collect();
    assert_eq!(refused, [(1601, Err(Refusal::StoreFull)), (1858, Err(Refusal::LinksFull))]);
    assert!(entries[1858..].iter().all(|entry| entry.reply == Ok(Filing::Held)));
    let held = Archive::open(folder.join("a")).unwrap().held(None).unwrap();
    assert_eq!((held.point, held.store.len(), held.links.len()), (1860, 1600, 256));
}

#[test]
fn entries_are_those_of_the_points_asked_for() {
    let folder = Folder::new();
    let mut archive = Archive::create(folder.join("a"), None).unwrap();
    archive.file(&Random(SEED).filings(10), CAME).unwrap();
    let all = archive.entries(..).unwrap();
    assert_eq!(all.iter().map(|entry| entry.point).collect::<Vec<_>>(), (1..=10).collect::<Vec<_>>());
    let some = |from: usize, to: usize| -> Vec<Entry> { all[from - 1..to].to_vec() };
    assert_eq!(archive.entries(0..), Ok(all.clone()));
    assert_eq!(archive.entries(3..=5), Ok(some(3, 5)));
    assert_eq!(archive.entries(3..5), Ok(some(3, 4)));
    assert_eq!(archive.entries(9..=u64::MAX), Ok(some(9, 10)));
    assert_eq!(archive.entries(..=1), Ok(some(1, 1)));
    assert_eq!(archive.entries(..1), Ok(vec![]));
    assert_eq!(archive.entries(11..), Ok(vec![]));
    assert_eq!(archive.entries(u64::MAX..), Ok(vec![]));
    assert_eq!(archive.entries((std::ops::Bound::Excluded(8), std::ops::Bound::Unbounded)), Ok(some(9, 10)));
    assert_eq!(archive.file(&[], CAME), Ok(vec![]));
    assert_eq!(archive.last_point(), Ok(10));
}

#[test]
fn a_digest_is_of_the_list_and_of_the_archives_id() {
    let folder = Folder::new();
    let digest = |name: &str, id, batches: &[usize], came| {
        let mut archive = Archive::create(folder.join(name), Some(id)).unwrap();
        let filings = Random(SEED).filings(30);
        let mut rest = filings.as_slice();
        for &size in batches {
            let (batch, behind) = rest.split_at(size);
            rest = behind;
            archive.file(batch, came).unwrap();
        }
        archive.held(None).unwrap().digest
    };
    let one = digest("a", "one", &[30], CAME);
    assert_eq!(digest("b", "one", &[1, 20, 9], CAME), one);
    assert_ne!(digest("c", "two", &[30], CAME), one);
    assert_ne!(digest("d", "one", &[30], CAME + 1), one);
    assert_ne!(digest("e", "one", &[29], CAME), one);
}

#[test]
fn nothing_is_made_over_a_file_that_is_there() {
    let folder = Folder::new();
    let path = folder.join("a");
    fs::write(&path, "dear to somebody").unwrap();
    assert_eq!(Archive::create(&path, None).unwrap_err(), ArchiveError::AlreadyThere { path: path.clone() });
    assert_eq!(fs::read_to_string(&path).unwrap(), "dear to somebody");
    fs::remove_file(&path).unwrap();
    let mut archive = Archive::create(&path, None).unwrap();
    archive.file(&Random(SEED).filings(3), CAME).unwrap();
    assert_eq!(Archive::create(&path, None).unwrap_err(), ArchiveError::AlreadyThere { path });
    assert_eq!(archive.last_point(), Ok(3));
    let nowhere = folder.join("no/such");
    let said = Archive::create(&nowhere, None).unwrap_err().to_string();
    assert!(said.ends_with("there is no such folder to make an archive in"), "{said}");
}

#[test]
fn names_that_sqlite_has_a_meaning_for_are_files() {
    let folder = Folder::new();
    for name in [":memory:", "file:a?mode=memory"] {
        Archive::create(folder.join(name), None).unwrap().file(&Random(SEED).filings(2), CAME).unwrap();
        assert_eq!(Archive::open(folder.join(name)).unwrap().last_point(), Ok(2));
    }
    assert_eq!(folder.files(), [":memory:", "file:a?mode=memory"]);
}

#[test]
fn what_is_no_archive_is_not_opened() {
    let folder = Folder::new();
    let not_there = folder.join("a");
    assert_eq!(Archive::open(&not_there).unwrap_err(), ArchiveError::NotThere { path: not_there });
    assert_eq!(folder.files(), [""; 0], "nothing is made on the way");

    let refused = |name: &str, words: &str| {
        let before = fs::read(folder.join(name)).ok();
        let error = Archive::open(folder.join(name)).unwrap_err();
        assert!(matches!(error, ArchiveError::NotAnArchive { .. }), "{error:?}");
        assert!(error.to_string().contains(words), "{error}");
        assert_eq!(fs::read(folder.join(name)).ok(), before);
    };
    fs::create_dir(folder.join("folder")).unwrap();
    refused("folder", "it is no file");
    fs::write(folder.join("empty"), "").unwrap();
    refused("empty", "it is empty");
    fs::write(folder.join("text"), "our key archive\n".repeat(1000)).unwrap();
    refused("text", "it does not begin as one does");
    fs::write(folder.join("short"), "x").unwrap();
    refused("short", "a file of some other program");
    rusqlite::Connection::open(folder.join("database")).unwrap().execute_batch("CREATE TABLE filing (point)").unwrap();
    refused("database", "a file of some other program");
}

#[test]
fn an_archive_of_a_later_version_is_not_opened() {
    let folder = Folder::new();
    let path = folder.join("a");
    drop(Archive::create(&path, None).unwrap());
    rusqlite::Connection::open(&path).unwrap().execute_batch("PRAGMA user_version = 2").unwrap();
    let error = Archive::open(&path).unwrap_err();
    assert_eq!(error, ArchiveError::LaterVersion { path, form: 2 });
    assert!(error.to_string().contains("made by a later version"), "{error}");
}

#[test]
fn the_list_only_grows() {
    let folder = Folder::new();
    let mut archive = Archive::create(folder.join("a"), None).unwrap();
    archive.file(&Random(SEED).filings(5), CAME).unwrap();
    let entries = archive.entries(..).unwrap();
    let by_hand = rusqlite::Connection::open(folder.join("a")).unwrap();
    let row = "0, 0, x'', 9, zeroblob(32)";
    for sql in [
        "UPDATE filing SET reply = 1 WHERE point = 1".to_string(),
        "DELETE FROM filing WHERE point = 5".into(),
        "DELETE FROM filing".into(),
        format!("INSERT OR REPLACE INTO filing VALUES (3, {row})"),
        format!("INSERT INTO filing VALUES (7, {row})"),
        format!("INSERT INTO filing VALUES (0, {row})"),
        format!("INSERT INTO filing VALUES (NULL, {row})"),
        "UPDATE archive SET id = 'another'".into(),
        "DELETE FROM archive".into(),
        "INSERT INTO archive VALUES (2, 'another', zeroblob(32))".into(),
    ] {
        assert!(by_hand.execute_batch(&sql).is_err(), "{sql}");
    }
    assert_eq!(archive.entries(..), Ok(entries));
}
