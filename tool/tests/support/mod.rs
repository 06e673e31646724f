//! A folder with policies and archives, and the tool run in it. Not every test uses all of it.

#![allow(dead_code)]

use std::fs;
use std::path::PathBuf;
use std::process::Command;
use std::sync::atomic::{AtomicUsize, Ordering};
use txindurbe::{Certificate, Key, Link, Minute, Polarity, Row, Validity};
use txindurbe_archive::{Archive, Kind};

/// What is filed, a minute apart from 2000-01-01 00:01 on.
pub type Filings = Vec<(Kind, Vec<u32>)>;

/// Gone at the end.
pub struct Folder(PathBuf);

/// What came of a command.
pub struct Ran {
    pub status: i32,
    pub out: String,
    pub err: String,
}

impl Folder {
    pub fn new() -> Folder {
        static NEXT: AtomicUsize = AtomicUsize::new(0);
        let number = NEXT.fetch_add(1, Ordering::Relaxed);
        let folder = std::env::temp_dir().join(format!("txindurbe-tool-{}-{number}", std::process::id()));
        fs::create_dir_all(&folder).expect("a folder");
        Folder(folder)
    }

    /// A policy `p.qcm` and an archive `a` that is called `tested`.
    pub fn with(policy: &str, filings: Filings) -> Folder {
        let folder = Folder::new();
        folder.write("p.qcm", policy);
        folder.archive("a", "tested", filings);
        folder
    }

    pub fn write(&self, name: &str, text: &str) {
        let path = self.0.join(name);
        fs::create_dir_all(path.parent().expect("a folder")).expect("a folder");
        fs::write(path, text).expect("a file is written");
    }

    pub fn archive(&self, name: &str, id: &str, filings: Filings) {
        let mut archive = Archive::create(self.0.join(name), Some(id)).expect("a new archive");
        for (minute, filing) in (1..).zip(filings) {
            archive.file(&[filing], 946_684_800 + 60 * minute).expect("it is filed");
        }
    }

    pub fn run(&self, arguments: &[&str]) -> Ran {
        let output = Command::new(env!("CARGO_BIN_EXE_txindurbe")).args(arguments).current_dir(&self.0).output().expect("the tool runs");
        let text = |bytes: Vec<u8>| String::from_utf8(bytes).expect("the tool writes UTF-8");
        Ran { status: output.status.code().expect("an exit status"), out: text(output.stdout), err: text(output.stderr) }
    }
}

impl Drop for Folder {
    fn drop(&mut self) {
        let _ = fs::remove_dir_all(&self.0);
    }
}

/// The key certified that the row is in its + list, or is not in its − list, from minute 0 up to 10.
pub fn said(key: u32, list: i32, row: impl Into<Row>) -> (Kind, Vec<u32>) {
    said_for(key, list, row, 0, 10)
}

/// The same for another term. The list's number has its sign.
pub fn said_for(key: u32, list: i32, row: impl Into<Row>, first: u32, end: u32) -> (Kind, Vec<u32>) {
    let polarity = if list < 0 { Polarity::Minus } else { Polarity::Plus };
    let validity = Validity { first: Minute::new(first), end: Minute::new(end) };
    let name = list.unsigned_abs() as u16;
    let certificate = Certificate { key: Key::new(key), name, polarity, row: row.into(), validity };
    (Kind::Certificate, certificate.words().to_vec())
}

/// The first key's + list contains the other's, or its − list is within the other's.
pub fn linked(key: u32, list: i32, other_key: u32, other_list: u16) -> (Kind, Vec<u32>) {
    let polarity = if list < 0 { Polarity::Minus } else { Polarity::Plus };
    let name = list.unsigned_abs() as u16;
    let link = Link { key: Key::new(key), name, polarity, other_key: Key::new(other_key), other_name: other_list };
    (Kind::Link, link.words().to_vec())
}

/// The atom of a key.
pub fn key(number: u32) -> u32 {
    Key::new(number).word()
}
