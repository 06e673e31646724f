//! What the tests of the archive share: a folder of their own, random filings, and a plain store beside the archive's.
#![allow(dead_code)]

use std::fs;
use std::path::PathBuf;
use std::sync::atomic::{AtomicU32, Ordering};
use txindurbe::{Filing, Key, Links, Refusal, Store};
use txindurbe_archive::Kind;

/// When the tests' filings come: seconds since 1970.
pub const CAME: i64 = 1_800_000_000;

/// A folder that is gone after the test.
pub struct Folder(PathBuf);

impl Folder {
    pub fn new() -> Folder {
        static COUNT: AtomicU32 = AtomicU32::new(0);
        let name = format!("{}-{}", std::process::id(), COUNT.fetch_add(1, Ordering::Relaxed));
        let path = std::env::temp_dir().join(format!("txindurbe-archive-{name}"));
        fs::create_dir_all(&path).unwrap();
        Folder(path)
    }

    pub fn join(&self, name: &str) -> PathBuf {
        self.0.join(name)
    }

    /// The names of the files in it.
    pub fn files(&self) -> Vec<String> {
        let mut files: Vec<_> = fs::read_dir(&self.0).unwrap().map(|file| file.unwrap().file_name().into_string().unwrap()).collect();
        files.sort();
        files
    }
}

impl Drop for Folder {
    fn drop(&mut self) {
        let _ = fs::remove_dir_all(&self.0);
    }
}

/// Numbers that look random and are the same in each run (splitmix64).
pub struct Random(pub u64);

impl Random {
    pub fn below(&mut self, bound: u64) -> u64 {
        self.0 = self.0.wrapping_add(0x9e37_79b9_7f4a_7c15);
        let mixed = (self.0 ^ (self.0 >> 30)).wrapping_mul(0xbf58_476d_1ce4_e5b9);
        let mixed = (mixed ^ (mixed >> 27)).wrapping_mul(0x94d0_49bb_1331_11eb);
        (mixed ^ (mixed >> 31)) % bound
    }

    fn word(&mut self, bound: u32) -> u32 {
        self.below(bound.into()) as u32
    }

    /// Certificates and links over few keys, names and rows, so that some come again; each third is malformed in some way.
    pub fn filing(&mut self) -> (Kind, Vec<u32>) {
        let kind = if self.below(4) == 0 { Kind::Link } else { Kind::Certificate };
        let mut words = match kind {
            Kind::Certificate => certificate(self.word(3), self.word(3), self.word(2), self.word(20), self.word(3), 3),
            Kind::Link => link(self.word(3), self.word(3), self.word(2), self.word(3), self.word(3)),
        };
        match self.below(9) {
            0 => words.truncate(self.word(10) as usize),
            1 => words.push(self.word(u32::MAX)),
            2 => {
                let place = self.below(words.len() as u64) as usize;
                words[place] = self.word(u32::MAX);
            }
            _ => {}
        }
        (kind, words)
    }

    pub fn filings(&mut self, count: usize) -> Vec<(Kind, Vec<u32>)> {
        (0..count).map(|_| self.filing()).collect()
    }
}

/// The words of a certificate of a row of one atom.
pub fn certificate(key: u32, name: u32, polarity: u32, atom: u32, first: u32, end: u32) -> Vec<u32> {
    vec![Key::new(key).word(), name, polarity, 1, atom, 0, 0, 0, first, end]
}

pub fn link(key: u32, name: u32, polarity: u32, other_key: u32, other_name: u32) -> Vec<u32> {
    vec![Key::new(key).word(), name, polarity, Key::new(other_key).word(), other_name]
}

/// The engine's stores by themselves.
#[derive(Clone)]
pub struct Plain {
    pub store: Store,
    pub links: Links,
}

impl Plain {
    pub fn new() -> Plain {
        Plain { store: Store::new(), links: Links::new() }
    }

    pub fn file(&mut self, (kind, words): &(Kind, Vec<u32>)) -> Result<Filing, Refusal> {
        match kind {
            Kind::Certificate => self.store.file_words(words),
            Kind::Link => self.links.file_words(words),
        }
    }

    /// The words of both.
    pub fn words(&self) -> (&[u32], &[u32]) {
        (self.store.words(), self.links.words())
    }
}
