//! Stores of both kinds saved and loaded again, and what is not loaded. They link the compiled library: `bash library` first.

mod filed;

use filed::{links_of, store_of};
use std::error::Error;
use std::io::{self, Read, Write};
use txindurbe::sizes::{LINKS_WORDS, STORE_WORDS};
use txindurbe::{Certificate, Key, Link, Links, LoadError, Minute, Refusal, Store, Validity};

/// A line of 16 bytes, then the count of words in four.
const HEADER: usize = 20;

fn store() -> Store {
    let term = Validity { first: Minute::new(0), end: Minute::new(1) };
    store_of((0..3).map(|n| Certificate::listed(Key::new(1), 1, [n], term)))
}

fn links() -> Links {
    links_of((0..3).map(|n| Link::containing(Key::new(1), n, Key::new(2), 1)))
}

fn saved_store() -> Vec<u8> {
    let mut saved = Vec::new();
    store().save(&mut saved).unwrap();
    saved
}

fn saved_links() -> Vec<u8> {
    let mut saved = Vec::new();
    links().save(&mut saved).unwrap();
    saved
}

#[test]
fn what_is_saved_is_loaded_again() {
    assert_eq!(Store::load(&saved_store()[..]).unwrap(), store());
    assert_eq!(Links::load(&saved_links()[..]).unwrap(), links());
    let mut empty = Vec::new();
    Store::new().save(&mut empty).unwrap();
    assert_eq!(Store::load(&empty[..]).unwrap(), Store::new());
    // a longer store is fine, whatever its last words are
    let longer = Store::from_words([store().words(), &[5; 7]].concat());
    let mut saved = Vec::new();
    longer.save(&mut saved).unwrap();
    assert_eq!(Store::load(&saved[..]).unwrap(), longer);
}

#[test]
fn the_bytes_are_a_line_a_count_and_the_words_lowest_byte_first() {
    for (saved, line, words) in
        [(saved_store(), b"txindurbe store\n", store().words().to_vec()), (saved_links(), b"txindurbe links\n", links().words().to_vec())]
    {
        let bytes: Vec<u8> = words.iter().flat_map(|word| word.to_le_bytes()).collect();
        assert_eq!(saved[..16], line[..]);
        assert_eq!(saved[16..HEADER], (words.len() as u32).to_le_bytes());
        assert_eq!(saved[HEADER..], bytes);
    }
    // 16,001 words, of which the first are a count of 3 and the key k1
    assert_eq!(saved_store()[16..28], [0x81, 0x3e, 0, 0, 3, 0, 0, 0, 1, 0, 0, 0x80]);
    assert_eq!((saved_store().len(), saved_links().len()), (HEADER + 4 * STORE_WORDS, HEADER + 4 * LINKS_WORDS));
}

#[test]
fn what_is_cut_short_is_not_loaded() {
    let (store, links) = (saved_store(), saved_links());
    for length in 0..store.len() {
        assert!(matches!(Store::load(&store[..length]), Err(LoadError::CutShort)), "{length}");
    }
    for length in 0..links.len() {
        assert!(matches!(Links::load(&links[..length]), Err(LoadError::CutShort)), "{length}");
    }
}

#[test]
fn what_goes_on_is_not_loaded() {
    for more in [1, 2, 4, 1_000] {
        assert!(matches!(Store::load(&[saved_store(), vec![0; more]].concat()[..]), Err(LoadError::LeftOver)), "{more}");
        assert!(matches!(Links::load(&[saved_links(), vec![0; more]].concat()[..]), Err(LoadError::LeftOver)), "{more}");
    }
    // without end
    assert!(matches!(Store::load(io::Cursor::new(saved_store()).chain(io::repeat(0))), Err(LoadError::LeftOver)));
}

#[test]
fn something_else_is_not_loaded() {
    assert!(matches!(Links::load(&saved_store()[..]), Err(LoadError::OtherKind("txindurbe links"))));
    assert!(matches!(Store::load(&saved_links()[..]), Err(LoadError::OtherKind("txindurbe store"))));
    assert!(matches!(Store::load(&b"key,name\n"[..]), Err(LoadError::OtherKind(_))));
    assert!(matches!(Store::load(io::repeat(0)), Err(LoadError::OtherKind(_))));
    for place in 0..16 {
        let mut saved = saved_store();
        saved[place] ^= 1;
        assert!(matches!(Store::load(&saved[..]), Err(LoadError::OtherKind(_))), "{place}");
    }
}

#[test]
fn damaged_words_are_not_loaded() {
    // a count over 1,600; a key that is a number; a width of 5; a term that ends at its first minute
    for (word, damage) in [(0, 1_601), (1, 1), (4, 5), (10, 0)] {
        let mut saved = saved_store();
        saved[HEADER + 4 * word..][..4].copy_from_slice(&u32::to_le_bytes(damage));
        assert!(matches!(Store::load(&saved[..]), Err(LoadError::Unsound(Refusal::BadStore))), "{word}");
    }
    for (word, damage) in [(0, 257), (1, 1), (3, 2), (5, 65_536)] {
        let mut saved = saved_links();
        saved[HEADER + 4 * word..][..4].copy_from_slice(&u32::to_le_bytes(damage));
        assert!(matches!(Links::load(&saved[..]), Err(LoadError::Unsound(Refusal::BadLink))), "{word}");
    }
    // a header that announces one word less, and a file that has one less
    let mut shorter = saved_store();
    shorter[16..HEADER].copy_from_slice(&(STORE_WORDS as u32 - 1).to_le_bytes());
    assert!(matches!(Store::load(&shorter[..shorter.len() - 4]), Err(LoadError::Unsound(Refusal::BadStore))));
    // one that announces all words that there can be
    shorter[16..HEADER].copy_from_slice(&[0xff; 4]);
    assert!(matches!(Store::load(&shorter[..]), Err(LoadError::CutShort)));
}

/// What is unsound can be written, and is not read again.
#[test]
fn an_unsound_store_is_not_loaded() {
    for words in [vec![], vec![0; 5], vec![2_000; STORE_WORDS]] {
        let mut saved = Vec::new();
        Store::from_words(words.clone()).save(&mut saved).unwrap();
        assert!(matches!(Store::load(&saved[..]), Err(LoadError::Unsound(Refusal::BadStore))));
        saved.clear();
        Links::from_words(words).save(&mut saved).unwrap();
        assert!(matches!(Links::load(&saved[..]), Err(LoadError::Unsound(Refusal::BadLink))));
    }
}

/// One byte at a time, and then an error, or the end.
struct Slow<'a> {
    bytes: &'a [u8],
    fails: bool,
}

impl Read for Slow<'_> {
    fn read(&mut self, buffer: &mut [u8]) -> io::Result<usize> {
        match (self.bytes, buffer.first_mut()) {
            ([first, rest @ ..], Some(place)) => {
                *place = *first;
                self.bytes = rest;
                Ok(1)
            }
            ([], Some(_)) if self.fails => Err(io::Error::other("the disk is gone")),
            _ => Ok(0),
        }
    }
}

/// Takes so many bytes.
struct Full(usize);

impl Write for Full {
    fn write(&mut self, bytes: &[u8]) -> io::Result<usize> {
        let taken = bytes.len().min(self.0);
        self.0 -= taken;
        if taken == 0 {
            return Err(io::Error::other("the disk is full"));
        }
        Ok(taken)
    }

    fn flush(&mut self) -> io::Result<()> {
        Ok(())
    }
}

#[test]
fn reading_and_writing_may_fail() {
    let saved = saved_links();
    assert_eq!(Links::load(Slow { bytes: &saved, fails: false }).unwrap(), links());
    for length in [0, 10, 18, 100] {
        let error = Links::load(Slow { bytes: &saved[..length], fails: true }).unwrap_err();
        assert!(matches!(error, LoadError::Reading(_)), "{length}");
        assert_eq!(error.to_string(), "it cannot be read: the disk is gone");
        assert!(error.source().is_some());
    }
    for length in [0, 10, 18, 100, saved.len() - 1] {
        assert_eq!(links().save(Full(length)).unwrap_err().to_string(), "the disk is full");
    }
    assert!(links().save(Full(saved.len())).is_ok());
}

#[test]
fn errors_are_told_in_words() {
    for (error, text) in [
        (LoadError::OtherKind("txindurbe store"), "it is something else: it does not begin with the line \"txindurbe store\""),
        (LoadError::CutShort, "it is cut short: it ends before the last word that its header announces"),
        (LoadError::LeftOver, "it goes on behind the last word that its header announces"),
        (LoadError::Unsound(Refusal::BadStore), "its words are damaged: refusal 8: the store is too short or unsound"),
    ] {
        assert_eq!(error.to_string(), text);
    }
}
