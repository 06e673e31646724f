//! What stores tell of what they hold, and certificates and links from words. They link the compiled library: `bash library` first.

mod filed;

use filed::{links_of, store_of};
use txindurbe::sizes::{CERTIFICATE_WORDS, LINK_WORDS, MOST_CERTIFICATES, STORE_WORDS};
use txindurbe::{Certificate, Filing, Key, Link, Links, Minute, Name, Polarity, Refusal, Row, Store, Validity};

const K1: Key = Key::new(1);
const K2: Key = Key::new(2);
const TERM: Validity = Validity { first: Minute::new(0), end: Minute::new(10) };
const LATER: Validity = Validity { first: Minute::new(5), end: Minute::new(10) };

fn name(key: Key, number: u16, polarity: Polarity) -> Name {
    Name { key, number, polarity }
}

/// In the order of a store: key, name, polarity, row, term.
fn certificates() -> [Certificate; 7] {
    [
        Certificate::listed(K1, 1, [7], TERM),
        Certificate::listed(K1, 1, [7], LATER),
        Certificate::listed(K1, 1, [7, 1], TERM),
        Certificate::listed(K1, 1, [8], TERM),
        Certificate::not_listed(K1, 1, [7], TERM),
        Certificate::listed(K1, 2, [K2], TERM),
        Certificate::listed(K2, 1, [7], TERM),
    ]
}

fn links() -> [Link; 4] {
    [Link::containing(K1, 1, K2, 1), Link::containing(K1, 1, K2, 2), Link::contained(K1, 1, K2, 1), Link::containing(K2, 1, K1, 1)]
}

#[test]
fn a_store_tells_what_it_holds_in_order() {
    let in_order = certificates();
    let mut store = store_of([5, 0, 6, 3, 1, 4, 2].map(|place| in_order[place]));
    assert_eq!((store.len(), store.is_empty(), store.is_sound()), (7, false, true));
    assert_eq!(store.iter().len(), 7);
    assert_eq!(store.iter().collect::<Vec<_>>(), in_order);
    let names =
        [(name(K1, 1, Polarity::Plus), 4), (name(K1, 1, Polarity::Minus), 1), (name(K1, 2, Polarity::Plus), 1), (name(K2, 1, Polarity::Plus), 1)];
    assert_eq!(store.names().collect::<Vec<_>>(), names);
    assert_eq!(names.map(|(name, _)| name.to_string()), ["k1.1+", "k1.1-", "k1.2+", "k2.1+"]);
    // neither what is held already nor what is refused is one more
    assert_eq!(store.file(&in_order[3]), Ok(Filing::Held));
    assert_eq!(store.file_words(&[]), Err(Refusal::BadCertificate));
    assert_eq!(store.len(), 7);
}

#[test]
fn a_link_store_tells_what_it_holds_in_order() {
    let in_order = links();
    let links = links_of([3, 1, 0, 2].map(|place| in_order[place]));
    assert_eq!((links.len(), links.is_empty(), links.is_sound()), (4, false, true));
    assert_eq!(links.iter().collect::<Vec<_>>(), in_order);
    let names = [(name(K1, 1, Polarity::Plus), 2), (name(K1, 1, Polarity::Minus), 1), (name(K2, 1, Polarity::Plus), 1)];
    assert_eq!(links.names().collect::<Vec<_>>(), names);
    assert_eq!((links.iter().nth(2).unwrap().list(), links.iter().nth(2).unwrap().other_list()), (names[1].0, name(K2, 1, Polarity::Minus)));
}

#[test]
fn empty_and_full_ones_tell_it_too() {
    for empty in [Store::new(), Store::default(), Store::from_words([&[0][..], &[9; STORE_WORDS]].concat())] {
        assert_eq!((empty.len(), empty.is_empty(), empty.is_sound()), (0, true, true));
        assert_eq!((empty.iter().count(), empty.names().count()), (0, 0));
    }
    assert_eq!((Links::new().len(), Links::new().is_empty(), Links::new().names().count()), (0, true, 0));
    let full = store_of((0..1_600).map(|n| Certificate::listed(K1, (n / 400) as u16, [n], TERM)));
    assert_eq!((full.len(), full.iter().last().unwrap().row), (MOST_CERTIFICATES, Row::from([1_599])));
    assert_eq!(full.names().map(|(_, count)| count).collect::<Vec<_>>(), [400; 4]);
}

/// Words for words, each way in which one is unsound: filing no words gets 8 then, and 9 into a sound one.
#[test]
fn an_unsound_store_holds_nothing() {
    let sound = store_of(certificates()).words().to_vec();
    let changed = |place: usize, word| {
        let mut words = sound.clone();
        words[place] = word;
        words
    };
    let mut out_of_order = sound.clone();
    out_of_order[1..1 + 2 * CERTIFICATE_WORDS].rotate_left(CERTIFICATE_WORDS);
    let unsound = [vec![], vec![0], sound[..STORE_WORDS - 1].to_vec(), changed(0, 8), changed(0, 1_601), changed(1, 5), changed(10, 0), out_of_order];
    for words in unsound {
        let mut store = Store::from_words(words);
        assert_eq!((store.len(), store.is_empty(), store.is_sound()), (0, true, false));
        assert_eq!((store.iter().count(), store.names().count()), (0, 0));
        assert_eq!(store.certificates_of(K1, 1, Polarity::Plus).count(), 0);
        assert_eq!(store.file_words(&[]), Err(Refusal::BadStore));
    }
    for words in [sound.clone(), changed(0, 6), changed(STORE_WORDS - 1, 5), [&sound[..], &[5]].concat()] {
        let mut store = Store::from_words(words);
        assert_eq!((store.len(), store.is_sound()), (store.words()[0] as usize, true));
        assert_eq!(store.file_words(&[]), Err(Refusal::BadCertificate));
    }
}

#[test]
fn an_unsound_link_store_holds_nothing() {
    let sound = links_of(links()).words().to_vec();
    let mut of_a_number = sound.clone();
    of_a_number[1] = 5;
    let mut out_of_order = sound.clone();
    out_of_order[1..1 + 2 * LINK_WORDS].rotate_left(LINK_WORDS);
    for words in [vec![], sound[..sound.len() - 1].to_vec(), of_a_number, out_of_order] {
        let mut links = Links::from_words(words);
        assert_eq!((links.len(), links.is_empty(), links.is_sound()), (0, true, false));
        assert_eq!((links.iter().count(), links.names().count()), (0, 0));
        assert_eq!(links.file(&Link::containing(K1, 7, K2, 7)), Err(Refusal::BadLink));
    }
    assert_eq!(Links::from_words(sound).len(), 4);
}

/// Each word in turn is another one, or the last are missing: words are a certificate where the engine does not refuse them as none.
#[test]
fn certificates_are_read_where_the_engine_takes_them() {
    let others = [0, 1, 2, 3, 4, 5, 65_535, 65_536, (1 << 31) - 1, 1 << 31, u32::MAX];
    let (mut read, mut not_read) = (0, 0);
    for certificate in certificates() {
        let words = certificate.words();
        assert_eq!(Certificate::from_words(&words), Some(certificate));
        for place in 0..CERTIFICATE_WORDS {
            assert_eq!(Certificate::from_words(&words[..place]), None);
            for other in others {
                let mut words = words;
                words[place] = other;
                let refused = Store::new().file_words(&words) == Err(Refusal::BadCertificate);
                match Certificate::from_words(&words) {
                    Some(certificate) => assert_eq!((certificate.words(), refused), (words, false)),
                    None => assert!(refused, "{words:?}"),
                }
                (read, not_read) = if refused { (read, not_read + 1) } else { (read + 1, not_read) };
            }
        }
        assert_eq!(Certificate::from_words(&[&words[..], &[0]].concat()), None);
    }
    assert!(read > 100 && not_read > 100, "{read}, {not_read}");
}

#[test]
fn links_are_read_where_the_engine_takes_them() {
    for link in links() {
        let words = link.words();
        assert_eq!(Link::from_words(&words), Some(link));
        for place in 0..LINK_WORDS {
            assert_eq!(Link::from_words(&words[..place]), None);
            for other in [0, 1, 2, 65_535, 65_536, (1 << 31) - 1, 1 << 31, u32::MAX] {
                let mut words = words;
                words[place] = other;
                let refused = Links::new().file_words(&words) == Err(Refusal::BadLink);
                assert_eq!(Link::from_words(&words).map(|link| link.words()), (!refused).then_some(words), "{words:?}");
            }
        }
    }
}
