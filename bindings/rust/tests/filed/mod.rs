//! Stores in which all of these were filed. Not every test needs both.
#![allow(dead_code)]

use txindurbe::{Certificate, Filing, Link, Links, Store};

pub fn store_of(certificates: impl IntoIterator<Item = Certificate>) -> Store {
    let mut store = Store::new();
    for certificate in certificates {
        assert_eq!(store.file(&certificate), Ok(Filing::Filed));
    }
    store
}

pub fn links_of(links: impl IntoIterator<Item = Link>) -> Links {
    let mut store = Links::new();
    for link in links {
        assert_eq!(store.file(&link), Ok(Filing::Filed));
    }
    store
}
