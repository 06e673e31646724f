//! Terms of validity, queries at a minute and dates, through the safe types. What is expected was worked out by hand. They link the compiled library:
//! `bash library` first.

mod filed;

use filed::store_of;
use txindurbe::calls::{self, Dated, Minutes};
use txindurbe::{
    Certificate, Date, Engine, Expression, Filing, Key, Links, Minute, Part, Polarity, Policy, Refusal, Row, Rows, Store, Table, Validity,
};

/// No list that is read here is under it.
const OUR_KEY: Key = Key::new(9);
const OBSERVATORY: Key = Key::new(1);
const RELEASED: u16 = 1;

fn term(first: u32, end: u32) -> Validity {
    Validity { first: Minute::new(first), end: Minute::new(end) }
}

fn released(number: u32, validity: Validity) -> Certificate {
    Certificate::listed(OBSERVATORY, RELEASED, [number], validity)
}

/// What is released, at least.
fn at_least(store: &Store, minute: u32) -> Result<Vec<Row>, Refusal> {
    let policy = Policy::new(OUR_KEY, &[]).unwrap();
    let query = policy.query(&Expression::list(OBSERVATORY, RELEASED, Polarity::Plus)).unwrap();
    match Engine::new().query(&policy, &query, Minute::new(minute), store, &Links::new())?.table() {
        Table::Lower(Rows::Only(rows)) => Ok(rows.clone()),
        table => panic!("{table}"),
    }
}

#[test]
fn a_certificate_holds_from_its_first_minute_up_to_but_without_its_end() {
    let certificate = released(7, term(10, 20));
    assert_eq!(certificate.words(), [OBSERVATORY.word(), 1, 0, 1, 7, 0, 0, 0, 10, 20]);
    let store = store_of([certificate]);
    for (minute, holds) in [(0, false), (9, false), (10, true), (19, true), (20, false), (u32::MAX, false)] {
        assert_eq!(certificate.validity.holds_at(Minute::new(minute)), holds, "{minute}");
        assert_eq!(at_least(&store, minute), Ok(if holds { vec![Row::from([7])] } else { vec![] }), "{minute}");
    }
}

#[test]
fn one_row_has_several_terms_and_counts_once() {
    let terms = [term(0, 30), term(5, 10), term(5, 11), term(6, 7)];
    let mut store = store_of([3, 1, 0, 2].map(|place| released(7, terms[place])));
    assert_eq!(store.file(&released(7, terms[1])), Ok(Filing::Held));
    let certified: Vec<(Row, Validity)> = store.certificates_of(OBSERVATORY, RELEASED, Polarity::Plus).collect();
    assert_eq!(certified, terms.map(|term| (Row::from([7]), term)));
    assert!(terms.is_sorted());
    assert_eq!(at_least(&store, 6), Ok(vec![Row::from([7])]));
}

#[test]
fn the_different_rows_that_hold_are_limited() {
    let mut store = store_of((0..128).flat_map(|n| [released(n, term(0, 20)), released(n, term(10, 30))]));
    assert_eq!(at_least(&store, 10).map(|rows| rows.len()), Ok(128));
    assert_eq!(store.file(&released(128, term(20, 30))), Ok(Filing::Filed));
    assert_eq!(at_least(&store, 19).map(|rows| rows.len()), Ok(128));
    assert_eq!(at_least(&store, 20), Err(Refusal::TooManyRows(Part::Query)));
    assert_eq!(at_least(&store, 30), Ok(vec![]));
}

#[test]
fn an_end_not_after_its_first_minute_is_refused() {
    let mut store = Store::new();
    for (first, end) in [(0, 0), (5, 5), (5, 4), (u32::MAX, 0)] {
        assert_eq!(store.file(&released(7, term(first, end))), Err(Refusal::BadTerm));
    }
    assert_eq!(store, Store::new());
    // what else is unsound comes first
    let mut by_a_number = released(7, term(5, 5)).words();
    by_a_number[0] = 5;
    assert_eq!(store.file_words(&by_a_number), Err(Refusal::BadCertificate));
    // held, it makes the store unsound
    let mut words = store_of([released(7, term(0, 1))]).words().to_vec();
    words[10] = 0;
    assert_eq!(at_least(&Store::from_words(words), 0), Err(Refusal::BadStore));
}

#[test]
fn a_store_takes_1600_certificates() {
    let mut store = store_of((0..1_600).map(|n| released(n / 2, term(n % 2, 2))));
    assert_eq!(store.file(&released(0, term(0, 2))), Ok(Filing::Held));
    assert_eq!(store.file(&released(0, term(0, 1))), Err(Refusal::StoreFull));
    assert_eq!(store.file(&released(0, term(1, 1))), Err(Refusal::BadTerm));
}

#[test]
fn dates_become_minutes_and_back() {
    let date = |year, month, day, hour, minute| Date { year, month, day, hour, minute };
    let known = [
        (date(2000, 1, 1, 0, 0), 0),
        (date(2000, 2, 29, 23, 59), 60 * 1_440 - 1),
        (date(2001, 1, 1, 0, 0), 366 * 1_440),
        (date(2001, 3, 1, 12, 30), (366 + 59) * 1_440 + 750),
        (date(2099, 12, 31, 23, 59), 52_595_999),
    ];
    for (date, number) in known {
        assert_eq!(Minute::from_date(date), Ok(Minute::new(number)));
        assert_eq!(Minute::new(number).date(), Ok(date));
    }
    let day = |year, month, day| date(year, month, day, 0, 0);
    for odd in [day(2001, 2, 29), day(2026, 4, 31), day(2026, 13, 1), day(2026, 1, 0), day(1999, 12, 31), day(2100, 1, 1), date(2026, 1, 1, 24, 0)] {
        assert_eq!(Minute::from_date(odd), Err(Refusal::BadDate), "{odd:?}");
    }
    assert_eq!(Minute::new(52_596_000).date(), Err(Refusal::BadDate));
    assert_eq!(Validity::from_dates(day(2027, 1, 1), day(2027, 2, 29)), Err(Refusal::BadDate));
}

#[test]
fn refused_conversions_hand_out_zeros() {
    assert_eq!(calls::minutes([2001, 2, 29, 0, 0]), Minutes { number: 16, minutes: 0 });
    assert_eq!(calls::date(u32::MAX), Dated { number: 16, date: [0; 5] });
}
