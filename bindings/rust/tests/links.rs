//! Lists that include lists, through the safe types. What is expected was worked out by hand. They link the compiled library: `bash library` first.

mod filed;

use filed::{links_of, store_of};
use txindurbe::calls::{self, Lent};
use txindurbe::sizes::{ANSWER_WORDS, DEFINITIONS_WORDS, LINKS_WORDS, SCRATCH_WORDS};
use txindurbe::{
    variable, Certificate, Definition, Engine, Expression, Filing, Guard, Key, Link, Links, Minute, Part, Polarity, Policy, Refusal, Row, Rows,
    Store, Table, Validity,
};

/// No list that is read here is under it.
const OUR_KEY: Key = Key::new(9);
const K1: Key = Key::new(1);
const K2: Key = Key::new(2);
const K3: Key = Key::new(3);
const RELEASED: u16 = 1;
const WITHDRAWN: u16 = 2;
const NOW: Minute = Minute::new(0);
const TERM: Validity = Validity { first: NOW, end: Minute::new(1) };

/// What is asked for at the minute, under a policy without definitions.
fn ask(expression: &Expression, store: &Store, links: &Links) -> Result<Table, Refusal> {
    ask_under(&Policy::new(OUR_KEY, &[]).unwrap(), expression, store, links)
}

fn ask_under(policy: &Policy, expression: &Expression, store: &Store, links: &Links) -> Result<Table, Refusal> {
    let query = policy.query(expression).unwrap();
    Engine::new().query(policy, &query, NOW, store, links).map(|answer| answer.table().clone())
}

fn atoms(rows: &[Row]) -> Vec<u32> {
    rows.iter().map(|row| row.atoms()[0].word()).collect()
}

/// The rows released by k1, k2 and k3, of whom 7, 8 and 9 are certified in turn, with links between these lists.
fn released<const N: usize>(links: [(Key, Key); N]) -> [Vec<u32>; 3] {
    let store = store_of([(K1, 7), (K2, 8), (K3, 9)].map(|(key, atom)| Certificate::listed(key, RELEASED, [atom], TERM)));
    let links = links_of(links.map(|(key, other)| Link::containing(key, RELEASED, other, RELEASED)));
    [K1, K2, K3].map(|key| match ask(&Expression::list(key, RELEASED, Polarity::Plus), &store, &links) {
        Ok(Table::Lower(Rows::Only(rows))) => atoms(&rows),
        other => panic!("{other:?}"),
    })
}

#[test]
fn plus_lists_gain_what_links_reach() {
    assert_eq!(released([]), [vec![7], vec![8], vec![9]]);
    // a chain; a circle of three; a link from a list to itself; two ways to one list
    assert_eq!(released([(K1, K2), (K2, K3)]), [vec![7, 8, 9], vec![8, 9], vec![9]]);
    assert_eq!(released([(K1, K2), (K2, K3), (K3, K1)]), [vec![7, 8, 9], vec![7, 8, 9], vec![7, 8, 9]]);
    assert_eq!(released([(K1, K1), (K1, K2)]), [vec![7, 8], vec![8], vec![9]]);
    assert_eq!(released([(K1, K2), (K1, K3), (K2, K3)]), [vec![7, 8, 9], vec![8, 9], vec![9]]);
}

#[test]
fn minus_lists_lose_what_links_reach() {
    let store = store_of([(K1, 7), (K2, 8)].map(|(key, atom)| Certificate::not_listed(key, WITHDRAWN, [atom], TERM)));
    let withdrawn = |key, links: &Links| match ask(&Expression::list(key, WITHDRAWN, Polarity::Minus), &store, links) {
        Ok(Table::Upper(Rows::AllBut(rows))) => atoms(&rows),
        other => panic!("{other:?}"),
    };
    let links = links_of([Link::contained(K1, WITHDRAWN, K2, WITHDRAWN)]);
    assert_eq!([K1, K2].map(|key| withdrawn(key, &links)), [vec![7, 8], vec![8]]);
    // a + link says nothing of − lists
    let links = links_of([Link::containing(K1, WITHDRAWN, K2, WITHDRAWN)]);
    assert_eq!([K1, K2].map(|key| withdrawn(key, &links)), [vec![7], vec![8]]);
}

/// Released by k1 or whom its list contains, and not withdrawn by k1 by the word of k3.
#[test]
fn draws_and_absent_guards_read_through_links() {
    let store = store_of([
        Certificate::listed(K2, RELEASED, [7], TERM),
        Certificate::listed(K2, RELEASED, [8], TERM),
        Certificate::not_listed(K3, WITHDRAWN, [8], TERM),
    ]);
    let links = links_of([Link::containing(K1, RELEASED, K2, RELEASED), Link::contained(K1, WITHDRAWN, K3, WITHDRAWN)]);
    let guards = [
        Guard::Draw(vec![variable("x")], Expression::list(K1, RELEASED, Polarity::Plus)),
        Guard::Absent(vec![variable("x")], Expression::list(K1, WITHDRAWN, Polarity::Minus)),
    ];
    let public = Expression::each(guards, [variable("x")]);
    assert_eq!(ask(&public, &store, &links), Ok(Table::Lower(Rows::Only(vec![Row::from([8])]))));
    assert_eq!(ask(&public, &store, &Links::new()), Ok(Table::Lower(Rows::Only(vec![]))));
}

#[test]
fn vetting_asks_for_the_issuer_alone() {
    let store = store_of([(K1, 7), (K2, 8)].map(|(key, atom)| Certificate::listed(key, RELEASED, [atom], TERM)));
    let links = links_of([Link::containing(K1, RELEASED, K2, RELEASED)]);
    let compromised = Definition::new("compromised", 0, Polarity::Minus, Expression::rows([vec![K2.into()]]));
    let policy = Policy::new(OUR_KEY, &[compromised]).unwrap();
    let vetted = |key| match ask_under(&policy, &Expression::vetted_list(key, RELEASED, "compromised"), &store, &links) {
        Ok(Table::Lower(Rows::Only(rows))) => atoms(&rows),
        other => panic!("{other:?}"),
    };
    assert_eq!([K1, K2].map(vetted), [vec![7, 8], vec![]]);
}

#[test]
fn the_rows_joined_are_limited_and_count_once() {
    let rows = |key, numbers: std::ops::Range<u32>| numbers.map(move |n| Certificate::listed(key, RELEASED, [n], TERM));
    let mut store = store_of(rows(K1, 0..100).chain(rows(K2, 28..128)));
    let links = links_of([Link::containing(K1, RELEASED, K2, RELEASED)]);
    let list = Expression::list(K1, RELEASED, Polarity::Plus);
    let all: Vec<Row> = (0..128).map(|n| Row::from([n])).collect();
    assert_eq!(ask(&list, &store, &links), Ok(Table::Lower(Rows::Only(all))));
    assert_eq!(store.file(&Certificate::listed(K2, RELEASED, [128], TERM)), Ok(Filing::Filed));
    assert_eq!(ask(&list, &store, &links), Err(Refusal::TooManyRows(Part::Query)));
}

#[test]
fn links_are_in_order_as_in_a_link_store() {
    let ascending = [
        Link::containing(K1, 1, K2, 1),
        Link::containing(K1, 1, K2, 2),
        Link::containing(K1, 1, K3, 0),
        Link::contained(K1, 1, K1, 0),
        Link::containing(K1, 2, K1, 0),
        Link::containing(K2, 0, K1, 0),
    ];
    assert!(ascending.is_sorted());
    assert_eq!(ascending[3].words(), [K1.word(), 1, 1, K1.word(), 0]);
    let mut links = links_of([5, 1, 3, 0, 4, 2].map(|place| ascending[place]));
    assert_eq!(links.words()[0], 6);
    assert_eq!(links.words()[1..31], *ascending.map(|link| link.words()).as_flattened());
    let before = links.clone();
    assert_eq!(links.file(&ascending[2]), Ok(Filing::Held));
    assert_eq!(links, before);
}

#[test]
fn a_link_store_takes_256_links() {
    let some = |name| Link::containing(K1, name, K2, RELEASED);
    let mut links = links_of((0..256).map(some));
    let full = links.clone();
    assert_eq!(links.file(&some(9)), Ok(Filing::Held));
    assert_eq!(links.file(&some(256)), Err(Refusal::LinksFull));
    assert_eq!(links.file_words(&[K1.word(), 65_536, 0, K2.word(), 1]), Err(Refusal::BadLink));
    assert_eq!(links, full);
    assert_eq!(links, Links::from_words(full.words().to_vec()));
    assert!(ask(&Expression::rows([]), &Store::new(), &links).is_ok());
}

#[test]
fn malformed_links_are_refused() {
    let mut links = Links::new();
    let [k1, k2] = [K1, K2].map(Key::word);
    let malformed: [&[u32]; 8] = [
        &[],
        &[k1, 1, 0, k2],
        &[k1, 1, 0, k2, 1, 0],
        &[5, 1, 0, k2, 1],
        &[k1, 65_536, 0, k2, 1],
        &[k1, 1, 2, k2, 1],
        &[k1, 1, 0, 5, 1],
        &[k1, 1, 0, k2, 65_536],
    ];
    for words in malformed {
        assert_eq!(Link::from_words(words), None, "{words:?}");
        assert_eq!(links.file_words(words), Err(Refusal::BadLink), "{words:?}");
    }
    assert_eq!(links, Links::new());
}

#[test]
fn an_unsound_link_store_is_refused_right_after_an_unsound_store() {
    let held = [Link::containing(K1, RELEASED, K2, RELEASED), Link::containing(K1, RELEASED, K3, RELEASED)];
    let sound = links_of(held).words().to_vec();
    let mut out_of_order = sound.clone();
    out_of_order[1..11].rotate_left(5);
    let mut of_a_number = sound.clone();
    of_a_number[4] = 5;
    let mut too_many = sound.clone();
    too_many[0] = 257;
    for words in [out_of_order, of_a_number, too_many, sound[..LINKS_WORDS - 1].to_vec()] {
        let mut links = Links::from_words(words);
        let before = links.clone();
        // also for what is held, and where no list is read
        assert_eq!(links.file(&held[1]), Err(Refusal::BadLink));
        assert_eq!(links, before);
        let nothing = Expression::rows([]);
        assert_eq!(ask(&nothing, &Store::new(), &links), Err(Refusal::BadLink));
        assert_eq!(ask(&nothing, &Store::from_words(vec![]), &links), Err(Refusal::BadStore));
        assert_eq!(number_with_a_short_area(links.words()), 18);
    }
    assert_eq!(number_with_a_short_area(&sound), 11);
}

fn number_with_a_short_area(links: &[u32]) -> u32 {
    let [mut answer, mut definitions, mut scratch] = [ANSWER_WORDS - 1, DEFINITIONS_WORDS, SCRATCH_WORDS].map(|length| vec![9; length]);
    let lent = Lent { answer: &mut answer, definitions: &mut definitions, scratch: &mut scratch };
    let reply = calls::query(&[1, 0], &[1, 0], OUR_KEY.word(), 0, Store::new().words(), links, lent);
    assert_eq!((reply.part, reply.verdict, reply.draws), (17, 3, 0));
    assert_eq!(answer, [9; ANSWER_WORDS - 1]);
    reply.number
}
