//! Texts and the words that they compile to, and the names both ways. The words are document 01's, written out by hand.

mod help;

use help::accepted;
use txindurbe::{Atom, Engine, Key, Links, Minute, Polarity, Row, Rows, Store, Table, Verdict};
use txindurbe_language::{Compiled, Sources};

const K: u32 = 1 << 31;

fn query_words(text: &str) -> Vec<u32> {
    accepted(&format!("query {text}")).query().expect("the file has a query").query.words().to_vec()
}

/// The words of the first definition, behind a table of one.
fn first_part(compiled: &Compiled) -> &[u32] {
    &compiled.written().words()[6..]
}

#[test]
fn document_01s_policy() {
    let text = "key alma = k1\nlist released = 1 +, withdrawn = 2 -\ndefine public 10 + = { (x) | (x) in alma.released, (x) not in alma.withdrawn }\nquery public";
    let compiled = accepted(text);
    let k1 = K + 1;
    assert_eq!(compiled.policy().words()[..6], [1, 1, 10, 0, 6, 23]);
    assert_eq!(first_part(&compiled), [7, 2, 1, 4, 0, k1, 1, 0, 1, 2, 0, 4, 1, 1, 0, 4, 0, k1, 2, 1, 1, 1, 0]);
    let asked = compiled.query().expect("the file has a query");
    assert_eq!((asked.query.words(), asked.verdict), (&[3, 0][..], Verdict::Lower));
}

#[test]
fn every_code() {
    assert_eq!(query_words("{}"), [1, 0]);
    assert_eq!(query_words("{ (7), (8, k1) }"), [1, 2, 1, 0, 7, 2, 0, 8, 0, K + 1]);
    assert_eq!(query_words("all but { (7) }"), [2, 1, 1, 0, 7]);
    assert_eq!(query_words("k1.2-"), [4, 0, K + 1, 2, 1]);
    assert_eq!(query_words("{} union {} union { (7) }"), [5, 5, 1, 0, 1, 0, 1, 1, 1, 0, 7]);
    assert_eq!(query_words("{} minus ({} minus {})"), [6, 1, 0, 6, 1, 0, 1, 0]);
    assert_eq!(query_words("{ (7) | }"), [7, 0, 1, 0, 7]);
    assert_eq!(query_words("{ (7) | 7 = 8, 7 != k1 }"), [7, 2, 2, 0, 7, 0, 8, 3, 0, 7, 0, K + 1, 1, 0, 7]);
    let vetted = accepted("define bad - = {}\nquery k1.2+ vetted by bad");
    assert_eq!(vetted.query().expect("the file has a query").query.words(), [8, 0, K + 1, 2, 0, 0]);
}

#[test]
fn variables_are_numbered_as_they_are_drawn() {
    // a key is matched, y is used again in its own pattern
    assert_eq!(query_words("{ (y, x) | (x, k1, y, y) in k1.1+ }"), [7, 1, 1, 4, 0, K + 1, 1, 0, 4, 2, 0, 0, K + 1, 2, 1, 1, 1, 2, 1, 1, 1, 0]);
    // by its name too
    let named = accepted("key alma = k1\nquery { (x) | (alma, x) in k1.1+ }");
    let words = [7, 1, 1, 4, 0, K + 1, 1, 0, 2, 0, K + 1, 2, 0, 1, 1, 0];
    assert_eq!(named.query().expect("the file has a query").query.words(), words);
    // each `_` is a variable of its own
    assert_eq!(query_words("{ (7) | (_, _) in k1.1+ }"), [7, 1, 1, 4, 0, K + 1, 1, 0, 2, 2, 0, 2, 1, 1, 0, 7]);
    // an inner comprehension numbers on, and its numbers come again behind it
    let inner = "{ (x, z) | (x) in k1.1+, (7) in { (x, y) | (y) in x.1+ }, (z) in k1.1+ }";
    let list = [4, 0, K + 1, 1, 0];
    let expected =
        [&[7, 3, 1][..], &list, &[1, 2, 0], &[1, 7, 1, 1, 4, 1, 0, 1, 0, 1, 2, 1, 2, 1, 0, 1, 1], &[1, 0, 7, 1], &list, &[1, 2, 1, 2, 1, 0, 1, 1]];
    assert_eq!(query_words(inner), expected.concat());
    // one name in two comprehensions is two variables
    let twice = "{ (x) | (x) in k1.1+ } union { (x) | (x) in k1.1+ }";
    let each = [&[7, 1, 1][..], &list, &[1, 2, 0, 1, 1, 0]].concat();
    assert_eq!(query_words(twice), [&[5][..], &each, &each].concat());
}

#[test]
fn own_names() {
    let compiled =
        accepted("our key archive\nkey archive = k9\ndefine public 10 + = {}\ndefine b + = archive.public\nquery archive.10+ union public");
    assert_eq!(compiled.our_key(), Key::new(9));
    let asked = compiled.query().expect("the file has a query");
    assert_eq!(asked.query.words(), [5, 4, 0, K + 9, 10, 0, 3, 0]);
    assert_eq!(compiled.written().words()[..], [1, 2, 10, 0, 10, 2, 1, 0, 12, 5, 1, 0, 4, 0, K + 9, 10, 0]);
    // without `our key` the same text has a list
    assert_eq!(accepted("query k9.10+").our_key(), Key::new(2_147_483_647));
}

#[test]
fn external_policies_are_rewritten() {
    let compiled = accepted("format 2\nexternal\ndefine bad 0 - = k1.5-\ndefine ok 7 + = k2.1+\nquery ok");
    assert_eq!(compiled.written().words(), [2, 2, 0, 1, 10, 5, 7, 0, 15, 5, 4, 0, K + 1, 5, 1, 4, 0, K + 2, 1, 0]);
    assert_eq!(compiled.policy().words(), [2, 2, 0, 1, 10, 5, 7, 0, 15, 6, 4, 0, K + 1, 5, 1, 8, 0, K + 2, 1, 0, 0]);
    assert!(compiled.is_external());
    // what is not external is used as it is written
    let compiled = accepted("define bad 0 - = k1.5-\ndefine ok 7 + = k2.1+");
    assert_eq!(compiled.written(), compiled.policy());
}

#[test]
fn what_is_known_of_definitions() {
    let text = "define a + = { (1) }\ndefine b - = k1.2-\ndefine c 30 + = all but {}\ndefine d - = { (1) }";
    let compiled = accepted(text);
    let known: Vec<_> = compiled.definitions().map(|known| (known.identifier, known.number, known.polarity, known.verdict, known.open)).collect();
    // asked for by name, a definition has its declared polarity alone
    let expected = [
        ("a", 1, Polarity::Plus, Verdict::Lower, false),
        ("b", 3, Polarity::Minus, Verdict::Upper, true),
        ("c", 30, Polarity::Plus, Verdict::Lower, true),
        ("d", 4, Polarity::Minus, Verdict::Upper, false),
    ];
    assert_eq!(known, expected);
    let second = compiled.definitions().nth(1).expect("there are four");
    assert_eq!(&text[second.span.start..second.span.end], "define b - = k1.2-");
    assert_eq!(second.syntax.name.text, "b");
}

#[test]
fn the_issues_example_is_answered() {
    let text = "our key archive
key archive = k9, alma = k1, vla = k2          # keys by name
list observatories = 3 +, released = 1 +, withdrawn = 2 -
define public + = { (o, x) | (o) in k8.observatories, (x) in o.released, (x) not in o.withdrawn, o != vla }
query { (x) | (alma, x) in public }
";
    let compiled = accepted(text);
    assert!(compiled.warnings.is_empty());
    let mut store = Store::new();
    let (alma, always) = (Key::new(1), txindurbe::Validity { first: Minute::new(0), end: Minute::new(10) });
    for certificate in [
        txindurbe::Certificate::listed(Key::new(8), 3, [alma], always),
        txindurbe::Certificate::listed(alma, 1, [7], always),
        txindurbe::Certificate::listed(alma, 1, [8], always),
        txindurbe::Certificate::not_listed(alma, 2, [7], always),
    ] {
        store.file(&certificate).expect("it is filed");
    }
    let mut engine = Engine::new();
    let mut ask = |query| engine.query(compiled.policy(), query, Minute::new(0), &store, &Links::new()).expect("it is answered").table().clone();
    let own = compiled.query().expect("the file has a query");
    assert_eq!(ask(&own.query), Table::Lower(Rows::Only(vec![Row::from([7])])));
    let mut sources = Sources::default();
    sources.add("policy.qcm", text);
    let source = sources.add("query", "archive.public");
    let asked = compiled.ask(&sources, source).expect("it is accepted");
    assert_eq!(ask(&asked.query), Table::Lower(Rows::Only(vec![Row::from([Atom::from(alma), Atom::from(7)])])));
}

#[test]
fn names_both_ways() {
    let text = "our key archive\nkey archive = k9, alma = k1, again = k1\nlist released = 1 +, withdrawn = 2 -\ndefine public 10 + = {}";
    let compiled = accepted(text);
    let names = compiled.names();
    let [alma, other, ours] = [1, 7, 9].map(Key::new);
    assert_eq!((names.key("alma"), names.key("again"), names.key("vla")), (Some(alma), Some(alma), None));
    assert_eq!((names.list("withdrawn"), names.list("public"), names.list("alma")), (Some((2, Polarity::Minus)), None, None));
    assert_eq!((names.definition("public"), names.definition("released")), (Some(0), None));
    assert_eq!([Atom::from(alma), Atom::from(other), Atom::from(12)].map(|atom| names.show_atom(atom)), ["alma", "k7", "12"]);
    assert_eq!(names.show_row(&Row::from([Atom::from(alma), Atom::from(7)])), "(alma, 7)");
    assert_eq!(names.show_list(alma, 1, Polarity::Plus), "alma.released");
    assert_eq!(names.show_list(alma, 1, Polarity::Minus), "alma.1-");
    assert_eq!(names.show_list(other, 2, Polarity::Minus), "k7.withdrawn");
    assert_eq!(names.show_list(ours, 10, Polarity::Plus), "archive.public");
    assert_eq!(names.show_list(alma, 10, Polarity::Plus), "alma.10+");
    assert_eq!(
        [names.closest("relesed"), names.closest("pubic"), names.closest("alam"), names.closest("zzz")],
        [Some("released"), Some("public"), Some("alma"), None]
    );
}
