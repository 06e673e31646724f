//! What is accepted and likely not what was meant. Expectations are worked out from the texts and certificates by hand.

mod help;

use help::{accepted, assert_says, only, underlined};
use txindurbe::{Certificate, Key, Link, Links, Minute, Polarity, Row, Store, Validity};
use txindurbe_language::{Problem, Severity};

/// Those known from a text alone: of the definitions, then of the query.
fn warnings(text: &str) -> Vec<Problem> {
    let compiled = accepted(text);
    let of_query = compiled.query().map(|asked| asked.warnings.clone());
    compiled.warnings.into_iter().chain(of_query.into_iter().flatten()).collect()
}

/// The only one.
fn warned(text: &str, said: [&str; 3]) -> Problem {
    let warning = only(text, warnings(text));
    assert_says(text, &warning, Severity::Warning, None, said);
    warning
}

fn silent(text: &str) {
    let warnings = warnings(text);
    assert!(warnings.is_empty(), "{text}\n{warnings:#?}");
}

// ---- definitions that are never used

#[test]
fn a_definition_that_is_never_used() {
    warned("define a + = {(1)}\ndefine b + = {(2)}\nquery a", ["`b` is never used", "b", "take it out"]);
    // by a definition that is never used itself
    let text = "define a + = {(1)}\ndefine b + = a\nquery {(2)}";
    let warnings = warnings(text);
    assert_eq!(warnings.iter().map(|warning| underlined(text, warning, 0)).collect::<Vec<_>>(), ["a", "b"]);
    // without a query nobody knows what is asked
    silent("define a + = {(1)}");
}

#[test]
fn what_uses_a_definition() {
    silent("define a + = {(1)}\ndefine b + = a\nquery b");
    silent("our key k9\ndefine a 7 + = {(1)}\nquery k9.7+");
    silent("our key k9\ndefine a + = {(1)}\ndefine b + = k9.a\nquery b");
    silent("define bad - = k1.5-\nquery k1.1+ vetted by bad");
    silent("define gone - = k1.5-\nquery { (x) | (x) in k1.1+, (x) not in gone }");
    // rewriting has each list of a later definition vetted by the first
    silent("external\ndefine bad 0 - = k1.5-\ndefine d + = k1.1+\nquery d");
    warned("external\ndefine bad 0 - = k1.5-\ndefine d + = {(1)}\nquery d", ["`bad` is never used", "bad", ""]);
    // of another key it is a list
    warned("our key k9\ndefine a 7 + = {(1)}\nquery k8.7+", ["`a` is never used", "a", ""]);
}

// ---- variables that are never used

#[test]
fn a_variable_that_is_never_used() {
    warned("query { (x) | (x, y) in k1.1+ }", ["`y` is drawn and never used", "y", "write `_`"]);
    warned("key alma = k1\nquery { (x) | (alam, x) in k2.1+ }", ["`alam` is drawn and never used", "alam", "did you mean the key `alma`?"]);
    silent("query { (x) | (x, _) in k1.1+ }");
}

#[test]
fn what_uses_a_variable() {
    silent("query { (x) | (x, y, y) in k1.1+ }");
    silent("query { (x) | (x, y) in k1.1+, y != 7 }");
    silent("query { (x) | (x, o) in k1.1+, (x) in o.1+ }");
    silent("query { (x) | (x, y) in k1.1+, (x, y) not in k1.2- }");
    silent("query { (x) | (x, y) in k1.1+, (x) in { (z) | (z, y) in k1.1+ } }");
    silent("query { (x) | (x, y) in k1.1+, (x) not in { (y) } }");
    // another of the same name, in another comprehension
    warned("query { (7) | (7) in { (x) | (x) in k1.1+ }, (x) in k1.1+ }", ["`x` is drawn and never used", "x", ""]);
}

// ---- widths

#[test]
fn a_pattern_that_matches_nothing() {
    let warning = warned(
        "query { (x) | (x) in { (1, 2), (1, 2, 3) } }",
        ["this draw matches nothing: no row there has 1 atom", "(x)", "give the pattern 2 terms"],
    );
    assert_eq!(warning.labels[1].text, "rows of 2 or 3 atoms");
    warned("query { (x) | (x, 7) in { (1) } }", ["no row there has 2 atoms", "(x, 7)", "give the pattern 1 term"]);
    silent("query { (x) | (x) in { (1, 2), (1) } }");
    // heads, unions, the left of minus, definitions, own names
    warned("query { (x) | (x) in { (y, y) | (y) in k1.1+ } }", ["no row there has 1 atom", "(x)", ""]);
    warned("query { (x) | (x) in { (1, 2) } union { (1, 2, 3) } }", ["no row there has 1 atom", "(x)", ""]);
    silent("query { (x) | (x) in { (1, 2) } union k1.1+ }");
    warned("query { (x) | (x) in { (1, 2) } minus k1.2- }", ["no row there has 1 atom", "(x)", ""]);
    warned("define pairs + = { (1, 2) }\nquery { (x) | (x) in pairs }", ["no row there has 1 atom", "(x)", ""]);
    warned("our key k9\ndefine pairs 7 + = { (1, 2) }\nquery { (x) | (x) in k9.7+ }", ["no row there has 1 atom", "(x)", ""]);
    // in definitions too, also without a query
    warned("define d + = { (x) | (x) in { (1, 2) } }", ["no row there has 1 atom", "(x)", ""]);
}

#[test]
fn lists_have_rows_of_any_width() {
    silent("query { (x) | (x) in k1.1+, (x, 7) in k1.1+, (x, 7, 7) not in k1.2- }");
    silent("query { (x) | (x) in k1.1+, (x, 7) not in all but { (1) } }");
}

#[test]
fn format_2_matches_wider_rows() {
    silent("format 2\nquery { (x) | (x) in { (1, 2) } }");
    warned("format 2\nquery { (x) | (x, 7) in { (1) } }", ["no row there has 2 or more atoms", "(x, 7)", "give the pattern 1 term"]);
    // but not in a `not in`
    warned("format 2\nquery { (x) | (x) in k1.1+, (x) not in { (1, 2) } }", ["this guard always passes", "(x)", ""]);
}

#[test]
fn a_row_that_is_never_there() {
    let warning = warned("query { (x) | (x) in k1.1+, (x) not in { (1, 2) } }", ["this guard always passes: no row there has 1 atom", "(x)", ""]);
    assert_eq!(warning.labels[1].text, "rows of 2 atoms");
    silent("query { (x) | (x) in k1.1+, (x) not in { (1, 2), (1) } }");
    silent("query { (x) | (x) in k1.1+, (x) not in {} }");
    warned("query { (1, 2) } minus { (1) }", ["nothing is taken away here", "{ (1) }", ""]);
    silent("query { (1, 2) } minus { (1), (3, 4) }");
    warned("define bad - = { (k1, 7) }\nquery k1.1+ vetted by bad", ["`bad` holds no key back", "bad", ""]);
    silent("define bad - = { (k1) }\nquery k1.1+ vetted by bad");
}

#[test]
fn a_draw_from_no_rows() {
    warned("query { (x) | (x) in {} }", ["nothing can be drawn here: the set has no rows", "(x)", ""]);
    silent("query { (x) | (x) in {} union { (1) } }");
}

#[test]
fn a_query_has_its_own_warnings() {
    let compiled = accepted("define a + = {(1)}\nquery { (x) | (x, y) in k1.1+ }");
    let asked = compiled.query().expect("the file has a query");
    assert_eq!((compiled.warnings.len(), asked.warnings.len()), (1, 1));
    assert!(compiled.warnings[0].message.contains("`a`") && asked.warnings[0].message.contains("`y`"));
    let mut sources = txindurbe_language::Sources::default();
    let source = sources.add("query", "{ (x) | (x, z) in a }");
    let asked = compiled.ask(&sources, source).expect("it is accepted");
    assert_eq!(asked.warnings.iter().map(|warning| warning.message.contains("`z`")).collect::<Vec<_>>(), [false, true]);
}

#[test]
fn warnings_come_in_the_order_of_the_text() {
    let text = "define c + = {}\ndefine a + = { (x) | (x, y) in { (1) } }\nquery { (x) | (x, z) in a }";
    let found: Vec<String> = warnings(text).iter().map(|warning| underlined(text, warning, 0).to_string()).collect();
    assert_eq!(found, ["c", "(x, y)", "y", "(x, z)", "z"]);
}

// ---- over the certificates

const MINUTE: Minute = Minute::new(5);

fn holding(first: u32, end: u32) -> Validity {
    Validity { first: Minute::new(first), end: Minute::new(end) }
}

fn stored(certificates: &[(u32, u16, Polarity, Row, Validity)]) -> Store {
    let mut store = Store::new();
    for &(key, name, polarity, row, validity) in certificates {
        store.file(&Certificate { key: Key::new(key), name, polarity, row, validity }).expect("it is filed");
    }
    store
}

/// A certificate that holds at the minute.
fn now(key: u32, name: u16, polarity: Polarity, row: impl Into<Row>) -> (u32, u16, Polarity, Row, Validity) {
    (key, name, polarity, row.into(), holding(0, 10))
}

fn over(text: &str, store: &Store, links: &Links) -> Vec<Problem> {
    let compiled = accepted(text);
    let asked = compiled.query().expect("the file has a query");
    compiled.warnings_over(asked, store, links, MINUTE)
}

fn warned_over(text: &str, store: &Store, said: [&str; 3]) -> Problem {
    let warning = only(text, over(text, store, &Links::new()));
    assert_says(text, &warning, Severity::Warning, None, said);
    warning
}

fn silent_over(text: &str, store: &Store) {
    let warnings = over(text, store, &Links::new());
    assert!(warnings.is_empty(), "{text}\n{warnings:#?}");
}

use Polarity::{Minus, Plus};

const POLICY: &str = "key alma = k1, vla = k2\nlist released = 1 +, withdrawn = 2 -\n";

fn policy(text: &str) -> String {
    format!("{POLICY}{text}")
}

#[test]
fn a_minus_list_of_which_nothing_is_certified() {
    let released = stored(&[now(1, 1, Plus, [7])]);
    let said = [
        "nobody has certified anything of `alma.withdrawn` at this minute",
        "alma.withdrawn",
        "file certificates that say `not in` for the rows that are NOT in it",
    ];
    for text in [
        "query { (x) | (x) in alma.released, (x) not in alma.withdrawn }",
        "query alma.released minus alma.withdrawn",
        "define public + = alma.released minus alma.withdrawn\nquery public",
        "define gone - = alma.withdrawn union {(7)}\nquery alma.released minus gone",
        "our key k9\ndefine gone 7 - = alma.withdrawn\nquery alma.released minus k9.7-",
        "define bad - = alma.withdrawn\nquery alma.released vetted by bad",
    ] {
        warned_over(&policy(text), &released, said);
    }
    let certified = stored(&[now(1, 1, Plus, [7]), now(1, 2, Minus, [8])]);
    silent_over(&policy("query { (x) | (x) in alma.released, (x) not in alma.withdrawn }"), &certified);
    // another key's
    let others = stored(&[now(1, 1, Plus, [7]), now(2, 2, Minus, [8])]);
    warned_over(&policy("query alma.released minus alma.withdrawn"), &others, said);
}

#[test]
fn what_is_not_tested_is_not_warned_of() {
    let empty = Store::new();
    silent_over(&policy("query alma.withdrawn"), &empty);
    // a definition that is not used
    silent_over(&policy("define public + = alma.released minus alma.withdrawn\nquery {}"), &empty);
    // only the second is: nothing passes there, and so nothing is taken from the first
    let text = "define d - = alma.withdrawn minus { (x) | (x) in alma.released, (x) not in vla.withdrawn }\nquery d";
    warned_over(&policy(text), &empty, ["`vla.withdrawn`", "vla.withdrawn", ""]);
}

#[test]
fn an_external_policy_tests_its_compromised_keys() {
    let text = policy("external\ndefine bad 0 - = k8.5-\ndefine d + = alma.released\nquery d");
    warned_over(&text, &Store::new(), ["`k8.5-`", "k8.5-", ""]);
    silent_over(&text, &stored(&[now(8, 5, Minus, [Key::new(1)])]));
    silent_over(&policy("external\ndefine bad 0 - = k8.5-\ndefine d + = {(7)}\nquery d"), &Store::new());
}

#[test]
fn certificates_that_do_not_hold() {
    let text = policy("query alma.released minus alma.withdrawn");
    for (first, end) in [(0, 5), (6, 10)] {
        let store = stored(&[(1, 2, Minus, Row::from([7]), holding(first, end))]);
        warned_over(&text, &store, ["`alma.withdrawn`", "alma.withdrawn", "none that holds at this minute"]);
    }
    silent_over(&text, &stored(&[(1, 2, Minus, Row::from([7]), holding(5, 6))]));
}

#[test]
fn certificates_of_the_other_sign() {
    let text = policy("query alma.released minus alma.withdrawn");
    let store = stored(&[now(1, 2, Plus, [7])]);
    warned_over(&text, &store, ["`alma.withdrawn`", "alma.withdrawn", "there are certificates of `alma.2+`, which is another list"]);
}

#[test]
fn what_links_reach_counts() {
    let text = policy("query alma.released minus alma.withdrawn");
    let store = stored(&[now(3, 9, Minus, [7])]);
    let mut links = Links::new();
    let link = |from: u32, name: u16, to: u32, other: u16| Link::contained(Key::new(from), name, Key::new(to), other);
    links.file(&link(1, 2, 2, 4)).expect("it is filed");
    assert_eq!(over(&text, &store, &links).len(), 1);
    links.file(&link(2, 4, 3, 9)).expect("it is filed");
    assert!(over(&text, &store, &links).is_empty());
    // a key that a variable may hold too
    let text = policy("query { (x) | (o) in k8.3+, (x) in o.released, (x) not in o.withdrawn }");
    assert!(over(&text, &store, &links).is_empty());
    assert_eq!(over(&text, &store, &Links::new()).len(), 1);
}

#[test]
fn a_list_of_any_key() {
    let text = policy("query { (x) | (o) in k8.3+, (x) in o.released, (x) not in o.withdrawn }");
    warned_over(&text, &stored(&[now(1, 1, Plus, [7])]), ["nobody has certified anything of `o.withdrawn`", "o.withdrawn", ""]);
    silent_over(&text, &stored(&[now(2, 2, Minus, [7])]));
}

#[test]
fn one_list_in_two_places_is_said_once() {
    let text = policy("query (alma.released minus alma.withdrawn) union ({(1)} minus alma.withdrawn)");
    let warning = warned_over(&text, &Store::new(), ["`alma.withdrawn`", "alma.withdrawn", ""]);
    assert_eq!(underlined(&text, &warning, 1), "alma.withdrawn");
    assert!(warning.labels[0].span.start < warning.labels[1].span.start);
}

#[test]
fn a_pattern_that_matches_no_certificate() {
    let store = stored(&[now(1, 1, Plus, [7, 2027]), now(2, 1, Plus, [7])]);
    let text = policy("query { (x) | (x) in alma.released }");
    warned_over(&text, &store, ["this draw matches nothing: no row there has 1 atom", "(x)", "`format 2`"]);
    silent_over(&policy("format 2\nquery { (x) | (x) in alma.released }"), &store);
    silent_over(&policy("query { (x) | (x, _) in alma.released }"), &store);
    silent_over(&policy("query { (x) | (x) in alma.released union vla.released }"), &store);
    warned_over(
        &policy("query { (x) | (x, _, _) in alma.released union vla.released }"),
        &store,
        ["no row there has 3 atoms", "(x, _, _)", "give the pattern 1 or 2 terms"],
    );
    // through a definition
    warned_over(&policy("define d + = alma.released\nquery { (x) | (x) in d }"), &store, ["no row there has 1 atom", "(x)", ""]);
    // an issuer that is drawn: any key's
    silent_over(&policy("query { (x) | (o) in k8.3+, (x) in o.released }"), &store);
    warned_over(&policy("query { (x) | (o) in k8.3+, (x, _, _) in o.released }"), &store, ["no row there has 3 atoms", "(x, _, _)", ""]);
    // where nothing is certified, the pattern is not at fault
    silent_over(&policy("query { (x) | (x) in alma.released }"), &Store::new());
    // what the text alone shows is not said again
    silent_over("query { (x) | (x) in { (1, 2) } }", &store);
}

#[test]
fn a_row_in_a_plus_list_and_in_its_twin() {
    let store = stored(&[now(1, 2, Plus, [7]), now(1, 2, Minus, [7]), now(1, 2, Minus, [8])]);
    let text = policy("query {(7)} minus alma.withdrawn");
    let said = ["(7) is certified in `alma.2+` and certified absent from `alma.2-`", "alma.withdrawn", "these are two lists"];
    warned_over(&text, &store, said);
    // whichever of the two is read, and by whichever key
    warned_over("query k1.2+", &store, ["(7) is certified in `k1.2+`", "k1.2+", ""]);
    warned_over("query { (x) | (o) in {(k1)}, (x) in o.2+ }", &store, ["(7) is certified in `k1.2+`", "o.2+", ""]);
    // not of another key, another number, another row, or at another minute
    silent_over("query k2.2+", &store);
    silent_over("query k1.3+", &store);
    silent_over("query k1.2+", &stored(&[now(1, 2, Plus, [7]), now(1, 2, Minus, [8])]));
    silent_over("query k1.2+", &stored(&[now(1, 2, Plus, [7]), (1, 2, Minus, Row::from([7]), holding(0, 5))]));
    // an own name is no list
    silent_over("our key k1\ndefine d 2 + = {(1)}\nquery k1.2+", &store);
}

#[test]
fn many_rows_in_both_are_said_shortly() {
    let rows = (1..=5).flat_map(|row| [now(1, 2, Plus, [row]), now(1, 2, Minus, [row])]);
    let store = stored(&rows.collect::<Vec<_>>());
    warned_over("query k1.2+", &store, ["(1), (2), (3) and 2 more are certified in `k1.2+`", "k1.2+", ""]);
}

#[test]
fn a_row_of_another_width_than_all_that_are_certified_absent() {
    let query = "{ (x) | (x) in alma.released, (x) not in alma.withdrawn }";
    let released = now(1, 1, Plus, [7]);
    let wider = stored(&[released, now(1, 2, Minus, [7, 2027])]);
    let said = ["only rows of 2 atoms are certified absent", "(x)", "write a row of 2 atoms"];
    warned_over(&policy(&format!("query {query}")), &wider, said);
    // the whole row is tested in format 2 too
    warned_over(&policy(&format!("format 2\nquery {query}")), &wider, said);
    silent_over(&policy(&format!("query {query}")), &stored(&[released, now(1, 2, Minus, [7, 2027]), now(1, 2, Minus, [8])]));
}

#[test]
fn a_plus_list_of_which_no_certificate_holds() {
    let text = policy("query { (x) | (x) in alma.released }");
    let said = ["no certificate of `alma.released` holds at this minute", "alma.released", "ask at another minute"];
    for (first, end) in [(0, 5), (6, 10)] {
        warned_over(&text, &stored(&[(1, 1, Plus, Row::from([7]), holding(first, end))]), said);
    }
    silent_over(&text, &stored(&[(1, 1, Plus, Row::from([7]), holding(5, 6))]));
    // of nothing that was ever certified nothing is said: a + list may be empty
    silent_over(&text, &Store::new());
    silent_over(&text, &stored(&[(2, 1, Plus, Row::from([7]), holding(0, 5))]));
}

#[test]
fn an_external_policy_that_vets_nothing() {
    let said = ["no list is vetted", "external", "`define compromised 0 - = ..`"];
    warned("external\ndefine d + = k1.1+", said);
    warned("external\ndefine d 0 + = k1.1+", said);
    silent("external\ndefine bad 0 - = k8.5-\ndefine d + = k1.1+");
    silent("external");
    silent("define d + = k1.1+");
}
