//! Names under our own key through the safe types. What is expected was worked out by hand. They link the compiled library: `bash library` first.

mod filed;

use filed::{links_of, store_of};
use txindurbe::calls::{self, Judgement, Lent, Reply, Rewriting};
use txindurbe::sizes::{ANSWER_WORDS, DEFINITIONS_WORDS, SCRATCH_WORDS};
use txindurbe::{
    variable, Certificate, Definition, Engine, Expression, Filing, Format, Guard, Key, Link, Links, Minute, Part, Polarity, Policy, Query, Refusal,
    Row, Rows, Store, Table, Term, Validity, Verdict,
};

const OUR_KEY: Key = Key::new(9);
const ALICE: Key = Key::new(1);
const OBSERVATORY: Key = Key::new(2);
const PARTNER: Key = Key::new(3);
const COMPROMISED: u16 = 0;
const RELEASED: u16 = 1;
const WITHDRAWN: u16 = 2;
const PUBLIC: u16 = 10;
const NOW: Minute = Minute::new(0);
const TERM: Validity = Validity { first: NOW, end: Minute::new(1) };

fn x() -> Term {
    variable("x")
}

/// Labelled by its number and sign.
fn plus(name: u16, expression: Expression) -> Definition {
    Definition::new(format!("{name}+"), name, Polarity::Plus, expression)
}

fn minus(name: u16, expression: Expression) -> Definition {
    Definition::new(format!("{name}-"), name, Polarity::Minus, expression)
}

fn policy(definitions: &[Definition]) -> Policy {
    Policy::new(OUR_KEY, definitions).unwrap()
}

/// An own name, + and −.
fn own(name: u16) -> Expression {
    Expression::list(OUR_KEY, name, Polarity::Plus)
}

fn own_minus(name: u16) -> Expression {
    Expression::list(OUR_KEY, name, Polarity::Minus)
}

fn released_by(key: Key) -> Expression {
    Expression::list(key, RELEASED, Polarity::Plus)
}

fn withdrawn_by(key: Key) -> Expression {
    Expression::list(key, WITHDRAWN, Polarity::Minus)
}

fn literal(atoms: impl IntoIterator<Item = u32>) -> Expression {
    Expression::rows(atoms.into_iter().map(|atom| vec![atom.into()]))
}

fn none() -> Expression {
    literal([])
}

fn of_keys(keys: &[Key]) -> Expression {
    Expression::rows(keys.iter().map(|&key| vec![key.into()]))
}

fn all_but_7() -> Expression {
    Expression::all_but([vec![7.into()]])
}

fn each_x(from: Expression) -> Expression {
    Expression::each([Guard::Draw(vec![x()], from)], [x()])
}

/// Each x of one that is absent from the other.
fn without(from: Expression, absent: Expression) -> Expression {
    Expression::each([Guard::Draw(vec![x()], from), Guard::Absent(vec![x()], absent)], [x()])
}

/// Each row of a list of our key, where a variable holds the key.
fn through_a_variable(list: fn(Term) -> Expression) -> Expression {
    let holds_ours = Guard::Draw(vec![variable("o")], of_keys(&[OUR_KEY]));
    Expression::each([holds_ours, Guard::Draw(vec![x()], list(variable("o")))], [x()])
}

fn released_by_variable() -> Expression {
    through_a_variable(|issuer| Expression::list_of(issuer, RELEASED, Polarity::Plus))
}

fn is_released(key: Key, atom: u32) -> Certificate {
    Certificate::listed(key, RELEASED, [atom], TERM)
}

fn is_not_compromised(key: Key) -> Certificate {
    Certificate::not_listed(ALICE, COMPROMISED, [key], TERM)
}

/// The table and the draws.
fn ask(policy: &Policy, query: &Expression, store: &Store, links: &Links) -> Result<(Table, u32), Refusal> {
    let query = policy.query(query).unwrap();
    Engine::new().query(policy, &query, NOW, store, links).map(|answer| (answer.table().clone(), answer.draws()))
}

/// The same under these definitions, with nothing filed.
fn ask_of(definitions: &[Definition], query: &Expression) -> Result<(Table, u32), Refusal> {
    ask(&policy(definitions), query, &Store::new(), &Links::new())
}

fn judge(definitions: &[Definition], query: &Expression) -> Result<Verdict, Refusal> {
    judge_under(&policy(definitions), query)
}

fn judge_under(policy: &Policy, query: &Expression) -> Result<Verdict, Refusal> {
    policy.judge(&policy.query(query).unwrap())
}

fn only<const N: usize>(atoms: [u32; N]) -> Rows {
    Rows::Only(atoms.map(|atom| Row::from([atom])).to_vec())
}

fn lower<const N: usize>(atoms: [u32; N], draws: u32) -> Result<(Table, u32), Refusal> {
    Ok((Table::Lower(only(atoms)), draws))
}

fn upper<const N: usize>(atoms: [u32; N], draws: u32) -> Result<(Table, u32), Refusal> {
    Ok((Table::Upper(only(atoms)), draws))
}

/// Our released list is what two observatories released; public is each x of it that the first one did not withdraw.
fn portal() -> Policy {
    let ours = released_by(OBSERVATORY).union(released_by(PARTNER));
    policy(&[plus(RELEASED, ours), plus(PUBLIC, without(own(RELEASED), withdrawn_by(OBSERVATORY)))])
}

/// 7 and 8 are released, and 8 is not withdrawn. Our own key is said to have released 3.
fn observations() -> Store {
    let not_withdrawn = Certificate::not_listed(OBSERVATORY, WITHDRAWN, [8], TERM);
    store_of([is_released(OBSERVATORY, 7), is_released(PARTNER, 8), is_released(OUR_KEY, 3), not_withdrawn])
}

#[test]
fn an_own_name_is_written_as_a_list_of_our_key() {
    let [k2, k3, k9] = [OBSERVATORY, PARTNER, OUR_KEY].map(Key::word);
    // 10 words of table, 11 of the union, 23 of the comprehension
    let table = [1, 2, 1, 0, 10, 11, 10, 0, 21, 23];
    let union = [5, 4, 0, k2, 1, 0, 4, 0, k3, 1, 0];
    let public = [7, 2, 1, 4, 0, k9, 1, 0, 1, 2, 0, 4, 1, 1, 0, 4, 0, k2, 2, 1, 1, 1, 0];
    assert_eq!(portal().words(), [&table[..], &union, &public].concat());
    assert_eq!(portal().our_key(), OUR_KEY);
}

/// The two rows of our released list are drawn once, when the definition of what is public is read.
#[test]
fn an_own_name_is_read_as_its_definition() {
    let (policy, store, links) = (portal(), observations(), Links::new());
    for (query, expected) in [
        (own(RELEASED), lower([7, 8], 2)),
        (own(PUBLIC), lower([8], 2)),
        // by its label; drawn from; absent from; in a union, in a difference
        (Expression::defined("10+"), lower([8], 2)),
        (each_x(own(RELEASED)), lower([7, 8], 2 + 2)),
        (without(literal([3, 7, 9]), own(RELEASED)), upper([3, 9], 2 + 3)),
        (own(PUBLIC).union(literal([1])), lower([1, 8], 2)),
        (literal([7, 8, 9]).minus(own(PUBLIC)), upper([7, 9], 2)),
    ] {
        assert_eq!(ask(&policy, &query, &store, &links), expected, "{query:?}");
    }
}

/// Each is the name before it, by one more own name.
#[test]
fn own_names_stand_for_own_names() {
    let chain: Vec<Definition> = (0..16).map(|name| plus(name, if name == 0 { literal([7]) } else { own(name - 1) })).collect();
    for name in 0..16 {
        assert_eq!(ask_of(&chain, &own(name)), lower([7], 0), "{name}");
    }
    assert_eq!(ask_of(&chain, &own(16)), Err(Refusal::NotInScope(Part::Query)));
}

#[test]
fn what_is_certified_under_our_key_is_not_read_by_an_own_name() {
    let policy = policy(&[plus(RELEASED, literal([7])), minus(WITHDRAWN, literal([8]))]);
    let not_withdrawn = Certificate::not_listed(OUR_KEY, WITHDRAWN, [8], TERM);
    // 129 rows, more than a list may have
    let store = store_of((0..129).map(|atom| is_released(OUR_KEY, atom)).chain([not_withdrawn]));
    assert_eq!(ask(&policy, &own(RELEASED), &store, &Links::new()), lower([7], 0));
    assert_eq!(ask(&policy, &own_minus(WITHDRAWN), &store, &Links::new()), upper([8], 0));
    assert_eq!(ask(&policy, &released_by_variable(), &store, &Links::new()), Err(Refusal::TooManyRows(Part::Query)));
}

#[test]
fn a_name_and_its_polarity_must_both_be_defined() {
    let defined = [plus(RELEASED, literal([7]))];
    for query in [own_minus(RELEASED), own(WITHDRAWN), own(COMPROMISED), own_minus(PUBLIC)] {
        assert_eq!(judge(&defined, &query), Err(Refusal::NotInScope(Part::Query)), "{query:?}");
        assert_eq!(ask_of(&defined, &query), Err(Refusal::NotInScope(Part::Query)), "{query:?}");
        // in a definition, with its part
        let second = [defined[0].clone(), minus(PUBLIC, query.clone())];
        assert_eq!(judge(&second, &none()), Err(Refusal::NotInScope(Part::Definition(1))), "{query:?}");
        assert_eq!(policy(&second).rewrite(), Err(Refusal::NotInScope(Part::Definition(1))), "{query:?}");
    }
    assert_eq!(judge(&[], &own(RELEASED)), Err(Refusal::NotInScope(Part::Query)));
    // one number under both polarities is two names
    let both = [plus(RELEASED, literal([7])), minus(RELEASED, literal([8]))];
    assert_eq!(ask_of(&both, &own(RELEASED)), lower([7], 0));
    assert_eq!(ask_of(&both, &own_minus(RELEASED)), upper([8], 0));
}

#[test]
fn a_definition_reads_earlier_ones_alone_and_a_query_any() {
    let (seven, eight) = (plus(RELEASED, literal([7])), plus(PUBLIC, literal([8])));
    // a later one, and itself
    let later = [plus(RELEASED, own(PUBLIC)), eight.clone()];
    assert_eq!(judge(&later, &none()), Err(Refusal::NotInScope(Part::Definition(0))));
    let itself = [seven.clone(), plus(PUBLIC, own(PUBLIC))];
    assert_eq!(judge(&itself, &none()), Err(Refusal::NotInScope(Part::Definition(1))));
    let earlier = [eight, plus(RELEASED, own(PUBLIC)), minus(WITHDRAWN, literal([9]))];
    assert_eq!(ask_of(&earlier, &own(PUBLIC)), lower([8], 0));
    assert_eq!(ask_of(&earlier, &own(RELEASED)), lower([8], 0));
    assert_eq!(ask_of(&earlier, &own_minus(WITHDRAWN)), upper([9], 0));
}

/// It is tested at its polarity word, by that word's own rule first.
#[test]
fn an_own_name_is_refused_at_its_polarity_word() {
    let k9 = OUR_KEY.word();
    let policy = policy(&[plus(RELEASED, literal([7]))]);
    let judge = |words: &[u32]| policy.judge(&Query::from_words(words.to_vec()));
    assert_eq!(judge(&[4, 0, k9, 1, 0]), Ok(Verdict::Lower));
    for words in [
        // a polarity over 1; a name over 65,535; no polarity word; in code 8, polarity − and no word of a definition
        &[4, 0, k9, 1, 2][..],
        &[4, 0, k9, 65_536, 0],
        &[4, 0, k9, 2],
        &[8, 0, k9, 1, 1, 0],
        &[8, 0, k9, 1, 0],
        // another fault at an earlier word; words left over
        &[5, 9, 4, 0, k9, 2, 0],
        &[4, 0, k9, 1, 0, 0],
    ] {
        assert_eq!(judge(words), Err(Refusal::BadWord(Part::Query)), "{words:?}");
    }
    for words in [
        &[4, 0, k9, 1, 1][..],
        &[4, 0, k9, 2, 0],
        // in code 8 before the word of its definition, which is missing
        &[8, 0, k9, 2, 0],
        &[8, 0, k9, 2, 0, 0],
        // other faults at later words
        &[5, 4, 0, k9, 2, 0, 9],
        &[4, 0, k9, 2, 0, 0],
    ] {
        assert_eq!(judge(words), Err(Refusal::NotInScope(Part::Query)), "{words:?}");
    }
}

/// A literal has both polarities; through an own name it has the one that is declared, as through the definition's label.
#[test]
fn an_own_names_polarity_is_its_definitions() {
    let definitions = [plus(RELEASED, literal([7])), minus(WITHDRAWN, literal([8]))];
    for (by_name, by_label, verdict) in
        [(own(RELEASED), Expression::defined("1+"), Verdict::Lower), (own_minus(WITHDRAWN), Expression::defined("2-"), Verdict::Upper)]
    {
        assert_eq!(judge(&definitions, &by_name), Ok(verdict));
        assert_eq!(judge(&definitions, &by_label), Ok(verdict));
        assert_eq!(judge(&definitions, &by_name.clone().union(literal([9]))), Ok(verdict));
        assert_eq!(judge(&definitions, &by_name.clone().minus(by_name)), Err(Refusal::NoPolarity(Part::Query)));
    }
    assert_eq!(judge(&definitions, &own(RELEASED).union(own_minus(WITHDRAWN))), Err(Refusal::NoPolarity(Part::Query)));
    assert_eq!(judge(&definitions, &own(RELEASED).minus(own_minus(WITHDRAWN))), Ok(Verdict::Lower));
    let declared_wrongly = [plus(RELEASED, literal([7])), minus(PUBLIC, own(RELEASED))];
    assert_eq!(judge(&declared_wrongly, &none()), Err(Refusal::NoPolarity(Part::Definition(1))));
}

#[test]
fn a_minus_own_name_of_a_closed_definition_is_drawn_from() {
    assert_eq!(ask_of(&[minus(WITHDRAWN, literal([7, 8]))], &each_x(own_minus(WITHDRAWN))), upper([7, 8], 2));
    // what of 7, 8 and 9 is not released: three draws in the definition, then two
    let not_released = [minus(WITHDRAWN, without(literal([7, 8, 9]), released_by(OBSERVATORY)))];
    let (policy, store) = (policy(&not_released), store_of([is_released(OBSERVATORY, 8)]));
    assert_eq!(ask(&policy, &each_x(own_minus(WITHDRAWN)), &store, &Links::new()), upper([7, 9], 3 + 2));
    // also in a definition, and there through a second own name
    let drawn = [minus(WITHDRAWN, literal([7, 8])), minus(PUBLIC, own_minus(WITHDRAWN)), minus(RELEASED, each_x(own_minus(PUBLIC)))];
    assert_eq!(ask_of(&drawn, &own_minus(RELEASED)), upper([7, 8], 2));
    // another key's − list is open
    assert_eq!(judge(&drawn, &each_x(withdrawn_by(OBSERVATORY))), Err(Refusal::OpenDraw(Part::Query)));
}

#[test]
fn a_plus_own_name_of_an_open_definition_is_not() {
    let (public, drawn) = ([plus(PUBLIC, all_but_7())], each_x(own(PUBLIC)));
    assert_eq!(judge(&public, &drawn), Err(Refusal::OpenDraw(Part::Query)));
    assert_eq!(ask_of(&public, &drawn), Err(Refusal::OpenDraw(Part::Query)));
    assert_eq!(judge(&[public[0].clone(), plus(RELEASED, drawn)], &none()), Err(Refusal::OpenDraw(Part::Definition(1))));
    // openness goes on through a second own name, a union, and the left of a difference
    for open in [own(PUBLIC), own(PUBLIC).union(literal([8])), own(PUBLIC).minus(literal([8]))] {
        let definitions = [public[0].clone(), plus(RELEASED, open)];
        assert_eq!(judge(&definitions, &each_x(own(RELEASED))), Err(Refusal::OpenDraw(Part::Query)), "{definitions:?}");
    }
    // without a draw it is answered
    let all_but_7 = Rows::AllBut(vec![Row::from([7])]);
    assert_eq!(ask_of(&public, &own(PUBLIC)), Ok((Table::Lower(all_but_7), 0)));
    assert_eq!(ask_of(&public, &without(literal([7, 8]), own(PUBLIC))), upper([7], 2));
}

#[test]
fn a_minus_own_name_of_an_open_definition_is_open() {
    let policy = policy(&[minus(WITHDRAWN, withdrawn_by(OBSERVATORY))]);
    let store = store_of([Certificate::not_listed(OBSERVATORY, WITHDRAWN, [7], TERM)]);
    let asked = |query: &Expression| ask(&policy, query, &store, &Links::new());
    assert_eq!(asked(&each_x(own_minus(WITHDRAWN))), Err(Refusal::OpenDraw(Part::Query)));
    assert_eq!(asked(&own_minus(WITHDRAWN)), Ok((Table::Upper(Rows::AllBut(vec![Row::from([7])])), 0)));
    assert_eq!(asked(&without(literal([7, 8]), own_minus(WITHDRAWN))), lower([7], 2));
}

/// Whether our key's name is defined or not.
#[test]
fn a_variable_that_holds_our_key_reads_certificates() {
    let query = released_by_variable();
    let store = store_of([is_released(OUR_KEY, 3), is_released(OUR_KEY, 4)]);
    for definitions in [vec![], vec![plus(RELEASED, literal([7]))]] {
        let policy = policy(&definitions);
        // our key is drawn, then what it released
        assert_eq!(ask(&policy, &query, &store, &Links::new()), lower([3, 4], 1 + 2));
        assert_eq!(ask(&policy, &query, &Store::new(), &Links::new()), lower([], 1));
    }
    // the − list of a variable is open, whatever our − definition is
    let absent = Guard::Absent(vec![7.into()], Expression::list_of(x(), WITHDRAWN, Polarity::Minus));
    let not_withdrawn = Expression::each([Guard::Draw(vec![x()], of_keys(&[OUR_KEY])), absent], [7.into()]);
    let policy = policy(&[minus(WITHDRAWN, none())]);
    assert_eq!(ask(&policy, &not_withdrawn, &Store::new(), &Links::new()), lower([], 1));
    let drawn = through_a_variable(|issuer| Expression::list_of(issuer, WITHDRAWN, Polarity::Minus));
    assert_eq!(judge_under(&policy, &drawn), Err(Refusal::OpenDraw(Part::Query)));
}

#[test]
fn links_leave_an_own_name_alone() {
    let policy = policy(&[plus(RELEASED, literal([7]))]);
    let store = store_of([is_released(OUR_KEY, 3), is_released(OBSERVATORY, 8)]);
    let from_ours = links_of([Link::containing(OUR_KEY, RELEASED, OBSERVATORY, RELEASED)]);
    let to_ours = links_of([Link::containing(OBSERVATORY, RELEASED, OUR_KEY, RELEASED)]);
    for (links, of_variable, of_observatory) in
        [(Links::new(), lower([3], 2), lower([8], 0)), (from_ours, lower([3, 8], 3), lower([8], 0)), (to_ours, lower([3], 2), lower([3, 8], 0))]
    {
        let asked = |query: &Expression| ask(&policy, query, &store, &links);
        assert_eq!(asked(&own(RELEASED)), lower([7], 0));
        // a variable, and a list of another key, reach what is certified under ours
        assert_eq!(asked(&released_by_variable()), of_variable);
        assert_eq!(asked(&released_by(OBSERVATORY)), of_observatory);
    }
}

#[test]
fn patterns_match_the_rows_of_an_own_name_as_the_format_says() {
    let definitions = [plus(RELEASED, literal([7]).union(Expression::rows([vec![8.into(), 2_027.into()]])))];
    for (format, expected) in [(Format::EqualWidths, lower([7], 2)), (Format::WiderRows, lower([7, 8], 2))] {
        let policy = Policy::in_format(OUR_KEY, format, &definitions).unwrap();
        assert_eq!(ask(&policy, &each_x(own(RELEASED)), &Store::new(), &Links::new()), expected, "{format:?}");
    }
}

/// Alice says which keys are compromised. Public is each x that is released by our own name for it.
fn external() -> Policy {
    let compromised = Expression::list(ALICE, COMPROMISED, Polarity::Minus);
    policy(&[minus(COMPROMISED, compromised), plus(RELEASED, released_by(OBSERVATORY)), plus(PUBLIC, each_x(own(RELEASED)))])
}

#[test]
fn rewriting_vets_own_names_and_keeps_our_key() {
    let [k1, k2, k9] = [ALICE, OBSERVATORY, OUR_KEY].map(Key::word);
    // 14 words of table, 5 of definition 0; then 5 and 14, which become 6 and 15
    let words =
        [&[1, 3, 0, 1, 14, 5, 1, 0, 19, 5, 10, 0, 24, 14, 4, 0, k1, 0, 1][..], &[4, 0, k2, 1, 0], &[7, 1, 1, 4, 0, k9, 1, 0, 1, 2, 0, 1, 1, 0]];
    assert_eq!(external().words(), words.concat());
    let words =
        [&[1, 3, 0, 1, 14, 5, 1, 0, 19, 6, 10, 0, 25, 15, 4, 0, k1, 0, 1][..], &[8, 0, k2, 1, 0, 0], &[7, 1, 1, 8, 0, k9, 1, 0, 0, 1, 2, 0, 1, 1, 0]];
    let rewritten = external().rewrite().unwrap();
    assert_eq!(rewritten, Policy::from_words(OUR_KEY, words.concat()));
    assert_eq!(rewritten.our_key(), OUR_KEY);
    assert_eq!(judge_under(&rewritten, &own(PUBLIC)), Ok(Verdict::Lower));
    // without compromised keys the output equals the input, our key too
    let unchanged = policy(&[plus(RELEASED, released_by(OBSERVATORY)), plus(PUBLIC, each_x(own(RELEASED)))]);
    assert_eq!(unchanged.rewrite(), Ok(unchanged));
}

/// Where our key is compromised our own names have no rows, where the observatory's is, its list has none.
#[test]
fn a_compromised_key_of_ours_empties_our_own_names() {
    let (policy, rewritten) = (external(), external().rewrite().unwrap());
    let released = || is_released(OBSERVATORY, 7);
    let asked = |policy: &Policy, query: &Expression, store: &Store| ask(policy, query, store, &Links::new());
    for (store, of_released, of_public) in [
        (store_of([released()]), lower([], 0), lower([], 0)),
        (store_of([released(), is_not_compromised(OUR_KEY)]), lower([], 0), lower([], 0)),
        (store_of([released(), is_not_compromised(OBSERVATORY)]), lower([7], 0), lower([], 0)),
        (store_of([released(), is_not_compromised(OUR_KEY), is_not_compromised(OBSERVATORY)]), lower([7], 1), lower([7], 1)),
    ] {
        assert_eq!(asked(&rewritten, &Expression::defined("1+"), &store), of_released);
        assert_eq!(asked(&rewritten, &Expression::defined("10+"), &store), of_public);
        // a query is not rewritten: what it names is not vetted by itself
        assert_eq!(asked(&rewritten, &own(RELEASED), &store), of_released);
        assert_eq!(asked(&rewritten, &own(PUBLIC), &store), of_public);
        // before it was rewritten
        assert_eq!(asked(&policy, &own(PUBLIC), &store), lower([7], 1));
    }
}

#[test]
fn own_names_of_an_external_policy_are_defined_before_them() {
    // our own − list of compromised keys would be this very definition
    let of_ours = policy(&[minus(COMPROMISED, own_minus(COMPROMISED)), plus(PUBLIC, released_by(OBSERVATORY))]);
    assert_eq!(of_ours.rewrite(), Err(Refusal::NotInScope(Part::Definition(0))));
    let later = policy(&[minus(COMPROMISED, none()), plus(PUBLIC, own(RELEASED)), plus(RELEASED, literal([7]))]);
    assert_eq!(later.rewrite(), Err(Refusal::NotInScope(Part::Definition(1))));
    // the same words with another key, of which nothing is defined
    let of_another = Policy::from_words(PARTNER, later.words().to_vec());
    assert_eq!(of_another.rewrite().map(|rewritten| rewritten.our_key()), Ok(PARTNER));
}

/// The definition is read if the row of our key is absent from the one that vets it.
#[test]
fn a_vetted_own_name_is_its_definition_or_no_rows() {
    let compromised = |keys: &[Key]| minus(COMPROMISED, of_keys(keys));
    let vetted = Expression::vetted_list(OUR_KEY, RELEASED, "0-");
    let released = plus(RELEASED, literal([7]));
    let words = policy(&[compromised(&[]), released.clone()]).query(&vetted).unwrap();
    assert_eq!(words.words(), [8, 0, OUR_KEY.word(), 1, 0, 0]);
    let store = store_of([is_released(OUR_KEY, 3)]);
    for (keys, expected, drawn) in [
        (&[][..], lower([7], 0), lower([7], 1)),
        (&[OBSERVATORY], lower([7], 0), lower([7], 1)),
        (&[OUR_KEY], lower([], 0), lower([], 0)),
        (&[OBSERVATORY, OUR_KEY], lower([], 0), lower([], 0)),
    ] {
        let policy = policy(&[compromised(keys), released.clone()]);
        assert_eq!(ask(&policy, &vetted, &store, &Links::new()), expected, "{keys:?}");
        assert_eq!(ask(&policy, &each_x(vetted.clone()), &store, &Links::new()), drawn, "{keys:?}");
        // a variable that holds our key is vetted too, and reads certificates
        let of_variable = through_a_variable(|issuer| Expression::vetted_list_of(issuer, RELEASED, "0-"));
        let certified = if keys.contains(&OUR_KEY) { lower([], 1) } else { lower([3], 2) };
        assert_eq!(ask(&policy, &of_variable, &store, &Links::new()), certified, "{keys:?}");
    }

    // it is open where its definition is, also if it comes to no rows
    let all_but_7_or_none = [(&[][..], Rows::AllBut(vec![Row::from([7])])), (&[OUR_KEY], only([]))];
    for (keys, rows) in all_but_7_or_none {
        let definitions = [compromised(keys), plus(RELEASED, all_but_7())];
        assert_eq!(ask_of(&definitions, &vetted), Ok((Table::Lower(rows), 0)), "{keys:?}");
        assert_eq!(ask_of(&definitions, &each_x(vetted.clone())), Err(Refusal::OpenDraw(Part::Query)), "{keys:?}");
    }
}

#[test]
fn a_vetted_own_name_asks_for_both_definitions() {
    let (compromised, released) = (minus(COMPROMISED, none()), plus(RELEASED, literal([7])));
    let both = [compromised.clone(), released.clone()];
    let vetted = |key, name, compromised: &str| judge(&both, &Expression::vetted_list(key, name, compromised));
    assert_eq!(vetted(OUR_KEY, RELEASED, "0-"), Ok(Verdict::Lower));
    // what vets it is not declared −; is not there; what it vets is not there
    assert_eq!(vetted(OUR_KEY, RELEASED, "1+"), Err(Refusal::NoPolarity(Part::Query)));
    let by_a_third = Query::from_words(vec![8, 0, OUR_KEY.word(), RELEASED.into(), 0, 2]);
    assert_eq!(policy(&both).judge(&by_a_third), Err(Refusal::NotInScope(Part::Query)));
    assert_eq!(vetted(OUR_KEY, PUBLIC, "0-"), Err(Refusal::NotInScope(Part::Query)));
    assert_eq!(vetted(OUR_KEY, COMPROMISED, "0-"), Err(Refusal::NotInScope(Part::Query)));
    // another key's list needs no definition of its own
    assert_eq!(vetted(OBSERVATORY, PUBLIC, "0-"), Ok(Verdict::Lower));
    let later = [compromised, plus(PUBLIC, Expression::vetted_list(OUR_KEY, RELEASED, "0-")), released];
    assert_eq!(judge(&later, &none()), Err(Refusal::NotInScope(Part::Definition(1))));
}

/// The same words, k9's name 1 + under a definition of name 1 +, with k9 as our key and with another.
#[test]
fn the_same_words_are_read_by_the_key_given_as_ours() {
    let words = [1, 1, 1, 0, 6, 5, 1, 1, 1, 0, 7].to_vec();
    let [ours, others] = [OUR_KEY, Key::new(8)].map(|our_key| Policy::from_words(our_key, words.clone()));
    assert_eq!(ours.words(), others.words());
    assert_ne!(ours, others);
    let mut store = Store::new();
    let asked = |policy: &Policy, query: &Expression, store: &Store| ask(policy, query, store, &Links::new());
    assert_eq!(asked(&ours, &own(RELEASED), &store), lower([7], 0));
    assert_eq!(asked(&others, &own(RELEASED), &store), lower([], 0));
    assert_eq!(store.file(&is_released(OUR_KEY, 3)), Ok(Filing::Filed));
    assert_eq!(asked(&ours, &own(RELEASED), &store), lower([7], 0));
    assert_eq!(asked(&others, &own(RELEASED), &store), lower([3], 0));
    // a name that is not defined is refused under our key, and read under any other
    assert_eq!(asked(&ours, &own(PUBLIC), &store), Err(Refusal::NotInScope(Part::Query)));
    assert_eq!(asked(&others, &own(PUBLIC), &store), lower([], 0));
    // a − name may be drawn from by the one, and not by the other
    let closed = [1, 1, 2, 1, 6, 5, 1, 1, 1, 0, 7].to_vec();
    let [ours, others] = [OUR_KEY, Key::new(8)].map(|our_key| Policy::from_words(our_key, closed.clone()));
    assert_eq!(asked(&ours, &each_x(own_minus(WITHDRAWN)), &store), upper([7], 1));
    assert_eq!(asked(&others, &each_x(own_minus(WITHDRAWN)), &store), Err(Refusal::OpenDraw(Part::Query)));
}

/// The reply to a query by a number, and the answer area of so many words afterwards, which held 9s.
fn query_by_a_number(number: u32, policy: &[u32], query: &[u32], store: &[u32], links: &[u32], length: usize) -> (Reply, Vec<u32>) {
    let [mut answer, mut definitions, mut scratch] = [length, DEFINITIONS_WORDS, SCRATCH_WORDS].map(|length| vec![9; length]);
    let lent = Lent { answer: &mut answer, definitions: &mut definitions, scratch: &mut scratch };
    (calls::query(policy, query, number, 0, store, links, lent), answer)
}

/// No `Key` is a number, so that one is given only in words. Part 17, verdict 3, 0 draws or length 0; and no word of an area is written.
#[test]
fn a_number_given_as_our_key_is_refused_before_all_else() {
    let sound = external();
    // a sound policy; formats 0 and 3; no words; a broken table; an own name that is not defined
    let policies: [&[u32]; 6] = [sound.words(), &[0, 0], &[3, 0], &[], &[1, 0, 0], &[1, 1, 1, 0, 6, 5, 4, 0, OUR_KEY.word(), 2, 0]];
    let queries: [&[u32]; 3] = [&[3, 2], &[], &[9]];
    let (store, links) = (Store::new(), Links::new());
    for number in [0, 5, 65_535, (1 << 31) - 1] {
        for policy in policies {
            let mut area = [9; 100];
            assert_eq!(calls::rewrite(policy, number, &mut area), Rewriting { number: 20, part: 17, length: 0 }, "{number}, {policy:?}");
            assert_eq!(area, [9; 100]);
            for query in queries {
                let judgement = calls::judge(policy, query, number);
                assert_eq!(judgement, Judgement { number: 20, part: 17, verdict: 3 }, "{number}, {policy:?}, {query:?}");
                // also where the stores are too short, and the answer area
                for (store, links) in [(store.words(), links.words()), (&[], &[])] {
                    for length in [ANSWER_WORDS, 0] {
                        let (reply, answer) = query_by_a_number(number, policy, query, store, links, length);
                        assert_eq!(reply, Reply { number: 20, part: 17, verdict: 3, draws: 0 }, "{number}, {policy:?}, {query:?}");
                        assert_eq!(answer, vec![9; length]);
                    }
                }
            }
        }
    }
    let not_a_key = Refusal::from_number(20, None);
    assert_eq!(not_a_key, Some(Refusal::NotAKey));
    assert_eq!(not_a_key.unwrap().to_string(), "refusal 20: the number given as our key is not a key");
    // parts are handed back without our key
    assert_eq!(sound.part(&Query::from_words(vec![3, 2]), Part::Definition(1)), [4, 0, OBSERVATORY.word(), 1, 0]);
}

#[test]
fn every_key_may_be_ours() {
    for our_key in [Key::new(0), OUR_KEY, Key::new((1 << 31) - 1)] {
        let policy = Policy::new(our_key, &[plus(RELEASED, literal([7]))]).unwrap();
        assert_eq!(ask(&policy, &released_by(our_key), &Store::new(), &Links::new()), lower([7], 0));
        assert_eq!(policy.rewrite().as_ref(), Ok(&policy));
    }
}
