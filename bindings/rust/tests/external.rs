//! External policies rewritten, through the safe types, and what their tables rest on. The words and tables were worked out by hand. They link the compiled
//! library: `bash library` first.

use txindurbe::calls::{self, Rewriting};
use txindurbe::{
    variable, Atom, Certificate, Definition, Engine, Expression, Guard, Key, Links, Minute, Part, Polarity, Policy, Refusal, Row, Rows, Store, Table,
    Term, Validity,
};

/// No list that is read here is under it.
const OUR_KEY: Key = Key::new(9);
const ALICE: Key = Key::new(1);
const OBSERVATORY: Key = Key::new(2);
const COMPROMISED: u16 = 0;
const RELEASED: u16 = 1;
const TRUSTED: u16 = 6;
const PUBLIC: u16 = 10;
const NOW: Minute = Minute::new(0);
const TERM: Validity = Validity { first: NOW, end: Minute::new(1) };

/// Alice is responsible for key compromise, as in source document 000, section 6: name 0 − is her name 0 −.
fn compromised() -> Definition {
    Definition::new("compromised", COMPROMISED, Polarity::Minus, Expression::list(ALICE, COMPROMISED, Polarity::Minus))
}

fn public(expression: Expression) -> Definition {
    Definition::new("public", PUBLIC, Polarity::Plus, expression)
}

fn policy(definitions: &[Definition]) -> Policy {
    Policy::new(OUR_KEY, definitions).unwrap()
}

fn released() -> Expression {
    Expression::list(OBSERVATORY, RELEASED, Polarity::Plus)
}

/// Each x that is released by an observatory that Alice trusts.
fn delegated(trusted: Expression, released: fn(Term) -> Expression) -> Expression {
    let [observatory, x] = ["observatory", "x"].map(variable);
    let guards = [Guard::Draw(vec![observatory.clone()], trusted), Guard::Draw(vec![x.clone()], released(observatory))];
    Expression::each(guards, [x])
}

/// The rows of what is public.
fn at_least(policy: &Policy, store: &Store) -> Vec<Row> {
    let query = policy.query(&Expression::defined("public")).unwrap();
    assert_eq!(query.words(), [3, 1]);
    let answer = Engine::new().query(policy, &query, NOW, store, &Links::new()).unwrap();
    match answer.table() {
        Table::Lower(Rows::Only(rows)) => rows.clone(),
        table => panic!("{table}"),
    }
}

#[test]
fn each_list_of_a_later_definition_is_vetted() {
    let [k1, k2] = [ALICE, OBSERVATORY].map(Key::word);
    let external = policy(&[compromised(), public(released())]);
    assert_eq!(external.words(), [1, 2, 0, 1, 10, 5, 10, 0, 15, 5, 4, 0, k1, 0, 1, 4, 0, k2, 1, 0]);
    let rewritten = external.rewrite().unwrap();
    assert_eq!(rewritten.words(), [1, 2, 0, 1, 10, 5, 10, 0, 15, 6, 4, 0, k1, 0, 1, 8, 0, k2, 1, 0, 0]);
    assert_eq!(rewritten, policy(&[compromised(), public(Expression::vetted_list(OBSERVATORY, RELEASED, "compromised"))]));
    // it is external no longer
    assert_eq!(rewritten.rewrite(), Err(Refusal::NotExternal));
}

#[test]
fn a_key_is_relied_on_once_it_is_certified_not_to_be_compromised() {
    let external = policy(&[compromised(), public(released())]);
    let rewritten = external.rewrite().unwrap();
    let mut store = Store::new();
    store.file(&Certificate::listed(OBSERVATORY, RELEASED, [7], TERM)).unwrap();
    assert_eq!(at_least(&external, &store), [Row::from([7])]);
    assert_eq!(at_least(&rewritten, &store), []);
    // of other keys, and of a longer row, nothing follows for this one
    store.file(&Certificate::not_listed(ALICE, COMPROMISED, [ALICE], TERM)).unwrap();
    store.file(&Certificate::not_listed(ALICE, COMPROMISED, [Atom::from(OBSERVATORY), Atom::from(7)], TERM)).unwrap();
    assert_eq!(at_least(&rewritten, &store), []);
    store.file(&Certificate::not_listed(ALICE, COMPROMISED, [OBSERVATORY], TERM)).unwrap();
    assert_eq!(at_least(&rewritten, &store), [Row::from([7])]);
}

#[test]
fn variable_issuers_are_vetted_one_by_one() {
    let trusted = || Expression::list(ALICE, TRUSTED, Polarity::Plus);
    let lists = delegated(trusted(), |observatory| Expression::list_of(observatory, RELEASED, Polarity::Plus));
    let vetted = delegated(Expression::vetted_list(ALICE, TRUSTED, "compromised"), |observatory| {
        Expression::vetted_list_of(observatory, RELEASED, "compromised")
    });
    let (k2, k3) = (Key::new(2), Key::new(3));
    let known = Definition { expression: Expression::rows([vec![k3.into()]]), ..compromised() };
    let external = policy(&[known.clone(), public(lists)]);
    let rewritten = external.rewrite().unwrap();
    assert_eq!(rewritten, policy(&[known, public(vetted)]));
    let mut store = Store::new();
    // a number that Alice trusts has no list
    for trusted in [Atom::from(k2), Atom::from(k3), Atom::from(5)] {
        store.file(&Certificate::listed(ALICE, TRUSTED, [trusted], TERM)).unwrap();
    }
    store.file(&Certificate::listed(k2, RELEASED, [7], TERM)).unwrap();
    store.file(&Certificate::listed(k3, RELEASED, [8], TERM)).unwrap();
    assert_eq!(at_least(&external, &store), [Row::from([7]), Row::from([8])]);
    assert_eq!(at_least(&rewritten, &store), [Row::from([7])]);
}

#[test]
fn without_compromised_keys_the_output_equals_the_input() {
    for definitions in [vec![], vec![public(released())], vec![Definition { name: 0, ..public(released()) }]] {
        let external = policy(&definitions);
        assert_eq!(external.rewrite(), Ok(external));
    }
}

#[test]
fn broken_external_rules_are_refused() {
    let seven: Vec<Term> = vec![7.into()];
    let difference = Expression::rows([seven.clone()]).minus(Expression::rows([]));
    let absent = Expression::each([Guard::Absent(seven.clone(), Expression::rows([]))], seven.clone());
    let elsewhere = Definition { name: 1, ..compromised() };
    let broken = [
        vec![compromised(), public(difference)],
        vec![compromised(), public(absent)],
        vec![compromised(), public(Expression::vetted_list(OBSERVATORY, RELEASED, "compromised"))],
        vec![compromised(), elsewhere.clone()],
        vec![elsewhere],
        vec![public(released()), compromised()],
    ];
    for definitions in broken {
        assert_eq!(policy(&definitions).rewrite(), Err(Refusal::NotExternal), "{definitions:?}");
    }
    // what is refused anyhow comes first, with its part
    let open = Expression::each([Guard::Draw(vec![variable("x")], Expression::all_but([]))], seven);
    let refused = policy(&[Definition { name: 1, ..compromised() }, public(open)]).rewrite();
    assert_eq!(refused, Err(Refusal::OpenDraw(Part::Definition(1))));
    assert_eq!(Policy::from_words(OUR_KEY, vec![3, 0]).rewrite(), Err(Refusal::BadHeader));
}

#[test]
fn a_short_area_stays_and_so_do_words_past_the_output() {
    let (external, our_key) = (policy(&[compromised(), public(released())]), OUR_KEY.word());
    let mut area = [9; 22];
    assert_eq!(calls::rewrite(external.words(), our_key, &mut area[..20]), Rewriting { number: 11, part: 17, length: 0 });
    assert_eq!(area, [9; 22]);
    assert_eq!(calls::rewrite(external.words(), our_key, &mut area[..21]), Rewriting { number: 0, part: 17, length: 21 });
    assert_eq!(area[..21], *external.rewrite().unwrap().words());
    assert_eq!(calls::rewrite(&[1, 0], our_key, &mut area), Rewriting { number: 0, part: 17, length: 2 });
    assert_eq!((&area[..3], area[21]), (&[1, 0, 0][..], 9));
}
