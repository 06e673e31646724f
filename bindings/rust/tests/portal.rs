//! The portal cases through the safe types, at minute 0, their certificates holding from 0 to 1, and with k2 as our key. They link the compiled library:
//! `bash library` first.

use txindurbe::{
    variable, Certificate, Definition, Engine, Expression, Filing, Guard, Key, Links, Membership, Minute, Part, Polarity, Policy, Query, Refusal,
    Row, Rows, Store, Table, Validity, Verdict,
};

const RELEASED: u16 = 1;
const WITHDRAWN: u16 = 2;
const OBSERVATORY: Key = Key::new(1);
const OUR_KEY: Key = Key::new(2);
const NOW: Minute = Minute::new(0);
const TERM: Validity = Validity { first: NOW, end: Minute::new(1) };

fn withdrawn() -> Expression {
    Expression::list(OBSERVATORY, WITHDRAWN, Polarity::Minus)
}

/// Document 01's P.
fn released_and_not_withdrawn() -> Policy {
    let released = Expression::list(OBSERVATORY, RELEASED, Polarity::Plus);
    let guards = [Guard::Draw(vec![variable("x")], released), Guard::Absent(vec![variable("x")], withdrawn())];
    Policy::new(OUR_KEY, &[Definition::new("public", 10, Polarity::Plus, Expression::each(guards, [variable("x")]))]).unwrap()
}

fn no_definitions() -> Policy {
    Policy::new(OUR_KEY, &[]).unwrap()
}

/// The rows certified of a name, if each has the one term.
fn certified(store: &Store, name: u16, polarity: Polarity) -> Vec<Row> {
    let row = |(row, validity)| if validity == TERM { row } else { panic!("{row}, {validity:?}") };
    store.certificates_of(OBSERVATORY, name, polarity).map(row).collect()
}

fn rows<const N: usize>(numbers: [u32; N]) -> Vec<Row> {
    numbers.map(|number| Row::from([number])).to_vec()
}

#[test]
fn the_policy_has_document_01s_words() {
    let k1 = OBSERVATORY.word();
    let words = [1, 1, 10, 0, 6, 23, 7, 2, 1, 4, 0, k1, 1, 0, 1, 2, 0, 4, 1, 1, 0, 4, 0, k1, 2, 1, 1, 1, 0];
    assert_eq!(released_and_not_withdrawn().words(), words);
}

#[test]
fn portal_cases_a_to_e() {
    let policy = released_and_not_withdrawn();
    let query = policy.query(&Expression::defined("public")).unwrap();
    assert_eq!(query.words(), [3, 0]);
    let mut engine = Engine::new();
    let mut store = Store::new();
    let mut ask =
        |query: &Query, store: &Store| engine.query(&policy, query, NOW, store, &Links::new()).map(|answer| (answer.table().clone(), answer.draws()));
    let lower = |listed: Vec<Row>, draws| Ok((Table::Lower(Rows::Only(listed)), draws));
    assert_eq!(ask(&query, &store), lower(vec![], 0));
    assert_eq!(store.file(&Certificate::listed(OBSERVATORY, RELEASED, [7], TERM)), Ok(Filing::Filed));
    assert_eq!(ask(&query, &store), lower(vec![], 1));
    assert_eq!(store.file(&Certificate::not_listed(OBSERVATORY, WITHDRAWN, [7], TERM)), Ok(Filing::Filed));
    assert_eq!(ask(&query, &store), lower(rows([7]), 1));
    assert_eq!(store.file(&Certificate::listed(OBSERVATORY, RELEASED, [8], TERM)), Ok(Filing::Filed));
    assert_eq!(store.file(&Certificate::listed(OBSERVATORY, RELEASED, [8], TERM)), Ok(Filing::Held));
    assert_eq!(ask(&query, &store), lower(rows([7]), 2));
    assert_eq!(ask(&policy.query(&withdrawn()).unwrap(), &store), Ok((Table::Upper(Rows::AllBut(rows([7]))), 2)));
    assert_eq!(certified(&store, RELEASED, Polarity::Plus), rows([7, 8]));
    assert_eq!(certified(&store, WITHDRAWN, Polarity::Plus), []);
}

/// 7, 7/1, 7/1/2, 8: by width first, 8 would come second.
#[test]
fn rows_of_one_observation_are_side_by_side() {
    let ascending = [Row::from([7]), Row::from([7, 1]), Row::from([7, 1, 2]), Row::from([8])];
    let mut store = Store::new();
    for row in ascending.iter().rev() {
        assert_eq!(store.file(&Certificate::listed(OBSERVATORY, RELEASED, *row, TERM)), Ok(Filing::Filed));
    }
    assert_eq!(certified(&store, RELEASED, Polarity::Plus), ascending);
    let query = no_definitions().query(&Expression::list(OBSERVATORY, RELEASED, Polarity::Plus)).unwrap();
    let ask = |store: &Store| Engine::new().query(&no_definitions(), &query, NOW, store, &Links::new());
    let answer = ask(&store).unwrap();
    assert_eq!(answer.table(), &Table::Lower(Rows::Only(ascending.to_vec())));
    assert!(ascending.iter().all(|row| answer.contains(row) == Membership::Yes));

    // By width first it is unsound, and its certificates are filed again.
    let mut words = store.words().to_vec();
    words[11..41].rotate_right(10);
    let kept = Store::from_words(words);
    assert_eq!(ask(&kept), Err(Refusal::BadStore));
    let mut again = Store::new();
    for certificate in kept.words()[1..41].chunks(10) {
        assert_eq!(again.file_words(certificate), Ok(Filing::Filed));
    }
    assert_eq!(again, store);
}

#[test]
fn verdicts_without_a_store() {
    let policy = released_and_not_withdrawn();
    let judge = |expression| policy.judge(&policy.query(&expression).unwrap());
    assert_eq!(judge(Expression::defined("public")), Ok(Verdict::Lower));
    assert_eq!(judge(withdrawn()), Ok(Verdict::Upper));
    assert_eq!(judge(Expression::rows([])), Ok(Verdict::Exact));
}

#[test]
fn complements_are_exact() {
    let union = Expression::all_but([vec![7.into()], vec![8.into()]]).union(Expression::rows([vec![8.into()]]));
    let query = no_definitions().query(&union).unwrap();
    let answer = Engine::new().query(&no_definitions(), &query, NOW, &Store::new(), &Links::new()).unwrap();
    assert_eq!(answer.table(), &Table::Exact(Rows::AllBut(rows([7]))));
    assert_eq!([7, 8].map(|number| answer.contains(&Row::from([number]))), [Membership::No, Membership::Yes]);
}

#[test]
fn refusals_say_where_and_why() {
    let from_open = Expression::each([Guard::Draw(vec![variable("x")], withdrawn())], [variable("x")]);
    let policy = Policy::new(OUR_KEY, &[Definition::new("open", 1, Polarity::Minus, from_open.clone())]).unwrap();
    let query = policy.query(&Expression::rows([])).unwrap();
    let refusal = Engine::new().query(&policy, &query, NOW, &Store::new(), &Links::new()).unwrap_err();
    assert_eq!(refusal, Refusal::OpenDraw(Part::Definition(0)));
    assert_eq!(refusal.to_string(), "refusal 7 in definition 0: a draw is made from an open expression");
    assert_eq!(policy.part(&query, Part::Definition(0)), policy.query(&from_open).unwrap().words());
    assert_eq!(policy.part(&query, Part::Query), query.words());
    assert_eq!(policy.part(&query, Part::Definition(1)), []);
    // the engine's number for the query
    assert_eq!(policy.part(&query, Part::Definition(16)), []);

    let broken = Store::from_words(vec![3; 5]);
    let refusal = Engine::new().query(&no_definitions(), &query, NOW, &broken, &Links::new()).unwrap_err();
    assert_eq!((refusal, refusal.to_string()), (Refusal::BadStore, "refusal 8: the store is too short or unsound".into()));
    assert_eq!(Store::new().file_words(&[1, 2, 3]), Err(Refusal::BadCertificate));
}
