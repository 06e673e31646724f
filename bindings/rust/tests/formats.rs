//! Policies of formats 1 and 2 through the safe types. What is expected was worked out by hand. They link the compiled library: `bash library` first.

mod filed;

use filed::store_of;
use txindurbe::{
    variable, Atom, Certificate, Definition, Engine, Expression, Filing, Format, Guard, Key, Link, Links, Minute, Part, Polarity, Policy, Query,
    Refusal, Row, Rows, Store, Table, Term, Validity, Verdict,
};

/// No list that is read here is under it.
const OUR_KEY: Key = Key::new(9);
const ALICE: Key = Key::new(1);
const OBSERVATORY: Key = Key::new(2);
const PARTNER: Key = Key::new(3);
const COMPROMISED: u16 = 0;
const RELEASED: u16 = 1;
const WITHDRAWN: u16 = 2;
const TRUSTED: u16 = 6;
const PUBLIC: u16 = 10;
/// What observatories append to their rows.
const EPOCH: u32 = 2_027;
const NOW: Minute = Minute::new(0);
const TERM: Validity = Validity { first: NOW, end: Minute::new(1) };
const FORMATS: [Format; 2] = [Format::EqualWidths, Format::WiderRows];

fn x() -> Term {
    variable("x")
}

fn y() -> Term {
    variable("y")
}

fn in_format(format: Format, definitions: &[Definition]) -> Policy {
    Policy::in_format(OUR_KEY, format, definitions).unwrap()
}

fn public(expression: Expression) -> Definition {
    Definition::new("public", PUBLIC, Polarity::Plus, expression)
}

fn compromised(expression: Expression) -> Definition {
    Definition::new("compromised", COMPROMISED, Polarity::Minus, expression)
}

fn released() -> Expression {
    Expression::list(OBSERVATORY, RELEASED, Polarity::Plus)
}

fn withdrawn() -> Expression {
    Expression::list(OBSERVATORY, WITHDRAWN, Polarity::Minus)
}

fn released_by_both() -> Expression {
    released().union(Expression::list(PARTNER, RELEASED, Polarity::Plus))
}

/// Each row drawn by a pattern of one slot, as x.
fn each_x(from: Expression) -> Expression {
    Expression::each([Guard::Draw(vec![x()], from)], [x()])
}

/// A row with its epoch.
fn with_epoch(number: u32) -> Vec<Term> {
    vec![number.into(), EPOCH.into()]
}

fn is_released(row: impl Into<Row>) -> Certificate {
    Certificate::listed(OBSERVATORY, RELEASED, row, TERM)
}

fn is_not_withdrawn(row: impl Into<Row>) -> Certificate {
    Certificate::not_listed(OBSERVATORY, WITHDRAWN, row, TERM)
}

/// Six rows, of one to four atoms.
fn observations() -> Store {
    let rows = [Row::from([7]), Row::from([7, 7]), Row::from([7, 8, 1]), Row::from([7, 8, 1, 2]), Row::from([8, 7]), Row::from([9, 9, 9, 9])];
    store_of(rows.map(is_released))
}

fn rows<const WIDTH: usize, const COUNT: usize>(rows: [[u32; WIDTH]; COUNT]) -> Vec<Row>
where
    Row: From<[u32; WIDTH]>,
{
    rows.map(Row::from).to_vec()
}

/// The rows and the draws of a query's answer under a policy.
fn under(policy: &Policy, query: &Expression, store: &Store, links: &Links) -> (Vec<Row>, u32) {
    let answer = Engine::new().query(policy, &policy.query(query).unwrap(), NOW, store, links).unwrap();
    match answer.table() {
        Table::Lower(Rows::Only(rows)) | Table::Exact(Rows::Only(rows)) => (rows.clone(), answer.draws()),
        table => panic!("{table}"),
    }
}

/// Those under these definitions in format 1, then in format 2.
fn in_both(definitions: &[Definition], query: &Expression, store: &Store) -> [(Vec<Row>, u32); 2] {
    FORMATS.map(|format| under(&in_format(format, definitions), query, store, &Links::new()))
}

/// The rows alone.
fn rows_in_both(definitions: &[Definition], query: &Expression, store: &Store) -> [Vec<Row>; 2] {
    in_both(definitions, query, store).map(|(rows, _)| rows)
}

#[test]
fn patterns_match_their_own_width_or_every_row_of_at_least_it() {
    let store = observations();
    let by_width = |width: usize| {
        let pattern = ["a", "b", "c", "d"][..width].iter().map(|name| variable(*name)).collect::<Vec<Term>>();
        in_both(&[], &Expression::each([Guard::Draw(pattern.clone(), released())], pattern), &store)
    };
    // each of the six rows is a draw, matched or not
    assert_eq!(by_width(1), [(rows([[7]]), 6), (rows([[7], [8], [9]]), 6)]);
    assert_eq!(by_width(2), [(rows([[7, 7], [8, 7]]), 6), (rows([[7, 7], [7, 8], [8, 7], [9, 9]]), 6)]);
    assert_eq!(by_width(3), [(rows([[7, 8, 1]]), 6), (rows([[7, 8, 1], [9, 9, 9]]), 6)]);
    // no row is wider than four atoms
    let all_four = (rows([[7, 8, 1, 2], [9, 9, 9, 9]]), 6);
    assert_eq!(by_width(4), [all_four.clone(), all_four]);
}

#[test]
fn terms_of_a_pattern_are_compared_with_the_first_atoms() {
    let store = observations();
    let draw = |pattern: &[Term]| rows_in_both(&[], &Expression::each([Guard::Draw(pattern.to_vec(), released())], [x()]), &store);
    // a variable twice: 7/7, and by their first atoms 9/9/9/9
    assert_eq!(draw(&[x(), x()]), [rows([[7]]), rows([[7], [9]])]);
    assert_eq!(draw(&[x(), y(), x()]), [vec![], rows([[9]])]);
    // an atom: 7/7, and by their first atoms 7/8/1 and 7/8/1/2
    assert_eq!(draw(&[7.into(), x()]), [rows([[7]]), rows([[7], [8]])]);
    // a variable of an earlier draw: 8/7, and by its first atoms 9/9/9/9
    let earlier = Expression::rows([vec![8.into()], vec![9.into()]]);
    let guards = [Guard::Draw(vec![x()], earlier), Guard::Draw(vec![x(), y()], released())];
    assert_eq!(in_both(&[], &Expression::each(guards, [y()]), &store), [(rows([[7]]), 2 + 2 * 6), (rows([[7], [9]]), 2 + 2 * 6)]);
}

/// Of the six rows a pattern of one slot matches 7 alone, or all of them.
#[test]
fn guards_behind_a_row_that_is_passed_over_are_not_read() {
    let guards = [Guard::Draw(vec![x()], released()), Guard::Draw(vec![x(), y()], released())];
    let pairs = in_both(&[], &Expression::each(guards, [x(), y()]), &observations());
    assert_eq!(pairs, [(rows([[7, 7]]), 6 + 6), (rows([[7, 7], [7, 8], [8, 7], [9, 9]]), 6 + 6 * 6)]);
}

#[test]
fn a_query_follows_its_policys_format() {
    let written = || Expression::rows([with_epoch(7)]);
    let asked = |expression, query| rows_in_both(&[public(expression)], &query, &Store::new());
    let seven = rows([[7]]);
    // the draw stands in the definition; in the query; in both, one inside the other
    assert_eq!(asked(each_x(written()), Expression::defined("public")), [vec![], seven.clone()]);
    assert_eq!(asked(written(), each_x(Expression::defined("public"))), [vec![], seven.clone()]);
    let both_atoms = Expression::each([Guard::Draw(vec![x(), y()], written())], [x(), y()]);
    assert_eq!(asked(both_atoms, each_x(Expression::defined("public"))), [vec![], seven]);
}

#[test]
fn rows_that_links_bring_are_matched_alike() {
    let store = store_of([is_released([7]), Certificate::listed(PARTNER, RELEASED, [8, EPOCH], TERM)]);
    let mut links = Links::new();
    assert_eq!(links.file(&Link::containing(OBSERVATORY, RELEASED, PARTNER, RELEASED)), Ok(Filing::Filed));
    let drawn = FORMATS.map(|format| under(&in_format(format, &[]), &each_x(released()), &store, &links));
    assert_eq!(drawn, [(rows([[7]]), 2), (rows([[7], [8]]), 2)]);
}

#[test]
fn an_absent_guard_asks_for_the_whole_row() {
    // released and not withdrawn: by the observation alone, and with its epoch
    let alone = Expression::each([Guard::Draw(vec![x()], released()), Guard::Absent(vec![x()], withdrawn())], [x()]);
    let together = Expression::each([Guard::Draw(vec![x(), y()], released()), Guard::Absent(vec![x(), y()], withdrawn())], [x()]);
    let ask = |query: &Expression, store: &Store| rows_in_both(&[], query, store);

    let mut store = store_of([is_released([7, EPOCH]), is_not_withdrawn([7, EPOCH])]);
    assert_eq!(ask(&alone, &store), [vec![], vec![]]);
    assert_eq!(ask(&together, &store), [rows([[7]]), rows([[7]])]);
    assert_eq!(store.file(&is_not_withdrawn([7])), Ok(Filing::Filed));
    assert_eq!(ask(&alone, &store), [vec![], rows([[7]])]);
    // a third atom is past the pattern, and the row asked for has two
    let store = store_of([is_released([8, EPOCH, 1]), is_not_withdrawn([8, EPOCH, 1]), is_released([9, EPOCH, 1]), is_not_withdrawn([9, EPOCH])]);
    assert_eq!(ask(&together, &store), [vec![], rows([[9]])]);

    // a row is absent where a wider or a narrower one is written
    let (narrow, wide) = (&vec![7.into()], &with_epoch(7));
    for (asked, written, found) in [(narrow, wide, true), (wide, narrow, true), (narrow, narrow, false), (wide, wide, false)] {
        let query = Expression::each([Guard::Absent(asked.clone(), Expression::rows([written.clone()]))], narrow.clone());
        let expected = if found { rows([[7]]) } else { vec![] };
        assert_eq!(ask(&query, &Store::new()), [expected.clone(), expected], "{asked:?} absent from {written:?}");
    }
}

#[test]
fn vetting_asks_for_the_keys_own_row() {
    let vetted = Expression::vetted_list(OBSERVATORY, RELEASED, "compromised");
    let seven = rows([[7]]);
    // a row that begins with the key does not make it compromised
    let wider = [compromised(Expression::rows([vec![OBSERVATORY.into(), EPOCH.into()]]))];
    let mut store = store_of([is_released([7])]);
    assert_eq!(rows_in_both(&wider, &vetted, &store), [seven.clone(), seven.clone()]);
    // nor is it certified not to be by such a row
    let by_alice = [compromised(Expression::list(ALICE, COMPROMISED, Polarity::Minus))];
    assert_eq!(store.file(&Certificate::not_listed(ALICE, COMPROMISED, [Atom::from(OBSERVATORY), Atom::from(EPOCH)], TERM)), Ok(Filing::Filed));
    assert_eq!(rows_in_both(&by_alice, &vetted, &store), [vec![], vec![]]);
    assert_eq!(store.file(&Certificate::not_listed(ALICE, COMPROMISED, [OBSERVATORY], TERM)), Ok(Filing::Filed));
    assert_eq!(rows_in_both(&by_alice, &vetted, &store), [seven.clone(), seven]);
}

/// Each x that is released by an observatory that Alice trusts, and who says which keys are compromised.
fn delegation(format: Format) -> Policy {
    let guards = [
        Guard::Draw(vec![variable("o")], Expression::list(ALICE, TRUSTED, Polarity::Plus)),
        Guard::Draw(vec![x()], Expression::list_of(variable("o"), RELEASED, Polarity::Plus)),
    ];
    let by_alice = Expression::list(ALICE, COMPROMISED, Polarity::Minus);
    in_format(format, &[compromised(by_alice), public(Expression::each(guards, [x()]))])
}

#[test]
fn a_rewritten_policy_keeps_its_format() {
    let k1 = ALICE.word();
    for (format, word) in FORMATS.into_iter().zip([1, 2]) {
        let rewritten = delegation(format).rewrite().unwrap();
        // 10 words of table, 5 of definition 0, then 25 where there were 23
        let table = [word, 2, 0, 1, 10, 5, 10, 0, 15, 25];
        let trusted = [1, 8, 0, k1, 6, 0, 0, 1, 2, 0];
        let released = [1, 8, 1, 0, 1, 0, 0, 1, 2, 1];
        let expected = [&table[..], &[4, 0, k1, 0, 1, 7, 2], &trusted, &released, &[1, 1, 1]].concat();
        assert_eq!(rewritten.words(), expected);
        assert_eq!(rewritten.format(), Some(format));
        // without compromised keys the output equals the input
        for unchanged in [in_format(format, &[public(each_x(released_by_both()))]), in_format(format, &[])] {
            assert_eq!(unchanged.rewrite(), Ok(unchanged));
        }
    }
}

/// Alice appends an epoch to the keys that she trusts, the observatory to what it released.
#[test]
fn a_rewritten_policy_matches_as_its_format_says() {
    let mut store = store_of([Certificate::listed(ALICE, TRUSTED, [Atom::from(OBSERVATORY), Atom::from(EPOCH)], TERM), is_released([7, EPOCH])]);
    let rewritten = |format| delegation(format).rewrite().unwrap();
    let ask = |store: &Store| FORMATS.map(|format| under(&rewritten(format), &Expression::defined("public"), store, &Links::new()));
    // her own key counts as compromised, so that there is nothing to draw; then the observatory's
    assert_eq!(ask(&store), [(vec![], 0), (vec![], 0)]);
    assert_eq!(store.file(&Certificate::not_listed(ALICE, COMPROMISED, [ALICE], TERM)), Ok(Filing::Filed));
    assert_eq!(ask(&store), [(vec![], 1), (vec![], 1)]);
    assert_eq!(store.file(&Certificate::not_listed(ALICE, COMPROMISED, [OBSERVATORY], TERM)), Ok(Filing::Filed));
    assert_eq!(ask(&store), [(vec![], 1), (rows([[7]]), 2)]);
}

#[test]
fn the_words_of_a_part_stand_where_they_stood() {
    let (first, second) = (each_x(released()), released_by_both());
    let definition = |label, name, expression: &Expression| Definition::new(label, name, Polarity::Plus, expression.clone());
    for format in FORMATS {
        let policy = in_format(format, &[definition("first", 1, &first), definition("second", 2, &second)]);
        let [query, first, second] = [&Expression::defined("second"), &first, &second].map(|expression| policy.query(expression).unwrap());
        assert_eq!(query.words(), [3, 1]);
        assert_eq!(policy.part(&query, Part::Definition(0)), first.words());
        assert_eq!(policy.part(&query, Part::Definition(1)), second.words());
        assert_eq!(policy.part(&query, Part::Definition(2)), []);
        assert_eq!(policy.part(&query, Part::Query), query.words());
        assert_eq!(policy.judge(&query), Ok(Verdict::Lower));
    }
}

#[test]
fn other_formats_are_refused() {
    let query = Query::from_words(vec![1, 0]);
    for word in [0, 3, 257, 258, 65_537, 65_538, ALICE.word(), OBSERVATORY.word(), u32::MAX] {
        let mut words = delegation(Format::WiderRows).words().to_vec();
        words[0] = word;
        for policy in [Policy::from_words(OUR_KEY, vec![word, 0]), Policy::from_words(OUR_KEY, words)] {
            assert_eq!(policy.format(), None);
            assert_eq!(policy.judge(&query), Err(Refusal::BadHeader), "{word}");
            assert_eq!(Engine::new().query(&policy, &query, NOW, &Store::new(), &Links::new()), Err(Refusal::BadHeader), "{word}");
            assert_eq!(policy.rewrite(), Err(Refusal::BadHeader), "{word}");
            for part in [Part::Definition(0), Part::Query] {
                assert_eq!(policy.part(&query, part), [], "{word}");
            }
        }
    }
    let meaning = "the policy is under 2 or over 8,192 words, has a format other than 1 and 2 or over 16 definitions, or its table is cut short";
    assert_eq!(Policy::from_words(OUR_KEY, vec![3, 0]).judge(&query).unwrap_err().to_string(), format!("refusal 1: {meaning}"));
}

#[test]
fn format_2_keeps_the_other_rules_of_a_policys_words() {
    let query = Query::from_words(vec![1, 0]);
    let judge = |words: &[u32]| Policy::from_words(OUR_KEY, words.to_vec()).judge(&query);
    assert_eq!(judge(&[2, 0]), Ok(Verdict::Exact));
    assert_eq!(judge(&[2, 1, 10, 0, 6, 2, 1, 0]), Ok(Verdict::Exact));
    for words in [&[2][..], &[2, 17], &[2, 1, 10, 0, 6], &[2; 8_193]] {
        assert_eq!(judge(words), Err(Refusal::BadHeader), "{words:?}");
    }
    for words in [&[2, 0, 1][..], &[2, 1, 10, 0, 7, 1, 1, 0], &[2, 1, 10, 2, 6, 2, 1, 0], &[2, 1, 10, 0, 6, 0]] {
        assert_eq!(judge(words), Err(Refusal::BadTable), "{words:?}");
    }
    // nor may a list of which certificates say what is not in it be drawn from
    let policy = in_format(Format::WiderRows, &[]);
    assert_eq!(policy.judge(&policy.query(&each_x(withdrawn())).unwrap()), Err(Refusal::OpenDraw(Part::Query)));
}
