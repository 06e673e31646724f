//! Variables and definitions by name: the words that they come to, worked out by hand, and names that stand for nothing. They link the compiled library:
//! `bash library` first.

use txindurbe::{variable, Definition, Expression, Guard, Key, Part, Polarity, Policy, Query, Refusal, Term, Unresolved, Verdict};

const OUR_KEY: Key = Key::new(9);
const K1: Key = Key::new(1);

fn no_definitions() -> Policy {
    Policy::new(OUR_KEY, &[]).unwrap()
}

fn query(expression: &Expression) -> Result<Query, Unresolved> {
    no_definitions().query(expression)
}

fn judge(expression: &Expression) -> Result<Verdict, Refusal> {
    no_definitions().judge(&query(expression).unwrap())
}

/// k1's list of this number, +.
fn list(name: u16) -> Expression {
    Expression::list(K1, name, Polarity::Plus)
}

fn draw<const WIDTH: usize>(pattern: [&str; WIDTH], from: Expression) -> Guard {
    Guard::Draw(pattern.map(variable).to_vec(), from)
}

fn absent<const WIDTH: usize>(row: [&str; WIDTH], from: Expression) -> Guard {
    Guard::Absent(row.map(variable).to_vec(), from)
}

fn each<const GUARDS: usize, const WIDTH: usize>(guards: [Guard; GUARDS], head: [&str; WIDTH]) -> Expression {
    Expression::each(guards, head.map(variable))
}

fn no_variable<T>(name: &str) -> Result<T, Unresolved> {
    Err(Unresolved::Variable(name.into()))
}

fn no_definition<T>(label: &str) -> Result<T, Unresolved> {
    Err(Unresolved::Definition(label.into()))
}

#[test]
fn each_code_has_its_words() {
    let k1 = K1.word();
    for (expression, words) in [
        (Expression::rows([vec![7.into(), K1.into()], vec![8.into()]]), &[1, 2, 2, 0, 7, 0, k1, 1, 0, 8][..]),
        (Expression::all_but([vec![7.into()]]), &[2, 1, 1, 0, 7]),
        (Expression::rows([]), &[1, 0]),
        (Expression::list(K1, 2, Polarity::Minus), &[4, 0, k1, 2, 1]),
        (list(1).union(list(2)), &[5, 4, 0, k1, 1, 0, 4, 0, k1, 2, 0]),
        (list(1).minus(list(2)), &[6, 4, 0, k1, 1, 0, 4, 0, k1, 2, 0]),
        (Expression::each([], [7.into()]), &[7, 0, 1, 0, 7]),
        (
            each(
                [draw(["x"], list(1)), Guard::Same(variable("x"), 7.into()), Guard::Different(8.into(), variable("x")), absent(["x"], list(2))],
                ["x"],
            ),
            &[7, 4, 1, 4, 0, k1, 1, 0, 1, 2, 0, 2, 1, 0, 0, 7, 3, 0, 8, 1, 0, 4, 1, 1, 0, 4, 0, k1, 2, 0, 1, 1, 0],
        ),
    ] {
        assert_eq!(query(&expression).unwrap().words(), words, "{expression:?}");
    }
}

#[test]
fn a_variable_is_new_the_first_time_that_it_stands_in_a_pattern() {
    let k1 = K1.word();
    // twice in one pattern; in a second one beside a new one; with an atom
    let guards = [draw(["x", "x"], list(1)), draw(["x", "y"], list(2)), Guard::Draw(vec![7.into(), variable("z"), variable("y")], list(3))];
    let words = [
        &[7, 3][..],
        &[1, 4, 0, k1, 1, 0, 2, 2, 0, 1, 0],
        &[1, 4, 0, k1, 2, 0, 2, 1, 0, 2, 1],
        &[1, 4, 0, k1, 3, 0, 3, 0, 7, 2, 2, 1, 1],
        &[3, 1, 2, 1, 1, 1, 0],
    ];
    let expression = each(guards, ["z", "y", "x"]);
    assert_eq!(query(&expression).unwrap().words(), words.concat());
    assert_eq!(judge(&expression), Ok(Verdict::Lower));
}

/// An inner comprehension numbers on from the outer count, and its numbers come again afterwards.
#[test]
fn variables_inside_one_another_are_numbered_on() {
    let k1 = K1.word();
    let second = each([draw(["a"], list(2)), Guard::Different(variable("a"), variable("x"))], ["a"]);
    let third = each([draw(["b", "x"], list(3))], ["b"]);
    let expression = each([draw(["x"], list(1)), draw(["y"], second), draw(["b"], third)], ["x", "y", "b"]);
    let words = [
        &[7, 3][..],
        // x is 0
        &[1, 4, 0, k1, 1, 0, 1, 2, 0],
        // inside, a is 1 and x still 0; then y is 1
        &[1, 7, 2, 1, 4, 0, k1, 2, 0, 1, 2, 1, 3, 1, 1, 1, 0, 1, 1, 1, 1, 2, 1],
        // inside, b is 2 and x still 0; then another b is 2
        &[1, 7, 1, 1, 4, 0, k1, 3, 0, 2, 2, 2, 1, 0, 1, 1, 2, 1, 2, 2],
        &[3, 1, 0, 1, 1, 1, 2],
    ];
    assert_eq!(query(&expression).unwrap().words(), words.concat());
    assert_eq!(judge(&expression), Ok(Verdict::Lower));
}

#[test]
fn variables_end_with_their_comprehension() {
    let k1 = K1.word();
    // side by side, each x is 0
    let twice = each([draw(["x"], list(1))], ["x"]).union(each([draw(["x"], list(2))], ["x"]));
    let words = [&[5][..], &[7, 1, 1, 4, 0, k1, 1, 0, 1, 2, 0, 1, 1, 0], &[7, 1, 1, 4, 0, k1, 2, 0, 1, 2, 0, 1, 1, 0]];
    assert_eq!(query(&twice).unwrap().words(), words.concat());
    assert_eq!(judge(&twice), Ok(Verdict::Lower));
    // behind it there is none
    let x = || Expression::rows([vec![variable("x")]]);
    assert_eq!(query(&each([draw(["x"], list(1))], ["x"]).union(x())), no_variable("x"));
    assert_eq!(query(&each([draw(["y"], each([draw(["x"], list(1))], ["x"]))], ["x"])), no_variable("x"));
    // in it there is, also in a set written out
    assert!(query(&each([draw(["x"], list(1)), absent(["x"], list(2).union(x()))], ["x"])).is_ok());
}

#[test]
fn a_draws_expression_does_not_see_its_own_pattern() {
    let of_x = || Expression::list_of(variable("x"), 1, Polarity::Plus);
    assert_eq!(query(&each([draw(["x"], of_x())], ["x"])), no_variable("x"));
    assert_eq!(query(&each([draw(["y"], list(1)), draw(["x", "y"], of_x())], ["x"])), no_variable("x"));
    assert!(query(&each([draw(["x"], list(1)), draw(["x"], of_x())], ["x"])).is_ok());
    // an x inside it is another one
    let k1 = K1.word();
    let inside = each([draw(["x"], each([draw(["x"], list(1))], ["x"]))], ["x"]);
    assert_eq!(query(&inside).unwrap().words(), [7, 1, 1, 7, 1, 1, 4, 0, k1, 1, 0, 1, 2, 0, 1, 1, 0, 1, 2, 0, 1, 1, 0]);
    assert_eq!(judge(&inside), Ok(Verdict::Lower));
}

#[test]
fn variables_out_of_scope_are_named() {
    let (x, seven) = (|| variable("x"), || Term::from(7));
    let y = || draw(["y"], list(1));
    for expression in [
        Expression::rows([vec![seven()], vec![seven(), x()]]),
        Expression::all_but([vec![x()]]),
        Expression::list_of(x(), 1, Polarity::Plus),
        list(1).minus(Expression::list_of(x(), 2, Polarity::Minus)),
        each([], ["x"]),
        each([y()], ["y", "x"]),
        each([y(), Guard::Same(x(), seven())], ["y"]),
        each([y(), Guard::Different(seven(), x())], ["y"]),
        each([y(), absent(["y", "x"], list(2))], ["y"]),
        each([y(), absent(["y"], Expression::list_of(x(), 2, Polarity::Minus))], ["y"]),
        // guards before the draw do not see it
        each([Guard::Same(x(), seven()), draw(["x"], list(1))], ["x"]),
    ] {
        assert_eq!(query(&expression), no_variable("x"), "{expression:?}");
        let defined = Policy::new(OUR_KEY, &[Definition::new("public", 10, Polarity::Plus, expression)]);
        assert_eq!(defined, no_variable("x"));
    }
    assert_eq!(Unresolved::Variable("x".into()).to_string(), "no variable `x` is in scope");
}

fn three(first: Expression, second: Expression, third: Expression) -> Result<Policy, Unresolved> {
    let definition = |label, name, expression| Definition::new(label, name, Polarity::Plus, expression);
    Policy::new(OUR_KEY, &[definition("first", 1, first), definition("second", 2, second), definition("third", 3, third)])
}

#[test]
fn definitions_are_found_by_label() {
    let policy = three(list(1), Expression::defined("first"), Expression::defined("second").union(Expression::defined("first"))).unwrap();
    let parts = [&[4, 0, K1.word(), 1, 0][..], &[3, 0], &[5, 3, 1, 3, 0]];
    let table = [1, 3, 1, 0, 14, 5, 2, 0, 19, 2, 3, 0, 21, 5];
    assert_eq!(policy.words(), [&table[..], &parts.concat()].concat());
    for (label, place) in [("first", 0), ("second", 1), ("third", 2)] {
        let query = policy.query(&Expression::defined(label)).unwrap();
        assert_eq!((query.words(), policy.judge(&query)), (&[3, place][..], Ok(Verdict::Lower)));
    }
    let unknown = policy.query(&Expression::defined("fourth"));
    assert_eq!(unknown, no_definition("fourth"));
    assert_eq!(unknown.unwrap_err().to_string(), "no definition, or more than one, has the label `fourth`");
    assert_eq!(three(list(1), Expression::defined("fourth"), list(2)), no_definition("fourth"));
    assert_eq!(policy.query(&Expression::vetted_list(K1, 1, "fourth")), no_definition("fourth"));
}

#[test]
fn later_definitions_are_left_to_the_engine() {
    let judge = |policy: Policy| policy.judge(&policy.query(&Expression::rows([])).unwrap());
    let later = three(list(1), Expression::defined("third"), list(2)).unwrap();
    assert_eq!(judge(later), Err(Refusal::NotInScope(Part::Definition(1))));
    let itself = three(Expression::defined("first"), list(1), list(2)).unwrap();
    assert_eq!(judge(itself), Err(Refusal::NotInScope(Part::Definition(0))));
    let vetted_by_itself = three(list(1), list(2), Expression::vetted_list(K1, 1, "third")).unwrap();
    assert_eq!(judge(vetted_by_itself), Err(Refusal::NotInScope(Part::Definition(2))));
}

#[test]
fn a_label_that_two_have_stands_for_neither() {
    let twice = |third: Expression| {
        let definition = |label, name, expression| Definition::new(label, name, Polarity::Plus, expression);
        Policy::new(OUR_KEY, &[definition("public", 1, list(1)), definition("public", 2, list(2)), definition("other", 3, third)])
    };
    assert_eq!(twice(Expression::defined("public")), no_definition("public"));
    let policy = twice(list(3)).unwrap();
    assert_eq!(policy.query(&Expression::defined("public")), no_definition("public"));
    assert_eq!(policy.query(&Expression::defined("other")).unwrap().words(), [3, 2]);
}

#[test]
fn a_rewritten_policy_keeps_its_labels_and_words_have_none() {
    let compromised = Definition::new("compromised", 0, Polarity::Minus, Expression::list(Key::new(3), 0, Polarity::Minus));
    let policy = Policy::new(OUR_KEY, &[compromised, Definition::new("public", 10, Polarity::Plus, list(1))]).unwrap();
    let rewritten = policy.rewrite().unwrap();
    assert_eq!(rewritten.query(&Expression::defined("public")).unwrap().words(), [3, 1]);
    let in_words = Policy::from_words(OUR_KEY, policy.words().to_vec());
    assert_eq!(in_words.query(&Expression::defined("public")), no_definition("public"));
}

/// Nothing but names is tested before the engine.
#[test]
fn what_is_too_much_is_left_to_the_engine() {
    let seven = || Term::from(7);
    let seventeen = Expression::each(
        (0..5).map(|n| Guard::Draw((0..if n < 4 { 4 } else { 1 }).map(|m| variable(format!("x{n}{m}"))).collect(), list(1))),
        [seven()],
    );
    assert_eq!(judge(&seventeen), Err(Refusal::NotInScope(Part::Query)));
    let nested = |unions: usize| (0..unions).fold(list(1), |inner, _| inner.union(list(1)));
    assert_eq!(judge(&nested(14)), Ok(Verdict::Lower));
    assert_eq!(judge(&nested(15)), Err(Refusal::TooDeep(Part::Query)));
    let eight = || (0..8).map(|_| draw(["x"], list(1)));
    let nine_draws = each([draw(["y"], Expression::each(eight(), [variable("x")]))], ["y"]);
    assert_eq!(judge(&nine_draws), Err(Refusal::TooDeep(Part::Query)));
    for too_much in [
        Expression::rows([vec![seven(); 5]]),
        Expression::rows([vec![]]),
        Expression::rows(vec![vec![seven()]; 129]),
        Expression::each([], [seven(), seven(), seven(), seven(), seven()]),
        Expression::each(eight().chain([draw(["x"], list(1))]), [variable("x")]),
        each([draw([], list(1))], []),
        Expression::list_of(7, 1, Polarity::Plus),
    ] {
        assert_eq!(judge(&too_much), Err(Refusal::BadWord(Part::Query)), "{too_much:?}");
    }
}
