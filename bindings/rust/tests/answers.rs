//! What an answer says of a row, and how rows, sets and tables are printed. They link the compiled library: `bash library` first.

mod filed;

use filed::store_of;
use txindurbe::{
    Answer, Atom, Certificate, Definition, Engine, Expression, Key, Links, Membership, Minute, Polarity, Policy, Row, Rows, Store, Table, Validity,
    Verdict, WrongWidth,
};

const OUR_KEY: Key = Key::new(9);
const OBSERVATORY: Key = Key::new(1);
const RELEASED: u16 = 1;
const WITHDRAWN: u16 = 2;
const NOW: Minute = Minute::new(0);
const TERM: Validity = Validity { first: NOW, end: Minute::new(1) };

fn seven() -> Expression {
    Expression::rows([vec![7.into()]])
}

fn all_but_seven() -> Expression {
    Expression::all_but([vec![7.into()]])
}

/// Two definitions, through which a set written out has one polarity. Certified are that 7 is released, and not withdrawn.
fn ask(expression: Expression) -> Answer {
    let definitions =
        [Definition::new("at least all but 7", 10, Polarity::Plus, all_but_seven()), Definition::new("at most 7", 11, Polarity::Minus, seven())];
    let policy = Policy::new(OUR_KEY, &definitions).unwrap();
    let store = store_of([Certificate::listed(OBSERVATORY, RELEASED, [7], TERM), Certificate::not_listed(OBSERVATORY, WITHDRAWN, [7], TERM)]);
    Engine::new().query(&policy, &policy.query(&expression).unwrap(), NOW, &store, &Links::new()).unwrap()
}

#[test]
fn a_row_belongs_or_does_not_or_is_unknown() {
    use Membership::{No, Unknown, Yes};
    let just_seven = || vec![Row::from([7])];
    let released = Expression::list(OBSERVATORY, RELEASED, Polarity::Plus);
    let withdrawn = Expression::list(OBSERVATORY, WITHDRAWN, Polarity::Minus);
    // for each verdict and form: whether 7 belongs, and whether other rows do
    for (expression, table, text, of_seven, of_others) in [
        (seven(), Table::Exact(Rows::Only(just_seven())), "exactly (7)", Yes, No),
        (all_but_seven(), Table::Exact(Rows::AllBut(just_seven())), "exactly all rows but (7)", No, Yes),
        (released, Table::Lower(Rows::Only(just_seven())), "at least (7)", Yes, Unknown),
        (Expression::defined("at least all but 7"), Table::Lower(Rows::AllBut(just_seven())), "at least all rows but (7)", Unknown, Yes),
        (Expression::defined("at most 7"), Table::Upper(Rows::Only(just_seven())), "at most (7)", Unknown, No),
        (withdrawn, Table::Upper(Rows::AllBut(just_seven())), "at most all rows but (7)", No, Unknown),
    ] {
        let answer = ask(expression);
        assert_eq!((answer.table(), answer.verdict(), answer.draws()), (&table, table.verdict(), 0), "{text}");
        assert_eq!(answer.table().to_string(), text);
        assert_eq!(answer.contains(&Row::from([7])), of_seven, "{text}");
        for other in [Row::from([8]), Row::from([7, 0]), Row::from([7, 7]), Row::from([OBSERVATORY])] {
            assert_eq!(answer.contains(&other), of_others, "{text}, {other}");
        }
    }
}

/// More certificates turn what is unknown into yes or no, and neither back.
#[test]
fn what_is_unknown_becomes_known() {
    let policy = Policy::new(OUR_KEY, &[]).unwrap();
    let contains = |name, polarity, store: &Store| {
        let query = policy.query(&Expression::list(OBSERVATORY, name, polarity)).unwrap();
        Engine::new().query(&policy, &query, NOW, store, &Links::new()).unwrap().contains(&Row::from([7]))
    };
    let mut store = Store::new();
    assert_eq!(contains(RELEASED, Polarity::Plus, &store), Membership::Unknown);
    assert_eq!(contains(WITHDRAWN, Polarity::Minus, &store), Membership::Unknown);
    store.file(&Certificate::listed(OBSERVATORY, RELEASED, [7], TERM)).unwrap();
    assert_eq!(contains(RELEASED, Polarity::Plus, &store), Membership::Yes);
    // in the + list of that number, which is another one
    store.file(&Certificate::listed(OBSERVATORY, WITHDRAWN, [7], TERM)).unwrap();
    assert_eq!(contains(WITHDRAWN, Polarity::Minus, &store), Membership::Unknown);
    store.file(&Certificate::not_listed(OBSERVATORY, WITHDRAWN, [7], TERM)).unwrap();
    assert_eq!(contains(WITHDRAWN, Polarity::Minus, &store), Membership::No);
}

#[test]
fn a_table_written_in_any_order_finds_its_rows() {
    let rows = vec![Row::from([8]), Row::from([7, 1]), Row::from([7])];
    for row in &rows {
        assert_eq!(Table::Exact(Rows::Only(rows.clone())).contains(row), Membership::Yes);
        assert_eq!(Table::Exact(Rows::AllBut(rows.clone())).contains(row), Membership::No);
    }
}

#[test]
fn a_table_says_what_it_promises() {
    let rows = || vec![Row::from([7]), Row::from([Atom::from(7), Atom::from(OBSERVATORY)]), Row::from([Key::new(0)])];
    for (table, text, verdict) in [
        (Table::Lower(Rows::Only(rows())), "at least (7), (7, k1), (k0)", Verdict::Lower),
        (Table::Lower(Rows::Only(vec![])), "at least no rows", Verdict::Lower),
        (Table::Upper(Rows::AllBut(rows())), "at most all rows but (7), (7, k1), (k0)", Verdict::Upper),
        (Table::Upper(Rows::AllBut(vec![])), "at most all rows", Verdict::Upper),
        (Table::Exact(Rows::Only(vec![])), "exactly no rows", Verdict::Exact),
        (Table::Exact(Rows::AllBut(vec![])), "exactly all rows", Verdict::Exact),
    ] {
        assert_eq!((table.to_string(), table.verdict()), (text.into(), verdict));
    }
}

#[test]
fn rows_are_printed_without_padding() {
    let row = Row::from([Atom::from(0), Atom::from(Key::new(0)), Atom::from(u32::MAX)]);
    assert_eq!(row.to_string(), "(0, k0, k2147483647)");
    assert_eq!(format!("{row:?}"), "(0, k0, k2147483647)");
    assert_eq!(format!("{:?}", Rows::Only(vec![Row::from([7]), row])), "Only([(7), (0, k0, k2147483647)])");
    assert_eq!(format!("{:?}, {:?}", OBSERVATORY, Atom::from(7)), "k1, 7");
}

#[test]
fn rows_are_made_of_numbers_keys_and_atoms() {
    let [seven, k1] = [Atom::from(7), Atom::from(OBSERVATORY)];
    assert_eq!(Row::from([7]).atoms(), [seven]);
    assert_eq!(Row::from([OBSERVATORY, OBSERVATORY]).atoms(), [k1, k1]);
    assert_eq!(Row::from([seven, k1, seven, k1]).atoms(), [seven, k1, seven, k1]);
    // a key's word is the key
    assert_eq!(Row::from([7, OBSERVATORY.word()]), Row::from([seven, k1]));

    let words = [7, OBSERVATORY.word(), 7, 0, 0];
    for (width, row) in [(1, Row::from([7])), (2, Row::from([seven, k1])), (3, Row::from([seven, k1, seven]))] {
        assert_eq!(Row::try_from(&words[..width]), Ok(row));
        assert_eq!(Row::try_from(row.atoms()), Ok(row));
    }
    assert_eq!(Row::try_from(&[OBSERVATORY][..]), Ok(Row::from([OBSERVATORY])));
    // a last 0 is an atom too
    assert_ne!(Row::try_from(&words[..4]), Row::try_from(&words[..3]));
    assert_eq!(Row::try_from(&words[..]), Err(WrongWidth(5)));
    assert_eq!(Row::try_from(&words[..0]), Err(WrongWidth(0)));
    assert_eq!(WrongWidth(0).to_string(), "a row has one to four atoms, not 0");
}

#[test]
fn keys_are_made_one_way() {
    for (number, word) in [(0, 1 << 31), (9, (1 << 31) + 9), ((1 << 31) - 1, u32::MAX)] {
        let key = Key::new(number);
        assert_eq!((key.number(), key.word(), key.to_string()), (number, word, format!("k{number}")));
        assert_eq!(Atom::from(word).key(), Some(key));
        assert_eq!((Atom::from(key), Atom::from(key).word()), (Atom::from(word), word));
    }
    for number in [0, 7, (1 << 31) - 1] {
        assert_eq!((Atom::from(number).key(), Atom::from(number).to_string()), (None, number.to_string()));
    }
    for number in [1 << 31, u32::MAX] {
        assert!(std::panic::catch_unwind(|| Key::new(number)).is_err(), "{number}");
    }
}
