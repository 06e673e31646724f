use super::*;

const K1: u32 = key(1);
const K2: u32 = key(2);
/// Our key, where a case does not say otherwise: nothing is written or filed under it.
const NOBODY: u32 = key(9);

const NOTHING: &[u32] = &[1, 0];
const Q: &[u32] = &[3, 0];

/// P: released and not withdrawn.
fn p() -> Vec<u32> {
    let mut words = vec![1, 1, 10, 0, 6, 23];
    words.extend([7, 2, 1, 4, 0, K1, 1, 0, 1, 2, 0, 4, 1, 1, 0, 4, 0, K1, 2, 1, 1, 1, 0]);
    words
}

fn policy(definitions: &[(u32, u32, &[u32])]) -> Vec<u32> {
    let mut words = vec![1, definitions.len() as u32];
    let mut offset = 2 + 4 * definitions.len() as u32;
    for (name, polarity, part) in definitions {
        words.extend([*name, *polarity, offset, part.len() as u32]);
        offset += part.len() as u32;
    }
    words.extend(definitions.iter().flat_map(|(_, _, part)| part.iter()));
    words
}

fn empty_store() -> Vec<u32> {
    let mut store = vec![77; STORE_WORDS];
    store[0] = 0;
    store
}

/// It holds from 0 to 1, as those of cases a to l.
fn certificate(key: u32, name: u32, polarity: u32, row: &[u32]) -> Record {
    Record { name: [key, name, polarity], row: Row::new(row), validity: Validity { first: 0, end: 1 } }
}

fn with_term(record: Record, first: u32, end: u32) -> Record {
    Record { validity: Validity { first, end }, ..record }
}

fn file(store: &mut [u32], record: Record) -> Filing {
    Evaluator::default().file(store, &record.words())
}

fn store_of(records: impl IntoIterator<Item = Record>) -> Vec<u32> {
    let mut store = empty_store();
    for record in records {
        assert_eq!(file(&mut store, record), Filing::Filed);
    }
    store
}

fn no_links() -> Vec<u32> {
    let mut links = vec![77; LINKS_WORDS];
    links[0] = 0;
    links
}

/// At minute 0, as cases a to l.
fn ask(policy: &[u32], query: &[u32], store: &[u32]) -> Result<Answer, Refusal> {
    ask_at(0, policy, query, store)
}

fn ask_at(minute: u32, policy: &[u32], query: &[u32], store: &[u32]) -> Result<Answer, Refusal> {
    let question = Question { policy, query, our_key: NOBODY, minute };
    Evaluator::default().query(question, store, &no_links(), Areas::LEAST)
}

/// At minute 0, with this key as ours.
fn ask_as(our_key: u32, policy: &[u32], query: &[u32], store: &[u32]) -> Result<Answer, Refusal> {
    ask_all(our_key, policy, query, store, &no_links())
}

fn ask_all(our_key: u32, policy: &[u32], query: &[u32], store: &[u32], links: &[u32]) -> Result<Answer, Refusal> {
    Evaluator::default().query(Question { policy, query, our_key, minute: 0 }, store, links, Areas::LEAST)
}

fn judge(policy: &[u32], query: &[u32]) -> Result<Verdict, Refusal> {
    judge_as(NOBODY, policy, query)
}

fn judge_as(our_key: u32, policy: &[u32], query: &[u32]) -> Result<Verdict, Refusal> {
    Evaluator::default().judge(policy, query, our_key).map(|judged| judged.verdict)
}

fn certificates_of(store: &[u32], name: [u32; 3]) -> Range<usize> {
    Evaluator::default().certificates_of(store, name)
}

fn rows<const N: usize>(rows: [&[u32]; N]) -> BTreeSet<Row> {
    rows.into_iter().map(Row::new).collect()
}

fn answer(verdict: Verdict, draws: u32, set: Set) -> Result<Answer, Refusal> {
    Ok(Answer { verdict, draws, set })
}

fn refusal<T>(number: u32, part: u32) -> Result<T, Refusal> {
    Err(Refusal { number, part })
}

/// A query on the policy 1 0 and an empty store.
fn alone(query: &[u32]) -> Result<Answer, Refusal> {
    ask(NOTHING, query, &empty_store())
}

#[track_caller]
fn refuses(query: &[u32], number: u32) {
    assert_eq!(alone(query), refusal(number, QUERY_PART), "{query:?}");
}

/// Code 1 with the numbers 0 to count − 1.
fn numbers(count: u32) -> Vec<u32> {
    let mut words = vec![1, count];
    words.extend((0..count).flat_map(|n| [1, 0, n]));
    words
}

fn nested_unions(count: usize) -> Vec<u32> {
    let mut words = vec![5; count];
    words.extend([1, 0].repeat(count + 1));
    words
}

use Set::{Complement, Finite};
use Verdict::*;

/// Cases a to l are given k2.
#[test]
fn portal_cases_a_to_e() {
    let ask = |policy: &[u32], query: &[u32], store: &[u32]| ask_as(K2, policy, query, store);
    let mut store = empty_store();
    assert_eq!(ask(&p(), Q, &store), answer(Lower, 0, Finite(rows([]))));
    file(&mut store, certificate(K1, 1, 0, &[7]));
    assert_eq!(ask(&p(), Q, &store), answer(Lower, 1, Finite(rows([]))));
    file(&mut store, certificate(K1, 2, 1, &[7]));
    assert_eq!(ask(&p(), Q, &store), answer(Lower, 1, Finite(rows([&[7]]))));
    file(&mut store, certificate(K1, 1, 0, &[8]));
    assert_eq!(ask(&p(), Q, &store), answer(Lower, 2, Finite(rows([&[7]]))));
    assert_eq!(ask(&p(), &[4, 0, K1, 2, 1], &store), answer(Upper, 2, Complement(rows([&[7]]))));
}

#[test]
fn portal_cases_f_to_l() {
    let alone = |query: &[u32]| ask_as(K2, NOTHING, query, &empty_store());
    assert_eq!(alone(&[6, 4, 0, K1, 1, 0, 4, 0, K1, 1, 0]), refusal(6, QUERY_PART));
    assert_eq!(alone(&[7, 1, 1, 4, 0, K1, 2, 1, 1, 2, 0, 1, 1, 0]), refusal(7, QUERY_PART));
    let h = [6, 2, 1, 1, 0, 7, 2, 2, 1, 0, 7, 1, 0, 8];
    assert_eq!(alone(&h), answer(Exact, 0, Finite(rows([&[8]]))));
    let i = [5, 2, 2, 1, 0, 7, 1, 0, 8, 1, 1, 1, 0, 8];
    assert_eq!(alone(&i), answer(Exact, 0, Complement(rows([&[7]]))));
    assert_eq!(alone(&[1, 0]), answer(Exact, 0, Finite(rows([]))));
    assert_eq!(alone(&[7, 0, 1, 0, 7]), answer(Exact, 0, Finite(rows([&[7]]))));
    let l = [7, 2, 1, 1, 1, 1, 0, 5, 1, 2, 0, 1, 4, 1, 0, 1, 0, 1, 2, 1, 1, 1, 1];
    assert_eq!(alone(&l), answer(Lower, 1, Finite(rows([]))));
}

#[test]
fn fourteen_nested_unions_pass_and_fifteen_do_not() {
    assert_eq!(alone(&nested_unions(14)), answer(Exact, 0, Finite(rows([]))));
    refuses(&nested_unions(15), 5);
}

#[test]
fn certified_rows_up_to_128_are_read() {
    for polarity in [0, 1] {
        let store = |count| store_of((0..count).map(|n| certificate(K1, 1, polarity, &[n])));
        let query = [4, 0, K1, 1, polarity];
        assert_eq!(ask(NOTHING, &query, &store(128)).unwrap().set.listed().len(), 128);
        assert_eq!(ask(NOTHING, &query, &store(129)), refusal(13, QUERY_PART));
    }
}

/// A comprehension with a constant head that draws from literals of these sizes.
fn draws_over(sizes: [u32; 3]) -> Vec<u32> {
    let mut words = vec![7, 3];
    for (size, variable) in sizes.into_iter().zip(0..) {
        words.push(1);
        words.extend(numbers(size));
        words.extend([1, 2, variable]);
    }
    words.extend([1, 0, 7]);
    words
}

#[test]
fn a_million_draws_are_the_limit() {
    let seven = Finite(rows([&[7]]));
    assert_eq!(alone(&draws_over([100, 100, 98])), answer(Exact, 990_100, seven.clone()));
    refuses(&draws_over([100, 100, 100]), 14);
    assert_eq!(alone(&draws_over([100, 99, 100])), answer(Exact, 1_000_000, seven));
    let twice = policy(&[(1, 0, &draws_over([100, 99, 100])), (2, 0, &numbers(1))]);
    assert_eq!(ask(&twice, &[7, 1, 1, 3, 1, 1, 2, 0, 1, 0, 7], &empty_store()), refusal(14, QUERY_PART));
}

#[test]
fn a_full_store_holds_and_refuses() {
    let mut store = store_of((0..1_600).map(|n| certificate(K1, 1, 0, &[n])));
    let before = store.clone();
    assert_eq!(file(&mut store, certificate(K1, 1, 0, &[5])), Filing::Held);
    assert_eq!(file(&mut store, certificate(K1, 1, 0, &[1_600])), Filing::Refused(10));
    assert_eq!(file(&mut store, with_term(certificate(K1, 1, 0, &[5]), 0, 2)), Filing::Refused(10));
    assert_eq!(store, before);
    // not even where there is room for more
    store.extend([77; 4_000]);
    assert_eq!(file(&mut store, certificate(K1, 1, 0, &[1_600])), Filing::Refused(10));
    store[0] = 1_601;
    store[16_001..16_011].copy_from_slice(&certificate(K1, 1, 0, &[1_600]).words());
    assert_eq!(file(&mut store, certificate(K1, 1, 0, &[5])), Filing::Refused(8));
}

#[test]
fn filing_keeps_the_order_and_the_words_past_the_end() {
    let records = [(K2, 0, 1, [3]), (K1, 9, 0, [4]), (K1, 9, 0, [2]), (K1, 2, 1, [8])];
    let store = store_of(records.map(|(key, name, polarity, row)| certificate(key, name, polarity, &row)));
    assert_eq!(store[0], 4);
    assert!(Evaluator::default().certificates(&store).is_some());
    assert!(store[41..].iter().all(|&word| word == 77));
    assert_eq!(certificates_of(&store, [K1, 9, 0]), 11..31);
    assert_eq!(certificates_of(&store, [K1, 9, 1]), 0..0);
}

/// The order as it is derived, and that of the rows' atoms as lists.
#[test]
fn rows_of_one_observation_are_side_by_side() {
    let ascending: [&[u32]; 11] = [&[7], &[7, 0], &[7, 0, 0], &[7, 0, 1], &[7, 1], &[7, 1, 2], &[7, K1], &[8], &[8, 7, 0, 0], &[K1], &[K1, 3]];
    for (place, atoms) in ascending.iter().enumerate() {
        for (other_place, other) in ascending.iter().enumerate() {
            assert_eq!(Row::new(atoms).cmp(&Row::new(other)), place.cmp(&other_place), "{atoms:?} and {other:?}");
            assert_eq!(atoms.cmp(other), place.cmp(&other_place));
        }
    }
}

#[test]
fn a_store_by_width_first_gets_8() {
    let rows: [&[u32]; 4] = [&[8], &[7, 1, 2], &[7, 1], &[7]];
    let mut store = store_of(rows.map(|row| certificate(K1, 1, 0, row)));
    let widths = |store: &[u32]| [0, 1, 2, 3].map(|place| store[4 + RECORD_WORDS * place]);
    assert_eq!(widths(&store), [1, 2, 3, 1]);
    let [first, last] = [1 + RECORD_WORDS, 1 + 4 * RECORD_WORDS];
    store[first..last].rotate_right(RECORD_WORDS);
    assert_eq!(widths(&store), [1, 1, 2, 3]);
    assert_eq!(ask(NOTHING, &[1, 0], &store), refusal(8, NO_PART));
}

#[test]
fn unsound_certificates_get_9() {
    let sound = certificate(K1, 1, 0, &[7, 8]).words();
    let damage: [(usize, u32); 6] = [(0, 5), (1, 65_536), (2, 2), (3, 0), (3, 5), (7, 1)];
    for (place, word) in damage {
        let mut record = sound;
        record[place] = word;
        assert_eq!(Evaluator::default().file(&mut empty_store(), &record), Filing::Refused(9), "{record:?}");
    }
    for length in [0, 8, 9, 11] {
        let words = [sound.as_slice(), &[0]].concat();
        assert_eq!(Evaluator::default().file(&mut empty_store(), &words[..length]), Filing::Refused(9));
    }
}

#[test]
fn unsound_stores_get_8_and_empty_parts() {
    let sound = store_of([certificate(K1, 1, 0, &[7]), certificate(K1, 2, 1, &[7])]);
    let damage: [(usize, u32); 6] = [(0, 1_601), (1, 3), (11, K1 - 1), (12, 1), (10, 0), (19, 1)];
    for (place, word) in damage {
        let mut store = sound.clone();
        store[place] = word;
        if place == 12 {
            store[13] = 0; // the same record twice
        }
        assert_eq!(file(&mut store, certificate(K1, 1, 0, &[7])), Filing::Refused(8));
        assert_eq!(ask(NOTHING, &[1, 0], &store), refusal(8, NO_PART));
        assert_eq!(certificates_of(&store, [K1, 1, 0]), 0..0);
    }
    assert_eq!(ask(NOTHING, &[1, 0], &sound[..16_000]), refusal(8, NO_PART));
    assert!(ask(NOTHING, &[1, 0], &[sound, vec![9; 5]].concat()).is_ok());
}

#[test]
fn policies_refused_with_1() {
    let seventeen: Vec<(u32, u32, &[u32])> = (0..17).map(|name| (name, 0, &[1, 0][..])).collect();
    let broken: [Vec<u32>; 6] = [vec![], vec![1], vec![3, 0], policy(&seventeen), vec![1, 1, 10, 0, 6], {
        let mut long = vec![0; 8_193];
        long[0] = 1;
        long
    }];
    for words in broken {
        assert_eq!(ask(&words, &[1, 0], &empty_store()), refusal(1, NO_PART));
        assert_eq!(Evaluator::default().part(&words, &[1, 0], 16), Part::Policy(0..0));
    }
}

#[test]
fn policies_refused_with_2() {
    let sound = policy(&[(10, 0, &[1, 0]), (11, 1, &[2, 0])]);
    assert!(ask(&sound, &[3, 1], &empty_store()).is_ok());
    let damage: [(usize, u32); 8] = [(2, 65_536), (3, 2), (4, 11), (5, 0), (5, 3), (8, u32::MAX), (9, 1), (9, 3)];
    for (place, word) in damage {
        let mut broken = sound.clone();
        broken[place] = word;
        assert_eq!(ask(&broken, &[1, 0], &empty_store()), refusal(2, NO_PART), "{broken:?}");
    }
    let twice = policy(&[(10, 0, &[1, 0]), (10, 0, &[2, 0])]);
    assert_eq!(ask(&twice, &[1, 0], &empty_store()), refusal(2, NO_PART));
    let both = policy(&[(10, 0, &[1, 0]), (10, 1, &[2, 0])]);
    assert!(ask(&both, &[1, 0], &empty_store()).is_ok());
    assert_eq!(ask(&[1, 0, 0], &[1, 0], &empty_store()), refusal(2, NO_PART));
}

#[test]
fn a_policy_of_8192_words_passes() {
    let mut row = vec![4];
    row.extend([0, 9].repeat(4));
    let full = [vec![1, 128], row.repeat(128)].concat();
    let rest = numbers(26);
    let mut definitions: Vec<(u32, u32, &[u32])> = (0..7).map(|name| (name, 0, full.as_slice())).collect();
    definitions.push((7, 0, &rest));
    let words = policy(&definitions);
    assert_eq!(words.len(), 8_192);
    assert!(ask(&words, &[3, 6], &empty_store()).is_ok());
}

#[test]
fn expressions_refused_with_3() {
    let cases: [&[u32]; 20] = [
        &[],
        &[0],
        &[8],
        &[9],
        &[1],
        &[1, 129],
        &[1, 1],
        &[1, 1, 0],
        &[1, 1, 5],
        &[1, 1, 1, 2, 0],
        &[1, 1, 1, 0],
        &[4, 0, 5, 1, 0],
        &[4, 0, K1, 65_536, 0],
        &[4, 0, K1, 1, 2],
        &[5, 1, 0],
        &[7, 9],
        &[7, 1, 5],
        &[7, 1, 1, 1, 0, 1, 3, 0],
        &[1, 0, 0],
        &[7, 1, 1, 1, 0, 0],
    ];
    for query in cases {
        refuses(query, 3);
    }
    assert!(alone(&[2, 0]).is_ok());
    refuses(&[1; 1_025], 3);
    let p_with_3 = policy(&[(1, 0, &[1, 0]), (2, 0, &[1, 0, 0])]);
    assert_eq!(ask(&p_with_3, &[], &empty_store()), refusal(3, 1));
}

#[test]
fn expressions_refused_with_4() {
    let cases: [&[u32]; 6] = [
        &[1, 1, 1, 1, 0],
        &[3, 0],
        &[4, 1, 0, 1, 0],
        &[7, 1, 1, 1, 0, 1, 2, 1, 1, 0, 7],
        &[7, 1, 1, 1, 0, 1, 1, 0, 1, 0, 7],
        // a variable ends with its comprehension
        &[5, 7, 1, 1, 1, 0, 1, 2, 0, 1, 1, 0, 1, 1, 1, 1, 0],
    ];
    for query in cases {
        refuses(query, 4);
    }
    let own = policy(&[(1, 0, &[3, 0])]);
    assert_eq!(ask(&own, &[3, 0], &empty_store()), refusal(4, 0));
    let two = policy(&[(1, 0, &[1, 0]), (2, 0, &[1, 0])]);
    assert_eq!(ask(&two, &[5, 3, 2, 9], &empty_store()), refusal(4, QUERY_PART));
}

/// Draws of up to four new variables each, `count` in all.
fn variables(count: u32) -> Vec<u32> {
    let mut words = vec![7, count.div_ceil(4)];
    let mut next = 0;
    while next < count {
        let width = (count - next).min(4);
        words.extend([1, 1, 0, width]);
        words.extend((next..next + width).flat_map(|variable| [2, variable]));
        next += width;
    }
    words.extend([1, 0, 7]);
    words
}

#[test]
fn sixteen_variables_pass_and_seventeen_do_not() {
    assert!(alone(&variables(16)).is_ok());
    refuses(&variables(17), 4);
}

/// A comprehension of eight draws, the first one from a comprehension of `inner` draws.
fn many_draws(inner: u32) -> Vec<u32> {
    let draw = [1, 1, 0, 1, 0, 7];
    let mut words = vec![7, 8, 1, 7, inner];
    words.extend(draw.repeat(inner as usize));
    words.extend([1, 0, 7, 1, 0, 7]);
    words.extend(draw.repeat(7));
    words.extend([1, 0, 7]);
    words
}

#[test]
fn expressions_refused_with_5() {
    assert!(alone(&many_draws(0)).is_ok());
    refuses(&many_draws(1), 5);
    // at depth 16 an unknown code is 3, a known one 5
    let mut deep = vec![5; 15];
    deep.push(9);
    refuses(&deep, 3);
    deep[15] = 1;
    refuses(&deep, 5);
    // a ninth draw before the fault in its expression
    let mut ninth = many_draws(8);
    ninth.truncate(5 + 7 * 6);
    ninth.extend([1, 9]);
    refuses(&ninth, 5);
}

#[test]
fn polarity_is_refused_with_6_before_7_and_after_left_over_words() {
    let stuck = [6, 4, 0, K1, 1, 0, 4, 0, K1, 1, 0];
    let plus = policy(&[(1, 0, &[4, 0, K1, 2, 1])]);
    assert_eq!(ask(&plus, &[1, 0], &empty_store()), refusal(6, 0));
    refuses(&[stuck.as_slice(), &[0]].concat(), 3);
    // a draw from an open expression inside a query without polarity
    let both = [5, 4, 0, K1, 1, 0, 7, 1, 1, 4, 0, K1, 2, 1, 1, 2, 0, 1, 1, 0];
    refuses(&both, 6);
    // 7 in a definition before 3 in the next
    let two = policy(&[(1, 1, &[7, 1, 1, 4, 0, K1, 2, 1, 1, 2, 0, 1, 1, 0]), (2, 0, &[9])]);
    assert_eq!(ask(&two, &[1, 0], &empty_store()), refusal(7, 0));
}

#[test]
fn declared_polarity_alone_counts_and_openness_is_passed_on() {
    let words = policy(&[(1, 0, &[1, 0]), (2, 1, &[2, 0])]);
    let verdict = |query: &[u32]| ask(&words, query, &empty_store()).map(|answer| answer.verdict);
    assert_eq!(verdict(&[3, 0]), Ok(Lower));
    assert_eq!(verdict(&[3, 1]), Ok(Upper));
    assert_eq!(verdict(&[6, 3, 0, 3, 1]), Ok(Lower));
    assert_eq!(verdict(&[5, 3, 0, 3, 1]), refusal(6, QUERY_PART));
    let from = |expression: &[u32]| [&[7, 1, 1], expression, &[1, 2, 0, 1, 1, 0]].concat();
    assert_eq!(verdict(&from(&[3, 1])), refusal(7, QUERY_PART));
    assert_eq!(verdict(&from(&[6, 3, 0, 3, 1])), Ok(Lower));
    // complement minus complement is finite and open all the same
    assert_eq!(verdict(&from(&[6, 2, 0, 2, 0])), refusal(7, QUERY_PART));
    assert_eq!(verdict(&from(&[5, 1, 0, 2, 0])), refusal(7, QUERY_PART));
}

#[test]
fn short_areas_get_11_after_8_and_18() {
    let (mut unsound, mut unsound_links) = (empty_store(), no_links());
    unsound[0] = 1_601;
    unsound_links[0] = 257;
    let shorter = [Areas { answer: 641, ..Areas::LEAST }, Areas { definitions: 10_271, ..Areas::LEAST }, Areas { scratch: 16_383, ..Areas::LEAST }];
    for areas in shorter {
        let question = Question { policy: NOTHING, query: &[1, 0], our_key: NOBODY, minute: 0 };
        let ask = |store: &[u32], links: &[u32]| Evaluator::default().query(question, store, links, areas);
        assert_eq!(ask(&empty_store(), &no_links()), refusal(11, NO_PART));
        assert_eq!(ask(&unsound, &no_links()), refusal(8, NO_PART));
        assert_eq!(ask(&empty_store(), &unsound_links), refusal(18, NO_PART));
        assert_eq!(ask(&unsound, &unsound_links), refusal(8, NO_PART));
    }
}

#[test]
fn values_over_128_rows_get_13() {
    let apart = |from: u32, count: u32| {
        let mut words = vec![1, count];
        words.extend((from..from + count).flat_map(|n| [1, 0, n]));
        words
    };
    assert!(alone(&[vec![5], apart(0, 100), apart(50, 78)].concat()).is_ok());
    refuses(&[vec![5], apart(0, 100), apart(100, 29)].concat(), 13);
    let mut all_but = apart(0, 128);
    all_but[0] = 2;
    refuses(&[vec![6], all_but.clone(), apart(128, 1)].concat(), 13);
    assert!(alone(&[vec![5], all_but, apart(128, 1)].concat()).is_ok());
    // 12 × 11 different rows
    let product = [vec![7, 2, 1], numbers(12), vec![1, 2, 0, 1], numbers(11), vec![1, 2, 1, 2, 1, 0, 1, 1]].concat();
    refuses(&product, 13);
    // a name of 129 rows minus all of them
    let store = store_of((0..129).map(|n| certificate(K1, 1, 0, &[n])));
    let minus = [4, 0, K1, 1, 0];
    assert_eq!(ask(NOTHING, &[&[6], &minus[..], &[2, 0]].concat(), &store), refusal(13, QUERY_PART));
    // a definition that nobody uses
    let unused = policy(&[(1, 0, &[1, 0]), (2, 0, &minus)]);
    assert_eq!(ask(&unused, &[1, 0], &store), refusal(13, 1));
}

#[test]
fn thirteen_comes_after_both_parts_are_read() {
    let mut many_heads = draws_over([100, 100, 100]);
    let end = many_heads.len();
    many_heads[end - 2..].copy_from_slice(&[1, 1]); // the head is variable 1: 100 rows soon after the start
    let others: Vec<u32> = (1_000..1_100).flat_map(|n| [1, 0, n]).collect();
    let union = [vec![5, 1, 100], others, many_heads].concat();
    // too long for a query, so it stands in a definition
    let words = policy(&[(1, 0, &union)]);
    assert_eq!(ask(&words, &[1, 0], &empty_store()), refusal(14, 0));
}

#[test]
fn draws_are_counted_matching_or_not() {
    let store = store_of([certificate(K1, 1, 0, &[7]), certificate(K1, 1, 0, &[8]), certificate(K1, 1, 0, &[7, 8])]);
    let list = [4, 0, K1, 1, 0];
    let draw = |pattern: &[u32], head: &[u32]| [&[7, 1, 1], &list[..], pattern, head].concat();
    assert_eq!(ask(NOTHING, &draw(&[1, 0, 8], &[1, 0, 5]), &store), answer(Lower, 3, Finite(rows([&[5]]))));
    assert_eq!(ask(NOTHING, &draw(&[2, 2, 0, 1, 0], &[1, 1, 0]), &store), answer(Lower, 3, Finite(rows([]))));
    assert_eq!(ask(NOTHING, &draw(&[2, 2, 0, 2, 1], &[2, 1, 1, 1, 0]), &store), answer(Lower, 3, Finite(rows([&[8, 7]]))));
    // a failed guard stops the later draw
    let stopped = [&[7, 2, 2, 0, 1, 0, 2, 1][..], &list, &[1, 2, 0, 1, 1, 0]].concat();
    assert_eq!(ask(NOTHING, &stopped, &store), answer(Lower, 0, Finite(rows([]))));
}

#[test]
fn a_number_as_issuer_has_no_rows_or_all() {
    let issuer_5 = |polarity: u32| vec![7, 2, 1, 1, 1, 1, 0, 5, 1, 2, 0, 4, 1, 0, 9, 4, 1, 0, 1, polarity, 1, 1, 0];
    assert_eq!(alone(&issuer_5(0)), answer(Upper, 1, Finite(rows([&[5]]))));
    assert_eq!(alone(&issuer_5(1)), answer(Lower, 1, Finite(rows([]))));
}

// ---- document 02, N2 ----

const K3: u32 = key(3);

/// Source document 000, section 6: Alice, k1, is responsible for key compromise; k2 lists what is released.
fn delegated_to_alice() -> Vec<u32> {
    policy(&[(0, 1, &[4, 0, K1, 0, 1]), (10, 0, &[4, 0, K2, 1, 0])])
}

fn rewrite(policy: &[u32]) -> Result<Vec<u32>, Refusal> {
    rewrite_as(NOBODY, policy)
}

fn rewrite_as(our_key: u32, policy: &[u32]) -> Result<Vec<u32>, Refusal> {
    let mut area = vec![77; MOST_POLICY_WORDS];
    let length = Evaluator::default().rewrite(policy, our_key, &mut area)?;
    assert!(area[length..].iter().all(|&word| word == 77));
    area.truncate(length);
    Ok(area)
}

#[test]
fn compromised_keys_delegated_to_alice() {
    let external = delegated_to_alice();
    assert_eq!(external, [1, 2, 0, 1, 10, 5, 10, 0, 15, 5, 4, 0, K1, 0, 1, 4, 0, K2, 1, 0]);
    let rewritten = rewrite(&external).unwrap();
    assert_eq!(rewritten, [1, 2, 0, 1, 10, 5, 10, 0, 15, 6, 4, 0, K1, 0, 1, 8, 0, K2, 1, 0, 0]);
    let mut store = empty_store();
    assert_eq!(ask(&rewritten, &[3, 0], &store), answer(Upper, 0, Complement(rows([]))));
    file(&mut store, certificate(K2, 1, 0, &[7]));
    assert_eq!(ask(&external, &[3, 1], &store), answer(Lower, 0, Finite(rows([&[7]]))));
    assert_eq!(ask(&rewritten, &[3, 1], &store), answer(Lower, 0, Finite(rows([]))));
    // what begins with k2 says nothing of k2
    file(&mut store, certificate(K1, 0, 1, &[K2, 7]));
    assert_eq!(ask(&rewritten, &[3, 1], &store), answer(Lower, 0, Finite(rows([]))));
    file(&mut store, certificate(K1, 0, 1, &[K2]));
    assert_eq!(ask(&rewritten, &[3, 1], &store), answer(Lower, 0, Finite(rows([&[7]]))));
    assert_eq!(ask(&rewritten, &[3, 0], &store), answer(Upper, 0, Complement(rows([&[K2], &[K2, 7]]))));
    // the query's own list is not vetted
    assert_eq!(ask(&rewritten, &[4, 0, K3, 1, 0], &store_of([certificate(K3, 1, 0, &[9])])), answer(Lower, 0, Finite(rows([&[9]]))));
}

#[test]
fn a_compromised_issuer_has_no_rows() {
    let words = policy(&[(0, 1, &[1, 1, 1, 0, K2]), (10, 0, &[5, 8, 0, K2, 1, 0, 0, 8, 0, K3, 1, 0, 0])]);
    let store = store_of([certificate(K2, 1, 0, &[7]), certificate(K3, 1, 0, &[8])]);
    assert_eq!(ask(&words, &[3, 1], &store), answer(Lower, 0, Finite(rows([&[8]]))));
    assert_eq!(ask(&words, &[8, 0, K2, 1, 0, 0], &store), answer(Lower, 0, Finite(rows([]))));
    assert_eq!(ask(&words, &[8, 0, K3, 1, 0, 0], &store), answer(Lower, 0, Finite(rows([&[8]]))));
}

#[test]
fn variable_issuers_are_vetted_one_by_one() {
    // each x in the name 1 of a key in k1's name 6
    let delegation = [7, 2, 1, 4, 0, K1, 6, 0, 1, 2, 0, 1, 4, 1, 0, 1, 0, 1, 2, 1, 1, 1, 1];
    let vetted = [7, 2, 1, 8, 0, K1, 6, 0, 0, 1, 2, 0, 1, 8, 1, 0, 1, 0, 0, 1, 2, 1, 1, 1, 1];
    let compromised: (u32, u32, &[u32]) = (0, 1, &[1, 1, 1, 0, K3]);
    let rewritten = rewrite(&policy(&[compromised, (10, 0, &delegation)])).unwrap();
    assert_eq!(rewritten, policy(&[compromised, (10, 0, &vetted)]));
    let trusted = [K2, K3, 5].map(|trusted| certificate(K1, 6, 0, &[trusted]));
    let store = store_of(trusted.into_iter().chain([certificate(K2, 1, 0, &[7]), certificate(K3, 1, 0, &[8])]));
    // three rows of k1's, then one of k2's: the look-ups are no draws, and 5 has no rows
    assert_eq!(ask(&rewritten, &[3, 1], &store), answer(Lower, 4, Finite(rows([&[7]]))));
}

#[test]
fn code_8_word_by_word() {
    let minus = policy(&[(10, 1, &[1, 0])]);
    let ask = |query: &[u32]| ask(&minus, query, &empty_store()).map(|answer| answer.verdict);
    assert_eq!(ask(&[8, 0, K1, 1, 0, 0]), Ok(Lower));
    assert_eq!(ask(&[8, 0, K1, LAST_NAME, 0, 0]), Ok(Lower));
    let refused_with_3: [&[u32]; 9] = [
        &[8, 2, K1, 1, 0, 0],
        &[8, 0, 5, 1, 0, 0],
        &[8, 0, K1, 65_536, 0, 0],
        &[8, 0, K1, 1, 1, 0],
        &[8, 0, K1, 1, 1, 9], // at the polarity, before 4 at the definition
        &[8, 0, K1, 1, 2, 0],
        &[8, 0, K1, 1, 0],
        &[8, 0, K1, 1, 0, 0, 0],
        &[8, 0, K1],
    ];
    for query in refused_with_3 {
        assert_eq!(ask(query), refusal(3, QUERY_PART), "{query:?}");
    }
    assert_eq!(ask(&[8, 0, K1, 1, 0, 1]), refusal(4, QUERY_PART));
    assert_eq!(ask(&[8, 1, 0, 1, 0, 0]), refusal(4, QUERY_PART));
    // in a definition an earlier one alone
    let own = policy(&[(10, 0, &[8, 0, K1, 1, 0, 0])]);
    assert_eq!(judge(&own, &[1, 0]), refusal(4, 0));
    // it stands at a depth as any expression does
    let deep = |unions: usize| [vec![5; unions], vec![8, 0, K1, 1, 0, 0], [1, 0].repeat(unions)].concat();
    assert_eq!(ask(&deep(14)), Ok(Lower));
    assert_eq!(ask(&deep(15)), refusal(5, QUERY_PART));
}

#[test]
fn code_8_is_plus_over_a_definition_that_is_minus_and_never_open() {
    let both = policy(&[(10, 1, &[2, 0]), (11, 0, &[1, 0])]);
    let verdict = |query: &[u32]| ask(&both, query, &empty_store()).map(|answer| answer.verdict);
    let (by_minus, by_plus) = ([8, 0, K1, 1, 0, 0], [8, 0, K1, 1, 0, 1]);
    assert_eq!(verdict(&by_minus), Ok(Lower));
    assert_eq!(verdict(&by_plus), refusal(6, QUERY_PART));
    // not even on the right of a difference
    assert_eq!(verdict(&[&[6, 2, 0], &by_plus[..]].concat()), refusal(6, QUERY_PART));
    assert_eq!(verdict(&[&[6, 2, 0], &by_minus[..]].concat()), Ok(Upper));
    let from = |expression: &[u32]| [&[7, 1, 1], expression, &[1, 2, 0, 1, 1, 0]].concat();
    assert_eq!(verdict(&from(&by_minus)), Ok(Lower));
    assert_eq!(verdict(&from(&by_plus)), refusal(6, QUERY_PART));
    for (polarity, definition, refused) in [(0, 0, None), (1, 0, Some(6)), (0, 1, Some(6)), (1, 1, Some(6))] {
        let third = policy(&[(10, 1, &[2, 0]), (11, 0, &[1, 0]), (12, polarity, &[8, 0, K1, 1, 0, definition])]);
        assert_eq!(judge(&third, &[1, 0]), refused.map_or(Ok(Exact), |number| refusal(number, 2)));
    }
}

#[test]
fn the_list_of_a_compromised_issuer_is_not_read() {
    let store = store_of((0..129).map(|n| certificate(K1, 1, 0, &[n])));
    let vetted = [8, 0, K1, 1, 0, 0];
    assert_eq!(ask(&policy(&[(10, 1, &[2, 0])]), &vetted, &store), answer(Lower, 0, Finite(rows([]))));
    assert_eq!(ask(&policy(&[(10, 1, &[1, 1, 1, 0, K1])]), &vetted, &store), answer(Lower, 0, Finite(rows([]))));
    assert_eq!(ask(&policy(&[(10, 1, &[1, 0])]), &vetted, &store), refusal(13, QUERY_PART));
}

#[test]
fn without_compromised_keys_the_output_equals_the_input() {
    let list: &[u32] = &[4, 0, K2, 1, 0];
    for external in [NOTHING.to_vec(), policy(&[(10, 0, list)]), policy(&[(0, 0, list), (10, 0, list)]), policy(&[(10, 0, list), (0, 0, list)])] {
        assert_eq!(rewrite(&external), Ok(external));
    }
}

#[test]
fn broken_external_rules_get_15() {
    let (compromised, list): (&[u32], &[u32]) = (&[4, 0, K1, 0, 1], &[4, 0, K2, 1, 0]);
    let (difference, absent): (&[u32], &[u32]) = (&[6, 4, 0, K2, 1, 0, 1, 0], &[7, 1, 4, 1, 0, 7, 1, 0, 1, 0, 7]);
    let in_a_draw = [&[7, 1, 1], difference, &[1, 2, 0, 1, 1, 0]].concat();
    let to_the_right = [&[5, 1, 0], absent].concat();
    let broken = [
        policy(&[(1, 1, compromised)]),
        policy(&[(10, 0, list), (0, 1, compromised)]),
        policy(&[(0, 1, compromised), (10, 1, &[1, 0])]),
        policy(&[(0, 1, compromised), (10, 0, difference)]),
        policy(&[(0, 1, compromised), (10, 0, absent)]),
        policy(&[(0, 1, compromised), (10, 0, &[8, 0, K2, 1, 0, 0])]),
        policy(&[(0, 1, compromised), (10, 0, list), (11, 0, &in_a_draw)]),
        policy(&[(0, 1, compromised), (10, 0, list), (11, 0, &to_the_right)]),
        policy(&[(0, 1, &[6, 4, 0, K1, 0, 1, 1, 0])]),
        policy(&[(0, 1, absent), (10, 0, list)]),
        // the rules hold also without a definition of name 0 −
        policy(&[(10, 0, difference)]),
        policy(&[(10, 0, absent)]),
    ];
    for words in broken {
        assert_eq!(rewrite(&words), refusal(15, NO_PART), "{words:?}");
        // 11 comes after it
        assert_eq!(Evaluator::default().rewrite(&words, NOBODY, &mut []), refusal(15, NO_PART));
    }
}

#[test]
fn rewriting_refuses_1_to_7_first() {
    let difference: &[u32] = &[6, 4, 0, K2, 1, 0, 1, 0];
    let second = |words: &[u32]| policy(&[(10, 0, difference), (11, 0, words)]);
    assert_eq!(rewrite(&[3, 0]), refusal(1, NO_PART));
    assert_eq!(rewrite(&[1, 0, 0]), refusal(2, NO_PART));
    assert_eq!(rewrite(&second(&[9])), refusal(3, 1));
    assert_eq!(rewrite(&second(&[3, 1])), refusal(4, 1));
    assert_eq!(rewrite(&second(&nested_unions(15))), refusal(5, 1));
    // names of the other polarity are met as 6
    assert_eq!(rewrite(&second(&[4, 0, K2, 1, 1])), refusal(6, 1));
    assert_eq!(rewrite(&policy(&[(0, 1, &[4, 0, K1, 0, 0])])), refusal(6, 0));
    assert_eq!(rewrite(&policy(&[(0, 1, &[4, 0, K1, 0, 1]), (10, 0, &[3, 0])])), refusal(6, 1));
    assert_eq!(rewrite(&second(&[7, 1, 1, 2, 0, 1, 2, 0, 1, 1, 0])), refusal(7, 1));
}

/// Definition 0 has these words; seven others are each a list united with a literal of 1,154 words, and each grows by a word.
fn long_external(compromised: &[u32]) -> Vec<u32> {
    let rows = [4, 0, 9, 0, 9, 0, 9, 0, 9].repeat(128);
    let united = [&[5, 4, 0, K1, 1, 0, 1, 128], &rows[..]].concat();
    let mut definitions: Vec<(u32, u32, &[u32])> = vec![(0, 1, compromised)];
    definitions.extend((1..8).map(|name| (name, 0, united.as_slice())));
    policy(&definitions)
}

#[test]
fn an_output_of_8192_words_passes_and_one_of_8193_does_not() {
    // 2 + 4 × 8 words of table, 31 or 32 of definition 0, 7 × 1,160 of the others
    let eight_rows = [1, 0, 7].repeat(8);
    let of_31 = [&[1, 9], &eight_rows[..], &[2, 0, 7, 0, 8]].concat();
    let of_32 = [&[1, 10], &eight_rows[..], &[1, 0, 7, 1, 0, 8]].concat();
    let (just, over) = (long_external(&of_31), long_external(&of_32));
    assert_eq!((just.len(), over.len()), (8_185, 8_186));
    let output = rewrite(&just).unwrap();
    assert_eq!(output.len(), 8_192);
    assert_eq!(output[..14], [1, 8, 0, 1, 34, 31, 1, 0, 65, 1_161, 2, 0, 1_226, 1_161]);
    assert_eq!(output[65..75], [5, 8, 0, K1, 1, 0, 0, 1, 128, 4]);
    assert!(judge(&output, &[3, 7]).is_ok());
    assert_eq!(rewrite(&over), refusal(15, NO_PART));
    assert!(judge(&over, &[3, 7]).is_ok());
    // the output is too long, and the area too short: 15
    assert_eq!(Evaluator::default().rewrite(&over, NOBODY, &mut []), refusal(15, NO_PART));
    assert_eq!(Evaluator::default().rewrite(&just, NOBODY, &mut [0; 8_191]), refusal(11, NO_PART));
}

#[test]
fn a_short_area_gets_11_and_stays() {
    let external = delegated_to_alice();
    let mut area = [77; 25];
    for length in [0, 20] {
        assert_eq!(Evaluator::default().rewrite(&external, NOBODY, &mut area[..length]), refusal(11, NO_PART));
    }
    assert_eq!(area, [77; 25]);
    assert_eq!(Evaluator::default().rewrite(&external, NOBODY, &mut area[..21]), Ok(21));
    assert_eq!(area[21..], [77; 4]);
    assert_eq!(Evaluator::default().rewrite(NOTHING, NOBODY, &mut area[..1]), refusal(11, NO_PART));
}

// ---- document 02, N4 ----

/// k1's name 1, +.
const LIST: &[u32] = &[4, 0, K1, 1, 0];

fn seven(first: u32, end: u32) -> Record {
    with_term(certificate(K1, 1, 0, &[7]), first, end)
}

#[test]
fn a_certificate_holds_from_its_first_minute_up_to_but_without_its_end() {
    let store = store_of([seven(10, 20)]);
    let not_listed = store_of([with_term(certificate(K1, 2, 1, &[7]), 10, 20)]);
    for (minute, holds) in [(0, false), (9, false), (10, true), (19, true), (20, false), (u32::MAX, false)] {
        let certified = if holds { rows([&[7]]) } else { rows([]) };
        assert_eq!(ask_at(minute, NOTHING, LIST, &store), answer(Lower, 0, Finite(certified.clone())), "{minute}");
        assert_eq!(ask_at(minute, NOTHING, &[4, 0, K1, 2, 1], &not_listed), answer(Upper, 0, Complement(certified)), "{minute}");
    }
}

#[test]
fn nothing_holds_at_the_greatest_minute() {
    let store = store_of([seven(0, u32::MAX)]);
    let count = |minute| ask_at(minute, NOTHING, LIST, &store).unwrap().set.listed().len();
    assert_eq!([0, 52_596_000, u32::MAX - 1, u32::MAX].map(count), [1, 1, 1, 0]);
}

#[test]
fn a_row_counts_once_however_many_of_its_records_hold() {
    let store = store_of([seven(0, 20), seven(10, 30), seven(30, 40), with_term(certificate(K1, 1, 0, &[8]), 10, 20)]);
    // row 7's terms overlap from 10 to 20 and touch at 30: one draw for each row
    let draw = [&[7, 1, 1], LIST, &[1, 2, 0, 1, 1, 0]].concat();
    let both = answer(Lower, 2, Finite(rows([&[7], &[8]])));
    let one = answer(Lower, 1, Finite(rows([&[7]])));
    for (minute, expected) in [(0, &one), (9, &one), (10, &both), (19, &both), (20, &one), (29, &one), (30, &one), (39, &one)] {
        assert_eq!(ask_at(minute, NOTHING, &draw, &store), *expected, "{minute}");
    }
    assert_eq!(ask_at(40, NOTHING, &draw, &store), answer(Lower, 0, Finite(rows([]))));
    // the part of the store has all four
    assert_eq!(certificates_of(&store, [K1, 1, 0]), 1..41);
}

#[test]
fn thirteen_counts_the_different_rows_that_hold() {
    let crowd = |count: u32, first: u32, end: u32| (0..count).map(move |n| with_term(certificate(K1, 1, 0, &[n]), first, end));
    let twice = store_of(crowd(128, 0, 20).chain(crowd(128, 10, 30)));
    for minute in [0, 10, 20] {
        assert_eq!(ask_at(minute, NOTHING, LIST, &twice).unwrap().set.listed().len(), 128);
    }
    let one_more = store_of(crowd(128, 0, 20).chain(crowd(129, 10, 30)));
    assert!(ask_at(9, NOTHING, LIST, &one_more).is_ok());
    assert_eq!(ask_at(10, NOTHING, LIST, &one_more), refusal(13, QUERY_PART));
    assert_eq!(ask_at(20, NOTHING, LIST, &one_more), refusal(13, QUERY_PART));
    assert!(ask_at(30, NOTHING, LIST, &one_more).is_ok());
}

#[test]
fn absent_guards_vetting_and_definitions_are_asked_at_the_minute() {
    let store = store_of([seven(0, 40), with_term(certificate(K1, 2, 1, &[7]), 10, 30)]);
    let public = |minute| ask_at(minute, &p(), Q, &store).unwrap().set.listed().len();
    assert_eq!([9, 10, 29, 30].map(public), [0, 1, 1, 0]);
    let vetted = policy(&[(0, 1, &[4, 0, K1, 0, 1]), (10, 0, &[8, 0, K2, 1, 0, 0])]);
    let store = store_of([with_term(certificate(K2, 1, 0, &[7]), 10, 30), with_term(certificate(K1, 0, 1, &[K2]), 20, 40)]);
    let listed = |minute| ask_at(minute, &vetted, &[3, 1], &store).unwrap().set.listed().len();
    assert_eq!([10, 19, 20, 29, 30].map(listed), [0, 0, 1, 1, 0]);
}

#[test]
fn an_end_not_after_its_first_minute_gets_17_right_after_9() {
    let mut store = store_of([seven(0, 1)]);
    let before = store.clone();
    for (first, end) in [(0, 0), (5, 5), (5, 4), (1, 0), (u32::MAX, u32::MAX), (u32::MAX, 0)] {
        assert_eq!(file(&mut store, seven(first, end)), Filing::Refused(17), "{first} {end}");
    }
    // 9 comes first, whichever word is unsound
    for (place, word) in [(0, 5), (1, 65_536), (2, 2), (3, 0), (5, 1)] {
        let mut unsound = seven(5, 5).words();
        unsound[place] = word;
        assert_eq!(Evaluator::default().file(&mut store, &unsound), Filing::Refused(9));
    }
    assert_eq!(store, before);
    // 8 before, 10 after
    assert_eq!(file(&mut store[..16_000], seven(5, 5)), Filing::Refused(8));
    let mut full = store_of((0..1_600).map(|n| certificate(K1, 1, 0, &[n])));
    assert_eq!(file(&mut full, seven(5, 5)), Filing::Refused(17));
}

#[test]
fn records_of_one_row_ascend_by_first_then_by_end_minute() {
    let ascending = [seven(0, 30), seven(5, 10), seven(5, 11), seven(5, u32::MAX), seven(6, 7), seven(key(0), key(1))];
    let mut store = store_of([4, 1, 5, 0, 3, 2].map(|place| ascending[place]));
    assert_eq!(Evaluator::default().certificates(&store), Some(ascending.to_vec()));
    for record in ascending {
        assert_eq!(file(&mut store, record), Filing::Held);
    }
    // longer rows come behind all terms of the shorter one
    assert_eq!(file(&mut store, certificate(K1, 1, 0, &[7, 0])), Filing::Filed);
    assert_eq!(store[61..71], certificate(K1, 1, 0, &[7, 0]).words());
    // out of order by first minute, then by end minute alone, then the same twice
    for (place, words) in [(9, [6, 30]), (29, [5, 10]), (29, [5, 9])] {
        let mut broken = store.clone();
        broken[place..place + 2].copy_from_slice(&words);
        assert_eq!(ask(NOTHING, &[1, 0], &broken), refusal(8, NO_PART), "{words:?}");
    }
}

#[test]
fn minutes_of_dates() {
    let minutes = |date| Evaluator::default().minutes(date);
    let day = 24 * 60;
    let known = [
        ([2000, 1, 1, 0, 0], 0),
        ([2000, 1, 1, 23, 59], day - 1),
        ([2000, 1, 31, 0, 0], 30 * day),
        ([2000, 2, 29, 0, 0], 59 * day),
        ([2000, 3, 1, 0, 0], 60 * day),
        ([2000, 12, 31, 23, 59], 366 * day - 1),
        ([2001, 1, 1, 0, 0], 366 * day),
        ([2001, 3, 1, 0, 0], (366 + 59) * day),
        ([2004, 1, 1, 0, 0], (4 * 365 + 1) * day),
        ([2004, 2, 29, 12, 30], (4 * 365 + 1 + 59) * day + 750),
        ([2099, 12, 31, 23, 59], 52_595_999),
    ];
    for (date, number) in known {
        assert_eq!(minutes(date), Ok(number), "{date:?}");
        assert_eq!(Evaluator::default().date(number), Ok(date));
    }
    let odd = [
        [1999, 12, 31, 23, 59],
        [2100, 1, 1, 0, 0],
        [2001, 2, 29, 0, 0],
        [2000, 2, 30, 0, 0],
        [2099, 2, 29, 0, 0],
        [2026, 0, 1, 0, 0],
        [2026, 13, 1, 0, 0],
        [2026, 4, 31, 0, 0],
        [2026, 1, 32, 0, 0],
        [2026, 1, 0, 0, 0],
        [2026, 1, 1, 24, 0],
        [2026, 1, 1, 0, 60],
        [u32::MAX; 5],
        [0; 5],
    ];
    for date in odd {
        assert_eq!(minutes(date), Err(16), "{date:?}");
    }
    for number in [52_596_000, u32::MAX] {
        assert_eq!(Evaluator::default().date(number), Err(16));
    }
}

/// Day by day, without the months' steps: the day of the week of each, and the count of days, are those of the calendar.
#[test]
fn each_day_follows_the_one_before() {
    let evaluator = Evaluator::default();
    let mut last = [1999, 12, 31, 0, 0];
    for day in 0..36_525 {
        let date = evaluator.date(day * 1_440).unwrap();
        let [year, month, number, ..] = date;
        let next_day = [last[0], last[1], last[2] + 1, 0, 0];
        let first_of_next_month = if last[1] == 12 { [last[0] + 1, 1, 1, 0, 0] } else { [last[0], last[1] + 1, 1, 0, 0] };
        assert!(date == next_day || date == first_of_next_month && evaluator.minutes(next_day) == Err(16), "{last:?} {date:?}");
        assert_eq!(evaluator.minutes(date), Ok(day * 1_440));
        // Zeller's congruence, 0 a Saturday, as 2000-01-01 was
        let (m, y) = if month < 3 { (month + 12, year - 1) } else { (month, year) };
        assert_eq!((number + 13 * (m + 1) / 5 + y + y / 4 - y / 100 + y / 400) % 7, day % 7, "{date:?}");
        last = date;
    }
    assert_eq!(last, [2099, 12, 31, 0, 0]);
}

// ---- document 02, N5 ----

/// From name 1 of one key to name 1 of another.
fn link(key: u32, polarity: u32, other_key: u32) -> Link {
    Link { key, name: 1, polarity, other_key, other_name: 1 }
}

fn file_link(links: &mut [u32], link: Link) -> Filing {
    Evaluator::default().file_link(links, &link.words())
}

fn links_of(links: impl IntoIterator<Item = Link>) -> Vec<u32> {
    let mut store = no_links();
    for link in links {
        assert_eq!(file_link(&mut store, link), Filing::Filed, "{link:?}");
    }
    store
}

/// Three keys with a row each under name 1: k1 has 7, k2 has 8, k3 has 9.
fn three_rows(polarity: u32) -> Vec<u32> {
    store_of([(K1, [7]), (K2, [8]), (K3, [9])].map(|(key, row)| certificate(key, 1, polarity, &row)))
}

fn ask_linked(query: &[u32], store: &[u32], links: &[u32]) -> Result<Answer, Refusal> {
    ask_all(NOBODY, NOTHING, query, store, links)
}

/// The rows listed for name 1 of each of the three keys.
fn listed(polarity: u32, links: impl IntoIterator<Item = Link>) -> [Vec<u32>; 3] {
    let links = links_of(links);
    [K1, K2, K3].map(|key| {
        let set = ask_linked(&[4, 0, key, 1, polarity], &three_rows(polarity), &links).unwrap().set;
        assert_eq!(matches!(set, Complement(_)), polarity == 1);
        set.listed().iter().map(|row| row.atoms[0]).collect()
    })
}

#[test]
fn links_join_the_rows_of_every_name_that_they_reach() {
    for polarity in [0, 1] {
        let to = |key, other| link(key, polarity, other);
        assert_eq!(listed(polarity, []), [vec![7], vec![8], vec![9]]);
        // a chain, as it ascends and against the order of links
        assert_eq!(listed(polarity, [to(K1, K2), to(K2, K3)]), [vec![7, 8, 9], vec![8, 9], vec![9]]);
        assert_eq!(listed(polarity, [to(K2, K1), to(K3, K2)]), [vec![7], vec![7, 8], vec![7, 8, 9]]);
        // circles of three, of two and of one
        assert_eq!(listed(polarity, [to(K1, K2), to(K2, K3), to(K3, K1)]), [vec![7, 8, 9], vec![7, 8, 9], vec![7, 8, 9]]);
        assert_eq!(listed(polarity, [to(K1, K3), to(K3, K1)]), [vec![7, 9], vec![8], vec![7, 9]]);
        assert_eq!(listed(polarity, [to(K1, K1), to(K1, K2), to(K2, K2)]), [vec![7, 8], vec![8], vec![9]]);
        // two ways to one name; a star, and its reverse
        assert_eq!(listed(polarity, [to(K1, K2), to(K1, K3), to(K2, K3)]), [vec![7, 8, 9], vec![8, 9], vec![9]]);
        assert_eq!(listed(polarity, [to(K1, K2), to(K1, K3)]), [vec![7, 8, 9], vec![8], vec![9]]);
        assert_eq!(listed(polarity, [to(K1, K3), to(K2, K3)]), [vec![7, 9], vec![8, 9], vec![9]]);
        // links of the other polarity are of other names
        assert_eq!(listed(polarity, [link(K1, 1 - polarity, K2), to(K2, K3)]), [vec![7], vec![8, 9], vec![9]]);
    }
}

/// Its number and its key are both asked for.
#[test]
fn a_link_is_from_a_name_to_a_name() {
    let store = store_of([(K1, 1, [7]), (K1, 2, [8]), (K2, 1, [9]), (K2, 2, [10])].map(|(key, name, row)| certificate(key, name, 0, &row)));
    let links = links_of([Link { key: K1, name: 1, polarity: 0, other_key: K2, other_name: 2 }]);
    let rows_of = |key, name| ask_linked(&[4, 0, key, name, 0], &store, &links).unwrap().set;
    assert_eq!(rows_of(K1, 1), Finite(rows([&[7], &[10]])));
    assert_eq!(rows_of(K1, 2), Finite(rows([&[8]])));
    assert_eq!(rows_of(K2, 1), Finite(rows([&[9]])));
    assert_eq!(rows_of(K2, 2), Finite(rows([&[10]])));
}

#[test]
fn a_chain_of_256_links_is_followed_to_its_end() {
    let to = |n: u32| Link { key: K1, name: 300 - n, polarity: 0, other_key: K1, other_name: 299 - n };
    let links = links_of((0..256).map(to));
    let store = store_of([certificate(K1, 300, 0, &[7]), certificate(K1, 44, 0, &[8]), certificate(K1, 43, 0, &[9])]);
    assert_eq!(ask_linked(&[4, 0, K1, 300, 0], &store, &links).unwrap().set, Finite(rows([&[7], &[8]])));
}

#[test]
fn guards_draws_variables_and_definitions_read_through_links() {
    let store = store_of([certificate(K2, 1, 0, &[7]), certificate(K1, 1, 0, &[7]), certificate(K2, 1, 0, &[8]), certificate(K3, 2, 1, &[8])]);
    let withdrawn = Link { key: K1, name: 2, polarity: 1, other_key: K3, other_name: 2 };
    let links = links_of([link(K1, 0, K2), withdrawn]);
    let ask = |policy: &[u32], query: &[u32]| ask_all(NOBODY, policy, query, &store, &links);
    // k1's name 1 has 7, once, and 8: two draws; of 8 alone it is said that it is not withdrawn
    assert_eq!(ask(&p(), Q), answer(Lower, 2, Finite(rows([&[8]]))));
    assert_eq!(ask(NOTHING, &[4, 0, K1, 2, 1]), answer(Upper, 0, Complement(rows([&[8]]))));
    // x of {k1, 5}, y of its name 1: two draws for x and two for y
    let delegation = [7, 2, 1, 1, 2, 1, 0, K1, 1, 0, 5, 1, 2, 0, 1, 4, 1, 0, 1, 0, 1, 2, 1, 1, 1, 1];
    assert_eq!(ask(NOTHING, &delegation), answer(Lower, 4, Finite(rows([&[7], &[8]]))));
}

#[test]
fn code_8_guards_the_issuer_alone() {
    let store = store_of([certificate(K1, 1, 0, &[7]), certificate(K2, 1, 0, &[8])]);
    let links = links_of([link(K1, 0, K2), link(K3, 0, K1)]);
    let compromised = policy(&[(0, 1, &[1, 1, 1, 0, K2])]);
    let vetted = |key| ask_all(NOBODY, &compromised, &[8, 0, key, 1, 0, 0], &store, &links).unwrap().set;
    assert_eq!(vetted(K1), Finite(rows([&[7], &[8]])));
    assert_eq!(vetted(K2), Finite(rows([])));
    assert_eq!(vetted(K3), Finite(rows([&[7], &[8]])));
}

#[test]
fn only_certificates_that_hold_are_joined() {
    let store = store_of([seven(0, 10), with_term(certificate(K2, 1, 0, &[8]), 5, 15), with_term(certificate(K2, 1, 0, &[7]), 5, 15)]);
    let links = links_of([link(K1, 0, K2)]);
    let question = |minute| Question { policy: NOTHING, query: LIST, our_key: NOBODY, minute };
    let listed = |minute| Evaluator::default().query(question(minute), &store, &links, Areas::LEAST).unwrap().set.listed().len();
    assert_eq!([0, 5, 10, 14, 15].map(listed), [1, 2, 2, 2, 0]);
}

#[test]
fn thirteen_counts_the_rows_joined_once_each() {
    for polarity in [0, 1] {
        let rows_from = |key, numbers: Range<u32>| numbers.map(move |n| certificate(key, 1, polarity, &[n]));
        let links = links_of([link(K1, polarity, K2), link(K2, polarity, K3), link(K1, polarity, K3)]);
        let ask = |records: Vec<Record>, key| ask_linked(&[4, 0, key, 1, polarity], &store_of(records), &links);
        // 128 rows, most of them of two or three names
        let many: Vec<Record> = rows_from(K1, 0..100).chain(rows_from(K2, 20..120)).chain(rows_from(K3, 28..128)).collect();
        assert_eq!(ask(many.clone(), K1).unwrap().set.listed().len(), 128);
        let one_more: Vec<Record> = many.into_iter().chain(rows_from(K3, 128..129)).collect();
        assert_eq!(ask(one_more.clone(), K1), refusal(13, QUERY_PART));
        assert_eq!(ask(one_more, K2).unwrap().set.listed().len(), 109);
    }
}

#[test]
fn malformed_links_get_18() {
    let sound = link(K1, 1, K2).words();
    let mut links = no_links();
    for (place, word) in [(0, 0), (0, K1 - 2), (1, 65_536), (2, 2), (3, 5), (4, 65_536), (4, u32::MAX)] {
        let mut words = sound;
        words[place] = word;
        assert_eq!(Evaluator::default().file_link(&mut links, &words), Filing::Refused(18), "{words:?}");
    }
    for length in [0, 4, 6] {
        assert_eq!(Evaluator::default().file_link(&mut links, &[sound.as_slice(), &[0]].concat()[..length]), Filing::Refused(18));
    }
    assert_eq!(links, no_links());
    let extreme = Link { key: key(0), name: 65_535, polarity: 1, other_key: u32::MAX, other_name: 65_535 };
    assert_eq!(file_link(&mut links, extreme), Filing::Filed);
}

#[test]
fn links_ascend_word_by_word() {
    let words = [[K1, 1, 0, K2, 1], [K1, 1, 0, K2, 2], [K1, 1, 0, K3, 0], [K1, 1, 1, K1, 0], [K1, 2, 0, K1, 0], [K2, 0, 0, K1, 0]];
    let ascending = words.map(|words| Link::from_words(&words).unwrap());
    let mut store = links_of([3, 5, 0, 4, 2, 1].map(|place| ascending[place]));
    assert_eq!(store[..31], [&[6], words.as_flattened()].concat());
    assert!(store[31..].iter().all(|&word| word == 77));
    let before = store.clone();
    for link in ascending {
        assert_eq!(file_link(&mut store, link), Filing::Held);
    }
    assert_eq!(store, before);
}

#[test]
fn unsound_link_stores_get_18_in_filing_and_in_a_query() {
    let sound = links_of([link(K1, 0, K2), link(K1, 0, K3), link(K2, 1, K2)]);
    let mut swapped = sound.clone();
    swapped[1..11].rotate_left(5);
    let mut twice = sound.clone();
    twice.copy_within(1..6, 6);
    let mut unsound = vec![swapped, twice, sound[..1_280].to_vec(), vec![]];
    for (place, word) in [(0, 257), (0, 4), (0, u32::MAX), (1, 5), (7, 65_536), (13, 2), (14, 5), (15, 65_536)] {
        unsound.push(sound.clone());
        unsound.last_mut().unwrap()[place] = word;
    }
    for mut links in unsound {
        let before = links.clone();
        // also for what is held, or malformed
        assert_eq!(file_link(&mut links, link(K1, 0, K3)), Filing::Refused(18));
        assert_eq!(Evaluator::default().file_link(&mut links, &[]), Filing::Refused(18));
        assert_eq!(links, before);
        // also where no name is read; right after 8
        assert_eq!(ask_linked(&[1, 0], &empty_store(), &links), refusal(18, NO_PART));
        assert_eq!(ask_linked(&[1, 0], &[], &links), refusal(8, NO_PART));
        assert_eq!(ask_linked(&[9], &empty_store(), &links), refusal(3, QUERY_PART));
    }
    // words past the last link are not looked at
    assert!(ask_linked(&[1, 0], &empty_store(), &[sound, vec![9; 7]].concat()).is_ok());
}

#[test]
fn a_full_link_store_holds_and_refuses_with_19() {
    let some = |n| Link { key: K1, name: n, polarity: 0, other_key: K2, other_name: 1 };
    let mut links = links_of((0..256).map(some));
    let before = links.clone();
    assert_eq!(file_link(&mut links, some(5)), Filing::Held);
    assert_eq!(file_link(&mut links, some(256)), Filing::Refused(19));
    assert_eq!(file_link(&mut links, some(65_536)), Filing::Refused(18));
    assert_eq!(links, before);
    assert!(ask_linked(&[1, 0], &empty_store(), &links).is_ok());
    // not even where there is room for more
    links.extend([77; 100]);
    assert_eq!(file_link(&mut links, some(256)), Filing::Refused(19));
    links[0] = 257;
    links[1_281..1_286].copy_from_slice(&some(256).words());
    assert_eq!(file_link(&mut links, some(5)), Filing::Refused(18));
}

// ---- document 02, N6 ----

/// The same policy with another word 0.
fn of_format(format: u32, mut policy: Vec<u32>) -> Vec<u32> {
    policy[0] = format;
    policy
}

/// k1's name 1, +, has these rows.
fn list_of<const N: usize>(rows: [&[u32]; N]) -> Vec<u32> {
    store_of(rows.map(|row| certificate(K1, 1, 0, row)))
}

/// Draws from k1's name 1, +, by this pattern; then other guards and the head.
fn draw_list(pattern: &[u32], others: u32, rest: &[u32]) -> Vec<u32> {
    [&[7, 1 + others, 1], LIST, pattern, rest].concat()
}

/// A pattern of this width, its slots all new, and a head of them.
fn new_variables(width: u32) -> [Vec<u32>; 2] {
    [2, 1].map(|tag| [width].into_iter().chain((0..width).flat_map(|variable| [tag, variable])).collect())
}

/// Rows of one to four atoms that share none.
const OF_EACH_WIDTH: [&[u32]; 4] = [&[1], &[2, 3], &[4, 5, 6], &[7, 8, 9, 10]];

#[test]
fn a_pattern_matches_rows_of_its_width_or_in_format_2_wider_ones_by_their_first_atoms() {
    let store = list_of(OF_EACH_WIDTH);
    let matched: [[BTreeSet<Row>; 2]; 4] = [
        [rows([&[1]]), rows([&[1], &[2], &[4], &[7]])],
        [rows([&[2, 3]]), rows([&[2, 3], &[4, 5], &[7, 8]])],
        [rows([&[4, 5, 6]]), rows([&[4, 5, 6], &[7, 8, 9]])],
        [rows([&[7, 8, 9, 10]]), rows([&[7, 8, 9, 10]])],
    ];
    for (width, matched) in (1..).zip(matched) {
        let [pattern, head] = new_variables(width);
        for (format, matched) in (1..).zip(matched) {
            // each of the four rows is a draw, matching or not
            assert_eq!(ask(&[format, 0], &draw_list(&pattern, 0, &head), &store), answer(Lower, 4, Finite(matched)), "{width} {format}");
        }
    }
}

/// Each row that matches goes on to the later guards, also where it begins as another one does: a draw from a literal of one row counts them.
#[test]
fn rows_with_the_same_first_atoms_are_drawn_and_pass_one_by_one() {
    let store = list_of([&[7], &[7, 8], &[7, 8, 9], &[7, 8, 9, 10]]);
    for (width, passing) in [(1, [1, 4]), (2, [1, 3]), (3, [1, 2]), (4, [1, 1])] {
        let [pattern, head] = new_variables(width);
        let counted = draw_list(&pattern, 1, &[&[1, 1, 1, 1, 0, 5, 1, 0, 5], &head[..]].concat());
        let first = rows([&[7, 8, 9, 10][..width as usize]]);
        for (format, passing) in (1..).zip(passing) {
            assert_eq!(ask(&[format, 0], &counted, &store), answer(Lower, 4 + passing, Finite(first.clone())), "{width} {format}");
        }
    }
}

#[test]
fn a_variable_used_twice_is_compared_within_the_first_atoms() {
    let store = list_of([&[7], &[7, 7], &[7, 8], &[6, 6, 9], &[8, 9, 9], &[9, 9, 9, 1]]);
    // x, x: then the row drawn may go on
    let twice = draw_list(&[2, 2, 0, 1, 0], 0, &[1, 1, 0]);
    assert_eq!(ask(&[1, 0], &twice, &store), answer(Lower, 6, Finite(rows([&[7]]))));
    assert_eq!(ask(&[2, 0], &twice, &store), answer(Lower, 6, Finite(rows([&[6], &[7], &[9]]))));
    // x, y, y
    let behind = draw_list(&[3, 2, 0, 2, 1, 1, 1], 0, &[2, 1, 0, 1, 1]);
    assert_eq!(ask(&[1, 0], &behind, &store), answer(Lower, 6, Finite(rows([&[8, 9]]))));
    assert_eq!(ask(&[2, 0], &behind, &store), answer(Lower, 6, Finite(rows([&[8, 9], &[9, 9]]))));
    // x of {7, 8}, then x and y of the list: two draws, and six for each
    let outside = [7, 2, 1, 1, 2, 1, 0, 7, 1, 0, 8, 1, 2, 0, 1, 4, 0, K1, 1, 0, 2, 1, 0, 2, 1, 2, 1, 0, 1, 1];
    assert_eq!(ask(&[1, 0], &outside, &store), answer(Lower, 14, Finite(rows([&[7, 7], &[7, 8]]))));
    assert_eq!(ask(&[2, 0], &outside, &store), answer(Lower, 14, Finite(rows([&[7, 7], &[7, 8], &[8, 9]]))));
}

#[test]
fn a_variable_behind_the_pattern_is_the_next_draw_s() {
    // x of k1's list, y of a literal: y is 5 also where the row drawn goes on behind x
    let store = list_of([&[7, 8], &[6, 9, 9]]);
    let query = draw_list(&[1, 2, 0], 1, &[1, 1, 1, 1, 0, 5, 1, 2, 1, 2, 1, 0, 1, 1]);
    assert_eq!(ask(&[1, 0], &query, &store), answer(Lower, 2, Finite(rows([]))));
    assert_eq!(ask(&[2, 0], &query, &store), answer(Lower, 4, Finite(rows([&[6, 5], &[7, 5]]))));
}

#[test]
fn a_fixed_term_is_compared_within_the_first_atoms() {
    let store = list_of([&[7], &[7, 1], &[7, 1, 2], &[8], &[8, 7]]);
    // the draws of a literal of one row behind it say how many rows match
    let passing = |format, pattern: &[u32]| {
        let query = draw_list(pattern, 1, &[1, 1, 1, 1, 0, 5, 1, 0, 5, 1, 0, 5]);
        ask(&[format, 0], &query, &store).unwrap().draws - 5
    };
    assert_eq!([1, 2].map(|format| passing(format, &[1, 0, 7])), [1, 3]);
    assert_eq!([1, 2].map(|format| passing(format, &[1, 0, 8])), [1, 2]);
    assert_eq!([1, 2].map(|format| passing(format, &[1, 0, 1])), [0, 0]);
    assert_eq!([1, 2].map(|format| passing(format, &[2, 0, 7, 0, 1])), [1, 2]);
    assert_eq!([1, 2].map(|format| passing(format, &[2, 2, 0, 0, 7])), [1, 1]);
    assert_eq!([1, 2].map(|format| passing(format, &[2, 2, 0, 0, 2])), [0, 0]);
    assert_eq!([1, 2].map(|format| passing(format, &[3, 2, 0, 2, 1, 0, 2])), [1, 1]);
}

/// Unused atoms are 0 in words, and no atoms.
#[test]
fn zeros_are_atoms_like_others() {
    let store = list_of([&[7], &[7, 0], &[7, 0, 0], &[8, 0, 0, 0]]);
    let matched = |format, pattern: &[u32], head: &[u32]| ask(&[format, 0], &draw_list(pattern, 0, head), &store).unwrap().set;
    assert_eq!(matched(1, &[1, 2, 0], &[1, 1, 0]), Finite(rows([&[7]])));
    assert_eq!(matched(2, &[1, 2, 0], &[1, 1, 0]), Finite(rows([&[7], &[8]])));
    assert_eq!(matched(1, &[2, 2, 0, 0, 0], &[1, 1, 0]), Finite(rows([&[7]])));
    assert_eq!(matched(2, &[2, 2, 0, 0, 0], &[1, 1, 0]), Finite(rows([&[7], &[8]])));
    assert_eq!(matched(2, &[4, 2, 0, 0, 0, 0, 0, 0, 0], &[1, 1, 0]), Finite(rows([&[8]])));
}

#[test]
fn an_absent_guard_s_row_is_whole_in_both_formats() {
    let absent = |row: &[u32], from: &[u32]| [&[7, 1, 4], row, from, &[1, 0, 5]].concat();
    let (seven, seven_eight): (&[u32], &[u32]) = (&[1, 0, 7], &[2, 0, 7, 0, 8]);
    let [of_seven, of_both] = [[&[1, 1], seven].concat(), [&[1, 1], seven_eight].concat()];
    let all_but = [&[2, 1], seven_eight].concat();
    for format in [1, 2] {
        let passes = |query: &[u32]| ask(&[format, 0], query, &empty_store()).unwrap().set == Finite(rows([&[5]]));
        assert!(passes(&absent(seven, &of_both)));
        assert!(passes(&absent(seven_eight, &of_seven)));
        assert!(!passes(&absent(seven, &of_seven)));
        assert!(!passes(&absent(seven_eight, &of_both)));
        assert!(passes(&absent(seven_eight, &all_but)));
        assert!(!passes(&absent(seven, &all_but)));
        // nor is a difference's
        assert_eq!(ask(&[format, 0], &[&[6], &of_both[..], &of_seven].concat(), &empty_store()).unwrap().set, Finite(rows([&[7, 8]])));
    }
}

/// P, with an epoch behind what is released and not withdrawn.
#[test]
fn the_portal_with_epochs() {
    let formats = [p(), of_format(2, p())];
    let mut store = empty_store();
    let nothing = |draws| answer(Lower, draws, Finite(rows([])));
    file(&mut store, certificate(K1, 1, 0, &[7, 100]));
    assert_eq!(formats.each_ref().map(|p| ask(p, Q, &store)), [nothing(1), nothing(1)]);
    // the row 7 may still be withdrawn
    file(&mut store, certificate(K1, 2, 1, &[7, 100]));
    assert_eq!(formats.each_ref().map(|p| ask(p, Q, &store)), [nothing(1), nothing(1)]);
    file(&mut store, certificate(K1, 2, 1, &[7]));
    let seven = |draws| answer(Lower, draws, Finite(rows([&[7]])));
    assert_eq!(formats.each_ref().map(|p| ask(p, Q, &store)), [nothing(1), seven(1)]);
    file(&mut store, certificate(K1, 1, 0, &[7, 101]));
    assert_eq!(formats.each_ref().map(|p| ask(p, Q, &store)), [nothing(2), seven(2)]);
    file(&mut store, certificate(K1, 1, 0, &[7]));
    assert_eq!(formats.each_ref().map(|p| ask(p, Q, &store)), [seven(3), seven(3)]);
    // what is not drawn is as it was
    let withdrawn = [4, 0, K1, 2, 1];
    let all_but = Complement(rows([&[7], &[7, 100]]));
    assert_eq!(formats.each_ref().map(|p| ask(p, &withdrawn, &store)), [answer(Upper, 3, all_but.clone()), answer(Upper, 3, all_but)]);
}

#[test]
fn code_8_looks_up_the_issuer_s_whole_row_in_both_formats() {
    let store = store_of([certificate(K2, 1, 0, &[7])]);
    let vetted = |format, compromised: &[u32]| {
        let policy = of_format(format, policy(&[(0, 1, compromised)]));
        ask(&policy, &[8, 0, K2, 1, 0, 0], &store).unwrap().set.listed().len()
    };
    // k2 and 7 in one row; all rows but that one; k2 by itself
    assert_eq!([1, 2].map(|format| vetted(format, &[1, 1, 2, 0, K2, 0, 7])), [1, 1]);
    assert_eq!([1, 2].map(|format| vetted(format, &[2, 1, 2, 0, K2, 0, 7])), [0, 0]);
    assert_eq!([1, 2].map(|format| vetted(format, &[1, 1, 1, 0, K2])), [0, 0]);
    // each x of the row of k2 and 7, which is drawn from
    assert_eq!([1, 2].map(|format| vetted(format, &[7, 1, 1, 1, 1, 2, 0, K2, 0, 7, 1, 2, 0, 1, 1, 0])), [1, 0]);
}

#[test]
fn definitions_and_query_follow_their_policy_s_format() {
    let store = list_of([&[7, 8], &[6, 5, 4]]);
    let first = draw_list(&[1, 2, 0], 0, &[1, 1, 0]);
    let two = draw_list(&[2, 2, 0, 2, 1], 0, &[2, 1, 1, 1, 0]);
    // no definitions, one that the query does not use, and the query as a definition
    for format in [1, 2] {
        let matched = if format == 1 { rows([]) } else { rows([&[6], &[7]]) };
        for definitions in [&[][..], &[(10, 0, NOTHING)], &[(10, 0, NOTHING), (11, 1, &[2, 0])]] {
            assert_eq!(ask(&of_format(format, policy(definitions)), &first, &store), answer(Lower, 2, Finite(matched.clone())));
        }
        assert_eq!(ask(&of_format(format, policy(&[(10, 0, &first)])), &[3, 0], &store), answer(Lower, 2, Finite(matched)));
        // a definition that swaps two atoms, and a query that draws the first of what it has
        let swapped = of_format(format, policy(&[(10, 0, &two)]));
        let (of_definition, drawn) = if format == 1 { (rows([&[8, 7]]), rows([])) } else { (rows([&[8, 7], &[5, 6]]), rows([&[8], &[5]])) };
        let count = of_definition.len() as u32;
        assert_eq!(ask(&swapped, &[3, 0], &store), answer(Lower, 2, Finite(of_definition)));
        assert_eq!(ask(&swapped, &[7, 1, 1, 3, 0, 1, 2, 0, 1, 1, 0], &store), answer(Lower, 2 + count, Finite(drawn)));
        // inside a drawn comprehension, and inside an absent guard's
        let inner = [7, 1, 1, 1, 1, 2, 0, 7, 0, 8, 1, 2, 0, 1, 1, 0];
        let drawn = [&[7, 1, 1], &inner[..], &[1, 2, 0, 1, 1, 0]].concat();
        let absent = [&[7, 1, 4, 1, 0, 7], &inner[..], &[1, 0, 5]].concat();
        let (of_drawn, of_absent) = if format == 1 { (rows([]), rows([&[5]])) } else { (rows([&[7]]), rows([])) };
        assert_eq!(ask(&[format, 0], &drawn, &store), answer(Exact, format, Finite(of_drawn)));
        assert_eq!(ask(&[format, 0], &absent, &store), answer(Exact, 1, Finite(of_absent)));
    }
}

#[test]
fn polarity_openness_and_limits_are_those_of_format_1() {
    let alone = |query: &[u32]| ask(&[2, 0], query, &empty_store());
    assert_eq!(alone(&[6, 4, 0, K1, 1, 0, 4, 0, K1, 1, 0]), refusal(6, QUERY_PART));
    assert_eq!(alone(&[7, 1, 1, 4, 0, K1, 2, 1, 1, 2, 0, 1, 1, 0]), refusal(7, QUERY_PART));
    assert_eq!(alone(&nested_unions(15)), refusal(5, QUERY_PART));
    assert_eq!(alone(&variables(17)), refusal(4, QUERY_PART));
    assert_eq!(alone(&[9]), refusal(3, QUERY_PART));
    assert_eq!(alone(&draws_over([100, 100, 98])), answer(Exact, 990_100, Finite(rows([&[7]]))));
    assert_eq!(alone(&draws_over([100, 100, 100])), refusal(14, QUERY_PART));
    assert_eq!(ask(&[2, 0], &[1, 0], &[]), refusal(8, NO_PART));
    // 128 rows of two atoms have 64 first atoms: 128 draws; one row more is 13 before it is drawn
    let store = |count| store_of((0..count).map(|n| certificate(K1, 1, 0, &[n / 2, n])));
    let first = draw_list(&[1, 2, 0], 0, &[1, 1, 0]);
    let drawn = ask(&[2, 0], &first, &store(128)).unwrap();
    assert_eq!((drawn.draws, drawn.set.listed().len()), (128, 64));
    assert_eq!(ask(&[2, 0], &first, &store(129)), refusal(13, QUERY_PART));
}

#[test]
fn formats_1_and_2_pass_and_no_others() {
    let definition = policy(&[(10, 0, &[1, 0])]);
    for format in [1, 2] {
        let policy = of_format(format, definition.clone());
        assert_eq!(ask(&policy, &[3, 0], &empty_store()), answer(Lower, 0, Finite(rows([]))));
        assert_eq!(ask(&[format, 0], &[1, 0], &empty_store()), answer(Exact, 0, Finite(rows([]))));
        assert_eq!(rewrite(&policy), Ok(policy.clone()));
        let part = |number| Evaluator::default().part(&policy, &[9, 9], number);
        assert_eq!([0, 16].map(part), [Part::Policy(6..8), Part::Query(0..2)]);
        // the rest of the header and the table are tested as before
        for (words, number) in
            [(&[format][..], 1), (&[format, 17], 1), (&[format, 1, 10, 0, 6], 1), (&[format, 0, 0], 2), (&[format, 1, 10, 0, 7, 1, 1], 2)]
        {
            assert_eq!(ask(words, &[1, 0], &empty_store()), refusal(number, NO_PART), "{words:?}");
        }
    }
    for format in [0, 3, 4, 257, 258, 65_538, K1, key(2), u32::MAX] {
        // whatever follows: a sound policy, n over 16, a table that is cut short or breaks a rule, and a query that is malformed
        for rest in [&[0][..], &definition[1..], &[17], &[1, 10, 0], &[0, 0], &[1, 10, 0, 7, 1, 1]] {
            let policy = [&[format], rest].concat();
            assert_eq!(ask(&policy, &[9], &[]), refusal(1, NO_PART), "{policy:?}");
            assert_eq!(judge(&policy, &[1, 0]), refusal(1, NO_PART));
            assert_eq!(rewrite(&policy), refusal(1, NO_PART));
            for number in [0, 16] {
                assert_eq!(Evaluator::default().part(&policy, &[1, 0], number), Part::Policy(0..0));
            }
        }
    }
}

#[test]
fn the_rewritten_policy_keeps_its_format() {
    let external = of_format(2, delegated_to_alice());
    let rewritten = rewrite(&external).unwrap();
    assert_eq!(rewritten, [2, 2, 0, 1, 10, 5, 10, 0, 15, 6, 4, 0, K1, 0, 1, 8, 0, K2, 1, 0, 0]);
    assert_eq!(rewrite(&delegated_to_alice()).unwrap(), of_format(1, rewritten));
    for same in [vec![2, 0], of_format(2, policy(&[(10, 0, LIST)])), of_format(2, policy(&[(0, 0, LIST)]))] {
        assert_eq!(rewrite(&same), Ok(same));
    }
    // 15 and 11 as before
    assert_eq!(rewrite(&of_format(2, policy(&[(10, 0, &[6, 1, 0, 1, 0])]))), refusal(15, NO_PART));
    assert_eq!(Evaluator::default().rewrite(&external, NOBODY, &mut [0; 20]), refusal(11, NO_PART));
    // keys that are the first of a compromised row are compromised in format 2, where the policy draws them
    let drawn = [7, 1, 1, 1, 1, 2, 0, K2, 0, 7, 1, 2, 0, 1, 1, 0];
    let external = policy(&[(0, 1, &drawn), (10, 0, &[4, 0, K2, 1, 0])]);
    let store = store_of([certificate(K2, 1, 0, &[7])]);
    let listed = [1, 2].map(|format| {
        let rewritten = rewrite(&of_format(format, external.clone())).unwrap();
        ask(&rewritten, &[3, 1], &store).unwrap().set
    });
    assert_eq!(listed, [Finite(rows([&[7]])), Finite(rows([]))]);
}

// ---- document 02, N7 ----

/// The own name of this name and polarity where k2 is our key.
fn own(name: u32, polarity: u32) -> [u32; 5] {
    [4, 0, K2, name, polarity]
}

/// k2 is our key.
fn ask_ours(policy: &[u32], query: &[u32], store: &[u32]) -> Result<Answer, Refusal> {
    ask_as(K2, policy, query, store)
}

/// Each x of this expression.
fn drawn_from(expression: &[u32]) -> Vec<u32> {
    [&[7, 1, 1], expression, &[1, 2, 0, 1, 1, 0]].concat()
}

const SEVEN: &[u32] = &[1, 1, 1, 0, 7];
const ALL_BUT_7: &[u32] = &[2, 1, 1, 0, 7];

#[test]
fn our_released_list_is_read_as_its_definition() {
    let ours = own(10, 0);
    let mut store = empty_store();
    let lower = |draws, rows| answer(Lower, draws, Finite(rows));
    // cases a to d, under the name of the definition
    assert_eq!(ask_ours(&p(), &ours, &store), lower(0, rows([])));
    file(&mut store, certificate(K1, 1, 0, &[7]));
    assert_eq!(ask_ours(&p(), &ours, &store), lower(1, rows([])));
    file(&mut store, certificate(K1, 2, 1, &[7]));
    assert_eq!(ask_ours(&p(), &ours, &store), lower(1, rows([&[7]])));
    file(&mut store, certificate(K1, 1, 0, &[8]));
    assert_eq!(ask_ours(&p(), &ours, &store), lower(2, rows([&[7]])));
    // what is filed under our key is not asked for
    file(&mut store, certificate(K2, 10, 0, &[9]));
    assert_eq!(ask_ours(&p(), &ours, &store), lower(2, rows([&[7]])));
    // the definition's two draws are made once, and one more for the row drawn from it
    assert_eq!(ask_ours(&p(), &[&[5], &ours[..], &ours].concat(), &store), lower(2, rows([&[7]])));
    assert_eq!(ask_ours(&p(), &drawn_from(&ours), &store), lower(3, rows([&[7]])));
}

#[test]
fn a_name_is_our_own_by_the_word_given_as_our_key() {
    let defined = policy(&[(10, 0, SEVEN)]);
    let store = store_of([certificate(K1, 10, 0, &[8]), certificate(K2, 10, 0, &[9])]);
    let listed = |our_key, key| ask_as(our_key, &defined, &[4, 0, key, 10, 0], &store);
    let lower = |rows| answer(Lower, 0, Finite(rows));
    assert_eq!([listed(K1, K1), listed(K1, K2)], [lower(rows([&[7]])), lower(rows([&[9]]))]);
    assert_eq!([listed(K2, K1), listed(K2, K2)], [lower(rows([&[8]])), lower(rows([&[7]]))]);
    assert_eq!([listed(K3, K1), listed(K3, K2)], [lower(rows([&[8]])), lower(rows([&[9]]))]);
}

#[test]
fn the_same_name_with_the_other_polarity_gets_4() {
    for polarity in [0, 1] {
        let defined = policy(&[(10, polarity, SEVEN)]);
        assert_eq!(ask_ours(&defined, &own(10, 1 - polarity), &empty_store()), refusal(4, QUERY_PART));
        assert_eq!(ask_ours(&defined, &own(11, polarity), &empty_store()), refusal(4, QUERY_PART));
        assert!(ask_ours(&defined, &own(10, polarity), &empty_store()).is_ok());
    }
    let both = policy(&[(10, 1, ALL_BUT_7), (10, 0, &[1, 1, 1, 0, 8])]);
    assert_eq!(ask_ours(&both, &own(10, 0), &empty_store()), answer(Lower, 0, Finite(rows([&[8]]))));
    assert_eq!(ask_ours(&both, &own(10, 1), &empty_store()), answer(Upper, 0, Complement(rows([&[7]]))));
}

/// Those before it are available to a definition, by name as by number.
#[test]
fn a_later_definition_and_the_definition_itself_get_4() {
    let earlier = policy(&[(11, 0, SEVEN), (10, 0, &own(11, 0))]);
    assert_eq!(ask_ours(&earlier, &[3, 1], &empty_store()), answer(Lower, 0, Finite(rows([&[7]]))));
    let later = policy(&[(10, 0, &own(11, 0)), (11, 0, SEVEN)]);
    assert_eq!(judge_as(K2, &later, &[1, 0]), refusal(4, 0));
    let itself = policy(&[(11, 0, SEVEN), (10, 0, &own(10, 0))]);
    assert_eq!(judge_as(K2, &itself, &[1, 0]), refusal(4, 1));
    // nor is what has the other polarity itself
    let other = policy(&[(10, 1, SEVEN), (10, 0, &own(10, 0))]);
    assert_eq!(judge_as(K2, &other, &[1, 0]), refusal(4, 1));
    // to another key's name nothing of this applies
    for policy in [later, itself, other] {
        assert_eq!(judge_as(K1, &policy, &[1, 0]), Ok(Exact));
    }
}

#[test]
fn in_a_query_every_definition_is_available() {
    let parts: Vec<[u32; 5]> = (0..16).map(|n| [1, 1, 1, 0, n]).collect();
    let definitions: Vec<(u32, u32, &[u32])> = (0..).zip(&parts).map(|(n, part)| (20 + n, n % 2, &part[..])).collect();
    let sixteen = policy(&definitions);
    for n in 0..16 {
        let verdict = if n % 2 == 0 { Lower } else { Upper };
        assert_eq!(ask_ours(&sixteen, &own(20 + n, n % 2), &empty_store()), answer(verdict, 0, Finite(rows([&[n]]))));
    }
    assert_eq!(ask_ours(&sixteen, &own(36, 0), &empty_store()), refusal(4, QUERY_PART));
    assert_eq!(ask_ours(NOTHING, &own(10, 0), &empty_store()), refusal(4, QUERY_PART));
}

#[test]
fn an_own_name_has_its_polarity_alone() {
    // both have expressions of both polarities
    let words = policy(&[(10, 0, SEVEN), (11, 1, ALL_BUT_7)]);
    let verdict = |parts: &[&[u32]]| judge_as(K2, &words, &parts.concat());
    let (plus, minus) = (own(10, 0), own(11, 1));
    assert_eq!(verdict(&[&plus]), Ok(Lower));
    assert_eq!(verdict(&[&minus]), Ok(Upper));
    assert_eq!(verdict(&[&[5], &plus, &minus]), refusal(6, QUERY_PART));
    assert_eq!(verdict(&[&[6], &plus, &minus]), Ok(Lower));
    assert_eq!(verdict(&[&[6], &minus, &plus]), Ok(Upper));
    assert_eq!(verdict(&[&[6], &plus, &plus]), refusal(6, QUERY_PART));
    assert_eq!(verdict(&[&[7, 1, 4, 1, 0, 7], &plus, &[1, 0, 5]]), Ok(Upper));
    assert_eq!(verdict(&[&[7, 1, 4, 1, 0, 7], &minus, &[1, 0, 5]]), Ok(Lower));
    // 7 is missing from all but 7, so that it is absent; 8 is not
    let absent = |row| [&[7, 1, 4, 1, 0, row], &minus[..], &[1, 0, 5]].concat();
    assert_eq!(ask_ours(&words, &absent(7), &empty_store()), answer(Lower, 0, Finite(rows([&[5]]))));
    assert_eq!(ask_ours(&words, &absent(8), &empty_store()), answer(Lower, 0, Finite(rows([]))));
    assert_eq!(judge_as(K2, &policy(&[(10, 0, SEVEN), (11, 1, &plus)]), &[1, 0]), refusal(6, 1));
}

#[test]
fn a_minus_own_name_over_a_closed_definition_may_be_drawn_from() {
    let closed = policy(&[(10, 1, &[1, 2, 1, 0, 7, 1, 0, 8])]);
    assert_eq!(ask_ours(&closed, &drawn_from(&own(10, 1)), &empty_store()), answer(Upper, 2, Finite(rows([&[7], &[8]]))));
    // of another key it is open
    assert_eq!(ask_as(K1, &closed, &drawn_from(&own(10, 1)), &empty_store()), refusal(7, QUERY_PART));
}

#[test]
fn an_own_name_over_an_open_definition_gets_7() {
    let (plus_open, minus_open) = (policy(&[(10, 0, ALL_BUT_7)]), policy(&[(10, 1, &[4, 0, K1, 2, 1])]));
    assert_eq!(ask_ours(&plus_open, &own(10, 0), &empty_store()), answer(Lower, 0, Complement(rows([&[7]]))));
    assert_eq!(ask_ours(&plus_open, &drawn_from(&own(10, 0)), &empty_store()), refusal(7, QUERY_PART));
    assert_eq!(ask_ours(&minus_open, &own(10, 1), &empty_store()), answer(Upper, 0, Complement(rows([]))));
    assert_eq!(ask_ours(&minus_open, &drawn_from(&own(10, 1)), &empty_store()), refusal(7, QUERY_PART));
    // another key's + name is never open
    assert_eq!(ask_as(K1, &plus_open, &drawn_from(&own(10, 0)), &empty_store()), answer(Lower, 0, Finite(rows([]))));
}

#[test]
fn the_openness_of_an_own_name_is_passed_on() {
    let (minus, again) = (own(10, 1), own(11, 1));
    let words = policy(&[(10, 1, ALL_BUT_7), (11, 1, &minus), (12, 1, SEVEN)]);
    let verdict = |expression: &[u32]| judge_as(K2, &words, &drawn_from(expression));
    assert_eq!(verdict(&[3, 1]), refusal(7, QUERY_PART));
    assert_eq!(verdict(&again), refusal(7, QUERY_PART));
    assert_eq!(verdict(&own(12, 1)), Ok(Upper));
    assert_eq!(verdict(&[&[5, 1, 0], &again[..]].concat()), refusal(7, QUERY_PART));
    assert_eq!(verdict(&[&[6], &again[..], &[1, 0]].concat()), refusal(7, QUERY_PART));
    // the right of a difference does not count
    assert_eq!(verdict(&[&[6, 1, 0], &again[..]].concat()), Ok(Lower));
    assert_eq!(verdict(&drawn_from(&own(12, 1))), Ok(Upper));
    // in a definition too
    let drawn = drawn_from(&minus);
    assert_eq!(judge_as(K2, &policy(&[(10, 1, ALL_BUT_7), (11, 1, &drawn)]), &[1, 0]), refusal(7, 1));
    assert_eq!(judge_as(K2, &policy(&[(10, 1, SEVEN), (11, 1, &drawn)]), &[1, 0]), Ok(Exact));
}

#[test]
fn own_names_of_code_4_word_by_word() {
    let words = policy(&[(10, 0, SEVEN)]);
    let refused = |parts: &[&[u32]], number| assert_eq!(judge_as(K2, &words, &parts.concat()), refusal(number, QUERY_PART), "{parts:?}");
    let missing = own(12, 0);
    refused(&[&missing], 4);
    // at the polarity word 3 comes first
    refused(&[&own(12, 2)], 3);
    refused(&[&own(10, 2)], 3);
    // and it is not before that word
    refused(&[&[4, 0, K2, 12]], 3);
    refused(&[&[4, 0, K2, 65_536, 0]], 3);
    // what comes later is met later, left-over words last
    refused(&[&missing, &[0]], 4);
    refused(&[&[5], &missing, &[9]], 4);
    refused(&[&[5, 9], &missing], 3);
    refused(&[&[5], &missing, &[5; 16]], 4);
    refused(&[&[5, 1, 0], &missing], 4);
    refused(&[&[5, 1, 129], &missing], 3);
    // at its code word 5, at depth 16; a ninth draw where its guard begins
    refused(&[&[5; 14], &missing], 4);
    refused(&[&[5; 15], &missing], 5);
    let eight_draws = [1, 1, 0, 1, 0, 7].repeat(8);
    refused(&[&[5, 7, 8], &eight_draws, &[1, 0, 7, 7, 1, 1], &missing], 5);
    refused(&[&[5, 7, 7], &eight_draws[6..], &[1, 0, 7, 7, 1, 1], &missing], 4);
    // 6 and 7 come after it
    refused(&[&[6], &own(10, 0), &missing], 4);
    refused(&[&[5, 7, 1, 1, 2, 0, 1, 2, 0, 1, 1, 0], &missing], 4);
}

#[test]
fn own_names_of_code_8_word_by_word() {
    let words = policy(&[(10, 0, SEVEN), (11, 1, SEVEN)]);
    let judge = |query: &[u32]| judge_as(K2, &words, query);
    assert_eq!(judge(&[8, 0, K2, 10, 0, 1]), Ok(Lower));
    let cases: [(&[u32], u32); 13] = [
        // no definition of the name, whatever the word behind
        (&[8, 0, K2, 12, 0, 1], 4),
        (&[8, 0, K2, 12, 0, 9], 4),
        (&[8, 0, K2, 12, 0], 4),
        // it is of the other polarity
        (&[8, 0, K2, 11, 0, 1], 4),
        // the name has one: then the word behind
        (&[8, 0, K2, 10, 0, 2], 4),
        (&[8, 0, K2, 10, 0], 3),
        (&[8, 0, K2, 10, 0, 1, 0], 3),
        // − and no polarity at all, before 4 and whatever is defined
        (&[8, 0, K2, 12, 1, 1], 3),
        (&[8, 0, K2, 11, 1, 1], 3),
        (&[8, 0, K2, 12, 2, 9], 3),
        (&[8, 0, K2, 10, 2, 1], 3),
        // before the polarity word
        (&[8, 0, K2, 12], 3),
        (&[8, 0, K2, 65_536, 0, 1], 3),
    ];
    for (query, number) in cases {
        assert_eq!(judge(query), refusal(number, QUERY_PART), "{query:?}");
    }
    // in a definition those before it
    for (third, refused) in [([8, 0, K2, 10, 0, 1], None), ([8, 0, K2, 12, 0, 1], Some(4)), ([8, 0, K2, 10, 0, 2], Some(4))] {
        let words = policy(&[(10, 0, SEVEN), (11, 1, SEVEN), (12, 0, &third)]);
        assert_eq!(judge_as(K2, &words, &[1, 0]), refused.map_or(Ok(Exact), |number| refusal(number, 2)));
    }
}

/// k1 says which keys are compromised. Our list 10 is what k1 released.
#[test]
fn code_8_guards_an_own_name() {
    let words = policy(&[(0, 1, &[4, 0, K1, 0, 1]), (10, 0, &[4, 0, K1, 1, 0])]);
    let vetted = [8, 0, K2, 10, 0, 0];
    let mut store = store_of([certificate(K1, 1, 0, &[7]), certificate(K2, 10, 0, &[9])]);
    // our key may be compromised
    assert_eq!(ask_ours(&words, &vetted, &store), answer(Lower, 0, Finite(rows([]))));
    file(&mut store, certificate(K1, 0, 1, &[K1]));
    assert_eq!(ask_ours(&words, &vetted, &store), answer(Lower, 0, Finite(rows([]))));
    file(&mut store, certificate(K1, 0, 1, &[K2]));
    assert_eq!(ask_ours(&words, &vetted, &store), answer(Lower, 0, Finite(rows([&[7]]))));
    // of another key certificates are read
    assert_eq!(ask_as(K3, &words, &vetted, &store), answer(Lower, 0, Finite(rows([&[9]]))));
    // + only if the definition is − that the key is looked up in
    assert_eq!(ask_ours(&words, &[8, 0, K2, 10, 0, 1], &store), refusal(6, QUERY_PART));
}

#[test]
fn code_8_is_open_as_the_own_name_is_that_it_guards() {
    let compromised = |keys: &'static [u32]| policy(&[(0, 1, keys), (10, 0, ALL_BUT_7), (11, 0, SEVEN)]);
    let (trusted, untrusted, unknown) = (compromised(&[1, 0]), compromised(&[1, 1, 1, 0, K2]), compromised(&[2, 0]));
    let (open, closed) = ([8, 0, K2, 10, 0, 0], [8, 0, K2, 11, 0, 0]);
    for words in [&trusted, &untrusted, &unknown] {
        // whatever our key is looked up in
        assert_eq!(judge_as(K2, words, &drawn_from(&open)), refusal(7, QUERY_PART));
        assert_eq!(judge_as(K2, words, &drawn_from(&closed)), Ok(Lower));
        assert_eq!(judge_as(K1, words, &drawn_from(&open)), Ok(Lower));
    }
    let nothing = || answer(Lower, 0, Finite(rows([])));
    assert_eq!(ask_ours(&trusted, &open, &empty_store()), answer(Lower, 0, Complement(rows([&[7]]))));
    assert_eq!([&untrusted, &unknown].map(|words| ask_ours(words, &open, &empty_store())), [nothing(), nothing()]);
    assert_eq!(ask_ours(&trusted, &drawn_from(&closed), &empty_store()), answer(Lower, 1, Finite(rows([&[7]]))));
    assert_eq!(ask_ours(&untrusted, &drawn_from(&closed), &empty_store()), nothing());
}

#[test]
fn a_variable_that_holds_our_key_reads_certificates() {
    let words = policy(&[(0, 1, &[1, 0]), (1, 0, SEVEN), (1, 1, ALL_BUT_7)]);
    let store = store_of([certificate(K2, 1, 0, &[8]), certificate(K2, 1, 0, &[9]), certificate(K2, 1, 1, &[5])]);
    // k2 is drawn, then what its name 1 has: one draw and two
    let through =
        |code: &[u32], name| [&[7, 2, 1, 1, 1, 1, 0, K2, 1, 2, 0, 1], &[code[0], 1, 0, name, 0][..], &code[1..], &[1, 2, 1, 1, 1, 1]].concat();
    let certified = answer(Lower, 3, Finite(rows([&[8], &[9]])));
    assert_eq!(ask_ours(&words, &through(&[4], 1), &store), certified);
    assert_eq!(ask_ours(&words, &through(&[8, 0], 1), &store), certified);
    assert_eq!(ask_ours(&words, &own(1, 0), &store), answer(Lower, 0, Finite(rows([&[7]]))));
    // a name that has no definition is no refusal there, and an open one is drawn from
    assert_eq!(ask_ours(&words, &through(&[4], 2), &store), answer(Lower, 1, Finite(rows([]))));
    let open = policy(&[(1, 0, ALL_BUT_7)]);
    assert_eq!(ask_ours(&open, &through(&[4], 1), &store), certified);
    // absent from k2's name 1 −: all rows but 5, where our definition has all but 7
    let absent = |row| [7, 2, 1, 1, 1, 1, 0, K2, 1, 2, 0, 4, 1, 0, row, 4, 1, 0, 1, 1, 1, 0, 6];
    assert_eq!(ask_ours(&words, &absent(5), &store), answer(Lower, 1, Finite(rows([&[6]]))));
    assert_eq!(ask_ours(&words, &absent(7), &store), answer(Lower, 1, Finite(rows([]))));
}

#[test]
fn links_reach_certificates_under_our_key_and_no_own_name() {
    for polarity in [0, 1] {
        let defined = policy(&[(1, polarity, if polarity == 0 { SEVEN } else { ALL_BUT_7 })]);
        let store = store_of([(K1, 8), (K2, 9), (K3, 10)].map(|(key, atom)| certificate(key, 1, polarity, &[atom])));
        let to = |key, other| link(key, polarity, other);
        let listed = |links: &[Link], key| {
            let set = ask_all(K2, &defined, &[4, 0, key, 1, polarity], &store, &links_of(links.iter().copied())).unwrap().set;
            set.listed().iter().map(|row| row.atoms[0]).collect::<Vec<u32>>()
        };
        // from our list: our own name stays
        assert_eq!(listed(&[to(K2, K1), to(K2, K3)], K2), [7]);
        assert_eq!(listed(&[to(K2, K2)], K2), [7]);
        // to our list: what is certified under our key, and not our definition
        assert_eq!(listed(&[to(K3, K2)], K3), [9, 10]);
        // and by our list on to another
        assert_eq!(listed(&[to(K3, K2), to(K2, K1)], K3), [8, 9, 10]);
        assert_eq!(listed(&[to(K3, K2), to(K2, K3)], K2), [7]);
    }
    // a variable that holds our key reads through them
    let through = [7, 2, 1, 1, 1, 1, 0, K2, 1, 2, 0, 1, 4, 1, 0, 1, 0, 1, 2, 1, 1, 1, 1];
    let store = store_of([certificate(K1, 1, 0, &[8]), certificate(K2, 1, 0, &[9])]);
    let answered = ask_all(K2, &policy(&[(1, 0, SEVEN)]), &through, &store, &links_of([link(K2, 0, K1)]));
    assert_eq!(answered, answer(Lower, 3, Finite(rows([&[8], &[9]]))));
}

/// k3 releases under our name 1; what we show is our name 10, and k1 says which keys are compromised.
#[test]
fn the_rewriter_guards_own_names() {
    let external = policy(&[(0, 1, &[4, 0, K1, 0, 1]), (1, 0, &[4, 0, K3, 1, 0]), (10, 0, &own(1, 0))]);
    let rewritten = rewrite_as(K2, &external).unwrap();
    let table = [1, 3, 0, 1, 14, 5, 1, 0, 19, 6, 10, 0, 25, 6];
    assert_eq!(rewritten, [&table, &[4, 0, K1, 0, 1, 8, 0, K3, 1, 0, 0, 8, 0, K2, 1, 0, 0][..]].concat());
    // as lists of any key
    assert_eq!(rewrite(&external).as_ref(), Ok(&rewritten));
    let mut store = store_of([certificate(K3, 1, 0, &[7]), certificate(K2, 1, 0, &[9]), certificate(K1, 0, 1, &[K3])]);
    let lower = |rows| answer(Lower, 0, Finite(rows));
    // k3 is not compromised; our key may be, and then our own name has no rows
    assert_eq!(ask_ours(&rewritten, &[3, 1], &store), lower(rows([&[7]])));
    assert_eq!(ask_ours(&rewritten, &[3, 2], &store), lower(rows([])));
    file(&mut store, certificate(K1, 0, 1, &[K2]));
    assert_eq!(ask_ours(&rewritten, &[3, 2], &store), lower(rows([&[7]])));
    // the query is not rewritten
    assert_eq!(ask_ours(&rewritten, &own(10, 0), &store), lower(rows([&[7]])));
    // certificates under k2 if it is not ours
    assert_eq!(ask_as(K1, &policy(&[(0, 1, &[1, 0]), (10, 0, &[8, 0, K2, 1, 0, 0])]), &[3, 1], &store), lower(rows([&[9]])));
}

#[test]
fn a_compromised_key_of_ours_empties_rewritten_own_names_alone() {
    let united = [&[5], &own(1, 0)[..], &[4, 0, K3, 2, 0]].concat();
    let store = store_of([certificate(K3, 2, 0, &[8])]);
    // our key is compromised, k3 is, neither is
    for (compromised, shown) in [(vec![1, 1, 1, 0, K2], rows([&[8]])), (vec![1, 1, 1, 0, K3], rows([&[7]])), (vec![1, 0], rows([&[7], &[8]]))] {
        let rewritten = rewrite_as(K2, &policy(&[(0, 1, &compromised), (1, 0, SEVEN), (10, 0, &united)])).unwrap();
        assert_eq!(ask_ours(&rewritten, &[3, 1], &store), answer(Lower, 0, Finite(rows([&[7]]))));
        assert_eq!(ask_ours(&rewritten, &[3, 2], &store), answer(Lower, 0, Finite(shown)));
    }
}

#[test]
fn rewriting_refuses_own_names_as_judging_does() {
    let compromised: (u32, u32, &[u32]) = (0, 1, &[4, 0, K1, 0, 1]);
    // a later one, itself, none, and one of the other polarity
    for name in [11, 10, 12, 0] {
        let external = policy(&[compromised, (10, 0, &own(name, 0)), (11, 0, SEVEN)]);
        assert_eq!(rewrite_as(K2, &external), refusal(4, 1), "{name}");
        assert!(rewrite(&external).is_ok());
    }
    assert_eq!(rewrite_as(K2, &policy(&[(0, 1, &own(0, 1)), (10, 0, SEVEN)])), refusal(4, 0));
    // − in a later definition has no +
    assert_eq!(rewrite_as(K2, &policy(&[compromised, (10, 0, &own(0, 1))])), refusal(6, 1));
    // before 15 and 11
    let broken = policy(&[(10, 0, &[6, 1, 0, 1, 0]), (11, 0, &own(12, 0))]);
    assert_eq!(Evaluator::default().rewrite(&broken, K2, &mut []), refusal(4, 1));
    // what may not be drawn from in the output may not be in the input
    let drawn = drawn_from(&own(10, 0));
    assert_eq!(rewrite_as(K2, &policy(&[compromised, (10, 0, ALL_BUT_7), (11, 0, &drawn)])), refusal(7, 2));
    let closed = rewrite_as(K2, &policy(&[compromised, (10, 0, SEVEN), (11, 0, &drawn)])).unwrap();
    assert_eq!(judge_as(K2, &closed, &[3, 2]), Ok(Lower));
    // without compromised keys own names stay as they are
    let plain = policy(&[(10, 0, SEVEN), (11, 0, &own(10, 0))]);
    assert_eq!(rewrite_as(K2, &plain), Ok(plain));
}

#[test]
fn a_number_as_our_key_gets_20_before_all_others() {
    let sound = policy(&[(10, 0, SEVEN)]);
    let no_areas = Areas { answer: 0, definitions: 0, scratch: 0 };
    for our_key in [0, 1, 5, FIRST_KEY - 1] {
        // whatever else is wrong: 1, 2, 3, 8, 18, 11 and 15; and where nothing is, and no name is read
        for words in [&[][..], &[3, 0], &[1, 0, 0], &policy(&[(10, 0, &[9])]), &policy(&[(10, 0, &[6, 1, 0, 1, 0])]), NOTHING, &sound] {
            for query in [&[][..], &[9], &[3, 0], &[4, 0, our_key, 10, 0], &[1, 0]] {
                let question = Question { policy: words, query, our_key, minute: 0 };
                assert_eq!(Evaluator::default().query(question, &empty_store(), &no_links(), Areas::LEAST), refusal(20, NO_PART));
                assert_eq!(Evaluator::default().query(question, &[], &[], no_areas), refusal(20, NO_PART));
                assert_eq!(judge_as(our_key, words, query), refusal(20, NO_PART));
            }
            assert_eq!(rewrite_as(our_key, words), refusal(20, NO_PART));
            assert_eq!(Evaluator::default().rewrite(words, our_key, &mut []), refusal(20, NO_PART));
        }
    }
    // every key is one, also one that nobody uses
    for our_key in [FIRST_KEY, K1, NOBODY, u32::MAX] {
        assert_eq!(ask_as(our_key, &sound, &[3, 0], &empty_store()), answer(Lower, 0, Finite(rows([&[7]]))));
        assert_eq!(ask_as(our_key, &sound, &[4, 0, our_key, 10, 0], &empty_store()), answer(Lower, 0, Finite(rows([&[7]]))));
        assert_eq!(rewrite_as(our_key, &sound).as_ref(), Ok(&sound));
    }
}

#[test]
fn an_own_name_of_128_rows_is_read_anew_without_a_limit() {
    let words = policy(&[(10, 0, &numbers(128))]);
    let ours = own(10, 0);
    let listed = |query: &[u32]| ask_ours(&words, query, &empty_store()).map(|answer| (answer.draws, answer.set.listed().len()));
    assert_eq!(listed(&ours), Ok((0, 128)));
    assert_eq!(listed(&[&[5], &ours[..], &ours].concat()), Ok((0, 128)));
    assert_eq!(listed(&drawn_from(&ours)), Ok((128, 128)));
    // what is filed under our key counts nowhere
    let store = store_of((0..129).map(|n| certificate(K2, 10, 0, &[n])));
    assert_eq!(ask_ours(&words, &ours, &store).map(|answer| answer.set.listed().len()), Ok(128));
    assert_eq!(ask_as(K1, &words, &ours, &store), refusal(13, QUERY_PART));
    // the definition's own limits are met in its part
    let many = policy(&[(10, 0, &[4, 0, K2, 1, 0])]);
    let store = store_of((0..129).map(|n| certificate(K2, 1, 0, &[n])));
    assert_eq!(ask_as(K1, &many, &[4, 0, K1, 10, 0], &store), refusal(13, 0));
}

#[test]
fn own_names_are_drawn_from_by_their_policy_s_format() {
    let wide = policy(&[(10, 0, &[1, 2, 1, 0, 7, 2, 0, 8, 0, 9])]);
    let drawn = drawn_from(&own(10, 0));
    assert_eq!(ask_ours(&wide, &drawn, &empty_store()), answer(Lower, 2, Finite(rows([&[7]]))));
    assert_eq!(ask_ours(&of_format(2, wide), &drawn, &empty_store()), answer(Lower, 2, Finite(rows([&[7], &[8]]))));
}

#[test]
fn parts_are_handed_back() {
    let words = policy(&[(1, 0, &[1, 0]), (2, 0, &[9, 9, 9])]);
    let part = |number| Evaluator::default().part(&words, &[3, 0, 0], number);
    assert_eq!(part(0), Part::Policy(10..12));
    assert_eq!(part(1), Part::Policy(12..15));
    assert_eq!(part(16), Part::Query(0..3));
    assert_eq!(part(2), Part::Policy(0..0));
    assert_eq!(part(17), Part::Policy(0..0));
}

#[test]
fn sets_handed_in() {
    let set = Finite(rows([&[8], &[7, 1], &[7]]));
    let words = set.words();
    assert_eq!(words, [0, 3, 1, 7, 0, 0, 0, 2, 7, 1, 0, 0, 1, 8, 0, 0, 0]);
    assert_eq!(Set::from_words(&words), Some(set));
    assert_eq!(Set::from_words(&words[..16]), None);
    for (place, word) in [(0, 2), (1, 129), (2, 0), (2, 5), (4, 1), (3, 8), (13, 7)] {
        let mut broken = words.clone();
        broken[place] = word;
        assert_eq!(Set::from_words(&broken), None, "{broken:?}");
    }
}
