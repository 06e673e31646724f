//! Words that the engine accepts, as text and back to the same words; trees as text and back; comments that stay, wherever they are put. All generated, by
//! fixed seeds.

mod trees;

use differential::generate::{rewritten, Generator, Pair, PORTAL};
use differential::random::Random;
use std::collections::BTreeMap;
use trees::bare::{bare, comments_of};
use trees::Trees;
use txindurbe::{Format, Key, Policy, Query, Refusal, Verdict};
use txindurbe_language::syntax::{Expression, ExpressionKind, File, GuardKind, StatementKind};
use txindurbe_language::{compile, decompile, parse, parse_expression, print, print_expression, Sources};

const SEED: u64 = 2_027;

fn parsed(text: &str) -> File {
    let mut sources = Sources::default();
    let source = sources.add("policy.qcm", text);
    parse(&sources, source).unwrap_or_else(|problems| panic!("{text}\nis not parsed: {problems:#?}"))
}

/// Policies and queries of both formats, most of them accepted: small ones, external ones, those rewritten, and any.
fn pairs(seed: u64, count: usize) -> impl Iterator<Item = Pair> {
    println!("seed {seed}");
    let mut generator = Generator::new(seed, &PORTAL);
    (0..count).map(move |place| match place % 4 {
        0 => generator.sound_pair(),
        1 => generator.external_pair(),
        2 => {
            let pair = generator.external_pair();
            match rewritten(&pair.policy, pair.our_key) {
                Ok(policy) => Pair { policy, ..pair },
                Err(_) => pair,
            }
        }
        _ => {
            let case = generator.case();
            Pair { policy: case.policy, query: case.query, our_key: case.our_key }
        }
    })
}

/// The key of this word; the generator's odd ones are numbers.
fn key(word: u32) -> Option<Key> {
    word.checked_sub(1 << 31).map(Key::new)
}

fn judged(pair: &Pair, our_key: Key) -> Result<Verdict, Refusal> {
    Policy::from_words(our_key, pair.policy.clone()).judge(&Query::from_words(pair.query.clone()))
}

/// What a text compiles to.
fn words(text: &str) -> (Vec<u32>, Option<Vec<u32>>, Key) {
    let mut sources = Sources::default();
    let source = sources.add("policy.qcm", text);
    let compiled = compile(&sources, source).unwrap_or_else(|problems| panic!("{text}\nis not compiled: {problems:#?}"));
    let query = compiled.query().map(|asked| asked.query.words().to_vec());
    (compiled.written().words().to_vec(), query, compiled.our_key())
}

#[test]
fn accepted_words_come_back() {
    let mut seen: BTreeMap<String, usize> = BTreeMap::new();
    let mut see = |what: &str| *seen.entry(what.to_string()).or_default() += 1;
    for pair in pairs(SEED, 12_000) {
        let Some(our_key) = key(pair.our_key) else { continue };
        let file = match (decompile(our_key, &pair.policy, Some(&pair.query)), judged(&pair, our_key)) {
            (Ok(file), Ok(_)) => file,
            (file, judged) => {
                assert_eq!(file.err(), judged.err(), "{:?} {:?}", pair.policy, pair.query);
                see("refused");
                continue;
            }
        };
        let text = print(&file);
        assert_eq!(bare(parsed(&text)), bare(file.clone()), "{text}");
        assert_eq!(words(&text), (pair.policy.clone(), Some(pair.query.clone()), our_key), "{text}");

        let alone = print(&decompile(our_key, &pair.policy, None).expect("it is accepted with a query"));
        assert_eq!(words(&alone), (pair.policy.clone(), None, our_key), "{alone}");

        see("accepted");
        see(if Policy::from_words(our_key, pair.policy).format() == Some(Format::WiderRows) { "format 2" } else { "format 1" });
        for statement in &file.statements {
            match &statement.kind {
                StatementKind::Define(definition) => constructs(&definition.expression, our_key, &mut see),
                StatementKind::Query(expression) => constructs(expression, our_key, &mut see),
                _ => {}
            }
        }
    }
    println!("{seen:#?}");
    let at_least = |what: &str, count: usize| assert!(seen.get(what).is_some_and(|&seen| seen >= count), "{what}: {seen:#?}");
    at_least("accepted", 6_000);
    at_least("refused", 500);
    for what in ["format 1", "format 2", "code 1", "code 2", "code 3", "code 4", "code 5", "code 6", "code 7", "code 8", "own name"] {
        at_least(what, 1_000);
    }
    for what in ["draw", "same", "different", "absent"] {
        at_least(what, 1_000);
    }
}

/// Which codes, guards and own names there are.
fn constructs(expression: &Expression, our_key: Key, see: &mut impl FnMut(&str)) {
    let is_ours = |text: &str| text.starts_with(&format!("{our_key}."));
    match &expression.kind {
        ExpressionKind::Rows(_) => see("code 1"),
        ExpressionKind::AllBut(_) => see("code 2"),
        ExpressionKind::Defined(_) => see("code 3"),
        ExpressionKind::List { .. } => see("code 4"),
        ExpressionKind::Vetted { .. } => see("code 8"),
        ExpressionKind::Union(left, right) | ExpressionKind::Minus(left, right) => {
            see(if matches!(expression.kind, ExpressionKind::Union(..)) { "code 5" } else { "code 6" });
            constructs(left, our_key, see);
            constructs(right, our_key, see);
        }
        ExpressionKind::Each { guards, .. } => {
            see("code 7");
            for guard in guards {
                match &guard.kind {
                    GuardKind::Draw(_, set) => {
                        see("draw");
                        constructs(set, our_key, see);
                    }
                    GuardKind::Absent(_, set) => {
                        see("absent");
                        constructs(set, our_key, see);
                    }
                    GuardKind::Same(..) => see("same"),
                    GuardKind::Different(..) => see("different"),
                }
            }
        }
    }
    if matches!(expression.kind, ExpressionKind::List { .. } | ExpressionKind::Vetted { .. }) && is_ours(&print_expression(expression)) {
        see("own name");
    }
}

#[test]
fn any_words_at_all_are_decompiled_or_refused() {
    println!("seed {SEED}");
    let mut random = Random::new(SEED);
    for _ in 0..20_000 {
        let mut some = |most: usize| -> Vec<u32> {
            let length = random.below(most);
            (0..length).map(|_| if random.chance(900) { random.between(0, 9) } else { random.word() }).collect()
        };
        let (policy, query) = (some(40), some(20));
        let judged = Policy::from_words(Key::new(9), policy.clone()).judge(&Query::from_words(query.clone()));
        assert_eq!(decompile(Key::new(9), &policy, Some(&query)).err(), judged.err(), "{policy:?} {query:?}");
        assert_eq!(
            decompile(Key::new(9), &[1, 0], Some(&query)).is_ok(),
            Policy::from_words(Key::new(9), vec![1, 0]).judge(&Query::from_words(query)).is_ok()
        );
    }
}

#[test]
fn trees_come_back() {
    println!("seed {SEED}");
    let mut trees = Trees::new(SEED);
    for _ in 0..3_000 {
        let file = trees.file();
        let text = print(&file);
        let again = parsed(&text);
        assert_eq!(bare(again.clone()), bare(file), "{text}");
        assert_eq!(print(&again), text);
        for statement in again.statements {
            if let StatementKind::Define(definition) = statement.kind {
                one_line_comes_back(definition.expression);
            }
        }
    }
}

/// Wherever in a tree they are, also where the parser puts none.
#[test]
fn no_comment_is_lost() {
    println!("seed {SEED}");
    let mut trees = Trees::new(SEED);
    for case in 0..3_000 {
        trees.commented = [10, 100, 500][case % 3];
        let file = trees.file();
        let text = print(&file);
        let again = parsed(&text);
        assert_eq!(comments_of(&again), comments_of(&file), "{text}");
        assert_eq!(bare(again.clone()), bare(file), "{text}");
        assert_eq!(print(&again), text);
    }
}

fn one_line_comes_back(expression: Expression) {
    let line = print_expression(&expression);
    assert!(!line.contains('\n'), "{line}");
    let mut sources = Sources::default();
    let source = sources.add("query", &line);
    let again = parse_expression(&sources, source).unwrap_or_else(|problems| panic!("{line}\nis not parsed: {problems:#?}"));
    assert_eq!(print_expression(&again), line);
    assert_eq!(trees::bare::expression(again), trees::bare::expression(expression), "{line}");
}

#[test]
fn comments_stay_and_formatting_twice_changes_nothing() {
    println!("seed {SEED}");
    let mut trees = Trees::new(SEED);
    let mut random = Random::new(SEED);
    let from_words = pairs(SEED, 2_000).filter_map(|pair| decompile(key(pair.our_key)?, &pair.policy, Some(&pair.query)).ok());
    let written: Vec<File> = from_words.chain((0..2_000).map(|_| trees.file())).collect();
    assert!(written.len() > 3_000);
    for file in written {
        let (text, comments) = scattered(&print(&file), &mut random);
        let read = parsed(&text);
        assert_eq!(bare(read.clone()), bare(file), "{text}");
        assert_eq!(comments_of(&read), comments, "{text}");

        let formatted = print(&read);
        let again = parsed(&formatted);
        assert_eq!(bare(again.clone()), bare(read), "{text}\n{formatted}");
        assert_eq!(comments_of(&again), comments, "{text}\n{formatted}");
        assert_eq!(print(&again), formatted, "{text}");
        assert!(formatted.lines().all(|line| line == line.trim_end()), "{formatted}");
    }
}

/// The same tokens with other spaces between them, and comments, which come sorted.
fn scattered(text: &str, random: &mut Random) -> (String, Vec<String>) {
    let often = random.pick(&[0, 20, 100, 400]);
    let mut scattered = String::new();
    let mut comments = Vec::new();
    for token in tokens(text) {
        let touching = |a: &str| a.chars().next_back().is_some_and(is_of_a_word) && token.chars().next().is_some_and(is_of_a_word);
        if random.chance(often) {
            comments.push(format!(" {} {}", comments.len(), random.pick(&["said", "# twice", "{ (x)", "= k1,"])));
            scattered.push_str(random.pick(&["#", " #", "\n#", "\n\n    #"]));
            scattered.push_str(comments.last().expect("just pushed"));
            scattered.push_str(random.pick(&["\n", " \n", "\n\n\n", "\r\n\t"]));
        } else if touching(&scattered) || random.chance(500) {
            scattered.push_str(random.pick(&[" ", " ", "  ", "\n", "\t", "\n\n", " \r\n \r\n"]));
        }
        scattered.push_str(token);
    }
    comments.sort();
    (scattered, comments)
}

fn is_of_a_word(letter: char) -> bool {
    letter.is_ascii_alphanumeric() || letter == '_'
}

/// Of a text without comments.
fn tokens(text: &str) -> Vec<&str> {
    let mut found = Vec::new();
    let mut rest = text.trim_start();
    while !rest.is_empty() {
        let word = rest.find(|letter| !is_of_a_word(letter)).unwrap_or(rest.len());
        let length = if rest.starts_with("!=") { 2 } else { word.max(1) };
        found.push(&rest[..length]);
        rest = rest[length..].trim_start();
    }
    found
}
