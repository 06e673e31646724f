//! Files of tests: what passes, what fails, and what cannot be read.

mod support;

use support::{Folder, Ran};

const POLICY: &str = "
key alma = k1, vla = k2
list released = 1 +, withdrawn = 2 -
define public + = { (x) | (x) in alma.released, (x) not in alma.withdrawn }
query public
";

/// Under the policy, at minute 5, from line 3 on.
fn test(lines: &str) -> Ran {
    let folder = Folder::new();
    folder.write("p.qcm", POLICY);
    folder.write("some.test", &format!("policy p.qcm\nminute 5\n{lines}"));
    folder.run(&["test", "some.test"])
}

fn assert_passed(lines: &str, count: usize) {
    let ran = test(lines);
    assert_eq!((ran.status, ran.out, ran.err), (0, format!("{count} passed, 0 failed\n"), String::new()), "{lines}");
}

/// One test that fails, on line 3.
fn assert_failed(line: &str, tried: &str, expected: &str, got: &str) {
    let ran = test(line);
    let out = format!("some.test:3: {tried}\n  expected  {expected}\n  got       {got}\n0 passed, 1 failed\n");
    assert_eq!((ran.status, ran.out, ran.err), (1, out, String::new()), "{line}");
}

#[test]
fn filings_links_and_answers() {
    let lines = "
        file (7) in alma.released from 0 to 10 is Filed
        file (7) in alma.released from 0 to 10 is Held
        file (7) in alma.released from 10 to 10 is refused 17
        file (8) in vla.released from 0 to 10                  # no test
        file (7) not in alma.withdrawn from 0 to 10
        ask query is lower { (7) }
        link alma.released contains vla.released is Filed
        link k1.2- within k2.2- is Filed
        ask alma.released is lower { (8), (7), (8) }
        ask alma.withdrawn is upper all but { (7) }
        ask { (7) } union { (alma, 2) } is exact { (7), (alma, 2) }
        ask alma.withdrawn minus alma.withdrawn is refused 6
        member (7) of query is yes
        member (7) of alma.withdrawn is no
        member (8) of alma.withdrawn is unknown
        minute 2000-01-01 00:10
        ask alma.released is lower {}
        policy p.qcm
        minute 5
        ask alma.released is lower {}
    ";
    assert_passed(lines, 15);
}

#[test]
fn what_differs_is_shown() {
    assert_failed("ask alma.released is lower { (7) }", "ask alma.released", "lower { (7) }", "lower {}");
    assert_failed("ask alma.withdrawn is upper {}", "ask alma.withdrawn", "upper {}", "upper all but {}");
    assert_failed("ask { (vla, 7) } is lower { (vla, 7) }", "ask { (vla, 7) }", "lower { (vla, 7) }", "exact { (vla, 7) }");
    assert_failed("member (7) of query is no # really", "member (7) of query", "no", "unknown");
    assert_failed("file (7) in alma.released from 0 to 1 is Held", "file (7) in alma.released from 0 to 1 is Held", "Held", "Filed");
    let rule = "the certificate's end is not after its first minute";
    let unsaid = "file (7) in alma.released from 1 to 1";
    assert_failed(unsaid, unsaid, "Filed or Held", &format!("refused 17: {rule}"));
    let got = "refused 7: ";
    let ran = test("ask { (x) | (x) in alma.withdrawn } is lower {}");
    assert!(ran.out.contains(&format!("  got       {got}")), "{}", ran.out);
    assert_passed("ask nobody.released is refused 4", 1);
    assert_failed("ask query is refused 13", "ask query", "refused 13", "lower {}");
}

#[test]
fn refusals_while_reading_are_answers() {
    let filings: String = (0..129).map(|row| format!("file ({row}) in alma.released from 0 to 10\n")).collect();
    assert_passed(&format!("{filings}ask vla.released is refused 13\nask {{}} is refused 13\n"), 2);
    let folder = Folder::new();
    folder.write("p.qcm", "query k1.1+\n");
    let filings = filings.replace("alma.released", "k1.1+");
    // Rows that are expected are read by themselves, however many are held.
    folder.write(
        "some.test",
        &format!("policy p.qcm\nminute 5\n{filings}ask query is refused 13\nask {{ (7) }} is exact {{ (7) }}\nmember (7) of query is yes\n"),
    );
    let ran = folder.run(&["test", "some.test"]);
    assert_eq!(ran.status, 1);
    assert!(ran.out.ends_with("  expected  yes\n  got       refused 13: a value lists over 128 rows\n2 passed, 1 failed\n"), "{}", ran.out);
}

#[test]
fn what_cannot_be_read_is_shown_at_its_place() {
    let places = [
        ("ask nobody.released is lower {}", "3:5"),
        ("ask alma.relesed is lower {}", "3:10"),
        ("ask public union is lower {}", "3:"),
        ("ask query is lower { (nobody) }", "3:23"),
        ("ask query is lower alma.released", "3:20"),
        ("file (7) in alma.withdrawn from 0 to 1", "3:10"),
        ("file (7) in alma.relesed from 0 to 1", "3:13"),
        ("file (7) in alma from 0 to 1", "3:13"),
        ("file (allma) in alma.released from 0 to 1", "3:6"),
        ("link alma.released contains vla.withdrawn", "3:29"),
        ("link alma.released within vla.released", "3:20"),
        ("member (1, 2, 3, 4, 5) of query is yes", "3:8"),
        ("perhaps", "3:1"),
    ];
    for (line, place) in places {
        let ran = test(line);
        assert_eq!((ran.status, ran.out.as_str()), (2, ""), "{line}");
        assert!(ran.err.contains(&format!(" some.test:{place}")), "{line}\n{}", ran.err);
        assert!(ran.err.contains(line), "the line itself is shown\n{}", ran.err);
    }
}

#[test]
fn a_file_says_its_policy_and_minute_and_tests_something() {
    let folder = Folder::new();
    folder.write("p.qcm", POLICY);
    for (text, said) in [
        ("ask query is lower {}\n", "under which policy?"),
        ("policy p.qcm\nask query is lower {}\n", "at which minute?"),
        ("policy p.qcm\nminute 5\n", "tests nothing"),
        ("", "tests nothing"),
        ("policy missing.qcm\n", "missing.qcm"),
    ] {
        folder.write("some.test", text);
        let ran = folder.run(&["test", "some.test"]);
        assert_eq!((ran.status, ran.out.as_str()), (2, ""), "{text}");
        assert!(ran.err.contains(said), "{text}\n{}", ran.err);
    }
}

#[test]
fn policies_are_found_from_the_tests_folder() {
    let folder = Folder::new();
    folder.write("p.qcm", POLICY);
    folder.write("tests/some.test", "policy ../p.qcm\nminute 5\nask query is lower {}\n");
    assert_eq!(folder.run(&["test", "tests/some.test"]).status, 0);
}

#[test]
fn several_files_are_counted_together() {
    let folder = Folder::new();
    folder.write("p.qcm", POLICY);
    folder.write("one.test", "policy p.qcm\nminute 5\nask query is lower {}\n");
    folder.write("two.test", "policy p.qcm\nminute 5\nask query is lower { (7) }\nask {} is exact {}\n");
    let ran = folder.run(&["test", "one.test", "two.test"]);
    assert_eq!((ran.status, ran.out.lines().last()), (1, Some("2 passed, 1 failed")));
}
