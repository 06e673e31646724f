//! What `txindurbe why` finds: bindings, certificates, links, and what is missing.

mod support;

use support::{key, linked, said, said_for, Filings, Folder};

const PUBLIC: &str = "
our key archive
key archive = k9, authority = k8, alma = k1, vla = k2
list released = 1 +, withdrawn = 2 -, observatories = 3 +
define public + = { (o, x) | (o) in authority.observatories, (x) in o.released, (x) not in o.withdrawn }
";

/// The explanation at minute 5, behind the two lines that say whether and where.
fn why(policy: &str, filings: Filings, ask: &str, row: &str) -> (String, Vec<String>) {
    let folder = Folder::with(policy, filings);
    let ran = folder.run(&["why", "a", "p.qcm", row, "--ask", ask, "--minute", "5"]);
    assert_eq!((ran.status, ran.err.as_str()), (0, ""));
    let mut lines = ran.out.lines().map(String::from);
    let belongs = lines.next().expect("whether it belongs");
    let place = lines.next().expect("where it was asked");
    assert!(place.starts_with("Archive tested, point ") && place.ends_with(", 2000-01-01 00:05 (minute 5)."), "{place}");
    assert_eq!(lines.next().as_deref(), Some(""));
    (belongs, lines.collect())
}

fn assert_lines(got: &[String], expected: &[&str]) {
    assert_eq!(got.join("\n"), expected.join("\n"));
}

#[test]
fn certificates_carry_what_passed() {
    let filings = vec![said(8, 3, [key(2)]), said(8, 3, [key(1)]), said(1, 1, [7]), said(1, 1, [7]), said(1, -2, [7])];
    let (belongs, lines) = why(PUBLIC, filings, "{ (x) | (alma, x) in public }", "(7)");
    assert_eq!(belongs, "(7) certainly belongs.");
    let term = "from 2000-01-01 00:00 to 2000-01-01 00:10";
    assert_lines(
        &lines,
        &[
            "(7) is in { (x) | (alma, x) in public }",
            "  with x = 7",
            "    passed      (alma, 7) in public",
            "      with o = alma, x = 7",
            "        passed      (alma) in authority.observatories",
            &format!("          point 2, came 2000-01-01 00:02: authority certified that (alma) is in observatories (3 +), {term}"),
            "        passed      (7) in alma.released",
            &format!("          point 3, came 2000-01-01 00:03: alma certified that (7) is in released (1 +), {term}"),
            "        passed      (7) not in alma.withdrawn",
            &format!("          point 5, came 2000-01-01 00:05: alma certified that (7) is not in withdrawn (2 -), {term}"),
        ],
    );
}

#[test]
fn what_is_missing_is_asked_of_its_key() {
    let filings = vec![said(8, 3, [key(1)]), said(8, 3, [key(2)]), said(2, 1, [7])];
    let (belongs, lines) = why(PUBLIC, filings, "{ (x) | (o, x) in public }", "(7)");
    assert_eq!(belongs, "(7) is not known to belong: the answer is lower and does not have it.");
    // Nothing of 7 is in public, so that o is not known there; inside, vla gets furthest.
    assert_lines(&lines[1..4], &["  with x = 7", "    not known   (o, 7) in public", "      with o = vla, x = 7"]);
    assert_eq!(lines[8], "        not known   (7) not in vla.withdrawn");
    assert_eq!(lines[9], "          needed: vla certifies that (7) is not in withdrawn (2 -), for a term that has 2000-01-01 00:05");
    assert_lines(&lines[10..], &["      another binding does not pass either"]);
}

#[test]
fn certificates_that_do_not_hold_are_said() {
    let filings = vec![said_for(1, 1, [7], 0, 5), said_for(1, 1, [7], 6, 8), said_for(1, 1, [7], 9, 9), said(1, 1, [7, 1])];
    let (_, lines) = why(PUBLIC, filings, "alma.released", "(7)");
    assert_lines(
        &lines,
        &[
            "(7) is not known to be in alma.released",
            "  point 1, came 2000-01-01 00:01: alma certified that (7) is in released (1 +), but that ended 2000-01-01 00:05",
            "  point 2, came 2000-01-01 00:02: alma certified that (7) is in released (1 +), but only from 2000-01-01 00:06 on",
            "  point 3, came 2000-01-01 00:03: such a certificate got refusal 17: the certificate's end is not after its first minute",
            "  needed: alma certifies that (7) is in released (1 +), for a term that has 2000-01-01 00:05",
        ],
    );
}

#[test]
fn links_are_followed_to_the_certificate() {
    let filings = || vec![linked(1, -2, 2, 5), linked(2, -5, 3, 6), said(3, -6, [7])];
    let (belongs, lines) = why(PUBLIC, filings(), "alma.withdrawn", "(7)");
    assert_eq!(belongs, "(7) certainly does not belong.");
    assert_lines(
        &lines,
        &[
            "(7) is not in alma.withdrawn",
            "  point 1, came 2000-01-01 00:01: alma.withdrawn is within vla.5-",
            "    point 2, came 2000-01-01 00:02: vla.5- is within k3.6-",
            "      point 3, came 2000-01-01 00:03: k3 certified that (7) is not in list 6 -, from 2000-01-01 00:00 to 2000-01-01 00:10",
        ],
    );
    let (belongs, lines) = why(PUBLIC, filings(), "alma.withdrawn", "(8)");
    assert_eq!(belongs, "(8) may belong: the answer is upper and has it.");
    let would = "would keep it out: alma certifies that (8) is not in withdrawn (2 -), for a term that has 2000-01-01 00:05";
    assert_lines(
        &lines,
        &["(8) may be in alma.withdrawn", &format!("  {would}; or the same is certified of a list that it is linked to: vla.5-, k3.6-")],
    );
}

#[test]
fn union_and_minus_say_which_side() {
    let filings = || vec![said(1, 1, [7]), said(2, 1, [8])];
    let (_, lines) = why(PUBLIC, filings(), "{ (6) } union alma.released union vla.released", "(8)");
    assert_eq!(lines[1], "  (8) is in vla.released");
    assert_eq!(lines.len(), 3);
    let (_, lines) = why(PUBLIC, filings(), "{ (6) } union alma.released union vla.released", "(9)");
    let sides: Vec<&String> = lines.iter().filter(|line| line.starts_with("  (9)")).collect();
    assert_eq!(sides, ["  (9) is not in { (6) }", "  (9) is not known to be in alma.released", "  (9) is not known to be in vla.released"]);

    let (belongs, lines) = why(PUBLIC, filings(), "{ (7), (8) } minus alma.released", "(7)");
    assert_eq!(belongs, "(7) certainly does not belong.");
    assert_eq!(lines[1], "  (7) is in alma.released, which is taken away");
    let (belongs, lines) = why(PUBLIC, filings(), "{ (7), (8) } minus alma.released", "(8)");
    assert_eq!(belongs, "(8) may belong: the answer is upper and has it.");
    assert_lines(&lines[1..3], &["  (8) is in { (7), (8) }", "  (8) is not known to be in alma.released, which is taken away"]);
    let (_, lines) = why(PUBLIC, filings(), "{ (7), (8) } minus alma.released", "(9)");
    assert_lines(&lines[1..], &["  (9) is not in { (7), (8) }"]);
}

#[test]
fn a_variable_that_holds_our_key_reads_certificates() {
    let policy = format!("{PUBLIC}\ndefine released + = {{ (5) }}\n");
    // Written, our key stands for the definition.
    let (belongs, lines) = why(&policy, vec![said(9, 1, [7])], "archive.released", "(7)");
    assert_eq!(belongs, "(7) is not known to belong: the answer is lower and does not have it.");
    assert_lines(&lines[1..], &["  archive is our key, and released our definition"]);
    // In a variable it does not.
    let ask = "{ (x) | (o) in { (archive) }, (x) in o.released union { (6) } }";
    let (belongs, lines) = why(&policy, vec![said(9, 1, [7])], ask, "(7)");
    assert_eq!(belongs, "(7) certainly belongs.");
    assert!(
        lines.contains(
            &"        point 1, came 2000-01-01 00:01: archive certified that (7) is in released (1 +), from 2000-01-01 00:00 to 2000-01-01 00:10"
                .into()
        ),
        "{lines:?}"
    );
    let (_, lines) = why(&policy, vec![said(9, 1, [7])], ask, "(5)");
    assert!(lines.contains(&"    not known   (5) in archive.released union { (6) }".into()), "{lines:?}");
}

#[test]
fn a_variable_that_holds_a_number_has_no_list() {
    let ask = "{ (o, x) | (o) in { (4) }, (x) in { (7) }, (x) not in o.withdrawn, (x) in o.released }";
    let (_, lines) = why(PUBLIC, vec![], &ask.replace("(x) not in o.withdrawn, ", ""), "(4, 7)");
    assert_lines(&lines[4..], &["    fails       (7) in 4.released", "      4 is no key: its + lists have no rows"]);
    let (_, lines) = why(PUBLIC, vec![], ask, "(4, 7)");
    assert!(lines.contains(&"    fails       (7) not in 4.withdrawn".into()), "{lines:?}");
    assert!(lines.contains(&"      4 is no key: its − lists have all rows".into()), "{lines:?}");
}

#[test]
fn inner_comprehensions_see_outer_variables() {
    let ask = "{ (x) | (o) in authority.observatories, (x) in { (y) | (y, o) in alma.released, (y) not in o.withdrawn } }";
    let filings = vec![said(8, 3, [key(2)]), said(1, 1, [7, key(2)]), said(2, -2, [7])];
    let (belongs, lines) = why(PUBLIC, filings, ask, "(7)");
    assert_eq!(belongs, "(7) certainly belongs.");
    assert_eq!(lines[4], "    passed      (7) in { (y) | (y, vla) in alma.released, (y) not in vla.withdrawn }");
    assert_eq!(lines[5], "      with y = 7");
    assert_eq!(lines[6], "        passed      (7, vla) in alma.released");
}

#[test]
fn in_format_2_wider_rows_are_drawn() {
    let policy = format!("format 2\n{PUBLIC}");
    let (_, lines) = why(&policy, vec![said(1, 1, [7, 2027])], "{ (x) | (x) in alma.released }", "(7)");
    assert_eq!(lines[2], "    passed      (7) in alma.released, by (7, 2027)");
    let (_, lines) = why(&policy, vec![said(1, 1, [7, 2027])], "{ (x) | (x) in alma.released }", "(8)");
    assert_eq!(lines[4], "      in format 2 a wider row that begins so would do as well");
    // In format 1 it is another row.
    let (belongs, _) = why(PUBLIC, vec![said(1, 1, [7, 2027])], "{ (x) | (x) in alma.released }", "(7)");
    assert_eq!(belongs, "(7) is not known to belong: the answer is lower and does not have it.");
}

#[test]
fn an_external_policys_lists_are_vetted() {
    let policy = "
external
key authority = k8, alma = k1
define compromised 0 - = authority.4-
define released + = alma.1+ union alma.3+
";
    let (belongs, lines) = why(policy, vec![said(1, 1, [7])], "released", "(7)");
    assert_eq!(belongs, "(7) is not known to belong: the answer is lower and does not have it.");
    assert_lines(
        &lines[1..4],
        &[
            "  (7) is not known to be in alma.1+ vetted by compromised",
            "    not known   (alma) not in compromised",
            "      needed: authority certifies that (alma) is not in list 4 -, for a term that has 2000-01-01 00:05",
        ],
    );
    // The same of the other list, which was explained.
    assert_eq!(lines[6], "      as above");
    let (belongs, lines) = why(policy, vec![said(1, 1, [7]), said(8, -4, [key(1)])], "released", "(7)");
    assert_eq!(belongs, "(7) certainly belongs.");
    assert_eq!(lines[2], "    passed      (alma) not in compromised");
    assert_eq!(lines[4], "    passed      (7) in alma.1+");
    // A query is not rewritten.
    let (belongs, _) = why(policy, vec![said(1, 1, [7])], "alma.1+", "(7)");
    assert_eq!(belongs, "(7) certainly belongs.");
}

#[test]
fn of_many_bindings_twenty_are_shown() {
    let filings: Filings = (0..25).map(|row| said(1, 1, [row])).collect();
    let (_, lines) = why(PUBLIC, filings, "{ (1) | (x) in alma.released }", "(1)");
    assert_eq!(lines.iter().filter(|line| line.starts_with("  with x = ")).count(), 20);
    assert_eq!(lines.last().map(String::as_str), Some("  more bindings pass"));
}

#[test]
fn the_binding_that_gets_furthest_is_shown() {
    let ask = "{ (x) | (o) in authority.observatories, (x) in o.released, (x) not in o.withdrawn, o != vla }";
    let filings = vec![said(8, 3, [key(1)]), said(8, 3, [key(2)]), said(8, 3, [key(3)]), said(2, 1, [7]), said(2, -2, [7])];
    let (_, lines) = why(PUBLIC, filings, ask, "(7)");
    let outline: Vec<&str> = lines.iter().map(String::as_str).filter(|line| !line.starts_with("      ")).collect();
    assert_eq!(
        outline[1..],
        [
            "  with o = vla, x = 7",
            "    passed      (vla) in authority.observatories",
            "    passed      (7) in vla.released",
            "    passed      (7) not in vla.withdrawn",
            "    fails       vla != vla",
            "  with o = alma, x = 7",
            "    passed      (alma) in authority.observatories",
            "    not known   (7) in alma.released",
            "    not reached (7) not in alma.withdrawn",
            "    not reached alma != vla",
            "  another binding does not pass either",
        ]
    );
}

#[test]
fn heads_that_cannot_be_the_row() {
    for (head, row) in [("(x)", "(7, 7)"), ("(x, 5)", "(7, 6)"), ("(x, x)", "(7, 6)")] {
        let (_, lines) = why(PUBLIC, vec![said(1, 1, [7])], &format!("{{ {head} | (x) in alma.released }}"), row);
        assert_lines(&lines[1..], &[&format!("  the head {head} is never {row}")]);
    }
}

#[test]
fn refused_queries_and_rows_that_cannot_be_read() {
    let folder = Folder::with(PUBLIC, (0..129).map(|row| said(1, 1, [row])).collect());
    let refused = folder.run(&["why", "a", "p.qcm", "(7)", "--ask", "alma.released", "--minute", "5"]);
    assert_eq!((refused.status, refused.out.as_str()), (1, ""));
    assert!(refused.err.contains("refusal 13"), "{}", refused.err);
    let unknown = folder.run(&["why", "a", "p.qcm", "(almma)", "--ask", "{}"]);
    assert_eq!((unknown.status, unknown.out.as_str()), (2, ""));
    assert!(unknown.err.contains("alma"), "{}", unknown.err);
}

#[test]
fn rows_of_which_not_all_is_known() {
    let missing = |from: &str, filings: Filings| {
        let (_, lines) = why(PUBLIC, filings, &format!("{{ (x) | (x, y) in {from} }}"), "(7)");
        assert!(lines[2].ends_with(&format!("(7, y) in {from}")), "{}", lines[2]);
        lines[3..].to_vec()
    };
    let needed = |key: &str| format!("needed: {key} certifies that a row (7, y) is in released (1 +), for a term that has 2000-01-01 00:05");
    assert_lines(&missing("alma.released", vec![said(1, 1, [8, 1])]), &[&format!("      {}", needed("alma"))]);
    assert_lines(&missing("{ (8, 1) }", vec![]), &["      no row (7, y) is written"]);
    assert_lines(
        &missing("alma.released union vla.released", vec![]),
        &[
            "      no row (7, y) is known to be in alma.released",
            &format!("        {}", needed("alma")),
            "      no row (7, y) is known to be in vla.released",
            &format!("        {}", needed("vla")),
        ],
    );
    let taken = "what { (7, 1) } has of these, alma.withdrawn takes away";
    assert_lines(&missing("{ (7, 1) } minus alma.withdrawn", vec![]), &[&format!("      {taken}")]);
    assert_lines(&missing("{ (8, 7) | (z) in alma.released }", vec![said(1, 1, [7])]), &["      the head (8, 7) is never (7, y)"]);
    assert_lines(
        &missing("{ (z, w) | (w, z) in alma.released }", vec![said(1, 1, [7, 1])]),
        &["      with z = 7", "        not known   (w, 7) in alma.released", &format!("          {}", needed("alma").replace("(7, y)", "(w, 7)"))],
    );

    let (_, lines) = why(PUBLIC, vec![said(1, 1, [5, 6])], "{ (1) | (y, y) in alma.released }", "(1)");
    assert_lines(&lines[2..], &["    not known   (y, y) in alma.released", "      no row that it has is (y, y)"]);
}
