//! The formatter on examples worked out by hand.

use super::*;
use crate::parse::{parse, parse_expression};
use crate::problem::Sources;

fn formatted(text: &str) -> String {
    let mut sources = Sources::default();
    let source = sources.add("test.qcm", text);
    print(&parse(&sources, source).unwrap_or_else(|problems| panic!("{text}\nis not parsed: {problems:#?}")))
}

/// What a text is formatted to, which formatting leaves as it is.
fn becomes(text: &str, expected: &str) {
    assert_eq!(formatted(text), expected);
    assert_eq!(formatted(expected), expected);
}

fn stays(text: &str) {
    becomes(text, text);
}

#[test]
fn one_statement_a_line() {
    becomes(
        "format   2 external our key archive key alma=k1 ,vla = k2 list released=1+,withdrawn =2− define public 10+={(x)|} query  public",
        "\
format 2
external
our key archive
key alma = k1, vla = k2
list released = 1 +, withdrawn = 2 -
define public 10 + = { (x) | }
query public
",
    );
    becomes("", "");
    becomes("query{ }", "query {}\n");
    becomes("query all\nbut{(7,8 ),(k1)\n}", "query all but { (7, 8), (k1) }\n");
    becomes(
        "query{(x)|(x,_)in alma . released,x!=7,(x)not in o. 2-vetted by bad,x=y}",
        "query { (x) | (x, _) in alma.released, x != 7, (x) not in o.2- vetted by bad, x = y }\n",
    );
}

#[test]
fn parentheses_where_they_are_needed() {
    becomes("query (((a)) union (b)) union c", "query a union b union c\n");
    becomes("query a union (b union c)", "query a union (b union c)\n");
    becomes("query (a minus b) minus (c minus d)", "query a minus b minus (c minus d)\n");
    becomes("query (a minus b) union (c minus d)", "query (a minus b) union (c minus d)\n");
    becomes("query ({ (x) | (x) in (a union b) })", "query { (x) | (x) in a union b }\n");
}

#[test]
fn empty_lines_are_kept_and_never_two() {
    becomes("\n\n#a\n\n\n\nexternal\nformat 2\n\n\nquery {}\n#b\n\n\n\n", "#a\n\nexternal\nformat 2\n\nquery {}\n#b\n");
    becomes("external\n \t\nquery {}", "external\n\nquery {}\n");
    becomes("external format 2", "external\nformat 2\n");
}

#[test]
fn a_line_has_100_columns() {
    // `query { (x) | (x) in a.` and ` }` are 23 and 2 columns
    let name = |length: usize| "n".repeat(length);
    stays(&format!("query {{ (x) | (x) in a.{} }}\n", name(75)));
    becomes(&format!("query {{ (x) | (x) in a.{} }}\n", name(76)), &format!("query {{ (x) |\n    (x) in a.{}\n}}\n", name(76)));
    // the comment behind it does not count
    stays(&format!("query {{ (x) | (x) in a.{} }}  # this is {}\n", name(75), name(50)));
    // what cannot take several lines goes past the end
    stays(&format!("query a.{}\n", name(120)));
    // `key ` is 4 columns, ` = k1` 5
    stays(&format!("key {} = k1, {} = k2\n", name(40), name(44)));
    becomes(&format!("key {} = k1, {} = k2\n", name(40), name(45)), &format!("key {} = k1,\n    {} = k2\n", name(40), name(45)));
}

#[test]
fn the_issues_example() {
    becomes(
        "our key archive
key archive = k9, alma = k1, vla = k2          # keys by name
list observatories = 3 +, released = 1 +, withdrawn = 2 -
define public + = { (o, x) | (o) in k8.observatories, (x) in o.released, (x) not in o.withdrawn, o != vla }
query { (x) | (alma, x) in public }
",
        "our key archive
key archive = k9, alma = k1, vla = k2  # keys by name
list observatories = 3 +, released = 1 +, withdrawn = 2 -
define public + = { (o, x) |
    (o) in k8.observatories,
    (x) in o.released,
    (x) not in o.withdrawn,
    o != vla
}
query { (x) | (alma, x) in public }
",
    );
}

#[test]
fn sets_inside_one_another() {
    stays(
        "\
define public + = { (o, x) |
    (o) in { (k) |
        (k) in archive.observatories_of_the_southern_sky,
        (k) not in archive.observatories_that_closed,
        k != archive
    },
    (x) in
        o.released_in_the_first_semester_of_2027
        union o.released_in_the_second_semester_of_2027
        union { (7) },
    (x) not in o.withdrawn
}
query
    public
    minus { (x) |
        (x) in vla.released_in_the_first_semester_of_2027,
        (x) not in vla.withdrawn_in_the_first_semester
    }
    minus (
        alma.released_in_the_first_semester_of_2027
        union alma.released_in_the_second_semester_of_2027
    )
    minus (a union b)
",
    );
}

#[test]
fn rows_fill_lines() {
    // Each row and its comma take 10 columns and a space: nine of them and the indent take 102, eight 91.
    let row = "(1000, k1)";
    let line = |count: usize| vec![row; count].join(", ");
    becomes(&format!("query {{ {} }}", line(18)), &format!("query {{\n    {},\n    {},\n    {}\n}}\n", line(8), line(8), line(2)));
    becomes(&format!("query all but {{{}}}", line(8)), &format!("query all but {{\n    {}\n}}\n", line(8)));
    stays(&format!("query {{ {} }}\n", line(7)));
}

#[test]
fn comments_stay_where_they_are() {
    stays(
        "\
# The policy of 2027.
# It is strict.

# whose
our key archive  # ours

key archive = k9,  # the archive
    # the southern array
    alma = k1,
    vla = k2  # north
list
    # by semester
    released = 1 +
define public + =
    # what we show
    { (o, x) |  # whose, and what
        (o) in k8.observatories,  # partners
        # not yet
        # withdrawn
        (x) not in o.withdrawn
        # (x) in o.released
    }
define some + = {
    # the first
    (1), (2),  # two
    (3), (4)
    # (5)
}
query {
    # shown
    (x) |
    (x) in
        a  # south
        # north
        union b,  # both
    (x) not in {
        # nothing
    }
}  # that is all
# over

# and out
",
    );
}

#[test]
fn comments_that_move() {
    // to the statement, the guard or the row that they stand in
    becomes("our #a\nkey #b\n#c\nk1\n", "#a\n#b\n#c\nour key k1\n");
    becomes("query { (x #a\n, y) | (x, #b\ny) in c #c\n}", "query { (x, y) |  #a\n    #b\n    (x, y) in c  #c\n}\n");
    becomes("query { (7 #a\n), #b\n(8) }", "query {\n    #a\n    (7),  #b\n    (8)\n}\n");
    becomes("query (a #a\n) #b\nunion c", "query\n    #a\n    a  #b\n    union c\n");
    becomes("query #a\n( #b\na)", "query\n    #a\n    #b\n    a\n");
    becomes("query #a\n( #b\na minus b)", "query\n    #a\n    #b\n    a\n    minus b\n");
}

#[test]
fn an_expression_on_one_line() {
    let mut sources = Sources::default();
    let source = sources.add("query", "#a\n{ (x) #b\n| (x) in\n a union (b\n minus c), #c\n x != 7\n #d\n}");
    let expression = parse_expression(&sources, source).expect("it is right");
    assert_eq!(print_expression(&expression), "{ (x) | (x) in a union (b minus c), x != 7 }");
}
