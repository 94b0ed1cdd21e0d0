//! What is accepted and yet seldom meant.

use cuckooormolu_tool::check::{check, effort, Checked, Warning};
use cuckooormolu_tool::folder::Folder;
use cuckooormolu_tool::names::Names;
use keeper::generate::case;

/// The warnings for lines whose fields are separated by spaces.
fn warnings(lines: &str, names: &str, requests: &str) -> Vec<Warning> {
    let bytes = |text: &str| text.replace(' ', "\t").into_bytes();
    let names = Names::read(&names.replace(' ', "\t")).unwrap();
    let (terms, requests) = (bytes(lines), bytes(requests));
    let folder = Folder { terms, names, requests, ..Folder::default() };
    match check(&folder).unwrap() {
        Checked::Accepted(_, warnings) => warnings,
        Checked::Refused(fault) => panic!("{fault:?}"),
    }
}

/// Their kinds and lines.
fn told(lines: &str) -> Vec<(&'static str, usize)> {
    warnings(lines, "", "").iter().map(|warning| (warning.kind, warning.line)).collect()
}

#[test]
fn entries_nobody_uses() {
    let lines = "M 2\nL 0 1\nF 0 top 0 0\nF 1 var 0 0\nF 2 not 1 0\nP 0 0\n";
    assert_eq!(told(lines), [("unused", 5)]);
}

#[test]
fn relations_without_edges() {
    let lines = "M 2\nL 1 1\nF 0 var 0 0\nF 1 out 0 0\nF 2 not 1 0\nP 0 2\n";
    assert_eq!(told(lines), [("edgeless", 4), ("always", 6)]);
    assert_eq!(told(&format!("{lines}E 0 add 0 fwd\n")), []);
    assert_eq!(told(&format!("{lines}G 0 0 0\n")), []);
}

#[test]
fn policies_that_ask_for_nothing() {
    let lines = "M 2\nL 0 1\nF 0 var 0 0\nF 1 not 0 0\nF 2 or 0 1\nP 0 2\n";
    assert_eq!(told(lines), [("always", 6)]);
    let lines = "M 2\nL 0 1\nF 0 var 0 0\nF 1 not 0 0\nF 2 or 0 1\nF 3 not 2 0\nP 0 3\n";
    assert_eq!(told(lines), [("never", 7)]);
    assert_eq!(told("M 2\nL 0 1\nF 0 top 0 0\nP 0 0\n"), []);
}

#[test]
fn requests_that_are_all_denied() {
    let lines = "M 2\nL 0 1\nF 0 var 0 0\nP 0 0\n";
    let kinds = |requests: &str| {
        let warnings = warnings(lines, "", requests);
        warnings.iter().map(|warning| warning.kind).collect::<Vec<_>>()
    };
    assert_eq!(kinds("R 0 0 1\nR 0 1 0\n"), ["denied"]);
    assert_eq!(kinds("R 0 0 1\nR 0 1 1\n"), [""; 0]);
}

#[test]
fn denials_that_nobody_keeps() {
    let lines = "M 2\nL 0 2\nF 0 top 0 0\nF 1 out 2 0\nF 2 since 0 1\nF 3 not 2 0\nF 4 var 0 0\n\
        P 0 4\nP 1 3\n";
    assert_eq!(told(lines), [("unkept", 4), ("always", 9)]);
    assert_eq!(told(&format!("{lines}K 1\n")), [("unkept", 4), ("always", 9)]);
    assert_eq!(told(&format!("{lines}K 0\n")), []);
    let named = warnings(lines, "event 0 load\n", "");
    assert!(named[0].what.contains("a denied request of event 0 (load)"), "{}", named[0].what);
}

#[test]
fn names_of_what_there_is_not() {
    let lines = "M 2\nL 0 1\nF 0 top 0 0\nP 0 0\n";
    let warnings = warnings(lines, "member 1 pete\nmember 2 dora\n", "");
    let what = "names.tsv calls member 2 dora, but there is no such member";
    assert_eq!(warnings.iter().map(|warning| &warning.what[..]).collect::<Vec<_>>(), [what]);
}

/// Three people are sought one inside the other, and spoken of in the innermost part.
const NESTED: &str = "L 1 1\nF 0 var 1 0\nF 1 var 2 0\nF 2 var 3 0\nF 3 or 0 1\nF 4 or 2 3\nF 5 out 0 4\n\
    F 6 bind 3 5\nF 7 out 0 6\nF 8 bind 2 7\nF 9 out 0 8\nF 10 bind 1 9\nF 11 out 0 10\nP 0 11\nG 0 0 0\n";

#[test]
fn terms_that_take_long() {
    let long = |members: usize| {
        let warnings = warnings(&format!("M {members}\n{NESTED}"), "", "");
        warnings.into_iter().find(|warning| warning.kind == "long")
    };
    let warning = long(64).unwrap();
    assert_eq!(warning.line, 7);
    assert!(warning.what.starts_with("a request works out at most "), "{}", warning.what);
    let nested = "entry 4 speaks of 4 members who are sought one inside the other";
    assert!(warning.what.contains(nested), "{}", warning.what);
    assert!(warning.right.contains("at most two"), "{}", warning.right);
    assert_eq!(long(8), None);
}

/// Three people are sought one inside the other in what is remembered.
const REMEMBERED: &str = "M 64\nL 1 2\nF 0 top 0 0\nF 1 var 1 0\nF 2 var 2 0\nF 3 var 3 0\nF 4 or 1 2\nF 5 or 3 4\n\
    F 6 not 5 0\nF 7 out 0 6\nF 8 bind 3 7\nF 9 out 0 8\nF 10 bind 2 9\nF 11 out 0 10\nF 12 bind 1 11\n\
    F 13 since 0 12\nP 0 0\nP 1 13\n";

/// To open such terms would take minutes, where everybody is beside everybody else.
#[test]
fn what_would_take_long_is_told_and_not_worked_out() {
    let pairs = (0..64).flat_map(|from| (0..64).map(move |to| (from, to)));
    let edges =
        pairs.filter(|(from, to)| from != to).map(|(from, to)| format!("G 0 {from} {to}\n"));
    let terms =
        format!("{REMEMBERED}{}", edges.collect::<String>()).replace(' ', "\t").into_bytes();
    let folder = Folder { terms, ..Folder::default() };
    let Checked::Accepted(both, warnings) = check(&folder).unwrap() else { panic!("refused") };
    assert!(effort::is_lengthy(both.effort()) && !both.is_stored());
    assert_eq!(effort::lengthy(&folder.terms), Some(both.effort()));
    let told: Vec<_> = warnings.iter().map(|warning| (warning.kind, warning.line)).collect();
    assert_eq!(told, [(effort::KIND, 9)]);
    assert_eq!(effort::lengthy(b"M\t0\n"), None);
    assert_eq!(effort::lengthy(b"M\t1\nL\t0\t1\nF\t0\ttop\t0\t0\nP\t0\t0\n"), None);
}

#[test]
fn two_people_sought_in_turn_take_long_only_at_many_levels() {
    // Each level seeks somebody and speaks of whom the level above sought.
    let long = |levels: usize| {
        let mut lines = String::from("M 64\nL 1 1\nF 0 var 1 0\n");
        for level in 0..levels {
            let (below, x) = (2 * level, 1 + level % 2);
            lines +=
                &format!("F {} out 0 {below}\nF {} bind {x} {}\n", below + 1, below + 2, below + 1);
        }
        let last = 2 * levels;
        lines += &format!("F {} bind 1 {last}\nP 0 {}\nG 0 0 0\n", last + 1, last + 1);
        let warnings = warnings(&lines, "", "");
        warnings.into_iter().find(|warning| warning.kind == "long")
    };
    assert_eq!(long(3), None);
    let warning = long(60).unwrap();
    assert_eq!(warning.line, 2 + 1 + 2 * 60 + 1 + 1);
    assert!(!warning.what.contains("speaks of"), "{}", warning.what);
}

#[test]
fn what_a_request_works_out_is_told_with_the_time() {
    for (rows, said) in [
        (0, "nothing"),
        (1, "at most 1 row: well under a millisecond"),
        (1_204, "at most 1,204 rows: well under a millisecond"),
        (15_000, "at most 15,000 rows: under a millisecond"),
        (1_000_000, "at most 1,000,000 rows: some 67 ms"),
        (150_000_000, "at most 150,000,000 rows: some 10 s"),
        (1 << 31, "2,147,483,648 rows or more: it may take minutes"),
    ] {
        assert_eq!(effort::told(rows), said);
    }
}

#[test]
fn any_accepted_terms_are_checked() {
    // a stored file may be longer than the program opens
    let fitting =
        (0..).map(|seed| (seed, case(seed, 99).text)).filter(|(_, text)| text.len() <= 65536);
    for (seed, terms) in fitting.take(60) {
        let folder = Folder { terms, ..Folder::default() };
        assert!(matches!(check(&folder).unwrap(), Checked::Accepted(_, _)), "seed {seed}");
    }
}
