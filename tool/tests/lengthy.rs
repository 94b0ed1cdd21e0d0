//! Terms by which a request may take seconds or more: that is told first, and what needs
//! no answer works nothing out.

mod run_support;

use run_support::{run, run_with, Folder};

/// 64 members, of whom four are sought one inside the other in what is remembered.
fn folder(first: impl Fn(usize, usize) -> bool) -> Folder {
    let folder = Folder::new();
    let members: Vec<String> = (0..64).map(|n| format!("m{n}")).collect();
    let pairs = (0..64).flat_map(|from| (0..64).map(move |to| (from, to)));
    let edges = pairs.filter(|&(from, to)| first(from, to));
    let edges: String = edges.map(|(from, to)| format!("first m{from} friend m{to}\n")).collect();
    folder.write(
        "terms.say",
        &format!(
            "members {}\nrelation friend\nevent greet by anyone\nevent meet\n  when once (me friend some a: a friend \
             some b: b friend some c: c friend some d: d friend a and not d friend b and not d friend c)\n{edges}",
            members.join(", ")
        ),
    );
    folder
}

const EFFORT: &str = "a request works out at most 51,045,312 rows: some 4 s";

/// Where everybody is everybody else's friend, opening these terms would take minutes.
#[test]
fn what_needs_no_answer_works_nothing_out() {
    let folder = folder(|from, to| from != to);
    let said = run(&["compile", folder.path()]);
    assert_eq!((said.status, said.err.as_str()), (0, ""));
    let said = run(&["check", folder.path()]);
    assert_eq!((said.status, said.err.as_str()), (0, ""));
    let effort =
        format!("\neffort: {EFFORT}; so nothing was worked out here, and no request was tried\n");
    assert!(said.out.contains(&effort), "{}", said.out);
    assert!(
        said.out.contains(": warning: a request works out at most 51,045,312 rows"),
        "{}",
        said.out
    );
    assert!(!said.out.contains("stored:"), "{}", said.out);
    let said = run(&["check", folder.path(), "--json"]).out;
    assert!(said.contains("\"stored\":false,\"effort\":51045312"), "{said}");
    let said = run(&["aloud", folder.path()]);
    assert_eq!((said.status, said.err.as_str()), (0, ""));
    assert!(!said.out.contains("When this was stored"), "{}", said.out);
}

#[test]
fn what_answers_goes_on_and_tells_it() {
    let folder = folder(|from, to| (from, to) == (0, 1));
    let path = folder.path();
    let told = format!(
        "this may take long: {EFFORT}; `cuckooormolu check {path}` says which part causes it\n"
    );
    let said = run_with(&["run", path, "-"], "greet m0 m1\nmeet m0 m1\n");
    let answers = "1  greet m0 → m1  granted\n2  meet m0 → m1   denied\n";
    assert_eq!((said.status, said.out.as_str(), said.err.as_str()), (0, answers, told.as_str()));
    let said = run_with(&["try", path], "look meet m0 m1\n");
    assert_eq!((said.out.as_str(), said.err.as_str()), ("would be denied\n", told.as_str()));
}
