//! Sentences for the shapes that people write.

use cuckooormolu_tool::aloud::Aloud;
use cuckooormolu_tool::names::{Kind, Names};
use keeper::generate::case;
use keeper::terms::read;

fn names(relations: [&str; 2]) -> Names {
    let mut names = Names::default();
    for (kind, number, name) in [
        (Kind::Relation, 0, relations[0]),
        (Kind::Relation, 1, relations[1]),
        (Kind::Event, 0, "share"),
        (Kind::Event, 1, "withdraw"),
        (Kind::Event, 2, "join"),
    ] {
        names.set(kind, number, name).unwrap();
    }
    names
}

/// What a formula says: its entries are separated by commas, the last is the
/// policy of `share`. Labels: 0 own, 1 blacklist, 2 share, 3 withdraw, 4 join.
fn said(formula: &str) -> String {
    said_with(["own", "blacklist"], formula)
}

/// The same with other names for the relations.
fn said_with(relations: [&str; 2], formula: &str) -> String {
    let entries: Vec<&str> = formula.split(", ").collect();
    let last = entries.len() - 1;
    let lines = entries.iter().enumerate().map(|(index, entry)| format!("F {index} {entry}\n"));
    let lines: String = lines.collect();
    let text = format!("M 3\nL 2 3\n{lines}P 0 {last}\nP 1 {last}\nP 2 {last}\n");
    let terms = read(text.replace(' ', "\t").as_bytes()).expect("an accepted formula").terms;
    let aloud = Aloud::of(&terms, &names(relations));
    let policy = aloud.events[0].policy.text();
    let clauses = aloud.clauses.iter().map(|clause| format!("\n{}", clause.text()));
    let policy = policy.replace("You may share with the target if ", "");
    format!("{policy}{}", clauses.collect::<String>())
}

#[test]
fn members() {
    assert_eq!(said("top 0 0"), "You may always share with the target.");
    assert_eq!(said("top 0 0, not 0 0"), "You may never share with the target.");
    assert_eq!(said("var 0 0"), "you are the target.");
    assert_eq!(said("var 0 0, not 0 0"), "you are not the target.");
    assert_eq!(said("var 1 0, at 0 0, bind 1 1"), "the target is you.");
}

#[test]
fn steps() {
    let shared = "top 0 0, var 1 0, out 2 1, since 0 2, var 0 0, out 0 4, reach 1 3 5";
    let owns = "some member that you have at some time shared with owns the target.";
    assert_eq!(said(shared), owns);
    assert_eq!(said(&format!("{shared}, not 6 0")), owns.replace("some member", "no member"));
    assert_eq!(
        said(&shared.replace("out 2 1", "in 2 1")),
        "some member that has at some time shared with you owns the target."
    );
    assert_eq!(
        said("var 1 0, out 2 0, out 3 0, not 2 0, since 3 1, top 0 0, reach 1 4 5"),
        "there is some member that you have at some time shared with and have not withdrawn from since."
    );
    assert_eq!(
        said("var 1 0, out 0 0, var 0 0, out 0 2, reach 1 1 3"),
        said("var 0 0, out 0 0, out 0 1")
    );
}

#[test]
fn counted() {
    assert_eq!(said("top 0 0, many 0 0 3"), "for at least 3 different members A, you own A.");
    assert_eq!(said("top 0 0, many 0 0 3, not 1 0"), "for fewer than 3 members A, you own A.");
    assert_eq!(said("top 0 0, many 0 0 1"), "for at least 1 member A, you own A.");
    assert_eq!(said("top 0 0, many 0 0 1, not 1 0"), "for no member A, you own A.");
    assert_eq!(
        said_with(["friend", "own"], "var 0 0, not 0 0, many 0 1 5, at 0 2"),
        "for at least 5 different members A, A is a friend of the target and is not the target."
    );
    assert_eq!(
        said("top 0 0, out 1 0, many 0 1 2, since 0 2"),
        "at some moment so far for at least 2 different members A, you owned A and A had a \
         blacklist edge to some member."
    );
}

#[test]
fn oneself() {
    assert_eq!(said("var 1 0, out 0 0, bind 1 1"), "you own yourself.");
    assert_eq!(
        said("var 1 0, out 1 0, bind 1 1, out 0 2"),
        "you own some member that is a blacklist."
    );
}

#[test]
fn edges() {
    assert_eq!(said("var 0 0, out 0 0"), "you own the target.");
    assert_eq!(said("var 0 0, out 0 0, not 1 0"), "you do not own the target.");
    assert_eq!(said("var 0 0, in 0 0"), "the target owns you.");
    assert_eq!(said("var 0 0, in 1 0, not 1 0"), "the target has no blacklist edge to you.");
    assert_eq!(said("top 0 0, out 0 0"), "you own some member.");
    assert_eq!(said("top 0 0, in 0 0, not 1 0"), "no member owns you.");
    assert_eq!(said("var 0 0, in 2 0"), "the target has just shared with you.");
}

#[test]
fn neighbours() {
    assert_eq!(
        said("var 0 0, out 1 0, out 1 1"),
        "you have a blacklist edge to some member that has a blacklist edge to the target."
    );
    assert_eq!(
        said("var 0 0, out 1 0, not 1 0, out 0 2, not 3 0"),
        "every member that you own has a blacklist edge to the target."
    );
    assert_eq!(
        said("var 0 0, out 1 0, out 0 1, not 2 0"),
        "you own no member that has a blacklist edge to the target."
    );
    assert_eq!(
        said("var 0 0, not 0 0, in 0 1, not 2 0"),
        "every member that owns you is the target."
    );
}

#[test]
fn nouns() {
    let said = |formula: &str| said_with(["member_of", "friend"], formula);
    assert_eq!(said("var 0 0, out 0 0"), "you are a member of the target.");
    assert_eq!(said("var 0 0, in 0 0, not 1 0"), "the target is not a member of yours.");
    assert_eq!(said("var 0 0, out 1 0"), "the target is a friend of yours.");
    assert_eq!(said("var 0 0, in 1 0"), "you are a friend of the target.");
    let friend_of_friend = "var 0 0, out 1 0, out 1 1";
    assert_eq!(said(friend_of_friend), "some friend of yours has the target as a friend.");
    assert_eq!(
        said(&format!("{friend_of_friend}, out 1 2")),
        "some friend of some friend of yours has the target as a friend."
    );
    assert_eq!(
        said("var 0 0, out 1 0, not 1 0, out 1 2, not 3 0"),
        "every friend of yours has the target as a friend."
    );
    assert_eq!(said("top 0 0, out 1 0, not 1 0"), "no member is a friend of yours.");
}

#[test]
fn names_that_sound_alike() {
    let said = |formula: &str| said_with(["own", "owns"], formula);
    assert_eq!(said("var 0 0, out 0 0"), "you have an own edge to the target.");
    assert_eq!(said("var 0 0, out 1 0"), "you have an owns edge to the target.");
}

#[test]
fn the_past() {
    let shared = "top 0 0, var 0 0, in 2 1";
    assert_eq!(
        said(&format!("{shared}, since 0 2")),
        "the target has at some time shared with you."
    );
    assert_eq!(
        said(&format!("{shared}, since 0 2, not 3 0")),
        "the target has never shared with you."
    );
    assert_eq!(
        said(&format!("{shared}, in 3 1, not 3 0, since 4 2")),
        "the target has at some time shared with you and has not withdrawn from you since."
    );
    assert_eq!(
        said(&format!("{shared}, in 3 1, not 3 0, since 4 2, not 5 0")),
        "it is not the case that the target has at some time shared with you and has not withdrawn from \
         you since."
    );
    assert_eq!(
        said(&format!("{shared}, prev 2 0")),
        "at the moment before this one the target had just shared with you."
    );
    assert_eq!(
        said("top 0 0, var 0 0, out 0 1, not 2 0, since 0 3, not 4 0"),
        "at every moment so far you owned the target."
    );
    assert_eq!(
        said("var 0 0, out 0 0, out 1 0, since 1 2"),
        "there was a moment so far at which you had a blacklist edge to the target and at every one \
         after it until now you owned the target."
    );
}

#[test]
fn and_or() {
    let parts = "var 0 0, out 0 0, out 1 0";
    assert_eq!(
        said(&format!("{parts}, or 1 2")),
        "you either own the target or have a blacklist edge to the target."
    );
    assert_eq!(
        said(&format!("{parts}, not 1 0, not 2 0, or 3 4, not 5 0")),
        "you own the target and have a blacklist edge to the target."
    );
    assert_eq!(
        said(&format!("{parts}, not 1 0, not 2 0, or 3 4, not 5 0, or 0 6")),
        "at least one of these holds:\n\
         - you are the target\n\
         - you own the target and have a blacklist edge to the target"
    );
}

#[test]
fn names_where_they_are_needed() {
    assert_eq!(
        said("var 1 0, var 2 0, in 0 1, not 2 0, at 1 3, bind 2 4, out 1 5, bind 1 6"),
        "you have a blacklist edge to some member that does not own you."
    );
    assert_eq!(
        said("var 2 0, not 0 0, out 1 1, at 0 2, bind 2 3, out 1 4"),
        "you have a blacklist edge to some A such that the target has a blacklist edge to some member \
         that is not A."
    );
}

#[test]
fn shared_parts_are_said_once() {
    // Each `or` has what is below it twice: in full it would be 2^99 parts.
    let mut formula = "var 0 0, out 0 0, in 1 1".to_string();
    for index in (2..200).step_by(2) {
        formula.push_str(&format!(", out 0 {index}, or {index} {}", index + 1));
    }
    let text = said(&formula);
    assert!(text.contains("clause 1") && text.len() < 60_000, "{}", text.len());
}

#[test]
fn deep_parts_are_said_apart() {
    let mut formula = "var 0 0".to_string();
    for index in 0..100 {
        formula.push_str(&format!(", out 1 {index}"));
    }
    let text = said(&formula);
    let longest = text.lines().map(str::len).max().unwrap_or_default();
    assert!(text.contains("Clause 9") && longest < 700, "{longest}");
}

#[test]
fn any_terms_are_read_aloud() {
    for seed in 0..400 {
        let terms = read(&case(seed, 99).text).unwrap().terms;
        let text = Aloud::of(&terms, &Names::default()).text();
        // Never more than so much for each entry and policy.
        let parts = terms.entries.len() + terms.policies.len();
        assert!(text.len() < 2_000 * parts, "seed {seed}: {} for {parts}", text.len());
        assert!(!text.contains(['\u{1}', '\u{2}']), "seed {seed}");
    }
}
