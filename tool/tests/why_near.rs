//! Near misses of denials: the moments at which a part of a condition held, and what was lacking.

mod run_support;

use run_support::{run, Folder};

const DECLARED: &str = "\
members dora, eve, pete, quin, saw
relation owns
event share, withdraw, suspend, lift, vouch said \"vouched for\" by anyone
define p is suspended: not someone lift p since someone suspend p
define p is trusted: not someone suspend p since someone vouch p
define p is welcome: someone share p and p is not suspended
first dora owns saw
";

/// Why `load pete saw` is denied after some requests.
fn why(policy: &str, requests: &[&str]) -> Vec<String> {
    told(policy, requests, &[])
}

fn told(policy: &str, requests: &[&str], options: &[&str]) -> Vec<String> {
    let folder = Folder::new();
    folder.write("terms.say", &format!("{DECLARED}event load when {policy}\n"));
    folder.write("requests.say", &format!("{}\nload pete saw\n", requests.join("\n")));
    let line = (requests.len() + 1).to_string();
    let said = run(&[&["why", folder.path(), &line], options].concat()).out;
    let mut lines = said.lines();
    assert!(lines.next().is_some_and(|line| line.contains("denied")), "{said}");
    let indent = format!("{}  ", " ".repeat(line.len()));
    lines
        .map(|line| line.strip_prefix(&format!("{indent}  ")).unwrap_or(line).to_string())
        .collect()
}

const SHARED_AND_NOT_SUSPENDED: &str =
    "some owner owns target: once (owner share me and me is not suspended)";

#[test]
fn an_event_that_came_at_the_wrong_moment() {
    assert_eq!(
        why(SHARED_AND_NOT_SUSPENDED, &["suspend quin pete", "share dora pete", "lift quin pete"]),
        [
            "dora owns saw, and dora shared with pete at moment 2, but pete was suspended then",
            "  quin suspended pete at moment 1, and no member had lifted pete since",
        ]
    );
}

#[test]
fn a_part_that_never_held_is_all_that_is_told() {
    assert_eq!(
        why(SHARED_AND_NOT_SUSPENDED, &["suspend quin pete", "lift quin pete"]),
        ["dora owns saw, but dora has never shared with pete"]
    );
    let trusted = "some owner owns target: once (owner share me and owner is trusted)";
    assert_eq!(
        why(trusted, &["share dora pete", "share eve pete"]),
        [
            "dora owns saw, and dora shared with pete at moment 1, but dora was not trusted then",
            "  no member had ever vouched for dora up to moment 1",
        ]
    );
}

#[test]
fn the_nearest_moments_are_named_and_the_others_counted() {
    let mut requests = vec!["suspend quin pete"];
    requests.extend(["share dora pete"; 2]);
    let first = |requests: &[&str], options: &[&str]| {
        told(SHARED_AND_NOT_SUSPENDED, requests, options).remove(0)
    };
    assert_eq!(
        first(&requests, &[]),
        "dora owns saw, and dora shared with pete at moment 3, but pete is suspended, and so it was at moment 2"
    );
    requests.extend(["share dora pete"; 4]);
    let begin = "dora owns saw, and dora shared with pete at moment 7, but pete is suspended";
    assert_eq!(
        first(&requests, &[]),
        format!("{begin}, and so it was at moments 6 and 5 and 3 other moments")
    );
    let all = first(&requests, &["--all"]);
    assert_eq!(all, format!("{begin}, and so it was at moments 6, 5, 4, 3 and 2"));
}

#[test]
fn two_states_that_never_met() {
    let both = "once (me is trusted and some owner owns target: owner is suspended)";
    let told = why(
        both,
        &[
            "vouch quin pete",
            "suspend quin pete",
            "suspend quin dora",
            "lift quin dora",
            "share eve eve",
        ],
    );
    assert_eq!(
        told,
        [
            "dora owned saw at moment 3, and dora was suspended then, but pete was not trusted then",
            "  quin suspended dora at moment 3",
            "  quin vouched for pete at moment 1, but quin suspended pete at moment 2",
            "pete was trusted at moment 1, and dora owned saw then, but dora was not suspended then",
            "  quin vouched for pete at moment 1",
            "  no member had ever suspended dora up to moment 1",
        ]
    );
}

#[test]
fn what_must_not_be_and_was() {
    let open = "once (someone share me and not me share someone)";
    assert_eq!(
        why(open, &["share pete pete", "lift quin eve"]),
        ["pete shared with pete at moment 1, but pete shared with pete then"]
    );
}

#[test]
fn a_definition_that_never_held() {
    assert_eq!(
        why("once me is welcome", &["suspend quin pete", "share dora pete", "lift quin pete"]),
        [
            "there was no moment so far at which pete was welcome",
            "  dora shared with pete at moment 2, but pete was suspended then",
            "    quin suspended pete at moment 1, and no member had lifted pete since",
        ]
    );
}

#[test]
fn both_conditions_of_a_since() {
    let kept = "(me is not suspended and target is not suspended) since someone vouch me";
    assert_eq!(
        why(kept, &["vouch quin pete", "suspend eve saw", "suspend eve pete", "lift eve saw"]),
        [
            "quin vouched for pete at moment 1, but saw was suspended at moment 2",
            "  eve suspended saw at moment 2",
        ]
    );
    // The beginning is the conjunction.
    let begun = "not someone withdraw me since (someone share me and me is trusted)";
    assert_eq!(
        why(begun, &["share dora pete", "vouch quin pete", "share eve dora"]),
        [
            "dora shared with pete at moment 1, but pete was not trusted then",
            "  no member had ever vouched for pete up to moment 1",
        ]
    );
}

#[test]
fn inside_somebody_found_at_that_moment() {
    let found = "once (some owner owns target: owner share me and me is trusted)";
    assert_eq!(
        why(found, &["share dora pete", "vouch quin pete"]),
        [
            "dora owned saw at moment 1, and dora shared with pete then, but pete was not trusted then",
            "  no member had ever vouched for pete up to moment 1",
        ]
    );
    // Of two who shared with me, one was trusted and one was the owner.
    let sharer = "once (some x share me: x is trusted and x owns target)";
    let told =
        why(sharer, &["share dora pete", "vouch quin eve", "share eve pete", "lift eve eve"]);
    for near in [
        "dora shared with pete at moment 1, and dora owned saw then, but dora was not trusted then",
        "eve shared with pete at moment 3, and eve was trusted then, but eve did not own saw then",
    ] {
        assert!(told.iter().any(|line| line == near), "{told:#?}");
    }
}

#[test]
fn nor_at_another_moment_after_what_was_not_so() {
    let trusted = "some owner owns target: once (owner share me and owner is trusted)";
    let told =
        why(trusted, &["share dora pete", "lift eve eve", "share dora pete", "lift eve eve"]);
    assert_eq!(
        told[0],
        "dora owns saw, and dora shared with pete at moment 3, but dora was not trusted then, nor at moment 1"
    );
}

#[test]
fn lines_about_several_moments_say_which() {
    let kept =
        "not (someone withdraw me and me is trusted) since (someone share me and me is trusted)";
    assert_eq!(
        why(kept, &["vouch quin pete", "share dora pete", "vouch eve pete", "withdraw dora pete"]),
        [
            "dora shared with pete at moment 2, and pete was trusted then, but dora withdrew from pete at moment 4, \
             and pete is trusted",
            "  at moment 2: quin vouched for pete at moment 1, and no member had suspended pete since",
            "  now: eve vouched for pete at moment 3, and no member has suspended pete since",
        ]
    );
}

#[test]
fn two_events_at_one_moment() {
    let both = "once (target share me and target withdraw me)";
    assert_eq!(
        why(both, &["share saw pete", "lift eve eve"]),
        [
            "saw shared with pete at moment 1, but saw did not withdraw from pete then",
            "two events never share a moment",
        ]
    );
}
