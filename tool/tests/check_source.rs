//! `check` on a source speaks of its lines, never of entries or labels.

mod run_support;

use run_support::{run, Folder};

const START: &str =
    "members dora, pete, saw\nrelations owns, likes\nevents share, load by anyone\n\
                     first dora owns saw\n";

/// What `check` says of a source, with the file called by its name alone.
fn said(rest: &str) -> String {
    let folder = Folder::new();
    folder.write("terms.say", &format!("{START}{rest}\n"));
    let said = run(&["check", folder.path()]);
    assert_eq!((said.status, said.err.as_str()), (0, ""));
    let file = folder.file("terms.say").display().to_string();
    assert_eq!(run(&["check", &file]).out, said.out);
    said.out.replace(&format!("{}/", folder.path()), "")
}

#[test]
fn warnings_stand_at_their_lines() {
    let cases = [
        (
            "event edit when me owns target and me likes target",
            "terms.say:5:36: warning: `likes` never has an edge, so this is never true",
        ),
        (
            "event edit when me denied load target or me owns target",
            "terms.say:5:17: warning: denied requests of `load` are not kept, so this is never true",
        ),
        ("event edit when me denied load target or me owns target", "add a statement `keep denied load`"),
        (
            "event edit when me share target since me owns target",
            "terms.say:5:17: warning: `share` is true for one moment only",
        ),
        (
            "event edit\n  when at least 4 owns of me",
            "terms.say:6:8: warning: this asks for at least 4 members, and there are 3",
        ),
        (
            "event edit when at least 2 share of me",
            "this asks for at least 2 of `share`, and a moment has one event at most",
        ),
        (
            "event edit when me owns target and not me owns target",
            "requests were tried, and nobody was ever granted edit",
        ),
    ];
    for (rest, part) in cases {
        let said = said(rest);
        assert!(said.contains(part), "{rest}:\n{said}");
        for word in ["entry", "label ", "`K", "P line", "terms.tsv", "`top`", "`out`"] {
            assert!(!said.lines().skip(1).any(|line| line.contains(word)), "{word}:\n{said}");
        }
    }
}

#[test]
fn for_programs() {
    let folder = Folder::new();
    folder.write("terms.say", &format!("{START}event edit when me likes target\n"));
    let said = run(&["check", folder.path(), "--json"]).out;
    let second = said.lines().nth(1).unwrap();
    assert!(second.starts_with("{\"warning\":\"edgeless\",\"file\":"), "{said}");
    assert!(second.contains("terms.say\",\"line\":5,\"column\":"), "{said}");
}

/// The terms file that a host would open is older than the source.
#[test]
fn outdated_terms_are_told() {
    let folder = Folder::new();
    folder.write("terms.say", START);
    assert_eq!(run(&["compile", folder.path()]).status, 0);
    assert!(!run(&["check", folder.path()]).out.contains("terms.tsv"));
    folder.write("terms.say", &format!("{START}first pete owns saw\n"));
    let said = run(&["check", folder.path()]).out;
    assert!(said.contains("terms.tsv is not what terms.say compiles to"), "{said}");
    assert_eq!(run(&["compile", folder.path()]).status, 0);
    assert!(!run(&["check", folder.path()]).out.contains("terms.tsv"));
}

/// A policy that is met only after two requests, in that order, is not said to be never met.
#[test]
fn a_policy_that_is_seldom_met_is_tried_for_long() {
    let folder = Folder::new();
    folder.write(
        "terms.say",
        "members players: anna, ben, cleo; presets: warm-pad, glass-bell; banks: north\n\
         relations owns, friend\n\
         event share, withdraw when me is player and target is player\n\
         event befriend when me is player and target is player then add me friend target\n\
         event suspend, lift when me is bank and target is player\n\
         event remix when some owner owns target: once (owner share me and me friend owner)\n\
         first anna owns warm-pad, ben owns glass-bell\n",
    );
    let said = run(&["check", folder.path()]);
    assert!(!said.err.contains("remix") && !said.out.contains("remix"), "{}{}", said.out, said.err);
    folder.write("requests.say", "remix cleo warm-pad\nremix cleo warm-pad\n");
    let said = run(&["check", folder.path()]).out;
    assert!(said.contains("requests.say asks 2 times for remix and is denied each time"), "{said}");
    assert!(said.contains("= `cuckooormolu why` says what was lacking each time"), "{said}");
}

/// What is said of two moments is true at the second alone.
#[test]
fn what_was_so_twice_is_forgotten() {
    let twice = "p denied load someone and previously once p denied load someone";
    let with = |body: &str, policy: &str| {
        said(&format!("keep denied load\ndefine p is suspended: {body}\nevent edit when {policy}"))
    };
    let policy = "me owns target and me is not suspended";
    let told = with(twice, policy);
    let warning = "terms.say:6:24: warning: this holds for one moment only: `p denied load someone` is forgotten";
    assert!(told.contains(warning), "{told}");
    assert!(told.contains("put `once (...)` around the whole"), "{told}");
    let plain = "warning: this holds for one moment only";
    for (body, policy) in [
        (format!("once ({twice})"), policy),
        (format!("not someone share p since ({twice})"), policy),
        (twice.to_string(), "me owns target and not once me is suspended"),
    ] {
        let told = with(&body, policy);
        assert!(!told.contains(plain), "{told}");
    }
    // Said of the one who asks, now, it may be meant.
    let asked = said(&format!("keep denied load\nevent edit when {}", twice.replace("p ", "me ")));
    assert!(!asked.contains(plain), "{asked}");
}

#[test]
fn a_relation_that_only_names_somebody() {
    let plain = "is a relation, but here it only names the one who is sought";
    let told = said(
        "event edit when some likes owns target\nevent befriend by anyone then add me likes target",
    );
    assert!(told.contains(&format!("terms.say:5:22: warning: `likes` {plain}")), "{told}");
    assert!(
        told.contains("`some likes of me as f: f owns target`, else choose another name"),
        "{told}"
    );
    let told = said(
        "event edit when me owns some likes\nevent befriend by anyone then add me likes target",
    );
    assert!(told.contains("`some likes of me as f: me owns f`"), "{told}");
    for policy in
        ["some likes of me as f: f owns target", "me likes some likes", "some owner owns target"]
    {
        let told = said(&format!(
            "event edit when {policy}\nevent befriend by anyone then add me likes target"
        ));
        assert!(!told.contains(plain), "{told}");
    }
}

/// Five requests in order: hardly met by chance, and too far for a short search.
const SELDOM: &str = "\
members players: p1, p2, p3, p4, p5, p6, p7, p8, p9, p10; presets: saw, pad, bell, drum; banks: north
relations owns, friend
event share, withdraw when me is player and target is player
event befriend when me is player and target is player then add me friend target
event suspend, lift when me is bank and target is player
event praise when me share target and previously (me withdraw target and previously (target share me
  and previously (target withdraw me and previously me befriend target)))
first p9 owns saw, p10 owns pad, p8 owns bell
";

#[test]
fn what_the_tests_are_granted_counts() {
    let folder = Folder::new();
    folder.write("terms.say", SELDOM);
    let never = "nobody was ever granted praise";
    assert!(run(&["check", folder.path()]).out.contains(never));
    let steps =
        ["p1 befriend p2", "p2 withdraw p1", "p2 share p1", "p1 withdraw p2", "p1 share p2"];
    let steps: String = steps.iter().map(|step| format!("  given {step}\n")).collect();
    folder.write("tests.say", &format!("test praise in its turn\n{steps}  p1 may praise p2\n"));
    assert_eq!(run(&["test", folder.path()]).status, 0);
    let said = run(&["check", folder.path()]).out;
    assert!(!said.contains(never), "{said}");
    // Tests with a mistake count for nothing.
    folder.write("tests.say", "p1 may praise p2\n");
    assert!(run(&["check", folder.path()]).out.contains(never));
}

/// Two requests of certain members, which a search finds.
#[test]
fn a_short_search_comes_before_the_warning() {
    let folder = Folder::new();
    let praise = "event praise when (some b lift me: b is bank) and \
        (previously some s share target: s owns some preset) and me is not target\n";
    let (before, rest) = SELDOM.split_once("event praise").unwrap();
    let (_, after) = rest.split_once("first").unwrap();
    let with = |praise: &str| format!("{before}{praise}first{after}");
    folder.write("terms.say", &with(praise));
    let said = run(&["check", folder.path()]).out;
    assert!(!said.contains("nobody was ever granted"), "{said}");
    let impossible = "event praise when me is preset and (some b lift me: b is bank)\n";
    folder.write("terms.say", &with(impossible));
    let said = run(&["check", folder.path()]).out;
    assert!(said.contains("nobody was ever granted praise"), "{said}");
}
