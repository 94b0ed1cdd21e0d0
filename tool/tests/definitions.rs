//! Definitions by their names, in `aloud` and in `why`, with the details under
//! them; and events as the source says them.

mod run_support;

use run_support::{run, Folder};

/// A small library of sounds: who was denied twice is suspended until a bank
/// forgives.
const LIBRARY: &str = "\
members anna, ben, warm-pad, north
relations owns, bank
event share by anyone
event forgive when me is bank
event load
  when me is not suspended
       and some owner owns target: once owner share me
event tweak said \"twiddled with\" when once me load target
event stroll said \"take a walk with / taken a walk with\" when once me tweak target
keep denied load
define p is warned: not someone forgive p since p denied load someone
define p is suspended: not someone forgive p since (p denied load someone and previously p is warned)
first anna owns warm-pad, north is bank
";

fn library(requests: &str) -> Folder {
    let folder = Folder::new();
    folder.write("terms.say", LIBRARY);
    folder.write("requests.tsv", requests);
    folder
}

#[test]
fn aloud_says_the_name_and_then_what_it_is() {
    let said = run(&["aloud", library("").path()]).out;
    for part in [
        "You may forgive the target if you are a bank.\n",
        "You may load the target if you are not suspended and some member",
        "\nA member M is suspended if there was a moment so far of which both of these are true:\n\
         - at that moment M had just been denied permission to load some member and at the moment before that one \
         M was\n  warned\n",
        "\nA member M is warned if M has at some time been denied permission to load some member and no member has\n\
         forgiven M since.\n",
        "You may tweak with the target if you have at some time loaded the target.",
        "You may take a walk with the target if you have at some time twiddled with the target.",
    ] {
        assert!(said.contains(part), "{part}\n\n{said}");
    }
    assert!(!said.contains("clause"), "{said}");
}

#[test]
fn why_says_the_name_and_under_it_why() {
    let folder =
        library("R\t2\t1\t2\nR\t2\t1\t2\nR\t0\t0\t1\nR\t2\t1\t2\nR\t1\t3\t1\nR\t2\t1\t2\n");
    let said = run(&["why", folder.path(), "4"]).out;
    assert_eq!(
        said,
        "4  load ben → warm-pad  denied; moment 4
     ben is suspended
       ben was denied permission to load warm-pad at moment 2, and ben was warned at moment 1, and no \
       member has forgiven ben since
         ben was denied permission to load warm-pad at moment 1
"
    );
    let both = run(&["why", folder.path(), "2", "--all"]).out;
    assert!(both.contains("anna owns warm-pad, but anna has never shared with ben"), "{both}");
    let granted = run(&["why", folder.path(), "6"]).out;
    assert!(granted.contains("     ben is not suspended\n"), "{granted}");
    assert!(granted.contains("but north forgave ben at moment 5"), "{granted}");
}

/// A definition of three has its name, too, also where it is about the past.
#[test]
fn three_people() {
    let folder = Folder::new();
    let terms = "members ann, ben, cem, dot\nrelations friend\n\
        event share by anyone\n\
        define between(a, b, c): a friend b and b friend c\n\
        define vouched(a, b, c): once (b share a and b friend c)\n\
        event meet when me friend some f: between(me, f, target)\n\
        event greet when me friend some f: not vouched(me, f, target)\n\
        first ann friend ben, ben friend cem\n";
    folder.write("terms.say", terms);
    folder.write("requests.say", "meet ann cem\nmeet ann dot\nshare ben ann\ngreet ann cem\n");
    let said = run(&["aloud", folder.path()]).out;
    for part in [
        "You may meet the target if some A that is a friend of yours is such that between holds of you, A and the\n\
         target.\n",
        "is such that vouched does not hold of you, A and\nthe target.\n",
        "\nbetween holds of A, M and the target if M is a friend of A and the target is a friend of M.\n",
        "\nvouched holds of A, M and the target if at some moment so far M had just shared with A and the target was a\n\
         friend of M.\n",
    ] {
        assert!(said.contains(part), "{part}\n\n{said}");
    }
    let said = run(&["why", folder.path()]).out;
    for part in [
        "between holds of ann, ben and cem\n       ben is a friend of ann\n",
        "but between does not hold of ann, ben and dot\n       dot is not a friend of ben\n",
        "but vouched holds of ann, ben and cem\n       ben shared with ann at moment 2",
    ] {
        assert!(said.contains(part), "{part}\n\n{said}");
    }
}

#[test]
fn a_verb_that_is_not_known_is_asked_for() {
    let folder = Folder::new();
    folder.write("terms.say", "members a, b\nevent zap by anyone\n");
    let said = run(&["check", folder.path()]).out;
    assert!(said.contains("terms.say:2:7: warning: the verb `zap` is not known"), "{said}");
    assert!(said.contains("`event zap said \"...\"`"), "{said}");
    folder.write("terms.say", "members a, b\nevent zap said \"zapped\" by anyone\n");
    assert_eq!(run(&["check", folder.path()]).out.lines().count(), 2);
    assert_eq!(run(&["compile", folder.path()]).status, 0);
    assert!(folder.read("names.tsv").contains("event\t0\tzap\tzap\tzapped\n"));
}

/// Whoever is handed to a definition is the same member in its head and in its body, also
/// where the definition stands at somebody else.
#[test]
fn a_definition_speaks_of_one_member() {
    let folder = Folder::new();
    folder.write(
        "terms.say",
        "members dora, pete, saw\nrelations owns, friend\nevent share, withdraw by anyone\n\
         event load when me gets target\n\
         event show when some x friend target: x is not me and me gets target\n\
         event keep when me is not spared\n\
         define p gets s: some o owns s: not o withdraw p since o share p\n\
         define p is spared: p owns p and some o owns target: once o share p\n\
         first dora owns saw\n",
    );
    let said = run(&["aloud", folder.path()]).out;
    for part in [
        "You may load the target if you get the target.",
        "of some A such that A is not you and you get the target.",
        "A member M gets the target if some member that owns the target has at some time shared with M and has \
         not\nwithdrawn from M since.",
        "A member M is spared if M owns themselves and some member that owns the target has at some time shared with M.",
    ] {
        assert!(said.contains(part), "{part}\n\n{said}");
    }
}

/// `trusts` is an entry for each way in which its people are told apart.
#[test]
fn a_definition_is_told_once() {
    let folder = Folder::new();
    folder.write(
        "terms.say",
        "members dora, pete, saw\nrelations owns, bandmate\nevent share, withdraw by anyone\n\
         define a trusts b: not a withdraw b since a share b\n\
         event load when (some o owns target: o trusts me and me trusts o) and target trusts me\n\
         event play when some bandmate of me as b: b trusts target\n\
         event meet when me bandmate target then add target bandmate me\n\
         first dora bandmate pete\n",
    );
    let said = run(&["aloud", folder.path()]).out;
    let told = "A member M trusts A if M has at some time shared with A and has not withdrawn from A since.\n";
    assert!(said.ends_with(&format!("\n\n{told}")), "{said}");
    assert_eq!(said.matches(" trusts A if ").count(), 1, "{said}");
    assert_eq!(said.matches(" if ").count(), 4, "{said}");
    assert!(said.contains("if some bandmate of yours trusts the target."), "{said}");
    assert!(said.contains("From then on you are a bandmate of the target."), "{said}");
}

/// Where the same name says different things, each is told.
#[test]
fn what_differs_is_told_each_time() {
    let folder = Folder::new();
    folder.write(
        "terms.say",
        "members dora, pete\nevent share by anyone\n\
         define a near b: (once a share b) or (once target share a)\n\
         event load when some x such that once me share x: x near me and target near x\n",
    );
    let said = run(&["aloud", folder.path()]).out;
    assert!(said.matches("near holds of ").count() >= 3, "{said}");
}
