//! Forms that say the same in other words, and the laws of the derived ones.

use cuckooormolu_tool::source::{compile, parse};

const START: &str = "members a, b\nrelation owns, friend\nevent share by anyone\n";

/// The compiled terms of a policy.
fn terms(formula: &str) -> Vec<u8> {
    let text = format!("{START}event load when {formula}\n");
    compile(&text).unwrap_or_else(|mistake| panic!("{mistake:?}")).text()
}

#[test]
fn the_same_terms() {
    let pairs = [
        ("me owns target and me is target", "not (not me owns target or not me is target)"),
        ("once me share target", "true since me share target"),
        ("always me owns target", "not (true since not me owns target)"),
        ("never me share target", "not once me share target"),
        ("every x owns target: x friend me", "not (some x owns target: not x friend me)"),
        ("me owns every x: x friend me", "not (me owns some x: not x friend me)"),
        ("false", "not true"),
        ("nobody owns target", "not someone owns target"),
        ("me owns nobody", "not me owns someone"),
        ("me is not target", "not me is target"),
        ("me is friend of target", "target friend me"),
        ("me is not friend of target", "not target friend me"),
        ("some friend of target as f: f is me", "target friend some f: f is me"),
        ("some friend of target: here is me", "target friend some f: f is me"),
        ("every friend of target: here owns me", "target friend every f: f owns me"),
        ("some owns target: here friend me", "some x owns target: x friend me"),
        ("some friend of target", "target friend someone"),
        ("me is owns", "me owns me"),
        ("here owns target", "me owns target"),
        ("(((me owns target)))", "me owns target"),
        (
            "every x such that me owns x: x is target",
            "not (some x such that me owns x: not x is target)",
        ),
        (
            "some x such that once target share x: x is me",
            "at target: some x such that once here share x: x is me",
        ),
        (
            "some x such that once me share x: here owns target",
            "some x such that once here share x: x owns target",
        ),
    ];
    for (one, other) in pairs {
        assert_eq!(terms(one), terms(other), "{one}\n{other}");
    }
}

#[test]
fn counted() {
    // Along edges that come from whom is sought, each has a name.
    let spelled =
        "some f owns target: f owns me and (some g owns target: g is not f and g owns me)";
    let counted = "at least 2 f owns target: f owns me";
    assert_eq!(terms(counted), terms(spelled));
    // Along edges that lead to them, they are counted.
    let has = |formula: &str, entry: &str| {
        let text = String::from_utf8(terms(formula)).unwrap();
        assert!(text.contains(&entry.replace(' ', "\t")), "{formula}\n{text}");
    };
    has("at least 2 friend of target as f: f owns me", " many 1 2 2\n");
    has("me friend at least 64: here is target", " many 1 1 64\n");
    has("at least 1 friend of me", " many 1 0 1\n");
    assert_eq!(
        terms("at least 3 friend of target as f: f is not me"),
        terms("target friend at least 3: not here is me"),
    );
}

#[test]
fn definitions() {
    let with = |define: &str, formula: &str| {
        let text = format!("{START}{define}\nevent load when {formula}\n");
        compile(&text).unwrap_or_else(|mistake| panic!("{mistake:?}")).text()
    };
    let plain = terms("me owns target and target friend me");
    let two = "x owns y and y friend x";
    assert_eq!(with(&format!("define x likes y: {two}"), "me likes target"), plain);
    assert_eq!(with(&format!("define likes(x, y): {two}"), "likes(me, target)"), plain);
    assert_eq!(with("define x is dear: x owns target and target friend x", "me is dear"), plain);
    assert_eq!(with("define dear: me owns target and target friend me", "dear"), plain);
    // Inside a walk, `here` given to a definition stays whom it was.
    let inside =
        with("define x is shy: x owns every y: y friend x", "some friend of target: here is shy");
    let outside =
        with("define x is shy: x owns every y: y friend x", "some friend of target as f: f is shy");
    assert_eq!(inside, outside);
}

#[test]
fn statements() {
    let short = "members a, b\nrelations r\nevents e, f by anyone then add me r target\nfirst a r a and b both ways\n";
    let long = "member a member b relation r event e by anyone then add me r target
        event f when true then add me r target   # a comment
        first a r a, a r a, a r b, b is r of a, b r a";
    let (short, long) = (compile(short).unwrap(), compile(long).unwrap());
    assert_eq!(short.text(), long.text());
    assert_eq!(short.names, long.names);
    assert_eq!(short.terms.edges.len(), 3);
    assert_eq!(parse("first a is r").unwrap(), parse("first a r a").unwrap());
}

/// Equal parts are one entry, also across policies and definitions.
#[test]
fn shared() {
    let compiled = compile(&format!(
        "{START}define d: once me share target
        event x when d and (some p owns target: d)
        event y when not once me share target"
    ));
    assert_eq!(compiled.unwrap().terms.past().len(), 1);
}
