//! What is said of sources with mistakes.

use cuckooormolu_tool::source::compile;
use cuckooormolu_tool::source::mistake::Mistake;

const START: &str = "members dora, pete, saw\nrelation owns\nevent share, withdraw by anyone\n";

/// What is said of a source that begins with `START`.
fn said(rest: &str) -> String {
    let text = format!("{START}{rest}\n");
    match compile(&text) {
        Ok(_) => panic!("accepted: {rest}"),
        Err(mistakes) => shown(&mistakes, &text),
    }
}

/// Every mistake at its place.
fn shown(mistakes: &[Mistake], text: &str) -> String {
    mistakes.iter().map(|mistake| mistake.render("f", text)).collect()
}

/// What is said of a policy.
fn policy(formula: &str) -> String {
    said(&format!("event load when {formula}"))
}

#[test]
fn shown_at_its_place() {
    let shown = "\
f:4:28: no relation or event `own`; did you mean `owns`?
 4 | event load when some owner own target: owner share me
   |                            ^^^
   = relations and events: owns, share, withdraw, load
";
    assert_eq!(policy("some owner own target: owner share me"), shown);
}

/// A part of the message for each mistake.
#[test]
fn named_precisely() {
    let cases = [
        (
            "some owner owns target: ownr share me",
            "4:41: nobody is called `ownr` here; did you mean `owner`?",
        ),
        (
            "me owns target and me share target or true",
            "4:52: `or` after `and`: which of the two goes first?",
        ),
        ("true since true since true", "`since` after `since`"),
        ("dora owns target", "`dora` is a member; a formula cannot name a single member"),
        ("initiator owns target", "who makes the request is `me`"),
        ("me owns target && true", "write `and`"),
        ("me owns target -> true", "dora owns saw"),
        ("me owns", "expected whom"),
        ("me target", "`target` is reserved"),
        ("(me owns target", "4:17: this `(` is not closed"),
        ("me owns target an true", "found `an`; did you mean `and`?"),
        ("owns", "`owns` alone is no formula"),
        ("someone owns someone", "one of the two must be somebody"),
        ("someone owns some x: true", "a walk begins at somebody"),
        ("nonsense", "no definition `nonsense`"),
        ("me is friendly", "nobody, no attribute and no definition is called `friendly` here"),
        ("me likes target", "no relation or event `likes`"),
        ("at least 0 owns of me", "expected a number, 1 or more, after `at least`, found `0`"),
        ("at least 65 owns of me", "at least 65 is more than there can be"),
        ("at least 16 owns me", "counting 16 members from whom edges come takes 16 names"),
        (
            "some x such that once (me share x and target share x): true",
            "4:34: `once (me share x and target share x)` speaks of 3 people: me, x and target; what leads to `x` may speak of `x` and one other",
        ),
        ("some x such once me share x: true", "expected `that` after `such`, found `once`"),
        ("some x such that me share x", "expected `:` after whom it leads to"),
        ("some x such that me owns some y: true", "parentheses keep it inside"),
        ("at least 2 x such that me owns x: true", "`at least` counts along a relation or an event"),
        ("every x owns target", "expected `:` and what holds of every one"),
        ("some x owns target: 3", "expected a formula, found `3`"),
        ("target not is owned", "write `target is not owned`"),
        ("me not owns target", "4:20: `not` goes before a sentence, or after `is`"),
        ("some x owns target: x not share me", "write `never x share me`; `not x share me` is about the last moment only"),
        ("target isnt me", "write `target is not me`"),
        ("target isn't me", "`target is not preset`"),
        ("me didnt share target", "put `not` before the sentence"),
        ("target is no preset", "write `target is not preset`"),
        ("owner of target share me", "4:17: `owner of target` names nobody"),
        ("owns of target share me", "look for them: `some owns of target as x: ...`"),
        ("target.owner share me", "`some owner owns target: ...`"),
        ("owner owns target and owner share me", "to look for somebody, say `some owner owns target:`"),
        ("some owner owns target, owner share me", "4:39: a `,` where a `:` goes"),
        ("at most 3 owns of me", "write `not` before `at least 4 ...`"),
        ("3 owns of me", "`at least 3 owns of me`"),
        ("once share", "say who and whom: `once me share target`"),
        ("me owns target\nplayers: cleo", "`members players: ...`"),
        ("me owns target\nfirst dora owns warm pad", "a name of two words is joined by `-`"),
        ("me is shut\ndefine shut: me is not target", "`define p is shut: ...`"),
        ("the owner of target share me", "write `some owner owns target: owner share me`"),
        ("if me owns target", "leave it out: a condition begins after `when`"),
        ("unless me owns target", "write `not` before the sentence"),
        ("everyone", "is written `by anyone`"),
        ("me can load target", "4:20: `can` has no meaning here"),
        ("once me load target twice", "`once (me load target and previously once me load target)`"),
        ("me owns target\ndora owns saw", "begins with `first`: `first dora owns saw`"),
        ("me owns target\nallow share", "is said where it is declared: `event load when me owns target`"),
        ("me owns target\nfirst dora, pete owns saw", "one fact for each: `first dora owns saw, pete owns saw`"),
        ("3rd owns target", "`3rd` is neither a number nor a name"),
        ("me owns the target", "leave out `the`: `target` stands alone"),
        ("some owner owns target: once owner share with me", "leave it out: `owner share me`"),
        ("some owner owns target: once owner shared with me", "write `once owner share me`"),
    ];
    let told = |(formula, part): &(&str, &str)| {
        let message = policy(formula);
        (!message.contains(part)).then(|| format!("{formula}: {part}\n{message}\n"))
    };
    let wrong: String = cases.iter().filter_map(told).collect();
    assert!(wrong.is_empty(), "{wrong}");
}

#[test]
fn in_statements() {
    let cases = [
        ("evnt load by anyone", "4:1: expected `and`, `or`, `since` or the next statement, found `evnt`; did you mean `event`?"),
        ("relation likes evnt load", "4:16: expected `,` or the next statement, found `evnt`; did you mean `event`?"),
        ("event load", "expected `when` and who may do it, or `by anyone`"),
        ("keep share", "4:6: expected `denied` after `keep`, found `share`"),
        ("keep denied", "expected the name of an event, found the end of the file"),
        ("keep denied shrae", "4:13: no event `shrae`; did you mean `share`?"),
        ("keep denied owns", "4:13: no event `owns`"),
        ("keep denied share, share", "4:20: denied `share` is kept already"),
        ("event load when me denied owns target", "no event `owns` that could be denied"),
        ("event load when me denied shrae target", "4:20: no event `shrae` that could be denied; did you mean `share`?"),
        ("event load when me denied some", "expected the name of an event after `denied`"),
        ("event denied by anyone", "`denied` is reserved"),
        ("event load by players", "such as `when me is player`"),
        ("event load for players", "such as `when me is player`"),
        ("event load by everyone", "expected `anyone` after `by`, found `everyone`"),
        ("event load when: me owns target", "4:16: no `:` follows `when`"),
        ("members players: ann, bob;", "nothing follows the last `;`"),
        ("event load by anybody", "write `by anyone`"),
        ("event load by anyone and me owns target", "4:22: `and` after `by anyone`, which has no condition"),
        ("event load by anyone add me owns target", "4:22: `then` is missing here"),
        ("event load by anyone\n  remove me owns target", "write `then remove me owns target`"),
        ("event first by anyone", "`first` is reserved"),
        ("event load by anyone then add me own target", "write `add me owns target`"),
        ("event load by anyone then add dora owns target", "an effect is between `me` and `target`"),
        ("event load by anyone then give me owns target", "expected `add` or `remove`, found `give`"),
        ("first dora owns swa", "no member `swa`; did you mean `saw`?"),
        ("first dora owns saw both", "expected `ways` after `both`"),
        ("members dora", "4:9: the member `dora` is already declared, in line 1"),
        ("relation share", "4:10: `share` is already the name of an event, in line 3"),
        ("define x likes y: x owns y event load when me likes someone", "it is said of two people"),
        ("define x likes y: y likes x", "`likes` is defined by itself"),
        ("define x is odd: x is y", "nobody, no attribute and no definition is called `y`"),
        ("define x likes y: x owns y event load when some x likes me: true", "nobody can be sought along it"),
        ("define x is odd: true event load when odd(me, target)", "`odd` is about one person, but has 2 people here"),
    ];
    let told = |(rest, part): &(&str, &str)| {
        let message = said(rest);
        (!message.contains(part)).then(|| format!("{rest}: {part}\n{message}\n"))
    };
    let wrong: String = cases.iter().filter_map(told).collect();
    assert!(wrong.is_empty(), "{wrong}");
}

#[test]
fn the_past_may_speak_of_three() {
    let message = policy("some x owns target: some y owns x: once (x share me and y share target)");
    let part = "`once (x share me and y share target)` speaks of 4 people: y, x, me and target; what is about the past may speak of 3";
    assert!(message.contains(part), "{message}");
    // Three are accepted wherever the part stands, and a fourth may be sought in it.
    for formula in [
        "some x owns target: once me share target",
        "some x owns target: some y owns x: not me share target since target share me",
        "once (me owns some x: x share target)",
        "previously (me share target and target share me)",
        "some x owns target: once (x share me and x share target)",
        "some x owns target: some y owns x: not x share me since y share me",
        "some x owns target: once (x share me and (some y owns x: y share target))",
    ] {
        assert!(compile(&format!("{START}event load when {formula}")).is_ok(), "{formula}");
    }
}

/// With 17 members the past may speak of two, and with 16 of three.
#[test]
fn sixteen_members_may_have_a_past_of_three() {
    let said = |members: usize, formula: &str| {
        let more: Vec<String> = (3..members).map(|member| format!("m{member}")).collect();
        let text = format!("{START}members {}\nevent load when {formula}\n", more.join(", "));
        compile(&text).map_err(|mistakes| shown(&mistakes, &text))
    };
    let three = "some x owns target: once (x share me and x share target)";
    let terms = said(16, three).unwrap().terms;
    assert_eq!(terms.paired(), [0]);
    let message = said(17, three).unwrap_err();
    let part = "speaks of 3 people: x, me and target; with 17 members, what is about the past may speak of 2";
    assert!(message.contains(part), "{message}");
    assert!(message.contains("with at most 16 members it may speak of three"), "{message}");
    let two = "some x owns target: once (x share me and me share x)";
    assert!(said(17, two).is_ok() && said(64, two).is_ok());
    // What speaks of two has one variable, whatever the members.
    for members in [4, 16, 17] {
        assert_eq!(said(members, two).unwrap().terms.paired(), [], "{members}");
    }
}

#[test]
fn limits() {
    let numbered = |count: usize, kind: &str| {
        let names: Vec<String> = (0..count).map(|n| format!("{kind}{n}")).collect();
        names.join(", ")
    };
    assert!(said(&format!("members {}", numbered(62, "m")))
        .contains("65 members are declared; at most 64 are allowed"));
    assert!(said(&format!("relation {}", numbered(16, "r")))
        .contains("17 relations are declared; at most 16 are allowed"));
    assert!(said(&format!("event {} by anyone", numbered(15, "e")))
        .contains("17 events are declared; at most 16 are allowed"));
    let effects = ["add me owns target"; 5].join(", ");
    assert!(said(&format!("event load by anyone then {effects}"))
        .contains("`load` has more than 4 effects"));
    let past: Vec<String> =
        (0..33).map(|n| "previously ".repeat(n + 1) + "me owns target").collect();
    let message = policy(&past.join(" or "));
    assert!(message.contains("the terms have 33 parts about the past"), "{message}");
    let long: Vec<String> = (0..300).map(|n| "not ".repeat(n % 150) + "me owns target").collect();
    let message = policy(&long.join(" or "));
    assert!(message.contains("entries") && message.contains("256 is the most"), "{message}");
    let deep = "(".repeat(500) + "true" + &")".repeat(500);
    assert!(policy(&deep).contains("more than 200 deep"));
    let empty = compile("").unwrap_err();
    assert_eq!(empty[0].message, "no member is declared; declare at least one");
}

/// Whatever is done to a source, it compiles or a place in it is shown.
#[test]
fn damaged_sources_are_answered() {
    let text = include_str!("../../../examples/coauthors/terms.say");
    let letters: Vec<char> = text.chars().collect();
    let pieces = [
        "(",
        ")",
        ":",
        ",",
        "not ",
        "some ",
        "é",
        "\t",
        "#",
        "at least 3 ",
        "as x: ",
        "\n",
        "9",
        "\u{feff}",
    ];
    let mut dice = crate::generate::Dice::new(7);
    for _ in 0..4_000 {
        let mut damaged = letters.clone();
        for _ in 0..1 + dice.below(3) {
            let place = dice.below(damaged.len());
            let end = (place + dice.below(12)).min(damaged.len());
            let piece: Vec<char> = pieces[dice.below(pieces.len())].chars().collect();
            match dice.below(3) {
                0 => drop(damaged.drain(place..end)),
                1 => drop(damaged.splice(place..place, piece)),
                _ => drop(damaged.splice(place..end, piece)),
            }
        }
        let damaged: String = damaged.into_iter().collect();
        for mistake in compile(&damaged).err().unwrap_or_default() {
            let (line, column) = mistake.place(&damaged);
            let shown = mistake.render("f", &damaged);
            assert!(shown.starts_with(&format!("f:{line}:{column}: ")), "{shown}");
        }
    }
}

#[test]
fn definitions_that_use_one_another_without_end() {
    let chain = |order: &mut dyn Iterator<Item = usize>| {
        let lines: Vec<String> =
            order.map(|n| format!("define d{n}: not not d{}", n + 1)).collect();
        said(&format!("{}\ndefine d900: me owns target", lines.join("\n")))
    };
    // The first unfolds all the others, or each is unfolded when it is its turn.
    assert!(chain(&mut (0..900)).contains("unfold more than 1000 deep"));
    assert!(chain(&mut (0..900).rev()).contains("unfold more than 1000 deep"));
    let doubled = |n: usize| {
        format!(
            "define a is d{n}: some r of a as b: b is d{0} or (some s of b as c: c is d{0})",
            n + 1
        )
    };
    let lines: Vec<String> = (0..60).map(doubled).collect();
    let text = format!("{}\ndefine a is d60: true\nrelation r, s", lines.join("\n"));
    assert!(said(&text).contains("unfold to more than"));
    let wide = vec!["me owns target"; 700].join(" or ");
    assert!(policy(&wide).contains("more than 600 parts stand side by side"));
}

/// English words may be names of what is declared.
#[test]
fn english_words_that_are_names() {
    for rest in [
        "define a can b: a owns b\nevent load when some x owns target: x can me",
        "define p is can: p owns p\nevent load when me is can",
        "event may when me share target\nevent load when some x may target: x may me",
        "define everyone: true\nevent load when everyone",
    ] {
        let text = format!("{START}{rest}\n");
        if let Err(mistakes) = compile(&text) {
            panic!("{}", shown(&mistakes, &text));
        }
    }
}
