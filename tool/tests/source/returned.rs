//! The way back: random terms, written as a source, compile to the same
//! formulas.

use cuckooormolu_tool::names::{Kind, Names};
use cuckooormolu_tool::source::decompile::{agrees, decompile};
use cuckooormolu_tool::source::print::print;
use cuckooormolu_tool::source::{compile, parse};
use keeper::generate::size::Size;
use keeper::generate::{formulas, Rng};
use keeper::program::MOST_BYTES;
use keeper::terms::{self, Entry, Terms};

#[test]
fn random_terms_come_back() {
    let mut named = 0;
    for seed in 0..1_200 {
        let mut rng = Rng::new(seed);
        let size = Size::random(&mut rng);
        let terms = formulas::terms(&mut rng, &size);
        if terms::write(&terms, &terms.edges).len() > MOST_BYTES {
            continue;
        }
        let source = decompile(&terms, &Names::default());
        let text = print(&source);
        assert!(agrees(&source, &terms), "seed {seed}:\n{text}");
        assert_eq!(parse(&text).unwrap(), source, "seed {seed}:\n{text}");
        named += usize::from(text.contains("me") && text.contains(" p "));
    }
    assert!(named > 100, "only {named} were told with names");
}

/// Every operator under every other, with and without negations between.
#[test]
fn every_pair_of_operators_comes_back() {
    let leaves = [Entry::Top, Entry::Var(0), Entry::Var(1), Entry::In(1, 1), Entry::Out(0, 2)];
    let shapes: [fn(usize) -> Entry; 15] = [
        Entry::Not,
        |f| Entry::Or(f, 0),
        |f| Entry::Or(f, f),
        |f| Entry::Out(0, f),
        |f| Entry::In(1, f),
        Entry::Prev,
        |f| Entry::Since(0, f),
        |f| Entry::Since(f, 1),
        |f| Entry::Bind(1, f),
        |f| Entry::At(0, f),
        |f| Entry::Reach(1, f, 0),
        |f| Entry::Reach(2, 0, f),
        |f| Entry::Reach(1, 4, f),
        |f| Entry::Many(0, f, 1),
        |f| Entry::Many(1, f, 64),
    ];
    for leaf in 0..leaves.len() {
        for code in 0..shapes.len().pow(3) {
            let mut entries = leaves.to_vec();
            let mut last = leaf;
            for step in 0..3 {
                entries.push(shapes[code / shapes.len().pow(step) % shapes.len()](last));
                last = entries.len() - 1;
            }
            entries.push(Entry::Bind(1, last));
            let mut terms = Terms { members: 2, relations: 1, events: 1, ..Terms::default() };
            terms.policies = vec![entries.len() - 1];
            terms.entries = entries;
            terms.effects = vec![Vec::new()];
            if terms::read(&terms::write(&terms, &terms.edges)).is_err() {
                continue;
            }
            let source = decompile(&terms, &Names::default());
            assert!(agrees(&source, &terms), "{:?}\n{}", terms.entries, print(&source));
        }
    }
}

/// Formulas that are huge or deep when they are spelled out.
#[test]
fn heavily_shared_and_deep_terms_come_back() {
    let shapes: [&dyn Fn(usize) -> Entry; 10] = [
        &|f| Entry::Or(f, f),
        &|f| Entry::Or(f, f - 1),
        &Entry::Not,
        &|f| Entry::Out(0, f),
        &|f| Entry::Reach(1 + f % 3, 0, f),
        &|f| Entry::Many(f % 2, f, 1 + f % 64),
        &|f| if f % 2 == 0 { Entry::Not(f) } else { Entry::Or(f, f) },
        &|f| if f % 2 == 0 { Entry::Bind(1 + f % 7, f) } else { Entry::Or(f, f - 1) },
        &|f| if f % 3 == 0 { Entry::At(f % 3, f) } else { Entry::In(1, f) },
        &|f| match f % 4 {
            0 => Entry::Bind(1 + f % 15, f),
            1 => Entry::Out(0, f),
            2 => Entry::Or(f, f - 2),
            _ => Entry::At(1 + (f - 3) % 15, f),
        },
    ];
    for (number, shape) in shapes.iter().enumerate() {
        let mut entries = vec![Entry::Top, Entry::Var(0), Entry::Out(1, 1)];
        while entries.len() < 255 {
            entries.push(shape(entries.len() - 1));
        }
        // The policy is the last entry in which nobody but the target is free.
        let mut terms = Terms { members: 2, relations: 1, events: 1, ..Terms::default() };
        terms.effects = vec![Vec::new()];
        terms.entries = entries;
        terms.policies = vec![(0..255).rev().find(|f| terms.free()[*f] & !1 == 0).unwrap()];
        assert!(terms::read(&terms::write(&terms, &terms.edges)).is_ok(), "shape {number}");
        let source = decompile(&terms, &Names::default());
        assert!(agrees(&source, &terms), "shape {number}:\n{}", print(&source));
    }
}

#[test]
fn awkward_names_are_made_to_fit() {
    let compiled = compile("members a, b\nrelation r\nevent e when me r target").unwrap();
    let mut names = Names::default();
    names.set(Kind::Member, 0, "Jo Ann").unwrap();
    names.set(Kind::Member, 1, "first").unwrap();
    names.set(Kind::Relation, 0, "p").unwrap();
    names.set(Kind::Event, 0, "3rd!").unwrap();
    let text = print(&decompile(&compiled.terms, &names));
    let shown = "members Jo-Ann, member-1\nrelation p\n\nevent event-0\n  when me p target\n";
    assert_eq!(text, shown);
}

/// The source of the terms and names of a source.
fn returned(text: &str) -> String {
    let compiled = compile(text).unwrap();
    let source = decompile(&compiled.terms, &compiled.names);
    assert!(agrees(&source, &compiled.terms));
    assert_eq!(parse(&print(&source)).unwrap(), source);
    print(&source)
}

#[test]
fn definitions_come_back() {
    let text = "members players: dora, pete; presets: saw
relation owns

define p is suspended: not someone lift p since someone suspend p

define p trusts q: not q suspend p since q share p

define between(p, q, r): once (p share q and q owns r)

event share, suspend, lift by anyone

event load
  when some p owns target: me trusts p and me is not suspended

event edit
  when some p owns target: between(p, me, target)

first dora owns saw
";
    let told = returned(text);
    for line in [
        "define p is suspended: not someone lift p since someone suspend p\n",
        "define p trusts q: not q suspend p since q share p\n",
        "me trusts p and me is not suspended\n",
        "define between(p, q, r): once (p share q and q owns r)\n",
        "between(p, me, target)\n",
    ] {
        assert!(told.contains(line), "{line}{told}");
    }
}

#[test]
fn a_long_part_that_stands_twice_gets_a_name() {
    let part = "(once me share target and not me blocks target and not target blocks me and \
                (some q owns target: not q withdraw me since q share me))";
    let text = format!(
        "members dora, pete, saw\nrelations owns, blocks\nevent share, withdraw by anyone\n\
         event load when {part}\nevent edit when {part} and me owns target\n\
         event rate when {part} or me owns target\nfirst dora owns saw, pete blocks dora\n"
    );
    let told = returned(&text);
    assert_eq!(told.matches("withdraw").count(), 2, "{told}");
    assert_eq!(told.matches("define part").count(), 1, "{told}");
}
