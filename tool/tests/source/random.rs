//! The meaning of what is written, worked out straight from it, is that of the
//! compiled terms in the keeper: for random sources and for tricky ones.

use crate::evaluate::World;
use crate::generate::{source, Dice};
use cuckooormolu_tool::both::Both;
use cuckooormolu_tool::source::ast::Source;
use cuckooormolu_tool::source::mistake::Mistake;
use cuckooormolu_tool::source::print::print;
use cuckooormolu_tool::source::{compile, parse, Compiled};
use keeper::record::Record;
use keeper::terms::memory::SCRATCH_WORDS;

const SOURCES: u64 = 6_000;
const MOMENTS: usize = 6;

#[test]
fn compiled_terms_mean_what_is_written() {
    let (mut done, mut past, mut paired, mut tally) = (0, 0, 0, Tally::default());
    for seed in 0..SOURCES {
        let mut dice = Dice::new(seed);
        let written = source(&mut dice);
        let text = print(&written);
        let read = parse(&text).unwrap_or_else(|m| panic!("{m:?}\n{text}"));
        assert_eq!(read, written, "seed {seed}:\n{text}");
        let compiled = match compile(&text) {
            Ok(compiled) => compiled,
            Err(mistakes) => {
                let known =
                    ["; what is about the past may speak of", "; what leads to", "names at once"];
                let expected =
                    |mistake: &Mistake| known.iter().any(|part| mistake.message.contains(part));
                assert!(mistakes.iter().all(expected), "seed {seed}:\n{mistakes:?}\n{text}");
                continue;
            }
        };
        done += 1;
        past += usize::from(!compiled.terms.past().is_empty());
        paired += usize::from(!compiled.terms.paired().is_empty());
        assert!(Both::read(&compiled.text()).unwrap().is_ok(), "seed {seed}:\n{text}");
        compare(&written, compiled, &mut dice, &mut tally);
    }
    println!("{done} compiled, {past} with a past, {paired} of them of three, {tally:?}");
    assert!(
        done > SOURCES as usize / 2 && past > done / 3 && paired > 100,
        "{done} {past} {paired}"
    );
    assert!(tally.granted > 10_000 && tally.denied > 10_000 && tally.kept > 500, "{tally:?}");
}

/// Names that hide others, and definitions used where their own names are taken.
#[test]
fn names_are_kept_apart() {
    let start = "members a, b, c\nrelations r, s\nevents give by anyone then add me r target\n
        event drop by anyone then remove me r target
        event mark by anyone then add me s target\n";
    let policies = [
        "event go when some r of me as x1: x1 is odd\ndefine a is odd: a r some x1: x1 s a",
        "event go when as x1: some r of me as x2: odd(x2, x1)\ndefine odd(x1, x2): as x3: x1 r x2 and x2 s x1",
        "event go when me r some x: x s some x: x r me",
        "event go when as x1: me r some x1: x1 s some x1: x1 r x1",
        "event go when as x: at target: as x: x r x",
        "event go when me r some x: here is odd\ndefine a is odd: target r some y: y s a and a r y",
        "event go when at target: once (here r some x: previously here r x)",
        "event go when me r some x: not x give me since (as y: some z give y: z r x)",
        "event go when me r at least 2: at least 2 s of here as y: y is not me",
        "event go when some x r target: some y r x: once (x give y or y mark x)",
        "event go when me r every x: always (x r target or not x mark target)",
        "event go when some x such that once me give x: x r target",
        "event go when every x such that (once target give x): once x mark me",
        "event go when some x such that (some y r x: once y give me): x is target",
        "event go when some x1 such that once me give x1: some x1 such that once x1 mark here: x1 r target",
        "event go when me r some x: some y such that (not x give y since x mark y): y r me",
        "event go when once me denied go target or me give some x: x is target\nkeep denied go",
        "event go when some x denied go target: x is not me and not x is me\nkeep denied go",
        "event go when not someone denied go me since me give target\nkeep denied go, give",
        "event go when me r target or some denied go of me as x: x is target\nkeep denied go",
        "event go when some x such that (once x denied go target): here is me\nkeep denied go",
        "event go when some x r target: once (x give me and previously x mark target)",
        "event go when some x r target: not x drop me since (x give me and once x mark target)",
        "event go when me r some x: always (x is not target or not me drop x)",
        "event go when as x1: at target: (some r of here as x2: not x2 drop x1 since x1 give here)",
        "event go when as x1: target r some x2: previously (at x1: here r x2 or x2 mark target)",
        "event go when some x such that (some y r x: once (y give me or x mark y)): x is target",
        "event go when some x r me: some y r x: once (x give y and x mark me)",
    ];
    for policy in policies {
        let text = format!("{start}{policy}\n");
        let written = parse(&text).unwrap_or_else(|mistakes| panic!("{mistakes:?}\n{text}"));
        let mut tally = Tally::default();
        for seed in 0..60 {
            let compiled = compile(&text).unwrap_or_else(|mistakes| panic!("{mistakes:?}\n{text}"));
            compare(&written, compiled, &mut Dice::new(seed), &mut tally);
        }
        assert!(tally.granted > 0 && tally.denied > 0, "{policy}");
    }
}

#[derive(Debug, Default)]
struct Tally {
    granted: usize,
    denied: usize,
    /// Moments of denied requests.
    kept: usize,
}

/// Some moments at random; at each, everybody may do the same by both.
fn compare(written: &Source, compiled: Compiled, dice: &mut Dice, tally: &mut Tally) {
    let mut world = World::new(written);
    let mut record = Record::new(compiled.terms);
    let calls = calls(written);
    for _ in 0..MOMENTS {
        let mut allowed = Vec::new();
        for &(event, from, to) in &calls {
            let permitted = world.permits(event, from, to);
            let same = record.permits(event, from, to) == permitted;
            assert!(same, "event {event} from {from} to {to}:\n{}", print(written));
            if permitted {
                allowed.push((event, from, to));
            }
        }
        tally.granted += allowed.len();
        tally.denied += calls.len() - allowed.len();
        // Mostly what is allowed, since most denials make no moment.
        let some = if allowed.is_empty() || dice.below(4) == 0 { &calls } else { &allowed };
        let (event, from, to) = some[dice.below(some.len())];
        world.request(event, from, to);
        record.call(false, event, from, to, SCRATCH_WORDS);
        let same = world.moments.len() == record.graphs().len();
        assert!(same, "moments after event {event} from {from} to {to}:\n{}", print(written));
        tally.kept += usize::from(record.last().event.is_some_and(|edge| edge.denied));
        let name = |relation: usize| written.relations[relation].text.clone();
        let edges = record.last().edges.iter();
        let kept = edges.map(|&(relation, from, to)| (name(relation), from, to)).collect();
        assert_eq!(world.moments.last().unwrap().edges, kept, "{}", print(written));
    }
}

/// Every event between every two members.
fn calls(source: &Source) -> Vec<(usize, usize, usize)> {
    let members = source.members.len();
    let pairs = (0..members).flat_map(|from| (0..members).map(move |to| (from, to)));
    let pairs: Vec<(usize, usize)> = pairs.collect();
    let events = 0..source.events.len();
    events.flat_map(|event| pairs.iter().map(move |&(from, to)| (event, from, to))).collect()
}
