//! The first bank's answers do not depend on which events the second used.

use crate::help::{accepted, slashes};
use keeper::banks::step::{Deed, Outcome};
use keeper::banks::Banks;
use keeper::generate::two_runs::{runs, Premise, Runs};
use keeper::record::{Answer, Call};
use keeper::terms;

/// Reads the terms as a file and plays a run: what each place gives, and the
/// banks at the end.
fn played(runs: &Runs, run: usize) -> (Vec<Outcome>, Banks) {
    let text = terms::write(&runs.terms, &runs.terms.edges);
    let mut banks = Banks::new(accepted(&text));
    let outcomes = runs.places.iter().map(|deeds| banks.take(&deeds[run])).collect();
    (outcomes, banks)
}

/// The places of the first bank where the answers differ.
fn swayed(runs: &Runs) -> Vec<usize> {
    let outcomes = [0, 1].map(|run| played(runs, run).0);
    let places = 0..runs.places.len();
    places.filter(|&n| runs.is_first(n) && outcomes[0][n] != outcomes[1][n]).collect()
}

#[test]
fn the_other_banks_events_have_no_say() {
    let (mut grants, mut denies, mut looks, mut lists, mut revised) = (0, 0, 0, 0, 0);
    let (mut other_edges, mut grant_for_denial, mut records) = (0, 0, 0);
    for seed in 0..3_000 {
        let runs = runs(seed, None);
        assert_eq!(swayed(&runs), [], "seed {seed}: {runs:?}");
        let [(left, one), (right, two)] = [0, 1].map(|run| played(&runs, run));
        // The first bank has the same record in both, and the second need not.
        assert!(one.record(0).graphs() == two.record(0).graphs(), "seed {seed}");
        assert_eq!(one.words().own[0], two.words().own[0], "seed {seed}");
        records += usize::from(one.record(1).graphs() != two.record(1).graphs());
        let graphs = one.record(1).graphs().iter().zip(two.record(1).graphs());
        other_edges += graphs.filter(|(one, two)| one.event != two.event).count();
        for (n, deeds) in runs.places.iter().enumerate() {
            match (&deeds[0], &left[n]) {
                (Deed::Call(0, call), outcome) => {
                    grants += usize::from(*outcome == Outcome::Answered(Answer::Grant));
                    denies += usize::from(*outcome == Outcome::Answered(Answer::Deny));
                    looks += usize::from(call.look);
                }
                (Deed::Call(_, _), outcome) => {
                    let requests = deeds.iter().all(|deed| !is_look(deed));
                    let pair = [outcome, &right[n]];
                    let decided = |answer| pair.contains(&&Outcome::Answered(answer));
                    let both = decided(Answer::Grant) && decided(Answer::Deny);
                    grant_for_denial += usize::from(requests && both);
                }
                (Deed::List(_, _), _) => lists += 1,
                (Deed::Revision(_), _) => revised += 1,
            }
        }
    }
    println!("{grants} grants, {denies} denies, {looks} looks, {lists} lists, {revised} revised");
    println!("{records} records of the second bank differ, in {other_edges} event edges");
    println!("{grant_for_denial} a grant for a kept denial");
    assert!(grants > 4_000 && denies > 4_000 && looks > 2_000 && lists > 500 && revised > 500);
    assert!(records > 1_500 && other_edges > 4_000 && grant_for_denial > 500);
}

fn is_look(deed: &Deed) -> bool {
    matches!(deed, Deed::Call(_, Call { look: true, .. }))
}

/// Each premise counts: without it some answers of the first bank differ.
#[test]
fn every_premise_counts() {
    for dropped in [Premise::Moments, Premise::Relations] {
        let swayed = (0..1_500).filter(|&seed| !swayed(&runs(seed, Some(dropped))).is_empty());
        let count = swayed.count();
        println!("{dropped:?}: {count} swayed");
        assert!(count > 20, "{dropped:?}: {count}");
    }
}

/// Two runs of one call of the second bank each, and then a look of the first.
fn of_two_calls(text: &str, second: [Call; 2], first: Call) -> Runs {
    let places = vec![second.map(|call| Deed::Call(1, call)), [0, 1].map(|_| Deed::Call(0, first))];
    Runs { terms: accepted(&slashes(text)), places }
}

/// Both are free to all, and 0 adds its edge; 2 asks for a moment before, 3 for
/// an edge, 4 for an event 0 ever.
const TEXT: &str = "M 2/L 1 5/F 0 top 0 0/F 1 prev 0 0/F 2 out 0 0/F 3 out 1 0/F 4 since 0 3/\
    P 0 0/P 1 0/P 2 1/P 3 2/P 4 4/E 0 add 0 fwd";

#[test]
fn a_moment_in_one_run_only_is_seen() {
    // The relations after it are equal: event 1 has no effect.
    let calls = [Call::request(1, 0, 1), Call::look(1, 0, 1)];
    let runs = of_two_calls(TEXT, calls, Call::look(2, 0, 1));
    assert_eq!(swayed(&runs), [1]);
    let [one, two] = [0, 1].map(|run| played(&runs, run).1);
    assert_eq!(one.words().relations, two.words().relations);
    assert_eq!([one.moments(), two.moments()], [2, 1]);
}

#[test]
fn other_relations_after_a_moment_are_seen() {
    // A moment is made in both.
    let calls = [Call::request(0, 0, 1), Call::request(1, 0, 1)];
    let runs = of_two_calls(TEXT, calls, Call::look(3, 0, 1));
    assert_eq!(swayed(&runs), [1]);
    let [one, two] = [0, 1].map(|run| played(&runs, run).1);
    assert_eq!([one.moments(), two.moments()], [2, 2]);
    assert_ne!(one.words().relations, two.words().relations);
}

#[test]
fn an_event_alone_is_not_seen() {
    // With the edge there already, the two events differ in nothing else.
    let calls = [Call::request(0, 0, 1), Call::request(1, 0, 1)];
    for event in [2, 3, 4] {
        let text = format!("{TEXT}/G 0 0 1");
        assert_eq!(swayed(&of_two_calls(&text, calls, Call::look(event, 0, 1))), []);
    }
    // The second bank itself sees it.
    let places = calls.map(|call| [call, Call::look(4, 0, 1)]);
    let answers = places.map(|calls| {
        let mut banks = Banks::new(accepted(&slashes(&format!("{TEXT}/G 0 0 1"))));
        calls.map(|call| banks.call(1, &call, 64))[1]
    });
    assert_eq!(answers, [Answer::Grant, Answer::Deny]);
}
