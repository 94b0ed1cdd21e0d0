//! People with no tie to a circle cannot sway its answers.

use crate::help::opened;
use keeper::generate::strangers::{runs, Premise, Runs};
use keeper::record::{Answer, Call, Record};
use keeper::terms;

/// Reads each run's terms as a file and makes its calls: its answers, and the
/// record at the end.
fn played(runs: &Runs, run: usize) -> (Vec<Answer>, Record) {
    let mut record = opened(&terms::write(&runs.terms[run], &runs.terms[run].edges));
    let answers = runs.calls[run].iter().map(|call| record.answer(call)).collect();
    (answers, record)
}

fn within(runs: &Runs, call: &Call) -> bool {
    runs.inside(call.from) && runs.inside(call.to)
}

/// The places inside the circle where the answers differ.
fn swayed(runs: &Runs) -> Vec<usize> {
    let answers = [0, 1].map(|run| played(runs, run).0);
    let places = 0..answers[0].len();
    places.filter(|&n| within(runs, &runs.calls[0][n]) && answers[0][n] != answers[1][n]).collect()
}

/// Whether an edge of some moment joins the circle to the rest.
fn joined(runs: &Runs, record: &Record) -> bool {
    record.graphs().iter().any(|graph| {
        let relations = graph.edges.iter().map(|&(_, from, to)| (from, to));
        let mut edges = relations.chain(graph.event.map(|edge| (edge.from, edge.to)));
        edges.any(|(from, to)| runs.inside(from) != runs.inside(to))
    })
}

#[test]
fn strangers_have_no_say() {
    let (mut grants, mut denies, mut looks, mut apart) = (0, 0, 0, 0);
    let (mut grant_for_denial, mut others_differ) = (0, 0);
    for seed in 0..3_000 {
        let runs = runs(seed, None);
        assert_eq!(swayed(&runs), [], "seed {seed}: {runs:?}");
        let [(left, record), (right, other)] = [0, 1].map(|run| played(&runs, run));
        assert!(!joined(&runs, &record) && !joined(&runs, &other), "seed {seed}");
        assert_eq!(record.graphs().len(), other.graphs().len(), "seed {seed}");
        apart += usize::from(record.graphs() != other.graphs());
        for (n, call) in runs.calls[0].iter().enumerate() {
            if within(&runs, call) {
                grants += usize::from(left[n] == Answer::Grant);
                denies += usize::from(left[n] == Answer::Deny);
                looks += usize::from(call.look);
            } else if left[n] != right[n] {
                others_differ += 1;
                let requests = !call.look && !runs.calls[1][n].look;
                let both = [left[n], right[n]].iter().all(|a| !matches!(a, Answer::Refused(_)));
                grant_for_denial += usize::from(requests && both);
            }
        }
    }
    println!("{grants} grants, {denies} denies, {looks} looks; {apart} records differ");
    println!("{others_differ} answers outside differ, {grant_for_denial} a grant for a denial");
    assert!(grants > 4_000 && denies > 4_000 && looks > 2_000 && apart > 2_000);
    assert!(others_differ > 2_000 && grant_for_denial > 1_000);
}

/// Each premise counts: without it some answers inside the circle differ.
#[test]
fn every_premise_counts() {
    for dropped in [Premise::NoReach, Premise::Apart, Premise::Moments] {
        let swayed = (0..1_500).filter(|&seed| !swayed(&runs(seed, Some(dropped))).is_empty());
        let count = swayed.count();
        println!("{dropped:?}: {count} swayed");
        assert!(count > 10, "{dropped:?}: {count}");
    }
}
