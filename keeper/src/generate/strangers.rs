//! Two runs over the same terms that differ outside a circle of members only.

use super::{formulas, Rng, Size};
use crate::record::{Call, Record};
use crate::terms::memory::SCRATCH_WORDS;
use crate::terms::{Entry, Terms};

/// What strangers have no say rests on.
#[derive(Clone, Copy, Debug, PartialEq, Eq)]
pub enum Premise {
    /// The terms are without reach.
    NoReach,
    /// No edge joins the circle to the rest.
    Apart,
    /// Strangers make a moment in both runs or in neither.
    Moments,
}

/// The circle, and each run's terms with its own first edges, and its calls.
#[derive(Clone, Debug)]
pub struct Runs {
    pub circle: Vec<bool>,
    pub terms: [Terms; 2],
    pub calls: [Vec<Call>; 2],
}

impl Runs {
    /// Whether a number is a member of the circle.
    pub fn inside(&self, number: usize) -> bool {
        self.circle.get(number).copied().unwrap_or(false)
    }
}

/// Two runs that meet every premise but the one that is dropped, if any.
pub fn runs(seed: u64, dropped: Option<Premise>) -> Runs {
    let mut rng = Rng::new(seed);
    let mut size = if rng.percent(80) { Size::small(&mut rng) } else { Size::middle(&mut rng) };
    size.members = rng.between(2, 7);
    size.relations = size.relations.max(1);
    size.events = size.events.max(2);
    size.first_edges = rng.below(8);
    let mut terms = formulas::terms(&mut rng, &size);
    terms.entries.iter_mut().for_each(without_reach);
    for event in 0..terms.events {
        if rng.percent(if event == 0 { 30 } else { 85 }) {
            terms.policies[event] = chain(&mut rng, &mut terms, dropped == Some(Premise::NoReach));
        }
    }
    let circle = circle(&mut rng, terms.members);
    let terms = first_edges(&mut rng, terms, &circle, dropped == Some(Premise::Apart));
    let mut runs = Runs { circle, terms, calls: [Vec::new(), Vec::new()] };
    fill(&mut rng, &mut runs, dropped);
    runs
}

/// Any set of members, mostly with somebody on each side.
fn circle(rng: &mut Rng, members: usize) -> Vec<bool> {
    let share = rng.pick(&[30, 50, 70]);
    let mut circle: Vec<bool> = (0..members).map(|_| rng.percent(share)).collect();
    if rng.percent(90) {
        let (one, other) = (rng.below(members), rng.between(1, members - 1));
        circle[(one + other) % members] = !circle[one];
    }
    circle
}

/// The terms with the first edges of each run, which agree inside the circle.
fn first_edges(rng: &mut Rng, mut terms: Terms, circle: &[bool], joined: bool) -> [Terms; 2] {
    terms.edges.retain(|&(_, from, to)| joined || circle[from] == circle[to]);
    let mut other = terms.clone();
    other.edges.retain(|&(_, from, to)| circle[from] && circle[to] || rng.percent(30));
    for _ in 0..rng.below(16) {
        let (from, to) = (rng.below(terms.members), rng.below(terms.members));
        let outside = !circle[from] && !circle[to];
        if outside || joined && circle[from] != circle[to] {
            other.edges.insert((rng.below(terms.relations), from, to));
        }
    }
    [terms, other]
}

/// The negation of the second formula in place of a reach: it has the same free
/// variables.
fn without_reach(entry: &mut Entry) {
    if let Entry::Reach(_, _, g) = *entry {
        *entry = Entry::Not(g);
    }
}

/// Adds a short chain of steps along labels and into the past, and also to
/// anybody where that is allowed.
fn chain(rng: &mut Rng, terms: &mut Terms, reach: bool) -> usize {
    let top = terms.entries.len();
    terms.entries.extend([Entry::Top, Entry::Var(0)]);
    let mut f = top + usize::from(rng.percent(20));
    for step in 0..rng.between(1, 4) {
        let label = rng.below(terms.labels());
        let past = [Entry::Prev(f), Entry::Since(top, f)];
        let along = [Entry::Out(label, f), Entry::In(label, f), Entry::Many(label, f, 2)];
        terms.entries.push(match rng.below(if reach { 12 } else { 8 }) {
            0 => Entry::Not(f),
            1 | 2 => rng.pick(&past),
            3..=7 => rng.pick(&along),
            _ if step == 0 => rng.pick(&along),
            _ => Entry::Reach(1, top, f),
        });
        f = terms.entries.len() - 1;
    }
    f
}

/// The calls of both runs, place by place.
fn fill(rng: &mut Rng, runs: &mut Runs, dropped: Option<Premise>) {
    let mut records = [0, 1].map(|run| Record::new(runs.terms[run].clone()));
    let members: Vec<usize> = (0..runs.circle.len()).filter(|&m| runs.circle[m]).collect();
    for _ in 0..rng.between(4, 24) {
        let pair = if !members.is_empty() && rng.percent(55) {
            let call = call(rng, &runs.terms[0], &members);
            [call, Call { scratch_words: enough(rng), ..call }]
        } else {
            outside(rng, runs, &records, dropped)
        };
        for run in [0, 1] {
            records[run].answer(&pair[run]);
            runs.calls[run].push(pair[run]);
        }
    }
}

/// Two calls of strangers; looks, which make no moment, where no two others fit.
fn outside(
    rng: &mut Rng,
    runs: &Runs,
    records: &[Record; 2],
    dropped: Option<Premise>,
) -> [Call; 2] {
    let mut strangers: Vec<usize> = (0..runs.circle.len()).filter(|&m| !runs.circle[m]).collect();
    if strangers.is_empty() || rng.percent(10) {
        strangers.push(runs.circle.len() + rng.below(3));
    }
    for _ in 0..12 {
        let pair = [0, 1].map(|_| call(rng, &runs.terms[0], &strangers));
        let made = [0, 1].map(|run| makes_moment(&records[run], &pair[run]));
        if dropped == Some(Premise::Moments) || made[0] == made[1] {
            return pair;
        }
    }
    [0, 1].map(|_| Call { look: true, ..call(rng, &runs.terms[0], &strangers) })
}

/// A request or a look among these.
fn call(rng: &mut Rng, terms: &Terms, among: &[usize]) -> Call {
    let event = if rng.percent(5) { terms.events } else { rng.below(terms.events) };
    let (from, to) = (rng.pick(among), rng.pick(among));
    Call { look: rng.percent(20), event, from, to, scratch_words: enough(rng) }
}

fn enough(rng: &mut Rng) -> usize {
    SCRATCH_WORDS + rng.pick(&[0, 0, 1, 500])
}

/// Whether a call would make a moment.
pub fn makes_moment(record: &Record, call: &Call) -> bool {
    let mut after = record.clone();
    after.answer(call);
    after.graphs().len() > record.graphs().len()
}
