//! Reasons hold up: truth is rebuilt from them alone and compared with the
//! record at every node, over random terms and requests.

use cuckooormolu_tool::names::Names;
use cuckooormolu_tool::why::fact::Fact;
use cuckooormolu_tool::why::reason::{has_edge, Claim, Place, Reason, Reasons};
use cuckooormolu_tool::why::story::stories;
use keeper::generate;
use keeper::record::meaning::{Assigned, Meaning};
use keeper::record::{Answer, Call, Graph, Record};
use keeper::step::Step;
use keeper::terms::{self, Entry, Terms, VARIABLES};
use std::collections::HashMap;

/// So many random terms, and at most so many nodes of each.
const CASES: u64 = 6_000;
const NODES: usize = 5_000;

type Key = (usize, usize, usize, Vec<usize>);

fn key(place: Place) -> Key {
    let assigned = (0..VARIABLES).map(|x| place.assigned.member(x)).collect();
    (place.entry, place.moment, place.member, assigned)
}

/// Rebuilds truth from reasons.
struct Rebuilt<'a> {
    reasons: Reasons<'a>,
    meaning: Meaning<'a>,
    known: HashMap<Key, bool>,
}

impl<'a> Rebuilt<'a> {
    fn new(record: &'a Record) -> Rebuilt<'a> {
        let meaning = record.meaning();
        Rebuilt { reasons: Reasons::new(record), meaning, known: HashMap::new() }
    }

    /// The truth at a claim's place, by the reason for the claim and by nothing
    /// else. None where too many nodes have been seen.
    fn truth(&mut self, claim: Claim) -> Option<bool> {
        let place = claim.place;
        if let Some(&value) = self.known.get(&key(place)) {
            return Some(value);
        }
        if self.known.len() > NODES {
            return None;
        }
        let reason = self.reasons.reason(claim);
        let premises = reason.premises();
        let mut values = Vec::new();
        for premise in &premises {
            values.push(self.truth(*premise)?);
        }
        let value = match reason {
            // What a stored file says has no reason but that.
            Reason::Stored => {
                assert!(self.reasons.is_stored(place));
                assert!(self.reasons.terms().entries[place.entry].is_past());
                claim.holds
            }
            _ => conclusion(&self.reasons, place, &reason, &values),
        };
        let Place { entry, moment, member, assigned } = place;
        assert_eq!(value, self.meaning.holds(entry, moment, member, assigned), "{reason:?}");
        assert_eq!(value, claim.holds, "{reason:?}");
        self.known.insert(key(place), value);
        Some(value)
    }
}

/// What a reason shows at a place, given the truth of its premises. Panics if
/// the premises are not those that the operator asks for.
fn conclusion(reasons: &Reasons, place: Place, reason: &Reason, values: &[bool]) -> bool {
    let (terms, graphs) = (reasons.terms(), reasons.graphs());
    let at = |entry, moment, member| Place { entry, moment, member, ..place };
    // Where a since may begin: its second operand, or itself as it was stored.
    let begins = |g, moment| {
        let stored = reasons.is_stored(at(place.entry, moment, 0));
        let entry = if stored { place.entry } else { g };
        at(entry, moment, place.member)
    };
    let Place { moment, member, .. } = place;
    let all = |wanted: bool| values.iter().all(|&value| value == wanted);
    match (terms.entries[place.entry], reason) {
        (Entry::Top, Reason::Always) => true,
        (Entry::Var(x), Reason::StandsFor(other)) => {
            assert_eq!(*other, place.assigned.member(x));
            member == *other
        }
        (Entry::Not(f), Reason::Opposite(claim)) => {
            assert_eq!(claim.place, at(f, moment, member));
            !values[0]
        }
        (Entry::Or(f, g), Reason::Side(claim)) => {
            assert!([f, g].map(|side| at(side, moment, member)).contains(&claim.place));
            assert!(values[0]);
            true
        }
        (Entry::Or(f, g), Reason::Neither(first, second)) => {
            assert_eq!(first.place, at(f, moment, member));
            assert_eq!(second.place, at(g, moment, member));
            assert!(all(false));
            false
        }
        (Entry::Out(label, f) | Entry::In(label, f), Reason::Neighbour(claim)) => {
            let other = claim.place.member;
            assert_eq!(claim.place, at(f, moment, other));
            let out = matches!(terms.entries[place.entry], Entry::Out(..));
            let (from, to) = if out { (member, other) } else { (other, member) };
            assert!(has_edge(terms, &graphs[moment], label, from, to));
            assert!(values[0]);
            true
        }
        (Entry::Out(label, f) | Entry::In(label, f), Reason::NoNeighbour(claims)) => {
            let out = matches!(terms.entries[place.entry], Entry::Out(..));
            for other in 0..terms.members {
                let (from, to) = if out { (member, other) } else { (other, member) };
                let told = claims.iter().any(|claim| claim.place == at(f, moment, other));
                assert_eq!(told, has_edge(terms, &graphs[moment], label, from, to));
            }
            assert!(all(false));
            false
        }
        (Entry::Prev(_), Reason::NoMomentBefore) => {
            assert_eq!(moment, reasons.begin(place.entry).moment());
            false
        }
        (Entry::Prev(f), Reason::Before(claim)) => {
            assert_eq!(claim.place, at(f, moment - 1, member));
            values[0]
        }
        (Entry::Since(f, g), Reason::Began { began, after }) => {
            let first = began.place.moment;
            assert_eq!(began.place, begins(g, first));
            let due: Vec<Place> = (first + 1..=moment).map(|j| at(f, j, member)).collect();
            assert_eq!(after.iter().map(|claim| claim.place).collect::<Vec<_>>(), due);
            assert!(all(true));
            true
        }
        (Entry::Since(f, g), Reason::Broken { began, broke, after }) => {
            let (first, broken) = (began.place.moment, broke.place.moment);
            assert_eq!(began.place, begins(g, first));
            assert_eq!(broke.place, at(f, broken, member));
            assert!(first < broken && broken <= moment);
            let due: Vec<Place> = (first + 1..=moment).map(|j| at(g, j, member)).collect();
            assert_eq!(after.iter().map(|claim| claim.place).collect::<Vec<_>>(), due);
            assert!(values[0] && values[1..].iter().all(|&value| !value));
            false
        }
        (Entry::Since(_, g), Reason::Never(claims)) => {
            let first = reasons.begin(place.entry).moment();
            let due: Vec<Place> = (first..=moment).map(|j| begins(g, j)).collect();
            assert_eq!(claims.iter().map(|claim| claim.place).collect::<Vec<_>>(), due);
            assert!(all(false));
            false
        }
        (Entry::Many(label, f, count), Reason::Enough(claims)) => {
            assert_eq!(claims.len(), count);
            for (index, claim) in claims.iter().enumerate() {
                let other = claim.place.member;
                assert_eq!(claim.place, at(f, moment, other));
                assert!(has_edge(terms, &graphs[moment], label, member, other));
                assert!(claims[..index].iter().all(|before| before.place.member != other));
            }
            assert!(all(true));
            true
        }
        (Entry::Many(label, f, count), Reason::TooFew(claims)) => {
            for other in 0..terms.members {
                let told = claims.iter().any(|claim| claim.place == at(f, moment, other));
                assert_eq!(told, has_edge(terms, &graphs[moment], label, member, other));
            }
            assert!(values.iter().filter(|&&value| value).count() < count);
            false
        }
        (Entry::Bind(x, f), Reason::Follow(claim)) => {
            let assigned = place.assigned.with(x, member);
            assert_eq!(claim.place, Place { entry: f, assigned, ..place });
            values[0]
        }
        (Entry::At(x, f), Reason::Follow(claim)) => {
            assert_eq!(claim.place, at(f, moment, place.assigned.member(x)));
            values[0]
        }
        (Entry::Reach(x, f, g), Reason::Reached { step, there }) => {
            let other = there.place.member;
            let assigned = Assigned::default().with(x, other);
            assert_eq!(step.place, Place { entry: f, assigned, ..place });
            assert_eq!(there.place, at(g, moment, other));
            assert!(all(true));
            true
        }
        (Entry::Reach(x, f, g), Reason::NobodyReached(claims)) => {
            assert_eq!(claims.len(), terms.members);
            for (other, claim) in claims.iter().enumerate() {
                let assigned = Assigned::default().with(x, other);
                let step = Place { entry: f, assigned, ..place };
                assert!(claim.place == step || claim.place == at(g, moment, other));
            }
            assert!(all(false));
            false
        }
        (entry, reason) => panic!("{entry:?} is not decided by {reason:?}"),
    }
}

/// Whether a fact is so.
fn is_so(terms: &Terms, graphs: &[Graph], meaning: &mut Meaning, fact: &Fact) -> bool {
    let mut holds =
        |place: Place, moment| meaning.holds(place.entry, moment, place.member, place.assigned);
    match *fact {
        Fact::Edge { label, from, to, moment } => has_edge(terms, &graphs[moment], label, from, to),
        Fact::NoEdge { label, from, to, moment } => {
            let ends = |end: Option<usize>| match end {
                Some(member) => member..member + 1,
                None => 0..terms.members,
            };
            ends(from).all(|a| ends(to).all(|b| !has_edge(terms, &graphs[moment], label, a, b)))
        }
        Fact::Only { label, member, out, others, moment } => (0..terms.members).all(|other| {
            let (from, to) = if out { (member, other) } else { (other, member) };
            others >> other & 1 == 1 || !has_edge(terms, &graphs[moment], label, from, to)
        }),
        Fact::Count { place, others, .. } => {
            let (_, [label, ..]) = terms.entries[place.entry].parts();
            let counted = (0..terms.members).filter(|other| others >> other & 1 == 1);
            let graph = &graphs[place.moment];
            counted.into_iter().all(|other| has_edge(terms, graph, label, place.member, other))
        }
        Fact::Same { member, .. } => member < terms.members,
        Fact::Differ { member, other } => member != other,
        Fact::NoMomentBefore | Fact::OneEvent | Fact::Always => true,
        Fact::NotBefore(moment) | Fact::Counting(moment) => moment < graphs.len(),
        Fact::NeverSince { place, first } => {
            (first..=place.moment).all(|moment| !holds(place, moment))
        }
        Fact::NoStep(place) => match terms.entries[place.entry] {
            Entry::Reach(x, f, _) => (0..terms.members).all(|other| {
                let assigned = Assigned::default().with(x, other);
                !holds(Place { entry: f, assigned, ..place }, place.moment)
            }),
            _ => false,
        },
        Fact::Never { place, after } => {
            (usize::from(after)..=place.moment).all(|moment| !holds(place, moment))
        }
        Fact::Stored(Claim { place, holds: value }) => holds(place, 0) == value,
        Fact::Also { claim, ref moments, .. } => moments.iter().all(|&moment| {
            moment < claim.place.moment && holds(claim.place, moment) == claim.holds
        }),
        Fact::Since { place, first } => (first..=place.moment).all(|moment| holds(place, moment)),
        Fact::Claim(Claim { place, holds: value })
        | Fact::Defined(Claim { place, holds: value }) => holds(place, place.moment) == value,
    }
}

/// What was asked under terms that were in use, and its answer.
type Asked = (Call, usize, bool);

/// How much was looked at.
#[derive(Default)]
struct Seen {
    nodes: usize,
    grants: usize,
    denials: usize,
    /// Facts that tell of a revision.
    revised: usize,
}

impl Seen {
    /// The reasons of all that was asked under the terms in use.
    fn look(&mut self, record: &Record, asked: &[Asked], seed: u64) {
        let terms = record.terms();
        let mut rebuilt = Rebuilt::new(record);
        for &(call, moment, granted) in asked {
            let place = Place::policy(terms, call.event, call.from, call.to, moment);
            let claim = rebuilt.reasons.claim(place);
            assert_eq!(claim.holds, granted, "seed {seed}");
            *if granted { &mut self.grants } else { &mut self.denials } += 1;
            if let Some(truth) = rebuilt.truth(claim) {
                assert_eq!(truth, granted, "seed {seed}");
            }
            let told = stories(&mut rebuilt.reasons, &Names::default(), claim, claim.holds);
            assert!(!told.is_empty(), "seed {seed}");
            for fact in told.iter().flat_map(|story| &story.facts) {
                let so = is_so(terms, record.graphs(), &mut rebuilt.meaning, fact);
                assert!(so, "seed {seed}: {fact:?}");
                self.revised += usize::from(matches!(
                    fact,
                    Fact::NotBefore(_) | Fact::Counting(_) | Fact::NeverSince { .. }
                ));
            }
        }
        self.nodes += rebuilt.known.len();
    }
}

#[test]
fn truth_is_rebuilt_from_reasons() {
    let mut seen = Seen::default();
    for seed in 0..CASES {
        let case = generate::case(seed, 99_999);
        let mut record = Record::of(terms::read(&case.text).unwrap());
        let mut asked = Vec::new();
        for step in &case.steps {
            match step {
                Step::Call(call) => {
                    let moment = record.graphs().len() - 1;
                    match record.answer(call) {
                        Answer::Refused(_) => {}
                        answer => asked.push((*call, moment, answer == Answer::Grant)),
                    }
                }
                Step::Revision(revision) => {
                    seen.look(&record, &asked, seed);
                    asked.clear();
                    let _ = revision.answer(&mut record);
                }
                Step::Renumbering(renumbering) => {
                    seen.look(&record, &asked, seed);
                    asked.clear();
                    let _ = renumbering.answer(&mut record);
                }
            }
        }
        seen.look(&record, &asked, seed);
    }
    let Seen { nodes, grants, denials, revised } = seen;
    assert!(nodes > 60_000 && grants > 3_000 && denials > 3_000, "{nodes} {grants} {denials}");
    assert!(revised > 100, "{revised}");
}
