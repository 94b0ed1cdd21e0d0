//! What `why` says of the other bank's events is enough: where it names none, the answer
//! would be the same if the bank saw them all.

use cuckooormolu_tool::bank::Bank;
use cuckooormolu_tool::why::reason::{Place, Reasons};
use keeper::banks::Banks;
use keeper::generate::{self, Rng};
use keeper::record::meaning::{Assigned, Meaning};
use keeper::record::{Answer, Call, Graph, Record};
use keeper::step::Step;
use keeper::terms;

const CASES: u64 = 6_000;

/// What was asked of a bank under the terms in use, when, and whether it was granted.
type Asked = (usize, Call, usize, bool);

/// How much was looked at.
#[derive(Default)]
struct Seen {
    /// Answers after moments of the other bank of which none is named.
    none: usize,
    /// Answers with a moment named, and those of them that would be others.
    some: usize,
    others: usize,
}

/// The graphs of a bank as if it saw the events of both.
fn with_all_events(own: &Record, other: &Record) -> Vec<Graph> {
    let both = own.graphs().iter().zip(other.graphs());
    both.map(|(own, other)| Graph { event: own.event.or(other.event), ..own.clone() }).collect()
}

impl Seen {
    fn look(&mut self, banks: &Banks, asked: &[Asked], seed: u64) {
        for &(bank, call, moment, granted) in asked {
            let (own, other) = (banks.record(bank), banks.record(1 - bank));
            let (terms, others) = (own.terms(), other.graphs());
            let mut reasons = Reasons::new(own).beside(Bank::BOTH[bank], others);
            let claim = reasons.claim(Place::policy(terms, call.event, call.from, call.to, moment));
            assert_eq!(claim.holds, granted, "seed {seed}");
            let unseen = reasons.unseen(claim);
            assert!(unseen.iter().all(|&at| at <= moment && others[at].event.is_some()));
            let (free, graphs) = (terms.free(), with_all_events(own, other));
            let mut meaning = Meaning::new(terms, &free, &graphs, own.starts());
            let assigned = Assigned::default().with(0, call.to);
            let would = meaning.holds(terms.policies[call.event], moment, call.from, assigned);
            if unseen.is_empty() {
                assert_eq!(would, granted, "seed {seed}, {call:?}");
                self.none += usize::from(others[..=moment].iter().any(|at| at.event.is_some()));
            } else {
                self.some += 1;
                self.others += usize::from(would != granted);
            }
        }
    }
}

#[test]
fn what_is_not_named_does_not_count() {
    let mut seen = Seen::default();
    for seed in 0..CASES {
        let case = generate::case(seed, 99_999);
        let Ok(terms) = terms::read_old(&case.text) else { continue };
        let (mut banks, mut rng, mut asked) = (Banks::new(terms), Rng::new(seed), Vec::new());
        for step in &case.steps {
            match step {
                Step::Call(call) => {
                    let (bank, moment) = (rng.below(2), banks.moments() - 1);
                    match banks.call(bank, call, call.scratch_words) {
                        Answer::Refused(_) => {}
                        answer => asked.push((bank, *call, moment, answer == Answer::Grant)),
                    }
                }
                Step::Revision(revision) => {
                    seen.look(&banks, &asked, seed);
                    asked.clear();
                    let _ = revision.said().map(|terms| banks.revise(&terms));
                }
                // One bank only.
                Step::Renumbering(_) => {}
            }
        }
        seen.look(&banks, &asked, seed);
    }
    let Seen { none, some, others } = seen;
    assert!(none > 1_000 && some > 1_000 && others > 100, "{none} {some} {others}");
}
