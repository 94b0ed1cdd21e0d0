//! Plans against a rival, and entries that are asked about.

use cuckooormolu::{raw, Answer, Event, Fact, Member, Monitor, Move, Plan, Refusal, Request};
use cuckooormolu::{Ruling, PLAN_WORDS, STATE_WORDS};

/// Event 0 takes a target that nobody has, event 1 does nothing, event 2 is never granted and its
/// denials are kept. Entry 5 says that one has the target, entry 8 that one was denied event 2;
/// entry 9 has variable 1.
const TAKING: &str = "M 3\nL 1 3\nF 0 top 0 0\nF 1 in 0 0\nF 2 not 1 0\nF 3 at 0 2\nF 4 var 0 0\n\
                      F 5 out 0 4\nF 6 not 0 0\nF 7 out 6 0\nF 8 since 0 7\nF 9 var 1 0\n\
                      P 0 3\nP 1 0\nP 2 6\nK 2\nE 0 add 0 fwd\n";
const HAS: usize = 5;
const TRIED: usize = 8;
const OF_VARIABLE_1: usize = 9;

fn read(text: &str) -> Monitor {
    Monitor::read(text.replace(' ', "\t").as_bytes()).unwrap()
}

/// What is said of a plan of member 0, for the goal at 0 and 2. It changes nothing.
fn ruled(monitor: &Monitor, moves: &[(u8, u8)], rival: u8, goal: usize) -> Result<Ruling, Refusal> {
    let moves: Vec<Move> =
        moves.iter().map(|&(event, to)| Move { event: Event(event), to: Member(to) }).collect();
    let before = monitor.clone();
    let (planner, rival) = (Member(0), Member(rival));
    let plan = Plan { moves: &moves, planner, rival, goal, pair: (planner, Member(2)) };
    let ruling = monitor.plan(plan);
    assert_eq!((monitor.terms(), monitor.state()), (before.terms(), before.state()));
    ruling
}

#[test]
fn a_rival_that_comes_first_keeps_one_from_it() {
    let mut monitor = read(TAKING);
    assert_eq!(ruled(&monitor, &[(0, 2)], 1, HAS), Ok(Ruling::Accepted));
    assert_eq!(ruled(&monitor, &[(1, 0), (0, 2)], 1, HAS), Ok(Ruling::Rejected));
    assert_eq!(ruled(&monitor, &[(1, 0), (1, 0), (0, 2)], 1, HAS), Ok(Ruling::Rejected));
    assert_eq!(ruled(&monitor, &[(0, 2), (1, 0), (1, 0)], 1, HAS), Ok(Ruling::Accepted));
    let take = Request { event: Event(0), from: Member(1), to: Member(2) };
    assert_eq!(monitor.request(take), Ok(Answer::Grant));
    assert_eq!(ruled(&monitor, &[(0, 2)], 1, HAS), Ok(Ruling::Rejected));
}

#[test]
fn a_denied_move_has_the_effect_of_a_denied_request() {
    assert_eq!(ruled(&read(TAKING), &[(2, 0)], 1, TRIED), Ok(Ruling::Accepted));
    let unkept = read(&TAKING.replace("K 2\n", ""));
    assert_eq!(ruled(&unkept, &[(2, 0)], 1, TRIED), Ok(Ruling::Rejected));
}

/// Whatever the rival does some move of the planner succeeds, but not the same one.
#[test]
fn for_every_reply_there_is_some_move() {
    // Event 0 takes a target that nobody has, event 1 does nothing, event 2 is for a target that
    // somebody has. The goal is that one was just granted event 0 or 2.
    let monitor = read(
        "M 3\nL 1 3\nF 0 top 0 0\nF 1 in 0 0\nF 2 at 0 1\nF 3 not 2 0\nF 4 out 1 0\n\
         F 5 out 3 0\nF 6 or 4 5\nP 0 3\nP 1 0\nP 2 2\nE 0 add 0 fwd\n",
    );
    assert_eq!(ruled(&monitor, &[(1, 0), (0, 2)], 1, 6), Ok(Ruling::Rejected));
    assert_eq!(ruled(&monitor, &[(1, 0), (2, 2)], 1, 6), Ok(Ruling::Rejected));
    assert_eq!(ruled(&monitor, &[(1, 0), (0, 2), (2, 2)], 1, 6), Ok(Ruling::Accepted));
}

#[test]
fn what_is_no_game_is_refused_before_what_has_no_name() {
    let monitor = read(TAKING);
    let refused =
        |moves: &[(u8, u8)], rival, goal| ruled(&monitor, moves, rival, goal).unwrap_err();
    assert_eq!(refused(&[], 1, HAS), Refusal::NoGame);
    assert_eq!(refused(&[(1, 0); 4], 1, HAS), Refusal::NoGame);
    assert_eq!(refused(&[(3, 3)], 0, HAS), Refusal::NoGame);
    assert_eq!(refused(&[(3, 3)], 1, OF_VARIABLE_1), Refusal::NoGame);
    assert_eq!(refused(&[(3, 3)], 1, OF_VARIABLE_1 + 1), Refusal::NoGame);
    assert_eq!(refused(&[(0, 2), (0, 3)], 1, HAS), Refusal::NoSuchName);
    assert_eq!(refused(&[(0, 2), (3, 2)], 1, HAS), Refusal::NoSuchName);
    assert_eq!(refused(&[(0, 2)], 3, HAS), Refusal::NoSuchName);
    let larger = read("M 9\nL 0 1\nF 0 top 0 0\nP 0 0\n");
    assert_eq!(ruled(&larger, &[(0, 0)], 1, 0), Err(Refusal::NoGame));
}

#[test]
fn a_verdict_leaves_scratch_0_and_a_refusal_leaves_it_as_lent() {
    let monitor = read(TAKING);
    let (terms, state) = (monitor.terms().words(), monitor.state().words());
    let plan = raw::Plan { moves: &[0, 2], planner: 0, rival: 1, goal: HAS, pair: (0, 2) };
    let mut scratch = vec![3; PLAN_WORDS + 1];
    let short = &mut scratch[..PLAN_WORDS - 1];
    assert_eq!(raw::plan(terms, state, short, plan), Err(Refusal::TooShort));
    for length in [0, 1, 3, 5, 7, 8] {
        let odd = raw::Plan { moves: &[0; 8][..length], ..plan };
        assert_eq!(raw::plan(terms, state, &mut scratch, odd), Err(Refusal::NoGame));
    }
    let nobody = raw::Plan { pair: (0, usize::MAX), ..plan };
    assert_eq!(raw::plan(terms, state, &mut scratch, nobody), Err(Refusal::NoSuchName));
    assert_eq!(raw::plan(&[], state, &mut scratch, plan), Err(Refusal::TooShort));
    assert_eq!(raw::plan(terms, &[9; STATE_WORDS], &mut scratch, plan), Err(Refusal::BadState));
    assert!(scratch.iter().all(|&word| word == 3));
    assert_eq!(raw::plan(terms, state, &mut scratch, plan), Ok(Ruling::Accepted));
    assert!(scratch[..PLAN_WORDS].iter().all(|&word| word == 0) && scratch[PLAN_WORDS] == 3);
    scratch.fill(3);
    let late = raw::Plan { moves: &[1, 0, 0, 2], ..plan };
    assert_eq!(raw::plan(terms, state, &mut scratch, late), Ok(Ruling::Rejected));
    assert!(scratch[..PLAN_WORDS].iter().all(|&word| word == 0) && scratch[PLAN_WORDS] == 3);
}

/// A policy holds exactly where a look is granted.
#[test]
fn what_is_told_of_a_policy_is_what_a_look_is_answered() {
    let mut monitor = read(TAKING);
    let take = Request { event: Event(0), from: Member(1), to: Member(2) };
    for _ in 0..2 {
        for event in monitor.terms().events() {
            let policy = monitor.terms().policy(event).unwrap();
            for (from, to) in monitor.terms().members().zip([2, 0, 1].map(Member)) {
                let answer = monitor.look(Request { event, from, to });
                let told = monitor.tell(policy, from, to);
                assert_eq!(answer.map(Answer::is_grant), told.map(Fact::holds));
            }
        }
        let _ = monitor.request(take);
    }
    assert_eq!(monitor.tell(HAS, Member(1), Member(2)), Ok(Fact::Holds));
    assert_eq!(monitor.tell(HAS, Member(2), Member(1)), Ok(Fact::Fails));
    assert_eq!(monitor.tell(OF_VARIABLE_1, Member(3), Member(0)), Err(Refusal::NoGame));
    assert_eq!(monitor.tell(HAS, Member(0), Member(3)), Err(Refusal::NoSuchName));
    assert_eq!(raw::tell(&[], &[], 0, 0, 0), Err(Refusal::TooShort));
}

/// Numbers below a bound, the same in every run.
struct Chance(u64);

impl Chance {
    fn below(&mut self, bound: usize) -> usize {
        self.0 =
            self.0.wrapping_mul(6_364_136_223_846_793_005).wrapping_add(1_442_695_040_888_963_407);
        (self.0 >> 33) as usize % bound
    }
}

/// Whether the goal is reached whatever the rival does, played by requests on copies.
fn is_won(monitor: &Monitor, plan: &Plan, made: usize) -> bool {
    let Some(&Move { event, to }) = plan.moves.get(made) else { return false };
    let mut after = monitor.clone();
    let _ = after.request(Request { event, from: plan.planner, to });
    if after.tell(plan.goal, plan.pair.0, plan.pair.1).unwrap().holds() {
        return true;
    }
    let terms = monitor.terms();
    let replies = terms.events().flat_map(|event| terms.members().map(move |to| (event, to)));
    let mut replies = std::iter::once(None).chain(replies.map(Some));
    made + 1 < plan.moves.len()
        && replies.all(|reply| {
            let mut next = after.clone();
            if let Some((event, to)) = reply {
                let _ = next.request(Request { event, from: plan.rival, to });
            }
            is_won(&next, plan, made + 1)
        })
}

#[test]
fn the_verdict_is_that_of_the_game_played_to_its_end() {
    // Shares that last until they are withdrawn; and wishes before claims, where denied claims count.
    let shares = "M 4\nL 1 3\nF 0 var 1 0\nF 1 out 1 0\nF 2 out 2 0\nF 3 not 2 0\nF 4 since 3 1\n\
                  F 5 in 0 4\nF 6 at 0 5\nF 7 bind 1 6\nF 8 top 0 0\nF 9 prev 8 0\nF 10 in 1 8\n\
                  P 0 8\nP 1 8\nP 2 7\nE 2 add 0 fwd\nG 0 0 2\nG 0 3 2\n";
    let claims = "M 4\nL 1 4\nF 0 top 0 0\nF 1 in 0 0\nF 2 at 0 1\nF 3 var 0 0\nF 4 out 1 3\n\
                  F 5 since 0 4\nF 6 not 5 0\nF 7 or 2 6\nF 8 not 7 0\nF 9 out 0 3\nF 10 out 6 0\n\
                  F 11 since 0 10\nF 12 prev 9 0\nP 0 0\nP 1 8\nP 2 9\nP 3 11\nK 1\n\
                  E 1 add 0 fwd\nE 2 del 0 fwd\nE 3 add 0 back\n";
    let mut chance = Chance(13);
    let mut counts = [0, 0];
    for text in [TAKING, shares, claims] {
        for _ in 0..300 {
            let mut monitor = read(text);
            let (members, events) =
                (monitor.terms().members().len(), monitor.terms().events().len());
            let entries = monitor.terms().entries().len();
            for _ in 0..chance.below(6) {
                let (event, from) =
                    (Event(chance.below(events) as u8), Member(chance.below(members) as u8));
                let _ = monitor.request(Request {
                    event,
                    from,
                    to: Member(chance.below(members) as u8),
                });
            }
            let moves: Vec<Move> = (0..1 + chance.below(3))
                .map(|_| Move {
                    event: Event(chance.below(events) as u8),
                    to: Member(chance.below(members) as u8),
                })
                .collect();
            let planner = Member(chance.below(members) as u8);
            let rival = Member(
                (usize::from(planner) + 1 + chance.below(members - 1)) as u8 % members as u8,
            );
            let goal = chance.below(entries);
            let pair = (Member(chance.below(members) as u8), Member(chance.below(members) as u8));
            let plan = Plan { moves: &moves, planner, rival, goal, pair };
            match monitor.plan(plan) {
                Ok(ruling) => {
                    assert_eq!(ruling.is_accepted(), is_won(&monitor, &plan, 0), "{plan:?}");
                    counts[usize::from(ruling.is_accepted())] += 1;
                }
                Err(refusal) => {
                    assert_eq!(refusal, Refusal::NoGame);
                    assert!(monitor.terms().free(goal).unwrap().any(|x| x.0 != 0), "{plan:?}");
                }
            }
        }
    }
    assert!(counts.iter().all(|&count| count > 20), "{counts:?}");
}
