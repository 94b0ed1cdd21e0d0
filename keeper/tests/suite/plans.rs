//! Plans against a rival, by the sentence.

use crate::help::*;
use keeper::generate;
use keeper::plan::turn::Turn;
use keeper::plan::{Plan, Question, SCRATCH_WORDS};
use keeper::record::Answer::{Deny, Grant};
use keeper::record::Record;

/// Planner 0 against rival 1, for an entry at a pair.
fn plan(numbers: &[usize], entry: usize, first: usize, second: usize) -> Plan {
    let goal = Question { entry, first, second };
    Plan { numbers: numbers.to_vec(), planner: 0, rival: 1, goal, scratch_words: SCRATCH_WORDS }
}

/// Whether a plan is accepted; the record is as it was.
fn accepts(record: &Record, plan: &Plan) -> bool {
    let before = (record.graphs().to_vec(), record.state());
    let verdict = record.judge(plan).expect("there is a verdict");
    assert_eq!((record.graphs().to_vec(), record.state()), before);
    verdict
}

fn holds(record: &Record, entry: usize, first: usize, second: usize) -> bool {
    record.tell(&Question { entry, first, second }).expect("it is told")
}

/// Three members and two events, free to all. Entry 2: event 0 to the second, now.
/// Entry 3: so once. Entry 4: event 1 from anyone, now. Entry 6: event 0 to the
/// second, and no event 1 at the first since.
const TWO: &str = "M 3/L 0 2/F 0 top 0 0/F 1 var 0 0/F 2 out 0 1/F 3 since 0 2/F 4 in 1 0/\
    F 5 not 4 0/F 6 since 5 2/P 0 0/P 1 0";

#[test]
fn a_plan_is_accepted_at_its_first_move() {
    let record = record(TWO);
    for entry in [2, 3, 6] {
        assert!(accepts(&record, &plan(&[0, 2], entry, 0, 2)));
        assert!(accepts(&record, &plan(&[0, 2, 1, 1, 1, 1], entry, 0, 2)));
        assert!(!accepts(&record, &plan(&[0, 1], entry, 0, 2)));
        assert!(!accepts(&record, &plan(&[1, 2], entry, 0, 2)));
    }
}

#[test]
fn a_plan_is_accepted_at_its_second_move_whatever_the_reply() {
    let record = record(TWO);
    assert!(accepts(&record, &plan(&[1, 2, 0, 2], 2, 0, 2)));
    assert!(accepts(&record, &plan(&[1, 2, 1, 2, 0, 2], 2, 0, 2)));
    assert!(!accepts(&record, &plan(&[1, 2, 1, 2, 0, 1], 2, 0, 2)));
}

#[test]
fn one_reply_is_enough_against_a_plan() {
    // Event 0 adds an edge. Event 1 adds a mark, entry 2, and is for those without an
    // edge from their target.
    let text = "M 3/L 2 3/F 0 top 0 0/F 1 var 0 0/F 2 out 1 1/F 3 in 0 1/F 4 not 3 0/\
        P 0 0/P 1 4/P 2 0/E 0 add 0 fwd/E 1 add 1 fwd";
    let mut record = record(text);
    // Rival 1 can put an edge to 0, and then the planner's event 1 to 1 is denied.
    assert!(!accepts(&record, &plan(&[2, 2, 1, 1], 2, 0, 1)));
    assert!(accepts(&record, &plan(&[1, 1, 1, 1], 2, 0, 1)));
    // Another rival has no such reply.
    let other = Plan { rival: 2, ..plan(&[2, 2, 1, 1], 2, 0, 1) };
    assert!(accepts(&record, &other));
    // The reply itself, played out.
    assert_eq!(request(&mut record, 2, 0, 2), Grant);
    assert_eq!(request(&mut record, 0, 1, 0), Grant);
    assert_eq!(request(&mut record, 1, 0, 1), Deny);
    assert!(!holds(&record, 2, 0, 1));
}

#[test]
fn the_rival_may_pass() {
    // Entries 2 and 4: the moment before had an event 0, or 1, at the first.
    let text = "M 3/L 0 2/F 0 top 0 0/F 1 in 0 0/F 2 prev 1 0/F 3 in 1 0/F 4 prev 3 0/P 0 0/P 1 0";
    let record = record(text);
    // It takes the rival's help, which a pass denies.
    assert!(!accepts(&record, &plan(&[1, 2, 1, 2], 2, 0, 0)));
    // And a move undoes what a pass leaves.
    assert!(!accepts(&record, &plan(&[1, 2, 0, 2], 4, 2, 0)));
    assert_eq!(record.unopposed(&plan(&[1, 2, 0, 2], 4, 2, 0)), Some(1));
}

#[test]
fn the_goal_is_not_asked_before_the_first_move() {
    // Entry 2: this is the first moment.
    let record = record("M 3/L 0 1/F 0 top 0 0/F 1 prev 0 0/F 2 not 1 0/P 0 0");
    assert!(holds(&record, 2, 0, 0));
    assert!(!accepts(&record, &plan(&[0, 1, 0, 1, 0, 1], 2, 0, 0)));
}

#[test]
fn the_goal_is_not_asked_after_the_rivals_moves() {
    // Entry 4: an event from here now, or one to here the moment before.
    let text = "M 2/L 0 1/F 0 top 0 0/F 1 out 0 0/F 2 in 0 0/F 3 prev 2 0/F 4 or 1 3/P 0 0";
    let mut record = record(text);
    // At 1 it holds at the second move after a pass, and after any reply at once; but
    // not at the second move after the reply to 0.
    let plan = plan(&[0, 1, 0, 1], 4, 1, 0);
    assert_eq!(record.unopposed(&plan), Some(1));
    assert!(!accepts(&record, &plan));
    for (from, to, told) in [(0, 1, false), (1, 0, true), (0, 1, false)] {
        assert_eq!(request(&mut record, 0, from, to), Grant);
        assert_eq!(holds(&record, 4, 1, 0), told);
    }
}

#[test]
fn which_move_it_is_may_depend_on_the_replies() {
    // Entry 6: an event from here one moment ago, or four moments ago.
    let text = "M 2/L 0 1/F 0 top 0 0/F 1 out 0 0/F 2 prev 1 0/F 3 prev 2 0/F 4 prev 3 0/\
        F 5 prev 4 0/F 6 or 2 5/P 0 0";
    let mut record = record(text);
    // After a pass it holds at the second move; after a reply and a pass, one moment
    // after that; after two replies, four moments after the first.
    assert!(accepts(&record, &plan(&[0, 1, 0, 1, 0, 1], 6, 0, 0)));
    // The second move alone will not do, and neither will the third.
    assert!(!accepts(&record, &plan(&[0, 1, 0, 1], 6, 0, 0)));
    for (from, told) in [(0, false), (0, true), (1, true), (0, false)] {
        assert_eq!(request(&mut record, 0, from, 1 - from), Grant);
        assert_eq!(holds(&record, 6, 0, 0), told);
    }
}

#[test]
fn denied_moves_have_the_effect_of_any_denied_request() {
    // Event 0 is always denied. Entry 2: a denied event 0 from the first, now;
    // entry 3: so once; entry 4: a moment before.
    let text = "M 2/L 1 1/F 0 top 0 0/F 1 not 0 0/F 2 out 2 0/F 3 since 0 2/F 4 prev 0 0/P 0 1";
    let (unkept, kept) = (record(text), record(&format!("{text}/K 0/E 0 add 0 fwd")));
    for entry in [2, 3, 4] {
        assert!(accepts(&kept, &plan(&[0, 1], entry, 0, 0)));
        assert!(!accepts(&unkept, &plan(&[0, 1, 0, 1, 0, 1], entry, 0, 0)));
    }
    // The rival's denials are kept as well, but it may pass.
    assert!(!accepts(&kept, &plan(&[0, 1, 0, 1], 3, 1, 0)));
    // Without a moment all stays: what holds, holds after a denied move.
    assert!(accepts(&unkept, &plan(&[0, 1], 0, 0, 0)));
    assert!(!accepts(&unkept, &plan(&[0, 1], 1, 0, 0)));
}

#[test]
fn the_goal_sees_the_past() {
    let mut record = record(TWO);
    assert!(!accepts(&record, &plan(&[1, 1], 3, 0, 2)));
    assert_eq!(request(&mut record, 0, 0, 2), Grant);
    assert!(accepts(&record, &plan(&[1, 1], 3, 0, 2)));
    // Entry 6 ends with an event 1 at the first, which the rival can make.
    assert!(accepts(&record, &plan(&[1, 1], 6, 0, 2)));
    assert!(!accepts(&record, &plan(&[1, 0, 1, 1], 6, 0, 2)));
    assert!(accepts(&record, &plan(&[1, 0, 0, 2], 6, 0, 2)));
}

#[test]
fn a_revision_starts_what_the_goal_sees() {
    let once = "F 1 var 0 0/F 2 out 0 1/F 3 since 0 2/P 0 0/P 1 0";
    let never = accepted(&slashes("M 3/L 0 2/F 0 top 0 0/P 0 0/P 1 0"));
    let terms = accepted(&slashes(&format!("M 3/L 0 2/F 0 top 0 0/{once}")));
    let mut record = Record::new(terms.clone());
    assert_eq!(request(&mut record, 0, 0, 2), Grant);
    assert_eq!(request(&mut record, 1, 0, 2), Grant);
    assert!(accepts(&record, &plan(&[1, 1], 3, 0, 2)));
    assert_eq!(record.revise(&never), Ok(()));
    assert_eq!(record.revise(&terms), Ok(()));
    // It was before the start.
    assert!(!accepts(&record, &plan(&[1, 1], 3, 0, 2)));
    assert!(accepts(&record, &plan(&[1, 1, 0, 2], 3, 0, 2)));
}

#[test]
fn policies_decide_on_the_way() {
    // The preset: 0 owns 2, and 1 can load it if 0 has shared and not withdrawn.
    let record = preset();
    let load =
        |numbers: &[usize], planner, rival| Plan { planner, rival, ..plan(numbers, 7, 1, 2) };
    assert!(!holds(&record, 7, 1, 2));
    assert!(accepts(&record, &load(&[0, 1], 0, 1)));
    assert!(!accepts(&record, &load(&[0, 0, 0, 0], 0, 1)));
    // Member 1 cannot make it so alone, and owner 0 need not.
    assert!(!accepts(&record, &load(&[0, 1, 0, 2, 2, 2], 1, 0)));
}

/// Whether an entry is told to hold, right after each of the planner's moves, with
/// these replies between: the planner's moves and the replies played from the start.
fn reached(record: &Record, plan: &Plan, replies: &[Option<(usize, usize)>]) -> bool {
    let mut record = record.clone();
    let mut replies = replies.iter();
    for (event, target) in plan.moves().expect("the plan has moves") {
        request(&mut record, event, plan.planner, target);
        if record.tell(&plan.goal) == Ok(true) {
            return true;
        }
        if let Some(Some((event, target))) = replies.next() {
            request(&mut record, *event, plan.rival, *target);
        }
    }
    false
}

/// All lists of so many replies: each a pass, or an event and a target.
fn all_replies(record: &Record, count: usize) -> Vec<Vec<Option<(usize, usize)>>> {
    let terms = record.terms();
    let mut one = vec![None];
    one.extend((0..terms.events).flat_map(|j| (0..terms.members).map(move |v| Some((j, v)))));
    let mut all = vec![Vec::new()];
    for _ in 0..count {
        let longer = |list: &Vec<_>| -> Vec<Vec<_>> {
            one.iter().map(|reply| [&list[..], &[*reply]].concat()).collect()
        };
        all = all.iter().flat_map(longer).collect();
    }
    all
}

#[test]
fn accepted_is_reached_with_every_list_of_replies() {
    let (mut at_once, mut later, mut rejected, mut by_reply) = (0, 0, 0, 0);
    for seed in 0..400 {
        let case = generate::plans::case(seed, 99_999);
        let mut record = opened(&case.text);
        for turn in &case.steps {
            turn.take(&mut record);
            let Turn::Plan(plan) = turn else { continue };
            let Ok(verdict) = record.judge(plan) else { continue };
            let gaps = plan.numbers.len() / 2 - 1;
            if record.terms().members * record.terms().events > 9 && gaps > 1 {
                continue;
            }
            let all = all_replies(&record, gaps);
            let every = all.iter().all(|replies| reached(&record, plan, replies));
            assert_eq!(verdict, every, "{case}");
            let first = Plan { numbers: plan.numbers[..2].to_vec(), ..plan.clone() };
            match (verdict, reached(&record, plan, &all[0])) {
                (true, _) if reached(&record, &first, &[]) => at_once += 1,
                (true, _) => later += 1,
                (false, true) => by_reply += 1,
                (false, false) => rejected += 1,
            }
        }
    }
    println!("at once {at_once}, later {later}, rejected {rejected}, by a reply {by_reply}");
    assert!(at_once > 200 && later > 20 && rejected > 200 && by_reply > 10);
}
