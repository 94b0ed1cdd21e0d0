//! Two banks, one circle, worked out by hand.

use crate::help::{accepted, slashes};
use keeper::banks::lent::{OWN_WORDS, RELATION_WORDS};
use keeper::banks::step::{said, Deed, Outcome};
use keeper::banks::Banks;
use keeper::generate;
use keeper::record::Answer::{Deny, Grant};
use keeper::record::{after_effects, Answer, Call, Graph, Record, Start};
use keeper::set_list::{self, Item};
use keeper::terms::memory::SCRATCH_WORDS;
use keeper::terms::{self, EventEdge, Refusal, Terms};

/// Share (0) adds its edge and rest (1) does nothing; both are free to all. Of the
/// initiator, 2 asks for a share ever, 3 for a share now, 4 for a moment before, 5
/// for an edge. Load (6) is never granted, and its denials are kept; 7 asks for
/// such a denial ever.
const HEAD: &str = "M 3/L 1 8/F 0 top 0 0/F 1 out 1 0/F 2 since 0 1/F 3 prev 0 0/F 4 out 0 0/\
    F 5 not 0 0/F 6 out 15 0/F 7 since 0 6/P 0 0/P 1 0/P 2 2/P 3 1/P 4 3/P 5 4/P 6 5/P 7 7/K 6/\
    E 0 add 0 fwd";

fn banks() -> Banks {
    Banks::new(accepted(&slashes(HEAD)))
}

fn ask(banks: &mut Banks, bank: usize, event: usize, from: usize) -> Answer {
    banks.call(bank, &Call::request(event, from, 1), SCRATCH_WORDS)
}

/// What each bank would get now.
fn looks(banks: &mut Banks, event: usize, from: usize) -> [Answer; 2] {
    let moments = banks.moments();
    let look = Call::look(event, from, 1);
    let answers = [0, 1].map(|bank| banks.call(bank, &look, SCRATCH_WORDS));
    assert_eq!(banks.moments(), moments);
    answers
}

#[test]
fn both_start_together_at_moment_0() {
    let mut banks = Banks::new(accepted(&slashes(&format!("{HEAD}/G 0 2 1"))));
    for bank in [0, 1] {
        assert_eq!(banks.record(bank).graphs().len(), 1);
        assert_eq!(banks.record(bank).last().event, None);
    }
    let words = banks.words();
    assert_eq!(words.own[0], words.own[1]);
    assert_eq!((words.relations[2], words.own[0][2_048]), (0b010, 0));
    assert_eq!(looks(&mut banks, 4, 0), [Deny, Deny]);
    assert_eq!(looks(&mut banks, 5, 2), [Grant, Grant]);
}

#[test]
fn a_moment_in_one_is_a_moment_in_the_other_without_an_event_edge() {
    for bank in [0, 1] {
        let mut banks = banks();
        assert_eq!(ask(&mut banks, bank, 0, 0), Grant);
        let [own, other] = [bank, 1 - bank].map(|bank| banks.record(bank).last());
        assert_eq!(own.event, Some(EventEdge::granted(0, 0, 1)));
        assert_eq!((other.event, &other.edges), (None, &own.edges));
        // A moment was made in both, and the edge is in both; the share is not.
        assert_eq!(looks(&mut banks, 4, 0), [Grant, Grant]);
        assert_eq!(looks(&mut banks, 5, 0), [Grant, Grant]);
        for event in [2, 3] {
            let answers = looks(&mut banks, event, 0);
            assert_eq!([answers[bank], answers[1 - bank]], [Grant, Deny]);
        }
    }
}

#[test]
fn a_moment_of_the_other_ends_an_event_edge() {
    let mut banks = banks();
    ask(&mut banks, 0, 0, 0);
    assert_eq!(looks(&mut banks, 3, 0), [Grant, Deny]);
    assert_eq!(ask(&mut banks, 1, 1, 2), Grant);
    // "Just shared" is over, "ever shared" is not.
    assert_eq!(looks(&mut banks, 3, 0), [Deny, Deny]);
    assert_eq!(looks(&mut banks, 2, 0), [Grant, Deny]);
    let words = banks.words();
    assert_eq!([words.own[0][2_048], words.own[1][2_048]], [0, 1 + 4_096 + 2 * 64 + 1]);
}

#[test]
fn a_kept_denial_makes_a_moment_in_both() {
    let mut banks = banks();
    assert_eq!(ask(&mut banks, 1, 6, 0), Deny);
    assert_eq!(banks.record(1).last().event, Some(EventEdge::denied(6, 0, 1)));
    assert_eq!(banks.record(0).last(), &Graph::default());
    assert_eq!(looks(&mut banks, 4, 0), [Grant, Grant]);
    assert_eq!(looks(&mut banks, 7, 0), [Deny, Grant]);
    let words = banks.words();
    assert_eq!([words.own[0][2_048], words.own[1][2_048]], [0, 1 + (16 + 6) * 4_096 + 1]);
}

#[test]
fn looks_denials_and_refusals_make_no_moment() {
    let mut banks = banks();
    let before = banks.words();
    for bank in [0, 1] {
        assert_eq!(ask(&mut banks, bank, 2, 0), Deny);
        let refused = |number| Answer::Refused(Refusal::plain(number));
        assert_eq!(ask(&mut banks, bank, 8, 0), refused(9));
        assert_eq!(ask(&mut banks, bank, 0, 3), refused(9));
        // Either bank's scratch counts, and before the numbers.
        let far = Call::request(9, 9, 9);
        let short = Call { scratch_words: 63, ..far };
        assert_eq!(banks.call(bank, &far, 63), refused(6));
        assert_eq!(banks.call(bank, &short, 64), refused(6));
    }
    for event in [0, 6] {
        looks(&mut banks, event, 0);
    }
    assert_eq!(banks.moments(), 1);
    assert_eq!(banks.words(), before);
}

#[test]
fn words_are_relations_and_each_banks_own() {
    let mut banks = banks();
    ask(&mut banks, 0, 0, 0);
    ask(&mut banks, 1, 0, 2);
    let words = banks.words();
    assert_eq!((RELATION_WORDS, OWN_WORDS), (1_024, 2_049));
    assert_eq!((words.terms.len(), words.relations.len()), (1_252, 1_024));
    assert_eq!(words.relations[..4], [0b010, 0, 0b010, 0]);
    for bank in [0, 1] {
        assert_eq!(words.own[bank].len(), 2_049);
        assert_eq!(words.state(bank), banks.record(bank).state_words());
    }
    // "Ever a share" is table 0, "a moment before" table 1.
    assert_eq!(words.own[0][..3], [0b111, 0, 0]);
    assert_eq!(words.own[1][..3], [0, 0, 0b111]);
    assert_eq!(words.own[0][64..67], [0b111; 3]);
    assert_eq!(words.own[1][64..67], [0b111; 3]);
}

#[test]
fn a_set_list_is_single_requests_of_one_bank() {
    let requests = [(0, 0), (2, 0), (2, 1), (9, 0), (6, 0), (7, 0), (3, 0)];
    let mut items = requests.map(|(event, from)| Item { event, from, to: 1, answer: 77 }).to_vec();
    let (mut listed, mut single) = (banks(), banks());
    let lent = items.clone();
    assert_eq!(listed.set_list(1, &mut items, [64, 63]), Err(Refusal::plain(6)));
    assert_eq!(listed.set_list(1, &mut items, [63, 64]), Err(Refusal::plain(6)));
    assert_eq!(listed.set_list(1, &mut [], [63, 64]), Err(Refusal::plain(6)));
    assert_eq!((&items, listed.moments()), (&lent, 1));
    assert_eq!(listed.set_list(1, &mut [], [64; 2]), Ok(0));
    assert_eq!(listed.set_list(1, &mut items, [64; 2]), Ok(3));
    let answers: Vec<u32> = items.iter().map(|item| item.answer).collect();
    assert_eq!(answers, [1, 1, 0, 9, 0, 1, 0]);
    for (event, from) in requests {
        ask(&mut single, 1, event as usize, from as usize);
    }
    assert_eq!(listed.words(), single.words());
    assert_eq!(looks(&mut listed, 2, 0), [Deny, Grant]);
}

#[test]
fn new_terms_are_those_of_both() {
    let mut banks = banks();
    ask(&mut banks, 0, 0, 0);
    ask(&mut banks, 1, 1, 2);
    // "Ever a share" (2) is carried; "ever a rest" (7) is new.
    let new = "M 3/L 1 8/F 0 top 0 0/F 1 out 2 0/F 2 since 0 1/F 3 out 1 0/F 4 since 0 3/\
        P 0 0/P 1 0/P 2 4/P 3 0/P 4 0/P 5 0/P 6 0/P 7 2";
    assert_eq!(banks.revise(&accepted(&slashes(new))), Ok(()));
    assert_eq!(banks.moments(), 3);
    for bank in [0, 1] {
        let starts = [Start::Moment(2), Start::Moment(0)];
        assert_eq!(banks.record(bank).starts(), starts);
    }
    // A since that starts now sees the event edge, which is the second bank's only.
    assert_eq!(looks(&mut banks, 7, 2), [Deny, Grant]);
    assert_eq!(looks(&mut banks, 2, 0), [Grant, Deny]);
    assert_eq!(banks.words().own[1][2_048], 1 + 4_096 + 2 * 64 + 1);
}

#[test]
fn terms_of_another_size_change_neither() {
    let mut banks = banks();
    ask(&mut banks, 0, 0, 0);
    let before = banks.words();
    let larger = Terms { members: 4, ..banks.terms().clone() };
    assert_eq!(banks.revise(&larger), Err(Refusal::plain(13)));
    assert_eq!(banks.words(), before);
    assert_eq!(ask(&mut banks, 1, 0, 3), Answer::Refused(Refusal::plain(9)));
}

/// What the graph of each bank is after a moment of one.
fn graphs(terms: &Terms, bank: usize, call: &Call, answer: Answer, last: &Graph) -> [Graph; 2] {
    let Call { event, from, to, .. } = *call;
    let (edges, event) = match answer {
        Answer::Grant => {
            let edges = after_effects(terms, &last.edges, event, from, to);
            (edges, EventEdge::granted(event, from, to))
        }
        _ => (last.edges.clone(), EventEdge::denied(event, from, to)),
    };
    [0, 1].map(|each| Graph { edges: edges.clone(), event: (each == bank).then_some(event) })
}

/// Each bank's record for itself: its own calls, and the other's moments without
/// an event edge.
struct Alone {
    records: [Record; 2],
    moments: usize,
}

impl Alone {
    fn answer(&mut self, bank: usize, call: &Call) -> Answer {
        let last = self.records[bank].last().clone();
        let moments = self.records[bank].graphs().len();
        let answer = self.records[bank].answer(call);
        if self.records[bank].graphs().len() > moments {
            let graphs = graphs(self.records[bank].terms(), bank, call, answer, &last);
            self.records[1 - bank].pass(graphs[1 - bank].edges.clone());
            for (record, graph) in self.records.iter().zip(&graphs) {
                assert_eq!(record.last(), graph);
            }
            self.moments += 1;
        }
        answer
    }

    fn take(&mut self, deed: &Deed) -> Outcome {
        match deed {
            Deed::Call(bank, call) => Outcome::Answered(self.answer(*bank, call)),
            Deed::List(bank, items) => {
                let mut items = items.clone();
                let granted = set_list::fill(&mut items, |call| self.answer(*bank, call));
                Outcome::Listed(Ok(granted), items)
            }
            Deed::Revision(words) => {
                let terms = said(words).unwrap();
                let [one, two] = &mut self.records;
                let done = one.revise(&terms);
                assert_eq!(two.revise(&terms), done);
                Outcome::Revised(done)
            }
        }
    }
}

#[test]
fn each_bank_has_its_own_record() {
    let (mut moments, mut lists) = (0, 0);
    for seed in 0..400 {
        let case = generate::banks::case(seed, 99_999);
        let Ok(terms) = terms::read_old(&case.text) else { continue };
        if terms.members > 8 {
            continue;
        }
        let mut banks = Banks::new(terms.clone());
        let records = [Record::new(terms.clone()), Record::new(terms)];
        let mut alone = Alone { records, moments: 0 };
        for step in &case.steps {
            assert_eq!(banks.take(&step.deed), alone.take(&step.deed), "{case}");
            lists += usize::from(matches!(step.deed, Deed::List(_, _)));
        }
        for bank in [0, 1] {
            assert!(banks.record(bank).graphs() == alone.records[bank].graphs(), "{case}");
            assert_eq!(banks.record(bank).starts(), alone.records[bank].starts(), "{case}");
        }
        moments += alone.moments;
    }
    println!("{moments} moments, {lists} lists");
    assert!(moments > 1_000 && lists > 200);
}
