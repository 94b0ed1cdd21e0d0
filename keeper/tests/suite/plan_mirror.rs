//! An implementation of plans and questions that plays the game over its tables,
//! and perhaps has a fault.

use crate::help::faults;
use crate::mirror::{self, Mirror as Plain};
use keeper::compare::plans::Other;
use keeper::compare::Other as Calls;
use keeper::expect;
use keeper::plan::{Plan, Question, SCRATCH_WORDS};
use keeper::record::{Answer, Call, Record};
use keeper::set_list::Item;
use keeper::terms::{Refusal, Terms};

faults! {
    NeverPasses,
    OnlyPasses,
    OneEventOnly,
    PlannersReplies,
    PairSwapped,
    AskedBefore,
    AskedAfterReplies,
    AskedAtEnd,
    OneMoveForAll,
    DenialsForgotten,
    NineFirst,
    OddIsCut,
    LongIsPlayed,
    AnySize,
    AnyGoal,
    ScratchKept,
    ScratchOfRefusals,
    ScratchBeyond,
    StateMoved,
    TellsSwapped,
    TellsAny,
}

pub struct Mirror {
    fault: Fault,
    plain: Plain,
}

/// One move of the planner, or a reply.
type Move = (usize, usize);

impl Mirror {
    pub fn new(fault: Fault) -> Mirror {
        Mirror { fault, plain: Plain::new(mirror::Fault::None) }
    }

    fn record(&self, terms: &[u16], state: &[u64]) -> Record {
        let (mut terms, state) = expect::lent(terms, state).expect("nothing was refused");
        if self.fault == Fault::DenialsForgotten {
            terms.kept.clear();
        }
        expect::going_on(&terms, &state)
    }

    /// The refusal, with the fault put in; a faulty one may be none.
    fn refusal(&self, terms: &[u16], state: &[u64], plan: &Plan) -> Option<Refusal> {
        let refusal = expect::planning(terms, state, plan).err()?;
        if refusal.number != 14 {
            return Some(refusal);
        }
        let (terms, _) = expect::lent(terms, state).expect("14 comes after 8");
        let count = plan.numbers.len();
        let passed = match self.fault {
            Fault::NineFirst => return Some(nine(&terms, plan).unwrap_or(refusal)),
            Fault::OddIsCut => count % 2 == 1 && count < 7,
            Fault::LongIsPlayed => count == 8,
            Fault::AnySize => terms.members > 8 || terms.events > 4,
            Fault::AnyGoal => plan.goal.entry < terms.entries.len(),
            _ => false,
        };
        (!passed).then_some(refusal)
    }

    fn asked(&self, record: &Record, plan: &Plan) -> bool {
        let Question { entry, first, second } = plan.goal;
        let (first, second) = match self.fault {
            Fault::PairSwapped => (second, first),
            _ => (first, second),
        };
        record.tell(&Question { entry, first, second }) == Ok(true)
    }

    fn replies(&self, terms: &Terms) -> Vec<Option<Move>> {
        let events = if self.fault == Fault::OneEventOnly { 1 } else { terms.events };
        let moves = (0..events).flat_map(|event| (0..terms.members).map(move |to| (event, to)));
        let mut replies = vec![None];
        match self.fault {
            Fault::OnlyPasses => {}
            Fault::NeverPasses => replies = moves.map(Some).collect(),
            _ => replies.extend(moves.map(Some)),
        }
        replies
    }

    fn wins(&self, record: &Record, plan: &Plan, moves: &[Move]) -> bool {
        let Some((&(event, target), later)) = moves.split_first() else { return false };
        let moved = after(record, event, plan.planner, target);
        let is_asked = self.fault != Fault::AskedAtEnd || later.is_empty();
        if is_asked && self.asked(&moved, plan) {
            return true;
        }
        if later.is_empty() {
            return false;
        }
        let rival = if self.fault == Fault::PlannersReplies { plan.planner } else { plan.rival };
        self.replies(record.terms()).into_iter().all(|reply| {
            let next = match reply {
                None => moved.clone(),
                Some((event, to)) => after(&moved, event, rival, to),
            };
            let early = self.fault == Fault::AskedAfterReplies && self.asked(&next, plan);
            early || self.wins(&next, plan, later)
        })
    }

    /// Whether one and the same move brings the goal about, whatever the replies.
    fn wins_at_one(&self, record: &Record, plan: &Plan, moves: &[Move]) -> bool {
        let at_end = Mirror::new(Fault::AskedAtEnd);
        (1..=moves.len()).any(|count| at_end.wins(record, plan, &moves[..count]))
    }
}

fn nine(terms: &Terms, plan: &Plan) -> Option<Refusal> {
    let members = [plan.planner, plan.rival, plan.goal.first, plan.goal.second];
    let is_named = members.iter().all(|&member| member < terms.members)
        && plan.numbers.chunks(2).all(|pair| terms.has(pair[0], 0, *pair.last().unwrap_or(&0)));
    (!is_named).then_some(Refusal::plain(9))
}

fn after(record: &Record, event: usize, from: usize, to: usize) -> Record {
    let mut copy = record.clone();
    copy.answer(&Call::request(event, from, to));
    copy
}

impl Other for Mirror {
    fn plan(
        &mut self,
        plan: &Plan,
        terms: &mut [u16],
        state: &mut [u64],
        scratch: &mut [u64],
        numbers: &mut [usize],
    ) -> Result<bool, Refusal> {
        if let Some(refusal) = self.refusal(terms, state, plan) {
            if self.fault == Fault::ScratchOfRefusals {
                scratch.fill(0);
            }
            return Err(refusal);
        }
        match self.fault {
            Fault::ScratchKept => {}
            Fault::ScratchBeyond => scratch.fill(0),
            _ => scratch[..SCRATCH_WORDS].fill(0),
        }
        let moves: Vec<Move> = numbers.chunks_exact(2).map(|pair| (pair[0], pair[1])).collect();
        let record = self.record(terms, state);
        if self.fault == Fault::AnySize && record.terms().members > 8 {
            return Ok(false);
        }
        if self.fault == Fault::StateMoved {
            let moved = after(&record, moves[0].0, plan.planner, moves[0].1);
            let words = moved.state_words();
            state[..words.len()].copy_from_slice(&words);
        }
        Ok(match self.fault {
            Fault::AskedBefore if self.asked(&record, plan) => true,
            Fault::OneMoveForAll => self.wins_at_one(&record, plan, &moves),
            _ => self.wins(&record, plan, &moves),
        })
    }

    fn tell(
        &mut self,
        question: &Question,
        terms: &mut [u16],
        state: &mut [u64],
    ) -> Result<bool, Refusal> {
        let Question { entry, first, second } = *question;
        match (self.fault, expect::telling(terms, state, question)) {
            (Fault::TellsAny, Err(Refusal { number: 14, .. })) => Ok(false),
            (Fault::TellsSwapped, Ok(_)) => {
                expect::telling(terms, state, &Question { entry, first: second, second: first })
            }
            (_, result) => result,
        }
    }
}

impl Calls for Mirror {
    fn read(&mut self, text: &[u8], terms: &mut [u16], state: &mut [u64]) -> Result<(), Refusal> {
        self.plain.read(text, terms, state)
    }

    fn call(
        &mut self,
        call: &Call,
        terms: &mut [u16],
        state: &mut [u64],
        scratch: &mut [u64],
    ) -> Answer {
        self.plain.call(call, terms, state, scratch)
    }

    fn set_list(
        &mut self,
        terms: &mut [u16],
        state: &mut [u64],
        scratch: &mut [u64],
        items: &mut [Item],
    ) -> Result<usize, Refusal> {
        self.plain.set_list(terms, state, scratch, items)
    }

    fn revise(
        &mut self,
        old_terms: &mut [u16],
        old_state: &mut [u64],
        new_terms: &mut [u16],
        second: &mut [u64],
    ) -> Result<(), Refusal> {
        self.plain.revise(old_terms, old_state, new_terms, second)
    }

    fn renumber(
        &mut self,
        terms: &mut [u16],
        state: &mut [u64],
        numbers: &mut [u8],
        second: &mut [u64],
    ) -> Result<(), Refusal> {
        self.plain.renumber(terms, state, numbers, second)
    }

    fn write(&mut self, terms: &[u16], state: &[u64], output: &mut [u8]) -> Result<usize, Refusal> {
        self.plain.write(terms, state, output)
    }

    fn store(&mut self, terms: &[u16], state: &[u64], output: &mut [u8]) -> Result<usize, Refusal> {
        self.plain.store(terms, state, output)
    }
}
