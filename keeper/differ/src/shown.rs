//! What the binding shows of terms and a state, in the keeper's words.

use cuckooormolu::{Action, Answer, Direction, Entry, Label, Member, Monitor};
use keeper::terms::memory::State;
use keeper::terms::{self, Bit, Effect, EventEdge, Past, Terms};

/// The terms, without edges.
pub fn terms(monitor: &Monitor) -> Terms {
    let shown = monitor.terms();
    let (relations, events) = (shown.relations().len(), shown.events().len());
    let policy = |event| shown.policy(event).expect("each event has a policy");
    let effects = |event| {
        let effects = shown.effects(event).map(|effect| Effect {
            add: effect.action == Action::Add,
            relation: effect.relation.into(),
            back: effect.direction == Direction::Back,
        });
        effects.collect()
    };
    Terms {
        members: shown.members().len(),
        relations,
        events,
        entries: shown.entries().map(|entry| plain(entry, relations, events)).collect(),
        policies: shown.events().map(policy).collect(),
        kept: shown.kept().map(usize::from).collect(),
        effects: shown.events().map(effects).collect(),
        ..Terms::default()
    }
}

/// The entry with a label by its number: relations, events, denied events.
fn plain(entry: Entry, relations: usize, events: usize) -> terms::Entry {
    let number = |label| match label {
        Label::Relation(relation) => usize::from(relation),
        Label::Event(event) => relations + usize::from(event),
        Label::Denied(event) => relations + events + usize::from(event),
        other => unreachable!("the keeper has no label {other:?}"),
    };
    match entry {
        Entry::Top => terms::Entry::Top,
        Entry::Var(x) => terms::Entry::Var(x.into()),
        Entry::Not(f) => terms::Entry::Not(f),
        Entry::Or(f, g) => terms::Entry::Or(f, g),
        Entry::Out(l, f) => terms::Entry::Out(number(l), f),
        Entry::In(l, f) => terms::Entry::In(number(l), f),
        Entry::Prev(f) => terms::Entry::Prev(f),
        Entry::Since(f, g) => terms::Entry::Since(f, g),
        Entry::Bind(x, f) => terms::Entry::Bind(x.into(), f),
        Entry::At(x, f) => terms::Entry::At(x.into(), f),
        Entry::Reach(x, f, g) => terms::Entry::Reach(x.into(), f, g),
        Entry::Many(l, f, k) => terms::Entry::Many(number(l), f, k.into()),
        other => unreachable!("the keeper has no entry {other:?}"),
    }
}

pub fn state(monitor: &Monitor) -> State {
    let shown = monitor.state();
    let edge = |edge: cuckooormolu::Edge| {
        assert!(shown.has_edge(edge));
        (edge.relation.into(), edge.from.into(), edge.to.into())
    };
    let members = monitor.terms().members().len();
    let table = |t| {
        let table = shown.table(monitor.terms(), t).expect("each past-time entry has a table");
        let holding = table.holding().flat_map(|holding| {
            assert_eq!(table.holds(holding.at(), holding.others()), Some(true));
            bits(members, holding.at().into(), holding.others())
        });
        holding.collect()
    };
    let event = |edge: cuckooormolu::EventEdge| {
        let cuckooormolu::Request { event, from, to } = edge.request;
        let denied = edge.answer == Answer::Deny;
        EventEdge { event: event.into(), from: from.into(), to: to.into(), denied }
    };
    let tables = (0..monitor.terms().tables().count()).map(table).collect();
    let past = Past { tables, event: shown.event().map(event) };
    State { edges: shown.edges().map(edge).collect(), past }
}

/// The bits that say that an entry holds at a member, with its free variables
/// standing for the others. Without any, all bits at the member say so.
fn bits(members: usize, at: usize, others: &[Member]) -> Vec<Bit> {
    match *others {
        [] => (0..members).map(|b| Bit::Pair(at, b)).collect(),
        [b] => vec![Bit::Pair(at, b.into())],
        [b, c] => vec![Bit::Triple(at, b.into(), c.into())],
        _ => unreachable!("no entry has more than two free variables"),
    }
}
