//! Terms: what a terms file says, without its edges.

use crate::places::*;
use crate::stack::stack;
use crate::table::variables;
use crate::{raw, Entry, Event, Label, Member, Refusal, Relation, State, Variable, TERMS_WORDS};
use alloc::boxed::Box;
use alloc::vec::Vec;

/// What a granted event does to a relation.
#[derive(Clone, Copy, Debug, PartialEq, Eq, Hash)]
pub struct Effect {
    /// What is done.
    pub action: Action,
    /// The relation whose edge it is done to.
    pub relation: Relation,
    /// Which way the edge leads.
    pub direction: Direction,
}

/// What an effect does to an edge.
#[derive(Clone, Copy, Debug, PartialEq, Eq, Hash)]
pub enum Action {
    /// Afterwards it is there.
    Add,
    /// Afterwards it is not.
    Del,
}

/// Which way the edge of an effect leads.
#[derive(Clone, Copy, Debug, PartialEq, Eq, Hash)]
pub enum Direction {
    /// From initiator to target.
    Fwd,
    /// From target to initiator.
    Back,
}

/// Accepted terms: members, labels, formulas, policies, effects and which
/// denials are kept.
///
/// ```
/// use cuckooormolu::*;
///
/// let text = "M 2\nL 1 1\nF 0 top 0 0\nF 1 in 1 0\nF 2 prev 1 0\nP 0 2\nE 0 add 0 back\n";
/// let monitor = Monitor::read(text.replace(' ', "\t").as_bytes())?;
/// let terms = monitor.terms();
/// assert_eq!(terms.members().len(), 2);
/// assert_eq!(terms.entry(1), Some(Entry::In(Label::Event(Event(0)), 0)));
/// assert_eq!(terms.policy(Event(0)), Some(2));
/// assert_eq!(terms.tables().collect::<Vec<_>>(), [2]);
/// let effect = terms.effects(Event(0)).next().unwrap();
/// assert_eq!((effect.action, effect.direction), (Action::Add, Direction::Back));
/// # Ok::<(), TextError>(())
/// ```
#[derive(Clone, Debug, PartialEq, Eq)]
pub struct Terms(pub(crate) Box<[u16; TERMS_WORDS]>);

impl Terms {
    /// Terms from their words, checked. Further words are left out.
    ///
    /// # Errors
    ///
    /// [`Refusal::TooShort`] and [`Refusal::BadTerms`].
    pub fn from_words(words: &[u16]) -> Result<Terms, Refusal> {
        let terms = Terms(front(words)?);
        raw::check(terms.words(), State::blank().words()).map(|()| terms)
    }

    /// The words of the memory layout.
    pub fn words(&self) -> &[u16; TERMS_WORDS] {
        &self.0
    }

    /// How many rows a request may work out by these terms, at most: a row is one
    /// entry at one member. It is a bound by the shape of the terms alone, whatever
    /// the relations are; [`MOST_EFFORT`](crate::MOST_EFFORT) stands for more, too. On
    /// x86-64 some 15 million rows take a second. It does not bound the stack. A host
    /// that takes untrusted terms refuses those above a bound of its own. Reading them
    /// may take as long as a request already:
    /// [`Monitor::read_terms_within`](crate::Monitor::read_terms_within) asks before that.
    ///
    /// ```
    /// use cuckooormolu::*;
    ///
    /// let text = "M 3\nL 1 1\nF 0 var 0 0\nF 1 out 0 0\nF 2 out 0 1\nP 0 2\n";
    /// let monitor = Monitor::read(text.replace(' ', "\t").as_bytes())?;
    /// assert_eq!(monitor.terms().effort(), 4);
    /// # Ok::<(), TextError>(())
    /// ```
    pub fn effort(&self) -> usize {
        raw::effort(self.words())
    }

    /// How many bytes of stack any call of a [`Monitor`](crate::Monitor) takes by these
    /// terms; two banks take 32 KiB more. It is a bound above what was measured, and not
    /// proved.
    ///
    /// ```
    /// use cuckooormolu::*;
    ///
    /// let monitor = Monitor::read(b"M\t2\nL\t0\t1\nF\t0\ttop\t0\t0\nP\t0\t0\n")?;
    /// assert!(monitor.terms().stack() < 64 << 10);
    /// # Ok::<(), TextError>(())
    /// ```
    pub fn stack(&self) -> usize {
        stack(self)
    }

    /// The members, rising.
    pub fn members(&self) -> impl ExactSizeIterator<Item = Member> {
        (0..self.0[0] as u8).map(Member)
    }

    /// The relations, rising.
    pub fn relations(&self) -> impl ExactSizeIterator<Item = Relation> {
        (0..self.0[1] as u8).map(Relation)
    }

    /// The events, rising.
    pub fn events(&self) -> impl ExactSizeIterator<Item = Event> {
        (0..self.0[2] as u8).map(Event)
    }

    /// The formula list, lowest entry first.
    pub fn entries(&self) -> impl ExactSizeIterator<Item = Entry> + '_ {
        (0..self.0[3].into()).map(|number| self.entry_at(number))
    }

    /// An entry by its number.
    pub fn entry(&self, number: usize) -> Option<Entry> {
        (number < self.0[3].into()).then(|| self.entry_at(number))
    }

    /// The numbers of the past-time entries, in the order of their tables.
    pub fn tables(&self) -> impl Iterator<Item = usize> + '_ {
        self.entries().enumerate().filter(|(_, entry)| entry.is_past()).map(|(number, _)| number)
    }

    /// The free variables of an entry, rising. A past-time entry has at most one,
    /// or two where there are at most 16 members.
    pub fn free(&self, entry: usize) -> Option<impl ExactSizeIterator<Item = Variable>> {
        self.entry(entry).map(|_| variables(self.free_set(entry)))
    }

    /// The number of the entry that is an event's policy.
    pub fn policy(&self, event: Event) -> Option<usize> {
        self.has(event).then(|| self.0[FIRST_POLICY + usize::from(event)].into())
    }

    /// An event's effects, in the order in which they are carried out.
    pub fn effects(&self, event: Event) -> impl Iterator<Item = Effect> + '_ {
        let first = FIRST_EFFECT + EFFECTS * EFFECT_WORDS * usize::from(event);
        let words = if self.has(event) { &self.0[first..][..EFFECTS * EFFECT_WORDS] } else { &[] };
        words.chunks_exact(EFFECT_WORDS).take_while(|effect| effect[0] != 0).map(|effect| Effect {
            action: if effect[0] == 1 { Action::Add } else { Action::Del },
            relation: Relation(effect[1] as u8),
            direction: if effect[2] == 1 { Direction::Back } else { Direction::Fwd },
        })
    }

    /// Whether a denied request of an event makes a moment.
    ///
    /// ```
    /// use cuckooormolu::*;
    ///
    /// let text = "M 2\nL 0 2\nF 0 top 0 0\nF 1 out 3 0\nP 0 0\nP 1 1\nK 1\n";
    /// let monitor = Monitor::read(text.replace(' ', "\t").as_bytes())?;
    /// let terms = monitor.terms();
    /// assert!(terms.keeps(Event(1)) && !terms.keeps(Event(0)));
    /// assert_eq!(terms.entry(1), Some(Entry::Out(Label::Denied(Event(1)), 0)));
    /// # Ok::<(), TextError>(())
    /// ```
    pub fn keeps(&self, event: Event) -> bool {
        self.has(event) && self.0[FIRST_MARK + usize::from(event)] == 1
    }

    /// The events whose denied requests make a moment, rising.
    pub fn kept(&self) -> impl Iterator<Item = Event> + '_ {
        self.events().filter(|event| self.keeps(*event))
    }

    fn has(&self, event: Event) -> bool {
        u16::from(event.0) < self.0[2]
    }

    /// The free variables of an entry: bit x stands for variable x.
    pub(crate) fn free_set(&self, entry: usize) -> u16 {
        let mut free = Vec::with_capacity(entry + 1);
        for part in self.entries().take(entry + 1) {
            free.push(free_in(part, &free));
        }
        free[entry]
    }

    fn entry_at(&self, number: usize) -> Entry {
        let words = &self.0[FIRST_ENTRY + ENTRY_WORDS * number..][..ENTRY_WORDS];
        let (a, b) = (usize::from(words[1]), usize::from(words[2]));
        let variable = Variable(words[1] as u8);
        match words[0] {
            0 => Entry::Top,
            1 => Entry::Var(variable),
            2 => Entry::Not(a),
            3 => Entry::Or(a, b),
            4 => Entry::Out(self.label(words[1]), b),
            5 => Entry::In(self.label(words[1]), b),
            6 => Entry::Prev(a),
            7 => Entry::Since(a, b),
            8 => Entry::Bind(variable, b),
            9 => Entry::At(variable, b),
            10 => Entry::Reach(variable, b, usize::from(words[3])),
            11 => Entry::Many(self.label(words[1]), b, words[3] as u8),
            operator => unreachable!("checked terms with operator {operator}"),
        }
    }

    /// Labels are the relations, then the events, then the events denied.
    fn label(&self, number: u16) -> Label {
        let Some(event) = number.checked_sub(self.0[1]) else {
            return Label::Relation(Relation(number as u8));
        };
        match event.checked_sub(self.0[2]) {
            None => Label::Event(Event(event as u8)),
            Some(event) => Label::Denied(Event(event as u8)),
        }
    }

    pub(crate) fn blank() -> Terms {
        Terms(Box::new([0; TERMS_WORDS]))
    }
}

/// The free variables of an entry, given those of the lower ones.
fn free_in(entry: Entry, lower: &[u16]) -> u16 {
    let single = |x: Variable| 1 << x.0;
    match entry {
        Entry::Top => 0,
        Entry::Var(x) => single(x),
        Entry::Not(f) | Entry::Prev(f) => lower[f],
        Entry::Out(_, f) | Entry::In(_, f) | Entry::Many(_, f, _) => lower[f],
        Entry::Or(f, g) | Entry::Since(f, g) => lower[f] | lower[g],
        Entry::Bind(x, f) => lower[f] & !single(x),
        Entry::At(x, f) => lower[f] | single(x),
        Entry::Reach(_, _, g) => lower[g],
    }
}
