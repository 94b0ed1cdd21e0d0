//! Sound terms, built so that the rules on free variables hold.

use super::{kept, Rng, Size};
use crate::terms::{most_free, Effect, Entry, Terms, Variables, MOST_COUNTED, MOST_EFFECTS};

/// Random terms within the given size.
pub fn terms(rng: &mut Rng, size: &Size) -> Terms {
    let mut builder = Builder::new(rng, size);
    let room = size.entries - 1;
    builder.start(room - room / 5);
    builder.grow(room - room / 5);
    let policies = builder.policies();
    if size.fill {
        builder.fill_past();
        builder.grow(size.entries);
        builder.fill();
    }
    let entries = builder.entries;
    let mut terms = Terms {
        members: size.members,
        relations: size.relations,
        events: size.events,
        entries,
        policies,
        ..Terms::default()
    };
    for _ in 0..size.events {
        terms.effects.push(effects(rng, size));
    }
    terms.kept = kept::events(rng, size);
    for _ in 0..size.first_edges * size.relations.min(1) {
        let from = rng.below(size.members);
        let to = if rng.percent(15) { from } else { rng.below(size.members) };
        terms.edges.insert((rng.below(size.relations), from, to));
    }
    crowd(rng, &mut terms);
    terms
}

/// Gives members about as many edges as an entry asks for: just enough, one less
/// or one more.
fn crowd(rng: &mut Rng, terms: &mut Terms) {
    const MOST: usize = 8;
    for entry in terms.entries.clone() {
        let Entry::Many(l, _, k @ ..=MOST) = entry else { continue };
        if l >= terms.relations || rng.percent(10) {
            continue;
        }
        let (from, first) = (rng.below(terms.members), rng.below(terms.members));
        let wanted = (k + rng.below(3)).saturating_sub(1).min(terms.members);
        let others = (0..wanted).map(|other| (l, from, (first + other) % terms.members));
        terms.edges.extend(others);
    }
}

fn effects(rng: &mut Rng, size: &Size) -> Vec<Effect> {
    if size.relations == 0 || rng.percent(30) {
        return Vec::new();
    }
    let count = if size.fill { MOST_EFFECTS } else { rng.between(1, MOST_EFFECTS) };
    let effect = |_| Effect {
        add: rng.percent(60),
        relation: rng.below(size.relations),
        back: rng.percent(35),
    };
    (0..count).map(effect).collect()
}

/// The entries so far, with their free variables and steps.
pub(super) struct Builder<'a> {
    pub rng: &'a mut Rng,
    pub size: &'a Size,
    pub entries: Vec<Entry>,
    pub free: Vec<Variables>,
    steps: Vec<usize>,
    past: usize,
    table_steps: usize,
    /// No entry is added beyond this count.
    bound: usize,
}

impl<'a> Builder<'a> {
    fn new(rng: &'a mut Rng, size: &'a Size) -> Builder<'a> {
        let (entries, free, steps) = (Vec::new(), Vec::new(), Vec::new());
        Builder { rng, size, entries, free, steps, past: 0, table_steps: 0, bound: size.entries }
    }

    /// Adds an entry unless it would break a rule or a bound.
    pub fn push(&mut self, entry: Entry) -> Option<usize> {
        let free = entry.free(&self.free);
        let inner: usize = entry.operands().iter().map(|&f| self.steps[f]).sum();
        let scan = 1 + self.size.members / 8;
        let bits = self.size.members.pow(1 + free.count_ones().max(1));
        let (steps, table) = match entry {
            Entry::Out(l, _) | Entry::In(l, _) | Entry::Many(l, _, _)
                if l < self.size.relations =>
            {
                (scan + self.size.degree() * inner, 0)
            }
            Entry::Out(_, _) | Entry::In(_, _) | Entry::Many(_, _, _) => (scan + inner, 0),
            Entry::Prev(_) | Entry::Since(_, _) => (1, bits.saturating_mul(1 + inner)),
            Entry::Reach(_, _, _) => (self.size.members * (1 + inner), 0),
            _ => (1 + inner, 0),
        };
        let sound = match entry {
            Entry::Reach(x, f, g) => {
                x > 0 && self.free[f] & !(1 << x) == 0 && self.free[g] & 1 << x == 0
            }
            _ => !entry.is_past() || (self.past < self.size.past && self.allows(free)),
        };
        let bounded = self.entries.len() < self.bound
            && steps <= self.size.entry_steps
            && self.table_steps + table <= self.size.table_steps;
        if !sound || !bounded {
            return None;
        }
        self.past += usize::from(entry.is_past());
        self.table_steps += table;
        self.entries.push(entry);
        self.free.push(free);
        self.steps.push(steps);
        Some(self.entries.len() - 1)
    }

    /// Whether a past-time entry may have these variables free.
    fn allows(&self, free: Variables) -> bool {
        free.count_ones() <= self.most_free()
    }

    pub fn most_free(&self) -> u32 {
        most_free(self.size.members)
    }

    /// Begins with formulas of two free variables, as far as there are to be any.
    fn start(&mut self, count: usize) {
        self.bound = count;
        for _ in 0..self.size.paired {
            self.paired();
        }
        self.bound = self.size.entries;
    }

    /// Adds entries up to a count, as far as the bounds allow.
    fn grow(&mut self, count: usize) {
        self.bound = count;
        for _ in 0..6 * count {
            if !self.entries.is_empty() && self.rng.percent(35) {
                self.pattern();
            } else {
                let entry = self.entry();
                self.push(entry);
            }
        }
        self.bound = self.size.entries;
    }

    /// Adds cheap past-time entries up to their bound.
    fn fill_past(&mut self) {
        self.table_steps = 0;
        while self.past < self.size.past {
            let entry = if self.rng.percent(50) { Entry::Prev(0) } else { Entry::Since(0, 0) };
            if self.push(entry).is_none() {
                return;
            }
        }
    }

    /// Adds cheap entries up to the bound.
    fn fill(&mut self) {
        while self.entries.len() < self.size.entries {
            let entry = if self.rng.percent(50) { Entry::Top } else { Entry::Not(0) };
            self.push(entry);
        }
    }

    fn variable(&mut self) -> usize {
        if self.rng.percent(85) {
            self.rng.below(3)
        } else {
            self.rng.below(16)
        }
    }

    pub fn label(&mut self) -> usize {
        let relation = self.size.relations > 0 && self.rng.percent(45);
        if relation {
            self.rng.below(self.size.relations)
        } else if self.rng.percent(70) {
            self.size.relations + self.rng.below(self.size.events)
        } else {
            self.denied()
        }
    }

    /// The label of an event's denied requests.
    pub fn denied(&mut self) -> usize {
        self.size.relations + self.size.events + self.rng.below(self.size.events)
    }

    /// An earlier entry, leaning to the newest.
    pub fn operand(&mut self) -> usize {
        let count = self.entries.len();
        if self.rng.percent(65) {
            count - 1 - self.rng.below(count.min(4))
        } else {
            self.rng.below(count)
        }
    }

    /// An operand that, together with the given variables, has no more free than a
    /// past-time entry may have; where that is two, now and then not fewer.
    pub fn past_operand(&mut self, with: Variables) -> usize {
        let most = self.most_free();
        let least = if most == 2 && self.rng.percent(30) { 2 } else { 0 };
        let mut operand = self.operand();
        for _ in 0..8 {
            if (least..=most).contains(&(self.free[operand] | with).count_ones()) {
                break;
            }
            operand = self.operand();
        }
        operand
    }

    /// A variable to bind: mostly one that is free below.
    fn bound(&mut self, operand: usize) -> usize {
        let free: Vec<usize> = (1..16).filter(|x| self.free[operand] >> x & 1 == 1).collect();
        if !free.is_empty() && self.rng.percent(80) {
            self.rng.pick(&free)
        } else if self.rng.percent(85) {
            self.rng.between(1, 2)
        } else {
            self.rng.between(1, 15)
        }
    }

    fn entry(&mut self) -> Entry {
        let variable = self.variable();
        if self.entries.is_empty() || self.rng.percent(12) {
            return if self.rng.percent(30) { Entry::Top } else { Entry::Var(variable) };
        }
        let (f, label) = (self.operand(), self.label());
        match self.rng.below(15) {
            0 | 1 => Entry::Not(f),
            2 | 3 => Entry::Or(f, self.operand()),
            4 | 5 => Entry::Out(label, f),
            6 | 7 => Entry::In(label, f),
            8 => Entry::Prev(self.past_operand(0)),
            9 | 10 => {
                let first = self.past_operand(0);
                Entry::Since(first, self.past_operand(self.free[first]))
            }
            11 => Entry::Bind(self.bound(f), f),
            12 => self.reach(),
            13 => Entry::Many(self.lasting(), f, self.count()),
            _ => Entry::At(variable, f),
        }
    }

    /// A label for counting: mostly a relation, since an event has one edge.
    pub fn lasting(&mut self) -> usize {
        if self.size.relations > 0 && self.rng.percent(85) {
            self.rng.below(self.size.relations)
        } else {
            self.label()
        }
    }

    /// How many a `many` asks for.
    pub fn count(&mut self) -> usize {
        let members = self.size.members;
        let few = [1, 2, 2, 3, 3, 4, members / 2, members - 1, members];
        let far = [members + 1, 63, 64];
        let chosen = if self.rng.percent(92) { self.rng.pick(&few) } else { self.rng.pick(&far) };
        chosen.clamp(1, MOST_COUNTED)
    }

    /// A reach whose first formula has one free variable, where one is found.
    fn reach(&mut self) -> Entry {
        let mut f = self.operand();
        for _ in 0..8 {
            if (self.free[f] & !1).count_ones() == 1 && self.free[f] & 1 == 0 {
                break;
            }
            f = self.operand();
        }
        let x = self.bound(f);
        let mut g = self.operand();
        for _ in 0..8 {
            if self.free[g] & 1 << x == 0 {
                break;
            }
            g = self.operand();
        }
        Entry::Reach(x, f, g)
    }

    /// One entry for each event, none with a free variable other than 0.
    fn policies(&mut self) -> Vec<usize> {
        if !self.free.iter().any(|&free| free & !1 == 0) {
            let entry = if self.rng.percent(50) { Entry::Top } else { Entry::Var(0) };
            self.push(entry);
        }
        (0..self.size.events).map(|_| self.policy()).collect()
    }

    fn policy(&mut self) -> usize {
        if self.rng.percent(35) {
            let top = self.entries.iter().position(|&entry| entry == Entry::Top);
            if let Some(entry) = top.or_else(|| self.push(Entry::Top)) {
                return entry;
            }
        }
        let mut chosen = Some(self.operand());
        while let Some(entry) = chosen {
            let others = self.free[entry] & !1;
            if others == 0 {
                return entry;
            }
            chosen = self.push(Entry::Bind(others.trailing_zeros() as usize, entry));
        }
        let sound = (0..self.entries.len()).filter(|&f| self.free[f] & !1 == 0);
        let sound: Vec<usize> = sound.collect();
        self.rng.pick(&sound)
    }
}
