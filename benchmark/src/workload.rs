//! The terms and requests that are timed.

use cuckooormolu::{Event, Member, Monitor};
use keeper::generate::size::Size;
use keeper::generate::{formulas, Rng};
use keeper::terms::{self, Effect, Entry, Terms};
use std::collections::BTreeSet;

/// Event, initiator, target.
pub type Request = [usize; 3];

/// The request, as the library's binding names it.
pub fn named([event, from, to]: Request) -> cuckooormolu::Request {
    let [from, to] = [from, to].map(|member| Member(member as u8));
    cuckooormolu::Request { event: Event(event as u8), from, to }
}

pub struct Workload {
    pub name: &'static str,
    pub terms: Terms,
    pub text: Vec<u8>,
    /// Moments of the records that the calls are added to.
    pub moments: &'static [usize],
}

const ALL_LENGTHS: &[usize] = &[100, 10_000, 1_000_000];

/// The size of the random terms.
const LARGEST: Size = Size {
    members: 64,
    relations: 8,
    events: 8,
    entries: 256,
    past: 32,
    paired: 0,
    first_edges: 128,
    calls: 6,
    fill: true,
    entry_steps: 4_000,
    table_steps: 1_000_000,
};

impl Workload {
    /// The preset's formulas and policies. Three members own as in the
    /// preset; of more, each is owned by one.
    pub fn preset(members: usize) -> Workload {
        let edges = match members {
            3 => [(0, 0, 2)].into(),
            _ => (0..members).map(|owned| (0, owner(members, owned), owned)).collect(),
        };
        let terms = Terms {
            members,
            relations: 1,
            events: 3,
            entries: vec![
                Entry::Var(1),
                Entry::Out(1, 0),
                Entry::Out(2, 0),
                Entry::Not(2),
                Entry::Since(3, 1),
                Entry::In(0, 4),
                Entry::At(0, 5),
                Entry::Bind(1, 6),
                Entry::Top,
            ],
            policies: vec![8, 8, 7],
            effects: vec![Vec::new(); 3],
            edges,
            ..Terms::default()
        };
        Workload::new("preset", terms, ALL_LENGTHS)
    }

    /// The preset's events, owners and answers, the load policy the other way
    /// round: a step to whoever has shared with the player and has not
    /// withdrawn since, who must own the target.
    pub fn reach(members: usize) -> Workload {
        let preset = Workload::preset(members).terms;
        let entries = vec![
            Entry::Var(1),
            Entry::In(1, 0),
            Entry::In(2, 0),
            Entry::Not(2),
            Entry::Since(3, 1),
            Entry::Var(0),
            Entry::Out(0, 5),
            Entry::Reach(1, 4, 6),
            Entry::Top,
        ];
        Workload::new("reach", Terms { entries, ..preset }, ALL_LENGTHS)
    }

    /// 256 entries, 32 of them past-time: 31 policies of the preset's kind
    /// over other labels, an or of some, and what each moment has before it.
    /// Events 0 to 7 are always granted, the others by a policy each.
    pub fn large(members: usize) -> Workload {
        let mut entries = Vec::new();
        for block in 0..31 {
            let (first, x) = (entries.len(), 1 + block % 15);
            let (relation, shared, withdrawn) = (block % 8, 8 + block % 4, 12 + block % 4);
            entries.extend([
                Entry::Var(x),
                Entry::Out(shared, first),
                Entry::Out(withdrawn, first),
                Entry::Not(first + 2),
                Entry::Since(first + 3, first + 1),
                Entry::In(relation, first + 4),
                Entry::At(0, first + 5),
                Entry::Bind(x, first + 6),
            ]);
        }
        let top = entries.len();
        entries.extend([Entry::Top, Entry::Prev(top), Entry::Or(71, 79)]);
        (0..5).for_each(|n| entries.push(Entry::Or(top + 2 + n, 87 + 8 * n)));
        let mut effects = vec![Vec::new(); 16];
        effects[1] = vec![Effect { add: true, relation: 7, back: false }];
        effects[5] = vec![Effect { add: false, relation: 7, back: false }];
        let owned = |relation| (0..members).map(move |m| (relation, owner(members, m), m));
        let mut policies = vec![top; 8];
        policies.extend((0..7).map(|n| 8 * n + 7));
        policies.push(top + 7);
        let edges = (0..8).flat_map(owned).collect();
        let kept = BTreeSet::new();
        let terms =
            Terms { members, relations: 8, events: 16, entries, policies, kept, effects, edges };
        Workload::new("large", terms, ALL_LENGTHS)
    }

    /// Generated terms of the largest size, the same formulas for every
    /// number of members: the first that grant a third of random requests and
    /// whose binders don't nest, since 001's algorithm costs a factor of N for
    /// each level. Entries are shared and nested without measure. No denials are
    /// kept, so that a record has as many moments as grants.
    pub fn random(members: usize) -> Workload {
        let made = |seed| Terms {
            kept: BTreeSet::new(),
            ..formulas::terms(&mut Rng::new(seed), &LARGEST)
        };
        let fit = |seed: &u64| {
            let terms = made(*seed);
            terms.entries.len() == 256
                && terms.past().len() == 32
                && binders(&terms) <= 1
                && grants(&Workload::new("random", terms, &[]), 300) >= 100
        };
        let mut terms = made((1..).find(fit).expect("there is one"));
        terms.members = members;
        terms.edges.retain(|&(_, from, to)| from.max(to) < members);
        Workload::new("random", terms, &ALL_LENGTHS[..2])
    }

    fn new(name: &'static str, terms: Terms, moments: &'static [usize]) -> Workload {
        let text = terms::write(&terms, &terms.edges);
        Workload { name, terms, text, moments }
    }

    pub fn is_preset(&self) -> bool {
        self.name == "preset"
    }

    pub fn monitor(&self) -> Monitor {
        Monitor::read(&self.text).expect("the terms are accepted")
    }

    /// Whether its events are the preset's.
    fn shares(&self) -> bool {
        self.is_preset() || self.name == "reach"
    }

    /// A list of requests. With the preset's events each four are a share, a load that
    /// is then granted, a withdrawal and a load that is then denied.
    pub fn requests(&self, seed: u64, count: usize) -> Vec<Request> {
        let mut rng = Rng::new(seed);
        let Terms { members, events, .. } = self.terms;
        let mut list = Vec::new();
        while list.len() < count {
            let (one, two) = (rng.below(members), rng.below(members));
            if self.shares() {
                let owned = if members == 3 { 2 } else { two };
                let from = owner(members, owned);
                let (share, withdraw, load) = ([0, from, one], [1, from, one], [2, one, owned]);
                list.extend([share, load, withdraw, load]);
            } else {
                list.push([rng.below(events), one, two]);
            }
        }
        list.truncate(count);
        list
    }
}

fn owner(members: usize, owned: usize) -> usize {
    match members {
        3 => 0,
        _ => (5 * owned + 1) % members,
    }
}

fn grants(workload: &Workload, count: usize) -> usize {
    let mut monitor = workload.monitor();
    let requests = workload.requests(3, count);
    let granted = |&request: &Request| {
        monitor.request(named(request)).is_ok_and(cuckooormolu::Answer::is_grant)
    };
    requests.iter().map(granted).filter(|&granted| granted).count()
}

/// How deep binders nest over entries with two or more free variables.
fn binders(terms: &Terms) -> usize {
    let free = terms.free();
    let mut depth: Vec<usize> = Vec::new();
    for (entry, free) in terms.entries.iter().zip(&free) {
        let below = entry.operands().iter().map(|&f| depth[f]).max().unwrap_or(0);
        let own = usize::from(matches!(entry, Entry::Bind(..)));
        depth.push(if free.count_ones() > 1 { below + own } else { 0 });
    }
    let bound = |entry: &Entry| match entry {
        Entry::Bind(_, f) if free[*f].count_ones() > 1 => 1 + depth[*f],
        _ => 0,
    };
    terms.entries.iter().map(bound).max().unwrap_or(0)
}
