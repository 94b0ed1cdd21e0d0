//! Terms that take long, over a complete graph of 64 members, beside the algorithm of source 001. No policy is decided
//! early: what lies under the binds holds nowhere.

use crate::markdown::{self, grouped, ratio, Goal};
use crate::matrices::Matrices;
use crate::measure::{in_turn, timed, Batch};
use cuckooormolu::{raw, SCRATCH_WORDS, STATE_WORDS, TERMS_WORDS};
use keeper::terms::{self, Entry, Terms};
use std::collections::BTreeSet;
use std::hint::black_box;
use std::time::Duration;

const MEMBERS: usize = 64;
/// The one relation.
const KNOWS: usize = 0;
/// What is asked: event 0 is decided by what takes long, event 1 is always granted. Either makes a moment.
pub const CALL: [usize; 3] = [0, 0, 1];
const TOP: [usize; 3] = [1, 0, 1];

const LEVELS: [usize; 6] = [3, 5, 10, 20, 40, 60];
const DEPTHS: [usize; 3] = [1, 2, 3];
/// The goals, in ms: a look and a request at the most levels, and a look at the most depth.
const MOST_LOOK: f64 = 25.0;
const MOST_REQUEST: f64 = 50.0;
const MOST_DEEP: f64 = 30.0;

/// A way to nest binds.
#[derive(Clone, Copy)]
pub enum Family {
    /// Two variables bound in turn, so many levels deep; each level reads both.
    InTurn,
    /// So many variables bound once each, over an entry that reads all of them.
    AllRead,
}

impl Family {
    pub fn name(self) -> &'static str {
        match self {
            Family::InTurn => "two variables in turn",
            Family::AllRead => "all variables read",
        }
    }

    fn entries(self, depth: usize) -> Vec<Entry> {
        match self {
            Family::InTurn => alternating(depth),
            Family::AllRead => distinct(depth),
        }
    }

    /// The terms with a table over the entry, and its negation as the policy: a look decides the entry, and a request
    /// moves the table on as well.
    fn terms(self, depth: usize) -> Terms {
        let mut entries = self.entries(depth);
        let last = entries.len() - 1;
        entries.extend([Entry::Not(last), Entry::Since(0, last)]);
        let all = || 0..MEMBERS;
        Terms {
            members: MEMBERS,
            relations: 1,
            events: 2,
            policies: vec![last + 1, 0],
            entries,
            kept: BTreeSet::new(),
            effects: vec![Vec::new(); 2],
            edges: all().flat_map(|a| all().map(move |b| (KNOWS, a, b))).collect(),
        }
    }

    pub fn text(self, depth: usize) -> Vec<u8> {
        let terms = self.terms(depth);
        terms::write(&terms, &terms.edges)
    }
}

fn alternating(levels: usize) -> Vec<Entry> {
    let turn = |level: usize| if level % 2 == 0 { (1, 2) } else { (2, 1) };
    let mut entries = vec![Entry::Top, Entry::Not(0), Entry::At(1, 1)];
    for level in 0..levels {
        let (x, y) = turn(level);
        let next = entries.len();
        entries.extend([
            Entry::At(y, 1),
            Entry::Or(next - 1, next),
            Entry::Bind(x, next + 1),
            Entry::Out(KNOWS, next + 2),
        ]);
    }
    entries.push(Entry::Bind(turn(levels).0, entries.len() - 1));
    entries
}

fn distinct(depth: usize) -> Vec<Entry> {
    let mut entries = vec![Entry::Top];
    let mut all = None;
    for x in 1..=depth {
        let next = entries.len();
        // x does not know itself: so it is of nobody.
        entries.extend([
            Entry::Var(x),
            Entry::Out(KNOWS, next),
            Entry::Not(next + 1),
            Entry::At(x, next + 2),
        ]);
        entries.extend(all.map(|before| Entry::Or(before, next + 3)));
        all = Some(entries.len() - 1);
    }
    for x in (1..=depth).rev() {
        let next = entries.len();
        entries.extend([Entry::Bind(x, next - 1), Entry::Out(KNOWS, next)]);
    }
    entries
}

/// The least ms of calls on the same terms.
struct Times {
    look: f64,
    request: f64,
    /// A request of the event that is always granted.
    top: f64,
    /// A request by 001's algorithm: there a look reads one bit of what each moment works out.
    matrices: f64,
}

/// Prints both families, and gives their goals.
pub fn print() -> Vec<Goal> {
    markdown::table(
        "Worst cases",
        "Least ms of a call at 64 members over a complete graph, and of a request by 001's algorithm:",
        &[
            "terms",
            "levels",
            "entries",
            "effort",
            "look",
            "request",
            "request of top",
            "001",
            "001 / look",
            "001 / request",
            "001 / request of top",
        ],
    );
    let turns = LEVELS.map(|levels| row(Family::InTurn, levels));
    let deep = DEPTHS.map(|depth| row(Family::AllRead, depth));
    let (last, deepest) = (&turns[LEVELS.len() - 1], &deep[DEPTHS.len() - 1]);
    let worst = |call: fn(&Times) -> f64| {
        turns.iter().map(|times| call(times) / times.matrices).fold(0.0, f64::max)
    };
    let name = format!("{}, {} levels", Family::InTurn.name(), LEVELS[LEVELS.len() - 1]);
    let every = format!("{}, every depth", Family::InTurn.name());
    let deep = format!("{}, {} levels", Family::AllRead.name(), DEPTHS[DEPTHS.len() - 1]);
    vec![
        Goal::at_most(format!("{name}: a look at most {MOST_LOOK} ms"), last.look, MOST_LOOK),
        Goal::at_most(
            format!("{name}: a request at most {MOST_REQUEST} ms"),
            last.request,
            MOST_REQUEST,
        ),
        Goal::at_most(
            format!("{every}: a look at most the time of the report's algorithm"),
            worst(|times| times.look),
            1.0,
        ),
        Goal::at_most(
            format!("{every}: a request at most the time of the report's algorithm"),
            worst(|times| times.request),
            1.0,
        ),
        Goal::at_most(format!("{deep}: a look at most {MOST_DEEP} ms"), deepest.look, MOST_DEEP),
    ]
}

fn row(family: Family, depth: usize) -> Times {
    let terms = family.terms(depth);
    let (mut words, mut state) = (vec![0; TERMS_WORDS], vec![0; STATE_WORDS]);
    raw::read(&family.text(depth), &mut words, &mut state).expect("the terms are accepted");
    let times = times(&words, &state, &Matrices::resume(&terms, &state));
    let Times { look, request, top, matrices } = times;
    let mut cells = vec![
        family.name().to_string(),
        depth.to_string(),
        terms.entries.len().to_string(),
        grouped(raw::effort(&words)),
    ];
    cells.extend([look, request, top, matrices].map(|time| format!("{time:.2}")));
    cells.extend([look, request, top].map(|time| ratio(matrices / time)));
    markdown::row(&cells);
    times
}

fn times(terms: &[u16], state: &[u64], matrices: &Matrices) -> Times {
    let scratch = [0; SCRATCH_WORDS];
    let named = |[event, from, to]: [usize; 3]| raw::Request { event, from, to };
    let granted = raw::look(terms, state, &scratch, named(CALL)).is_ok_and(|a| a.is_grant());
    assert!(granted && matrices.look(CALL[0], CALL[1], CALL[2]), "both grant it");
    let looks = || timed(|| _ = black_box(raw::look(terms, state, &scratch, named(CALL))));
    let requests = |call| {
        move || {
            let (mut next, mut scratch) = (state.to_vec(), scratch);
            timed(|| _ = black_box(raw::request(terms, &mut next, &mut scratch, named(call))))
        }
    };
    let others = || {
        let mut next = matrices.clone();
        timed(|| _ = black_box(next.request(CALL[0], CALL[1], CALL[2])))
    };
    let batches: Vec<Batch> = vec![
        (1, Box::new(looks)),
        (1, Box::new(requests(CALL))),
        (1, Box::new(requests(TOP))),
        (1, Box::new(others)),
    ];
    let times = in_turn(Duration::from_millis(2_000), 3, batches);
    let [look, request, top, matrices] = [0, 1, 2, 3].map(|place| times[place].least / 1e6);
    Times { look, request, top, matrices }
}
