//! Policy (20) of source 003, three friends there and five others here: counted,
//! and spelled out with a binder for each friend.

use crate::markdown::{self, ratio, whole, Goal};
use crate::measure::{in_turn, timed, Batch};
use crate::workload::{named, Request};
use cuckooormolu::Monitor;
use keeper::generate::Rng;
use keeper::terms::{self, Entry, Terms};
use std::collections::BTreeSet;
use std::hint::black_box;
use std::time::Duration;

const FRIEND: usize = 0;
/// The asker, and the first of the friends that are told apart.
const ME: usize = 1;
const FIRST: usize = 2;
/// Looks of one batch.
const LOOKS: usize = 8;

/// The entries so far.
#[derive(Default)]
struct Entries(Vec<Entry>);

impl Entries {
    fn put(&mut self, entry: Entry) -> usize {
        self.0.push(entry);
        self.0.len() - 1
    }

    fn not(&mut self, f: usize) -> usize {
        self.put(Entry::Not(f))
    }

    fn both(&mut self, f: usize, g: usize) -> usize {
        let (f, g) = (self.not(f), self.not(g));
        let either = self.put(Entry::Or(f, g));
        self.not(either)
    }

    /// At whom variable `home` stands for: at least k friends of whom f holds,
    /// those before having the variables from FIRST on.
    fn spelled(&mut self, home: usize, f: usize, k: usize, before: usize) -> usize {
        let mut that = f;
        for other in FIRST..FIRST + before {
            let same = self.put(Entry::Var(other));
            let other = self.not(same);
            that = self.both(that, other);
        }
        if k > 1 {
            let next = self.spelled(home, f, k - 1, before + 1);
            that = self.both(that, next);
        }
        let bound = self.put(Entry::Bind(FIRST + before, that));
        let out = self.put(Entry::Out(FRIEND, bound));
        self.put(Entry::At(home, out))
    }

    /// The policy, by either way to count.
    fn policy(mut self, counted: bool) -> Vec<Entry> {
        let top = self.put(Entry::Top);
        let target = self.put(Entry::Var(0));
        let friend = self.put(Entry::In(FRIEND, target));
        let other = self.not(target);
        let (three, five) = if counted {
            let three = self.put(Entry::Many(FRIEND, top, 3));
            (self.put(Entry::At(0, three)), self.put(Entry::Many(FRIEND, other, 5)))
        } else {
            (self.spelled(0, top, 3, 0), self.spelled(ME, other, 5, 0))
        };
        let two = self.both(friend, three);
        let all = self.both(two, five);
        self.put(Entry::Bind(ME, all));
        self.0
    }
}

/// The text of terms by which members have so many friends each, one after the other.
pub fn text(members: usize, friends: usize, counted: bool) -> Vec<u8> {
    let entries = Entries::default().policy(counted);
    let edges: BTreeSet<_> = (0..members)
        .flat_map(|m| (1..=friends).map(move |step| (FRIEND, m, (m + step) % members)))
        .collect();
    let policies = vec![entries.len() - 1];
    let effects = vec![Vec::new()];
    let kept = BTreeSet::new();
    let terms = Terms { members, relations: 1, events: 1, entries, policies, kept, effects, edges };
    terms::write(&terms, &terms.edges)
}

/// Calls by friends of the targets.
pub fn calls(members: usize, friends: usize) -> Vec<Request> {
    let mut rng = Rng::new(members as u64);
    let call = |_| {
        let to = rng.below(members);
        [0, (to + rng.between(1, friends)) % members, to]
    };
    (0..LOOKS).map(call).collect()
}

/// Prints what a look takes in both forms.
pub fn print() -> Vec<Goal> {
    markdown::table(
        "Counting",
        "Policy 20, least ns of a look:",
        &["members", "friends", "granted %", "many", "spelled out", "ratio"],
    );
    for (members, friends) in [(16, 4), (16, 5), (16, 6), (64, 4), (64, 5), (64, 6), (64, 12)] {
        row(members, friends);
    }
    Vec::new()
}

fn row(members: usize, friends: usize) {
    let [many, spelled] = [true, false].map(|counted| {
        Monitor::read(&text(members, friends, counted)).expect("the terms are accepted")
    });
    let looks: Vec<_> = calls(members, friends).into_iter().map(named).collect();
    let answers =
        |monitor: &Monitor| -> Vec<_> { looks.iter().map(|look| monitor.look(*look)).collect() };
    assert_eq!(answers(&many), answers(&spelled), "both forms have the same answers");
    let granted = answers(&many).iter().filter(|answer| answer.is_ok_and(|a| a.is_grant())).count();
    let batch = |monitor| -> Batch {
        let all = &looks;
        (
            LOOKS,
            Box::new(move || {
                timed(|| all.iter().for_each(|look| _ = black_box(Monitor::look(monitor, *look))))
            }),
        )
    };
    let times = in_turn(Duration::from_millis(400), 3, vec![batch(&many), batch(&spelled)]);
    let (many, spelled) = (times[0].least, times[1].least);
    let share = 100 * granted / LOOKS;
    let [members, friends, share] = [members, friends, share].map(|number| number.to_string());
    markdown::row(&[members, friends, share, whole(many), whole(spelled), ratio(spelled / many)]);
}
