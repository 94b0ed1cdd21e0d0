//! The main table: calls of the monitor beside other ways to the same answers, for each number of members and each
//! length of the record, and the goals that it decides.

use crate::markdown::{self, ratio, whole, Goal};
use crate::measure::{in_turn, Batch, Time};
use crate::ways::{agreed, keeper_batch, monitor_batches, other_batches, records};
use crate::workload::Workload;
use std::time::Duration;

const MEMBERS: [usize; 3] = [3, 16, 64];
/// Calls of a batch.
const CALLS: usize = 48;
/// Where the record is longer the keeper is left out.
const KEEPER_MOMENTS: usize = 100;

const COLUMNS: [&str; 14] = [
    "terms",
    "members",
    "moments",
    "granted %",
    "request ns",
    "look ns",
    "check ns",
    "floor ns",
    "request / floor",
    "look / floor",
    "001 / request",
    "SQLite / request",
    "keeper / request",
    "request noise",
];

struct Row {
    name: &'static str,
    /// Requests of the batch that are granted, of a hundred.
    granted: usize,
    members: usize,
    moments: usize,
    request: Time,
    look: Time,
    check: Time,
    floor: Time,
    matrices: Time,
    log: Option<Time>,
    keeper: Option<Time>,
}

impl Row {
    fn print(&self) {
        let Row { name, granted, members, moments, request, look, check, floor, .. } = self;
        let exponent = moments.ilog10();
        let mut cells = vec![
            name.to_string(),
            members.to_string(),
            format!("10^{exponent}"),
            granted.to_string(),
        ];
        cells.extend([request, look, check, floor].map(|time| format!("{:.0}", time.least)));
        cells.extend([request, look].map(|time| format!("{:.2}", time.least / floor.least)));
        let over = |time: Option<Time>| time.map(|time| ratio(time.least / request.least));
        let others = [Some(self.matrices), self.log, self.keeper];
        cells.extend(others.map(|time| over(time).unwrap_or_default()));
        cells.push(format!("{:.2}", request.middle / request.least));
        markdown::row(&cells);
    }
}

/// Prints the table, and gives its goals.
pub fn print() -> Vec<Goal> {
    let mut about = "Least ns of a call; the ratios on the right are to one request.".to_string();
    if !cfg!(sqlite) {
        about += " SQLite's development files are not installed: its column is left out.";
    }
    markdown::table("The table", &about, &COLUMNS);
    let mut all = Vec::new();
    for make in [Workload::preset, Workload::reach, Workload::large, Workload::random] {
        for members in MEMBERS {
            let rows = measured(&make(members));
            rows.iter().for_each(Row::print);
            all.extend(rows.into_iter().filter(|row| row.members == 64));
        }
    }
    goals(&all)
}

/// The goals at 64 members, each by its worst row.
fn goals(all: &[Row]) -> Vec<Goal> {
    let on = |name| all.iter().filter(move |row| row.name == name);
    let most = |name, ratio: &dyn Fn(&Row) -> f64| on(name).map(ratio).fold(0.0, f64::max);
    let of_floor = |name, part: fn(&Row) -> Time, most_floors: f64, call: &str| {
        let text = format!("{name}: {call} at most {most_floors} times the floor");
        Goal::at_most(text, most(name, &|row| part(row).least / row.floor.least), most_floors)
    };
    let within = |name, part: fn(&Row) -> Time, most_ns: f64, call: &str| {
        let time = most(name, &|row| part(row).least);
        Goal::new(
            format!("{name}: {call} at most {} ns", whole(most_ns)),
            whole(time),
            time <= most_ns,
        )
    };
    let matrices = 1.0 / most("preset", &|row| row.request.least / row.matrices.least);
    let slowest = all.iter().map(|row| row.request.least / row.matrices.least).fold(0.0, f64::max);
    let mut goals = vec![
        of_floor("preset", |row| row.request, 1.5, "a request"),
        of_floor("preset", |row| row.look, 1.5, "a look"),
        of_floor("large", |row| row.check, 1.4, "the check"),
        of_floor("large", |row| row.request, 3.0, "a request"),
        Goal::new(
            "preset: at least 200 times as fast as the report's algorithm",
            format!("{matrices:.0}"),
            matrices >= 200.0,
        ),
        Goal::at_most("every row: at most the time of the report's algorithm", slowest, 1.0),
        within("random", |row| row.request, 50_000.0, "a request"),
        within("random", |row| row.look, 5_000.0, "a look"),
    ];
    if on("preset").all(|row| row.log.is_some()) {
        let times = |row: &Row| row.log.map_or(0.0, |log| log.least / row.request.least);
        let least = on("preset").map(times).fold(f64::MAX, f64::min);
        let text = "preset: faster than the SQLite query";
        goals.push(Goal::new(text, format!("{least:.1} times as fast"), least > 1.0));
    }
    let at = |moments| on("preset").find(|row| row.moments == moments).map(|row| row.request.least);
    if let (Some(short), Some(long)) = (at(100), at(1_000_000)) {
        let ratio = long / short;
        let text = "preset: cost at 10^6 moments within 5 % of that at 10^2";
        goals.push(Goal::new(text, format!("{ratio:.3}"), (0.95..=1.05).contains(&ratio)));
    }
    goals
}

/// One row for each length of the record. The monitor's calls and the floor
/// are timed in turn over all lengths, then the others.
fn measured(workload: &Workload) -> Vec<Row> {
    let mut kept = records(workload);
    let calls = workload.requests(11, CALLS);
    let granted: Vec<usize> =
        kept.iter_mut().map(|kept| 100 * agreed(workload, kept, &calls) / CALLS).collect();
    let terms = *workload.monitor().terms().words();
    let mut quick: Vec<Batch> = Vec::new();
    for kept in &kept {
        quick.extend(monitor_batches(&terms, &kept.state, &calls));
    }
    let quick = in_turn(Duration::from_millis(2_500), 20, quick);
    let mut slow: Vec<Batch> = Vec::new();
    let mut keeper: Vec<Batch> = Vec::new();
    for kept in &mut kept {
        if kept.moments <= KEEPER_MOMENTS {
            keeper.push(keeper_batch(workload, kept.moments, &calls));
        }
        slow.extend(other_batches(kept, &calls));
    }
    let slow = in_turn(Duration::from_millis(2_500), 5, slow);
    let keeper = in_turn(Duration::from_millis(500), 2, keeper);
    let each = slow.len() / workload.moments.len();
    let row = |(index, &moments): (usize, &usize)| Row {
        name: workload.name,
        granted: granted[index],
        members: workload.terms.members,
        moments,
        request: quick[4 * index],
        look: quick[4 * index + 1],
        check: quick[4 * index + 2],
        floor: quick[4 * index + 3],
        matrices: slow[each * index],
        log: (each > 1).then(|| slow[each * index + 1]),
        keeper: keeper.get(index).copied(),
    };
    workload.moments.iter().enumerate().map(row).collect()
}
