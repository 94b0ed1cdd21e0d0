//! Instructions of a call, at 64 members, counted by valgrind: unlike times they are the same on a busy machine.

use crate::by_hand;
use crate::floor;
use crate::markdown::{self, whole, Goal};
use crate::workload::{named, Workload};
use cuckooormolu::{raw, SCRATCH_WORDS};
use std::hint::black_box;
use std::process::Command;

/// Requests of a round, of which some are granted.
const REQUESTS: usize = 64;
/// The rounds of the shorter of two runs; the longer one has twice as many.
const ROUNDS: usize = 4;

const CALLS: [&str; 5] = ["request", "look", "check", "floor", "by-hand"];

fn workload(name: &str) -> Workload {
    match name {
        "large" => Workload::large(64),
        "reach" => Workload::reach(64),
        _ => Workload::preset(64),
    }
}

/// Makes one kind of call so many rounds, for a profiler: terms, kind, rounds.
pub fn repeat(words: &[String]) {
    let [terms, call, rounds] = words else {
        return eprintln!("loop preset|reach|large {} ROUNDS", CALLS.join("|"));
    };
    let workload = workload(terms);
    let mut monitor = workload.monitor();
    let requests = workload.requests(7, REQUESTS);
    for &request in &requests {
        assert!(monitor.request(named(request)).is_ok());
    }
    let (terms, mut state) = (monitor.terms().words(), *monitor.state().words());
    let mut scratch = [0; SCRATCH_WORDS];
    let rounds: usize = rounds.parse().unwrap_or(1);
    for &asked in requests.iter().cycle().take(rounds * REQUESTS) {
        let [event, from, to] = asked;
        let request = raw::Request { event, from, to };
        let done = match call.as_str() {
            "request" => raw::request(terms, &mut state, &mut scratch, request).is_ok(),
            "look" => raw::look(terms, &state, &scratch, request).is_ok(),
            "check" => raw::check(terms, &state).is_ok(),
            "by-hand" => by_hand::request(terms, &mut state, &mut scratch, asked).is_some(),
            _ => floor::refusal(black_box(terms), black_box(&state)).is_none(),
        };
        assert!(black_box(done));
    }
}

/// The instructions of a run; none where there is no valgrind.
fn counted(terms: &str, call: &str, rounds: usize) -> Option<f64> {
    let mut valgrind = Command::new("valgrind");
    valgrind.args(["--tool=callgrind", "--callgrind-out-file=/dev/null"]);
    valgrind.arg(std::env::current_exe().ok()?).args(["loop", terms, call, &rounds.to_string()]);
    let said = valgrind.output().ok()?.stderr;
    let said = String::from_utf8(said).ok()?;
    let line = said.lines().find(|line| line.contains("Collected"))?;
    line.split_whitespace().last()?.parse().ok()
}

fn each(terms: &str, call: &str) -> Option<f64> {
    let [short, long] = [ROUNDS, 2 * ROUNDS].map(|rounds| counted(terms, call, rounds));
    Some((long? - short?) / (ROUNDS * REQUESTS) as f64)
}

/// Prints the instructions of each call.
pub fn print() -> Vec<Goal> {
    let about = "Instructions of a call at 64 members, the mean of 64 requests, by valgrind:";
    let mut columns = vec!["terms"];
    columns.extend(CALLS);
    columns.extend(["request / floor", "look / floor", "check / floor"]);
    markdown::table("Instructions", about, &columns);
    for terms in ["preset", "reach", "large"] {
        let preset = |call: &&str| terms == "preset" || *call != "by-hand";
        let counts = CALLS.map(|call| Some(call).filter(preset).and_then(|call| each(terms, call)));
        let mut cells = vec![terms.to_string()];
        cells.extend(counts.map(|count| count.map_or("".into(), whole)));
        let ratio = |call: usize| Some(counts[call]? / counts[3]?);
        let show = |ratio: Option<f64>| ratio.map_or("".into(), |ratio| format!("{ratio:.2}"));
        cells.extend([0, 1, 2].map(|call| show(ratio(call))));
        markdown::row(&cells);
    }
    Vec::new()
}
