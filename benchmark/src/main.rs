//! Prints tables in Markdown: the monitor's calls, in nanoseconds and as ratios to
//! other ways to the same answers, and the goals. All of it is measured in one run.
//!
//! * `workload`, `chains`: the terms and the requests
//! * `rows`: the main table; `ways`: what it compares
//! * `floor`: the checks alone; `by_hand`: the preset's answers, too
//! * `matrices`: the algorithm of source 001, appendix C
//! * `log`: an event log in SQLite with a query for the preset's policy
//! * `measure`: batches, timed in turn; `markdown`: what is printed
//! * `pieces`: where the time of a call goes
//! * `instructions`: the same in instructions
//! * `shared`: entries that are used again and again
//! * `worst`: terms that take long
//! * `lists`: set lists beside single requests
//! * `texts`: reading and writing
//! * `counts`: at least so many, counted and spelled out
//! * `revisions`: new terms beside an opening
//! * `banks`: two banks beside a monitor
//! * `pairs`: tables of two variables beside tables of one
//! * `plans`: plans against a rival, in requests
//! * `renumberings`: members renumbered beside a copy of the state
//! * `stack`, `bank_stack`: the stack that one call takes
//! * `archives`, `compare`: archives beside each other
//!
//! `benchmark PART` measures that part only, `benchmark compare ARCHIVE...` times
//! the calls of those archives and of the one that is built in turn, `benchmark loop`
//! makes many calls for a profiler.

mod archives;
mod bank_stack;
mod banks;
mod by_hand;
mod chains;
mod compare;
mod counts;
mod floor;
mod instructions;
mod lists;
#[cfg_attr(not(sqlite), path = "no_log.rs")]
mod log;
mod markdown;
mod matrices;
mod measure;
mod pairs;
mod pieces;
mod plans;
mod renumberings;
mod revisions;
mod rows;
mod shared;
mod stack;
mod texts;
mod ways;
mod workload;
mod worst;

use archives::Archive;
use markdown::Goal;

/// Prints a part, and gives its goals.
type Part = (&'static str, fn() -> Vec<Goal>);

const PARTS: [Part; 14] = [
    ("table", rows::print),
    ("pieces", pieces::print),
    ("instructions", instructions::print),
    ("shared", shared::print),
    ("worst", worst::print),
    ("lists", lists::print),
    ("counts", counts::print),
    ("revisions", revisions::print),
    ("banks", banks::print),
    ("pairs", pairs::print),
    ("plans", plans::print),
    ("renumber", renumberings::print),
    ("texts", texts::print),
    ("stack", stacks),
];

fn main() {
    let words: Vec<String> = std::env::args().skip(1).collect();
    let part = |name: &str| PARTS.iter().position(|(part, _)| *part == name);
    match words.first().map(String::as_str) {
        None => print(&PARTS),
        Some("compare") => compare::print(&words[1..]),
        Some("loop") => instructions::repeat(&words[1..]),
        Some(name) => match part(name) {
            Some(place) => print(&PARTS[place..=place]),
            None => {
                let names = PARTS.map(|(part, _)| part).join(", ");
                eprintln!("{name}: not known; {names}, compare, loop or nothing");
            }
        },
    }
}

/// Prints parts and, below them, their goals.
fn print(parts: &[Part]) {
    let goals: Vec<Goal> = parts.iter().flat_map(|(_, print)| print()).collect();
    if !goals.is_empty() {
        markdown::goals(&goals);
    }
}

fn stacks() -> Vec<Goal> {
    println!("\n## Stack");
    let single = stack::print(&Archive::open(&archives::built())[0]);
    single.into_iter().chain(bank_stack::print()).collect()
}
