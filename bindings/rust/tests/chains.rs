//! Terms whose entries use the one below them twice, or once for each member,
//! are answered, in the library and in the program. Decided anew at each use,
//! the last of 255 would take 2^127 steps or more: only such a time breaks the
//! limit.
//!
//! The program is named by the environment variable CUCKOOORMOLU_EXCHANGE;
//! where that is not set, its test does nothing.
#![cfg(feature = "alloc")]

use cuckooormolu::{Answer, Event, Member, Monitor, Request};
use std::fs;
use std::path::Path;
use std::process::{Command, Stdio};
use std::sync::mpsc;
use std::thread;
use std::time::{Duration, Instant};

const LIMIT: Duration = Duration::from_secs(60);
const LEVELS: usize = 255;
const PAST: usize = 32;

/// Entry n of the chains, over the one before: or, since as long as there are
/// tables, or with a since at each eighth level, and binds over edges.
const CHAINS: [fn(usize) -> String; 4] = [
    |n| twice("or", n),
    |n| twice(if n < PAST { "since" } else { "or" }, n),
    |n| twice(if n % 8 == 7 { "since" } else { "or" }, n),
    |n| match n % 2 {
        0 => format!("bind\t{}\t{}", 1 + n / 2 % 15, n - 1),
        _ => format!("out\t0\t{}", n - 1),
    },
];

fn twice(word: &str, n: usize) -> String {
    format!("{word}\t{}\t{}", n - 1, n - 1)
}

/// Terms of 64 members, each with edges to four. Event 0 is always granted,
/// event 1 by the last entry of the chain, which is true.
fn chain(entry: fn(usize) -> String) -> String {
    let mut text = "M\t64\nL\t1\t2\nF\t0\ttop\t0\t0\n".to_string();
    for n in 1..LEVELS {
        text.push_str(&format!("F\t{n}\t{}\n", entry(n)));
    }
    text.push_str(&format!("F\t{LEVELS}\t{}\n", twice("since", LEVELS)));
    text.push_str(&format!("P\t0\t0\nP\t1\t{}\nE\t0\tadd\t0\tfwd\n", LEVELS - 1));
    for from in 0..64 {
        let mut to = [1, 2, 3, 4].map(|step| (from + step) % 64);
        to.sort();
        to.iter().for_each(|to| text.push_str(&format!("G\t0\t{from}\t{to}\n")));
    }
    text
}

/// Runs the work on a thread of its own, for the limit at most.
fn within_limit(work: impl FnOnce() + Send + 'static) {
    let (done, wait) = mpsc::channel();
    let worker = thread::Builder::new().stack_size(4 << 20).spawn(move || {
        work();
        _ = done.send(());
    });
    let worker = worker.expect("a thread");
    match wait.recv_timeout(LIMIT) {
        Err(mpsc::RecvTimeoutError::Timeout) => panic!("no answer within {LIMIT:?}"),
        _ => worker.join().expect("the work is done"),
    }
}

/// Member 1 asks for an event with member 2.
fn request(event: u8) -> Request {
    Request { event: Event(event), from: Member(1), to: Member(2) }
}

#[test]
fn the_library_answers() {
    for entry in CHAINS {
        within_limit(move || {
            let mut monitor = Monitor::read(chain(entry).as_bytes()).unwrap();
            assert_eq!(monitor.look(request(1)), Ok(Answer::Grant));
            assert_eq!(monitor.request(request(0)), Ok(Answer::Grant));
            assert_eq!(monitor.request(request(1)), Ok(Answer::Grant));
        });
    }
}

#[test]
fn the_program_answers() {
    let Some(program) = std::env::var_os("CUCKOOORMOLU_EXCHANGE") else { return };
    for (number, entry) in CHAINS.into_iter().enumerate() {
        let folder = Path::new(env!("CARGO_TARGET_TMPDIR")).join(format!("chain-{number}"));
        fs::create_dir_all(&folder).unwrap();
        fs::write(folder.join("terms.tsv"), chain(entry)).unwrap();
        fs::write(folder.join("requests.tsv"), "R\t0\t1\t2\nR\t1\t1\t2\n").unwrap();
        let mut command = Command::new(&program);
        let mut child = command.current_dir(&folder).stdout(Stdio::piped()).spawn().unwrap();
        let begin = Instant::now();
        while child.try_wait().unwrap().is_none() {
            if begin.elapsed() > LIMIT {
                child.kill().unwrap();
                panic!("no answer within {LIMIT:?}");
            }
            thread::sleep(Duration::from_millis(10));
        }
        let output = child.wait_with_output().unwrap();
        assert_eq!(String::from_utf8_lossy(&output.stdout), "1\tgrant\n2\tgrant\n");
    }
}
