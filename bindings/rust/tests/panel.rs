//! The host of examples/panel.rs, switched off and on between requests. Its power
//! is taken at every system call by bindings/c/power.sh.
#![cfg(feature = "alloc")]

use cuckooormolu::{Event, Member, Monitor, Request};
use std::fs;
use std::io::Write;
use std::path::{Path, PathBuf};
use std::process::{Command, Stdio};

/// The preset with load kept.
const TERMS: &str =
    "M 3\nL 1 3\nF 0 var 1 0\nF 1 out 1 0\nF 2 out 2 0\nF 3 not 2 0\nF 4 since 3 1\n\
    F 5 in 0 4\nF 6 at 0 5\nF 7 bind 1 6\nF 8 top 0 0\nP 0 8\nP 1 8\nP 2 7\nK 2\nG 0 0 2\n";

const REQUESTS: [[u8; 3]; 7] =
    [[2, 1, 2], [0, 0, 1], [2, 1, 2], [1, 0, 1], [9, 0, 0], [2, 1, 2], [0, 2, 2]];

/// A folder of a test's own that has the terms' file, and one for the host.
fn folder(name: &str) -> (PathBuf, PathBuf) {
    let work = Path::new(env!("CARGO_TARGET_TMPDIR")).join(name);
    let _ = fs::remove_dir_all(&work);
    fs::create_dir_all(work.join("panel")).unwrap();
    fs::write(work.join("terms.tsv"), TERMS.replace(' ', "\t")).unwrap();
    (work.join("panel"), work.join("terms.tsv"))
}

/// Runs the host: its exit code and what it told.
fn host(arguments: &[&Path], input: &str) -> (i32, String) {
    let test = std::env::current_exe().unwrap();
    let program = test.parent().unwrap().parent().unwrap().join("examples/panel");
    let mut child = Command::new(program)
        .args(arguments)
        .stdin(Stdio::piped())
        .stdout(Stdio::piped())
        .stderr(Stdio::null())
        .spawn()
        .unwrap();
    // A host that ends early leaves its input unread.
    let _ = child.stdin.take().unwrap().write_all(input.as_bytes());
    let output = child.wait_with_output().unwrap();
    (output.status.code().unwrap(), String::from_utf8(output.stdout).unwrap())
}

#[test]
fn goes_on_after_every_request() {
    let (panel, terms) = folder("goes_on");
    assert_eq!(host(&[&panel, &terms], ""), (0, String::new()));
    let mut monitor = Monitor::read(TERMS.replace(' ', "\t").as_bytes()).unwrap();
    for [event, from, to] in REQUESTS {
        let request = Request { event: Event(event), from: Member(from), to: Member(to) };
        let wanted = match monitor.request(request) {
            Ok(answer) => format!("{answer}\n"),
            Err(refusal) => format!("refuse\t{}\n", refusal.number()),
        };
        let line = format!("R\t{event}\t{from}\t{to}\n");
        assert_eq!(host(&[&panel], &line), (0, wanted));
        let kept = fs::read(panel.join("state")).unwrap();
        let feed = kept.iter().position(|&byte| byte == b'\n').unwrap();
        assert_eq!(kept[feed + 1..], monitor.store());
    }
}

#[test]
fn refuses_what_is_no_request() {
    let (panel, terms) = folder("no_request");
    assert_eq!(host(&[&panel, &terms], ""), (0, String::new()));
    let kept = fs::read(panel.join("state")).unwrap();
    let lines = "R\t000000\t0\t1\nX\t0\t0\t1\nR\t0\t0\n\nR\t0\t300\t1\nR\t0\t0\t1";
    let wanted = "refuse\t1\n".repeat(4) + "refuse\t9\nrefuse\t1\n";
    assert_eq!(host(&[&panel], lines), (0, wanted));
    assert_eq!(fs::read(panel.join("state")).unwrap(), kept);
}

#[test]
fn has_nothing_to_go_on_from() {
    let (panel, terms) = folder("nothing");
    assert_eq!(host(&[&panel], "R\t0\t0\t1\n"), (2, String::new()));
    assert_eq!(host(&[&panel.join("none")], ""), (2, String::new()));
    assert_eq!(host(&[&panel, &panel.join("none")], ""), (2, String::new()));
    assert_eq!(host(&[&panel, &terms], ""), (0, String::new()));
    assert_eq!(host(&[&panel, &terms], ""), (2, String::new()));
}
