//! Terms of which a request may work out too much are let into no circle, by the library or by the program.

mod support;

use circles::{Circles, Error, Patient, LIMIT};
use cuckooormolu::{Monitor, MOST_EFFORT};
use std::fmt::Write;
use std::process::Output;
use support::{file, program, replay, rows, server, terms, text, Line, ONCE, PRESET};

const KEY: &str = "00000000-0000-0000-0000-000000000001";

/// Terms that would take ages to open: three variables that are bound anew in turn, and every level reads all of them.
fn costly() -> String {
    let mut text =
        "M 64\nL 1 1\nF 0 var 1 0\nF 1 var 2 0\nF 2 var 3 0\nF 3 or 0 1\nF 4 or 3 2\n".to_string();
    let mut entry = 4;
    let mut put = |line: &dyn Fn(usize) -> String| {
        writeln!(text, "F {} {}", entry + 1, line(entry)).unwrap();
        entry += 1;
    };
    for level in 0..12 {
        put(&|last| format!("out 0 {last}"));
        put(&|last| format!("or {last} 4"));
        put(&|last| format!("bind {} {last}", 1 + level % 3));
        put(&|last| format!("or {last} 4"));
    }
    for variable in 1..=3 {
        put(&|last| format!("bind {variable} {last}"));
    }
    put(&|last| format!("since {last} {last}"));
    writeln!(text, "P 0 {entry}").unwrap();
    for (from, to) in (0..64).flat_map(|from| (0..64).step_by(8).map(move |to| (from, to))) {
        writeln!(text, "G 0 {from} {to}").unwrap();
    }
    text
}

/// Runs the program, with the name of a file that has such terms as its last word.
fn circles(words: &[&str], terms: &str) -> Output {
    let file = file(&text(terms));
    program(&[words, &[&file]].concat(), b"")
}

/// Holds the program to have refused something, with a sentence that has this in it.
fn refused(output: &Output, with: &str) {
    let said = String::from_utf8_lossy(&output.stderr);
    assert_eq!((output.status.code(), &output.stdout[..]), (Some(1), &b""[..]), "{said}");
    assert!(said.starts_with("circles: ") && said.contains(with), "{said}");
}

fn effort(of: &str) -> usize {
    terms(of).effort()
}

/// This ends, since nothing is opened.
#[test]
fn the_program_lets_nothing_costly_in() {
    let to = &server();
    let said = format!("may compute {MOST_EFFORT} rows or more, and the limit is {LIMIT}: ");
    refused(&circles(&["create", to, "60"], &costly()), &said);
    refused(&circles(&["create", to, "60"], &format!("S 2\n{}", costly())), &said);
    assert!(rows("select 1 from circle where id >= $1 and id < $2", 60, 1).is_empty());

    assert!(circles(&["create", to, "60"], PRESET).status.success());
    refused(&circles(&["revise", to, "60", KEY], &costly()), &said);
    assert!(replay(60, 1).is_empty());
    // Nothing has the key.
    assert_eq!(circles(&["revise", to, "60", KEY], ONCE).stdout, b"done\n");
    assert_eq!(replay(60, 1).len(), 1);

    // A faulty text is refused as ever.
    refused(&circles(&["create", to, "61"], "M 3\nL 0 1\nF 0 not 0 0\n"), "line 3");
}

#[test]
fn the_program_takes_another_limit() {
    let to = &server();
    let (preset, once) = (effort(PRESET), effort(ONCE));
    assert!(preset > 1 && once > 1 && preset.max(once) < LIMIT);
    let (exact, less) = (preset.to_string(), (preset - 1).to_string());
    let said = format!("may compute {preset} rows, and the limit is {less}: ");
    refused(&circles(&["create", "--effort", &less, to, "62"], PRESET), &said);
    assert!(circles(&["create", "--effort", &exact, to, "62"], PRESET).status.success());

    let (exact, less) = (once.to_string(), (once - 1).to_string());
    let said = format!("may compute {once} rows, and the limit is {less}: ");
    refused(&circles(&["revise", "--effort", &less, to, "62", KEY], ONCE), &said);
    assert!(circles(&["revise", "--effort", &exact, to, "62", KEY], ONCE).status.success());
    assert_eq!(replay(62, 1).into_values().collect::<Vec<_>>(), [Line::Revised(Ok(()))]);

    refused(&circles(&["create", "--effort", "much", to, "63"], PRESET), "a number of rows");
    refused(&circles(&["serve", "--effort", "9"], PRESET), "usage: ");
}

#[test]
fn the_library_holds_to_the_limit() {
    let (preset, once) = (effort(PRESET), effort(ONCE));
    let monitor = Monitor::read(&text(PRESET)).unwrap();
    let within = |limit| Circles::connect(&server()).unwrap().within(limit);
    let costly = Error::Costly { rows: preset, limit: preset - 1 };
    assert_eq!(within(preset - 1).create(64, &monitor), Err(costly));
    assert_eq!(within(preset).create(64, &monitor), Ok(()));

    let costly = Error::Costly { rows: once, limit: once - 1 };
    assert_eq!(within(once - 1).revise(64, [1; 16], &terms(ONCE)), Err(costly.clone()));
    let mut patient = Patient::new(&server()).within(once - 1);
    assert_eq!(patient.revise(64, [1; 16], &terms(ONCE)), Err(costly));
    assert_eq!(within(once).revise(64, [1; 16], &terms(ONCE)), Ok(Ok(())));
    assert_eq!(replay(64, 1).len(), 1);
}
