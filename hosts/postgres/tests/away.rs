//! A server that is away, and data that changed meanwhile. Nothing else is tested here: this stops the server.

mod support;

use circles::{Error, Patient};
use cuckooormolu::{Event, Member, Request};
use std::fs;
use std::io::{BufRead, BufReader, Write};
use std::process::{Command, Stdio};
use std::sync::Mutex;
use std::time::{Duration, Instant};
use support::{
    create, database, file, folder, line, program, replay, said, server, text, texts, PRESET,
};

const LOAD: Request = Request { event: Event(2), from: Member(1), to: Member(2) };

/// The server is stopped by one test at a time.
static ALONE: Mutex<()> = Mutex::new(());

fn server_is(what: &str) {
    let script = concat!(env!("CARGO_MANIFEST_DIR"), "/server.sh");
    assert!(Command::new("sh").args([script, what, &folder()]).status().unwrap().success());
}

#[test]
fn a_worker_waits_for_the_server_and_says_so() {
    let _alone = ALONE.lock();
    create(90, 1);
    let mut worker = Command::new(env!("CARGO_BIN_EXE_circles"))
        .args(["serve", &server()])
        .stdin(Stdio::piped())
        .stdout(Stdio::piped())
        .stderr(Stdio::piped())
        .spawn()
        .unwrap();
    let mut input = worker.stdin.take().unwrap();
    let mut answers = BufReader::new(worker.stdout.take().unwrap()).lines();
    let mut errors = BufReader::new(worker.stderr.take().unwrap()).lines();
    input.write_all(line(90, 1, LOAD).as_bytes()).unwrap();
    assert_eq!(answers.next().unwrap().unwrap(), format!("{:032x}\tdeny", 1));

    server_is("stop");
    input.write_all(line(90, 2, LOAD).as_bytes()).unwrap();
    let away = errors.next().unwrap().unwrap();
    assert!(away.starts_with("circles: the server is away: connection to server "), "{away}");
    // One that is less patient has an error of one line.
    let (start, mut client) =
        (Instant::now(), Patient::new(&server()).waiting(Duration::from_millis(300)));
    let error = client.request_before(90, [3; 16], LOAD, None).unwrap_err();
    assert!(matches!(&error, Error::Away(lost) if lost.passes()), "{error}");
    assert!(!error.to_string().contains(['\n', '\t']), "{error}");
    assert!((300..10_000).contains(&start.elapsed().as_millis()));

    server_is("start");
    assert_eq!(answers.next().unwrap().unwrap(), format!("{:032x}\tdeny", 2));
    drop(input);
    let rest = errors.collect::<Result<Vec<_>, _>>().unwrap();
    assert_eq!(rest, ["circles: the server is back"]);
    assert!(worker.wait().unwrap().success());
    assert_eq!(replay(90, 1).len(), 2);
}

/// A bit that a disk changed is found by the server's checksums, wherever it is.
#[test]
fn a_changed_page_gives_no_answer() {
    let _alone = ALONE.lock();
    let to = &database("page");
    assert!(program(&["schema", to], b"").status.success());
    assert!(program(&["create", to, "91", &file(&text(PRESET))], b"").status.success());
    let page = texts(to, "select pg_relation_filepath('circle')").remove(0);
    server_is("stop");
    let page = format!("{}/data/{page}", folder());
    let mut bytes = fs::read(&page).unwrap();
    *bytes.last_mut().unwrap() ^= 1;
    fs::write(&page, bytes).unwrap();
    server_is("start");

    let (status, out, error) = said(&program(&["serve", to], line(91, 1, LOAD).as_bytes()));
    let why = "circle 91: ERROR: invalid page in block 0 of relation";
    assert!(
        out.starts_with(&format!("{:032x}\terror\t{why}", 1)) && out.lines().count() == 1,
        "{out}"
    );
    assert!(status == Some(0) && error.contains(&format!("circles: {why}")), "{error}");
    let (status, out, error) = said(&program(&["check", to], b""));
    assert!((status, out.as_str()) == (Some(1), "") && error.contains("invalid page"), "{error}");
}
