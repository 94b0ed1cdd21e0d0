//! The server that test.sh started, circles in it, and the keeper's replay of their log.
#![allow(dead_code)] // Each test takes a part of it.

use circles::libpq::{Connection, Rows};
use circles::{words, Circles, Key, Revised, Told};
use cuckooormolu::{Answer, Event, Member, Monitor, Refusal, Request, Terms};
use cuckooormolu::{STATE_WORDS, TERMS_WORDS};
use keeper::record::{self, Record};
use keeper::terms::memory::{terms_of_words, terms_words, SCRATCH_WORDS};
use std::collections::HashMap;
use std::env;
use std::io::Write;
use std::path::Path;
use std::process::{Command, Output, Stdio};
use std::thread;

/// The preset: share, withdraw, load. Load is kept and makes an owner; event 3 asks for the same and is not kept.
pub const PRESET: &str = "M 3\nL 1 4\nF 0 var 1 0\nF 1 out 1 0\nF 2 out 2 0\nF 3 not 2 0\nF 4 since 3 1\nF 5 in 0 4\n\
    F 6 at 0 5\nF 7 bind 1 6\nF 8 top 0 0\nP 0 8\nP 1 8\nP 2 7\nP 3 7\nK 2\nE 2 add 0 fwd\nG 0 0 2\n";

/// The same after a revision: whoever was once shared with may load, withdrawn or not. That starts at the revision.
pub const ONCE: &str =
    "M 3\nL 1 4\nF 0 top 0 0\nF 1 var 1 0\nF 2 out 1 1\nF 3 since 0 2\nF 4 in 0 3\nF 5 at 0 4\n\
    F 6 bind 1 5\nP 0 0\nP 1 0\nP 2 6\nP 3 6\nE 2 add 0 fwd\n";

/// Terms with another number of members.
pub const LARGER: &str = "M 4\nL 1 4\nF 0 top 0 0\nP 0 0\nP 1 0\nP 2 0\nP 3 0\n";

/// The terms that are written with spaces.
pub fn terms(text: &str) -> Terms {
    Monitor::read(&self::text(text)).unwrap().terms().clone()
}

/// The file's text of terms that are written with spaces.
pub fn text(terms: &str) -> Vec<u8> {
    terms.replace(' ', "\t").into_bytes()
}

/// The folder of the server.
pub fn folder() -> String {
    env::var("CIRCLES_SERVER").expect("hosts/postgres/test.sh starts a server and names its folder")
}

/// The way to the server.
pub fn server() -> String {
    format!("host={} dbname=postgres user=circles", folder())
}

/// The way to a database of a test's own, without tables.
pub fn database(name: &str) -> String {
    Connection::script(&server(), &format!("create database {name} template template0")).unwrap();
    server().replace("dbname=postgres", &format!("dbname={name}"))
}

/// What the program does, with these words and this standard input.
pub fn program(words: &[&str], input: &[u8]) -> Output {
    let mut child = Command::new(env!("CARGO_BIN_EXE_circles"))
        .args(words)
        .stdin(Stdio::piped())
        .stdout(Stdio::piped())
        .stderr(Stdio::piped())
        .spawn()
        .unwrap();
    // A worker that ends before it has read everything closes its end.
    let _ = child.stdin.take().unwrap().write_all(input);
    child.wait_with_output().unwrap()
}

/// Status, standard output and standard error of the program.
pub fn said(output: &Output) -> (Option<i32>, String, String) {
    let [out, err] =
        [&output.stdout, &output.stderr].map(|text| String::from_utf8_lossy(text).into_owned());
    (output.status.code(), out, err)
}

/// The name of a file with these bytes. Each test has one of its own.
pub fn file(bytes: &[u8]) -> String {
    let name = format!("{:?}.tsv", thread::current().id());
    let file = Path::new(env!("CARGO_TARGET_TMPDIR")).join(name);
    std::fs::write(&file, bytes).unwrap();
    file.to_str().unwrap().to_string()
}

/// A line that asks a circle, its key a number.
pub fn line(circle: i64, key: u128, Request { event, from, to }: Request) -> String {
    format!("R\t{circle}\t{key:032x}\t{event}\t{from}\t{to}\n")
}

/// Numbers that look random, the same in each run.
pub struct Random(pub u64);

impl Random {
    pub fn below(&mut self, bound: u64) -> u64 {
        self.0 =
            self.0.wrapping_mul(6_364_136_223_846_793_005).wrapping_add(1_442_695_040_888_963_407);
        (self.0 >> 33) % bound
    }

    /// A request to the preset; one of sixteen names no event.
    pub fn request(&mut self) -> Request {
        let event = if self.below(16) == 0 { 9 } else { self.below(4) as u8 };
        let mut member = || Member(self.below(3) as u8);
        Request { event: Event(event), from: member(), to: member() }
    }
}

/// What the log says of a key: a request's answer or a revision's.
#[derive(Clone, Copy, Debug, PartialEq, Eq)]
pub enum Line {
    Told(Told),
    Revised(Revised),
}

/// Makes circles of the preset, from the first number on.
pub fn create(first: i64, count: i64) {
    let monitor = Monitor::read(&text(PRESET)).unwrap();
    Circles::connect(&server()).unwrap().create(first, &monitor).unwrap();
    let script = format!(
        "insert into circle (id, terms, state)
         select n, terms, state from circle, generate_series({}, {}) as n where id = {first}",
        first + 1,
        first + count - 1,
    );
    Connection::script(&server(), &script).unwrap();
}

/// The rows that a query gives for circles from a number on, below another.
pub fn rows(query: &str, first: i64, count: i64) -> Rows {
    let query = std::ffi::CString::new(query).unwrap();
    let mut connection = Connection::open(&server(), &[(c"query", &query)]).unwrap();
    let (first, end) = (first.to_be_bytes(), (first + count).to_be_bytes());
    connection.run(&[(c"query", &[&first, &end])]).unwrap().remove(0)
}

/// The texts that a query of one column gives.
pub fn texts(to: &str, query: &str) -> Vec<String> {
    let query = std::ffi::CString::new(query).unwrap();
    let mut connection = Connection::open(to, &[(c"query", &query)]).unwrap();
    let rows = connection.run(&[(c"query", &[])]).unwrap().remove(0);
    (0..rows.count()).map(|row| String::from_utf8(rows.bytes(row, 0).to_vec()).unwrap()).collect()
}

fn unpacked<W: words::Word, const COUNT: usize>(bytes: &[u8]) -> [W; COUNT] {
    let mut words = [W::ZERO; COUNT];
    words::unpack(bytes, &mut words).expect("packed words");
    words
}

/// Holds the log of some circles to the keeper, who works every answer out from it, and their terms and states to his.
/// Gives what the log says of each key.
pub fn replay(first: i64, count: i64) -> HashMap<Key, Line> {
    let begun = Record::of(keeper::terms::read(&text(PRESET)).unwrap());
    let mut records = (0..count).map(|_| begun.clone()).collect::<Vec<_>>();
    let mut answers = HashMap::new();
    let log = rows(
        "select event, initiator, target, answer, circle, key, version, terms from log
         where circle >= $1 and circle < $2 order by number",
        first,
        count,
    );
    for row in 0..log.count() {
        let record = &mut records[(log.number(row, 4) - first) as usize];
        let line = match words::request(&log, row) {
            Some(request) => {
                assert!(log.is_null(row, 7), "terms at a request, line {row} of the log");
                let told = words::told(&log, row);
                let kept = ask(record, request);
                assert_eq!(told.map_err(number), kept, "line {row} of the log");
                Line::Told(told)
            }
            None => {
                let terms = terms_of_words(&unpacked::<u16, TERMS_WORDS>(log.bytes(row, 7)));
                let revised = words::revised(&log, row);
                let kept = record.revise(&terms.expect("terms")).map_err(|refusal| refusal.number);
                assert_eq!(revised.map_err(number), kept, "line {row} of the log");
                Line::Revised(revised)
            }
        };
        assert_eq!(log.number(row, 6), version(record), "the version of line {row}");
        let key = log.bytes(row, 5).try_into().unwrap();
        assert_eq!(answers.insert(key, line), None, "a key is answered twice");
    }
    let circles = rows(
        "select id, version, terms, state from circle where id >= $1 and id < $2",
        first,
        count,
    );
    assert_eq!(circles.count() as i64, count, "a circle is lost");
    for row in 0..circles.count() {
        let circle = circles.number(row, 0);
        let record = &records[(circle - first) as usize];
        assert_eq!(circles.number(row, 1), version(record), "a version");
        let terms: [u16; TERMS_WORDS] = unpacked(circles.bytes(row, 2));
        let state: [u64; STATE_WORDS] = unpacked(circles.bytes(row, 3));
        assert_eq!(terms[..], terms_words(record.terms()), "the terms of circle {circle}");
        assert_eq!(state[..], record.state_words(), "the state of circle {circle}");
    }
    answers
}

/// The keeper's answer, a refusal as its number.
fn ask(record: &mut Record, request: Request) -> Result<Answer, u16> {
    let [event, from, to] = [request.event.0, request.from.0, request.to.0].map(usize::from);
    match record.call(false, event, from, to, SCRATCH_WORDS) {
        record::Answer::Grant => Ok(Answer::Grant),
        record::Answer::Deny => Ok(Answer::Deny),
        record::Answer::Refused(refusal) => Err(refusal.number),
    }
}

fn number(refusal: Refusal) -> u16 {
    refusal.number() as u16
}

/// The moments that the keeper has seen.
fn version(record: &Record) -> i64 {
    record.graphs().len() as i64 - 1
}
