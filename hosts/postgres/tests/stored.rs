//! Circles as they are stored: shown, checked, and brought here from earlier versions.

mod support;

use circles::libpq::Connection;
use circles::Circles;
use cuckooormolu::{Event, Member, Monitor, Request};
use support::{create, database, file, line, program, said, server, text, texts, PRESET};

const LOAD: Request = Request { event: Event(2), from: Member(1), to: Member(2) };
const SHARE: Request = Request { event: Event(0), from: Member(0), to: Member(1) };

/// A circle that was shown is made again elsewhere, with its past.
#[test]
fn a_circle_is_shown_and_made_again() {
    create(80, 1);
    let mut circles = Circles::connect(&server()).unwrap();
    let mut monitor = Monitor::read(&text(PRESET)).unwrap();
    for (key, request) in [(1, SHARE), (2, LOAD)] {
        assert_eq!(circles.request(80, [key; 16], request).unwrap(), monitor.request(request));
    }
    let shown = program(&["show", &server(), "80"], b"");
    assert!(shown.status.success() && shown.stdout == monitor.store());
    assert_eq!(Monitor::read(&shown.stdout).unwrap().state(), monitor.state());
    let file = file(&shown.stdout);
    assert!(program(&["create", &server(), "81", &file], b"").status.success());
    assert_eq!(circles.stored(81).unwrap().store(), monitor.store());
}

/// More circles than are read at a time.
#[test]
fn every_circle_is_checked() {
    let to = &database("checked");
    assert!(program(&["schema", to], b"").status.success());
    assert_eq!(said(&program(&["check", to], b"")).0, Some(0));
    let terms = file(&text(PRESET));
    assert!(program(&["create", to, "-1", &terms], b"").status.success());
    let more = "insert into circle (id, terms, state)
                select n, terms, state from circle, generate_series(1, 2500) as n";
    Connection::script(to, more).unwrap();
    let well = "circles: 2501; damaged: 0; above the limit of 1000000 rows: 0\n".to_string();
    assert_eq!(said(&program(&["check", to], b"")), (Some(0), well, String::new()));

    let damage = "update circle set terms = set_byte(terms, 4, 65) where id in (-1, 2400)";
    Connection::script(to, damage).unwrap();
    let said_now = said(&program(&["check", to], b""));
    let why = "is damaged: no terms have been read into this monitor, or they were damaged: \
               read them again (refusal 7)";
    let out = format!(
        "circle -1 {why}\ncircle 2400 {why}\ncircles: 2501; damaged: 2; above the limit of 1000000 rows: 0\n"
    );
    assert_eq!(said_now, (Some(1), out, "circles: damaged circles\n".to_string()));
    let (status, out, _) = said(&program(&["check", "--effort", "1", to], b""));
    assert!(
        out.contains("\ncircle 2500: under these terms a single request may compute "),
        "{out}"
    );
    assert!(out.ends_with("circles: 2501; damaged: 2; above the limit of 1 rows: 2499\n"));
    assert_eq!(status, Some(1));
}

/// As the README has it: a backup is asked what was answered since, and its row is copied back.
#[test]
fn a_damaged_circle_is_repaired() {
    let to = &database("first");
    assert!(program(&["schema", to], b"").status.success());
    assert!(program(&["create", to, "7", &file(&text(PRESET))], b"").status.success());
    let asked = |requests: &[(u128, Request)]| {
        let lines =
            requests.iter().map(|&(key, request)| line(7, key, request)).collect::<String>();
        said(&program(&["serve", to], lines.as_bytes()))
    };
    assert_eq!(asked(&[(1, LOAD), (2, SHARE)]).0, Some(0));
    Connection::script(&server(), "create database second template first").unwrap();
    let second = &to.replace("dbname=first", "dbname=second");
    let answers = asked(&[(3, LOAD), (4, SHARE), (5, LOAD)]);
    let shown = program(&["show", to, "7"], b"").stdout;
    Connection::script(to, "update circle set state = state || '\\x00' where id = 7").unwrap();
    assert_eq!(program(&["show", to, "7"], b"").status.code(), Some(1));

    let last = &texts(second, "select max(number)::text from log where circle = 7")[0];
    let since = format!(
        "select concat_ws(E'\\t', 'R', circle, replace(key::text, '-', ''), event, initiator, target) || E'\\n'
         from log where circle = 7 and number > {last} order by number"
    );
    let lines = texts(to, &since).concat();
    assert_eq!(said(&program(&["serve", second], lines.as_bytes())), answers);
    let row = "select format('update circle set version = %s, terms = %L, state = %L where id = 7',
                             version, terms, state) from circle where id = 7";
    Connection::script(to, &texts(second, row)[0]).unwrap();
    assert!(program(&["show", to, "7"], b"").stdout == shown);
}

/// The tables as 0.14.0 made them.
const EARLIER: &str = "
    create table circle (
        id bigint primary key, terms bytea not null check (length(terms) = 2504),
        state bytea not null check (length(state) = 24584), version bigint not null default 0);
    create table log (
        number bigint generated always as identity, circle bigint not null, key uuid not null,
        version bigint not null, event smallint not null, initiator smallint not null,
        target smallint not null, answer smallint not null,
        answered timestamptz not null default now(), primary key (circle, key));
    insert into log (circle, key, version, event, initiator, target, answer)
        values (1, '01010101-0101-0101-0101-010101010101', 1, 0, 0, 1, 1)";

fn bytes<W: circles::words::Word>(words: &[W]) -> String {
    let mut bytes = Vec::new();
    words.iter().for_each(|word| word.put(&mut bytes));
    bytes.iter().map(|byte| format!("{byte:02x}")).collect()
}

#[test]
fn earlier_tables_are_upgraded() {
    let to = &database("earlier");
    let mut monitor = Monitor::read(&text(PRESET)).unwrap();
    assert!(monitor.request(SHARE).unwrap().is_grant());
    let row = format!(
        "insert into circle values (1, '\\x{}', '\\x{}', 1)",
        bytes(monitor.terms().words()),
        bytes(monitor.state().words())
    );
    Connection::script(to, EARLIER).unwrap();
    Connection::script(to, &row).unwrap();
    let (status, _, error) = said(&program(&["show", to, "1"], b""));
    assert!(status == Some(1) && error.contains("`circles upgrade TO`"), "{error}");
    for _ in 0..2 {
        assert_eq!(said(&program(&["upgrade", to], b"")), (Some(0), String::new(), String::new()));
        let shown = program(&["show", to, "1"], b"");
        assert!(shown.stdout == monitor.store(), "{}", said(&shown).2);
    }
    let mut circles = Circles::connect(to).unwrap();
    // What was answered before is known, and the past goes on.
    assert_eq!(circles.request(1, [1; 16], SHARE).unwrap(), Ok(cuckooormolu::Answer::Grant));
    assert_eq!(circles.request(1, [2; 16], LOAD).unwrap(), monitor.request(LOAD));
    assert_eq!(circles.revise(1, [3; 16], monitor.terms()), Ok(Ok(())));

    // A row alone, as from a dump of the data.
    let other = row
        .replace("(1, ", "(2, ")
        .replace("circle values", "circle (id, terms, state, version) values");
    Connection::script(to, &other).unwrap();
    let (status, out, _) = said(&program(&["check", to], b""));
    assert!(
        out.starts_with("circle 2 is stored as by an earlier version: run `circles upgrade TO`\n"),
        "{out}"
    );
    assert_eq!(status, Some(1));
    assert!(program(&["upgrade", to], b"").status.success());
    assert_eq!(said(&program(&["check", to], b"")).0, Some(0));
}
