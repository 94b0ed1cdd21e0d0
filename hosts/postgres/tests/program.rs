//! What the program says to clients and operators.

mod support;

use circles::libpq::Connection;
use circles::Circles;
use cuckooormolu::{Answer, Event, Member, Request};
use std::time::{Duration, Instant};
use support::{create, file, line, program, replay, said, server, text, LARGER, PRESET};

const LOAD: Request = Request { event: Event(2), from: Member(1), to: Member(2) };
const SHARE: Request = Request { event: Event(0), from: Member(0), to: Member(1) };
const KEY: &str = "00000000-0000-0000-0000-000000000001";

/// A line that is no request has an answer that says why, and the next is read.
#[test]
fn every_line_has_one_answer() {
    create(70, 1);
    let form = "a line is R, circle, key, event, from and to, separated by tabs";
    let wrong: [(&[u8], &str); 8] = [
        (b"R\t70\t\xff\xfe\t2\t1\t2", "the line is not UTF-8"),
        (b"", form),
        (b"R 70 1 2 1 2", form),
        (
            b"R\t70\t00000000000000000000000000000001\t2\t1\t2\r",
            "the line ends with a carriage return",
        ),
        (b"R\t70\t0001\t2\t1\t2", "a key has 32 hexadecimal digits, with or without dashes"),
        (b"R\tx\t00000000000000000000000000000001\t2\t1\t2", "a circle is a number"),
        (
            b"R\t70\t00000000000000000000000000000001\t256\t1\t2",
            "events and members are numbers up to 255",
        ),
        (
            b"R\t70\t00000000000000000000000000000001\tload\t1\t2",
            "events and members are numbers up to 255",
        ),
    ];
    let mut input = line(70, 1, LOAD).into_bytes();
    let mut answers = format!("{:032x}\tdeny\n", 1).into_bytes();
    for (line, why) in wrong {
        input.extend([line, b"\n"].concat());
        answers.extend([line, format!("\terror\tno request: {why}\n").as_bytes()].concat());
    }
    input.extend((line(70, 2, SHARE) + &line(69, 3, LOAD) + &line(70, 4, LOAD)).into_bytes());
    input.extend(
        (line(70, 5, Request { event: Event(9), ..LOAD }) + &line(70, 4, SHARE)).into_bytes(),
    );
    let last = ["grant", "error\tcircle 69 does not exist", "grant", "refuse\t9"];
    for (key, answer) in (2..).zip(last) {
        answers.extend(format!("{key:032x}\t{answer}\n").into_bytes());
    }
    answers.extend(
        format!("{:032x}\terror\tthe key was used for another request or revision\n", 4)
            .into_bytes(),
    );
    let output = program(&["serve", &server()], &input);
    let (status, _, error) = said(&output);
    assert_eq!((status, error.as_str()), (Some(0), ""));
    assert_eq!(output.stdout.escape_ascii().to_string(), answers.escape_ascii().to_string());
    assert_eq!(replay(70, 1).len(), 4);
}

/// Standard error has its number, once, and others are served.
#[test]
fn a_damaged_circle_is_reported() {
    create(71, 2);
    let damage = "update circle set state = state || '\\x00' where id = 71";
    Connection::script(&server(), damage).unwrap();
    let input = line(71, 1, LOAD) + &line(71, 2, LOAD) + &line(72, 3, LOAD);
    let why = "circle 71 is damaged: state that is not one of these terms, or was damaged: go on \
               from terms and state that were kept together (refusal 8)";
    let answers = format!("{:032x}\terror\t{why}\n{:032x}\terror\t{why}\n{:032x}\tdeny\n", 1, 2, 3);
    let output = program(&["serve", &server()], input.as_bytes());
    assert_eq!(said(&output), (Some(0), answers, format!("circles: {why}\n")));
    let output = program(&["show", &server(), "71"], b"");
    assert_eq!(said(&output), (Some(1), String::new(), format!("circles: {why}\n")));
}

/// A statement that fails is the error of its request alone.
#[test]
fn a_failed_statement_ends_nothing() {
    create(76, 3);
    let mut other = Circles::connect(&server()).unwrap();
    assert_eq!(other.request_before(78, [9; 16], LOAD, Some(76)), Ok(Ok(Answer::Deny)));
    let input = line(76, 1, LOAD) + &line(77, 2, LOAD) + &line(76, 3, LOAD);
    let to = server() + " options='-c lock_timeout=100'";
    let why = "circle 76: ERROR: canceling statement due to lock timeout";
    let answers = format!("{:032x}\terror\t{why}\n{:032x}\tdeny\n{:032x}\terror\t{why}\n", 1, 2, 3);
    let output = program(&["serve", &to], input.as_bytes());
    assert_eq!(said(&output), (Some(0), answers, format!("circles: {why}\n")));
    drop(other);
    assert_eq!(replay(76, 3).len(), 2);
}

/// Faults that do not pass are answered at once, in one line, and the worker ends.
#[test]
fn without_a_way_to_the_circles_the_worker_ends() {
    let start = Instant::now();
    let input = line(73, 1, LOAD) + &line(73, 2, LOAD);
    for (database, why) in [
        ("nosuch", "database \"nosuch\" does not exist"),
        ("template1", "relation \"circle\" does not exist: `circles schema TO` makes the tables"),
    ] {
        let to = server().replace("dbname=postgres", &format!("dbname={database}"));
        let (status, out, error) = said(&program(&["serve", &to], input.as_bytes()));
        assert_eq!(status, Some(1), "{error}");
        let answer = out.strip_prefix(&format!("{:032x}\terror\t", 1)).unwrap();
        assert!(answer.ends_with(&format!("{why}\n")) && answer.lines().count() == 1, "{answer}");
        assert_eq!(error, format!("circles: {answer}"));
        let (status, _, error) = said(&program(&["check", &to], b""));
        assert_eq!((status, error), (Some(1), format!("circles: {answer}")));
    }
    assert!(start.elapsed() < Duration::from_secs(30), "it asked again");
}

#[test]
fn a_message_has_its_cause() {
    let to = &server();
    create(74, 1);
    let terms = file(&text(PRESET));
    let wrong: [(&[&str], &str); 8] = [
        (&["create", to, "x", &terms], "x is not the number of a circle\n"),
        (
            &["create", to, "75", "nosuch.tsv"],
            "nosuch.tsv: No such file or directory (os error 2)\n",
        ),
        (
            &["create", to, "75", "terms.say"],
            "terms.say is a source: `cuckooormolu compile` makes a terms.tsv from it\n",
        ),
        (&["create", to, "74", &terms], "circle 74 exists already\n"),
        (&["show", to, "75"], "circle 75 does not exist\n"),
        (&["revise", to, "75", KEY, &terms], "circle 75 does not exist\n"),
        (
            &["revise", to, "74", "1", &terms],
            "a key has 32 hexadecimal digits, with or without dashes\n",
        ),
        (&["upgrade"], "a call that is none of these:\nusage: circles schema TO\n"),
    ];
    for (words, why) in wrong {
        let (status, out, error) = said(&program(words, b""));
        assert_eq!((status, out.as_str()), (Some(1), ""), "{words:?}");
        assert!(error.starts_with(&format!("circles: {why}")), "{error}");
    }
    let larger = file(&text(LARGER));
    let (status, out, error) = said(&program(&["revise", to, "74", KEY, &larger], b""));
    assert_eq!((status, out.as_str()), (Some(1), "refuse\t13\n"));
    assert!(
        error.starts_with("circles: circle 74 keeps its terms: new terms with another number"),
        "{error}"
    );

    let (status, out, error) = said(&program(&["--help"], b""));
    assert!(
        out.starts_with("usage: circles schema TO\n") && out.lines().all(|line| line.len() <= 90)
    );
    assert_eq!((status, error.as_str()), (Some(0), ""));
    let version = concat!("circles ", env!("CARGO_PKG_VERSION"), "\n").to_string();
    assert_eq!(said(&program(&["--version"], b"")), (Some(0), version, String::new()));
}
