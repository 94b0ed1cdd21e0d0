//! What a request does to the tables, one client or eight at the same circle.

mod support;

use circles::libpq::Connection;
use circles::{Circles, Error};
use cuckooormolu::{Answer, Event, Member, Refusal, Request};
use std::thread;
use support::{create, replay, rows, server, terms, Line, Random, LARGER, ONCE, PRESET};

const LOAD: Request = Request { event: Event(2), from: Member(1), to: Member(2) };
const SHARE: Request = Request { event: Event(0), from: Member(0), to: Member(1) };

#[test]
fn a_key_is_answered_once() {
    create(1, 1);
    let mut circles = Circles::connect(&server()).unwrap();
    for _ in 0..3 {
        assert_eq!(circles.request(1, [1; 16], LOAD), Ok(Ok(Answer::Deny)));
        assert_eq!(circles.request(1, [2; 16], SHARE), Ok(Ok(Answer::Grant)));
        assert_eq!(circles.request(1, [3; 16], LOAD), Ok(Ok(Answer::Grant)));
        let nothing = Request { event: Event(9), ..LOAD };
        assert_eq!(circles.request(1, [4; 16], nothing), Ok(Err(Refusal::NoSuchName)));
    }
    assert_eq!(circles.request(1, [3; 16], SHARE), Err(Error::OtherRequest));
    assert_eq!(circles.request(2, [3; 16], SHARE), Err(Error::NoCircle));
    assert_eq!(replay(1, 1).len(), 4);
}

#[test]
fn a_damaged_circle_answers_nothing() {
    create(10, 1);
    create(11, 1);
    let mut circles = Circles::connect(&server()).unwrap();
    // The last word of a state, and bytes that are no packed words.
    for (column, damage, refusal) in [
        ("state", "state || '\\x000c0100ffffffffffffffff'", Refusal::BadState),
        ("state", "state || '\\x00'", Refusal::BadState),
        ("state", "'\\x010c010001000000000000'", Refusal::BadState),
        ("terms", "set_byte(terms, 4, 65)", Refusal::BadTerms),
        ("terms", "substr(terms, 2)", Refusal::BadTerms),
        ("terms", "''", Refusal::BadTerms),
    ] {
        let damage = format!("update circle set {column} = {damage} where id = 10");
        Connection::script(&server(), &damage).unwrap();
        let damaged = Error::Damaged(refusal);
        assert_eq!(circles.request(10, [1; 16], SHARE), Err(damaged.clone()));
        assert_eq!(circles.revise(10, [1; 16], &terms(ONCE)), Err(damaged));
        // The lock is given back.
        let mend = format!(
            "update circle set {column} = (select {column} from circle where id = 11) where id = 10"
        );
        Connection::script(&server(), &mend).unwrap();
    }
    assert!(rows("select 1 from log where circle >= $1 and circle < $2", 10, 1).is_empty());
    assert_eq!(circles.request(10, [1; 16], SHARE), Ok(Ok(Answer::Grant)));
    assert_eq!(replay(10, 1).len(), 1);
}

#[test]
fn a_circle_is_made_once() {
    create(15, 1);
    let mut circles = Circles::connect(&server()).unwrap();
    assert_eq!(circles.request(15, [1; 16], SHARE), Ok(Ok(Answer::Grant)));
    let monitor = cuckooormolu::Monitor::read(&support::text(PRESET)).unwrap();
    assert_eq!(circles.create(15, &monitor), Err(Error::Circle));
    assert_eq!(replay(15, 1).len(), 1);
}

/// The past of what the new terms keep is carried over, any other starts now, and a key is answered once.
#[test]
fn terms_are_revised_while_playing() {
    create(50, 2);
    let mut circles = Circles::connect(&server()).unwrap();
    let withdraw = Request { event: Event(1), ..SHARE };
    assert_eq!(circles.request(50, [1; 16], SHARE), Ok(Ok(Answer::Grant)));
    assert_eq!(circles.request(50, [2; 16], withdraw), Ok(Ok(Answer::Grant)));
    assert_eq!(circles.request(50, [3; 16], LOAD), Ok(Ok(Answer::Deny)));
    for _ in 0..2 {
        assert_eq!(circles.revise(50, [4; 16], &terms(ONCE)), Ok(Ok(())));
    }
    // That there was a share is not known to what starts now.
    assert_eq!(circles.request(50, [5; 16], LOAD), Ok(Ok(Answer::Deny)));
    assert_eq!(circles.request(50, [6; 16], SHARE), Ok(Ok(Answer::Grant)));
    assert_eq!(circles.request(50, [7; 16], withdraw), Ok(Ok(Answer::Grant)));
    assert_eq!(circles.request(50, [8; 16], LOAD), Ok(Ok(Answer::Grant)));
    // A lock ahead is given back, and other numbers of members are refused.
    assert_eq!(circles.request_before(50, [9; 16], LOAD, Some(51)), Ok(Ok(Answer::Grant)));
    for _ in 0..2 {
        assert_eq!(circles.revise(50, [10; 16], &terms(LARGER)), Ok(Err(Refusal::OtherSize)));
    }
    assert_eq!(circles.request(50, [11; 16], LOAD), Ok(Ok(Answer::Grant)));
    assert_eq!(circles.revise(50, [12; 16], &terms(PRESET)), Ok(Ok(())));
    assert_eq!(circles.request(50, [13; 16], LOAD), Ok(Ok(Answer::Deny)));
    // A key is one request's or one revision's.
    assert_eq!(circles.revise(50, [12; 16], &terms(ONCE)), Err(Error::OtherRequest));
    assert_eq!(circles.revise(50, [13; 16], &terms(PRESET)), Err(Error::OtherRequest));
    assert_eq!(circles.request(50, [12; 16], LOAD), Err(Error::OtherRequest));
    assert_eq!(circles.revise(52, [1; 16], &terms(PRESET)), Err(Error::NoCircle));
    let answers = replay(50, 2);
    assert_eq!(answers.len(), 13);
    assert_eq!(answers[&[10; 16]], Line::Revised(Err(Refusal::OtherSize)));
}

#[test]
fn the_log_is_append_only() {
    for change in ["update log set answer = 1", "delete from log", "truncate log"] {
        let lost = Connection::script(&server(), change).unwrap_err();
        assert!(lost.to_string().contains("the log is append-only"), "{lost}");
    }
}

/// A circle may be locked ahead that is then asked, that is not, or that is not there.
#[test]
fn a_lock_ahead_changes_no_answer() {
    create(40, 3);
    let mut circles = Circles::connect(&server()).unwrap();
    let mut other = Circles::connect(&server()).unwrap();
    assert_eq!(circles.request_before(40, [1; 16], LOAD, Some(41)), Ok(Ok(Answer::Deny)));
    assert_eq!(circles.request_before(41, [11; 16], SHARE, Some(41)), Ok(Ok(Answer::Grant)));
    assert_eq!(circles.request_before(41, [12; 16], LOAD, Some(42)), Ok(Ok(Answer::Grant)));
    // Another circle than was said, and the lock is given back.
    assert_eq!(circles.request_before(40, [2; 16], SHARE, Some(43)), Ok(Ok(Answer::Grant)));
    assert_eq!(other.request(42, [21; 16], SHARE), Ok(Ok(Answer::Grant)));
    assert_eq!(circles.request_before(43, [31; 16], SHARE, Some(40)), Err(Error::NoCircle));
    // A key that comes again, with a lock ahead.
    assert_eq!(circles.request_before(40, [1; 16], LOAD, Some(42)), Ok(Ok(Answer::Deny)));
    assert_eq!(other.request(42, [22; 16], LOAD), Ok(Ok(Answer::Grant)));
    assert_eq!(circles.request(40, [3; 16], LOAD), Ok(Ok(Answer::Grant)));
    assert_eq!(replay(40, 3).len(), 7);
}

/// The grants of the README are enough, and no more than that is allowed.
#[test]
fn a_worker_has_few_rights() {
    create(25, 1);
    let grants = "create role worker login; grant select, update on circle to worker;
                  grant select, insert on log to worker";
    Connection::script(&server(), grants).unwrap();
    let to = server().replace("user=circles", "user=worker");
    let mut circles = Circles::connect(&to).unwrap();
    for _ in 0..2 {
        assert_eq!(circles.request(25, [1; 16], LOAD), Ok(Ok(Answer::Deny)));
        assert_eq!(circles.revise(25, [2; 16], &terms(ONCE)), Ok(Ok(())));
    }
    for change in
        ["delete from circle", "update log set answer = 1", "drop trigger append_only on log"]
    {
        assert!(Connection::script(&to, change).is_err(), "{change}");
    }
    assert_eq!(replay(25, 1).len(), 2);
}

#[test]
fn a_lost_connection_is_no_answer() {
    create(20, 1);
    let mut circles = Circles::connect(&format!("{} application_name=lost", server())).unwrap();
    assert_eq!(circles.request(20, [1; 16], SHARE), Ok(Ok(Answer::Grant)));
    let end =
        "select pg_terminate_backend(pid) from pg_stat_activity where application_name = 'lost'";
    Connection::script(&server(), end).unwrap();
    assert!(matches!(circles.request(20, [2; 16], SHARE), Err(Error::Lost(_))));
    assert_eq!(replay(20, 1).len(), 1);
}

/// Eight clients ask the same keys of the same circle, each in an order of its own. Every tenth is a revision.
#[test]
fn eight_clients_of_one_circle() {
    create(30, 1);
    let mut random = Random(30);
    let requests = (0..60).map(|key: u8| ([key; 16], random.request())).collect::<Vec<_>>();
    let clients = (0..8).map(|client| {
        let mut requests = requests.clone();
        requests.rotate_left(7 * client);
        thread::spawn(move || {
            let mut circles = Circles::connect(&server()).unwrap();
            let told = requests.iter().map(|&(key, request)| match key[0] % 10 {
                0 => {
                    let new = if key[0] % 20 == 0 { ONCE } else { PRESET };
                    Line::Revised(circles.revise(30, key, &terms(new)).unwrap())
                }
                _ => Line::Told(circles.request(30, key, request).unwrap()),
            });
            requests.iter().map(|&(key, _)| key).zip(told).collect::<Vec<_>>()
        })
    });
    let told = clients.collect::<Vec<_>>().into_iter().flat_map(|client| client.join().unwrap());
    let told = told.collect::<Vec<_>>();
    let answers = replay(30, 1);
    assert_eq!((answers.len(), told.len()), (60, 480));
    for (key, told) in told {
        assert_eq!(answers[&key], told);
    }
}
