//! Past-time entries with two free variables: which are accepted, their tables, and
//! what is kept of them.
#![cfg(feature = "alloc")]

use cuckooormolu::{Answer, Event, Member, Monitor, Refusal, Request, State, Variable};

/// Events are 0 pick, 1 share, 2 withdraw and 3 load. Entry 12, of table 1: here has
/// at some time shared with variable 1 a moment after picking variable 0, and not
/// withdrawn from variable 1 since. Whoever has been shared with so may load the
/// target. Spaces for tabs; members come before.
const INTRODUCED: &str = "\
L 0 4
F 0 var 0 0
F 1 out 0 0
F 2 prev 1 0
F 3 var 1 0
F 4 out 1 3
F 5 not 2 0
F 6 not 4 0
F 7 or 5 6
F 8 not 7 0
F 9 out 2 3
F 10 not 9 0
F 11 top 0 0
F 12 since 10 8
F 13 reach 2 11 12
F 14 bind 1 13
P 0 11
P 1 11
P 2 11
P 3 14
";

const FIRST_TABLE: usize = 1_024;

fn text(members: usize) -> Vec<u8> {
    format!("M {members}\n{INTRODUCED}").replace(' ', "\t").into_bytes()
}

fn asked(event: u8, from: u8, to: u8) -> Request {
    Request { event: Event(event), from: Member(from), to: Member(to) }
}

/// Where the entry of table 1 holds: at whom, and for whom its variables stand.
fn held(monitor: &Monitor) -> Vec<(u8, Vec<u8>)> {
    let table = monitor.state().table(monitor.terms(), 1).unwrap();
    let told = |holding: cuckooormolu::Holding| {
        (holding.at().0, holding.others().iter().map(|other| other.0).collect())
    };
    table.holding().map(told).collect()
}

fn after(members: usize, requests: &[Request]) -> Monitor {
    let mut monitor = Monitor::read(&text(members)).unwrap();
    for request in requests {
        assert_eq!(monitor.request(*request), Ok(Answer::Grant));
    }
    monitor
}

#[test]
fn sixteen_members_may_have_them_and_seventeen_may_not() {
    assert!(Monitor::read(&text(16)).is_ok());
    let error = Monitor::read(&text(17)).unwrap_err();
    assert_eq!((error.refusal(), error.line()), (Refusal::PastVariables, 15));
    let said = error.to_string();
    assert!(said.contains("three or more free variables, or with two and more than 16"), "{said}");
    // Three, whatever the members.
    let three = "M 3\nL 0 1\nF 0 var 0 0\nF 1 at 1 0\nF 2 at 2 1\nF 3 prev 2 0\nP 0 0\n";
    let error = Monitor::read(three.replace(' ', "\t").as_bytes()).unwrap_err();
    assert_eq!((error.refusal(), error.line()), (Refusal::PastVariables, 6));
}

#[test]
fn three_members_decide_an_answer() {
    let mut monitor = after(5, &[asked(0, 0, 3), asked(1, 0, 1)]);
    let may = |monitor: &mut Monitor, from, to| monitor.look(asked(3, from, to)).unwrap();
    assert_eq!(may(&mut monitor, 1, 3), Answer::Grant);
    assert_eq!(may(&mut monitor, 1, 4), Answer::Deny);
    assert_eq!(may(&mut monitor, 2, 3), Answer::Deny);
    assert_eq!(monitor.request(asked(2, 0, 1)), Ok(Answer::Grant));
    assert_eq!(may(&mut monitor, 1, 3), Answer::Deny);
}

#[test]
fn a_table_of_two_variables_is_shown() {
    let monitor = after(16, &[asked(0, 0, 3), asked(1, 0, 1), asked(0, 15, 14), asked(1, 15, 13)]);
    assert_eq!(held(&monitor), [(0, vec![3, 1]), (15, vec![14, 13])]);
    let free = |entry| monitor.terms().free(entry).map(|free| free.collect::<Vec<_>>());
    assert_eq!(free(12), Some(vec![Variable(0), Variable(1)]));
    assert_eq!((free(2), free(11), free(15)), (Some(vec![Variable(0)]), Some(vec![]), None));
    let table = monitor.state().table(monitor.terms(), 1).unwrap();
    assert!(table.variables().eq([Variable(0), Variable(1)]));
    let members: Vec<Member> = (0..20).chain([63, 64, 128, 255]).map(Member).collect();
    for &at in &members {
        assert_eq!((table.holds(at, &[]), table.holds(at, &members[..3])), (None, None));
        for &b in &members {
            assert_eq!(table.holds(at, &[b]), None);
            for &c in &members {
                let wanted = [(0, 3, 1), (15, 14, 13)].contains(&(at.0, b.0, c.0));
                assert_eq!(table.holds(at, &[b, c]), Some(wanted), "{at} {b} {c}");
            }
        }
    }
}

/// Bit 16 × (b mod 4) + c of word 4a + b / 4, for each a, b and c; a bit of somebody
/// who does not exist is refused.
#[test]
fn each_bit_has_its_place() {
    for members in [1, 3, 4, 15, 16] {
        let monitor = Monitor::read(&text(members)).unwrap();
        let (terms, blank) = (monitor.terms(), *monitor.state().words());
        for (a, b, c) in (0..16 * 16 * 16).map(|place| (place / 256, place / 16 % 16, place % 16)) {
            let mut words = blank;
            words[FIRST_TABLE + 64 + 4 * a + b / 4] |= 1 << (16 * (b % 4) + c);
            let state = State::from_words(terms, &words);
            if a.max(b).max(c) >= members {
                assert_eq!(state, Err(Refusal::BadState), "{a} {b} {c} of {members}");
                continue;
            }
            let (table, state) = ((a as u8, vec![b as u8, c as u8]), state.unwrap());
            let monitor = Monitor::resume(terms.clone(), state).unwrap();
            assert_eq!(held(&monitor), [table]);
            let stored = String::from_utf8(monitor.store()).unwrap();
            assert!(stored.ends_with(&format!("\nT\t1\t{a}\t{b}\t{c}\n")), "{stored}");
            assert_eq!(Monitor::read(stored.as_bytes()).unwrap().state(), monitor.state());
        }
    }
}

#[test]
fn stored_lines_carry_three_members() {
    let mut monitor = after(5, &[asked(0, 0, 3), asked(1, 0, 1), asked(0, 2, 4)]);
    let stored = monitor.store();
    let text = String::from_utf8(stored.clone()).unwrap();
    assert!(text.ends_with("\nT\t1\t0\t3\t1\nV\t0\t2\t4\n"), "{text}");
    let mut again = Monitor::read(&stored).unwrap();
    let share = asked(1, 2, 1);
    assert_eq!(
        (monitor.request(share), again.request(share)),
        (Ok(Answer::Grant), Ok(Answer::Grant))
    );
    assert_eq!(
        (held(&again), monitor.state()),
        (vec![(0, vec![3, 1]), (2, vec![4, 1])], again.state())
    );
    // Four fields for two variables, and five for one.
    for (line, wrong) in [("T\t1\t0\t3\t1", "T\t1\t0\t3"), ("T\t1\t0\t3\t1", "T\t0\t0\t3\t1")] {
        let error = Monitor::read(text.replace(line, wrong).as_bytes()).unwrap_err();
        assert_eq!((error.refusal(), error.line()), (Refusal::Form, 23));
    }
}

#[test]
fn a_revision_takes_the_table_along() {
    let mut monitor = after(5, &[asked(0, 0, 3), asked(1, 0, 1), asked(0, 2, 4)]);
    let before = held(&monitor);
    let terms = monitor.terms().clone();
    monitor.revise(&terms).unwrap();
    assert_eq!((held(&monitor), before), (vec![(0, vec![3, 1])], vec![(0, vec![3, 1])]));
}

/// The table of triples of docs/MEMORY.md: the words after the requests of the
/// example.
#[test]
fn the_page_shows_the_words() {
    const EXAMPLE: [&[u8]; 2] = [
        include_bytes!("../../../examples/introduced/terms.tsv"),
        include_bytes!("../../../examples/introduced/requests.tsv"),
    ];
    let page = include_str!("../../../docs/MEMORY.md");
    let mut monitor = Monitor::read(EXAMPLE[0]).unwrap();
    for line in String::from_utf8_lossy(EXAMPLE[1]).lines() {
        let fields: Vec<u8> =
            line.split('\t').skip(1).map(|field| field.parse().unwrap()).collect();
        let _ = monitor.request(asked(fields[0], fields[1], fields[2])).unwrap();
    }
    let rows = page.split_once("\n| word | value | says |\n").unwrap().1.lines().skip(1);
    let mut shown = [0; 2 * 64];
    for row in rows.take_while(|line| line.starts_with('|')) {
        let cells: Vec<&str> = row.split('|').map(str::trim).collect();
        let place: usize = cells[1].parse().unwrap();
        shown[place - FIRST_TABLE] = cells[2].parse().unwrap();
    }
    assert_eq!(monitor.state().words()[FIRST_TABLE..][..shown.len()], shown);
}
