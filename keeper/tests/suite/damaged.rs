//! What the generator reaches with damage.

use keeper::expect;
use keeper::generate;
use keeper::record::Call;
use keeper::terms;
use keeper::terms::memory::{EVENT_WORD, FIRST_MARK};
use std::collections::BTreeSet;

#[test]
fn each_refusal_of_reading_is_hit_at_varied_lines() {
    let mut counts = [0; 12];
    let mut lines = vec![BTreeSet::new(); 12];
    for seed in 0..8_000 {
        match terms::read(&generate::damaged_text(seed)) {
            Ok(_) => counts[0] += 1,
            Err(refusal) => {
                counts[usize::from(refusal.number)] += 1;
                lines[usize::from(refusal.number)].insert(refusal.line);
            }
        }
    }
    println!("{counts:?} {:?}", lines.iter().map(BTreeSet::len).collect::<Vec<_>>());
    for number in [1, 2, 3, 4, 5, 10, 11] {
        assert!(counts[number] > 200, "refusal {number}: {}", counts[number]);
        assert!(lines[number].len() > 8, "refusal {number}: {:?}", lines[number]);
    }
    assert_eq!(counts[6..10], [0; 4]);
    assert!(counts[0] < 2_500, "{}", counts[0]);
}

/// The line that a damaged text is refused at, and the number.
fn refused_line(seed: u64) -> Option<(u16, Vec<u8>)> {
    let text = generate::damaged_text(seed);
    let refusal = terms::read(&text).err()?;
    let line = text.split(|&byte| byte == b'\n').nth(refusal.line - 1)?;
    Some((refusal.number, line.to_vec()))
}

#[test]
fn k_lines_and_denied_events_are_damaged() {
    let (mut order, mut range, mut events) = (0, 0, 0);
    for (number, line) in (0..8_000).filter_map(refused_line) {
        order += usize::from(number == 1 && line.starts_with(b"K\t"));
        range += usize::from(number == 2 && line.starts_with(b"K\t"));
        let denied = [b"V\t1", b"V\t2"].iter().any(|start| line.starts_with(*start));
        events += usize::from(number == 2 && denied);
    }
    println!("{order} of order, {range} of range, {events} of a denied event");
    assert!(order > 100 && range > 60 && events > 15, "{order} {range} {events}");
}

#[test]
fn six_digits_with_a_leading_zero_are_refused() {
    let six =
        |field: &[u8]| field.len() == 6 && field[0] == b'0' && field.iter().all(u8::is_ascii_digit);
    let mut met = 0;
    for seed in 0..8_000 {
        let text = generate::damaged_text(seed);
        if text.split(|byte| b"\t\n".contains(byte)).any(six) {
            met += 1;
            assert!(terms::read(&text).is_err(), "seed {seed}");
        }
    }
    assert!(met > 60, "{met}");
}

#[test]
fn damaged_memory_hits_7_and_8() {
    let mut counts = [0; 11];
    let (mut marks, mut events) = (0, 0);
    for seed in 0..1_500 {
        let (terms, state) = generate::damaged_memory(seed);
        let number = match expect::calling(&terms, &state, &Call::request(0, 0, 0)) {
            Ok(_) => 0,
            Err(refusal) => usize::from(refusal.number),
        };
        counts[number] += 1;
        let mark = terms[FIRST_MARK..].iter().any(|&mark| mark > 1);
        marks += usize::from(number == 7 && mark);
        events += usize::from(number == 8 && state[EVENT_WORD] > 16 * 4_096);
    }
    println!("{counts:?} {marks} {events}");
    assert!(marks > 30 && events > 20, "{marks} {events}");
    assert!(counts[0] > 200 && counts[7] > 200 && counts[8] > 200, "{counts:?}");
}
