//! Which events are kept, and damage to the lines that say so.

use super::lines::{join, line, places, some, split};
use super::{Rng, Size};
use crate::terms::Terms;
use std::collections::BTreeSet;

/// The events whose denied requests are kept: none, some or all.
pub fn events(rng: &mut Rng, size: &Size) -> BTreeSet<usize> {
    let share = rng.pick(&[0, 40, 70, 100]);
    (0..size.events).filter(|_| rng.percent(share)).collect()
}

/// Damages the K lines: their order and number, their place, or what they name.
/// Where there are none, one is put in somewhere.
pub fn damage(rng: &mut Rng, terms: &Terms, text: &mut Vec<u8>) {
    let mut lines = split(text);
    let count = lines.len();
    let kept = places(&lines, b"K");
    match rng.below(8) {
        0 => {
            let (one, other) = (some(rng, &kept, count), some(rng, &kept, count));
            lines.swap(one, other);
        }
        1 => {
            let place = some(rng, &kept, count);
            lines.insert(place, lines[place].clone());
        }
        2 => {
            // Elsewhere: among other lines, or after the last.
            let mark = lines.remove(some(rng, &kept, count));
            lines.insert(rng.below(count), mark);
        }
        3 | 4 => lines.insert(after_policies(&lines), line("K", &[event(rng, terms)])),
        5 => lines.insert(rng.below(count + 1), line("K", &[rng.below(terms.events)])),
        6 => {
            let place = some(rng, &kept, count);
            lines[place] = line("K", &[event(rng, terms)]);
        }
        _ => {
            let place = some(rng, &kept, count);
            match rng.below(3) {
                0 => lines[place].truncate(1),
                1 => lines[place].push(b"0".to_vec()),
                _ => lines[place] = line("K", &[0, 0]),
            }
        }
    }
    *text = join(&lines);
}

/// The place after the last P or K line.
fn after_policies(lines: &[Vec<Vec<u8>>]) -> usize {
    lines.iter().rposition(|line| line[0] == b"P" || line[0] == b"K").map_or(0, |place| place + 1)
}

/// An event's number, the first that is none, or one far off.
fn event(rng: &mut Rng, terms: &Terms) -> usize {
    match rng.below(5) {
        0 | 1 => terms.events,
        2 => rng.pick(&[terms.events + 1, 15, 16, 17, 32, 99_999]),
        _ => rng.below(terms.events),
    }
}
