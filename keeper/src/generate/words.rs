//! Damage to the words of lent memory.

use super::Rng;
use crate::terms::memory::*;
use crate::terms::{Bit, Terms, MOST_EFFECTS, MOST_EVENTS, MOST_PAIRED};

/// Changes one word of terms, now and then more.
pub fn damage_terms(rng: &mut Rng, words: &mut [u16]) {
    for _ in 0..if rng.percent(80) { 1 } else { 3 } {
        let count = usize::from(words[3]).min(256);
        let event = rng.below(MOST_EVENTS);
        let effect = effect_place(event, rng.below(MOST_EFFECTS));
        let events = usize::from(words[2]).min(15);
        let place = match rng.below(10) {
            0 => rng.below(4),
            1 | 2 => FIRST_ENTRY + rng.below(4 * count),
            3 => FIRST_ENTRY + rng.below(4 * 256),
            4 => FIRST_POLICY + event,
            5 => FIRST_POLICY + rng.below(usize::from(words[2])).min(15),
            6 => effect + rng.below(3),
            7 => FIRST_MARK + event,
            8 => FIRST_MARK + rng.below(events + 1),
            _ => rng.below(TERMS_WORDS),
        };
        let old = words[place];
        let close = [old.wrapping_add(1), old.wrapping_sub(1), old ^ 1, old << 8, 0];
        let fixed = [0, 1, 2, 3, 9, 10, 11, 12, 15, 16, 17, 64, 65, 255, 256, 257, 65_535];
        words[place] = match rng.below(3) {
            0 => rng.pick(&close),
            1 => rng.pick(&fixed),
            _ => rng.draw() as u16,
        };
    }
}

/// Changes one word of state, now and then more.
pub fn damage_state(rng: &mut Rng, terms: &Terms, words: &mut [u64]) {
    for _ in 0..if rng.percent(80) { 1 } else { 3 } {
        if let (Some((place, bit)), true) = (paired_bit(rng, terms), rng.percent(40)) {
            words[place] ^= 1 << bit;
            continue;
        }
        let past = terms.past().len();
        let used_row = rng.below(terms.members);
        let place = match rng.below(9) {
            0 | 1 => 64 * rng.below(terms.relations) + used_row,
            2 => 64 * rng.below(terms.relations) + rng.below(64),
            3 | 4 => FIRST_TABLE + 64 * rng.below(past) + used_row,
            5 => FIRST_TABLE + 64 * rng.below(past) + rng.below(64),
            6 => rng.pick(&[64 * terms.relations, FIRST_TABLE + 64 * past]).min(EVENT_WORD - 1),
            7 => rng.below(STATE_WORDS),
            _ => EVENT_WORD,
        };
        words[place] = if place == EVENT_WORD {
            event_word(rng, terms)
        } else {
            let full = u64::MAX >> (64 - terms.members);
            match rng.below(6) {
                0 | 1 => words[place] ^ 1 << rng.below(terms.members),
                2 => words[place] ^ 1 << rng.below(64),
                3 => full,
                4 => words[place] ^ full,
                _ => rng.pick(&[0, 1, u64::MAX, 1 << 63, 1 << (terms.members % 64)]),
            }
        };
    }
}

/// The word and the place of a bit in a table of two free variables, if there is
/// one: of three members, or of a number that is none's.
fn paired_bit(rng: &mut Rng, terms: &Terms) -> Option<(usize, usize)> {
    let paired = terms.paired();
    let t = (!paired.is_empty()).then(|| rng.pick(&paired))?;
    let last = MOST_PAIRED - 1;
    let mut members = [(); 3].map(|()| rng.below(terms.members));
    if rng.percent(60) {
        let beyond = [terms.members.min(last), rng.between(terms.members.min(last), last)];
        members[rng.below(3)] = rng.pick(&beyond);
    }
    let [a, b, c] = members;
    let (word, bit) = Bit::Triple(a, b, c).place();
    Some((FIRST_TABLE + 64 * t + word, bit))
}

/// An event word near the bounds of what it may name.
fn event_word(rng: &mut Rng, terms: &Terms) -> u64 {
    let near = |rng: &mut Rng, bound: usize| {
        let choices = [0, bound - 1, bound, rng.below(bound)];
        rng.pick(&choices) as u64
    };
    let first = if rng.percent(50) { MOST_EVENTS as u64 } else { 0 };
    let event = first + near(rng, terms.events);
    let from = near(rng, terms.members);
    let to = near(rng, terms.members);
    let code = 1 + event * 4_096 + from * 64 + to;
    match rng.below(6) {
        0 => rng.pick(&[0, 1, 65_536, 65_537, u64::MAX, 1 << 32, 1 << 63]),
        1 => code + (1 << rng.between(16, 63)),
        _ => code,
    }
}
