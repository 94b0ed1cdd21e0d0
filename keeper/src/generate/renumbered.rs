//! Other numbers for the members, among steps.

use super::Rng;
use crate::renumber::{Numbering, Renumbering};
use crate::step::Step;
use crate::terms::memory::{STATE_WORDS, TERMS_WORDS};
use crate::terms::MOST_MEMBERS;

/// The steps with renumberings among them: none, a few or many.
pub fn among(rng: &mut Rng, members: usize, steps: Vec<Step>) -> Vec<Step> {
    let share = rng.pick(&[0, 0, 5, 15, 40]);
    let mut all = Vec::new();
    for step in steps {
        if rng.percent(share) {
            all.push(Step::Renumbering(renumbering(rng, members)));
        }
        all.push(step);
    }
    if rng.percent(share) {
        all.push(Step::Renumbering(renumbering(rng, members)));
    }
    all
}

/// A renumbering of so many members. Now and then its list is damaged, or it lends
/// too few words.
pub fn renumbering(rng: &mut Rng, members: usize) -> Renumbering {
    let mut numbers = numbers(rng, members);
    if rng.percent(15) {
        damage(rng, &mut numbers);
    }
    let mut renumbering = Renumbering::by(&numbers);
    lend(rng, &mut renumbering);
    renumbering
}

/// A numbering of so many members.
pub fn numbering(rng: &mut Rng, members: usize) -> Numbering {
    let numbers = numbers(rng, members);
    Numbering::of(members, &numbers).expect("each number is given once")
}

/// Each number below the count, in some order: any, two of them swapped, all of
/// them turned, the other way round, or as they were.
fn numbers(rng: &mut Rng, members: usize) -> Vec<u8> {
    let mut numbers: Vec<u8> = (0..members as u8).collect();
    match rng.below(12) {
        0 => numbers.swap(rng.below(members), rng.below(members)),
        1 => numbers.rotate_left(rng.below(members)),
        2 => numbers.reverse(),
        3 if rng.percent(50) => {}
        _ => (1..members).for_each(|place| numbers.swap(place, rng.below(place + 1))),
    }
    numbers
}

/// Makes a list too short or too long, or puts a number in the place of another.
fn damage(rng: &mut Rng, numbers: &mut Vec<u8>) {
    let members = numbers.len();
    let place = rng.below(members);
    match rng.below(10) {
        0 | 1 => {
            numbers.remove(place);
        }
        2 => numbers.truncate(place),
        3 => numbers.push(members as u8),
        4 => numbers.push(numbers[place]),
        5 => numbers.extend((0..=rng.below(200)).map(|_| rng.draw() as u8)),
        6 | 7 => numbers[place] = beyond(rng, members),
        _ => numbers[place] = numbers[rng.below(members)],
    }
}

/// A number that is no member's.
fn beyond(rng: &mut Rng, members: usize) -> u8 {
    let far = [members, members, members + 1, 63, 64, 127, 128, 255];
    rng.pick(&far).max(members) as u8
}

/// Lends some words more, or too few of one memory.
fn lend(rng: &mut Rng, renumbering: &mut Renumbering) {
    renumbering.terms_words = TERMS_WORDS + rng.below(6);
    renumbering.state_words = STATE_WORDS + rng.below(6);
    renumbering.second_words = STATE_WORDS + rng.below(6);
    if rng.percent(95) {
        return;
    }
    let which = rng.below(3);
    let (words, least) = match which {
        0 => (&mut renumbering.terms_words, TERMS_WORDS),
        1 => (&mut renumbering.state_words, STATE_WORDS),
        _ => (&mut renumbering.second_words, STATE_WORDS),
    };
    *words = if rng.percent(60) { least - 1 } else { rng.below(least) };
}

/// A renumbering of lent words, also where no accepted file yields them.
pub fn of_words(rng: &mut Rng, terms: &[u16]) -> Renumbering {
    let said = terms.first().map_or(0, |&members| usize::from(members));
    let members = if (1..=MOST_MEMBERS).contains(&said) { said } else { rng.between(1, 4) };
    renumbering(rng, members)
}
