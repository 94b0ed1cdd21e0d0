//! The floor: the checks of terms and state that every call makes (refusals 6, 7 and 8), of the same words, written by
//! hand for speed. Nothing is decided.
//!
//! The words of the state are joined a cache line a turn, in lanes that the compiler makes vectors of, and tested once
//! at the end. An entry is tested by one jump on its operator.

use keeper::terms::memory::*;
use keeper::terms::MOST_PAIRED;

/// Words of an entry, of the effects of an event, of a relation or table, and of a cache line.
const ENTRY: usize = 4;
const EFFECTS: usize = 12;
const BLOCK: usize = 64;
const LINE: usize = 8;

const ENTRIES: usize = 256;
const TABLES: usize = 32;

/// The number that terms and state are refused with, if they are.
pub fn refusal(terms: &[u16], state: &[u64]) -> Option<u16> {
    if terms.len() < TERMS_WORDS || state.len() < STATE_WORDS {
        return Some(6);
    }
    let Some(tables) = check_terms(&terms[..TERMS_WORDS]) else {
        return Some(7);
    };
    (!fits(terms, &tables, &state[..STATE_WORDS])).then_some(8)
}

/// The past-time entries in order: the free variables of each.
struct Tables {
    count: usize,
    free: [u16; TABLES],
}

impl Tables {
    fn push(&mut self, free: u16) {
        self.free[self.count % TABLES] = free;
        self.count += 1;
    }
}

/// The tables of terms that some text yields.
fn check_terms(terms: &[u16]) -> Option<Tables> {
    let [members, relations, events, count] = [0, 1, 2, 3].map(|place| usize::from(terms[place]));
    let right = (1..=64).contains(&members)
        && relations <= 16
        && (1..=16).contains(&events)
        && count <= ENTRIES;
    if !right {
        return None;
    }
    let (entries, rest) = terms[FIRST_ENTRY..].split_at(ENTRY * ENTRIES);
    let (policies, rest) = rest.split_at(FIRST_EFFECT - FIRST_POLICY);
    let (effects, marks) = rest.split_at(FIRST_MARK - FIRST_EFFECT);
    let mut free = [0; ENTRIES];
    let tables = check_entries(&entries[..ENTRY * count], relations + 2 * events, &mut free)?;
    let columns = |&free: &u16| {
        let more = but_least(free);
        more == 0 || but_least(more) == 0 && members <= MOST_PAIRED
    };
    let policy = |&entry: &u16| usize::from(entry) < count && free[usize::from(entry)] < 2;
    let unused = either(&entries[ENTRY * count..])
        | either(&policies[events..])
        | either(&effects[EFFECTS * events..])
        | either(&marks[events..])
        | either(&marks[..events]) & !1;
    let right = unused == 0
        && tables.free[..tables.count].iter().all(columns)
        && policies[..events].iter().all(policy)
        && effects[..EFFECTS * events].chunks_exact(EFFECTS).all(|all| effects_fit(all, relations));
    right.then_some(tables)
}

fn either(words: &[u16]) -> u16 {
    words.iter().fold(0, |all, word| all | word)
}

/// A set without its least element. Counting bits takes longer in plain x86-64.
fn but_least(set: u16) -> u16 {
    set & set.wrapping_sub(1)
}

/// Fills in the free variables of each entry.
fn check_entries(entries: &[u16], labels: usize, free: &mut [u16; ENTRIES]) -> Option<Tables> {
    let labels = labels as u16;
    let mut tables = Tables { count: 0, free: [0; TABLES] };
    for (index, entry) in entries.chunks_exact(ENTRY).enumerate() {
        let [operator, a, b, c] = [0, 1, 2, 3].map(|place| entry[place]);
        let n = index as u16;
        let x = 1 << (a % 16);
        let [f, g] = [a, b].map(|entry| free[usize::from(entry) % ENTRIES]);
        let (wrong, own) = match operator {
            0 => (a | b | c != 0, 0),
            1 => (a >= 16 || b | c != 0, x),
            2 => (a >= n || b | c != 0, f),
            3 => (a.max(b) >= n || c != 0, f | g),
            4 | 5 => (a >= labels || b >= n || c != 0, g),
            6 => {
                tables.push(f);
                (a >= n || b | c != 0, f)
            }
            7 => {
                tables.push(f | g);
                (a.max(b) >= n || c != 0, f | g)
            }
            8 => (a == 0 || a >= 16 || b >= n || c != 0, g & !x),
            9 => (a >= 16 || b >= n || c != 0, g | x),
            10 => {
                let to = free[usize::from(c) % ENTRIES];
                let lower = b.max(c) < n;
                (a == 0 || a >= 16 || !lower || g & !x | to & x != 0, to)
            }
            11 => (a >= labels || b >= n || c == 0 || c > 64, g),
            _ => (true, 0),
        };
        if wrong {
            return None;
        }
        free[index % ENTRIES] = own;
    }
    (tables.count <= TABLES).then_some(tables)
}

/// The four effects of an event fill from the front. Most events have none.
fn effects_fit(words: &[u16], relations: usize) -> bool {
    let mut open = true;
    let mut fits = |effect: &[u16]| {
        let [action, relation, direction] = [0, 1, 2].map(|place| effect[place]);
        let none = action == 0;
        let right = match none {
            true => relation | direction == 0,
            false => open && action <= 2 && usize::from(relation) < relations && direction <= 1,
        };
        open &= !none;
        right
    };
    either(words) == 0 || words.chunks_exact(3).all(&mut fits)
}

/// Whether the state keeps the layout.
fn fits(terms: &[u16], tables: &Tables, state: &[u64]) -> bool {
    let [members, relations, events] = [0, 1, 2].map(|place| usize::from(terms[place]));
    let full = u64::MAX >> (64 - members);
    let (used, unused) = state[..FIRST_TABLE].split_at(BLOCK * relations);
    let (own, others) = state[FIRST_TABLE..EVENT_WORD].split_at(BLOCK * tables.count);
    // Words that have bits at members only, and words that are 0.
    let (mut inside, mut outside) = (0, union(unused) | union(others));
    if members == BLOCK {
        inside = union(used);
    } else {
        for relation in used.chunks_exact(BLOCK) {
            inside |= union(&relation[..members]);
            outside |= union(&relation[members..]);
        }
    }
    for (table, free) in own.chunks_exact(BLOCK).zip(tables.free) {
        let pairs = but_least(free) != 0;
        let (rows, others) = table.split_at(if pairs { 4 * members } else { members });
        if members < BLOCK {
            outside |= union(others);
        }
        match free {
            0 => outside |= uneven(rows, full),
            _ if pairs => outside |= beyond(rows, members, full),
            _ => inside |= union(rows),
        }
    }
    outside | inside & !full == 0 && names(state[EVENT_WORD], events, members)
}

#[inline(never)]
fn union(words: &[u64]) -> u64 {
    let lines = words.chunks_exact(LINE);
    let rest = lines.remainder().iter().fold(0, |all, word| all | word);
    let mut lanes = [0; LINE];
    for line in lines {
        lanes.iter_mut().zip(line).for_each(|(lane, word)| *lane |= word);
    }
    lanes.iter().fold(rest, |all, lane| all | lane)
}

/// Without a free variable a word of a table is 0 or full: what differs from that.
#[inline(never)]
fn uneven(rows: &[u64], full: u64) -> u64 {
    rows.iter().fold(0, |all, word| all | word ^ (word & 1).wrapping_neg() & full)
}

/// Of a table with two free variables, four words a member: the bits of no three members.
#[inline(never)]
fn beyond(rows: &[u64], members: usize, full: u64) -> u64 {
    let allowed = [0, 4, 8, 12].map(|first| {
        let there = (0..4).filter(|other| first + other < members);
        there.fold(0, |all, other| all | full << (16 * other))
    });
    let outside = |(word, allowed): (&u64, u64)| word & !allowed;
    let member =
        |rows: &[u64]| rows.iter().zip(allowed).map(outside).fold(0, |all, word| all | word);
    rows.chunks_exact(4).fold(0, |all, rows| all | member(rows))
}

fn names(word: u64, events: usize, members: usize) -> bool {
    let Some(code) = word.checked_sub(1) else {
        return true;
    };
    let (members, number) = (members as u64, code / 4_096);
    // From 16 on the event was denied.
    let event = if number < 16 { number } else { number - 16 };
    event < events as u64 && code / 64 % 64 < members && code % 64 < members
}

#[cfg(test)]
mod tests {
    use super::refusal;
    use cuckooormolu::raw;
    use keeper::generate::{self, words, Rng};
    use keeper::terms::memory::{STATE_WORDS, TERMS_WORDS};
    use keeper::terms::read;

    /// Words of generated terms, sound, damaged and too few: the number is the library's.
    #[test]
    fn refusals_are_the_librarys() {
        let mut seen = [0; 9];
        for seed in 0..4_000 {
            let text = generate::case(seed, 99_999).text;
            let (mut terms, mut state) = (vec![0; TERMS_WORDS], vec![0; STATE_WORDS]);
            assert!(raw::read(&text, &mut terms, &mut state).is_ok());
            let said = read(&text).expect("the library accepts it").terms;
            let mut rng = Rng::new(seed);
            for round in 0..12 {
                let (mut terms, mut state) = (terms.clone(), state.clone());
                match round {
                    0 => state.truncate(rng.below(STATE_WORDS)),
                    1..5 => words::damage_terms(&mut rng, &mut terms),
                    5..11 => words::damage_state(&mut rng, &said, &mut state),
                    _ => {}
                }
                let number = refusal(&terms, &state);
                let wanted = raw::check(&terms, &state).err().map(|refusal| refusal.number());
                assert_eq!(number.map(usize::from), wanted, "seed {seed}, round {round}");
                seen[usize::from(number.unwrap_or(0))] += 1;
            }
        }
        assert!([0, 6, 7, 8].iter().all(|&number| seen[number] >= 4_000), "{seen:?}");
    }
}
