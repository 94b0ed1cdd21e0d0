//! The stack that calls take, told from the terms.

use crate::{Entry, Terms};
use alloc::vec;
use alloc::vec::Vec;

/// Of what every call takes, for each level by which entries nest, and for a memo. They are above
/// what was measured: of the archive, or of the C file without optimisation.
const CALL: usize = 40 << 10;
const LEVEL: usize = if cfg!(from_c) { 3584 } else { 1024 };
const MEMO: usize = 272 << 10;
/// More than any call was measured to take.
const MOST: usize = if cfg!(from_c) { 1280 << 10 } else { 512 << 10 };

/// What is decided without a memo: fewer than so many entries, each counted as often as it is used,
/// and once for each member under a bind that is decided for many.
const FEW: usize = 1024;
const BOUND: usize = 64;
/// Fewer entries than these, with one bind at most, need none either.
const SMALL: usize = 10;

pub(crate) fn stack(terms: &Terms) -> usize {
    let entries: Vec<Entry> = terms.entries().collect();
    let memo = if takes_memo(&entries) { MEMO } else { 0 };
    MOST.min(CALL + LEVEL * depth(&entries) + memo)
}

fn depth(entries: &[Entry]) -> usize {
    let mut levels = vec![0; entries.len()];
    for (number, &entry) in entries.iter().enumerate() {
        let lower = operands(entry).into_iter().flatten().map(|operand| levels[operand]).max();
        levels[number] = 1 + lower.unwrap_or(0);
    }
    levels.into_iter().max().unwrap_or(0)
}

fn operands(entry: Entry) -> [Option<usize>; 2] {
    match entry {
        Entry::Top | Entry::Var(_) => [None, None],
        Entry::Not(f) | Entry::Prev(f) | Entry::Bind(_, f) | Entry::At(_, f) => [Some(f), None],
        Entry::Out(_, f) | Entry::In(_, f) | Entry::Many(_, f, _) => [Some(f), None],
        Entry::Or(f, g) | Entry::Since(f, g) | Entry::Reach(_, f, g) => [Some(f), Some(g)],
    }
}

/// Whether some call takes a memo.
fn takes_memo(entries: &[Entry]) -> bool {
    let binds = entries.iter().filter(|entry| matches!(entry, Entry::Bind(..))).count();
    if entries.len() < SMALL && binds < 2 {
        return false;
    }
    let past = entries.iter().filter(|entry| entry.is_past());
    let moved = past.flat_map(|&entry| operands(entry).into_iter().flatten());
    moved.fold(FEW, |left, operand| left_after(entries, operand, true, left)) == 0
        || (0..entries.len()).any(|entry| left_after(entries, entry, false, FEW) == 0)
}

/// What is left of so many when an entry is decided without a memo, for one member or for many; 0
/// where it takes more.
fn left_after(entries: &[Entry], entry: usize, many: bool, mut left: usize) -> usize {
    // An entry, whether under a bind that is decided for many members, and whether it is itself.
    let mut waiting = vec![(entry, false, many)];
    while let Some((number, bound, many)) = waiting.pop() {
        let entry = entries[number];
        if entry.is_past() || matches!(entry, Entry::Top | Entry::Var(_)) {
            continue;
        }
        let cost = if bound { BOUND } else { 1 };
        if left <= cost || (matches!(entry, Entry::Bind(..)) && bound && many) {
            return 0;
        }
        left -= cost;
        match entry {
            Entry::Not(f) => waiting.push((f, bound, many)),
            Entry::Or(f, g) => waiting.extend([(f, bound, many), (g, bound, many)]),
            Entry::Reach(_, f, g) => waiting.extend([(f, bound, many), (g, bound, true)]),
            Entry::Bind(_, f) => waiting.push((f, bound || many, false)),
            _ => waiting.extend(operands(entry).into_iter().flatten().map(|f| (f, bound, true))),
        }
    }
    left
}
