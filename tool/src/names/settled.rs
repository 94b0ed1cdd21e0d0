//! Which variables of a definition stand for the member that it is said of.

use super::Names;
use keeper::terms::{Entry, Terms, Variables, VARIABLES};

impl Names {
    /// Settles of whom the definitions of some terms are said. Where it makes no difference
    /// at whom an entry is read, the person is a variable; else the variables that stand
    /// for the member wherever the entry is used are noted.
    pub fn settle(&mut self, terms: &Terms) {
        let (free, used, reads) = (terms.free(), uses(terms), reads_member(terms));
        for (&entry, called) in &mut self.defined {
            let named = called.people.iter().flatten().fold(0, |named, x| named | 1 << x);
            let left = free[entry] & !named;
            match reads[entry] {
                true => called.here = used[entry].always & left,
                false => {
                    // The target comes last: a definition may speak of it unasked.
                    let stands = |x: &usize| used[entry].ever & left & (1 << x) != 0;
                    let variable = (1..VARIABLES).chain([0]).find(stands);
                    for person in called.people.iter_mut().filter(|person| person.is_none()) {
                        *person = variable;
                    }
                }
            }
        }
    }
}

/// The variables that stand for the member at whom an entry is read.
#[derive(Clone, Copy)]
struct Used {
    /// Wherever it is used.
    always: Variables,
    /// Somewhere.
    ever: Variables,
}

/// For each entry of the policies; operands come before the entries that they are in.
fn uses(terms: &Terms) -> Vec<Used> {
    let mut uses = vec![Used { always: Variables::MAX, ever: 0 }; terms.entries.len()];
    let mut is_used = vec![false; terms.entries.len()];
    for &policy in &terms.policies {
        uses[policy] = Used { always: 0, ever: 0 };
        is_used[policy] = true;
    }
    for place in (0..terms.entries.len()).rev() {
        if !is_used[place] {
            continue;
        }
        let (entry, here) = (terms.entries[place], uses[place]);
        let there = match entry {
            Entry::Bind(x, _) => Used { always: here.always | 1 << x, ever: here.ever | 1 << x },
            Entry::At(x, _) => Used { always: 1 << x, ever: 1 << x },
            Entry::Out(..) | Entry::In(..) | Entry::Many(..) | Entry::Reach(..) => {
                Used { always: 0, ever: 0 }
            }
            _ => here,
        };
        for operand in entry.operands() {
            is_used[operand] = true;
            uses[operand].always &= there.always;
            uses[operand].ever |= there.ever;
        }
    }
    uses
}

/// For each entry whether what it says may differ by the member at whom it is read.
fn reads_member(terms: &Terms) -> Vec<bool> {
    let free = terms.free();
    let mut reads: Vec<bool> = Vec::new();
    for entry in &terms.entries {
        reads.push(match *entry {
            Entry::Top | Entry::At(..) => false,
            Entry::Bind(x, f) => reads[f] || free[f] >> x & 1 == 1,
            Entry::Not(f) | Entry::Prev(f) => reads[f],
            Entry::Or(f, g) | Entry::Since(f, g) => reads[f] || reads[g],
            _ => true,
        });
    }
    reads
}
