//! Terms with entries put in, taken out or moved about.

use super::{Entry, Terms};

impl Terms {
    /// Puts entries in before a place; what stood there moves on.
    pub fn put_in(&mut self, place: usize, entries: &[Entry]) {
        let count = entries.len();
        self.rename(|entry| if entry >= place { entry + count } else { entry });
        self.entries.splice(place..place, entries.iter().copied());
    }

    /// Takes an entry out. Who named it names its first operand instead, or
    /// entry 0.
    pub fn take_out(&mut self, gone: usize) {
        let instead = self.entries[gone].operands().first().copied().unwrap_or(0);
        self.entries.remove(gone);
        self.rename(|entry| match entry {
            entry if entry == gone => instead,
            entry if entry > gone => entry - 1,
            entry => entry,
        });
    }

    /// Puts all entries into another order: the first is the one that the order
    /// names first.
    pub fn reorder(&mut self, order: &[usize]) {
        let place = |entry| order.iter().position(|&other| other == entry).unwrap_or(entry);
        self.rename(place);
        self.entries = order.iter().map(|&entry| self.entries[entry]).collect();
    }

    /// Renames the entries that entries and policies name.
    fn rename(&mut self, rename: impl Fn(usize) -> usize) {
        for entry in &mut self.entries {
            *entry = entry.with_operands(&rename);
        }
        for policy in &mut self.policies {
            *policy = rename(*policy);
        }
    }
}
