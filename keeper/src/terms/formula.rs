//! Which entries are the same formula.

use super::{Entry, Terms};

/// Numbers for formulas, shared by all terms that are numbered with it.
#[derive(Default)]
pub struct Formulas {
    /// The entry of each formula, its operands by the formulas' numbers.
    known: Vec<Entry>,
}

impl Formulas {
    /// The formula of every entry. Two entries, of the same terms or of others,
    /// get the same number exactly if they are the same when they are spelled
    /// out in full: operands in place of entry numbers. Variables, labels,
    /// counts and the order of operands are part of a formula.
    pub fn of(&mut self, terms: &Terms) -> Vec<usize> {
        let mut numbers = Vec::new();
        for entry in &terms.entries {
            let formula = entry.with_operands(|operand| numbers[operand]);
            numbers.push(self.number(formula));
        }
        numbers
    }

    fn number(&mut self, formula: Entry) -> usize {
        self.known.iter().position(|known| *known == formula).unwrap_or_else(|| {
            self.known.push(formula);
            self.known.len() - 1
        })
    }
}

/// For each entry of the new terms the first old entry that is the same formula.
pub fn first_same(old: &Terms, new: &Terms) -> Vec<Option<usize>> {
    let mut formulas = Formulas::default();
    let old = formulas.of(old);
    let first = |formula| old.iter().position(|&other| other == formula);
    formulas.of(new).into_iter().map(first).collect()
}
