//! definitions.tsv: the definitions of stored terms, so that they are told by name.

use crate::names::{Called, Names};
use keeper::terms::{Terms, VARIABLES};

/// The definitions that lie beside stored terms.
pub const DEFINITIONS: &str = "definitions.tsv";

/// What stands for the member at which a definition is said.
const HERE: &str = "here";

/// The text of definitions.tsv: a line that tells the terms, and one for each definition,
/// with its entry, its name and its people; none if there are no definitions.
pub fn write(terms: &Terms, names: &Names) -> Option<String> {
    let person = |person: &Option<usize>| person.map_or(HERE.to_string(), |x| x.to_string());
    let line = |entry: usize| {
        let called = names.defined(entry)?;
        let people: Vec<String> = called.people.iter().map(person).collect();
        Some(format!("{entry}\t{}\t{}\n", called.name, people.join(" ")))
    };
    let lines: String = (0..terms.entries.len()).filter_map(line).collect();
    (!lines.is_empty()).then(|| format!("{}\n{lines}", mark(terms)))
}

/// Adds the definitions of a text to the names of some terms. If it is about other terms,
/// or not what was written, all are left out.
pub fn read(text: &str, terms: &Terms, names: &mut Names) {
    let mut lines = text.lines();
    if lines.next() != Some(mark(terms).as_str()) {
        return;
    }
    let Some(found) = lines.map(|line| one(line, terms)).collect::<Option<Vec<_>>>() else {
        return;
    };
    for (entry, called) in found {
        names.define(entry, called);
    }
    names.settle(terms);
}

fn one(line: &str, terms: &Terms) -> Option<(usize, Called)> {
    let [entry, name, people] = line.split('\t').collect::<Vec<_>>()[..] else { return None };
    let person = |word: &str| match word {
        HERE => Some(None),
        word => word.parse().ok().filter(|x| *x < VARIABLES).map(Some),
    };
    let people: Vec<Option<usize>> = people.split(' ').map(person).collect::<Option<_>>()?;
    let entry = entry.parse().ok().filter(|entry| *entry < terms.entries.len())?;
    (!name.is_empty()).then(|| (entry, Called::new(name.to_string(), people)))
}

/// What tells formulas from others: FNV-1a over entries and policies.
fn mark(terms: &Terms) -> String {
    let entries = terms.entries.iter().flat_map(|entry| {
        let (operator, parts) = entry.parts();
        [operator, parts[0], parts[1], parts[2]]
    });
    let numbers = entries.chain(terms.policies.iter().copied());
    let mix = |hash: u64, number: usize| (hash ^ number as u64).wrapping_mul(0x0100_0000_01b3);
    format!("formulas\t{:016x}", numbers.fold(0xcbf2_9ce4_8422_2325, mix))
}

#[cfg(test)]
mod tests {
    use super::*;
    use crate::source::compile;

    #[test]
    fn written_and_read() {
        let source = "members a, b\nrelation owns\nevent share by anyone\n\
                      event load when me trusts target and me is kept\n\
                      define p trusts q: once q share p\ndefine p is kept: once someone share p\n";
        let compiled = compile(source).unwrap();
        let (terms, names) = (&compiled.terms, &compiled.names);
        let text = write(terms, names).unwrap();
        let with = |text: &str, terms: &Terms| {
            let mut read = Names::read(&names.write()).unwrap();
            super::read(text, terms, &mut read);
            read
        };
        assert_eq!(with(&text, terms), *names);
        let bare = Names::read(&names.write()).unwrap();
        let mut other = terms.clone();
        other.policies.swap(0, 1);
        assert_eq!(with(&text, &other), bare);
        for wrong in ["", "x\n", &format!("{text}999\tnone\there\n"), &format!("{text}1\tnone\n")] {
            assert_eq!(with(wrong, terms), bare, "{wrong}");
        }
    }
}
