//! From where on the entries about the past are judged.

use keeper::record::{Record, Start};

/// From where on an entry is judged.
#[derive(Clone, Copy, Debug, PartialEq, Eq)]
pub enum Begin {
    /// From moment 0, the first of all.
    First,
    /// From before moment 0, at which a stored file says what is so.
    Stored,
    /// From this moment, at which the terms were revised.
    Revised(usize),
}

impl Begin {
    /// The first moment of the record that counts.
    pub fn moment(self) -> usize {
        match self {
            Begin::First | Begin::Stored => 0,
            Begin::Revised(moment) => moment,
        }
    }
}

/// Where each entry begins; those that are not about the past, with the first.
pub fn begins(record: &Record) -> Vec<Begin> {
    let (terms, is_loaded) = (record.terms(), record.before().is_some());
    let mut begins = vec![Begin::First; terms.entries.len()];
    for (entry, start) in terms.past().into_iter().zip(record.starts()) {
        begins[entry] = match start {
            Start::Unknown(_) => Begin::Stored,
            Start::Moment(0) if !is_loaded => Begin::First,
            Start::Moment(moment) => Begin::Revised(*moment),
        };
    }
    begins
}

/// For each entry the last revision at which it, or something inside it, began.
pub fn revised(record: &Record, begins: &[Begin]) -> Vec<Option<usize>> {
    let mut revised: Vec<Option<usize>> = Vec::new();
    for (entry, begin) in record.terms().entries.iter().zip(begins) {
        let own = match begin {
            Begin::Revised(moment) => Some(*moment),
            Begin::First | Begin::Stored => None,
        };
        let inside = entry.operands().into_iter().map(|part| revised[part]);
        revised.push(inside.fold(own, Option::max));
    }
    revised
}
