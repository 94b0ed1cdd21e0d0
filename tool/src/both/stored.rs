//! A stored text held against the keeper's record.
//!
//! The keeper works every bit of a table out from the whole record, so that a
//! whole state takes members³ × moments × entries steps, seconds for 64 members, and
//! members⁴ where an entry has two free variables.
//! Where that is too much, relations, event and terms are compared whole, and of
//! each table some bits that are spread over it.

use keeper::record::meaning::Assigned;
use keeper::record::Record;
use keeper::terms::{self, Bit, Past};

/// So many steps take about a second.
const AFFORDABLE: usize = 5_000_000;
/// So many bits of each table are compared where not all are.
const SPREAD: usize = 48;

/// Whether the text stores what the record says.
pub fn agrees(text: &[u8], record: &Record) -> bool {
    let terms = record.terms();
    let bits = terms.members.pow(if terms.paired().is_empty() { 2 } else { 3 });
    let work = terms.members * bits * record.graphs().len() * terms.entries.len();
    if work <= AFFORDABLE {
        return text == terms::store(terms, &record.state());
    }
    let Ok(file) = terms::read(text) else { return false };
    let Some(past) = file.past else { return false };
    let mut present = terms.clone();
    present.edges.clone_from(&record.last().edges);
    file.terms == present && past.event == record.last().event && spread(&past, record)
}

/// Whether bits that are spread over the tables are those of the record.
fn spread(past: &Past, record: &Record) -> bool {
    let (terms, now) = (record.terms(), record.graphs().len() - 1);
    let free = terms.free();
    terms.past().into_iter().zip(&past.tables).all(|(entry, table)| {
        let bits = Bit::all(terms.members, free[entry]);
        // Odd and not near a multiple of the members, so that all of them vary.
        let stride = (bits.len() / SPREAD).max(1) | 1;
        bits.into_iter().step_by(stride).all(|bit| {
            let (member, assigned) = Assigned::by(free[entry], bit);
            record.holds(entry, now, member, assigned) == table.contains(&bit)
        })
    })
}
