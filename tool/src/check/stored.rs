//! S, T and V lines: what only the stored form has.

use super::fault::Fault;
use super::line::{number, Field, FORM};
use super::others::{out_of_range, range};
use super::reader::Reader;
use crate::aloud::listed;
use keeper::terms::MOST_EVENTS;

/// The refusal of a partly filled word.
const PARTLY_FILLED: u16 = 11;
/// The one form that an S line may name.
const FORM_NUMBER: usize = 2;

/// A T line: its table, the member and the others, and where it stands.
pub struct Bit {
    table: usize,
    members: Vec<usize>,
    line: usize,
}

impl Bit {
    /// What T lines rise by.
    fn place(&self) -> (usize, &[usize]) {
        (self.table, &self.members)
    }

    /// `T 0 1 2`.
    fn shown(&self) -> String {
        let members: String = self.members.iter().map(|member| format!(" {member}")).collect();
        format!("T {}{members}", self.table)
    }
}

impl Reader<'_> {
    /// Why a line may not stand here, where that has to do with S, T or V
    /// lines.
    pub fn stored_out_of_order(&self, kind: &str, order: &str) -> Option<(String, String)> {
        let told = |what: &str, right: &str| Some((what.to_string(), right.to_string()));
        let an = if "SMLFE".contains(kind) { "an" } else { "a" };
        match kind {
            "S" if self.lines > 1 => told(
                "an S line that is not the first",
                "S opens the stored form, and no other line",
            ),
            "T" | "V" if !self.stored => {
                let right = "only the stored form has T and V lines; its first line is S 2";
                told(&format!("a {kind} line in a file that does not open with S"), right)
            }
            _ if self.event => {
                let what = format!("{an} {kind} line after the V line");
                told(&what, "V is the last line, and there is one at most")
            }
            "T" | "V" => None,
            _ if !self.bits.is_empty() => told(&format!("{an} {kind} line after a T line"), order),
            _ => None,
        }
    }

    pub fn form(&mut self, field: Field) -> Result<(), Fault> {
        let form = number(field)?;
        if form != FORM_NUMBER {
            let right = format!("the stored form is {FORM_NUMBER}; the old form has no S line");
            return Err(out_of_range(field, format!("no form {form}"), right));
        }
        self.stored = true;
        Ok(())
    }

    /// Whether a field names a table whose entry has two free variables.
    pub fn is_paired(&self, table: &Field) -> bool {
        let past = self.terms.past();
        let entry = number(*table).ok().and_then(|table| past.get(table));
        entry.is_some_and(|&entry| keeper::terms::Bit::is_triple(self.free[entry]))
    }

    /// A T line with as many members as its table takes.
    pub fn bit(&mut self, t: Field, others: &[Field]) -> Result<(), Fault> {
        let table = number(t)?;
        let members = others.iter().map(|field| number(*field)).collect::<Result<Vec<_>, _>>()?;
        let bit = Bit { table, members, line: self.lines };
        if let Some(last) = self.bits.last().filter(|last| last.place() >= bit.place()) {
            let end = others.last().map_or(t.place().end, |field| field.place().end);
            let what = match last.place() == bit.place() {
                true => format!("{} a second time", bit.shown()),
                false => format!("{} after {}", bit.shown(), last.shown()),
            };
            let right = match bit.members.len() {
                2 => "T lines rise by table, then member, then other; none comes twice",
                _ => "T lines rise by table, then member, then the others; none comes twice",
            };
            return Err(Fault::new(FORM, t.place().start..end, what).right(right));
        }
        let tables = self.terms.past().len();
        if table >= tables {
            let right = format!("{}: one for each prev or since entry", range("tables", tables));
            return Err(out_of_range(t, format!("no table {table}"), right));
        }
        self.are_members(others.iter().copied().zip(bit.members.iter().copied()))?;
        self.bits.push(bit);
        Ok(())
    }

    pub fn event_edge(&mut self, e: Field, a: Field, b: Field) -> Result<(), Fault> {
        let (event, from, to) = (number(e)?, number(a)?, number(b)?);
        let events = self.terms.events;
        if event % MOST_EVENTS >= events || event >= 2 * MOST_EVENTS {
            let denied = match events {
                1 => format!("{MOST_EVENTS} where it was denied"),
                _ => format!("{MOST_EVENTS} to {} where denied", MOST_EVENTS + events - 1),
            };
            let right = format!("{}, or {denied}", range("events", events));
            return Err(out_of_range(e, format!("no event {event}"), right));
        }
        self.are_members([(a, from), (b, to)])?;
        self.event = true;
        Ok(())
    }

    /// The first word of a table without a free variable that is not full.
    pub fn partly_filled(&self) -> Option<Fault> {
        let (past, members) = (self.terms.past(), self.terms.members);
        let row = |bit: &Bit| (bit.table, bit.members[0]);
        let mut words = self.bits.chunk_by(|one, next| row(one) == row(next));
        let word =
            words.find(|word| self.free[past[word[0].table]] == 0 && word.len() < members)?;
        let (table, member) = row(&word[0]);
        let line = word[0].line;
        let there = |other: &usize| word.iter().any(|bit| bit.members[1] == *other);
        let missing = (0..members).filter(|other| !there(other));
        let missing: Vec<String> =
            missing.map(|other| format!("T {table} {member} {other}")).collect();
        let what = format!(
            "table {table} has {} of {members} T lines for member {member}, but its entry, {}, has no free variable: there are all of them or none",
            word.len(),
            past[table]
        );
        let right = match &missing[..] {
            [one] => format!("{one} is missing"),
            few if few.len() <= 4 => format!("{} are missing", listed(few)),
            many => format!("{} are missing, {} the first", many.len(), many[0]),
        };
        Some(Fault { line, ..Fault::new(PARTLY_FILLED, 0..usize::MAX, what).right(right) })
    }
}
