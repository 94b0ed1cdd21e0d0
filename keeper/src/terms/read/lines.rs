//! The tests of each line, in the order of their numbers, and what it says.

use super::{fields, number};
use crate::terms::*;

/// A fault's number, or nothing wrong.
pub type Checked<T> = Result<T, u16>;

fn require(right: bool, number: u16) -> Checked<()> {
    if right {
        Ok(())
    } else {
        Err(number)
    }
}

/// The numbers of the given fields; any ill-formed one is fault 1.
fn numbers<const COUNT: usize>(fields: [&[u8]; COUNT]) -> Checked<[usize; COUNT]> {
    let mut values = [0; COUNT];
    for (value, field) in values.iter_mut().zip(fields) {
        *value = number(field).ok_or(1u16)?;
    }
    Ok(values)
}

/// Which of two words a field is.
fn either(field: &[u8], no: &str, yes: &str) -> Checked<bool> {
    if field == yes.as_bytes() {
        Ok(true)
    } else if field == no.as_bytes() {
        Ok(false)
    } else {
        Err(1)
    }
}

/// What was read so far. A zero count of members or events means that the
/// M or L line has yet to come.
#[derive(Default)]
pub struct Reader {
    lines: usize,
    stored: bool,
    terms: Terms,
    free: Vec<Variables>,
    last_effect: usize,
    bits: Vec<TableLine>,
    event: Option<EventEdge>,
}

/// A T line: what it says, and where it stands.
struct TableLine {
    table: usize,
    bit: Bit,
    line: usize,
}

impl TableLine {
    /// Table and member: its word, where the entry has no free variable.
    fn row(&self) -> (usize, usize) {
        (self.table, self.bit.parts().0)
    }
}

impl Reader {
    pub fn complete(&self) -> bool {
        self.terms.events > 0 && self.terms.policies.len() == self.terms.events
    }

    /// What the lines said, if there is no fault.
    pub fn file(self) -> File {
        let mut tables = vec![BTreeSet::new(); self.terms.past().len()];
        for TableLine { table, bit, .. } in self.bits {
            tables[table].insert(bit);
        }
        let past = Past { tables, event: self.event };
        File { terms: self.terms, past: self.stored.then_some(past) }
    }

    /// The first T line of the first word that has some bits of a table
    /// without a free variable, and not all.
    pub fn partly_filled(&self) -> Option<usize> {
        let past = self.terms.past();
        let mut words = self.bits.chunk_by(|one, next| one.row() == next.row());
        let partly = |word: &&[TableLine]| {
            self.free[past[word[0].table]] == 0 && word.len() < self.terms.members
        };
        words.find(partly).map(|word| word[0].line)
    }

    pub fn line(&mut self, line: &[u8]) -> Checked<()> {
        self.lines += 1;
        let head = self.terms.members > 0 && self.terms.events > 0;
        let complete = self.complete();
        let old = self.bits.is_empty() && self.event.is_none();
        match &fields(line)[..] {
            [b"S", form] if self.lines == 1 => self.form(form),
            [b"M", n] if self.terms.members == 0 => self.members(n),
            [b"L", r, e] if self.terms.members > 0 && self.terms.events == 0 => self.labels(r, e),
            [b"F", index, word, fields @ ..] if head && self.terms.policies.is_empty() => {
                self.entry(index, word, fields)
            }
            [b"P", event, entry] if head && !complete => self.policy(event, entry),
            [b"K", event] if complete && old && self.unchanged() => self.kept(event),
            [b"E", event, action, relation, direction]
                if complete && old && self.terms.edges.is_empty() =>
            {
                self.effect(event, action, relation, direction)
            }
            [b"G", relation, from, to] if complete && old => self.edge(relation, from, to),
            [b"T", t, members @ ..] if complete && self.stored && self.event.is_none() => {
                self.bit(t, members)
            }
            [b"V", event, from, to] if complete && self.stored && self.event.is_none() => {
                self.event_edge(event, from, to)
            }
            _ => Err(1),
        }
    }

    fn form(&mut self, form: &[u8]) -> Checked<()> {
        let [form] = numbers([form])?;
        require(form == 2, 2)?;
        self.stored = true;
        Ok(())
    }

    fn members(&mut self, n: &[u8]) -> Checked<()> {
        let [n] = numbers([n])?;
        require((1..=MOST_MEMBERS).contains(&n), 2)?;
        self.terms.members = n;
        Ok(())
    }

    fn labels(&mut self, r: &[u8], e: &[u8]) -> Checked<()> {
        let [r, e] = numbers([r, e])?;
        require(r <= MOST_RELATIONS, 2)?;
        require((1..=MOST_EVENTS).contains(&e), 2)?;
        self.terms.relations = r;
        self.terms.events = e;
        self.terms.effects = vec![Vec::new(); e];
        Ok(())
    }

    fn entry(&mut self, index: &[u8], word: &[u8], fields: &[&[u8]]) -> Checked<()> {
        let number = OPERATORS.iter().position(|operator| operator.word.as_bytes() == word);
        let number = number.ok_or(1u16)?;
        let operator = OPERATORS[number];
        let values = match fields {
            [a, b] if !operator.is_long() => numbers([a, b, b"0"])?,
            [a, b, c] if operator.is_long() => numbers([a, b, c])?,
            _ => return Err(1),
        };
        let [index] = numbers([index])?;
        require(index == self.terms.entries.len(), 1)?;

        let entry = Entry::of_parts(number, values).ok_or(1u16)?;
        require(index < MOST_ENTRIES, 2)?;
        require(!entry.is_past() || self.terms.past().len() < MOST_PAST, 2)?;
        let mut each = operator.fields.into_iter().zip(values);
        require(each.all(|(field, value)| self.in_range(field, value)), 2)?;
        require(entry.operands().iter().all(|&operand| operand < index), 3)?;

        let free = entry.free(&self.free);
        require(!entry.is_past() || free.count_ones() <= most_free(self.terms.members), 4)?;
        require(self.reaches(entry), 10)?;
        self.terms.entries.push(entry);
        self.free.push(free);
        Ok(())
    }

    /// Whether a reach binds a variable other than 0, which alone may be free
    /// in its first formula and must not be free in its second.
    fn reaches(&self, entry: Entry) -> bool {
        match entry {
            Entry::Reach(x, f, g) => {
                let alone: Variables = 1 << x;
                x != 0 && self.free[f] & !alone == 0 && self.free[g] & alone == 0
            }
            _ => true,
        }
    }

    /// Whether a field is in its range. Operands are looked at apart.
    fn in_range(&self, field: Field, value: usize) -> bool {
        match field {
            Field::Unused => value == 0,
            Field::Variable => value < VARIABLES,
            Field::BoundVariable => (1..VARIABLES).contains(&value),
            Field::Label => value < self.terms.labels(),
            Field::Entry => true,
            Field::Count => (1..=MOST_COUNTED).contains(&value),
        }
    }

    fn policy(&mut self, event: &[u8], entry: &[u8]) -> Checked<()> {
        let [event, entry] = numbers([event, entry])?;
        require(event == self.terms.policies.len(), 1)?;
        require(entry < self.terms.entries.len(), 2)?;
        require(self.free[entry] & !1 == 0, 5)?;
        self.terms.policies.push(entry);
        Ok(())
    }

    /// Whether no effect and no edge has come yet.
    fn unchanged(&self) -> bool {
        self.terms.effects.iter().all(Vec::is_empty) && self.terms.edges.is_empty()
    }

    fn kept(&mut self, event: &[u8]) -> Checked<()> {
        let [event] = numbers([event])?;
        require(self.terms.kept.last().is_none_or(|last| *last < event), 1)?;
        require(event < self.terms.events, 2)?;
        self.terms.kept.insert(event);
        Ok(())
    }

    fn effect(
        &mut self,
        event: &[u8],
        action: &[u8],
        relation: &[u8],
        direction: &[u8],
    ) -> Checked<()> {
        let [event, relation] = numbers([event, relation])?;
        let add = either(action, "del", "add")?;
        let back = either(direction, "fwd", "back")?;
        require(event >= self.last_effect, 1)?;
        require(event < self.terms.events, 2)?;
        require(relation < self.terms.relations, 2)?;
        require(self.terms.effects[event].len() < MOST_EFFECTS, 2)?;
        self.last_effect = event;
        self.terms.effects[event].push(Effect { add, relation, back });
        Ok(())
    }

    fn edge(&mut self, relation: &[u8], from: &[u8], to: &[u8]) -> Checked<()> {
        let [relation, from, to] = numbers([relation, from, to])?;
        let edge = (relation, from, to);
        require(self.terms.edges.last().is_none_or(|last| *last < edge), 1)?;
        require(relation < self.terms.relations, 2)?;
        require(from < self.terms.members && to < self.terms.members, 2)?;
        self.terms.edges.insert(edge);
        Ok(())
    }

    /// A table of an entry with two free variables has lines with a member more;
    /// any other, one that does not exist too, has none such.
    fn bit(&mut self, t: &[u8], members: &[&[u8]]) -> Checked<()> {
        let [t] = numbers([t])?;
        let past = self.terms.past();
        let is_triple = past.get(t).is_some_and(|&entry| Bit::is_triple(self.free[entry]));
        let bit = match members {
            [a, b] if !is_triple => numbers([a, b]).map(|[a, b]| Bit::Pair(a, b))?,
            [a, b, c] if is_triple => numbers([a, b, c]).map(|[a, b, c]| Bit::Triple(a, b, c))?,
            _ => return Err(1),
        };
        let risen = |last: &TableLine| (last.table, last.bit) < (t, bit);
        require(self.bits.last().is_none_or(risen), 1)?;
        require(t < past.len(), 2)?;
        require(bit.members().iter().all(|&member| member < self.terms.members), 2)?;
        self.bits.push(TableLine { table: t, bit, line: self.lines });
        Ok(())
    }

    fn event_edge(&mut self, event: &[u8], from: &[u8], to: &[u8]) -> Checked<()> {
        let [event, from, to] = numbers([event, from, to])?;
        self.event = EventEdge::of_number(&self.terms, event, from, to);
        require(self.event.is_some(), 2)
    }
}
