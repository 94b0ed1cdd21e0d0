//! F lines.

use super::advice::no_word;
use super::fault::Fault;
use super::line::{number, Field as Part, FORM};
use super::others::{out_of_range, range};
use super::reader::Reader;
use crate::aloud::listed;
use crate::names::{Kind, Names};
use keeper::terms::{
    most_free, variables, Entry, Field, Variables, MOST_COUNTED, MOST_ENTRIES, MOST_PAIRED,
    MOST_PAST, OPERATORS, VARIABLES,
};

/// The refusal of an operand that isn't below its entry.
const OPERAND: u16 = 3;
/// The refusal of a past-time entry with too many free variables.
const PAST_VARIABLES: u16 = 4;
/// The refusal of a reach whose variables don't fit.
const REACH_VARIABLES: u16 = 10;

impl Reader<'_> {
    /// An F line with two operands, or with three where its word takes them.
    pub fn entry(&mut self, i: Part, word: Part, operands: &[Part]) -> Result<(), Fault> {
        let due = self.terms.entries.len();
        let known = OPERATORS.iter().position(|known| known.word.as_bytes() == word.bytes);
        let operator = known.ok_or_else(|| no_word(word, [operands[0], operands[1]], due))?;
        let index = number(i)?;
        let mut values = [0; 3];
        for (value, field) in values.iter_mut().zip(operands) {
            *value = number(*field)?;
        }
        let entry = Entry::of_parts(operator, values).unwrap_or(Entry::Top);
        if index != due {
            return Err(other_entry_due(i, index, due));
        }
        if index >= MOST_ENTRIES {
            let right = format!("at most {MOST_ENTRIES} entries, 0 to {}", MOST_ENTRIES - 1);
            return Err(out_of_range(i, format!("entry {index} is too many"), right));
        }
        if entry.is_past() && self.terms.past().len() >= MOST_PAST {
            let what = format!("a {}rd prev or since", MOST_PAST + 1);
            return Err(out_of_range(word, what, format!("at most {MOST_PAST} of them")));
        }
        let (name, kinds) = (OPERATORS[operator].word, OPERATORS[operator].fields);
        let parts = || kinds.into_iter().zip(values).zip(operands);
        for ((kind, value), field) in parts() {
            self.in_range(name, kind, value, *field)?;
        }
        for ((kind, value), field) in parts() {
            if kind == Field::Entry && value >= index {
                let what = format!("operand {value} is not below entry {index}");
                let right = "a formula's parts come before it: entries name lower ones only";
                return Err(Fault::new(OPERAND, field.place(), what).right(right));
            }
        }
        let free = entry.free(&self.free);
        if entry.is_past() && free.count_ones() > most_free(self.terms.members) {
            return Err(self.too_free(name, entry, free, word));
        }
        if let Entry::Reach(x, f, g) = entry {
            self.reach(x, f, g, operands)?;
        }
        self.terms.entries.push(entry);
        self.free.push(free);
        Ok(())
    }

    /// What a reach asks of its variable and of the variables free below it.
    fn reach(&self, x: usize, f: usize, g: usize, operands: &[Part]) -> Result<(), Fault> {
        let others = self.free[f] & !(1 << x);
        let (field, what, right) = if x == 0 {
            let right =
                format!("variable 0 is always the target; reach along 1 to {}", VARIABLES - 1);
            (operands[0], "variable 0 in a reach".to_string(), right)
        } else if others != 0 {
            let what = format!("entry {f} has {} free; here it may have {x} alone", shown(others));
            let right = "the step is between the member it starts from and whom it leads to; \
                         what concerns others belongs to the third operand, or is bound inside";
            (operands[1], what, right.to_string())
        } else if self.free[g] >> x & 1 == 1 {
            let what =
                format!("entry {g} has {x} free, and is said of the member that was reached");
            let right = format!("put `bind {x}` above entry {g} to call that member {x}");
            (operands[2], what, right)
        } else {
            return Ok(());
        };
        Err(Fault::new(REACH_VARIABLES, field.place(), what).right(right))
    }

    fn in_range(&self, name: &str, kind: Field, value: usize, field: Part) -> Result<(), Fault> {
        let (relations, events) = (self.terms.relations, self.terms.events);
        let last = VARIABLES - 1;
        let (what, right) = match kind {
            Field::Unused if value > 0 => {
                (format!("{value} in a field that `{name}` has no use for"), "write 0".to_string())
            }
            Field::Variable | Field::BoundVariable if value > last => {
                (format!("no variable {value}"), format!("variables are 0 to {last}"))
            }
            Field::BoundVariable if value == 0 => (
                "variable 0 bound".to_string(),
                format!("variable 0 is always the target; bind 1 to {last}"),
            ),
            Field::Label if value >= self.terms.labels() => {
                (format!("no label {value}"), labels(relations, events, self.names))
            }
            Field::Count if value == 0 => (
                "at least 0 are asked for, which is always so".to_string(),
                format!("1 to {MOST_COUNTED} can be asked for; `top` is always so"),
            ),
            Field::Count if value > MOST_COUNTED => (
                format!("at least {value} are asked for"),
                format!("1 to {MOST_COUNTED} can be; there are no more members than that"),
            ),
            _ => return Ok(()),
        };
        Err(out_of_range(field, what, right))
    }

    fn too_free(&self, name: &str, entry: Entry, free: Variables, word: Part) -> Fault {
        let members = self.terms.members;
        let may = match most_free(self.terms.members) {
            1 if free.count_ones() == 2 => format!(
                "one free variable where there are {members} members, and two where there are at most {MOST_PAIRED}"
            ),
            1 => "one free variable".to_string(),
            _ => "two free variables".to_string(),
        };
        let what = format!("free here: {}; a {name} may have {may}", shown(free));
        let mut parts: Vec<String> = Vec::new();
        for f in entry.operands() {
            if self.free[f] != 0 {
                parts.push(format!("entry {f} has {} free", shown(self.free[f])));
            }
        }
        let right = format!(
            "{}; bind one of them below this entry, or walk to one with `at` above it and name that one with `bind` there",
            parts.join(", ")
        );
        Fault::new(PAST_VARIABLES, word.place(), what).right(right)
    }
}

fn other_entry_due(field: Part, index: usize, due: usize) -> Fault {
    let what = format!("entry {index} where {due} was due");
    let right = match index < due {
        true => format!("entry {index} stands above; entries count 0, 1, 2 and so on"),
        false => {
            let missing = match index - due {
                1 => format!("entry {due} is missing"),
                _ => format!("entries {due} to {} are missing", index - 1),
            };
            format!(
                "{missing}; entries count 0, 1, 2 and so on, and operands go with their numbers"
            )
        }
    };
    Fault::new(FORM, field.place(), what).right(right)
}

/// `0 and 1`.
fn shown(set: Variables) -> String {
    listed(&variables(set).map(|x| x.to_string()).collect::<Vec<_>>())
}

/// `labels are 0 to 6: 0 for the relation, 1 to 3 for the events, 4 to 6 for
/// the events denied`; with names, `labels are 0 own, 1 share, 2 withdraw and 3
/// load, and 4 to 6 for these events denied`.
pub fn labels(relations: usize, events: usize, names: &Names) -> String {
    let named = (0..relations).map(|relation| names.given(Kind::Relation, relation));
    let named = named.chain((0..events).map(|event| names.given(Kind::Event, event)));
    let named = named.enumerate().map(|(label, name)| Some(format!("{label} {}", name?)));
    if let Some(named) = named.collect::<Option<Vec<String>>>() {
        let first = relations + events;
        let denied = match events {
            1 => format!("{first} for this event denied"),
            _ => format!("{first} to {} for these events denied", first + events - 1),
        };
        return format!("labels are {}, and {denied}", listed(&named));
    }
    let run = |thing: &str, first: usize, count: usize| match count {
        1 => format!("{first} for the {thing}"),
        count => format!("{first} to {} for the {thing}s", first + count - 1),
    };
    let all = range("labels", relations + 2 * events);
    let events = format!(
        "{}, {} denied",
        run("event", relations, events),
        run("event", relations + events, events)
    );
    match relations {
        0 => format!("{all}: {events}; there are no relations"),
        _ => format!("{all}: {}, {events}", run("relation", 0, relations)),
    }
}
