//! The names of members, relations and events.

mod asked;
mod fit;
mod kind;
mod kinds;
mod near;
mod renumbered;
mod settled;
mod spoken;

pub use kind::{Kind, Labelled};
pub use near::{did_you_mean, nearest};
pub use spoken::{Called, Spoken};

use keeper::terms::{Entry, Terms};
use std::collections::BTreeMap;

/// The names of a folder. What has no name is called by its kind and number:
/// `member 3`.
#[derive(Clone, Debug, Default, PartialEq, Eq)]
pub struct Names {
    names: BTreeMap<(Kind, usize), String>,
    /// The entries that are a definition of the source.
    defined: BTreeMap<usize, Called>,
    /// How events are said, where that was told.
    spoken: BTreeMap<usize, Spoken>,
    /// Members by kind, where a source has kinds.
    kinds: Vec<(String, Vec<usize>)>,
}

impl Names {
    /// Reads names.tsv: lines of kind, number and name, separated by tabs; of a member
    /// also which kind of members it is one of, and of an event how it is said, two
    /// fields. Blank lines are skipped. An error says which line is wrong and why.
    pub fn read(text: &str) -> Result<Names, String> {
        let mut names = Names::default();
        for (index, line) in text.lines().enumerate() {
            if line.is_empty() {
                continue;
            }
            let wrong = |why: String| format!("names.tsv line {}: {why}", index + 1);
            let fields: Vec<&str> = line.split('\t').collect();
            let (kind, number, name, rest) = match fields[..] {
                [kind, number, name, ref rest @ ..] if rest.is_empty() => {
                    (kind, number, name, rest)
                }
                ["member", number, name, ref rest @ ..] if rest.len() == 1 => {
                    ("member", number, name, rest)
                }
                ["event", number, name, ref rest @ ..] if rest.len() == 2 => {
                    ("event", number, name, rest)
                }
                _ => return Err(wrong("kind, number and name are due, separated by tabs".into())),
            };
            let kind =
                Kind::ALL.into_iter().find(|known| known.word() == kind).ok_or_else(|| {
                    let hint = did_you_mean(kind, Kind::ALL.map(Kind::word));
                    wrong(format!("no kind `{kind}`; kinds are member, relation and event{hint}"))
                })?;
            let number = number
                .parse()
                .map_err(|_| wrong(format!("`{number}` is no number of a {kind}")))?;
            names.set(kind, number, name).map_err(wrong)?;
            match *rest {
                [group] if group.trim().is_empty() => {
                    return Err(wrong(format!("the kind of {name} has an empty name")));
                }
                [group] => names.group(group, vec![number]),
                [may, has] => names.say(number, Spoken { may: may.into(), has: has.into() }),
                _ => {}
            }
        }
        Ok(names)
    }

    /// Gives a name; refused where the number or the name is taken.
    pub fn set(&mut self, kind: Kind, number: usize, name: &str) -> Result<(), String> {
        if name.trim().is_empty() {
            return Err(format!("{kind} {number} has an empty name"));
        }
        if let Some(other) = self.find(kind, name) {
            return Err(format!("{kind} {other} is called {name} already"));
        }
        if let Some(other) = self.names.insert((kind, number), name.to_string()) {
            return Err(format!("{kind} {number} is called {other} already"));
        }
        Ok(())
    }

    /// Calls an entry by the definition that it is.
    pub fn define(&mut self, entry: usize, called: Called) {
        self.defined.insert(entry, called);
    }

    /// The same names without the kinds of members.
    pub fn ungrouped(&self) -> Names {
        Names { kinds: Vec::new(), ..self.clone() }
    }

    /// Adds members to a kind.
    pub fn group(&mut self, kind: &str, members: Vec<usize>) {
        match self.kinds.iter_mut().find(|(known, _)| known == kind) {
            Some((_, known)) => known.extend(members),
            None => self.kinds.push((kind.to_string(), members)),
        }
    }

    /// The kinds of members, with the members of each, in the order of declaration.
    pub fn kinds(&self) -> &[(String, Vec<usize>)] {
        &self.kinds
    }

    /// The members that a word means: those of a kind, or one.
    pub fn members(&self, word: &str, count: usize) -> Result<Vec<usize>, String> {
        match self.kinds.iter().find(|(kind, _)| kind == word) {
            Some((_, members)) => Ok(members.clone()),
            None => Ok(vec![self.lookup(Kind::Member, word, count).map_err(|said| {
                let kinds: Vec<&str> = self.kinds.iter().map(|(kind, _)| kind.as_str()).collect();
                match (kinds.is_empty(), did_you_mean(word, kinds.iter().copied())) {
                    (true, _) => said,
                    (false, hint) if hint.is_empty() => {
                        let sign = if said.ends_with('?') { " Kinds" } else { "; kinds" };
                        format!("{said}{sign}: {}", kinds.join(", "))
                    }
                    (false, hint) => format!("no member or kind `{word}`{hint}"),
                }
            })?]),
        }
    }

    /// Tells how an event is said.
    pub fn say(&mut self, event: usize, spoken: Spoken) {
        self.spoken.insert(event, spoken);
    }

    /// How an event is said, where that was told.
    pub fn spoken(&self, event: usize) -> Option<&Spoken> {
        self.spoken.get(&event)
    }

    /// Whether an entry says elsewhere what a definition says: then that one is told.
    pub fn passes_on(&self, entry: usize, terms: &Terms) -> bool {
        let (Entry::At(_, f) | Entry::Bind(_, f)) = terms.entries[entry] else { return false };
        let name = |entry: usize| self.defined(entry).map(|called| &called.name);
        name(f).is_some() && name(f) == name(entry)
    }

    /// The definition that an entry is.
    pub fn defined(&self, entry: usize) -> Option<&Called> {
        self.defined.get(&entry)
    }

    /// Whether a definition has this name.
    pub fn is_definition(&self, name: &str) -> bool {
        self.defined.values().any(|called| called.name == name)
    }

    /// The text of names.tsv.
    pub fn write(&self) -> String {
        let rest = |kind: Kind, number: &usize| match (kind, self.spoken(*number)) {
            (Kind::Event, Some(spoken)) => format!("\t{}\t{}", spoken.may, spoken.has),
            (Kind::Member, _) => {
                let group = self.kinds.iter().find(|(_, members)| members.contains(number));
                group.map_or_else(String::new, |(group, _)| format!("\t{group}"))
            }
            _ => String::new(),
        };
        let lines = self.names.iter();
        let line = |((kind, number), name): (&(Kind, usize), &String)| {
            format!("{kind}\t{number}\t{name}{}\n", rest(*kind, number))
        };
        lines.map(line).collect()
    }

    /// The name of a number, or its kind and number.
    pub fn name(&self, kind: Kind, number: usize) -> String {
        self.given(kind, number).map_or_else(|| format!("{kind} {number}"), str::to_string)
    }

    /// The name of a number, if it has one.
    pub fn given(&self, kind: Kind, number: usize) -> Option<&str> {
        self.names.get(&(kind, number)).map(String::as_str)
    }

    pub fn member(&self, number: usize) -> String {
        self.name(Kind::Member, number)
    }

    pub fn relation(&self, number: usize) -> String {
        self.name(Kind::Relation, number)
    }

    pub fn event(&self, number: usize) -> String {
        self.name(Kind::Event, number)
    }

    /// The names of all events.
    pub fn events(&self, terms: &Terms) -> Vec<String> {
        (0..terms.events).map(|event| self.event(event)).collect()
    }

    /// The name of a label: `owns`, `share`, `denied share`.
    pub fn label(&self, terms: &Terms, label: usize) -> String {
        self.labelled(Labelled::of(terms, label))
    }

    /// The name of what a label stands for.
    pub fn labelled(&self, labelled: Labelled) -> String {
        let (kind, number) = labelled.named();
        format!("{}{}", labelled.before(), self.name(kind, number))
    }

    /// The number of a name.
    pub fn find(&self, kind: Kind, name: &str) -> Option<usize> {
        let found = self.names.iter().find(|((of, _), given)| *of == kind && *given == name);
        found.map(|((_, number), _)| *number)
    }

    /// The number below `count` that is meant by a name or by a plain number;
    /// if none, what to tell the user.
    pub fn lookup(&self, kind: Kind, word: &str, count: usize) -> Result<usize, String> {
        if let Some(number) = self.find(kind, word).filter(|&number| number < count) {
            return Ok(number);
        }
        if let Some(number) = word.parse().ok().filter(|&number| number < count) {
            return Ok(number);
        }
        let known: Vec<String> = (0..count).map(|number| self.name(kind, number)).collect();
        let hint = did_you_mean(word, known.iter().map(String::as_str));
        let all = if hint.is_empty() {
            format!("; there are: {}", known.join(", "))
        } else {
            String::new()
        };
        Err(format!("no {kind} `{word}`{hint}{all}"))
    }
}

#[cfg(test)]
mod tests;
