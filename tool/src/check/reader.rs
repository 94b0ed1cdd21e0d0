//! Reads a terms text line by line until something is wrong.

use super::fault::Fault;
use super::line::{counted, fields, form, Field, FORM};
use super::stored::Bit;
use crate::names::{did_you_mean, Names};
use keeper::terms::{Terms, Variables, OPERATORS};

/// The first cause for which a text is refused; none if it is accepted.
pub fn diagnose(text: &[u8], names: &Names) -> Option<Fault> {
    let mut reader = Reader::new(names);
    let mut line = 0;
    for bytes in text.split_inclusive(|&byte| byte == b'\n') {
        line += 1;
        let fault = match bytes.strip_suffix(b"\n") {
            Some(bytes) => reader.line(bytes, line == 1).err(),
            None => Some(unended(bytes)),
        };
        if let Some(fault) = fault {
            return Some(Fault { line, ..fault });
        }
    }
    let fault = reader.ends_too_soon(line == 0);
    let fault = fault.map(|fault| Fault { line: line + 1, ..fault });
    fault.or_else(|| reader.partly_filled())
}

fn unended(line: &[u8]) -> Fault {
    let end = line.len();
    match line.iter().position(|&byte| byte == b'\r') {
        Some(place) if place + 1 < end => {
            Fault::new(FORM, place..place + 1, "the lines end with carriage returns alone")
                .right("let lines end with a line feed")
        }
        _ => Fault::new(FORM, end..end, "the last line has no line feed")
            .right("every line ends with one, the last one too"),
    }
}

/// The terms read so far. A zero count of members or events means that the
/// M or L line has yet to come.
pub struct Reader<'a> {
    /// The names that messages may use.
    pub names: &'a Names,
    pub terms: Terms,
    pub free: Vec<Variables>,
    /// The event of the last E line.
    pub last_effect: usize,
    /// How many lines were read, this one among them.
    pub lines: usize,
    /// The stored form, with its T lines and V line.
    pub stored: bool,
    pub bits: Vec<Bit>,
    pub event: bool,
}

/// The kinds of lines and the names of their fields.
const KINDS: [(&str, &[&str]); 10] = [
    ("M", &["kind M", "count of members"]),
    ("L", &["kind L", "count of relations", "count of events"]),
    ("F", &["kind F", "entry number", "word", "first operand", "second operand"]),
    ("P", &["kind P", "event", "entry"]),
    ("K", &["kind K", "event"]),
    ("E", &["kind E", "event", "action", "relation", "direction"]),
    ("G", &["kind G", "relation", "from", "to"]),
    ("S", &["kind S", "form"]),
    ("T", &["kind T", "table", "member", "other"]),
    ("V", &["kind V", "event", "from", "to"]),
];

/// The fields of an F line whose word takes a third operand.
const LONG_ENTRY: [&str; 6] =
    ["kind F", "entry number", "word", "first operand", "second operand", "third operand"];

/// The fields of a T line whose table's entry has two free variables.
const LONG_BIT: [&str; 5] = ["kind T", "table", "member", "first other", "second other"];

/// Whether a field is the word of an operator that takes a third operand.
fn is_long(word: &Field) -> bool {
    OPERATORS.iter().any(|known| known.is_long() && known.word.as_bytes() == word.bytes)
}

impl<'a> Reader<'a> {
    fn new(names: &'a Names) -> Reader<'a> {
        let (terms, free, bits) = (Terms::default(), Vec::new(), Vec::new());
        let (stored, event) = (false, false);
        Reader { names, terms, free, last_effect: 0, lines: 0, stored, bits, event }
    }

    /// Reads one line, or finds what is wrong with it. What has the lowest
    /// number is looked for first.
    fn line(&mut self, line: &[u8], first: bool) -> Result<(), Fault> {
        self.lines += 1;
        if let Some(fault) = form(line, first) {
            return Err(fault);
        }
        let fields = fields(line);
        let kind = fields[0];
        let known = KINDS.iter().find(|(word, _)| word.as_bytes() == kind.bytes);
        let (word, due) = known.ok_or_else(|| no_kind(kind))?;
        if let Some((what, right)) = self.out_of_order(word) {
            return Err(Fault::new(FORM, kind.place(), what).right(right));
        }
        let due: &[&str] = match *word {
            "F" if fields.get(2).is_some_and(is_long) => &LONG_ENTRY,
            "T" if fields.get(1).is_some_and(|table| self.is_paired(table)) => &LONG_BIT,
            _ => due,
        };
        counted(&fields, due, line.len()).map_err(|fault| {
            let more = match (*word, fields.len(), due.len()) {
                ("F", 6, 5) => "; only reach and many have one more",
                ("T", 5, 4) => "; only a table whose entry has two free variables has one more",
                ("T", 4, 5) => "; the entry of this table has two free variables",
                _ => "",
            };
            Fault { right: format!("{}{more}", fault.right), ..fault }
        })?;
        match fields[1..] {
            [form] if *word == "S" => self.form(form),
            [event] if *word == "K" => self.kept(event),
            [table, ref others @ ..] if *word == "T" => self.bit(table, others),
            [event, from, to] if *word == "V" => self.event_edge(event, from, to),
            [n] => self.members(n),
            [relations, events] if *word == "L" => self.labels(relations, events),
            [event, entry] => self.policy(event, entry),
            [relation, from, to] => self.edge(relation, from, to),
            [index, word, a, b, c] => self.entry(index, word, &[a, b, c]),
            [index, word, a, b] if kind.bytes == b"F" => self.entry(index, word, &[a, b]),
            [event, action, relation, direction] => self.effect(event, action, relation, direction),
            _ => Ok(()),
        }
    }

    pub fn complete(&self) -> bool {
        self.terms.events > 0 && self.terms.policies.len() == self.terms.events
    }

    /// Why a line of this kind may not stand here, and what is due.
    fn out_of_order(&self, kind: &str) -> Option<(String, String)> {
        let (members, labels) = (self.terms.members > 0, self.terms.events > 0);
        let policies = self.terms.policies.len();
        let told = |what: &str, right: &str| Some((what.to_string(), right.to_string()));
        let order = match self.stored {
            false => "the kinds come in the order M, L, F, P, K, E, G",
            true => "the kinds come in the order S, M, L, F, P, K, E, G, T, V",
        };
        if let Some(told) = self.stored_out_of_order(kind, order) {
            return Some(told);
        }
        match kind {
            "S" => None,
            "M" if members => told("a second M line", order),
            "L" if labels => told("a second L line", order),
            "M" => None,
            _ if !members && self.stored => told(&format!("{kind} where M is due"), order),
            _ if !members => told(&format!("{kind} where M is due"), "the first line is M"),
            "L" => None,
            _ if !labels && self.stored => told(&format!("{kind} where L is due"), order),
            _ if !labels => told(&format!("{kind} where L is due"), "the second line is L"),
            "F" if policies > 0 => told("an F line after a P line", order),
            "P" if self.complete() => {
                let what = format!("a policy too many: {}", events(self.terms.events));
                told(&what, "each event has its policy above")
            }
            "K" | "E" | "G" | "T" | "V" if !self.complete() => {
                let what = format!("{kind} where the policy of event {policies} is due");
                told(&what, &each_needs_one(self.terms.events))
            }
            "E" if !self.terms.edges.is_empty() => told("an E line after a G line", order),
            "K" if !self.terms.edges.is_empty() => told("a K line after a G line", order),
            "K" if self.terms.effects.iter().any(|effects| !effects.is_empty()) => {
                told("a K line after an E line", order)
            }
            _ => None,
        }
    }

    /// What is missing at the end of the text.
    fn ends_too_soon(&self, empty: bool) -> Option<Fault> {
        if self.complete() {
            return None;
        }
        let policies = self.terms.policies.len();
        let (what, right) = if empty {
            ("the file is empty".into(), "the first line is M with the count of members".into())
        } else if self.terms.members == 0 {
            ("the file ends before M".into(), "M has the count of members".into())
        } else if self.terms.events == 0 {
            ("the file ends before L".into(), "L has the counts of relations and events".into())
        } else {
            let missing = match self.terms.events - 1 {
                last if last == policies => format!("the policy of event {last}"),
                last => format!("the policies of events {policies} to {last}"),
            };
            (format!("the file ends before {missing}"), each_needs_one(self.terms.events))
        };
        Some(Fault::new(FORM, 0..0, what).right(right))
    }
}

/// `there are 3 events, 0 to 2`.
fn events(count: usize) -> String {
    match count {
        1 => "there is 1 event, 0".to_string(),
        count => format!("there are {count} events, 0 to {}", count - 1),
    }
}

fn each_needs_one(count: usize) -> String {
    format!("{}; each event needs a P line", events(count))
}

fn no_kind(kind: Field) -> Fault {
    let shown = kind.shown();
    let kinds = KINDS.map(|(word, _)| word);
    let upper = shown.to_uppercase();
    let fault = |what: String| Fault::new(FORM, kind.place(), what);
    if kind.bytes.is_empty() {
        return fault("a tab before the kind".into()).right("a line begins with its kind");
    }
    if shown == "R" {
        return fault("a request among the terms".into()).right("R lines belong in requests.tsv");
    }
    if kinds.contains(&upper.as_str()) {
        return fault(format!("no kind `{shown}`")).right(format!("kinds are capitals: {upper}"));
    }
    let hint = did_you_mean(&shown, kinds);
    let kinds = "kinds are M, L, F, P, K, E and G, and in the stored form S, T and V";
    fault(format!("no kind `{shown}`{hint}")).right(kinds)
}
